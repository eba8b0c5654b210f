#!/usr/bin/env python3
"""The lessons of examples/, answered by the bench: every answer must be the stored one.

    python3 tests/lesson.py           the repository's crates/bench/out/bench
    python3 tests/lesson.py --bench 'python3 -m independent bench --answer'

examples/NAME.bench has the lines, examples/NAME.answers the answers, which `python3 -m independent
lesson` makes. For each there is a line `NAME: N answers as stored`, and the exit code is 0; at the
first difference it is 1.
"""

import argparse
import sys
from pathlib import Path

sys.path.insert(0, str(Path(__file__).resolve().parent.parent))

from bench_pipe import BENCH_HELP, ROOT, Bench, Differs, bench_words, in_words, readable

EXAMPLES = ROOT / "examples"
LESSONS = ("first-lesson", "label-lesson", "plug-lesson")


def compare(bench, lines, stored):
    """Sends the lines; how many were answered, each as stored."""
    due = iter(stored)
    for line in lines:
        answer = bench.answer_to(line)
        if answer is None:
            continue
        asked = next(due, b"nothing")
        if answer != asked:
            raise Differs(f"line {bench.lines}, {readable(line)}\n"
                          f"    answered: {readable(answer)}\n    stored:   {readable(asked)}")
    for asked in due:
        raise Differs(f"no line of the lesson has the answer that is stored: {readable(asked)}")
    return len(stored)


def play(name, words):
    """Starts a bench for a lesson and compares."""
    lines, stored = ((EXAMPLES / f"{name}.{kind}").read_bytes().removesuffix(b"\n").split(b"\n")
                     for kind in ("bench", "answers"))
    bench = Bench(words)
    try:
        print(f"{name}: {compare(bench, lines, stored)} answers as stored")
    finally:
        bench.close()


def main():
    """Plays every lesson; the exit code."""
    parser = argparse.ArgumentParser(description=__doc__,
                                     formatter_class=argparse.RawDescriptionHelpFormatter)
    parser.add_argument("--bench", metavar="COMMAND", help=BENCH_HELP)
    given = parser.parse_args()
    words = bench_words(given.bench)
    for name in LESSONS:
        play(name, words)
    return 0


if __name__ == "__main__":
    sys.exit(in_words(main))
