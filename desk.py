"""Opens a sniffer's capture with the keys on the label, or runs the bench on a script.

    python3 desk.py examples/first-capture.pcapng \\
        --label "83 FE D3 40 7A 93 97 23 A5 C6 39 B2 69 16 D5 05 C3 B5"
    python3 desk.py examples/first-lesson.bench
    python3 desk.py                              # lines from the keyboard or a pipe
    python3 desk.py --store mark.txt             # the same, and the mark outlives the plug

A capture (pcap or pcapng, gzip or not) gives a log with one line for each frame, docs/CAPTURE.md; a
script is shown line by line with the answers, docs/BENCH.md. Where the bench is not built yet, it
is proved and built first (`rt run` in crates/bench, some minutes).
"""

import argparse
import os
import shutil
import subprocess
import sys
from contextlib import closing, nullcontext
from functools import partial

from bench_pipe import (BENCH_HELP, PROGRAM, ROOT, Bench, Differs, bench_words, give_up, in_words,
                        readable)
from capture import files, keys, show
from store import Host, NoStore, Store

MODEL = [sys.executable, str(ROOT / "independent"), "bench", "--answer"]
NO_KIT = ("rt is not found: put the Rattle kit on the path, or add --model, which runs the "
          "reference in plain Python; its verdicts are not the proved ones.")
CAPTURE_NAMES = (".pcap", ".pcapng", ".cap", ".gz")
READER_GONE = 141  # the exit code where whoever read what is printed has gone
WITH_STORE = "# The host's lines are sent too: an answer's number counts the lines that were sent."


# ---- the bench ---------------------------------------------------------------------------------

def build():
    """Proves and builds the program where it is missing, or gives up."""
    if PROGRAM.is_file():
        return
    if shutil.which("rt") is None:
        give_up(NO_KIT)
    show.message("The bench is proved and built first; this takes some minutes.")
    built = subprocess.run(["rt", "run"], cwd=PROGRAM.parent.parent, check=False,
                           stdin=subprocess.DEVNULL, stdout=sys.stderr)
    if built.returncode != 0:
        give_up("The bench could not be proved and built; --model does without it.")
    if not PROGRAM.is_file():
        give_up("crates/bench/out/bench was removed: remove crates/bench/out and run this again.")


def words_of(given):
    """The words that start a bench, and whose its answers are."""
    if given.model:
        return MODEL, show.REFERENCE
    if given.bench is not None:
        return bench_words(given.bench), show.OTHERS
    build()
    return bench_words(None), show.PROVED


# ---- a script ----------------------------------------------------------------------------------

def send(bench, line):
    """Sends a line and prints its answer; comments and empty lines have none."""
    answer = bench.answer_to(line)
    if answer is not None:
        print("    " + readable(answer), flush=True)
    return answer


def play(lines, take, echo):
    """Hands on each line as it comes."""
    for line in lines:
        line = line.removesuffix(b"\n")
        if echo:
            print(readable(line))
        take(line)


def run_script(given):
    """Plays a script; the exit code. A store that can't be used is said before a bench is built."""
    source = sys.stdin.buffer if given.file is None else open(given.file, "rb")
    held = nullcontext() if given.store is None else closing(Store(given.store))
    with source, held as store:
        words, whose = words_of(given)
        if given.model:
            print(f"# {whose}", flush=True)
        with closing(Bench(words)) as bench:
            take = partial(send, bench)
            if store is not None:
                print(WITH_STORE, flush=True)
                take = Host(store, take).take
            play(source, take, given.file is not None or not sys.stdin.isatty())
    return 0


# ---- a capture ---------------------------------------------------------------------------------

def run_capture(given):
    """Shows a capture; the exit code. What is no capture is said before anything is built."""
    with closing(files.Capture(given.file)) as capture:
        if given.frames:
            return show.frames(capture, given.chip_checksum)
        show.outputs_apart(given)
        words, whose = words_of(given)
        with closing(Bench(words)) as bench:
            labels = [keys.label_key(bench, text) for text in given.label]
        return show.show(given, capture, lambda: Bench(words), labels, whose)


def asks_for_capture(given):
    """Whether a capture is meant: by what is asked for, the file's name, or its first octets."""
    if (given.label or given.network_key or given.link_key or given.tsv or given.frames
            or given.report or given.annotate or given.chip_checksum):
        return True
    return given.file is not None and (given.file.endswith(CAPTURE_NAMES)
                                       or files.looks_like_one(given.file))


# ---- the whole ---------------------------------------------------------------------------------

def arguments():
    """What was asked for."""
    parser = argparse.ArgumentParser(description=__doc__.split("\n", maxsplit=1)[0])
    add = parser.add_argument
    add("file", nargs="?", help="a capture, or a file of lines (without it: standard input)")
    add("--label", metavar="TEXT", action="append", default=[],
        help="the code on a device's label, with its CRC; may be given again")
    add("--network-key", metavar="NUMBER:HEX", type=keys.network_key, action="append", default=[],
        help="a network key that is known, behind its sequence number; may be given again")
    add("--link-key", metavar="ADDRESS:HEX", type=keys.link_key, action="append", default=[],
        help="a device's link key that is known, behind its address; may be given again")
    add("--tsv", action="store_true", help="seven fields a frame, parted by tabs, and nothing else")
    add("--report", metavar="FILE.html", help="also write a page: counters over time, and the log")
    add("--annotate", metavar="FILE.pcapng",
        help="also write the capture again with the verdicts as comments, for Wireshark")
    add("--frames", action="store_true", help="print only the network frames, as frame<TAB>hex")
    add("--chip-checksum", action="store_true", help="the sniffer's chip wrote signal strength and"
        " its own verdict over the checksums (as TI's CC24xx do)")
    add("--store", metavar="FILE", help="be the host of a script's board: keep its mark there, so"
        " that no counter comes twice, whenever the plug is pulled")
    source = parser.add_mutually_exclusive_group()
    source.add_argument("--model", action="store_true",
                        help="ask the reference in plain Python: no kit, and nothing proved")
    source.add_argument("--bench", metavar="COMMAND", help=BENCH_HELP)
    given = parser.parse_args()
    if given.file is None and asks_for_capture(given):
        parser.error("which capture? Name its file")
    if given.store is not None and asks_for_capture(given):
        parser.error("--store is for a board that seals: a script or the keyboard, and no capture")
    return given


def main():
    """Shows a capture or plays a script; the exit code."""
    sys.stdout = sys.stdout or open(os.devnull, "w", encoding="ascii")  # it was closed
    given = arguments()
    try:
        return run_capture(given) if asks_for_capture(given) else run_script(given)
    except (files.NoCapture, keys.NoLabel, NoStore, Differs) as fault:
        give_up(str(fault))
    except BrokenPipeError:
        os.dup2(os.open(os.devnull, os.O_WRONLY), sys.stdout.fileno())
        return READER_GONE


if __name__ == "__main__":
    sys.exit(in_words(main))
