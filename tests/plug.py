#!/usr/bin/env python3
"""desk.py --store, with the plug pulled: no counter comes twice.

    python3 tests/plug.py                  the repository's crates/bench/out/bench, 40 random cuts
    python3 tests/plug.py --rounds 1000    the same with more of them: some minutes
    python3 tests/plug.py --bench 'python3 -m independent bench --answer'

A wrench seals readings, again and again, and desk.py is its host. The plug is pulled: desk.py and
the bench are ended at once (SIGKILL). The next run starts with what the store holds. Over all runs
the counters in the printed frames must rise. The cuts are

- at chosen moments: before and behind each request of a step, at each stage of the store's write,
  and between seals; each time the number in the store's file is compared;
- at random moments, with scripts that take a step every few seals, so that many fall into one.

Then hosts that are wrong must be found by the same cuts, and stores that can't be used must be
refused in words. A line for each group, and at last `no counter came twice`; the exit code is 0, 1
at the first difference, 2 where nothing could be run.

SIGKILL ends programs, not the machine: what was written and not yet flushed is not lost by it.
That a number is flushed before the board is told is seen only by where the cuts leave the file.
"""

import argparse
import itertools
import os
import random
import re
import resource
import shlex
import signal
import subprocess
import sys
import tempfile
import time
from collections import Counter
from contextlib import contextmanager
from functools import partial
from pathlib import Path

sys.path.insert(0, str(Path(__file__).resolve().parent.parent))

from bench_pipe import BENCH_HELP, PATIENCE, ROOT, Differs, bench_words, in_words
from capture_desk import Desk, done, says, sure
from first_capture import STORED
from plug_hosts import HOSTS
from store import TOP

TESTS = ROOT / "tests"
STEP = 1024
MOST_TRIES = 200  # random cuts until a wrong host must have been found
START = ("board\t0000000000000002", "network\t0\t0\tabcdef01234567890000000000000000", "switch\t0")
FRAME = re.compile(r"^    \d+  ok  0802000002001e..28(.{8})0200000000000000", re.M)
MOMENTS = (  # where the plug is pulled, steps that the store then has taken, frames printed
    ("before the first request", ("mark", 1, "heard"), 0, 0),
    ("the first request answered, and not heard", ("mark", 1, "answered"), 0, 0),
    ("before the write", "new", 0, 0),
    ("half a number written beside the store", "half", 0, 0),
    ("the number written and not flushed", "flush", 0, 0),
    ("before the new file is renamed", "rename", 0, 0),
    ("before the folder is flushed", "folder", 1, 0),
    ("before the second request", ("marked", 1, "heard"), 1, 0),
    ("the second request answered, and not heard", ("marked", 1, "answered"), 1, 0),
    ("before the first frame is sealed", ("seal", 2, "heard"), 1, 0),
    ("the first frame sealed, and not heard", ("seal", 2, "answered"), 1, 0),
    ("behind three frames", ("seal", 5, "heard"), 1, 3),
    ("behind 1,024 frames", ("mark", 2, "heard"), 1, STEP),
    ("in the second step, before the write", ("mark", 2, "answered"), 1, STEP),
    ("in the second step, behind the write", ("marked", 2, "heard"), 2, STEP),
    ("behind the second step", ("marked", 2, "answered"), 2, STEP),
    ("behind a frame of the second step", ("seal", STEP + 4, "heard"), 2, STEP + 1))
IN_STEP, OUTSIDE = ("the first request", "the write", "the second request"), "outside"


class Twice(Differs):
    """A counter came twice."""


# ---- the wrench --------------------------------------------------------------------------------

class Wrench:
    """A store in a folder of its own, and the counters that were seen over all runs on it."""

    def __init__(self, folder, words, host="right"):
        self.folder, self.words, self.host = Path(folder), words, host
        self.store, self.printed = self.folder / "mark", self.folder / "printed"
        self.process, self.last, self.frames = None, -1, 0

    def number(self):
        """What the store holds; the file is whole, or not there yet."""
        if not self.store.exists():
            return 0
        text = self.store.read_text()
        sure(re.fullmatch(r"(0|[1-9]\d*)\n", text), "the store's file", repr(text))
        return int(text)

    def start(self, lines, relay=None, place="-"):
        """Starts desk.py on a script, in a process group of its own."""
        script = self.folder / "script"
        script.write_text("\n".join(lines) + "\n")
        bench = self.words if relay is None else \
            [sys.executable, str(TESTS / "plug_relay.py"), *map(str, relay), *self.words]
        desk = [str(ROOT / "desk.py")] if (self.host, place) == ("right", "-") else \
            [str(TESTS / "plug_hosts.py"), self.host, place]
        with open(self.printed, "wb") as out:
            self.process = subprocess.Popen(
                [sys.executable, *desk, "--store", str(self.store), str(script), "--bench",
                 shlex.join(bench)], stdout=out, stderr=subprocess.STDOUT, cwd=ROOT,
                start_new_session=True)

    def text(self):
        """What was printed; a line that a cut left unfinished doesn't count."""
        return self.printed.read_text().rpartition("\n")[0] + "\n"

    def wait_for(self, words):
        """Waits until something is printed."""
        end = time.monotonic() + PATIENCE
        while words not in self.text():
            sure(self.process.poll() is None and time.monotonic() < end, f"{words!r} is not printed"
                 f" by desk.py, which ended with {self.process.poll()}", self.text())
            time.sleep(0.0002)

    def pull(self):
        """Pulls the plug."""
        if self.process.poll() is None:
            os.killpg(self.process.pid, signal.SIGKILL)
        self.end()

    def end(self):
        """Waits for the end; the exit code."""
        try:
            return self.process.wait(PATIENCE)
        except subprocess.TimeoutExpired:
            raise Differs(f"desk.py doesn't end: {self.text()[-2000:]}") from None

    def counters(self):
        """The counters of the frames that were printed, which must rise over all runs."""
        found = [int.from_bytes(bytes.fromhex(field), "little")
                 for field in FRAME.findall(self.text())]
        for counter in found:
            if counter <= self.last:
                raise Twice(f"a frame has counter {counter}, though {self.last} was used before")
            self.last = counter
        self.frames += len(found)
        return found


@contextmanager
def new_wrench(words, host="right"):
    """A wrench with a new store, in a folder for the time."""
    with tempfile.TemporaryDirectory() as folder:
        wrench = Wrench(folder, words, host)
        try:
            yield wrench
        finally:
            if wrench.process is not None:
                wrench.pull()


def readings(count):
    """Lines that seal readings."""
    return [f"seal\t0800000002001e{turn & 255:02x}019a" for turn in range(count)]


def checked(wrench, before):
    """The counters of a run: it started at what the store held, and kept below what it holds."""
    found = wrench.counters()
    sure(not found or found[0] == before, "the first counter of a run", before, found[:1])
    sure(not found or found[-1] < wrench.number(), "a counter above the store", found[-1:])
    return found


# ---- chosen moments ----------------------------------------------------------------------------

def cut_at(wrench, where):
    """A run that is cut at a chosen moment, by the relay or in the store's write; its end."""
    chosen = {"place": where} if isinstance(where, str) else {"relay": where}
    wrench.start([*START, *readings(STEP + 9)], **chosen)
    return wrench.end()


def chosen_moments(wrench):
    """Every moment, one after another on one store; each time the store's number is compared."""
    for what, where, steps, frames in MOMENTS:
        before = wrench.number()
        sure(cut_at(wrench, where) == -signal.SIGKILL, f"{what}: not cut", wrench.text()[-2000:])
        found, now = checked(wrench, before), wrench.number()
        sure(now == before + steps * STEP, f"{what}: the store", before, now)
        sure(len(found) == frames, f"{what}: frames", len(found))
        sure("marked" not in wrench.text() or not isinstance(where, str), f"{what}: told")
    before = wrench.number()
    wrench.start([*START, *readings(3)])
    sure(wrench.end() == 0, "a run to its end", wrench.text())
    sure(checked(wrench, before) == [before, before + 1, before + 2], "its counters", wrench.last)
    print(f"chosen moments: {len(MOMENTS)} cuts, {wrench.frames} frames, the store as asked each "
          "time", flush=True)


# ---- random moments ----------------------------------------------------------------------------

def script(number, every):
    """Readings without end; a step before every so many of them, or only where one is needed."""
    lines = [*START]
    if not every:
        return lines + readings(4 * STEP)
    for turn in range(1, 1000):
        lines += ["mark", f"marked\t{number + turn * STEP}", *readings(every)]
    return lines


def fell(text):
    """Where a cut fell: into which part of a step, or outside of one."""
    _, *steps = re.split(r"^(?:host: )?mark\n", text, flags=re.M)
    if not steps:
        return OUTSIDE
    asked, written, told = re.fullmatch(
        r"(    \d+  ok  \d+\n)?(?:marked.*\n)?(host: the store .*\n)?(?:host: marked.*\n)?"
        r"(    \d+  ok\n)?(?:.*\n)*", steps[-1]).groups()
    return IN_STEP[0] if not asked else IN_STEP[1] if not written else \
        IN_STEP[2] if not told else OUTSIDE


def random_round(wrench):
    """A run that is cut at a random moment; the number at which it started."""
    before = wrench.number()
    slow = random.choice((None, None, ("mark", 0, "slowly"), ("marked", 0, "slowly")))
    wrench.start(script(before, random.choice((0, 1, 5, 40))), slow)
    wrench.wait_for(random.choice(("  ok", "mark\n", "the store holds", "  ok  0802")))
    time.sleep(random.uniform(0, random.choice((0.0005, 0.002, 0.01, 0.05, 0.2))))
    wrench.pull()
    return before


def random_moments(wrench, rounds):
    """Rounds on one store."""
    places = Counter()
    for _ in range(rounds):
        checked(wrench, random_round(wrench))
        places[fell(wrench.text())] += 1
    shown = ", ".join(f"{places[place]} at {place}" for place in IN_STEP)
    print(f"random moments: {rounds} cuts, of which {rounds - places[OUTSIDE]} fell into a step "
          f"({shown}); {wrench.frames} frames, counters up to {wrench.last}", flush=True)


# ---- wrong hosts -------------------------------------------------------------------------------

def found_after(wrench, runs):
    """In which of these runs of a wrong host a counter came twice, or None."""
    for turn, run in enumerate(runs, 1):
        run()
        try:
            wrench.counters()
        except Twice:
            return turn
    return None


def wrong_hosts(words):
    """The same cuts must find a host that tells before it writes, writes an old number, or writes
    nothing. Random ones may miss the first, whose fault lasts for a moment."""
    for host in HOSTS:
        with new_wrench(words, host) as wrench:
            chosen = found_after(wrench, [partial(cut_at, wrench, where)
                                          for _, where, *_ in MOMENTS])
        with new_wrench(words, host) as wrench:
            at_random = found_after(wrench, [partial(random_round, wrench)] * MOST_TRIES)
        sure(chosen and (at_random or host == "tells-first"), "not found", host)
        print(f"a host that {host.replace('-', ' ')}: found by chosen cut {chosen}, by random cut "
              f"{at_random or f'none of {MOST_TRIES}'}", flush=True)


# ---- words -------------------------------------------------------------------------------------

SCRIPT = "\n".join(START) + "\nseal\t0800000002001e01019a\n"
NO_STORES = (b"", b"12", b"012\n", b"-1\n", b"+1\n", b"4294967296\n", b"1 2\n", b"1024\r\n",
             b"1\n2\n", b"1\n\n", b" 1\n", b"\xff\n", "\u0661\n".encode(), b"1" * 5000)


def no_stores(desk):
    """Stores that can't be used are refused in words before a line is sent, and left alone."""
    for octets in NO_STORES:
        path = desk.file("bad", octets)
        out, beside = desk.run("--store", path, code=2, input=SCRIPT)
        says(beside, "must hold one number")
        sure(not out and path.read_bytes() == octets, "printed or changed", out)
    for name, words in (("no/mark", "No such file"), (".", "is no file"), ("", "is no file"),
                        ("bad/mark", "Not a directory"), (os.devnull, "is no file")):
        out, beside = desk.run("--store", name, code=2, input=SCRIPT)
        says(beside, words)
        sure(not out, "printed", out)
    says(desk.run(STORED, "--store", "mark", code=2)[1], "and no capture")
    done("stores that are none")


def faults(desk, words):
    """A store that can't be written: in words, and the board is not told."""
    def full():
        resource.setrlimit(resource.RLIMIT_FSIZE, (0, 0))
    for name, before, fault in (("full", full, "File too large"), ("taken", None, "directory")):
        path = desk.folder / name
        (desk.folder / "taken.new").mkdir(exist_ok=True)
        out, beside = desk.run("--store", path, code=2, input=SCRIPT, preexec_fn=before)
        says(beside, "can't take 1024, and the board is not told", fault)
        says(out, "host: mark")
        sure("marked" not in out and not path.exists(), "told or written", out)
    with new_wrench(words) as wrench:
        wrench.start([*START, *readings(1)], place="broken")
        sure(wrench.end() == 2 and wrench.number() == 0, "a broken disk", wrench.text())
        says(wrench.text(), "can't take 1024, and the board is not told: Input/output error")
        sure("marked" not in wrench.text(), "told", wrench.text())
    done("stores that can't be written")


def host_lines(desk):
    """What the host makes of a script's lines."""
    path = desk.file("mark", b"2048\n")
    (desk.folder / "link").symlink_to(path)
    lines = ["board\t0000000000000002\t5", *START, "marked\t3072", *readings(1), "marked\t3072",
             "mark", "marked\t3072", "marked\tx", "marked\t4096", "marked\t5120", "board",
             START[0], "state"]
    out, _ = desk.run("--store", "link", input="\n".join(lines))
    answers = [line for line in out.splitlines() if line.startswith("    ")]
    holds = "not sent: the store holds {}, and takes only the next mark that was last answered"
    asked = ["not sent: the store says where the board starts, at 2048", "1  ok", "2  ok", "3  ok",
             holds.format(2048), "4  refused  17  mark", "5  ok  3072", "6  ok",
             "7  ok  0802000002001e00280008000002", "8  refused  14  argument", "9  ok  4096",
             "10  refused  14  argument", holds.format(3072), "11  ok", holds.format(4096),
             "12  bad", "13  ok", "14  ok  4096  0  -  4096"]
    for found, words in itertools.zip_longest(answers, asked, fillvalue="nothing"):
        sure(found.strip().startswith(words), "answered", found, "and not", words)
    sure((desk.folder / "link").is_symlink() and path.read_bytes() == b"4096\n", "the file")
    for number, answer in ((TOP - 1, "28feffffff"), (TOP, "4  refused  7  top")):
        out, _ = desk.run("--store", desk.file("top", b"%d\n" % number), input=SCRIPT)
        says(out, answer)
    says(desk.run("--store", "top", input=SCRIPT + "mark\nmarked\t4294967295\nstate")[0],
         "7  ok  4294967295  0  0  4294967295")
    done("a script's lines")


BROKEN = """import sys
for turn, line in enumerate(sys.stdin, 1):
    answers = {"mark": "ok\\t" + sys.argv[1], "seal": "refused\\t17\\tmark"}
    print(turn, answers.get(line.split()[0], "ok"), sep="\\t", flush=True)
"""


def broken_boards(desk):
    """A board that is never content, one that names no further mark, and one that names none: no
    endless steps, and the store keeps what it may."""
    for answer, said, number in (("1024", "host: the store holds 1024", "1024\n"),
                                 ("1000", "host: no step; the store holds 1000", "1000\n"),
                                 ("x", "host: mark", "1000\n")):
        path = desk.file("broken", b"1000\n")
        bench = ["--bench", shlex.join([sys.executable, "-c", BROKEN, answer])]
        out, _ = desk.run("--store", path, chosen=bench, code=2 * (answer == "x"), input=SCRIPT)
        says(out, said)
        sure(out.count("host: mark\n") == 1 and path.read_text() == number, "steps", out)
    done("boards that are broken")


def waiting(desk, path):
    """A desk.py that has the store, made its board, and waits for a line."""
    process = subprocess.Popen(
        [sys.executable, str(ROOT / "desk.py"), "--store", str(path), *desk.chosen], text=True,
        stdin=subprocess.PIPE, stdout=subprocess.PIPE, stderr=subprocess.STDOUT, cwd=ROOT,
        start_new_session=True)
    process.stdin.write("\n".join(START) + "\n")
    process.stdin.flush()
    for line in process.stdout:
        if line == "    3  ok\n":
            return process
    raise Differs("desk.py makes no board")


def two_desks(desk):
    """A store that another desk.py has; one that was ended by force has it no longer. And a store
    that was changed by another hand, which is not written over."""
    path = desk.folder / "shared"
    with waiting(desk, path) as other:
        says(desk.run("--store", path, code=2, input=SCRIPT)[1], "is in use by another desk.py")
        os.killpg(other.pid, signal.SIGKILL)
    desk.run("--store", path, input=SCRIPT)
    with waiting(desk, path) as other:
        path.write_text("7000\n")
        says(other.communicate(readings(1)[0] + "\n")[0], "host: mark", "changed by another hand")
    sure(other.returncode == 2 and path.read_text() == "7000\n", "went on", other.returncode)
    done("two desks, another hand")


# ---- the whole ---------------------------------------------------------------------------------

def main():
    """Runs every group; the exit code."""
    parser = argparse.ArgumentParser(description=__doc__,
                                     formatter_class=argparse.RawDescriptionHelpFormatter)
    parser.add_argument("--bench", metavar="COMMAND", help=BENCH_HELP)
    parser.add_argument("--rounds", metavar="N", type=int, default=40, help="random cuts (40)")
    given = parser.parse_args()
    words = bench_words(given.bench)
    with tempfile.TemporaryDirectory() as folder:
        desk = Desk(folder, given.bench)
        no_stores(desk)
        faults(desk, words)
        host_lines(desk)
        broken_boards(desk)
        two_desks(desk)
    with new_wrench(words) as wrench:
        chosen_moments(wrench)
    with new_wrench(words) as wrench:
        random_moments(wrench, given.rounds)
    wrong_hosts(words)
    print("no counter came twice")
    return 0


if __name__ == "__main__":
    sys.exit(in_words(main))
