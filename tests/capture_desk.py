#!/usr/bin/env python3
"""desk.py run on captures, good and bad, as a pupil runs it.

    python3 tests/capture_desk.py           the repository's crates/bench/out/bench
    python3 tests/capture_desk.py --bench 'python3 -m independent bench --answer'
    python3 tests/capture_desk.py --speed   the same, and how long 10,000 frames take

The shipped capture in every kind of file, with the lines that are asked of it; the reference's
verdicts beside the bench's; files that are cut at every octet; files that are none; labels that are
none; captures without a key and without Zigbee; a machine without the kit; a reader that goes away.
A line for each group, and at last `desk.py answers as asked`; the exit code is 0, 1 at the first
difference, 2 where nothing could be run.
"""

import argparse
import gzip
import os
import shutil
import subprocess
import sys
import tempfile
import time
from pathlib import Path

sys.path.insert(0, str(Path(__file__).resolve().parent.parent))

import air
import sealing
from bench_pipe import BENCH_HELP, ROOT, Differs, bench_words, in_words, least
from capture import files
from first_capture import DISPLAYS_KEY, LABEL, PAN, STORED
from independent.model import labels

NETWORK_KEY = "abcdef01234567890000000000000000"
OF_THE_CAPTURE = ("--label", LABEL)
LABEL_KEY = labels.link_key(bytes.fromhex(LABEL[:-6])).hex()
SPEED_ASKED = 5  # seconds for 10,000 frames
# What a machine without the kit has.
TOOLS = ("desk.py", "bench_pipe.py", "store.py", "capture", "independent")


class Desk:
    """Runs desk.py in a folder of its own."""

    def __init__(self, folder, bench):
        self.folder = Path(folder)
        self.chosen = [] if bench is None else ["--bench", bench]

    def run(self, *words, code=0, chosen=None, **more):
        """What desk.py prints and what it says beside that; its exit code must be this."""
        command = [sys.executable, str(ROOT / "desk.py"), *map(str, words),
                   *(self.chosen if chosen is None else chosen)]
        found_from_here = {**os.environ, "PYTHONPATH": str(ROOT)}  # for --bench 'python3 -m ...'
        ran = subprocess.run(command, capture_output=True, text=True, check=False, cwd=self.folder,
                             timeout=300, **{"env": found_from_here, **more})
        if "Traceback" in ran.stderr or ran.returncode != code:
            raise Differs(f"{words} ended with {ran.returncode} and not {code}:\n{ran.stderr}")
        return ran.stdout, ran.stderr

    def file(self, name, octets):
        """A file in the folder."""
        path = self.folder / name
        path.write_bytes(octets)
        return path


def sure(holds, what, *found):
    """Stops where something that must hold doesn't."""
    if not holds:
        raise Differs(f"{what}: {' '.join(map(str, found))[:2000]}")


def says(text, *parts):
    """All the parts stand in a text."""
    for part in parts:
        sure(part in text, f"not said: {part}", text)


def done(name):
    """The line of a group."""
    print(f"{name}: as asked", flush=True)


def stored_frames():
    """The frames of the shipped capture: nanoseconds and octets."""
    capture = files.Capture(STORED)
    found = [(packet.time, packet.octets) for packet in capture.packets()]
    capture.close()
    return found


# ---- the shipped capture -----------------------------------------------------------------------

def rows(text):
    """The lines of --tsv, each of seven fields, numbered from 1."""
    found = [line.split("\t") for line in text.splitlines()]
    sure(all(len(row) == 7 and row[0] == str(number) for number, row in enumerate(found, 1)),
         "lines of another form", text)
    return found


def shipped(desk):
    """The verdicts of the shipped capture: what happened in it is in the lines."""
    text, beside = desk.run(STORED, *OF_THE_CAPTURE, "--tsv")
    found = rows(text)
    sure(len(found) == len(stored_frames()), "lines", len(found))
    keys = [row for row in found if row[6].startswith("transport1")]
    sure([row[2:6] for row in keys] == [["unsecured", "-", "-", "opened"]], "Transport-Key", keys)
    sure(keys[0][6] == f"transport1 {NETWORK_KEY} 0 0000000000000001 aaaaaaaaaaaaaaaa", keys)
    new = [row for row in found if row[6].startswith("transport4")]
    sure([row[6].split(" ")[1] for row in new] == [DISPLAYS_KEY.hex()], "the link key", new)
    refused = [row[2] for row in found if row[2][:1].isdigit()]
    sure(sorted(refused) == ["6 nokey"] * 5 + ["8 stale altered", "8 stale genuine", "9 forged"],
         "refusals", refused)
    sure(all(row[5] in ("opened", "unsecured", "-") for row in found), "APS verdicts")
    says(beside, "verdicts")
    log, beside = desk.run(STORED, *OF_THE_CAPTURE)
    says(log, "heard again, 3603.193808 s later", "1 forged", "5 no key yet",
         "PAN 0x1aaa, network key 0: 0000000000000002 heard up to counter 70")
    sure("\x1b" not in log, "colours, though no terminal reads")
    done("the shipped capture")
    return text


def as_model(desk, text):
    """The reference says the same, and the log says that it is the reference's."""
    model, _ = desk.run(STORED, *OF_THE_CAPTURE, "--tsv", "--model", chosen=[])
    sure(model == text, "the reference says something else")
    log, _ = desk.run(STORED, *OF_THE_CAPTURE, "--model", chosen=[])
    says(log.split("\n")[0], "the reference's and not the proved ones")
    script, _ = desk.run(ROOT / "examples" / "first-lesson.bench", "--model", chosen=[])
    says(script.split("\n")[0], "the reference's and not the proved ones")
    says(script, "refused  8  stale  genuine")
    done("the reference")


def other_keys(desk, text):
    """Known keys in the place of the label."""
    keys = ("--network-key", f"0:{NETWORK_KEY}")
    found = rows(desk.run(STORED, "--tsv", *keys)[0])
    for row, asked in zip(found, rows(text)):
        sure(row[:5] == asked[:5] or row[2] == "9 forged", "with the network key", row, asked)
    sure([row[2] for row in found].count("9 forged") == 6, "frames that the key doesn't fit")
    says(desk.run(STORED, *keys)[0], "1 forged", "16 no key yet", "or another network's")
    links = [word for owner in ("aaaaaaaaaaaaaaaa", "00:00:00:00:00:00:00:01")
             for word in ("--link-key", f"{owner}:{LABEL_KEY}")]
    found = desk.run(STORED, "--tsv", *keys, *links)[0]
    sure([row[5:] for row in rows(found)] == [row[5:] for row in rows(text)], "with all keys given")
    says(desk.run(STORED, "--network-key", "0:" + "11" * 16)[1], "key that was given fits")
    done("known keys")


def kinds(desk, text):
    """The same frames in every kind of file have the same lines."""
    frames = stored_frames()
    bare = [(moment, octets[:-2]) for moment, octets in frames]
    tap = [(moment, b"\0\0\x0c\0\0\0\1\0\1\0\0\0" + octets) for moment, octets in frames]
    made = {"a.pcap": air.pcap(frames), "b.pcap": air.pcap(frames, order=">", nanoseconds=True),
            "c.pcap": air.pcap(bare, 230), "d.pcapng": air.pcapng(frames, order=">"),
            "e.pcapng": air.pcapng(tap, 283), "f.pcap.gz": gzip.compress(air.pcap(frames)),
            "g": air.pcapng(frames)}
    for name, octets in made.items():
        sure(desk.run(desk.file(name, octets), *OF_THE_CAPTURE, "--tsv")[0] == text, name)
    with_verdict = [(moment, octets + b"\xc4\xeb") for moment, octets in bare]
    by_chip = desk.file("w.pcap", air.pcap(with_verdict))
    says(desk.run(by_chip, *OF_THE_CAPTURE)[1], "--chip-checksum")
    sure(desk.run(by_chip, *OF_THE_CAPTURE, "--tsv", "--chip-checksum")[0] == text, "by chip")
    done("kinds of files")


def written_again(desk):
    """--annotate keeps every octet and time; --frames prints the network frames."""
    for name, octets in (("h.pcap", air.pcap(stored_frames(), order=">")),
                         ("i.pcapng", STORED.read_bytes())):
        desk.run(desk.file(name, octets), *OF_THE_CAPTURE, "--annotate", "out.pcapng")
        capture = files.Capture(desk.folder / "out.pcapng")
        packets = list(capture.packets())
        capture.close()
        sure([(one.time, one.octets) for one in packets] == stored_frames(), "the frames of", name)
        comments = [dict(files.options("<", one.block.body[20 + len(one.octets)
                                                           + -len(one.octets) % 4:]))[1].decode()
                    for one in packets]
        sure(sum(words.startswith("8 stale and genuine: frame 112") for words in comments) == 1,
             "comments of", name)
    lines = desk.run(STORED, "--frames", chosen=[])[0].splitlines()
    sure(all(line.startswith("frame\t") for line in lines) and len(lines) == 94, "frames",
         len(lines))
    done("written again")


# ---- what is wrong -----------------------------------------------------------------------------

def cut_files(desk, text):
    """A file that ends in its middle is read up to there, and the exit code is 1."""
    whole, lines = STORED.read_bytes(), text.splitlines(keepends=True)
    packed = gzip.compress(whole)
    for name, octets, code in (("j.pcapng", whole[:5000], 1), ("k.pcapng.gz", packed[:2500], 1),
                               ("l.pcapng", whole[:50], 2), ("m.pcapng", whole[:-1], 1),
                               ("n.pcap", air.pcap(stored_frames())[:5000], 1)):
        found, beside = desk.run(desk.file(name, octets), *OF_THE_CAPTURE, "--tsv", code=code)
        sure("".join(lines).startswith(found) and (found or code == 2), "lines of", name)
        says(beside, "in the middle" if code == 1 else "No frame could be read")
    done("files that break off")


def no_captures(desk):
    """Files that are none, and captures in which nothing is found."""
    for name, octets, words in (("o.txt", b"hello\n", "no pcap or pcapng file"),
                                ("p.pcap", b"", "is empty"), ("r.pcapng", b"\x0a\x0d", "no pcap"),
                                ("q.gz", gzip.compress(b"x"), "no pcap")):
        found, beside = desk.run(desk.file(name, octets), *OF_THE_CAPTURE, code=2)
        says(beside, words)
        sure(not found, "printed", found)
    says(desk.run("missing.pcapng", code=2)[1], "missing.pcapng", "No such file")
    says(desk.run(".", *OF_THE_CAPTURE, code=2)[1], "directory")
    says(desk.run("--tsv", code=2)[1], "which capture")
    says(desk.run(desk.file("s.pcap", air.pcap([])))[1], "has no frame")
    says(desk.run(desk.file("t.pcap", air.pcap([(0, bytes(60))], 105)))[1], "No Zigbee")
    says(desk.run(desk.file("u.pcap", air.pcap([(0, bytes(range(60)))])))[1], "checksums are wrong")
    says(desk.run(STORED)[1], "--network-key NUMBER:HEX", "let the device join")
    says(desk.run(STORED, "--annotate", STORED, code=2)[1], "written over")
    done("files that are none")


def no_labels(desk):
    """Labels that are none are refused, with number and place, before a line is printed."""
    for text, words in ((LABEL[:-1] + "6", ("16 crc", "C3 B6")),
                        (LABEL[:-6], ("15 label", "16 octets")),
                        (LABEL.replace("40", "4O"), ("15 label", "character 11, 'O'")),
                        (LABEL + " ", ("15 label", "character 54")), ("", ("15 label", "empty")),
                        (" " + LABEL, ("15 label", "character 1, ' '")),
                        (LABEL.replace(" ", "  ", 1), ("15 label", "character 4")),
                        ("8 3" + LABEL[2:], ("15 label", "character 2")),
                        (LABEL[:-1], ("15 label", "lacks a digit")),
                        (LABEL.replace(" ", "\t", 1), ("15 label", "character 3")),
                        (LABEL.replace(" ", "\u2013", 1), ("15 label", "character 3")),
                        (LABEL * 9, ("15 label",)), ("\udc80", ("15 label", "character 1"))):
        found, beside = desk.run(STORED, "--label", LABEL, "--label", text, code=2)
        says(beside, *words)
        sure(not found, "printed", found)
    for option, text in (("--network-key", "256:" + "00" * 16), ("--network-key", "0:00"),
                         ("--network-key", "00" * 16), ("--link-key", "00" * 16),
                         ("--link-key", "0" * 16 + ":" + "00" * 16), ("--link-key", "x")):
        says(desk.run(STORED, option, text, code=2)[1], option, text)
    done("labels and keys that are none")


def without_kit(desk):
    """Without the kit the message names --model, and that way works."""
    for name in TOOLS:
        source = ROOT / name
        copy = shutil.copytree if source.is_dir() else shutil.copy
        copy(source, desk.folder / name)
    capture = ["desk.py", STORED, *OF_THE_CAPTURE, "--tsv"]
    outcomes = []
    for more in ([], ["--model"]):
        ran = subprocess.run([sys.executable, *map(str, capture), *more], capture_output=True,
                             text=True, check=False, cwd=desk.folder, env={"PATH": ""})
        outcomes.append((ran.returncode, "Traceback" in ran.stderr, "--model" in ran.stderr))
    sure(outcomes == [(2, False, True), (0, False, False)], "without the kit", outcomes)
    done("without the kit")


def reader_goes(desk):
    """A reader of the output that goes away is no fault."""
    for words in ([STORED, *OF_THE_CAPTURE], [STORED, "--frames"],
                  [ROOT / "examples" / "first-lesson.bench"]):
        chosen = [] if "--frames" in words else desk.chosen
        with subprocess.Popen([sys.executable, str(ROOT / "desk.py"), *map(str, words), *chosen],
                              stdout=subprocess.PIPE, stderr=subprocess.PIPE) as running:
            running.stdout.read(1)
            running.stdout.close()
            beside = running.stderr.read().decode()
        sure("Traceback" not in beside and "Exception" not in beside, "said", beside)
    done("a reader that goes away")


# ---- speed -------------------------------------------------------------------------------------

def speed(desk):
    """10,000 frames; the seconds that they take."""
    key, frames = bytes.fromhex(NETWORK_KEY), []
    for n in range(10_000):
        plain = (b"\x08\x00" + least(0x0BEE, 2) + least(0x7A11, 2) + bytes([30, n & 255])
                 + bytes.fromhex("0001050401010109") + least(n, 4))
        sealed = sealing.network(key, 0, "0000000000000002", n, plain)
        frames.append((n * 10**8, air.with_checksum(air.data(n, PAN, 0x0BEE, 0x7A11, sealed))))
    path = desk.file("v.pcap", air.pcap(frames))
    start = time.monotonic()
    text, _ = desk.run(path, "--network-key", f"0:{NETWORK_KEY}")
    took = time.monotonic() - start
    says(text, "10000 opened")
    print(f"10,000 frames: {took:.1f} s", flush=True)
    sure(took <= SPEED_ASKED, f"more than {SPEED_ASKED} s", took)


def main():
    """Runs every group; the exit code."""
    parser = argparse.ArgumentParser(description=__doc__,
                                     formatter_class=argparse.RawDescriptionHelpFormatter)
    parser.add_argument("--bench", metavar="COMMAND", help=BENCH_HELP)
    parser.add_argument("--speed", action="store_true", help="also measure 10,000 frames")
    given = parser.parse_args()
    bench_words(given.bench)
    os.chdir(ROOT)
    with tempfile.TemporaryDirectory() as folder:
        desk = Desk(folder, given.bench)
        text = shipped(desk)
        as_model(desk, text)
        other_keys(desk, text)
        kinds(desk, text)
        written_again(desk)
        cut_files(desk, text)
        no_captures(desk)
        no_labels(desk)
        without_kit(desk)
        reader_goes(desk)
        if given.speed:
            speed(desk)
    print("desk.py answers as asked")
    return 0


if __name__ == "__main__":
    sys.exit(in_words(main))
