"""The shipped capture in Wireshark and in desk.py, with the same label's key: for wireshark.py.

Wireshark is given the label's link key and nothing else; it finds the other keys in the capture, as
the listener does. It keeps no floors, so a frame heard again opens there once more. The capture
that desk.py wrote again must have its verdicts as comments there.
"""

import subprocess
import sys

from bench_pipe import ROOT, Differs
from first_capture import LABEL, STORED
from tshark import Tshark

FITS = ("opened", "8 stale genuine")  # verdicts on frames whose tag is right


def listened(folder, words):
    """What desk.py says of each frame, by its seven fields; it writes the capture again too."""
    chosen = [] if words is None else ["--bench", words]
    command = [sys.executable, str(ROOT / "desk.py"), str(STORED), "--label", LABEL, "--tsv",
               "--annotate", str(folder / "annotated.pcapng"), *chosen]
    ran = subprocess.run(command, capture_output=True, text=True, check=False)
    if ran.returncode:
        raise Differs(f"desk.py ended with {ran.returncode}: {ran.stderr}")
    return [line.split("\t") for line in ran.stdout.splitlines()]


def differences(row, payloads, comment):
    """What is not alike of one frame: the layers that were opened, what is inside, the comment."""
    _, _, network, _, _, aps, inside = row
    layers = sum(verdict in FITS for verdict in (network, aps))
    if len(payloads) != layers:
        yield f"{len(payloads)} layers deciphered, and not {layers}"
    elif layers and network in ("opened", "unsecured"):
        plain = payloads[-1].hex()
        if not (plain.endswith(inside) or " " in inside and inside.split(" ")[1] in plain
                or inside == "request4"):
            yield f"deciphered {plain}, and not {inside}"
    if not comment.startswith(("opened", "unsecured", "passed over", "not asked about",
                               network.split(" ")[0])):
        yield f"the comment is {comment}"


def compare(folder, label_key, newer, words):
    """Prints a line; how many frames differ."""
    rows = listened(folder, words)
    tshark = Tshark(folder, [label_key], newer)
    payloads = tshark.deciphered(STORED)
    comments = tshark.says(folder / "annotated.pcapng", "-T", "fields", "-e", "frame.comment")
    comments = comments.splitlines()
    if not len(rows) == len(payloads) == len(comments):
        raise Differs(f"{len(rows)} frames, of which Wireshark shows {len(payloads)} and "
                      f"{len(comments)} with comments")
    differ = 0
    for row, found, comment in zip(rows, payloads, comments):
        wrong = list(differences(row, found, comment))
        differ += bool(wrong)
        if wrong:
            print(f"{STORED.name}, frame {row[0]}: {'; '.join(wrong)}")
    opened = sum(map(bool, payloads))
    print(f"{STORED.name}: {len(rows)} frames, of which {opened} were deciphered with the label's "
          f"key; {differ} differ")
    return differ
