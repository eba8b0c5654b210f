"""The keys that a pupil gives: labels, which the bench reads, and keys that are known already."""

import argparse
import os
import re

from .listener import NOBODY

CODES = (6, 8, 12, 16)     # octets of an install code; two more of CRC stand on the label
LABEL_MOST = 256           # octets of a label in a bench line; what is longer is no label either
GAPS = " -"                # what may stand between two octets of a label
SEPARATORS = re.compile("[ :-]")


# ---- known keys --------------------------------------------------------------------------------

def network_key(text):
    """A network key: its sequence number, a colon and 32 hex digits."""
    number, _, key = text.partition(":")
    key = SEPARATORS.sub("", key).lower()
    if not re.fullmatch("[0-9]{1,3}", number) or int(number) > 255:
        raise argparse.ArgumentTypeError(
            f"{text!r} doesn't start with a sequence number from 0 to 255 and a colon")
    if not re.fullmatch("[0-9a-f]{32}", key):
        raise argparse.ArgumentTypeError(f"{text!r} doesn't have 32 hex digits behind its number")
    return int(number), key


def link_key(text):
    """A link key: the address of a device, 16 hex digits, a colon and 32 hex digits."""
    digits = SEPARATORS.sub("", text).lower()
    if not re.fullmatch("[0-9a-f]{48}", digits):
        raise argparse.ArgumentTypeError(
            f"{text!r} is not an address of 16 hex digits, a colon and a key of 32")
    if digits[:16] in NOBODY:
        raise argparse.ArgumentTypeError(f"{text!r} has an address that no device has")
    return digits[:16], digits[16:]


# ---- labels ------------------------------------------------------------------------------------

class NoLabel(Exception):
    """A label that the bench refuses; why and where, in words."""


def label_key(bench, text):
    """The link key that a label stands for."""
    sent = os.fsencode(text)[:LABEL_MOST].translate(bytes.maketrans(b"\t\n", b"??"))
    _, word, *fields = bench.answer_to(b"label\t" + sent).decode("ascii").split("\t")
    if word == "ok":
        return fields[1]
    raise NoLabel(f"--label {text!r} is refused with {' '.join(fields)}: {fault(text, fields[0])}")


def fault(text, number):
    """What is wrong with a label, and at which of its characters."""
    octets = re.findall("[0-9A-Fa-f]{2}", text)
    if number == "16":
        return (f"its last two octets, {' '.join(octets[-2:])}, are not the CRC of the octets "
                "before them. One character at least is mistyped; compare it with the box")
    for place, character in enumerate(text, 1):
        wrong = misplaced(text[:place - 1], character)
        if wrong:
            return f"character {place}, {character!r}, {wrong}"
    if text[-1:] in GAPS:
        return f"character {len(text)} is a gap behind the last octet" if text else "it is empty"
    if len(SEPARATORS.sub("", text)) % 2:
        return f"its last octet, behind character {len(text)}, lacks a digit"
    return (f"it has {len(octets)} octets, and a label has "
            f"{', '.join(str(code + 2) for code in CODES)}: the code and two octets of CRC")


def misplaced(before, character):
    """What is wrong with a character of a label behind others that are right, if anything."""
    if character in "0123456789ABCDEFabcdef":
        return None
    if character not in GAPS:
        return "is no hex digit"
    if not before:
        return "is a gap before the first octet"
    if before[-1] in GAPS:
        return "is a second gap between two octets"
    if len(SEPARATORS.sub("", before)) % 2:
        return "parts the two digits of an octet"
    return None
