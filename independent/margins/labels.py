"""The script of `margins`: what printing leaves in the output, and what reading answers by value.

Document 02 (v); RULES 14.3 and 14.4; DECISIONS, v-by-value, v-room and v-lines. The text of a label
stands here in hex, so that tabs and line feeds can be tried too.
"""

from ..bench.labels import (CODES, DOUBLES, LENGTHS, WRONG, coded, crc_of, gaps_with, key_of,
                            least_first, spelled, whole)
from ..bench.printing import DIGITS, FAULTS, any_code, any_print
from ..bench.tools import put
from ..lines import Chance, ok, refused, run_of
from .tools import laid

NOTHING = "\t" + "00" * 16 + "\t" + "00" * 16
DIGIT_PLACE, GAP_PLACE = 9, 8  # in the label of a code of 8 that every octet is put into


def read(script, text, gives):
    """Reads a text; it gives a code, or a refusal's number and zeros."""
    if isinstance(gives, int):
        expect = refused(gives) + NOTHING
    else:
        expect = ok(len(gives), gives + bytes(16 - len(gives)), key_of(gives))
    script.add("label", text, expect=expect)


def write(script, room, code, number=None):
    """Prints a code into an output of so many octets; it is refused with the number, if told, or
    with 1 where there is no room."""
    text = spelled(whole(code))
    number = number or (1 if room < len(text) else None)
    script.add("print", room, code, expect=f"{refused(number)}\t{laid(room).hex()}" if number else
               ok(len(text), laid(room, text)))


# ---- printed -----------------------------------------------------------------------------------

def add_prints(script):
    """Labels printed into outputs of many lengths."""
    for length in LENGTHS:
        need = 3 * length + 5
        script.group(f"print, code of {length}: {need} octets of text, EE behind it; 1 with less")
        for turn, room in enumerate((0, 1, length, need - 4, need - 3, need - 2, need - 1, need,
                                     need + 1, need + 2, need + 3, 116, 255, 256)):
            write(script, room, (CODES[length], coded(length, turn))[turn % 2])
    script.group("print: zeros, all ones, octets EE")
    for length in LENGTHS:
        for octet in (0, 0xFF, 0xEE):
            write(script, 3 * length + 6, bytes([octet]) * length)
    script.group("print, 15: codes of other lengths, before 1; the output stays whole")
    for turn, length in enumerate((*range(6), 7, 9, 10, 11, 13, 14, 15, 17, 18, 19, 20, 32, 255,
                                   256, 257, 512)):
        for room in ((0, 256), (22, 53), (1, 116))[turn % 3]:
            write(script, room, coded(length), 15)
    script.group("print: by chance")
    chance = Chance(3003)
    for _ in range(24):
        write(script, chance.below(80), any_code(chance))


# ---- read --------------------------------------------------------------------------------------

def add_codes(script):
    """Good labels: zeros behind the code, and the key."""
    script.group("label: the code in 16 octets with zeros behind it, and the key")
    for length in LENGTHS:
        for gap in (b"", b" ", b"-"):
            read(script, spelled(whole(CODES[length]), gap), CODES[length])
            read(script, spelled(whole(coded(length)), gap, small=True), coded(length))
        for octet in (0, 0xFF):
            read(script, spelled(whole(bytes([octet]) * length)), bytes([octet]) * length)
    script.group("label: the text that `print` writes, without and with the EE behind it")
    for length in LENGTHS:
        text = spelled(whole(coded(length, 1)))
        read(script, text, coded(length, 1))
        for behind in (b"\xee", b"\xee" * 20, b"\0", b"\r\n"):
            read(script, text + behind, 15)


def add_octets(script):
    """Every octet in the place of a digit, and in a gap."""
    code = coded(8, 2)
    octets = whole(code)
    text = spelled(octets)
    digit = text[DIGIT_PLACE:DIGIT_PLACE + 1]
    script.group("label: every octet for a digit: 16 for other digits, 15 for all that are none")
    for octet in range(256):
        character = bytes([octet])
        changed = text[:DIGIT_PLACE] + character + text[DIGIT_PLACE + 1:]
        if character in DIGITS:
            read(script, changed, code if character.upper() == digit else 16)
        else:
            read(script, changed, 15)
    script.group("label: octets in the gap before the CRC, up to 7F and some above: 15, but for "
                 "space and hyphen")
    for octet in (*range(128), *(0x80 | o for o in b"\0 -09AFafz\x7f")):
        gaps = gaps_with(octets, GAP_PLACE - 1, bytes([octet]), b" ")
        read(script, spelled(octets, gaps), code if octet in b" -" else 15)


def add_refusals(script):
    """Zeros beside refusals of both numbers."""
    script.group("label, 15 and zeros: counts of octets, with a CRC that fits and without")
    for count in (0, 1, 2, 3, 6, 7, 9, 11, 12, 13, 15, 16, 17, 19, 20, 34, 85, 170):
        fitting = whole(coded(max(count - 2, 0)))[:count]
        read(script, spelled(fitting), 15)
        read(script, spelled(coded(count), b""), 15)
    script.group("label, 16 and zeros: another CRC, the most octet first, an octet replaced")
    for length in LENGTHS:
        code = coded(length, 3)
        crc = crc_of(code)
        for other in (crc ^ 1, crc ^ 0x8000, 0xFFFF - crc):
            read(script, spelled(code + least_first(other)), 16)
        read(script, spelled(code + least_first(crc)[::-1]), 16)
        for place in (0, length // 2, length - 1, length, length + 1):
            read(script, spelled(put(whole(code), place, whole(code)[place] ^ 0x10), b"-"), 16)
    script.group("label, 15 and zeros: ends, doubles, inside of an octet, odd digits")
    for length in LENGTHS:
        octets = whole(coded(length, 4))
        text = spelled(octets)
        for end in (b" ", b"-", b"\t", b"\n"):
            read(script, end + text, 15)
            read(script, text + end, 15)
        for turn, double in enumerate((*DOUBLES, b"\t", b" \t", b"\n")):
            read(script, spelled(octets, gaps_with(octets, turn % length, double)), 15)
        for odd in (text[:1] + b" " + text[1:], text[:-1] + b"-" + text[-1:], text[1:], text[:-1]):
            read(script, odd, 15)
        read(script, b"G" + put(text, 4, text[4] ^ 1)[1:], 15)


def add_texts(script):
    """Long texts, and texts by chance."""
    script.group("label: texts of 256, 257 and 512 octets")
    text = spelled(whole(CODES[16]))
    for size in (256, 257, 512):
        for octet in (b"0", b" ", b"\xee"):
            read(script, octet * size, 15)
            read(script, text.ljust(size, octet), 15)
        read(script, (b" ".join([text] * 10))[:size], 15)
    read(script, run_of(512), 15)
    script.group("label: by chance, good and with one fault")
    chance = Chance(3004)
    for turn in range(36):
        code = any_code(chance)
        text = any_print(chance, whole(code))
        read(script, text, code)
        read(script, *FAULTS[turn % len(FAULTS)](chance, text))
    script.group("label: wrong characters of several octets")
    for wrong in WRONG[-15:]:
        read(script, spelled(whole(CODES[6]), wrong), 15)


def add_odd_lines(script):
    """Bad lines of both words, and hex of either case."""
    script.group("print and label: bad lines")
    for line in (("print", 257, CODES[6]), ("print", "023", CODES[6]), ("print", "", CODES[6]),
                 ("print", "-1", CODES[6]), ("print", 23, "83f"), ("print", 23, bytes(513)),
                 ("print", 23), ("print", CODES[6]), ("print", 23, CODES[6], ""), ("print",),
                 ("Print", 23, CODES[6]), ("label", "83 fe"), ("label", "8"), ("label", bytes(513)),
                 ("label",), ("label", "", ""), ("label", 23, "3833"), ("Label", "3833"),
                 ("labels", "3833"), ("label", "383g")):
        script.add(*line, expect="bad")
    script.group("print and label: fine: either case of hex, empty octets")
    text = spelled(whole(CODES[6]), b"-", small=True)
    script.raw("label\t" + text.hex().upper(), ok(6, CODES[6] + bytes(10), key_of(CODES[6])))
    script.raw("print\t23\t" + CODES[6].hex().upper(), ok(23, spelled(whole(CODES[6]))))
    script.raw("label\t", refused(15) + NOTHING)
    script.raw("print\t0\t", refused(15) + "\t")
    script.raw("print\t2\t", refused(15) + "\teeee")


def add_labels(script):
    """All of this file."""
    for add in (add_prints, add_codes, add_octets, add_refusals, add_texts, add_odd_lines):
        add(script)
