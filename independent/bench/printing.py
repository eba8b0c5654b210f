"""The script of `bench`: labels printed, a joining by a label, and labels by chance.

Document 02 (v); RULES 14.3 and 14.4; DECISIONS, v-room and v-key. Good labels, and those with one
known fault, have the answer that their maker expects; of other texts it is the model's, held to
another walk by script.py.
"""

from ..lines import Chance, address, ok, run_of, sure
from .labels import CODES, LENGTHS, WRONG, coded, good, key_of, label, spelled, whole
from .play import wire
from .tools import GENUINE, Station, aps_frame, key, no, opened

CENTRE, JOINER = 0x00124B0000000C01, 0x00124B0000000C02
NETWORK_KEY = run_of(16, 0x51)
DIGITS = b"0123456789abcdefABCDEF"
ALPHABET = DIGITS + b" - - -"


# ---- printed -----------------------------------------------------------------------------------

def printed(bench, code):
    """Prints a code's label and reads it back."""
    text = spelled(whole(code))
    sure(len(text) == 3 * len(code) + 5, "octets of a printed label", len(text))
    bench.add("print", code, expect=ok(text.decode("ascii")))
    label(bench, text, good(code))


def add_print(bench):
    """Codes of every length, printed and read back."""
    bench.group("print: published codes, zeros, all ones and others, each read back")
    for length in LENGTHS:
        for code in (CODES[length], bytes(length), b"\xff" * length, run_of(length),
                     *(coded(length, turn) for turn in range(20, 25))):
            printed(bench, code)
    bench.group("print: every octet")
    for start in range(0, 256, 16):
        printed(bench, bytes(range(start, start + 16)))
    bench.group("print, 15: codes of other lengths")
    for length in (*range(21), 24, 32, 48, 53, 64, 116, 128, 255, 256):
        if length not in LENGTHS:
            bench.add("print", coded(length), expect=no(15))
    bench.group("print: octets with their CRC are a code or none; digits of either case; bad lines")
    for length in LENGTHS:
        octets = whole(CODES[length])
        bench.add("print", octets, expect=no(15) if length != 6 else
                  ok(spelled(whole(octets)).decode("ascii")))
    text = ok(spelled(whole(CODES[6])).decode("ascii"))
    for field, expect in (("83FED3407A93", text), ("83fED3407a93", text), ("83fed3407a9", "bad"),
                          ("83 fe d3 40 7a 93", "bad"), ("83-fe-d3-40-7a-93", "bad"),
                          ("83fed3407a9g", "bad"), ("83fed3407a93\r", "bad"), ("00" * 257, "bad"),
                          ("83fed3407a93 ", "bad"), ("83fed3407a93\t", "bad"), ("", no(15))):
        bench.raw("print\t" + field, expect)
    for line in ("print", "Print\t83fed3407a93", "prints\t83fed3407a93", "print 83fed3407a93"):
        bench.raw(line, "bad")


def add_rooms(bench):
    """Outputs of every length around what a label needs."""
    for length in LENGTHS:
        code, need = coded(length, 30), 3 * length + 5
        bench.group(f"print, code of {length}: 1 with less than {need} octets of output")
        for room in (0, 1, length, 2 * length + 4, need - 3, need - 2, need - 1, need, need + 1,
                     need + 2, 108, 116, 256):
            bench.lend(room)
            bench.add("print", code, expect=no(1) if room < need else
                      ok(spelled(whole(code)).decode("ascii")))
    bench.group("print: 15 before 1")
    for room in (0, 22, 52):
        bench.lend(room)
        for length in (0, 1, 5, 7, 9, 10, 11, 13, 14, 15, 17, 18, 256):
            bench.add("print", coded(length), expect=no(15))
    bench.group("only the lent output counts")
    for room, rows in ((23, 0), (22, 1024), (29, 3), (28, 64)):
        bench.lend(room, rows, rows)
        bench.add("print", coded(6), expect=no(1) if room < 23 else
                  ok(spelled(whole(coded(6))).decode("ascii")))
        bench.add("print", coded(8), expect=no(1) if room < 29 else
                  ok(spelled(whole(coded(8))).decode("ascii")))
    bench.lend()


# ---- used --------------------------------------------------------------------------------------

def answered_key(bench, text):
    """The link key that a label is answered with."""
    return bytes.fromhex(label(bench, text).split("\t")[2])


def add_joining(bench, turn, code):
    """A centre seals a network key under a label's link key; the joiner, with the same label in
    another print, opens it."""
    bench.group(f"a joining by the label of a code of {len(code)}: the centre")
    bench.board(CENTRE, 100 * turn)
    bench.step(asked=turn % 2 == 0)
    link_key = answered_key(bench, spelled(whole(code)))
    sure(link_key == key_of(code), "another link key", link_key.hex())
    bench.link(JOINER, link_key)
    body = b"\x05\x01" + NETWORK_KEY + bytes([turn]) + wire(JOINER) + wire(CENTRE)
    bench.add("write", "ack", "transport1", NETWORK_KEY, turn, address(JOINER), address(CENTRE),
              expect=ok(b"\x41\x00" + body))
    frame = aps_frame(key_of(code), 2, CENTRE, 100 * turn, body, header=b"\x41\x00")
    bench.seal_aps(JOINER, 2, b"\x41\x00" + body, ok(frame))
    bench.group("the joiner: without a key, with another label's, with its own")
    bench.board(JOINER)
    bench.open_aps(CENTRE, frame, no(6))
    for text in (spelled(whole(coded(len(code), 40))), spelled(whole(coded(6, 41)), b"-")):
        bench.link(CENTRE, answered_key(bench, text))
        bench.open_aps(CENTRE, frame, no(9))
    bench.link(CENTRE, answered_key(bench, spelled(whole(code), b"-", small=True)))
    bench.open_aps(CENTRE, frame, opened(CENTRE, 2, b"\x41\x00" + body))
    bench.open_aps(CENTRE, frame, GENUINE)
    bench.add("read", 2, b"\x41\x00" + body, expect=ok("transport1", NETWORK_KEY, turn,
                                                      address(JOINER), address(CENTRE)))
    bench.network(0, turn, NETWORK_KEY)
    bench.links((0, CENTRE, 100 * turn + 1))


def add_joinings(bench):
    """A joining by a label of each length, and a label whose key is added again."""
    for turn, length in enumerate(LENGTHS):
        add_joining(bench, turn, CODES[length] if turn % 2 else coded(length, 42))
    bench.group("the same label in another print is the same key: adding it again keeps the floor")
    bench.board(JOINER)
    station = Station(CENTRE, 7).link(JOINER, key_of(CODES[16]))
    plain = b"\x41\x01\x07" + wire(JOINER)
    for gap in (b"", b" ", b"-"):
        bench.link(CENTRE, answered_key(bench, spelled(whole(CODES[16]), gap)))
        frame = station.seal_aps(JOINER, 0, plain)
        bench.open_aps(0, frame, opened(CENTRE, 0, plain))
        bench.open_aps(0, frame, GENUINE)
    bench.links((0, CENTRE, 10))
    bench.link(CENTRE, key(3))
    bench.links((0, CENTRE, 0))


# ---- by chance ---------------------------------------------------------------------------------

def any_code(chance):
    """A code of some length."""
    return bytes(chance.below(256) for _ in range(chance.pick(LENGTHS)))


def any_print(chance, octets):
    """Octets in some print that is allowed."""
    gaps = chance.pick(((b"",), (b" ",), (b"-",), (b"", b" ", b"-"), (b" ", b"-")))
    case = chance.pick((bytes.upper, bytes.lower, None))
    text = spelled(octets, [chance.pick(gaps) for _ in octets[1:]])
    if case:
        return case(text)
    return b"".join(chance.pick((bytes.upper, bytes.lower))(bytes([o])) for o in text)


def digit_place(chance, text):
    """The place of a digit in a text."""
    return chance.pick([i for i, octet in enumerate(text) if octet in DIGITS])


def other_digit(chance, text):
    """Another digit for one: the CRC can't fit."""
    at = digit_place(chance, text)
    digit = chance.pick([d for d in DIGITS if int(chr(d), 16) != int(text[at:at + 1], 16)])
    return text[:at] + bytes([digit]) + text[at + 1:], 16


def wrong_for_digit(chance, text):
    """A wrong character for a digit."""
    at = digit_place(chance, text)
    return text[:at] + chance.pick(WRONG) + text[at + 1:], 15


def digit_less(chance, text):
    """A digit left out: their count is odd."""
    at = digit_place(chance, text)
    return text[:at] + text[at + 1:], 15


def digit_more(chance, text):
    """A digit put in."""
    at = chance.below(len(text) + 1)
    return text[:at] + bytes([chance.pick(DIGITS)]) + text[at:], 15


def at_an_end(chance, text):
    """A separator or a wrong character at an end."""
    end = chance.pick((b" ", b"-", chance.pick(WRONG)))
    return (end + text, 15) if chance.below(2) else (text + end, 15)


def turned_round(chance, text):
    """Two neighbouring octets swapped, of a text without separators, if they differ."""
    text = bytes(octet for octet in text if octet in DIGITS).upper()
    places = [i for i in range(0, len(text) - 2, 2) if text[i:i + 2] != text[i + 2:i + 4]]
    at = chance.pick(places)
    return text[:at] + text[at + 2:at + 4] + text[at:at + 2] + text[at + 4:], 16


FAULTS = (other_digit, wrong_for_digit, digit_less, digit_more, at_an_end, turned_round)


def edited(chance, text):
    """A text with some characters replaced, put in or left out."""
    for _ in range(1 + chance.below(3)):
        at = chance.below(len(text))
        kept = at + chance.below(2)
        text = text[:at] + bytes([chance.pick(ALPHABET)]) * chance.below(3) + text[kept:]
    return text


def add_chance(bench):
    """Labels by chance: good ones, with one fault, and any text."""
    chance = Chance(5001)
    bench.group("by chance: any code in any print")
    for _ in range(80):
        code = any_code(chance)
        label(bench, any_print(chance, whole(code)), good(code))
    bench.group("by chance: with one fault")
    for turn in range(120):
        text = any_print(chance, whole(any_code(chance)))
        label(bench, *FAULTS[turn % len(FAULTS)](chance, text))
    bench.group("by chance: edited, and any digits and separators")
    for _ in range(80):
        label(bench, edited(chance, any_print(chance, whole(any_code(chance)))))
    for _ in range(30):
        label(bench, bytes(chance.pick(ALPHABET) for _ in range(chance.below(60))))
    bench.group("by chance: codes printed into any output, and read back")
    for _ in range(30):
        code, room = any_code(chance), chance.below(70)
        bench.lend(room)
        text = spelled(whole(code))
        bench.add("print", code, expect=no(1) if room < len(text) else ok(text.decode("ascii")))
        label(bench, text, good(code))
    bench.lend()


def add_printing(bench):
    """All of this file."""
    bench.board()
    for add in (add_print, add_rooms, add_joinings, add_chance):
        add(bench)
