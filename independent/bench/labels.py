"""The script of `bench`: labels read.

Document 02 (v); RULES 14; DECISIONS, v-separators to v-lines. Octets, CRCs and keys are made here
once more, apart from model/labels.py: the CRC by a table, the key from octets padded by hand.
"""

import binascii

from ..lines import ok, run_of, sure
from ..model.aes import encipher
from ..model.ccm import blocks, xor
from ..published import installcodes
from .halls import REFUSED
from .tools import NETWORK_HEADER, OWN, key, network_frame, no, opened, put

LENGTHS = (6, 8, 12, 16)
NIBBLES = (0x0000, 0x1081, 0x2102, 0x3183, 0x4204, 0x5285, 0x6306, 0x7387,  # CRC-16/X-25,
           0x8408, 0x9489, 0xA50A, 0xB58B, 0xC60C, 0xD68D, 0xE70E, 0xF78F)  # four bits at a time
ENDS = {8: "80" + 5 * "00" + "0040", 10: "80" + 3 * "00" + "0050",  # of padding, by octets hashed
        14: "80" + 15 * "00" + "0070", 18: "80" + 11 * "00" + "0090"}
CODES = {length: code for length, code, *_ in sorted(installcodes())}
DOUBLES = (b"  ", b" -", b"- ", b"--")
ONE_OTHER = ((b" ", b""), (b"-", b""), (b"", b" "), (b"", b"-"), (b" ", b"-"), (b"-", b" "))
CRC_OF_CRC = b"\x47\x0f"  # of any octets with their CRC behind them

BESIDE_DIGITS = b"/:@G`g"
OTHER_OCTETS = b"_\0\x01\x08\x0b\x0c\r\x1b\x1f!#'+,.;|~\x7fOolIxXhHZz"
HIGH_OCTETS = b"\x80\xa0\xad\xb0\xb9\xc1\xc6\xe1\xe6\xff"  # many are 0x80 and a good one
UNICODE = ("\u00a0", "\u00ad", "\u2010", "\u2011", "\u2013", "\u2014", "\u2212", "\u3000", "\uff10",
           "\uff21", "\u0660", "\u00e9", "\ufeff")
WRONG = (*(bytes([octet]) for octet in BESIDE_DIGITS + OTHER_OCTETS + HIGH_OCTETS),
         *(character.encode("utf-8") for character in UNICODE), b"0x", b"\\t")


# ---- labels, made another way than the model's -------------------------------------------------

def crc_of(octets):
    """The CRC, four bits at a time by the table."""
    register = 0xFFFF
    for octet in octets:
        for nibble in (octet, octet >> 4):
            register = register >> 4 ^ NIBBLES[(register ^ nibble) & 15]
    return 0xFFFF - register


def least_first(crc):
    """A CRC's two octets."""
    return bytes([crc % 256, crc // 256])


def whole(code):
    """The octets of a label."""
    return code + least_first(crc_of(code))


def key_of(code):
    """The link key of a code, its label's octets padded by what ENDS tells."""
    octets = whole(code)
    value = bytes(16)
    for block in blocks(octets + bytes.fromhex(ENDS[len(octets)])):
        value = xor(encipher(value, block), block)
    return value


def good(code):
    """The answer to the label of a code."""
    return ok(code, key_of(code))


def spelled(octets, gap=b" ", small=False):
    """Octets in print, with one separator in every gap, or one told for each gap."""
    gaps = [gap] * (len(octets) - 1) if isinstance(gap, bytes) else gap
    texts = [b"%02x" % octet if small else b"%02X" % octet for octet in octets]
    return b"".join(text + after for text, after in zip(texts, [*gaps, b""]))


def gaps_with(octets, place, one, others=b""):
    """The gaps of octets, one of them another than the rest."""
    return [one if i == place else others for i in range(len(octets) - 1)]


def label(bench, text, expect=None):
    """Reads a text, octets as they stand; the answer."""
    return bench.raw(b"label\t" + text, no(expect) if isinstance(expect, int) else expect)


def coded(length, turn=0):
    """Some code of a length."""
    return bytes((89 * i + 31 * turn + 7 * i * i + 131) % 256 for i in range(length))


# ---- good labels -------------------------------------------------------------------------------

def add_published(bench):
    """Published install codes, in several prints."""
    bench.group("RULES 14.1, 14.2: published codes, CRCs and, where known, link keys")
    for length, code, crc, link_key in installcodes():
        sure(whole(code) == code + crc, "a published CRC", length)
        sure(key_of(code) == (link_key or key_of(code)), "a published key", length)
        for gap in (b"", b" ", b"-"):
            label(bench, spelled(code + crc, gap), ok(code, link_key or key_of(code)))
        label(bench, spelled(crc + code, b""), 16)
        label(bench, spelled(code, b""), 16 if length == 8 else 15)  # a code of 6 and a CRC
        bench.add("hash", code + crc, expect=ok(link_key or key_of(code)))
    bench.group("as the specification prints it, four digits a group")
    label(bench, b"83FE D340 7A93 9723 A5C6 39B2 6916 D505 C3B5", good(CODES[16]))


def add_codes(bench):
    """Codes of every length, all octets, each digit in either case."""
    bench.group("DECISIONS, v-any-code: zeros, all ones and others")
    for length in LENGTHS:
        for code in (bytes(length), b"\xff" * length, bytes(length - 1) + b"\x01",
                     b"\x80" + bytes(length - 1), run_of(length), coded(length)):
            label(bench, spelled(whole(code)), good(code))
    bench.group("every octet, in capitals and small")
    for start in range(0, 256, 16):
        code = bytes(range(start, start + 16))
        label(bench, spelled(whole(code), b"-"), good(code))
        label(bench, spelled(whole(code), small=True), good(code))
    bench.group("small, capital, and both in one octet, either way")
    for length in LENGTHS:
        code = b"\xab\xcd\xef\xfa\xce\xbd" + coded(length - 6)
        small = spelled(whole(code), b"", small=True)
        pairs = [small[i:i + 2] for i in range(0, len(small), 2)]
        for one, other in ((bytes.upper, bytes.lower), (bytes.lower, bytes.upper)):
            label(bench, b"".join(one(p[:1]) + other(p[1:]) for p in pairs), good(code))
            label(bench, b"-".join((one, other)[i % 2](p) for i, p in enumerate(pairs)), good(code))
            half = len(pairs) // 2
            label(bench, one(b"".join(pairs[:half])) + other(b"".join(pairs[half:])), good(code))


def add_gaps(bench):
    """Every choice of separators that is allowed."""
    bench.group("DECISIONS, v-separators: none, spaces, hyphens, both in turn, in threes")
    for length in LENGTHS:
        octets, expect = whole(coded(length, 1)), good(coded(length, 1))
        count = len(octets) - 1
        for pattern in ((b"",), (b" ",), (b"-",), *ONE_OTHER, (b"", b" ", b"-"), (b"-", b" ", b""),
                        (b"", b"", b"", b"-")):
            label(bench, spelled(octets, [pattern[i % len(pattern)] for i in range(count)]), expect)
        bench.group(f"code of {length}: only before the CRC; all but there")
        for one, others in ONE_OTHER:
            label(bench, spelled(octets, gaps_with(octets, length - 1, one, others)), expect)
        bench.group(f"code of {length}: each gap alone has a separator, or another than the rest")
        for place in range(count):
            for one, others in (*ONE_OTHER[:2], ONE_OTHER[2 + place % 4]):
                label(bench, spelled(octets, gaps_with(octets, place, one, others)), expect)


# ---- 15 ----------------------------------------------------------------------------------------

def add_doubles(bench):
    """Two and more separators together, at the ends, and alone."""
    bench.group("15: two separators in a gap, in every combination")
    for length in LENGTHS:
        octets = whole(coded(length, 2))
        for place in range(len(octets) - 1):
            for turn, double in enumerate(DOUBLES):
                if length == 6 or place in (0, length // 2, length - 1, length):
                    others = (b"", b" ", b"-")[(place + turn) % 3]
                    label(bench, spelled(octets, gaps_with(octets, place, double, others)), 15)
        label(bench, spelled(octets, b"  "), 15)
        label(bench, spelled(octets, gaps_with(octets, 2, b" - ")), 15)
        bench.group(f"code of {length}, 15: separators at the front, at the end, at both")
        for gap in (b"", b" ", b"-"):
            text = spelled(octets, gap)
            for end in (b" ", b"-", *DOUBLES[:2]):
                label(bench, end + text, 15)
                label(bench, text + end, 15)
            label(bench, b" " + text + b" ", 15)
    bench.group("15: an empty text (DECISIONS, v-lines), and separators alone")
    for text in (b"", b" ", b"-", *DOUBLES, b" " * 7, b"-" * 17, b" -" * 128):
        label(bench, text, 15)


def add_inside(bench):
    """A separator between the two digits of an octet."""
    for length in LENGTHS:
        bench.group(f"code of {length}, 15: a separator inside an octet")
        octets = whole(coded(length, 3))
        for place in range(len(octets)):
            if length in (6, 16) or place in (0, length // 2, length - 1, length + 1):
                for turn, one in enumerate((b" ", b"-")):
                    gap = (b"", b" ", b"-")[(place + turn) % 3]
                    at = place * (2 + len(gap)) + 1
                    text = spelled(octets, gap)
                    label(bench, text[:at] + one + text[at:], 15)
        text = spelled(octets, b"")
        label(bench, b" ".join(text[i:i + 1] for i in range(len(text))), 15)
        label(bench, text[:1] + b"-" + b"-".join(text[i:i + 2] for i in range(1, len(text), 2)), 15)


def add_counts(bench):
    """Every count of octets, with a CRC that fits and with one that doesn't."""
    bench.group("DECISIONS, v-lengths: 0 to 20 octets and more, the last two the CRC of the rest: "
                "15 but for 8, 10, 14 and 18")
    for count in (*range(21), 22, 24, 26, 28, 30, 32, 34, 36, 40, 64, 66, 85):
        code = coded(max(count - 2, 0), count)
        octets = whole(code)[:count] if count < 2 else whole(code)
        fits = len(octets) - 2 in LENGTHS
        for gap, small in ((b"", True), (b" ", False), (b"-", True)):
            label(bench, spelled(octets, gap, small), good(code) if fits else 15)
    bench.group("DECISIONS, v-digits-first: the same with another CRC: 15, but for 8, 10, 14 and "
                "18, which are 16")
    for count in (*range(1, 21), 24, 32, 34, 36, 66):
        octets = coded(count, count + 1)
        if count > 2:
            octets = octets[:-2] + least_first(crc_of(octets[:-2]) ^ 1 << count % 16)
        label(bench, spelled(octets, (b"", b" ")[count % 2]), 16 if count - 2 in LENGTHS else 15)
    bench.group("an octet or two cut from a label, at the front and at the end")
    for length in LENGTHS:
        octets = whole(coded(length, 4))
        for cut in (octets[1:], octets[:-1], octets + b"\0", b"\0" + octets):
            label(bench, spelled(cut), 15)
        for cut in (octets[2:], octets[:-2], octets + b"\0\0", b"\0\0" + octets):
            label(bench, spelled(cut), 16 if len(cut) - 2 in LENGTHS else 15)


def add_odd(bench):
    """Odd counts of digits."""
    bench.group("15: a digit too few or too many")
    for length in LENGTHS:
        octets = whole(coded(length, 5))
        for gap in (b"", b" "):
            text = spelled(octets, gap)
            middle = len(text) // 2 // 3 * 3
            for odd in (text[1:], text[:-1], b"0" + text, text + b"0", text + b" 0", b"0-" + text,
                        text[:middle] + text[middle + 1:], text[:middle] + b"0" + text[middle:]):
                label(bench, odd, 15)
        bench.group(f"code of {length}, 15: a leading zero left out")
        code = b"\x05" + coded(length - 1)
        for gap in (b" ", b"-"):
            label(bench, spelled(whole(code), gap)[1:], 15)
    for text in (b"8", b"83", b"8 3", b"83 ", b"83F", b"83 F", b"83FE", b"0", b"f", b"F-F"):
        label(bench, text, 15)


def add_wrong(bench):
    """Characters that are no digits and no separators."""
    bench.group("15: a wrong character for the first digit, a middle one, the last; in a gap, at "
                "the front or at the end")
    for turn, wrong in enumerate(WRONG):
        octets = whole(coded(LENGTHS[turn % 4], 6))
        text = spelled(octets)
        middle = 3 * (1 + turn % (len(octets) - 2)) + turn % 2
        for at in (0, middle, len(text) - 1):
            label(bench, text[:at] + wrong + text[at + 1:], 15)
        place, gap = turn % (len(octets) - 1), (b"", b" ")[turn // 4 % 2]
        label(bench, (spelled(octets, gaps_with(octets, place, wrong, gap)), wrong + text,
                      text + wrong)[turn % 3], 15)
    bench.group("every gap the same wrong separator")
    for wrong in (b":", b".", b"_", b",", b"\r", b"\0", b"0x", b" 0x", b"\xc2\xa0",
                  b"\xe2\x80\x93"):
        label(bench, spelled(whole(coded(8, 8)), wrong), 15)


def add_both_wrong(bench):
    """Digits or count wrong, and the CRC too: 15."""
    bench.group("DECISIONS, v-digits-first: CRC wrong, and a character, a gap or the count: 15")
    for turn, length in enumerate(LENGTHS):
        octets = put(whole(coded(length, 9)), turn, 0x77)
        text = spelled(octets)
        label(bench, text, 16)
        for wrong, places in ((b"G", (0, 4)), (b":", (2, 7)), (b"/", (-3, -2)), (b"\xff", (1, -1)),
                              (b"\r", (0, -1)), (b"\0", (3, -1))):
            for place in places:
                at = place % len(text)
                label(bench, text[:at] + wrong + text[at + 1:], 15)
        for other in (text + b" ", b" " + text, text + b"-", text[:-1], text + b"\r", text + b"0",
                      text + b" 00", text[3:], text.replace(b" ", b"  ", 1), text[:1] + b" "
                      + text[1:], text + b" zz"):
            label(bench, other, 15)


# ---- 16 ----------------------------------------------------------------------------------------

def reflected(octets, start, polynomial):
    """A CRC of 16 bits with its bits in the other order, not inverted."""
    for octet in octets:
        start ^= octet
        for _ in range(8):
            start = start // 2 ^ polynomial * (start % 2)
    return start


def other_crcs(code):
    """CRCs that are not the one asked for."""
    yield reflected(code, 0xFFFF, 0x8408)                # not inverted
    for start in (0, 0x1D0F, 0x84CF):
        yield reflected(code, start, 0x8408)             # another start
        yield 0xFFFF - reflected(code, start, 0x8408)
    for start in (0, 0xFFFF, 0x1D0F):                    # the other order of bits
        yield binascii.crc_hqx(code, start)
        yield 0xFFFF - binascii.crc_hqx(code, start)
    for start, polynomial in ((0, 0xA001), (0xFFFF, 0xA001), (0, 0xA6BC), (0xFFFF, 0x1021)):
        yield reflected(code, start, polynomial)         # another polynomial
    yield crc_of(code[::-1])
    yield crc_of(code[:-1])                              # of fewer octets, and of more
    yield crc_of(code[1:])
    yield crc_of(whole(code))
    yield crc_of(code + bytes(1))
    if len(code) < 16:
        yield crc_of(code + bytes(16 - len(code)))       # of all 16 octets that hold a code
    yield crc_of(spelled(code, b""))                     # of the digits
    yield from (0x0000, 0xFFFF)


def add_other_crcs(bench):
    """Every label with CRCs of other kinds, either octet first."""
    for length in LENGTHS:
        code = coded(length, 10)
        right = crc_of(code)
        bench.group(f"code of {length}, 16: DECISIONS, v-crc-octets: the most octet first; v-crc: "
                    "other CRCs")
        label(bench, spelled(code + least_first(right)[::-1]), 16)
        for turn, crc in enumerate(other_crcs(code)):
            sure(right not in (crc, crc >> 8 | crc % 256 << 8), "a CRC that is right", turn)
            label(bench, spelled(code + least_first(crc)), 16)
            if turn % 4 == 0:
                label(bench, spelled(code + least_first(crc)[::-1], b""), 16)
        for bit in range(16 if length == 16 else 0):
            label(bench, spelled(code + least_first(right ^ 1 << bit), b"-"), 16)


def add_altered(bench):
    """Each octet of each label replaced, neighbours swapped, octets moved."""
    for length in LENGTHS:
        octets = whole(coded(length, 11))
        bench.group(f"code of {length}, 16: each octet replaced by three others")
        for place, octet in enumerate(octets):
            for other in (octet ^ 1 << place % 8, octet ^ 0xFF, (octet + 16 * place + 9) % 256):
                sure(other != octet, "an octet that is no other", place)
                label(bench, spelled(put(octets, place, other), (b" ", b"")[place % 2]), 16)
        bench.group(f"code of {length}, 16: neighbours swapped, all turned round, moved by one")
        for place in range(length):
            pair = octets[place:place + 2]
            sure(pair[0] != pair[1], "neighbours that are the same", place)
            label(bench, spelled(octets[:place] + pair[::-1] + octets[place + 2:]), 16)
        for moved in (octets[::-1], octets[1:] + octets[:1], octets[-2:] + octets[:-2],
                      octets[-1:] + octets[:-1]):
            label(bench, spelled(moved), 16)


def add_chained(bench):
    """A label's octets are a code too, whose CRC is always the same."""
    bench.group("the 8 octets of a label taken for a code: the CRC of octets and their CRC is "
                "always 47 0F")
    for turn in range(6):
        inner = whole(coded(6, turn))
        label(bench, spelled(inner), good(coded(6, turn)))
        label(bench, spelled(inner + CRC_OF_CRC), good(inner))
        label(bench, spelled(inner + CRC_OF_CRC[::-1]), 16)
    bench.group("a code with zeros behind it is another code, with another CRC and key")
    for length in LENGTHS[:-1]:
        code = coded(length, 12)
        label(bench, spelled(whole(code)), good(code))
        for longer in LENGTHS[LENGTHS.index(length) + 1:]:
            padded = code + bytes(longer - length)
            label(bench, spelled(whole(padded)), good(padded))
            label(bench, spelled(padded + whole(code)[-2:]), 16)


# ---- lines -------------------------------------------------------------------------------------

def add_long(bench):
    """Texts up to 256 octets, and longer ones, which are bad."""
    bench.group("DECISIONS, v-lines: a text of 255 and of 256 octets: 15; of 257 and more: bad")
    text = spelled(whole(CODES[16]))
    for octet in (b"0", b"F", b" ", b"-", b"z", b"\xff", b"\0", b"#"):
        for count, expect in ((255, 15), (256, 15), (257, "bad")):
            label(bench, octet * count, expect)
        label(bench, text.ljust(256, octet), 15)
        label(bench, text.ljust(257, octet), "bad")
        label(bench, text.rjust(256, octet), 15)
    for text_of_256 in (b"83 " * 85 + b"8", b"83-FE " * 42 + b"83FE", b"\xc3\xa9" * 128):
        label(bench, text_of_256, 15)
        label(bench, text_of_256 + b"3", "bad")
    for count in (258, 300, 512, 513, 1000, 4096, 9000):
        label(bench, b"0" * count, "bad")
    bench.group("a label twice in one text, and two labels")
    for length in LENGTHS:
        text = spelled(whole(CODES[length]))
        for between in (b"", b" ", b"-", b",", b"  ", b"\r", b";"):
            label(bench, text + between + text, 15)
        both = text + b" " + spelled(whole(coded(6)))
        label(bench, both, 16 if length == 8 else 15)  # 10 octets and 8 are 18
        label(bench, text + b"\t" + text, "bad")
        label(bench, text + b"\t", "bad")
        label(bench, b"\t" + text, "bad")
    bench.group("words around a label, and marks of comments")
    for text in (b"#83 FE D3 40 7A 93 2B 70", b"83 FE D3 40 7A 93 2B 70 #", b"label", b"none", b"#",
                 b"83 FE D3 40 7A 93 CRC 2B 70", b"0x83FED3407A932B70", b"83:FE:D3:40:7A:93:2B:70",
                 b"'83 FE D3 40 7A 93 2B 70'", b"83 FE D3 40 7A 93 2B 70\r", b"83FED3407A932B70h"):
        label(bench, text, 15)
    bench.raw("Label\t83 FE D3 40 7A 93 2B 70", "bad")
    bench.raw("labels\t83 FE D3 40 7A 93 2B 70", "bad")
    bench.raw("label 83 FE D3 40 7A 93 2B 70", "bad")


def add_stateless(bench):
    """Labels need no lists, to be read no output, and change no board."""
    bench.group("labels read and printed with lists that are refused elsewhere; nothing changes")
    bench.board(OWN, 9)
    bench.network(0, 3, key(1))
    bench.link(7, key(2))
    bench.open(network_frame(key(1), 3, 8, 5), opened(8, 1, NETWORK_HEADER))
    for turn, rows in enumerate(REFUSED):
        code = coded(LENGTHS[turn % 4], turn)
        bench.lend(116, *rows)
        label(bench, spelled(whole(code)), good(code))
        bench.add("print", code, expect=ok(spelled(whole(code)).decode("ascii")))
    bench.group("DECISIONS, v-room: the reader has no 1")
    for room in (0, 1, 5, 16, 52):
        bench.lend(room, 0, 0)
        label(bench, spelled(whole(CODES[16])), good(CODES[16]))
        label(bench, spelled(put(whole(CODES[16]), 3, 0)), 16)
        label(bench, b"", 15)
    bench.lend()
    bench.state(9, 0, "-")
    bench.heard(0, (0, 8, 6))
    bench.links((0, 7, 0))


def add_labels(bench):
    """All of this file."""
    bench.board()
    for add in (add_published, add_codes, add_gaps, add_doubles, add_inside, add_counts, add_odd,
                add_wrong, add_both_wrong, add_other_crcs, add_altered, add_chained, add_long,
                add_stateless):
        add(bench)
