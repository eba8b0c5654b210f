"""The script of `bench`: the desk itself, lines that are bad, and how lines end.

The bench language, "Lines"; the points of docs/DECISIONS.md, "The bench
language", are named in the script's comments, v-lines beside them.
"""

from ..lines import address, ok, run_of
from ..model import mmo
from .tools import (ALL_ONES, COMMAND_HEADER, NETWORK_HEADER, OWN, TOP, WELL_KNOWN, aps_frame, key,
                    network_frame, no, opened)

OTHER = 0x00124B00AABBCCDD
A, K, F = address(OTHER), key(1).hex(), "0800fcff00001e0155"
SWITCH_KEY = "410709" + "05"
INNER = "210520" + "00" * 17
TUNNEL = "41070e" + "ddccbbaa004b1200" + INNER
CODE, LABEL = "83fed3407a93", "83 FE D3 40 7A 93 2B 70"
LINK_KEY = "cd4fa064773f46941ec986c09963d1a8"
HANDED_ON = ok(A, INNER, "2105", "20" + "00" * 12, "00", "00" * 4)

WRONG_ADDRESSES = ("", A[1:], A + "0", A[2:], A + "00", A[:-1] + "g", "0x" + A[2:], " " + A[1:],
                   A + " ", A + "\r", A + "\0", A[:-2] + "é", "-" + A[1:], A[:8] + " " + A[9:])
WRONG_KEYS = (K[1:], K + "0", K[2:], K + "00", "", K[:-1] + "G", " " + K[1:], K + "\r",
              K[:-2] + "é", K[:-1] + "\0", "0x" + K[2:])
WRONG_FRAMES = ("0", "abc", "0g", "g0", " 0107", "0107 ", "01 07", "0x0107", "0107\r", "01\0007",
                "é0", "+1", "-1", "none", "00" * 257, "00" * 256 + "0", "00" * 300)
WRONG_OCTETS = ("", "256", "00", "01", "007", "-1", "+1", "1 ", " 1", "1.0", "a", "0x1", "1e1",
                "1000", "65536", "4294967296", "18446744073709551616", "1" * 400, "0" * 400,
                "1\r", "1\0", "\0", "１", "²", "٣", "1_0", "none")
WRONG_COUNTERS = ("", "4294967296", "04294967295", "00", "01", "-1", "+1", "5 ", " 5", "5\r",
                  "4294967295.", "42949672950", "18446744073709551615", "18446744073709551616",
                  "99999999999999999999999999", "1" * 400, "0" * 400, "ffffffff", "１", "5\0")
WRONG_SHORTS = ("", "65536", "065535", "00", "-1", "+1", "64 ", " 64", "64\r", "100000",
                "4294967360", "18446744073709551680", "1" * 400, "0x40", "６４")
WRONG_PROTECTIONS = ("None", "NONE", "non", "nones", "256", "01", "00", "", "-", "-1", " none",
                     "none ", "none\r", "none\0", "1000", "é")

WRONG_TEXTS = ("0" * 257, " " * 257, LABEL.ljust(257), LABEL.rjust(257, "0"), "é" * 129,
               "\0" * 257, "\r" * 300, LABEL * 100, LABEL + "\t", "\t" + LABEL, "\t")

SAMPLES = {"A": A, "K": K, "F": F, "B": "1", "C": "7", "S": "64", "T": "0", "P": "", "X": LABEL}
WRONG = {"A": WRONG_ADDRESSES, "K": WRONG_KEYS, "F": WRONG_FRAMES, "B": WRONG_OCTETS,
         "C": WRONG_COUNTERS, "S": WRONG_SHORTS, "T": WRONG_PROTECTIONS, "P": WRONG_FRAMES,
         "X": WRONG_TEXTS}

FORMS = (("board", "A"), ("board", "AC"), ("lend", "SSS"), ("network", "BBK"), ("switch", "B"),
         ("link", "AK"), ("unlink", "A"), ("forget", "BA"), ("open", "F"), ("openaps", "AF"),
         ("seal", "F"), ("sealaps", "ABF"), ("read", "TF"), ("tlv", "TBF"), ("route", "TF"),
         ("hash", "F"), ("keyedhash", "KF"), ("state", ""), ("heard", "B"), ("links", ""),
         ("label", "X"), ("print", "F"), ("mark", ""), ("marked", "C"))
COMMANDS = (("transport1", "PBAA"), ("transport4", "PAAP"), ("transport2", "PABP"),
            ("transport3", "PABP"), ("update", "ASBP"), ("remove", "A"), ("request2", "A"),
            ("request4", ""), ("switchkey", "B"), ("tunnel", "AP"), ("verify", "BAP"),
            ("confirm", "BBA"), ("down", "P"), ("up", "P"))
BOARDLESS = ("board", "lend", "read", "tlv", "route", "hash", "keyedhash", "label", "print")


def good_fields(kinds):
    """A well-formed field for each kind."""
    return [SAMPLES[kind] for kind in kinds]


def all_forms():
    """Each line's words and the kinds of its fields."""
    for word, kinds in FORMS:
        yield (word,), kinds
    for i, (word, kinds) in enumerate(COMMANDS):
        yield ("write", ("ack", "noack")[i % 2], word), kinds


def add_without_board(bench):
    """Before any board, and behind refused and bad ones."""
    bench.group("no board yet: bad, whatever the line would be answered with")
    for words, kinds in all_forms():
        if words[0] not in BOARDLESS:
            bench.add(*words, *good_fields(kinds), expect="bad")
    bench.group("these need none")
    bench.lend(256, 1024, 1024)
    bench.lend(107, 0, 1)
    bench.add("read", "none", SWITCH_KEY, expect=ok("switchkey", 5))
    bench.add("read", 1, SWITCH_KEY, expect=no(14))
    bench.add("tlv", "none", 0, SWITCH_KEY, expect=ok(""))
    bench.add("route", "none", TUNNEL, expect=HANDED_ON)
    for under, frame, number in (("none", SWITCH_KEY, 11), (0, TUNNEL, 12), (1, TUNNEL, 14)):
        bench.add("route", under, frame, expect=no(number))
    bench.add("hash", "", expect=ok(mmo.digest(b"")))
    bench.add("keyedhash", WELL_KNOWN, "00", expect=ok(mmo.keyed(WELL_KNOWN, b"\0")))
    bench.add("keyedhash", WELL_KNOWN, bytes(241), expect=no(2))
    add_labels_without_board(bench)
    bench.lend()
    bench.group("DECISIONS, board-refused: a refused board is none, and so is a bad one")
    for fields in ((address(0),), (address(ALL_ONES),), (address(0), 5), (address(ALL_ONES), TOP)):
        bench.add("board", *fields, expect=no(14))
        bench.add("state", expect="bad")
    bench.add("board", A[1:], expect="bad")
    bench.add("board", A, TOP + 1, expect="bad")
    bench.add("links", expect="bad")


def add_labels_without_board(bench):
    """Labels before any board."""
    bench.group("labels need none either")
    for text, expect in ((LABEL, ok(CODE, LINK_KEY)), (LABEL.lower(), ok(CODE, LINK_KEY)),
                         (LABEL.replace(" ", ""), ok(CODE, LINK_KEY)), ("", no(15)),
                         (LABEL + " ", no(15)), (LABEL[:-2] + "71", no(16)), ("0" * 256, no(15)),
                         ("0" * 257, "bad"), (LABEL + "\t", "bad")):
        bench.raw("label\t" + text, expect)
    bench.add("print", CODE, expect=ok(LABEL))
    for code, number in ((CODE + "00", 15), ("", 15), ("00" * 256, 15)):
        bench.add("print", code, expect=no(number))
    bench.add("print", "00" * 257, expect="bad")
    for room, expect in ((0, no(1)), (22, no(1)), (23, ok(LABEL)), (256, ok(LABEL))):
        bench.lend(room)
        bench.add("print", CODE, expect=expect)
        bench.add("print", CODE + "00", expect=no(15))


def add_example(bench):
    """The example of the bench language, with the mark that it needs by document 02 (vi)."""
    bench.group("the example of the bench language")
    bench.raw("board\t0000000000000002", "ok")
    bench.raw("network\t0\t0\tabcdef01234567890000000000000000", "ok")
    bench.raw("switch\t0", "ok")
    bench.raw("mark", "ok\t1024")
    bench.raw("marked\t1024", "ok")
    plain = bytes.fromhex("0800fcff00001e01")
    bench.raw("seal\t0800fcff00001e01", ok(network_frame(
        bytes.fromhex("abcdef01234567890000000000000000"), 0, 2, 0, header=plain)))
    bench.raw("state", "ok\t1\t0\t0\t1024")


def add_boards(bench):
    """Boards made, made again and refused; lends that hold."""
    bench.group("fresh boards")
    for own, counter in ((1, None), (ALL_ONES - 1, None), (OWN, 0), (OWN, 7), (OWN, TOP)):
        bench.board(own, counter)
        bench.state(counter or 0, 0, "-")
        bench.heard(0)
        bench.heard(1)
        bench.links()
    bench.group("DECISIONS, board-refused: board refused or bad: board, lists and counters stay")
    bench.board(OWN, 9)
    bench.network(0, 3, key(1))
    bench.add("switch", 3, expect="ok")
    bench.link(OTHER, key(2))
    bench.open(network_frame(key(1), 3, OTHER, 5), opened(OTHER, 1, NETWORK_HEADER))
    for fields, expect in (((address(0),), no(14)), ((address(ALL_ONES), 1), no(14)),
                           ((A, "07"), "bad"), ((A, ""), "bad"), ((A, 1, 1), "bad")):
        bench.add("board", *fields, expect=expect)
        bench.state(9, 0, 0)
        bench.heard(0, (0, OTHER, 6))
        bench.links((0, OTHER, 0))
    add_kept_lends(bench)


def add_kept_lends(bench):
    """A fresh board with the same address, and lends that hold."""
    bench.group("the same address again: all is fresh")
    bench.board()
    bench.state(0, 0, "-")
    bench.heard(0)
    bench.links()
    bench.add("switch", 3, expect=no(13))
    bench.group("DECISIONS, lend-outlives-board: a new board keeps the lend; lend-keeps-rows: a "
                "lend changes no row")
    bench.lend(116, 63, 64)
    bench.board()
    bench.network(0, 3, key(1), no(1))
    bench.lend()
    bench.network(0, 3, key(1))
    frame = network_frame(key(1), 3, OTHER, 5)
    bench.open(frame, opened(OTHER, 1, NETWORK_HEADER))
    bench.lend(0, 0, 0)
    bench.group("DECISIONS, iii-row-numbers: heard goes by the lent lists and judges them alone; "
                "bad-or-refused: 2 is bad whatever is lent")
    for slot, expect in ((0, no(1)), (1, no(1)), (2, "bad"), (255, "bad")):
        bench.add("heard", slot, expect=expect)
    bench.lend(0, 64, 64)
    bench.heard(0, (0, OTHER, 6))
    bench.add("heard", 2, expect="bad")
    bench.lend(256, 1024, 1024)
    bench.heard(0, (0, OTHER, 6))
    bench.lend()
    bench.open(frame, no(8) + "\tgenuine")


def add_lends(bench):
    """The limits of a lend."""
    bench.board()
    bench.group("lend: limits; a bad lend changes nothing")
    for lent in ((257, 64, 64), (116, 1025, 64), (116, 64, 1025), (65535, 65535, 65535),
                 (65536, 64, 64), (256, 1024, 65536)):
        bench.add("lend", *lent, expect="bad")
        bench.add("seal", F, expect=no(6))
    for lent in ((256, 1024, 1024), (0, 0, 0), (1, 1, 1), (115, 64, 64), (116, 64, 64)):
        bench.add("lend", *lent, expect="ok")
        bench.add("seal", F, expect=no(1) if lent[0] < 116 else no(6))


def add_desk(bench):
    """What boards and lends do."""
    add_example(bench)
    add_boards(bench)
    add_lends(bench)


def add_fields(bench):
    """Every field of every line malformed or beyond its range; too few and too many fields."""
    bench.group("DECISIONS, bad-or-refused and octets-of-a-line: malformed fields and fields "
                "beyond their range")
    turn = {kind: 0 for kind in WRONG}
    for words, kinds in all_forms():
        fields = good_fields(kinds)
        for place, kind in enumerate(kinds):
            texts = WRONG[kind]
            count = len(texts) if turn[kind] == 0 else 3
            for i in range(count):
                text = texts[(turn[kind] + i) % len(texts)]
                bench.add(*words, *fields[:place], text, *fields[place + 1:], expect="bad")
            turn[kind] += count
    bench.group("one field less, one more, an empty one more")
    for words, kinds in all_forms():
        whole = [*words, *good_fields(kinds)]
        if len(whole) > 1 and (words[0] != "board" or kinds == "A"):
            bench.add(*whole[:-1], expect="bad")
        if words[0] != "board" or kinds == "AC":
            bench.add(*whole, "0", expect="bad")
        if words[0] != "write" or len(kinds) % 2:
            bench.add(*whole, "", expect="bad")


def add_words(bench):
    """Words that are none, and blanks, carriage returns and other octets around good lines."""
    bench.group("words that are none")
    for line in ("boards\t" + A, "boar\t" + A, "BOARD\t" + A, "Board\t" + A, "hashes\t00",
                 "has\t00", "routes\tnone\t" + TUNNEL, "rout\tnone\t" + TUNNEL,
                 "Route\tnone\t" + TUNNEL, "route\tack\t" + TUNNEL, "route\tnone " + TUNNEL,
                 "states", "stat", "State", "marks", "mar", "Mark", "MARKED\t1029",
                 "markd\t1029", "mark ed\t1029", "marked 1029", "link",
                 "open aps\t" + A + "\t" + F, "writeack",
                 "write", "write\tack", "write\tnoack", "write\tACK\trequest4",
                 "write\tacks\trequest4",
                 "write\t\trequest4", "write\trequest4", "write\tack\tRequest4",
                 "write\tack\ttransport", "write\tack\ttransport5\t" + K, "write\tack\trequest3",
                 "write\tack\tswitch\t1", "write\tnone\trequest4", "0", "-", "ok", "refused",
                 "bad"):
        bench.raw(line, "bad")
    bench.group("DECISIONS, octets-of-a-line: blanks, carriage return, NUL and octets beyond ASCII "
                "are bad")
    for line in (b"state ", b" state", b"state\r", b"state\0", b"\0state", b"\0", b"\r", b" ",
                 b"\t",
                 b"\t\t\t", b"\tstate", b"state\t", b"hash 00", b"hash\t\t00", b"\xef\xbb\xbfstate",
                 b"\xff", b"\x80state", b"stat\xe9", b"\xc3\xa9", b"state\x7f", b"state\x0b",
                 b"state\x0c", b" # no comment", b"\t# no comment", b"\r# no comment", b"\0#",
                 b"hash\t\xff\xfe", b"hash\t00\x00", b"hash\t00\r\r", b"hash\xa000",
                 b"hash\t\xef\xbc\x90\xef\xbc\x90", b"heard\t\xc2\xb9", b"switch\t\xd9\xa1"):
        bench.raw(line, "bad")
    bench.group("every other single octet is a bad line")
    for octet in range(256):
        if octet not in (0x0A, 0x23, 0x00, 0x09, 0x0D, 0x20, 0xFF):
            bench.raw(bytes([octet]), "bad")


def add_overlong(bench):
    """Lines longer than any good one."""
    bench.group("DECISIONS, octets-of-a-line: a line of any length gets an answer")
    for line in ("x" * 1000, "x" * 4095, "x" * 4096, "x" * 4097, "state" + " " * 5000, "\t" * 3000,
                 "hash\t" + "0" * 513, "hash\t" + "0" * 514, "hash\t" + "00" * 2048,
                 "hash\t" + "00" * 8192, "hash\t" + "00" * 256 + "\t" + "00" * 3000,
                 "switch\t" + "0" * 3000, "switch\t1" + "0" * 3000, "state" + "\tstate" * 700,
                 "state" + "\0" * 9000, "board\t" + A * 100, "z" * 70000):
        bench.raw(line, "bad")
    bench.raw("#" + "x" * 5000)
    bench.raw("# " + "state\t" * 1000)
    bench.raw(b"#" + bytes(range(11, 256)))
    longest = run_of(256)
    bench.group("the longest good lines: the greatest fields are read, and refused or hashed")
    bench.add("write", "noack", "transport4", longest, A, A, longest, expect=no(11))
    bench.add("openaps", A, longest, expect=no(2))
    bench.add("tlv", "none", 255, longest, expect=ok(""))
    bench.add("route", "none", longest, expect=no(2))
    bench.add("hash", longest, expect=ok(mmo.digest(longest)))
    bench.add("print", longest, expect=no(15))
    bench.raw(b"label\t" + b"\xff" * 256, no(15))


def add_fine(bench):
    """Lines that only look odd."""
    bench.board()
    bench.group("fine: empty lines, comments, either case of hex, empty fields")
    for line in ("", "#", "", "", "#state", "#\tstate", "##", "# é", "#\0", "#\r", ""):
        bench.raw(line)
    bench.raw("hash\tC0", ok(mmo.digest(b"\xc0")))
    bench.raw("hash\tcDeF", ok(mmo.digest(b"\xcd\xef")))
    bench.raw("keyedhash\t" + K.upper() + "\tAbcD", ok(mmo.keyed(key(1), b"\xab\xcd")))
    bench.raw("link\t" + A.upper() + "\t" + K.upper(), "ok")
    bench.raw("link\t" + A + "\t" + K, "ok")
    bench.links((0, OTHER, 0))
    bench.raw("openaps\t" + A + "\t" + aps_frame(key(1), 0, OTHER, 4, b"\xab").hex().upper(),
              opened(OTHER, 0, COMMAND_HEADER + b"\xab"))
    bench.raw("route\tnone\t" + TUNNEL.upper(), HANDED_ON)
    bench.raw("print\t" + CODE.upper(), ok(LABEL))
    bench.raw("label\t" + LABEL.lower(), ok(CODE, LINK_KEY))
    bench.group("DECISIONS, empty-hex: empty hex is an empty field, read and written")
    bench.raw("hash\t", ok(mmo.digest(b"")))
    bench.raw(f"keyedhash\t{K}\t", ok(mmo.keyed(key(1), b"")))
    bench.raw("open\t", no(3))
    bench.raw(f"openaps\t{A}\t", no(3))
    bench.raw("seal\t", no(3))
    bench.raw(f"sealaps\t{A}\t0\t", no(3))
    bench.raw("read\tnone\t", no(3))
    bench.raw("tlv\tnone\t0\t", "ok\t")
    bench.raw("route\tnone\t", no(3))
    bench.raw("print\t", no(15))
    bench.group("DECISIONS, v-lines: an empty text is a field like another")
    bench.raw("label\t", no(15))


def add_bad_lines(bench):
    """All of this file that needs a board, on one that nothing may change."""
    bench.board(OWN, 5)
    bench.step()
    bench.network(0, 3, key(1))
    bench.add("switch", 3, expect="ok")
    bench.link(OTHER, key(2))
    bench.open(network_frame(key(1), 3, OTHER, 5), opened(OTHER, 1, NETWORK_HEADER))
    bench.add("write", "ack", "request4", expect=ok("41000804"))
    add_fields(bench)
    add_words(bench)
    add_overlong(bench)
    bench.group("nothing changed")
    bench.state(5, 1, 0)
    bench.heard(0, (0, OTHER, 6))
    bench.heard(1)
    bench.links((0, OTHER, 0))
    bench.seal(NETWORK_HEADER, ok(network_frame(key(1), 3, OWN, 5)))


def add_last(bench):
    """The last line, which has no line feed."""
    bench.group("DECISIONS, end-of-input: the last line has no line feed")
    bench.add("hash", "c0", expect=ok("ae3a102a28d43ee0d4a09e22788b206c"))  # Annex C.5.1
