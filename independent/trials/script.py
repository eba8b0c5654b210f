"""The script of the program `trials`."""

from ..lines import Script, ok
from .frames import PLAIN, add_frames
from .halls import add_halls
from .keys import K, LAST, OWN, P1, add_keys, links, rows, show, slots
from .marks import add_marks

KEY = K.hex()
# A good line of each word, and the kind of each of its fields.
LINES = (
    ("board", "A", OWN), ("lend", "SS", 64, 64), ("network", "BBK", 0, 3, K), ("switch", "B", 3),
    ("link", "AK", P1, K), ("unlink", "A", P1), ("forget", "BA", 0, P1),
    ("setslot", "PPBK", 0, 1, 3, K), ("setlink", "EPAKC", 0, 1, P1, K, 7),
    ("setrow", "RAC", 0, P1, 7), ("setactive", "B", 0), ("slots", ""), ("links", ""), ("rows", ""),
    ("counters", ""), ("frame", "F", PLAIN), ("apsframe", "AF", P1, "0199"),
    ("plainframe", "F", PLAIN), ("plainaps", "F", "0199"), ("nonce", "ACB", P1, 5, 40),
    ("aux", "BCAB", 1, 5, P1, 7), ("auth", "BBF", 0, 1, PLAIN), ("clear", "PBF", 0, 8, PLAIN),
    ("raise", "PBF", 0, 8, PLAIN), ("mark", ""), ("marked", "C", 1024), ("setmark", "C", 7),
)
# What each kind does not hold.
WRONG = {
    "A": (P1[1:], P1 + "0", "", "g" + P1[1:], P1 + " ", "0x" + P1[2:], P1 + "\r", "00" * 7),
    "K": (KEY[:-1], KEY + "0", KEY[:-2], KEY + "00", "", "g" + KEY[1:], " " + KEY[1:]),
    "F": ("0", "0g", "00" * 257, "00 ", "0x", "é0", PLAIN + "\r", "0" * 513),
    "B": ("256", "00", "", "-1", "01", "a", "1 ", "+1", "1.", "18446744073709551616"),
    "C": ("4294967296", "00", "", "4294967295 ", "042949672", "-1", "18446744073709551617",
          "99999999999999999999999999"),
    "P": ("2", "01", "", "10", "true", "255"),
    "S": ("1027", "064", "", "-64", "2048", "65536"),
    "R": ("1026", "00", "", "1027", "65536", "-0"),
    "E": ("8", "07", "", "255", "-1", "256"),
}


def add_bad_fields(script):
    """Each field of each word with values that its kind does not hold, two in turn."""
    script.group("bad: fields")
    turn = dict.fromkeys(WRONG, 0)
    for word, kinds, *fields in LINES:
        for i, kind in enumerate(kinds):
            for _ in range(2):
                wrong = WRONG[kind][turn[kind] % len(WRONG[kind])]
                turn[kind] += 1
                script.add(word, *fields[:i], wrong, *fields[i + 1:], expect="bad")


def add_bad_counts(script):
    """Each word with a field too few and too many."""
    script.group("bad: number of fields")
    for word, _, *fields in LINES:
        if fields:
            script.add(word, *fields[:-1], expect="bad")
        script.add(word, *fields, "", expect="bad")


def add_bad_words(script):
    """What is no word, and lines that no word starts."""
    script.group("bad: words")
    for line in ("boards\t" + OWN, "BOARD\t" + OWN, "boar\t" + OWN, " board\t" + OWN, "\tboard",
                 "board " + OWN, "heard\t0", "open\t" + PLAIN, "slots\r", "slots ", "slot", "\r",
                 "\t", " ", " # no comment", "links\x00", "é", "room", "255", "-", "marks", "Mark",
                 "marked 1024", "set mark\t7"):
        script.raw(line, "bad")
    script.group("bad: overlong, with a word and without; a long comment stays silent")
    script.raw("frame\t" + "0" * 5000, "bad")
    script.raw("slots" + "\t" * 2043, "bad")
    script.raw("slots" + "\t" * 2044, "bad")
    script.raw("x" * 9000, "bad")
    script.raw("#" + "x" * 9000)


def add_bad(script):
    """Lines that are not the language's, on a board that none of them changes."""
    script.group("a board that bad lines leave as it is")
    script.add("board", OWN, expect="ok")
    for line in (("network", 1, 9, K), ("switch", 9), ("link", P1, LAST), ("setrow", 1025, P1, 5)):
        script.add(*line, expect="ok")
    add_bad_fields(script)
    add_bad_counts(script)
    add_bad_words(script)
    script.group("nothing changed")
    show(script, counters=ok(OWN, 0, 0, 0), slots=slots((0, 0, bytes(16)), (1, 9, K), 1),
         links=links({0: (1, P1, LAST, 0)}), rows=rows((1025, P1, 5)))
    script.add("network", 1, 9, K, expect="ok")


def add_fine(script):
    """Lines that only look bad."""
    script.group("fine: empty lines, comments, either case of hex, empty octets, greatest values")
    for line in ("", "#", "#\tslots", "", "# \x00é\r"):
        script.raw(line)
    script.raw("board\tABCDEF0123456789", "ok")
    script.add("counters", expect=ok("abcdef0123456789", 0, 0, 0))
    script.raw("link\tABCDEF01234567aB\t" + "Ab" * 16, "ok")
    script.add("links", expect=links({0: (1, "abcdef01234567ab", b"\xab" * 16, 0)}))
    script.raw("frame\t0800FCFF00001E01", ok("plain", 8))
    script.raw("auth\t0\t2\tFDFE", ok("fdfe" + "ee" * 30))
    script.raw("frame\t", "refused\t3\tshort")
    script.raw("apsframe\t" + P1 + "\t", "refused\t3\tshort")
    for lent in ((0, 1026), (1026, 0), (64, 64)):
        script.add("lend", *lent, expect="ok")
    script.add("setrow", 1025, "f" * 16, 4294967295, expect="ok")
    script.add("setlink", 7, 1, "f" * 16, b"\xff" * 16, 4294967295, expect="ok")
    script.add("rows", expect=rows((1025, "f" * 16, 4294967295)))
    script.group("the last line has no line feed")
    script.add("counters", expect=ok("abcdef0123456789", 0, 0, 0))


def make_script():
    """The whole script."""
    script = Script()
    add_keys(script)
    add_halls(script)
    add_frames(script)
    add_marks(script)
    add_bad(script)
    add_fine(script)
    return script
