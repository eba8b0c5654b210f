"""What every program that talks in lines has: fields, refusals, answers, scripts."""

import random
import re

WORDS = ("room", "long", "short", "form", "security", "nokey", "top", "stale", "forged", "full",
         "command", "protection", "absent", "argument",  # document 01's numbers 1 to 14
         "label", "crc",                                 # document 02's 15 and 16, by (v)
         "mark")                                         # and 17, by (vi)


class Bad(Exception):
    """The line is none of the language's."""


class Refused(Exception):
    """A refusal by its number in document 01 or 02."""

    def __init__(self, number):
        super().__init__(number)
        self.number = number


class Wrong(Exception):
    """Something is not as it must be; what, in words."""


def sure(holds, what, *seen):
    """Stops with words where something that must hold doesn't."""
    if not holds:
        raise Wrong(": ".join(map(str, (what, *seen))))


def refuse_if(condition, number):
    """Refuses with the number where the condition holds."""
    if condition:
        raise Refused(number)


def hex_field(least, most):
    """The reader of a hex field of least to most octets, digits of either case."""
    def read(field):
        if not re.fullmatch(rb"(?:[0-9A-Fa-f]{2})*", field) or not least <= len(field) // 2 <= most:
            raise Bad
        return bytes.fromhex(field.decode("ascii"))
    return read


def address_field(field):
    """An address of 16 hex digits, most significant first."""
    return int.from_bytes(hex_field(8, 8)(field), "big")


def decimal_field(most):
    """The reader of a decimal field from 0 to most, without a leading zero."""
    def read(field):
        if not re.fullmatch(rb"0|[1-9][0-9]*", field) or len(field) > 20 or int(field) > most:
            raise Bad
        return int(field)
    return read


def text_field(most):
    """The reader of a field of any octets but tabs, most of them at most."""
    def read(field):
        if len(field) > most:
            raise Bad
        return field
    return read


def ok(*fields):
    """The answer that gives fields; octets are written as hex."""
    return "\t".join(["ok", *(f.hex() if isinstance(f, bytes) else str(f) for f in fields)])


def refused(number):
    """The answer that refuses."""
    return f"refused\t{number}\t{WORDS[number - 1]}"


def address(number):
    """An address as it is written."""
    return f"{number:016x}"


def run_of(length, start=3):
    """Octets start, start + 7, start + 14, ... modulo 256."""
    return bytes((7 * i + start) % 256 for i in range(length))


def flip(octets, bit):
    """The octets with one bit changed; bits are counted from the first octet's lowest."""
    bit %= 8 * len(octets)
    return bytes(o ^ (1 << bit % 8 if i == bit // 8 else 0) for i, o in enumerate(octets))


def run_line(words, line):
    """The answer to a line, without its number. Words have readers of fields and an action that
    gives the fields behind `ok`."""
    word, *fields = line.split(b"\t")
    try:
        if word not in words or len(fields) != len(words[word][0]):
            raise Bad
        readers, action = words[word]
        return ok(*action(*[read(field) for read, field in zip(readers, fields)]))
    except Bad:
        return "bad"
    except Refused as refusal:
        return refused(refusal.number)


def lines_of(script):
    """The lines of a script; the last may lack its line feed."""
    lines = script.split(b"\n")
    return lines[:-1] if lines[-1] == b"" else lines


def answers(desk, script):
    """A desk's answers to a script, by line number."""
    return {n: desk.answer(line) for n, line in enumerate(lines_of(script), 1)
            if line and not line.startswith(b"#")}


def written(given):
    """Answers as the program writes them."""
    return "".join(f"{n}\t{text}\n" for n, text in given.items()).encode("ascii")


def as_expected(n, line, expected, given):
    """Stops where a line's answer is not the one that its author expects."""
    if given != expected:
        raise Wrong(f"line {n}, {line!r}: expected {expected!r}, our answer is {given!r}")


class Chance:
    """Chosen at random, but the same in every run: only `random()` is promised to stay."""

    def __init__(self, seed):
        self.source = random.Random(seed)

    def below(self, n):
        """A number below n."""
        return int(self.source.random() * n)

    def pick(self, options):
        """One of the options."""
        return options[self.below(len(options))]


class Script:
    """Lines, and for many of them the answer that their author expects."""

    def __init__(self):
        self.lines = []
        self.expected = {}

    def raw(self, line, expect=None):
        """Adds a line as it stands, text or octets."""
        self.lines.append(line if isinstance(line, bytes) else line.encode("utf-8"))
        if expect is not None:
            self.expected[len(self.lines)] = expect

    def add(self, *fields, expect=None):
        """Adds a line of fields; octets are written as hex."""
        self.raw("\t".join(f.hex() if isinstance(f, bytes) else str(f) for f in fields), expect)

    def group(self, title):
        """Adds the comment that names a group."""
        self.raw("# " + title)

    def text(self):
        """The script, its last line without a line feed."""
        return b"\n".join(self.lines)
