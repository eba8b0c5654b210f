#!/usr/bin/env python3
"""Brings this repository's own names to the spelling of today's Rattle, after the kit's port.py: once, by text.

    python3 tools/respell.py [FOLDER]       the checkout's top, or FOLDER

Words of definitions, lemmas and their fields go to snake case, in .antt files, in the clauses and ghost imports of .rt
files and in must-fail edits. A name under which a clause imported a definition with a dot in it is spelled without one.
The choice by a test is the library's. Functions of src/, strings, inputs and outputs keep their names.
"""

import re
import sys
from pathlib import Path

ROOT = Path(sys.argv[1] if len(sys.argv) > 1 else Path(__file__).resolve().parent.parent)
CHOICE = "if◌then◌else◌"
WORD = re.compile(r"(?<![\w'])[a-z][\w']*")

# Variables of the files that are letters and not words.
LETTERS = {"kAAt", "kABt", "kBAA"}

# What would fall together: a lemma with a definition.
APART = {"crates/commands/proofs/Bounds.antt": [(r"\bkey_in\b", "key_in-holds")]}

# What port.py leaves to the reader: a reference's own field.
FIELDS = {"crates/octets/specs/Parts.antt": [(r"\bs\.ptr\.", "s.ref_ptr.")]}

# Two definitions of one name in one file keep their module's name; the others go by their own.
BOTH = {"Cipher·sealing": "cipher_sealing", "Seals·sealing": "seals_sealing"}


def snake(word):
    if word in LETTERS or not re.search(r"[a-z0-9][A-Z]", word):
        return word
    return re.sub(r"(?<=[a-z0-9])[A-Z]|(?<=[A-Z])[A-Z]", lambda m: "_" + m[0].lower(), word).lower()


def respelled(text):
    text = text.replace("getD-", "get_or-")
    return WORD.sub(lambda m: snake(m[0]), text)


def undotted(text):
    """`name as Module·name` is `name`; where another name stood before it, or two share one, that is kept."""

    def imported(m):
        name, alias = m[1], m[2]
        plain = BOTH.get(alias, alias.split("·")[1])
        return name if name == plain else f"{name} as {plain}"

    text = re.sub(r"([\w'-]+) as ([A-Z]\w*·[\w']+)", imported, text)
    return re.sub(r"(?<![\w·])([A-Z][A-Za-z]*·[a-z][\w']*)", lambda m: BOTH.get(m[1], m[1].split("·")[1]), text)


def choice_from_std(text):
    """The library has this choice. An import of ours becomes one of the library's."""

    def without(m):
        names = [n.strip() for n in m[3].split(",")]
        if CHOICE not in names:
            return m[0]
        names.remove(CHOICE)
        ghost, end = m[1], m[4]
        lines = f"{ghost}use Rattle.std.specs.Prelude.{{{CHOICE}}}{end}"
        if names:
            lines += f"\n{ghost}use {m[2]}.{{{', '.join(names)}}}{end}"
        return lines

    return re.sub(r"(?m)^((?:ghost )?)use (Rattle\.octets\.specs\.Choice)\.\{([^}]*)\}(;?)$", without, text)


def turned(path, text):
    where = str(path.relative_to(ROOT))
    for old, new in APART.get(where, []) + FIELDS.get(where, []):
        text = re.sub(old, new, text)
    return choice_from_std(respelled(undotted(text)))


def main():
    for path in sorted((ROOT / "crates").rglob("*")):
        if path.suffix in (".antt", ".rt", ".edit") and "out" not in path.parts:
            text = path.read_text()
            new = turned(path, text)
            if new != text:
                path.write_text(new)
    choice = ROOT / "crates/octets/specs/Choice.antt"
    text = choice.read_text()
    start, end = text.find("infix 5 if"), text.find("-- both tests pass")
    if 0 <= start < end:
        choice.write_text(text[:start] + text[end:])


main()
