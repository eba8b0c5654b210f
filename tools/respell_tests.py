#!/usr/bin/env python3
"""Spells the tests of numbers in definitions and clauses as today's library does: a == b, nat_lt, nat_le. Once, by text.

    python3 tools/respell_tests.py [FOLDER]       the checkout's top, or FOLDER

It turns the files of specs/, the ghost lines of src/ and the must-fail edits of definitions; a second run changes nothing.
Each is the same function under another name, so no meaning moves.
"""

import re
import sys
from pathlib import Path

ROOT = Path(sys.argv[1] if len(sys.argv) > 1 else Path(__file__).resolve().parent.parent)
SAME = {"ltb": "nat_lt", "leb": "nat_le"}
WORDS = re.compile(r"(?<![\w.'-])(eqb|nat_eq|ltb|leb)(?![\w'-])")


def argument(text, at):
    """The argument that starts at a place of the text: where it ends. None where there is no whole one."""
    if text[at] == "(":
        deep = 0
        for i in range(at, len(text)):
            deep += (text[i] == "(") - (text[i] == ")")
            if deep == 0:
                end = i + 1
                break
        else:
            return None
    else:
        word = re.compile(r"[\w'₀-₉-]+").match(text, at)
        if not word:
            return None
        end = word.end()
    more = re.compile(r"(?:\.[\w'-]+)+").match(text, end)
    return more.end() if more else end


def bare(part):
    """An argument without its brackets, where only words stand in them."""
    inside = part[1:-1]
    return inside if part[0] == "(" and re.fullmatch(r"[\w'.₀-₉ -]+", inside) and not part.endswith(".") else part


def equations(line):
    at = 0
    while m := WORDS.search(line, at):
        at = m.end()
        if m[1] not in ("eqb", "nat_eq") or at >= len(line) or line[at] != " ":
            continue
        first = argument(line, at + 1)
        if first is None or first >= len(line) or line[first] != " ":
            continue
        second = argument(line, first + 1)
        if second is None:
            continue
        both = bare(line[at + 1:first]) + " == " + bare(line[first + 1:second])
        line = line[:m.start()] + both + line[second:]
        at = m.start() + len(both)
    return WORDS.sub(lambda m: SAME.get(m[1], "nat_eq" if m[1] == "eqb" else m[1]), line)


def imports(lines):
    """The names that the text below asks for, in the library's import lines."""
    body = "\n".join(l for l in lines if not re.match(r"(ghost )?use ", l.strip()))
    out = []
    for line in lines:
        m = re.match(r"((?:ghost )?use Rattle\.std\.specs\.Prelude\.\{)([^}]*)(\};?)$", line)
        if m:
            names = [n.strip() for n in m[2].split(",") if n.strip()]
            if {"eqb", "ltb", "leb", "nat_eq", "◌==◌"} & set(names):
                kept = [n for n in names if n not in ("eqb", "ltb", "leb", "nat_eq", "nat_lt", "nat_le", "◌==◌")]
                asked = [n for n, there in (
                    ("◌==◌", " == " in body),
                    ("nat_eq", re.search(r"\bnat_eq\b", body)),
                    ("nat_lt", re.search(r"\bnat_lt\b", body)),
                    ("nat_le", re.search(r"\bnat_le\b", body))) if there]
                line = m[1] + ", ".join(kept + asked) + m[3]
        out.append(line)
    return out


def turned(path, text):
    lines = text.split("\n")
    for i, line in enumerate(lines):
        comment = line.lstrip().startswith(("--", "//", "#"))
        if path.suffix == ".edit":
            clause = line.startswith(("old:", "new:")) and "specs/" in text
        else:
            clause = path.suffix == ".antt" or re.search(r"\b(ensures|requires)\b.*\{", line)
        if clause and not comment and not re.match(r"(ghost )?use |(old|new): use ", line.strip()):
            lines[i] = equations(line)
    return "\n".join(imports(lines))


def main():
    for path in sorted((ROOT / "crates").rglob("*")):
        if "out" in path.parts or not path.is_file():
            continue
        in_specs = path.suffix == ".antt" and "specs" in path.parts
        if in_specs or path.suffix in (".rt", ".edit"):
            text = path.read_text()
            new = turned(path, text)
            if new != text:
                path.write_text(new)


main()
