"""The files stored for a program, stdin and stdout, and the four ways to run its subject."""

import sys
from pathlib import Path

from . import lines

ROOT = Path(__file__).resolve().parent.parent


def made_by(script, desk):
    """Input and output of a program, every expected answer compared first."""
    given = lines.answers(desk, script.text())
    for n, expected in script.expected.items():
        lines.as_expected(n, script.lines[n - 1], expected, given.get(n))
    return {"stdin": script.text(), "stdout": lines.written(given)}


def shown(path):
    """A path as it is told: from the repository's folder where it lies in it."""
    return path.relative_to(ROOT) if path.is_relative_to(ROOT) else path


def check(name, folder, files):
    """Compares stored files with what is made; the exit code."""
    code = 0
    for file, octets in files.items():
        path = folder / file
        if not path.is_file():
            print(f"{shown(path)} is missing")
            code = 1
        elif path.read_bytes() != octets:
            print(f"{shown(path)} differs from what `python3 -m independent {name}` makes")
            code = 1
    return code


def write(folder, files):
    """Writes files into a folder that is there; the exit code."""
    if not folder.is_dir():
        print(f"{folder} is missing")
        return 1
    for file, octets in files.items():
        (folder / file).write_bytes(octets)
        print(f"{shown(folder / file)}: {len(lines.lines_of(octets))} lines")
    return 0


def answer(desk, source, sink):
    """Answers each line before the next is read."""
    for n, line in enumerate(iter(source.readline, b""), 1):
        line = line.removesuffix(b"\n")
        if line and not line.startswith(b"#"):
            sink.write(lines.written({n: desk.answer(line)}))
            sink.flush()


def run(name, subject, arguments):
    """Writes, checks or answers for a program; the exit code, or None for other words."""
    folder = ROOT / "crates" / name
    match arguments:
        case []:
            return write(folder, subject.made())
        case ["--into", into]:
            return write(Path(into), subject.made())
        case ["--check"]:
            return check(name, folder, subject.made())
        case ["--answer"]:
            answer(subject.Desk(), sys.stdin.buffer, sys.stdout.buffer)
            return 0
    return None
