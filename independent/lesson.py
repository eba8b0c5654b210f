"""The lessons: what a bench answers to each script of examples/, stored beside it."""

from . import stored
from .bench.desk import Desk
from .lines import Wrong, answers, written

EXAMPLES = stored.ROOT / "examples"
LESSONS = ("first-lesson", "label-lesson", "plug-lesson")


def answered(name):
    """The answers to a lesson, each by a desk of its own."""
    path = EXAMPLES / f"{name}.bench"
    if not path.is_file():
        raise Wrong(f"{stored.shown(path)} is missing")
    return written(answers(Desk(), path.read_bytes()))


def made():
    """The stored files."""
    return {f"{name}.answers": answered(name) for name in LESSONS}


def run(arguments):
    """Writes or checks; the exit code, or None where the words are neither."""
    match arguments:
        case []:
            return stored.write(EXAMPLES, made())
        case ["--check"]:
            return stored.check("lesson", EXAMPLES, made())
    return None
