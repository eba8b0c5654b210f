"""A capture shown: as the log, as lines for a machine, as a page, and written again."""

import os
import sys
from contextlib import ExitStack, closing

from . import files, links, mac
from .annotate import Annotated
from .listener import Listener
from .log import Log
from .report import Report
from .words import advice, in_words, tsv

BROKE_OFF, NOTHING = 1, 2  # exit codes
PROVED = "These verdicts are the proved program's."
REFERENCE = "These verdicts are the reference's and not the proved ones."
OTHERS = "These verdicts are those of the program that --bench names."


def message(words):
    """Says something beside what is printed."""
    sys.stdout.flush()
    print(words, file=sys.stderr, flush=True)


def packets(capture, code):
    """The frames of a capture; where it breaks off, that is said and the exit code is told."""
    try:
        yield from capture.packets()
    except files.BrokeOff as fault:
        code.append(BROKE_OFF if capture.number else NOTHING)
        message(f"{capture.path}: {fault}. "
                + (f"The {capture.number} frames before that were read." if capture.number
                   else "No frame could be read."))


def frames(capture, by_chip):
    """Prints the network frames of a capture; the exit code."""
    code = []
    for packet in packets(capture, code):
        try:
            frame = mac.read(links.frame_of(packet, by_chip))
        except links.Passed:
            continue
        if frame.name is None:
            print(f"frame\t{frame.payload.hex()}")
    return max(code, default=0)


def outputs_apart(given):
    """Refuses to write over the capture, or twice to one file, and what can't be written at all:
    now, and not when all was heard."""
    named = [name for name in (given.file, given.annotate, given.report) if name]
    real = [os.path.realpath(name) for name in named]
    for place, name in enumerate(named):
        if real[place] in real[:place]:
            raise files.NoCapture(f"{name} would be written over")
    for name in named[1:]:
        open(name, "ab").close()


class Shown:
    """Where the frames of a capture go: the log or lines, and the files that were asked for."""

    def __init__(self, given, capture, whose, stack):
        self.tsv, self.whose = given.tsv, whose
        self.mark = [] if whose == PROVED else [whose]
        colours = sys.stdout.isatty() and os.name == "posix" and "NO_COLOR" not in os.environ
        self.log = Log(print, colours)
        self.annotated = self.report = None
        if given.annotate:
            self.annotated = stack.enter_context(closing(Annotated(given.annotate, capture)))
        if given.report:
            self.report = Report(given.report, given.file, whose)

    def head(self):
        """Says first whose verdicts these are."""
        if self.tsv:
            message(self.whose)
        else:
            self.log.head(self.whose)

    def frame(self, packet, heard):
        """A frame and what was found."""
        if self.tsv:
            self.log.count(heard)
            print(tsv(heard))
        else:
            self.log.frame(heard)
        if self.annotated:
            self.annotated.write(packet, "; ".join([in_words(heard), *heard.notes, *self.mark]))
        if self.report:
            self.report.frame(heard)

    def end(self, listener):
        """What stands at the end."""
        if not self.tsv:
            self.log.end(listener)
        if self.report:
            self.report.write(self.log.counts, listener)
        for words in advice(self.log.counts, listener):
            message(words)


def show(given, capture, start, labels, whose):
    """Listens to a capture; the exit code."""
    code = []
    with ExitStack() as stack:
        listener = stack.enter_context(
            closing(Listener(start, labels, given.network_key, given.link_key,
                             given.chip_checksum)))
        shown = Shown(given, capture, whose, stack)
        shown.head()
        for packet in packets(capture, code):
            shown.frame(packet, listener.hear(packet))
        shown.end(listener)
    return max(code, default=0)
