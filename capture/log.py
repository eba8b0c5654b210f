"""The log of a capture: a line a frame, then the counts, and who was heard up to which counter."""

from collections import Counter

from .words import CLASSES, class_of, in_words, inside, seconds

COLOURS = {"opened": "32", "genuine": "33;1", "altered": "35;1", "forged": "31;1", "nokey": "36",
           "refused": "31", "passed": "2", "spoilt": "2"}
MARKS = {"opened": "+", "genuine": "=", "altered": "~", "forged": "!", "nokey": "?", "refused": "x"}
HEADING = (f"  {'frame':>6} {'time in s':>14}  {'from -> to':16}  {'sender':16} {'counter':>10}  "
           "verdict  [inside]")


def address(digits):
    """An address as it is shown."""
    return f"0x{digits}" if len(digits) == 4 else digits or "-"


def line(heard, name):
    """The line of a frame of a class."""
    ends = (f"{address(heard.source)} -> {address(heard.destination)}"
            if heard.source or heard.destination else "-")
    counter = "-" if heard.counter is None else heard.counter
    said = "; ".join([in_words(heard), *heard.notes])
    return (f"{MARKS.get(name, ' ')} {heard.number:>6} {seconds(heard.time):>14}  {ends:16}  "
            f"{heard.sender:16} {counter:>10}  {said}  [{inside(heard)}]")


class Log:
    """Prints the log; in colours where it is told so."""

    def __init__(self, write, colours):
        self.write, self.colours, self.counts = write, colours, Counter()

    def head(self, whose):
        """Whose verdicts these are, and the columns."""
        self.write(f"# {whose}")
        self.write(HEADING)

    def count(self, heard):
        """Counts a frame; its class."""
        name = class_of(heard)
        self.counts[name] += 1
        return name

    def frame(self, heard):
        """A line of the log."""
        name = self.count(heard)
        colour = COLOURS.get(name) if self.colours else None
        text = line(heard, name)
        self.write(f"\x1b[{colour}m{text}\x1b[0m" if colour else text)

    def end(self, listener):
        """The counts, and who was heard."""
        self.write("")
        for name, words in CLASSES.items():
            if self.counts[name]:
                self.write(f"{MARKS.get(name, ' ')} {self.counts[name]:>6} {words}")
        for words in heard_of(listener):
            self.write(words)


def heard_of(listener):
    """Who was heard up to which counter: the floors of the listening boards."""
    heard = {pan: known for pan, known in listener.pans.items() if known.boards is not None}
    for pan, known in sorted(heard.items(), key=lambda one: (one[0] is not None, one[0])):
        where = "no PAN" if pan is None else f"PAN 0x{pan:04x}"
        for number, senders in known.boards.heard():
            for sender, floor in senders:
                yield f"{where}, network key {number}: {sender} heard up to counter {floor - 1}"
        for partner, key, floor in known.boards.linked():
            yield f"{where}, link key {key[:8]}..: {partner} heard up to counter {floor - 1}"
