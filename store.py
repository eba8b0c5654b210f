"""The host's store: one number, the mark, that a board needs again after its plug was pulled.

A board seals only with counters below its mark, and starts at the mark that the store holds. So no
counter comes twice as long as the store never holds less than the board was told. That is why a
step has its order: the board names the next mark (`mark`), the host writes it into the store, and
only when it is safe there the board is told (`marked`). A cut before the write leaves the old mark,
and nothing was sealed above it. A cut behind the write leaves the new one, and some counters are
never used. A host that tells first and writes later lets the board seal above what the store holds;
after a cut the same counters come again.

The file holds the number in decimal and a line feed; where it is missing, the board is new and the
number 0. A new number goes into a file beside it, which is flushed and then renamed over the old
one: a cut leaves one of the two, whole. Every fault is said in words, and the board is not told.
"""

import errno
import os
import re
from contextlib import contextmanager

from bench_pipe import Differs, readable

try:
    import fcntl
except ImportError:  # such a system doesn't say whether another desk.py has the store
    fcntl = None

TOP = 2**32 - 1
NUMBER = re.compile(rb"(0|[1-9][0-9]{0,9})\n")
LONGEST = 11  # octets of a number and its line feed


class NoStore(Exception):
    """The store can't be used; the words say why."""


def say(words):
    """Prints what the host does, at once: what is shown was done before a cut."""
    print(words, flush=True)


# ---- the file ----------------------------------------------------------------------------------

class Store:
    """The file, held by this process alone, and the number in it."""

    def __init__(self, name):
        self.name, self.path = name, os.path.realpath(name)  # a link stays one
        with self.faults_in_words("can't be used"):
            if os.path.exists(self.path) and not os.path.isfile(self.path):
                raise NoStore(f"The store {name} is no file.")
            self.lock = self.held()
            try:
                self.number = self.read()
            except BaseException:
                self.close()
                raise

    @contextmanager
    def faults_in_words(self, what):
        """Says faults of the file system in words."""
        try:
            yield
        except OSError as fault:
            raise NoStore(f"The store {self.name} {what}: {fault.strerror}.") from None

    def held(self):
        """The open file beside the store by which others see that it is in use. However a process
        ends, the system lets go of it; the file stays."""
        lock = os.open(f"{self.path}.lock", os.O_RDWR | os.O_CREAT, 0o666)
        try:
            if fcntl is not None:
                fcntl.flock(lock, fcntl.LOCK_EX | fcntl.LOCK_NB)
        except BlockingIOError:
            os.close(lock)
            raise NoStore(f"The store {self.name} is in use by another desk.py.") from None
        return lock

    def read(self):
        """The number in the file. An empty or cut file is no 0: that would give counters again."""
        try:
            with open(self.path, "rb") as file:
                octets = file.read(LONGEST + 1)
        except FileNotFoundError:
            return 0
        if not NUMBER.fullmatch(octets) or int(octets) > TOP:
            raise NoStore(f"The store {self.name} must hold one number from 0 to {TOP} and a line"
                          f" feed, and holds: {readable(octets)!r}.")
        return int(octets)

    def write(self, number):
        """Makes the file hold a number that is not lower; a cut leaves the old one or this one."""
        with self.faults_in_words(f"can't take {number}, and the board is not told"):
            if self.read() != self.number:
                raise NoStore(f"The store {self.name} was {self.number} and was changed by another"
                              " hand; the board is not told.")
            if number < self.number:
                raise NoStore(f"The store {self.name} holds {self.number}; it takes no {number}.")
            self.replace(b"%d\n" % number)
        self.number = number

    def replace(self, octets):
        """Writes a new file, flushes it, and puts it in the place of the old one."""
        new = f"{self.path}.new"
        with open(new, "wb") as file:
            file.write(octets)
            file.flush()
            os.fsync(file.fileno())
        os.replace(new, self.path)
        flush_folder(os.path.dirname(self.path))

    def close(self):
        """Lets go of the store."""
        os.close(self.lock)


def flush_folder(path):
    """Flushes a folder, so that a renamed file has its name after a cut, where the system can."""
    if os.name != "posix":
        return
    folder = os.open(path, os.O_RDONLY)
    try:
        os.fsync(folder)
    except OSError as fault:
        if fault.errno != errno.EINVAL:  # a file system that flushes no folders
            raise
    finally:
        os.close(folder)


# ---- the host ----------------------------------------------------------------------------------

class Host:
    """Hands a script's lines to a board that has a store. `send` sends a line, shows its answer and
    returns it."""

    def __init__(self, store, send):
        self.store, self.send = store, send
        self.next = None  # the next mark last answered, until it is stored

    def take(self, line):
        """Sends a line of the script. Where the mark is too low for it, takes a step and sends it
        again; one step is enough for a board, and a broken one must not use up the numbers."""
        word, *fields = line.split(b"\t")
        if word == b"board" and fields:
            self.start(fields)
        elif word == b"marked":
            self.told(line, fields)
        elif line == b"mark":
            self.ask()
        else:
            if lacks_mark(self.send(line)) and self.step():
                self.own(line)

    def own(self, line):
        """Sends a line that is the host's; its answer."""
        say(f"host: {readable(line)}")
        return self.send(line)

    def start(self, fields):
        """A board starts at the number that the store holds, and at no other."""
        if len(fields) > 1:
            say(f"    not sent: the store says where the board starts, at {self.store.number}")
        else:
            self.own(b"board\t%s\t%d" % (fields[0], self.store.number))

    def ask(self):
        """The first request of a step."""
        answer = self.send(b"mark")
        found = re.fullmatch(rb"[0-9]+\tok\t([0-9]{1,10})", answer)
        if found is None and b"\tok" in answer:
            raise Differs(f"what was answered is no mark: {readable(answer)}")
        self.next = None if found is None else int(found[1])

    def keep(self):
        """Writes the next mark to the store: behind this, and not before, the board is told."""
        number, self.next = self.next, None
        self.store.write(number)
        say(f"host: the store holds {number}")

    def told(self, line, fields):
        """The second request, in a script's line: sent if the store holds that number."""
        if self.next is not None and fields == [b"%d" % self.next]:
            self.keep()
        elif fields != [b"%d" % self.store.number]:
            say(f"    not sent: the store holds {self.store.number}, and takes only the next mark"
                " that was last answered")
            return
        self.send(line)

    def step(self):
        """A step of the host's own: asks, stores, tells; whether the mark was moved."""
        say("host: mark")
        self.ask()
        number = self.next
        if number is None or number <= self.store.number:
            say(f"host: no step; the store holds {self.store.number}")
            return False
        self.keep()
        return self.own(b"marked\t%d" % number).endswith(b"\tok")


def lacks_mark(answer):
    """Whether a line was refused because the mark is not above the counter."""
    return answer is not None and answer.split(b"\t")[1:3] == [b"refused", b"17"]
