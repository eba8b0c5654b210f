"""Runs desk.py with a wrong host, or cut off in the middle of the store's write: for plug.py.

    python3 tests/plug_hosts.py HOST PLACE WORDS...     the words are desk.py's

HOST is `right` or one of HOSTS. PLACE is `-` or one of PLACES: where in the write the process group
is ended, or `broken`.
"""

import errno
import os
import sys
from pathlib import Path

sys.path.insert(0, str(Path(__file__).resolve().parent.parent))

import desk
import store
from bench_pipe import in_words
from plug_relay import pull


# ---- wrong hosts -------------------------------------------------------------------------------

class TellsFirst(store.Host):
    """Tells the board first, and writes when the frame has gone out, as a lazy disk does."""
    late = None

    def keep(self):
        """Puts the write off."""
        self.late, self.next = self.next, None

    def take(self, line):
        """Writes behind the line."""
        super().take(line)
        if self.late is not None and line.startswith(b"seal"):
            number, self.late = self.late, None
            self.store.write(number)
            store.say(f"host: the store holds {number}")


class WritesOld(store.Store):
    """Writes the number that it held before, and says that it holds the new one."""

    def write(self, number):
        """Lags by one."""
        self.replace(b"%d\n" % self.number)
        self.number = number


class WritesNothing(store.Store):
    """Says that it holds what it was given."""

    def write(self, number):
        """Only remembers."""
        self.number = number


HOSTS = {"tells-first": ("Host", TellsFirst), "writes-old": ("Store", WritesOld),
         "writes-nothing": ("Store", WritesNothing)}


# ---- cuts in the write -------------------------------------------------------------------------

def before_new(name, mode):
    """For `open`: pulls the plug before the new file is made."""
    return pull() if mode == "wb" else open(name, mode)


def when_half(file):
    """For `fsync`: pulls the plug when only half of the number is on the disk."""
    os.ftruncate(file, 2)
    pull()


def when_broken(file):
    """For `fsync`: a disk that doesn't take what is written; the plug stays in."""
    raise OSError(errno.EIO, os.strerror(errno.EIO), file)


PLACES = {"new": (store, "open", before_new), "half": (os, "fsync", when_half),
          "flush": (os, "fsync", lambda file: pull()),
          "rename": (os, "replace", lambda old, new: pull()),
          "folder": (store, "flush_folder", lambda path: pull()),
          "broken": (os, "fsync", when_broken)}


def main(host, place, *words):
    """Puts the host and the cut into their places and runs desk.py; the exit code."""
    if host in HOSTS:
        setattr(desk, *HOSTS[host])
    if place in PLACES:
        setattr(*PLACES[place])
    sys.argv = ["desk.py", *words]
    return in_words(desk.main)


if __name__ == "__main__":
    sys.exit(main(*sys.argv[1:]))
