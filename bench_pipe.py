"""Bench processes, talked to line by line through pipes: for desk.py and the scripts of tests/.

A bench answers one line for each line it is sent (the bench language). By default it is the
repository's own program, crates/bench/out/bench, which is for x86-64 Linux; on another processor it runs
under the emulator of the Rattle kit, found beside `rt`. Any other command can be given instead.
"""

import os
import platform
import select
import shlex
import shutil
import subprocess
import sys
from pathlib import Path

if sys.version_info < (3, 10):
    sys.exit("Python 3.10 or later is needed")

ROOT = Path(__file__).resolve().parent
PROGRAM = ROOT / "crates" / "bench" / "out" / "bench"
PATIENCE = 60  # seconds until an answer that doesn't come is given up
POLLED = os.name == "posix"  # elsewhere a pipe can't be waited for, and its answer must come
BENCH_HELP = ("the command that starts a bench, as one string "
              "(without it: crates/bench/out/bench of this repository)")


class Differs(Exception):
    """Something is not as it should be."""


# ---- the command -------------------------------------------------------------------------------

def give_up(message):
    """Says why nothing can be run, and exits with 2."""
    print(message, file=sys.stderr)
    sys.exit(2)


def in_words(main):
    """Runs a script's main and says in words what went wrong; the exit code."""
    try:
        code = main()
        sys.stdout.flush()
        return code
    except Differs as difference:
        print(difference, file=sys.stderr)
        return 1
    except BrokenPipeError:  # whoever read what is printed has gone
        os.dup2(os.open(os.devnull, os.O_WRONLY), sys.stdout.fileno())
        return 1
    except OSError as fault:
        give_up(f"{fault.filename or 'a file or pipe'}: {fault.strerror}")
    except KeyboardInterrupt:
        return 130


def kit_tools():
    """The folder of the Rattle kit that has the emulator and the x86-64 C library."""
    home = os.environ.get("RATTLE_HOME")
    if not home:
        rt = shutil.which("rt")
        if rt is None:
            give_up("rt is not found: put the Rattle kit on the path, or give --bench COMMAND"
                    " (desk.py: --model)")
        home = Path(rt).resolve().parent.parent
    return Path(home) / "on" / platform.machine() / "toolchain"


def started_by(program):
    """The words that start a program of this repository on this machine."""
    if not program.is_file():
        give_up(f"{program.relative_to(ROOT)} is missing: run `rt run </dev/null` in crates/{program.name}")
    if platform.machine() == "x86_64":
        return [str(program)]
    tools = kit_tools()
    emulator, library = tools / "bin" / "qemu-x86_64", tools / "lib"
    if not emulator.is_file():
        give_up(f"the Rattle kit has no emulator for {platform.machine()}: give --bench COMMAND")
    return [str(emulator), str(library / "ld-linux-x86-64.so.2"), "--library-path", str(library),
            str(program)]


def bench_words(command):
    """The words that start a bench: those of the command, or of the repository's own program."""
    if command is None:
        return started_by(PROGRAM)
    try:
        words = shlex.split(command)
    except ValueError:
        words = []
    if not words:
        give_up(f"--bench {command!r} is no command")
    return words


def surroundings():
    """The environment of a bench. The emulator is not to be steered by whatever is set; and it is
    ten times faster where the C library copies by plain loads, since it runs the processor's own
    copying octet by octet."""
    kept = {k: v for k, v in os.environ.items() if not k.startswith("QEMU_")}
    if platform.machine() != "x86_64":
        kept["GLIBC_TUNABLES"] = "glibc.cpu.hwcaps=-ERMS,-FSRM"
    return kept


# ---- a process ---------------------------------------------------------------------------------

class Bench:
    """A bench process. Told to log, it prints each line sent and answered, with its name."""

    def __init__(self, words, name="bench", log=False):
        self.name, self.log, self.lines = name, log, 0
        try:
            self.process = subprocess.Popen(words, stdin=subprocess.PIPE, stdout=subprocess.PIPE,
                                            env=surroundings())
        except OSError as fault:
            give_up(f"{words[0]} can't be started: {fault.strerror}")

    def ask(self, *fields):
        """Sends one line; the fields of its answer, without the line's number."""
        line = "\t".join(map(text, fields))
        self.show("<", line)
        answer = self.answer_to(line.encode("ascii")).decode("ascii", "replace")
        self.show(">", answer)
        number, *rest = answer.split("\t")
        if number != str(self.lines) or not rest:
            raise Differs(f"{self.name} answered line {self.lines} with: {answer}")
        return rest

    def answer_to(self, line):
        """Sends one line as it stands; the line that is answered, or None where none is due."""
        self.lines += 1
        try:
            self.process.stdin.write(line + b"\n")
            self.process.stdin.flush()
        except BrokenPipeError:
            raise Differs(f"{self.name} ended before line {self.lines}: {readable(line)}") from None
        return None if line == b"" or line.startswith(b"#") else self.answer(line)

    def answer(self, line):
        """The line that the process writes next."""
        if POLLED and not select.select([self.process.stdout], [], [], PATIENCE)[0]:
            raise Differs(f"{self.name} gave no answer in {PATIENCE} s to: {readable(line)}")
        answer = self.process.stdout.readline()
        if not answer.endswith(b"\n"):
            raise Differs(f"{self.name} ended at line {self.lines}: {readable(line)}")
        return answer[:-1]

    def ok(self, *fields):
        """The fields after `ok`."""
        word, *rest = self.ask(*fields)
        if word != "ok":
            raise Differs(f"{self.name} answered {' '.join([word, *rest])} to: "
                          f"{' '.join(map(text, fields))}")
        return rest

    def so_many(self, count, *fields):
        """The fields after `ok`, which must be so many."""
        answer = self.ok(*fields)
        if len(answer) != count:
            raise Differs(f"{self.name} answered {len(answer)} fields and not {count} to: "
                          f"{' '.join(map(text, fields))}")
        return answer

    def unhexed(self, field):
        """The octets of a field of an answer."""
        try:
            return bytes.fromhex(field)
        except ValueError:
            raise Differs(f"{self.name} answered what is no hex: {field}") from None

    def octets(self, *fields):
        """The octets of an answer that has them as its only field."""
        answer, = self.so_many(1, *fields)
        return self.unhexed(answer)

    def show(self, mark, line):
        """Prints a line of the log."""
        if self.log:
            print(f"    {self.name:5} {mark} {line}")

    def close(self):
        """Ends the process by ending its input."""
        try:
            self.process.stdin.close()
        except BrokenPipeError:
            pass
        try:
            self.process.wait(PATIENCE)
        except subprocess.TimeoutExpired:
            self.process.kill()
            self.process.wait()
        self.process.stdout.close()


# ---- octets ------------------------------------------------------------------------------------

def readable(line):
    """A line as it is shown: tabs as two blanks, other octets than ASCII escaped."""
    return line.decode("ascii", "backslashreplace").replace("\t", "  ")


def text(field):
    """A field as it is sent: octets in hex, all else as it is."""
    return field.hex() if isinstance(field, bytes) else str(field)


def least(number, octets):
    """A number as it is sent in frames, least octet first."""
    return number.to_bytes(octets, "little")


def flipped(octets, place, bits=0x80):
    """The octets with some bits of one of them turned."""
    return octets[:place] + bytes([octets[place] ^ bits]) + octets[place + 1:]
