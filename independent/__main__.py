"""The one entry of the independent program.

python3 -m independent selfcheck              the model against published vectors and a package
python3 -m independent PROGRAM                writes crates/PROGRAM/stdin and crates/PROGRAM/stdout
python3 -m independent PROGRAM --into DIR     writes stdin and stdout there
python3 -m independent PROGRAM --check        exits 1 if a stored file differs from what is made
python3 -m independent PROGRAM --answer       answers the script on standard input, line by line
python3 -m independent lesson                 writes the answers of the lessons in examples/
python3 -m independent lesson --check         exits 1 if one differs from what is made

PROGRAM is vectors, trials, bench or margins. This is for the repository's folder; from any other,
python3 PATH/independent and the same words.
"""

import importlib
import os
import sys
from pathlib import Path

if sys.version_info < (3, 10):
    sys.exit("the independent program needs Python 3.10 or later")
if not __package__:  # started by the folder's path
    sys.path[0] = str(Path(__file__).resolve().parent.parent)

from independent import stored
from independent.lines import Wrong

PROGRAMS = ("vectors", "trials", "bench", "margins")
OTHERS = ("selfcheck", "lesson")  # subjects with words of their own


def ran(arguments):
    """What the words ask for; the exit code, or None where they ask for nothing that there is."""
    subject, *words = arguments or [None]
    if subject in OTHERS:
        return importlib.import_module(f"independent.{subject}").run(words)
    if subject in PROGRAMS:
        return stored.run(subject, importlib.import_module(f"independent.{subject}"), words)
    return None


def main(arguments):
    """Runs, and says every fault in words; the exit code."""
    try:
        code = ran(arguments)
        sys.stdout.flush()
    except Wrong as wrong:
        print(wrong, file=sys.stderr)
        return 1
    except BrokenPipeError:  # whoever read the answers has gone
        os.dup2(os.open(os.devnull, os.O_WRONLY), sys.stdout.fileno())
        return 1
    except OSError as fault:
        print(f"{fault.filename or 'standard input or output'}: {fault.strerror}", file=sys.stderr)
        return 1
    except KeyboardInterrupt:
        return 130
    if code is None:
        asked = arguments in (["-h"], ["--help"])
        print(__doc__.strip(), file=sys.stdout if asked else sys.stderr)
        return 0 if asked else 2
    return code


if __name__ == "__main__":
    sys.exit(main(sys.argv[1:]))
