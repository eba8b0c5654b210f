"""Passes lines between desk.py and a bench, and pulls the plug at a chosen one: for plug.py.

    python3 tests/plug_relay.py WORD N MOMENT COMMAND...     COMMAND starts the bench

The line is the N-th that starts with the word. At the moment `heard` the bench doesn't get it; at
`answered` the bench has answered, and desk.py doesn't hear it. Then this process ends its whole
process group, without a word of farewell: desk.py, the bench and itself. At the moment `slowly` no
plug is pulled here, and each line of the word waits before it is passed on, and so does its answer.
"""

import os
import signal
import subprocess
import sys
import time

WAIT = 0.004  # seconds


def pull():
    """Pulls the plug."""
    os.killpg(os.getpgrp(), signal.SIGKILL)
    signal.pause()


def main(word, number, moment, *command):
    """Passes every line on, and its answer back, up to the chosen one."""
    seen = 0
    with subprocess.Popen(command, stdin=subprocess.PIPE, stdout=subprocess.PIPE) as bench:
        for line in sys.stdin.buffer:
            chosen = line.removesuffix(b"\n").split(b"\t")[0] == word.encode("ascii")
            seen += chosen
            now = chosen and seen == int(number)
            if now and moment == "heard":
                pull()
            time.sleep(WAIT if chosen and moment == "slowly" else 0)
            bench.stdin.write(line)
            bench.stdin.flush()
            if line == b"\n" or line.startswith(b"#"):
                continue
            answer = bench.stdout.readline()
            if now and moment == "answered":
                pull()
            time.sleep(WAIT if chosen and moment == "slowly" else 0)
            sys.stdout.buffer.write(answer)
            sys.stdout.buffer.flush()
        bench.stdin.close()


if __name__ == "__main__":
    main(*sys.argv[1:])
