#!/usr/bin/env python3
"""Runs a program on the bytes of a file, which come to its standard input in a way that the shell cannot arrange.

    python3 tests/feed.py pieces FILE PROGRAM   1 to 7 bytes at a time: each piece is read before the next is written
    python3 tests/feed.py broken FILE PROGRAM   all the bytes, and then a read that fails: a terminal whose other end is closed
"""

import fcntl
import os
import subprocess
import sys
import termios
import time
import tty


def waiting(pipe):
    """How many bytes of a pipe are not read yet."""
    return int.from_bytes(fcntl.ioctl(pipe, termios.FIONREAD, bytes(4)), sys.byteorder)


def pieces(data, program):
    with subprocess.Popen([program], stdin=subprocess.PIPE, bufsize=0) as run:
        at, size = 0, 1
        while at < len(data) and run.poll() is None:
            run.stdin.write(data[at:at + size])
            at += size
            size = size % 7 + 1
            while waiting(run.stdin) and run.poll() is None:
                time.sleep(0)
    return run.returncode


def broken(data, program):
    ours, other = os.openpty()
    tty.setraw(other)
    assert os.write(other, data) == len(data)
    os.close(other)
    return subprocess.run([program], stdin=ours).returncode


if len(sys.argv) != 4 or sys.argv[1] not in ("pieces", "broken"):
    sys.exit(__doc__)
with open(sys.argv[2], "rb") as file:
    sys.exit({"pieces": pieces, "broken": broken}[sys.argv[1]](file.read(), sys.argv[3]))
