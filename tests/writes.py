#!/usr/bin/env python3
"""Has sr_server write replies of each length, and be interrupted three times running at each read and write.

usage: tests/writes.py PROGRAM [STEP]

It serves a pipe, and a socket in both ways.

| Part | A wrong program that it catches |
|---|---|
| `lengths` | a writer that gives up at one length, up to 70,000 bytes; with STEP only each STEP-th length is tried |
| `interrupted` | a reader or a writer that gives up after a second or third interruption in a row |

Prints each reply that differs, and how many there are; the status is 1 if one differs, or if it took too long. It needs cc (lib/interrupt.c).
"""

import contextlib
import os
import subprocess
import sys
import tempfile

from lib import servers
from lib.resp import bulk, spelled
from lib.tally import judged

SOURCE = os.path.join(os.path.dirname(os.path.abspath(__file__)), "lib", "interrupt.c")
SECONDS = 600  # an unproved program is slow
LONGEST = 70_000
STDIO = "stdio"
KEPT = 1_000  # records: without it a server says that it keeps all
NUMBER = b":0\r\n"  # the reply to the XLEN of a missing key
FEW = [6, 7, 4_095, 4_096, 4_097, 65_535, 65_536, 65_537, LONGEST]  # lengths


class Pipes:
    """The program, over a pipe."""

    def __init__(self, program, **more):
        self.process = subprocess.Popen([program, "--stdio"], stdin=subprocess.PIPE, stdout=subprocess.PIPE, bufsize=0, **more)

    def send(self, text):
        while text:
            text = text[self.process.stdin.write(text):]

    def receive(self, length):
        pieces = []
        while length and (piece := self.process.stdout.read(length)):
            pieces.append(piece)
            length -= len(piece)
        return b"".join(pieces)

    def close(self):
        self.process.stdin.close()
        self.process.stdout.close()
        self.process.wait(SECONDS)


class Socket:
    """A connection to the program, which listens."""

    def __init__(self, program, way, **more):
        self.server = servers.Server(program, **{way: 2}, keep=KEPT, **more)
        self.connection = self.server.connect(SECONDS)

    def send(self, text):
        self.connection.socket.sendall(text)

    def receive(self, length):
        return self.connection.file.read(length)

    def close(self):
        self.connection.close()
        self.server.stop()


def opened(program, way, env=None, errors=None):
    return Pipes(program, env=env, stderr=errors) if way == STDIO else Socket(program, way, env=env, errors=errors)


def echo(length):
    """The bytes whose bulk string is this long, or None if there are none: it is a digit longer from ten bytes on, from a hundred, and so on."""
    for count in range(max(0, length - 10), length - 4):
        text = b"x" * count
        if len(bulk(text)) == length:
            return text
    return None


def asked(length):
    """Requests whose replies are together this long, and these."""
    text = echo(length)
    if text is not None:
        return spelled("PING", text), bulk(text)
    text = echo(length - len(NUMBER))
    return spelled("PING", text) + spelled("XLEN", "s"), bulk(text) + NUMBER


def exchange(tally, way, stream, lengths):
    """Replies of these lengths, one after the other."""
    for length in lengths:
        request, reply = asked(length)
        stream.send(request)
        tally.compare(f"{way}, {length:,} bytes", reply, stream.receive(len(reply)))


def lengths(tally, program, way, step):
    with contextlib.closing(opened(program, way)) as stream:
        exchange(tally, way, stream, range(len(bulk(b"")), LONGEST + 1, step))


def interrupted(tally, program, way, library):
    with tempfile.TemporaryFile() as errors:
        with contextlib.closing(opened(program, way, {"LD_PRELOAD": library}, errors)) as stream:
            exchange(tally, f"{way}, interrupted", stream, FEW)
        errors.seek(0)
        tally.compare(f"{way}: standard error", b"interrupted\n", errors.read())


def run(tally, program, step):
    with tempfile.TemporaryDirectory() as folder:
        library = os.path.join(folder, "interrupt.so")
        subprocess.run(["cc", "-O2", "-shared", "-fPIC", "-o", library, SOURCE], check=True)
        for way in (STDIO, *servers.WAYS):
            tally.play(interrupted, program, way, library)
            tally.play(lengths, program, way, step)


def main():
    if not 2 <= len(sys.argv) <= 3:
        sys.exit(__doc__.split("\n\n")[1])
    program, step = sys.argv[1], int(sys.argv[2]) if sys.argv[2:] else 1
    return judged("writes", SECONDS, lambda tally: run(tally, program, step))


if __name__ == "__main__":
    sys.exit(main())
