#!/usr/bin/env python3
"""Sends sr_server requests byte by byte, cut in two, in part and whole, and compares its replies and its status with what is written here.

usage: tests/requests.py PROGRAM [WAY ..]

WAY is `stdio`, or `workers` or `connections`, by which it serves a socket, on which no status is seen; all if none is named. Prints what
differs; the status is 1 if anything does.
"""

import fcntl
import struct
import subprocess
import sys
import termios
import time

from lib import servers, sockets
from lib.resp import lines, spelled

SECONDS = 60
STDIO = "stdio"

PONG = b"+PONG\r\n"

UNKNOWN = b"-ERR unknown command\r\n"

PROTOCOL = b"-ERR Protocol error\r\n"

# Bytes, the place of the first after which no bytes make a request, and the replies before it. Without such a place the input just ends.
ROWS = [
    (b"*4097", 4, b""),
    (b"*4097" + 100 * b"x", 4, b""),
    (b"*4096\r\n$", None, b""),
    (b"*00000000001", 11, b""),
    (b"*0000000001\r\n$0000000001\r\na\r\n", None, UNKNOWN),
    (b"*1\r\n$1048577", 11, b""),
    (b"*1\r\n$1048576\r\n", None, b""),
    (b"*-2", 2, b""),
    (b"*-1\r\n", None, b""),
    (b"*-01", 2, b""),
    (b"*1\r\n$4\r\nPING\n", 12, b""),
    (b"*1\r\n$4\r\nPING\r\n", None, PONG),
    (b"$1", 0, b""),
    (b"*1\r\n$4\r\nPING\r\n$1", 14, PONG),
    (b"*\r", 1, b""),
    (b"*1\n", 2, b""),
    (b"*1\r\n\r", 4, b""),
    (b"*1\r\n$-", 5, b""),
    (b"*0\r\n*-1\r\n*1\r\n$4\r\nping\r\n", None, PONG),
    (b"*1\r\n$1\r\na\r\n*1\r\n$1\r\nb\r\n", None, UNKNOWN + UNKNOWN),
    (b"*0000000000\r\n*2\r\n$0\r\n\r\n$1\r\n\n\r\n", None, UNKNOWN),
]


# Four requests, the replies to them, and how many bytes of both end with each of them.
RUN = lines("PING", "XADD s 1-1 a b", "XLEN s", "XRANGE s - +")

REPLIES = PONG + b"$3\r\n1-1\r\n:1\r\n*1\r\n*2\r\n$3\r\n1-1\r\n*2\r\n$1\r\na\r\n$1\r\nb\r\n"

ENDS = [(14, 7), (58, 16), (79, 20), (116, 55)]

# Bytes that are read the same wherever they are cut in two, also if the later part comes byte by byte, and the replies. The second has a
# word that looks like the end of one.
CUT = [
    (b"*0\r\n*-1\r\n*1\r\n$4\r\nping\r\n*2\r\n$3\r\nGET\r\n$2\r\n\r\n\r\n", PONG + UNKNOWN),
    (b"*0\r\n*-1\r\n*1\r\n$4\r\nping\r\n*2\r\n$4\r\nPING\r\n$2\r\n\r\n\r\n", PONG + b"$2\r\n\r\n\r\n"),
    (RUN, REPLIES),
    (lines("XLEN s", "XLEN s"), b":0\r\n:0\r\n"),
    (lines("XGROUP CREATE s g 0 MKSTREAM", "XPENDING s g"), b"+OK\r\n*4\r\n:0\r\n$-1\r\n$-1\r\n*-1\r\n"),
]

# 16 words of the greatest length, which are as many bytes as the words of a request may have, and the beginning of one more.
LONG = b"*17\r\n" + 16 * (b"$1048576\r\n" + 1048576 * b"a" + b"\r\n") + b"$"

# The fields and values of an entry, which come back as they are.
ENTRIES = [[b"a", b"b", b"", b"\r\n", b"long", length * b"x"] for length in (254, 255, 256, 70000)] + [
    [b"", b"b", 254 * b"c", 255 * b"d", 256 * b"e", 70000 * b"f"],
]


def wait_until_taken(run):
    """Waits until the program has read what was written to it, or has ended."""
    end = time.monotonic() + SECONDS
    while run.poll() is None and struct.unpack("i", fcntl.ioctl(run.stdin, termios.FIONREAD, bytes(4)))[0]:
        if time.monotonic() > end:
            raise SystemExit("the program does not read")


def answered(program, pieces):
    """What the program replies to these pieces, each of which it has read before the next is written, and its status."""
    pipes = {"stdin": subprocess.PIPE, "stdout": subprocess.PIPE, "stderr": subprocess.DEVNULL}
    run = subprocess.Popen([program, "--stdio"], bufsize=0, **pipes)
    try:
        for piece in pieces:
            wait_until_taken(run)
            run.stdin.write(piece)
        run.stdin.close()
    except BrokenPipeError:
        pass
    replies = run.stdout.read()
    return replies, run.wait(SECONDS)


def each(text):
    """The bytes of a text, one by one."""
    return [text[place:place + 1] for place in range(len(text))]


def cases():
    """Pieces with the replies and the status that they should have."""
    for text, fault, replies in ROWS:
        wanted = (replies, 0) if fault is None else (replies + PROTOCOL, 1)
        yield each(text[:fault]), (replies, 0)
        yield each(text), wanted
        yield [text], wanted
        if fault is not None:
            yield each(text[:fault + 1]), wanted
    for text, replies in CUT:
        for place in range(len(text) + 1):
            yield [text[:place], text[place:]], (replies, 0)
            yield [text[:place], *each(text[place:])], (replies, 0)
    # A part of a request is not answered.
    for place in range(len(RUN) + 1):
        taken = max([given for end, given in ENDS if end <= place], default=0)
        yield [RUN[:place]], (REPLIES[:taken], 0)
    yield [LONG + b"0"], (b"", 0)
    yield [LONG + b"1"], (PROTOCOL, 1)
    for texts in ENTRIES:
        asked = spelled("XADD", "s", "1-1", *texts) + spelled("XRANGE", "s", "-", "+")
        yield [asked], (b"$3\r\n1-1\r\n*1\r\n*2\r\n$3\r\n1-1\r\n" + spelled(*texts), 0)


def whole(program, way):
    """Each case with what came of it. Over a socket the status is left out."""
    if way == STDIO:
        for pieces, wanted in cases():
            yield pieces, wanted, answered(program, pieces)
    else:
        exchanges = sockets.exchanges(program, way, (pieces for pieces, _ in cases()))
        for (pieces, (replies, _)), found in zip(cases(), exchanges):
            yield pieces, (replies, None), (found, None)


def main():
    if len(sys.argv) < 2:
        sys.exit(__doc__.split("\n\n")[1])
    program, *ways = sys.argv[1:]
    failed = 0
    for way in ways or (STDIO, *servers.WAYS):
        count, wrong = 0, 0
        for pieces, wanted, found in whole(program, way):
            count += 1
            if found != wanted:
                wrong += 1
                told = f"{[piece[:80] for piece in pieces]}"
                print(f"{told}\nexpected: {wanted[0][:200]}, status {wanted[1]}\ngiven:    {found[0][:200]}, status {found[1]}")
        print(f"{program}, {way}: {count} inputs, {wrong} wrong")
        failed += wrong
    sys.exit(1 if failed else 0)


main()
