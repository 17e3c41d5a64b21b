#!/usr/bin/env python3
"""Sends sr_server bytes, and compares the bytes that it replies, its line and its status with what is written here.

usage: tests/bytes.py PROGRAM

Over standard input and output; and over a socket, in both ways of serving, on which neither a line nor a status is seen. Prints what
differs; the status is 1 if anything does.
"""

import subprocess
import sys

from lib import servers, sockets
from lib.resp import lines

SECONDS = 60

SEVEN = [f"XADD s {number}-1 a b" for number in range(1, 8)]

ADDED = "".join(f"$3\r\n{number}-1\r\n" for number in range(1, 8))

# What is sent, what is replied, and the line on standard error, which comes with status 1.
ROWS = [
    (lines(*SEVEN, "PING", "XLEN s"), ADDED + "+PONG\r\n:7\r\n", ""),
    (b"", "", ""),
    (b"$1\r\n", "-ERR Protocol error\r\n", "session: protocol error\n"),
    (lines("PING") + b"$1\r\n", "+PONG\r\n-ERR Protocol error\r\n", "session: protocol error\n"),
]


def main():
    if len(sys.argv) != 2:
        sys.exit(__doc__.split("\n\n")[1])
    wrong = 0
    for sent, replied, line in ROWS:
        ran = subprocess.run([sys.argv[1], "--stdio"], input=sent, capture_output=True, timeout=SECONDS)
        wanted = (int(line != ""), replied.encode(), line.encode())
        found = (ran.returncode, ran.stdout, ran.stderr)
        if found != wanted:
            wrong += 1
            print(f"{sent!r}\nexpected: {wanted}\ngiven:    {found}")
    for way in servers.WAYS:
        for (sent, replied, _), found in zip(ROWS, sockets.exchanges(sys.argv[1], way, ([sent] for sent, *_ in ROWS))):
            if found != replied.encode():
                wrong += 1
                print(f"{sent!r}, {way}\nexpected: {replied}\ngiven:    {found}")
    print(f"bytes: {len(ROWS)} inputs, each in {1 + len(servers.WAYS)} ways, {wrong} wrong")
    sys.exit(1 if wrong else 0)


main()
