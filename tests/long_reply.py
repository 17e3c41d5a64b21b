#!/usr/bin/env python3
"""Has sr_server write one reply of more than 16 MiB, on standard output and over a socket in both ways of serving, and compares its bytes.

usage: tests/long_reply.py PROGRAM

Prints what differs; the status is 1 if anything does.
"""

import contextlib
import subprocess
import sys

from lib.resp import array, bulk, spelled, spelled_all
from lib.servers import WAYS, Server

SECONDS = 120
ENTRIES, SIZE = 17, 1_048_576  # a word may have as many bytes

VALUES = [bytes([65 + number % 26]) * SIZE for number in range(ENTRIES)]
SENT = spelled_all([["XADD", "s", f"{number}-1", "f", value] for number, value in enumerate(VALUES, 1)] + [["XRANGE", "s", "-", "+"], ["PING"]])
IDS = [bulk(b"%d-1" % number) for number in range(1, ENTRIES + 1)]
LONG = array([array([entry, spelled("f", value)]) for entry, value in zip(IDS, VALUES)])
REPLIED = b"".join(IDS) + LONG + b"+PONG\r\n"


def piped(program):
    """What is replied on standard output, and the status and the line at the end."""
    ran = subprocess.run([program, "--stdio"], input=SENT, capture_output=True, timeout=SECONDS, check=False)
    return ran.stdout, (ran.returncode, ran.stderr)


def socketed(program, way):
    """What is replied over a socket, and whether the server goes on."""
    with Server(program, **{way: 2}) as server:
        found = b""
        with server.connect(SECONDS) as connection:
            with contextlib.suppress(OSError):
                connection.socket.sendall(SENT)
                found = connection.file.read(len(REPLIED))
        with server.connect(SECONDS) as connection:
            return found, connection.call("XLEN", "s")


def main():
    if len(sys.argv) != 2:
        sys.exit(__doc__.split("\n\n")[1])
    wrong = 0
    rows = [("standard output", piped(sys.argv[1]), (0, b""))] + [(f"a socket, {way}", socketed(sys.argv[1], way), ENTRIES) for way in WAYS]
    for name, (found, end), wanted in rows:
        if (found, end) != (REPLIED, wanted):
            wrong += 1
            place = next((place for place, pair in enumerate(zip(found, REPLIED)) if pair[0] != pair[1]), min(len(found), len(REPLIED)))
            print(f"{name}: {len(found):,} bytes of {len(REPLIED):,}, right up to {place:,}; at the end {end}, expected {wanted}")
    print(f"long_reply: {len(LONG):,} bytes, {wrong} of {len(rows)} wrong")
    return 1 if wrong else 0


if __name__ == "__main__":
    sys.exit(main())
