#!/usr/bin/env python3
"""Rows of hundreds of entries, worked out by hand: a plan that two consumers share, and what is left of blocks of entries.

usage: tests/many_entries.py PROGRAM

PROGRAM is sr_server. Prints how many replies differ, and the first that does; the status is 1 if any does.
"""

import sys
import tempfile

from lib import piped

# 200 entries of one class, and two consumers with room for a hundred each, at one for each byte: cx is two bytes.
HALVES = 200
POLICY = 'class_field = "c"\n[limits]\nA = 100\nB = 100\n[rates.x]\nA = 1\nB = 1\n'

# Entries that fill more than two blocks of 128: the second block goes, and then the first.
BLOCKS = 300


def ids(first, last):
    return [b"%d-1" % number for number in range(first, last + 1)]


def added(last, field, value):
    return [(f"XADD s {entry_id.decode()} {field} {value}", entry_id) for entry_id in ids(1, last)]


def entry(number, field, value):
    return [b"%d-1" % number, [field, value]]


SHARED = added(HALVES, "c", "x") + [
    ("XGROUP CREATE s g 0", b"OK"),
    ("XREADGROUP GROUP g D COUNT 1000 STREAMS s >", [[b"s", [entry(number, b"c", b"x") for number in range(1, HALVES + 1)]]]),
    ("RECOVER.RUN s g DEAD D", "done, 400"),
    ("XPENDING s g", [HALVES, b"1-1", b"200-1", [[b"A", b"100"], [b"B", b"100"]]]),
    ("XREADGROUP GROUP g D STREAMS s 0", [[b"s", []]]),
]

CUT = added(BLOCKS, "a", "b") + [
    ("XDEL s " + " ".join(entry_id.decode() for entry_id in ids(129, 256)), 128),
    ("XRANGE s 128 257", [entry(128, b"a", b"b"), entry(257, b"a", b"b")]),
    ("XTRIM s MAXLEN 44", 128),
    ("XRANGE s - + COUNT 1", [entry(257, b"a", b"b")]),
    ("XLEN s", 44),
]


def told(reply):
    """A plan that was carried out, as its word and its total: which of the cheapest ones it is nobody can say."""
    if isinstance(reply, list) and reply and reply[0] == b"done":
        return f"done, {reply[1]}"
    return reply


def main():
    if len(sys.argv) != 2:
        sys.exit(__doc__.split("\n\n")[1])
    failed = 0
    with tempfile.NamedTemporaryFile("w", suffix=".toml") as policy:
        policy.write(POLICY)
        policy.flush()
        for name, rows in (("shared", SHARED), ("cut", CUT)):
            commands = [line.split(" ") for line, _ in rows]
            replies = [told(reply) for reply in piped.replies_of(sys.argv[1], commands, "--policy", policy.name)]
            failed |= piped.compared(f"many_entries: {name}", commands, [wanted for _, wanted in rows], replies)
    return failed


if __name__ == "__main__":
    sys.exit(main())
