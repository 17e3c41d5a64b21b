#!/usr/bin/env python3
"""Sends sr_server one entry more than may be stranded at a time, and compares its replies with what is written here.

usage: tests/many_stranded.py PROGRAM

First without a policy, so that nobody is live, and then under one by which a consumer may take as many as may be stranded, at no cost.
Prints how many replies differ, and the first that does; the status is 1 if any does.
"""

import sys
import tempfile

from lib import piped

MOST = 4096
GREATEST_PRICE = 2**60

POLICY = f"""
class_field = "c"
[limits]
A = {MOST}
[rates.x]
A = 0
"""

IDS = [b"%d-1" % number for number in range(1, MOST + 2)]
LEFT = [entry_id for entry_id in IDS if entry_id != b"%d-1" % MOST]

REFUSED = "TOOMANY more than 4096 stranded entries"


def read(ids):
    """The reply to a read of these entries."""
    return [[b"s", [[entry_id, [b"c", b"x"]] for entry_id in ids]]]


SETTING = [(f"XADD s {entry_id.decode()} c x", entry_id) for entry_id in IDS] + [
    ("XGROUP CREATE s g 0", b"OK"),
    (f"XREADGROUP GROUP g D COUNT {MOST} STREAMS s >", read(IDS[:MOST])),
]

# With no policy nobody is live: the plan of all that is stranded is a shortage.
NOBODY = SETTING + [
    ("RECOVER.PLAN s g DEAD D", [b"none", IDS[:MOST], [], 0]),
    ("XREADGROUP GROUP g D STREAMS s >", read(IDS[MOST:])),
    ("RECOVER.PLAN s g DEAD D", REFUSED),
    ("RECOVER.RUN s g DEAD D", REFUSED),
    (f"XACK s g {MOST}-1", 1),
    ("RECOVER.PLAN s g DEAD D", [b"none", LEFT, [], 0]),
]

# A then has all that was stranded. It is full, so that any price is right.
ONE = SETTING + [
    ("XREADGROUP GROUP g D STREAMS s >", read(IDS[MOST:])),
    ("RECOVER.RUN s g DEAD D", REFUSED),
    (f"XACK s g {MOST}-1", 1),
    ("RECOVER.RUN s g DEAD D", [b"done", 0, [[entry_id, b"A"] for entry_id in LEFT], [[b"A", "a price"]], []]),
    ("XPENDING s g", [MOST, IDS[0], IDS[MOST], [[b"A", b"%d" % MOST]]]),
]


def without_price(reply):
    """A reply in which each price that there may be counts as the same."""
    match reply:
        case [word, total, moves, [[name, int(price)]], gone] if 0 <= price <= GREATEST_PRICE:
            return [word, total, moves, [[name, "a price"]], gone]
    return reply


def judged(name, program, rows, *options):
    commands, wanted = [command.split() for command, _ in rows], [reply for _, reply in rows]
    replies = map(without_price, piped.replies_of(program, commands, *options))
    return piped.compared(f"many_stranded, {name}", commands, wanted, list(replies))


def main():
    if len(sys.argv) != 2:
        sys.exit(__doc__.split("\n\n")[1])
    program = sys.argv[1]
    with tempfile.NamedTemporaryFile("w", suffix=".toml") as file:
        file.write(POLICY)
        file.flush()
        return max([judged("no policy", program, NOBODY), judged("a policy", program, ONE, "--policy", file.name)])


if __name__ == "__main__":
    sys.exit(main())
