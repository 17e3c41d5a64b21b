#!/usr/bin/env python3
"""Has book_driver plan for an entry that is heavier than a weight may be, and compares its reply with what is written here.

usage: tests/heavy_entry.py PROGRAM

Prints what differs; the status is 1 if anything does.
"""

import subprocess
import sys

from lib.driver import spelled

SECONDS = 60
HEAVIEST = 1048576

POLICY = '[limits]\nA = 1\n[rates."*"]\nA = 1\n'


# At the rate 1 an entry costs its weight.
LINES = [
    f"policy {spelled([POLICY])}",
    "join 10",
    "call 10 1 " + spelled(["XADD", "s", "1-1", "f", "a" * (HEAVIEST + 1)]),
    "call 10 1 " + spelled("XGROUP CREATE s g 0".split()),
    "call 10 1 " + spelled("XREADGROUP GROUP g D STREAMS s >".split()),
    "snapshot 10 1 " + spelled("s g D".split()),
    "conclude 10 1 0 1",
]

# No price is told: any will do for a consumer that the plan fills.
PLANNED = f"*5 $4 plan :{HEAVIEST} *1 *2 $3 1-1 $1 A *1 *2 $1 A :"


def main():
    if len(sys.argv) != 2:
        sys.exit(__doc__.split("\n\n")[1])
    sent = "".join(f"{line}\n" for line in LINES)
    ran = subprocess.run([sys.argv[1]], input=sent, stdout=subprocess.PIPE, timeout=SECONDS, text=True, check=True)
    answer = ran.stdout.splitlines()[-1]
    wanted = "ok 6 1 reply " + PLANNED.replace(" ", "\r\n").encode().hex()
    print(f"{sys.argv[1]}: an entry of {HEAVIEST + 2} bytes: {'planned as expected' if answer.startswith(wanted) else 'FAILED'}")
    if not answer.startswith(wanted):
        print(f"expected: {wanted}..\nanswered: {answer}")
        sys.exit(1)


main()
