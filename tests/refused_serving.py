#!/usr/bin/env python3
"""Has book_driver add an entry for readers that wait, and refuses each allocation of the serving in turn.

usage: tests/refused_serving.py PROGRAM

The events are those of histories/refused-serving.history. If the serving is refused, the entry is added all the same, the answer says
that the book is not settled, and the readers wait. What comes next, and what is answered then, is written here. Prints what differs; the
status is 1 if anything does, or if no serving was refused. It needs cc and glibc (tests/lib/refuse.c).
"""

import os
import sys
import tempfile

from lib import refusing
from lib.driver import Driver
from lib.history import decode, encode_all

BEFORE = """\
join 10
join 10
join 10
call 10 3 XGROUP CREATE s g $ MKSTREAM
call 10 1 XREADGROUP GROUP g A BLOCK {} STREAMS s >
call 10 2 XREADGROUP GROUP g B BLOCK 0 STREAMS s >
call 10 3 XADD s 1-1 a b
"""

SETTLED, UNSETTLED = 'ok 7 1 reply "1-1"', 'ok 7 0 reply "1-1"'

# What is asked once the serving was refused, and the answers. The next event is made before the serving.
WAITING = """\
status 1
collect 1
status 2
collect 2
"""

STILL = """\
status Waiting
letter -
status Waiting
letter -
"""

# The first reader is served after the next event, whichever that is.
BY_PING = (
    """\
call 10 3 PING
collect 1
collect 2
call 10 3 XPENDING s g
records
""",
    """\
ok 8 1 reply PONG
letter 9 [["s", [["1-1", ["a", "b"]]]]]
letter -
ok 10 1 reply [1, "1-1", "1-1", [["A", "1"]]]
records
  1 10 E
  2 10 E
  3 10 E
  4 10 E 3=OK
  5 10 E
  6 10 E
  7 10 E 3="1-1"
  8 10 E 3=PONG
  9 10 V1 1=[["s", [["1-1", ["a", "b"]]]]]
  10 10 E 3=[1, "1-1", "1-1", [["A", "1"]]]
""",
)

# If the next event is the end of its wait, it is answered by nothing, though its read had an answer, and the second reader is served.
BY_DEADLINE = (
    """\
due 109
due 110
expire 110
collect 1
collect 2
call 110 3 XPENDING s g
records
""",
    """\
due 0
due 1
ok 8 1 expired 1
letter 8 (nil array)
letter 9 [["s", [["1-1", ["a", "b"]]]]]
ok 10 1 reply [1, "1-1", "1-1", [["B", "1"]]]
records
  1 10 E
  2 10 E
  3 10 E
  4 10 E 3=OK
  5 10 E
  6 10 E
  7 10 E 3="1-1"
  8 110 E 1=(nil array)
  9 110 V2 2=[["s", [["1-1", ["a", "b"]]]]]
  10 110 E 3=[1, "1-1", "1-1", [["B", "1"]]]
""",
)

COURSES = [("served after a PING", 0, *BY_PING), ("answered at its deadline", 100, *BY_DEADLINE)]


def encoded(text):
    return encode_all(text.splitlines())


def followed(driver, wait, after, answers):
    """Whether the serving was refused, whether all was answered before that, and what was answered otherwise than it should be afterwards."""
    found = [driver.ask(line) for line in encoded(BEFORE.format(wait))]
    if found[-1:] != encoded(UNSETTLED):
        return False, found[-1:] == encoded(SETTLED), []
    asked, wanted = encoded(WAITING + after), encoded(STILL + answers)
    given = [driver.ask(line) or "" for line in asked]
    return True, True, [f"{decode(line)}\n    expected {decode(want)}\n    answered {decode(got)}"
                        for line, want, got in zip(asked, wanted, given, strict=True) if want != got]


def walk(program, library, name, *course):
    """Refuses the allocations up to the end of the serving, in turn. Whether anything was wrong."""
    number, servings, wrong = 0, 0, []
    while True:
        number += 1
        driver = Driver(program, library, number)
        is_serving, is_whole, differing = followed(driver, *course)
        status, refused, is_left = driver.end()
        servings += is_serving
        wrong += [f"allocation {number}: {text}" for text in differing]
        if is_left or is_serving and (status or not refused):
            wrong.append(f"allocation {number}: status {status}, blocks of memory left: {is_left}")
        if not refused:
            break
    if not is_whole:
        wrong.append(f"allocation {number}: nothing was refused, and the entry was not added")
    if not servings:
        wrong.append("no serving was refused")
    print(f"refused_serving, {name}: {number - 1} allocations refused in turn, {servings} of them of the serving; {len(wrong)} wrong", *wrong[:10],
          sep="\n  ", flush=True)
    return bool(wrong)


def main():
    if len(sys.argv) != 2:
        sys.exit(__doc__.split("\n\n")[1])
    with tempfile.TemporaryDirectory() as folder:
        library = refusing.library_in(folder)
        failed = [walk(os.path.abspath(sys.argv[1]), library, *course) for course in COURSES]
    return 1 if any(failed) else 0


if __name__ == "__main__":
    sys.exit(main())
