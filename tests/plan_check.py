#!/usr/bin/env python3
"""Gives plan_check inputs that were worked by hand, and compares what it prints and its status with what is written here.

usage: tests/plan_check.py PROGRAM

Prints what differs; the status is 1 if anything does.
"""

import subprocess
import sys

from lib import session

SECONDS = 60

# A has room for one entry, and B for one. An entry of class y costs B a hundred times what it costs A, and one of class x
# twice.
TWO = """\
entry 1-1 x 2
entry 2-1 y 2
consumer A 1
consumer B 1
rate x A 1
rate x B 2
rate y A 1
rate y B 100
"""

# The same, in another order and with other spellings, a comment and an empty line.
TWO_AGAIN = (
    "# the two entries\nconsumer \"B\" 1\r\n\n  consumer\tA  01\nrate \"\\x79\" B 100\n"
    "rate x B 2\nrate y A 1\nrate x A 1\nentry 2-1 y 2\nentry 1-1 x 2\n"
)

# The same, but B has no room.
NO_ROOM = TWO.replace("consumer B 1", "consumer B 0")

# A alone has room, and for one entry.
SHORT = """\
entry 1-1 x 2
entry 2-1 x 2
consumer A 1
rate x A 1
"""

# The second entry of `TWO` can go to B alone.
APART = TWO.replace("rate y A 1\n", "")

# There is one entry, and A has a place that is left over.
ONE = "entry 1-1 x 2\nconsumer A 2\nconsumer B 1\nrate x A 1\nrate x B 2\n"

# Both of `TWO`, and 3-1 that is gone.
GONE = """\
gone 3-1
entry 1-1 x 2
entry 2-1 y 2
consumer A 1
consumer B 1
rate x A 1
rate x B 2
rate y A 1
rate y B 100
"""

# Each number is the greatest that it may be. The entry costs 2^20 a unit, and is 2^20 units.
GREATEST = "entry 1-1 x 1048576\nconsumer A 1000000000\nrate x A 1048576\n"

# As many consumers as a problem may have, and one more; and the same of entries, which nobody may take.
MOST = "".join(f"consumer C{number} 1\n" for number in range(64))
CROWDED = MOST + "consumer C64 1\n"
MOST_ENTRIES = "".join(f"entry {number}-1 x 1\n" for number in range(1, 4097))
ALL = [b"%d-1" % number for number in range(1, 4097)]
ALL_SENT = " ".join(["*4096", *(f"${len(entry)} {entry.decode()}" for entry in ALL)])

# There is one entry, and A, which it costs 1, is full with it: A's price may be anything.
FULL = "entry 1-1 x 1\nconsumer A 1\nrate x A 1\n"

# A has one place without a fee and two at 5 an entry, B three. Both entries cost 2 at A and 8 at B.
SOFT = """\
entry 1-1 x 2
entry 2-1 x 2
consumer A 1 2 5
consumer B 3
rate x A 1
rate x B 4
"""

# The same at a fee of 7, at which B is cheaper for one of them.
DEAR = SOFT.replace("2 5", "2 7")

# A alone, with one place without a fee and one at 5, and three entries.
SOFT_SHORT = """\
entry 1-1 x 2
entry 2-1 x 2
entry 3-1 x 2
consumer A 1 1 5
rate x A 1
"""

CHEAPEST = "cheapest, total 6"

FORM = "wrong: the reply is neither a plan nor a shortage"

ENTRIES = "wrong: the entries of the reply, or those that it calls gone, are not those of the problem"

NAMES = "wrong: a name in the reply is not that of a consumer in its place"

PRICES = "wrong: the prices do not show that the plan is allowed, costs the total, and costs least"

PLACES = "wrong: the entries of the shortage have enough places, or not the places that the reply says"

PLAN = """\
1) "plan"
2) (integer) 6
3) 1) 1) "1-1"
      2) "B"
   2) 1) "2-1"
      2) "A"
4) 1) 1) "A"
      2) (integer) 2
   2) 1) "B"
      2) (integer) 0
5) (empty array)
"""

# A problem, a reply as the server sends it, with a space for each line end but the last, and what is printed.
SENT = [
    (TWO, "*5 $4 plan :6 *2 *2 $3 1-1 $1 B *2 $3 2-1 $1 A *2 *2 $1 A :2 *2 $1 B :0 *0", CHEAPEST),
    (TWO_AGAIN, "*5 $4 done :6 *2 *2 $3 1-1 $1 B *2 $3 2-1 $1 A *2 *2 $1 A :2 *2 $1 B :0 *0", CHEAPEST),
    # Other prices show the same. A's price may be 2 to 198 more than B's.
    (TWO, "*5 $4 done :6 *2 *2 $3 1-1 $1 B *2 $3 2-1 $1 A *2 *2 $1 A :198 *2 $1 B :0 *0", CHEAPEST),
    (TWO, "*5 $4 plan :6 *2 *2 $3 1-1 $1 B *2 $3 2-1 $1 A *2 *2 $1 A :1 *2 $1 B :0 *0", PRICES),
    (TWO, "*5 $4 plan :6 *2 *2 $3 1-1 $1 B *2 $3 2-1 $1 A *2 *2 $1 A :199 *2 $1 B :0 *0", PRICES),
    # B has no price.
    (TWO, "*5 $4 plan :6 *2 *2 $3 1-1 $1 B *2 $3 2-1 $1 A *1 *2 $1 A :2 *0", NAMES),
    # A has no room for both.
    (TWO, "*5 $4 plan :4 *2 *2 $3 1-1 $1 A *2 $3 2-1 $1 A *2 *2 $1 A :2 *2 $1 B :0 *0", PRICES),
    (APART, "*5 $4 plan :202 *2 *2 $3 1-1 $1 A *2 $3 2-1 $1 B *2 *2 $1 A :0 *2 $1 B :0 *0", "cheapest, total 202"),
    # A price where a place is left over.
    (ONE, "*5 $4 plan :2 *1 *2 $3 1-1 $1 A *2 *2 $1 A :0 *2 $1 B :0 *0", "cheapest, total 2"),
    (ONE, "*5 $4 plan :2 *1 *2 $3 1-1 $1 A *2 *2 $1 A :1 *2 $1 B :0 *0", PRICES),
    # A price above each of the server's, 2^59; the greatest integer of the protocol; and one more, which is not read.
    (FULL, "*5 $4 plan :1 *1 *2 $3 1-1 $1 A *1 *2 $1 A :576460752303423488 *0", "cheapest, total 1"),
    (FULL, "*5 $4 plan :1 *1 *2 $3 1-1 $1 A *1 *2 $1 A :9223372036854775807 *0", "cheapest, total 1"),
    (FULL, "*5 $4 plan :1 *1 *2 $3 1-1 $1 A *1 *2 $1 A :9223372036854775808 *0", NAMES),
    # The total is one too low, and one too high.
    (TWO, "*5 $4 plan :5 *2 *2 $3 1-1 $1 B *2 $3 2-1 $1 A *2 *2 $1 A :2 *2 $1 B :0 *0", PRICES),
    (TWO, "*5 $4 plan :7 *2 *2 $3 1-1 $1 B *2 $3 2-1 $1 A *2 *2 $1 A :2 *2 $1 B :0 *0", PRICES),
    # The total is right, but the other plan costs less.
    (TWO, "*5 $4 plan :202 *2 *2 $3 1-1 $1 A *2 $3 2-1 $1 B *2 *2 $1 A :0 *2 $1 B :0 *0", PRICES),
    (TWO, "*5 $4 plan :6 *1 *2 $3 1-1 $1 B *2 *2 $1 A :2 *2 $1 B :0 *0", ENTRIES),
    # 1-1 is there twice.
    (TWO, "*5 $4 plan :6 *2 *2 $3 1-1 $1 B *2 $3 1-1 $1 A *2 *2 $1 A :2 *2 $1 B :0 *0", ENTRIES),
    # C is not there.
    (
        TWO,
        "*5 $4 plan :6 *2 *2 $3 1-1 $1 C *2 $3 2-1 $1 A *2 *2 $1 A :2 *2 $1 B :0 *0",
        NAMES,
    ),
    # 3-1 is called gone, and is not in the problem; and then it is in the problem.
    (TWO, "*5 $4 plan :6 *2 *2 $3 1-1 $1 B *2 $3 2-1 $1 A *2 *2 $1 A :2 *2 $1 B :0 *1 $3 3-1", ENTRIES),
    (GONE, "*5 $4 plan :6 *2 *2 $3 1-1 $1 B *2 $3 2-1 $1 A *2 *2 $1 A :2 *2 $1 B :0 *1 $3 3-1", CHEAPEST),
    (SHORT, "*4 $4 none *2 $3 1-1 $3 2-1 *1 *2 $1 A :1 :1", "impossible, 1 place for 2 entries"),
    (SHORT, "*4 $4 none *2 $3 1-1 $3 2-1 *1 *2 $1 A :1 :2", PLACES),
    # One of the entries has a place, and none needs none. Entries of a shortage stand by id, each once.
    (SHORT, "*4 $4 none *1 $3 1-1 *1 *2 $1 A :1 :1", PLACES),
    (SHORT, "*4 $4 none *0 *0 :0", PLACES),
    (SHORT, "*4 $4 none *2 $3 2-1 $3 1-1 *1 *2 $1 A :1 :1", ENTRIES),
    (SHORT, "*4 $4 none *2 $3 1-1 $3 1-1 *1 *2 $1 A :1 :1", ENTRIES),
    (NO_ROOM, "*4 $4 none *2 $3 1-1 $3 2-1 *2 *2 $1 A :1 *2 $1 B :0 :1", "impossible, 1 place for 2 entries"),
    (NO_ROOM, "*4 $4 none *2 $3 1-1 $3 2-1 *2 *2 $1 A :1 *2 $1 B :0 :2", PLACES),
    # The two have places enough.
    (TWO, "*4 $4 none *2 $3 1-1 $3 2-1 *2 *2 $1 A :1 *2 $1 B :1 :2", PLACES),
    # Nobody may take 1-1.
    ("entry 1-1 x 1\nconsumer A 1\n", "*4 $4 none *1 $3 1-1 *0 :0", "impossible, 0 places for 1 entry"),
    (MOST + "entry 1-1 x 1\n", "*4 $4 none *1 $3 1-1 *0 :0", "impossible, 0 places for 1 entry"),
    (MOST_ENTRIES, "*4 $4 none *1 $3 1-1 *0 :0", "impossible, 0 places for 1 entry"),
    (MOST_ENTRIES, f"*4 $4 none {ALL_SENT} *0 :0", "impossible, 0 places for 4096 entries"),
    ("", "*5 $4 plan :0 *0 *0 *0", "cheapest, total 0"),
    (GREATEST, "*5 $4 plan :1099511627776 *1 *2 $3 1-1 $1 A *1 *2 $1 A :0 *0", "cheapest, total 1099511627776"),
    # Both go to A, the second of them at the fee. A's first place is worth the fee.
    (SOFT, "*5 $4 plan :9 *2 *2 $3 1-1 $1 A *2 $3 2-1 $1 A *2 *3 $1 A :5 :0 *2 $1 B :0 *0", "cheapest, total 9"),
    (SOFT, "*5 $4 plan :4 *2 *2 $3 1-1 $1 A *2 $3 2-1 $1 A *2 *3 $1 A :5 :0 *2 $1 B :0 *0", PRICES),
    (SOFT, "*5 $4 plan :14 *2 *2 $3 1-1 $1 A *2 $3 2-1 $1 A *2 *3 $1 A :5 :0 *2 $1 B :0 *0", PRICES),
    (SOFT, "*5 $4 plan :10 *2 *2 $3 1-1 $1 A *2 $3 2-1 $1 B *2 *3 $1 A :6 :0 *2 $1 B :0 *0", PRICES),
    (SOFT, "*5 $4 plan :9 *2 *2 $3 1-1 $1 A *2 $3 2-1 $1 A *2 *3 $1 A :4 :0 *2 $1 B :0 *0", PRICES),
    (SOFT, "*5 $4 plan :9 *2 *2 $3 1-1 $1 A *2 $3 2-1 $1 A *2 *3 $1 A :6 :0 *2 $1 B :0 *0", PRICES),
    # The second tier has a place left over, so that it has no price.
    (SOFT, "*5 $4 plan :9 *2 *2 $3 1-1 $1 A *2 $3 2-1 $1 A *2 *3 $1 A :6 :1 *2 $1 B :0 *0", PRICES),
    # A price is missing, or one too many.
    (SOFT, "*5 $4 plan :9 *2 *2 $3 1-1 $1 A *2 $3 2-1 $1 A *2 *2 $1 A :5 *2 $1 B :0 *0", NAMES),
    (SOFT, "*5 $4 plan :9 *2 *2 $3 1-1 $1 A *2 $3 2-1 $1 A *2 *3 $1 A :5 :0 *3 $1 B :0 :0 *0", NAMES),
    (DEAR, "*5 $4 plan :10 *2 *2 $3 1-1 $1 A *2 $3 2-1 $1 B *2 *3 $1 A :6 :0 *2 $1 B :0 *0", "cheapest, total 10"),
    (DEAR, "*5 $4 plan :10 *2 *2 $3 1-1 $1 B *2 $3 2-1 $1 A *2 *3 $1 A :6 :0 *2 $1 B :0 *0", "cheapest, total 10"),
    (DEAR, "*5 $4 plan :11 *2 *2 $3 1-1 $1 A *2 $3 2-1 $1 A *2 *3 $1 A :7 :0 *2 $1 B :0 *0", PRICES),
    # The places of a shortage are those of both tiers.
    (SOFT_SHORT, "*4 $4 none *3 $3 1-1 $3 2-1 $3 3-1 *1 *2 $1 A :2 :2", "impossible, 2 places for 3 entries"),
    (SOFT_SHORT, "*4 $4 none *3 $3 1-1 $3 2-1 $3 3-1 *1 *2 $1 A :1 :1", PLACES),
    (SOFT_SHORT, "*4 $4 none *2 $3 1-1 $3 2-1 *1 *2 $1 A :2 :2", PLACES),
    (TWO, "-STALE the group has changed", "wrong: the reply is an error"),
    (TWO, "*5", FORM),
    # Numbers as the server does not spell them, one that is too great, and lengths of what is not there.
    (TWO, "*5 $4 plan :06 *2 *2 $3 1-1 $1 B *2 $3 2-1 $1 A *2 *2 $1 A :2 *2 $1 B :0 *0", FORM),
    (TWO, "*5 $4 plan :+6 *2 *2 $3 1-1 $1 B *2 $3 2-1 $1 A *2 *2 $1 A :2 *2 $1 B :0 *0", FORM),
    (TWO, "*5 $4 plan :-0 *2 *2 $3 1-1 $1 B *2 $3 2-1 $1 A *2 *2 $1 A :2 *2 $1 B :0 *0", FORM),
    (TWO, "*5 $04 plan :6 *2 *2 $3 1-1 $1 B *2 $3 2-1 $1 A *2 *2 $1 A :2 *2 $1 B :0 *0", FORM),
    (TWO, "*5 $4 plan :9223372036854775808 *2 *2 $3 1-1 $1 B *2 $3 2-1 $1 A *2 *2 $1 A :2 *2 $1 B :0 *0", FORM),
    (TWO, "*18446744073709551615", FORM),
    (TWO, "*18446744073709551616", FORM),
    (TWO, "*2 *18446744073709551615 :1", FORM),
    # A line too many, and an empty one alone.
    (TWO, "*5 $4 plan :6 *2 *2 $3 1-1 $1 B *2 $3 2-1 $1 A *2 *2 $1 A :2 *2 $1 B :0 *0 !", FORM),
    (TWO, "", FORM),
]

# Two texts of `PLAN`, the second of which takes the place of the first, and what is printed then.
CHANGED = [
    ("plan", "done", CHEAPEST),
    ("\"B\"\n   2) 1) \"2", "\"\\x42\"\n   2) 1) \"2", CHEAPEST),
    ("(empty array)", "(empty list or set)\r\n", CHEAPEST),
    ("(integer) 2", "(integer) 1", PRICES),
    ("(integer) 6", "(integer) 5", PRICES),
    ("   2) 1) \"2-1\"\n      2) \"A\"\n", "", ENTRIES),
    ("(empty array)", "1) \"3-1\"", ENTRIES),
    ("(integer) 6", "(integer) 06", FORM),
    ("(integer) 6", "(nil)", FORM),
    ("\"plan\"", "\"plan", FORM),
    ("\"plan\"", "\"plan\" \"plan\"", FORM),
    # A number is left out, an item stands at no array, and a line has no number.
    ("5) (", "6) (", FORM),
    ("      2) \"B\"", "     2) \"B\"", FORM),
    ("2) (integer) 6\n", "2) (integer) 6\n\"x\"\n", FORM),
]

# Inputs without a right reply, and what is printed.
INPUTS = [
    ("", "no line `reply`"),
    ("consumer A 1\n", "no line `reply`"),
    ("consumer A 1\n# B\nconsumer B x\nreply\n", "line 3: not a number"),
    ("consumer A 1000000001", "line 1: a number out of range"),
    ("consumer A 1 1000000001 0", "line 1: a number out of range"),
    ("consumer A 600000000 400000001 0", "line 1: a number out of range"),
    ("consumer A 1 1 1099511627777", "line 1: a number out of range"),
    ("consumer A 1 2", "line 1: not an `entry`, `gone`, `consumer` or `rate` with its words, nor `reply`"),
    ("consumer A 1 2 3 4", "line 1: not an `entry`, `gone`, `consumer` or `rate` with its words, nor `reply`"),
    ("entry 1-1 x 0", "line 1: a number out of range"),
    ("entry 1-1 x 1048577", "line 1: a number out of range"),
    ("consumer A 1\nrate x A 1048577", "line 2: a number out of range"),
    ("consumer A 18446744073709551616", "line 1: not a number"),
    ("gone 1-1-1", "line 1: not an id"),
    ("consumer A 1\nrate x B 1", "line 2: no such consumer above"),
    ("gone 1-1\ngone 1-01", "line 2: there is such a line already"),
    ("entry 1-1 x 1\nentry 1-1 y 1", "line 2: there is such a line already"),
    ("consumer \"A\" 1\nconsumer A 2", "line 2: there is such a line already"),
    ("consumer A 1\nrate x A 1\nrate x A 1", "line 3: there is such a line already"),
    ("gone \"1-1", "line 1: not closed quotes around a word, or an unknown escape in them"),
    ("gone \"1-1\"0", "line 1: not closed quotes around a word, or an unknown escape in them"),
    ("gone \"\\q\"", "line 1: not closed quotes around a word, or an unknown escape in them"),
    ("entry 1-1 x", "line 1: not an `entry`, `gone`, `consumer` or `rate` with its words, nor `reply`"),
    (CROWDED, "line 65: too many entries, consumers or classes"),
    (MOST_ENTRIES + "entry 5000-1 x 1\n", "line 4097: too many entries, consumers or classes"),
    ("reply\n(error) STALE the group has changed\n", "wrong: the reply is an error"),
    ("reply\n", FORM),
]


def printed(program, text):
    """The line that the program prints for an input, and its status."""
    ran = subprocess.run([program], input=text.encode(), stdout=subprocess.PIPE, timeout=SECONDS)
    return ran.stdout.decode().rstrip("\n"), ran.returncode


def rows():
    """Each input with its line. The longest shortage is also read as redis-cli prints it."""
    for problem, reply, wanted in SENT:
        yield problem + "reply\n" + "".join(word + "\r\n" for word in reply.split(" ")), wanted
    yield MOST_ENTRIES + "reply\n" + session.printed([b"none", ALL, [], 0]) + "\n", f"impossible, 0 places for {len(ALL)} entries"
    for part, other, wanted in CHANGED:
        yield TWO + "reply\n" + PLAN.replace(part, other), wanted
    yield from INPUTS


def main():
    if len(sys.argv) != 2:
        sys.exit(__doc__.split("\n\n")[1])
    count, wrong = 0, 0
    for text, wanted in rows():
        status = 0 if wanted.startswith(("cheapest", "impossible")) else 1
        found = printed(sys.argv[1], text)
        count += 1
        if found != (wanted, status):
            wrong += 1
            print(f"{text!r}\nexpected: {wanted}, status {status}\ngiven:    {found[0]}, status {found[1]}")
    print(f"plan_check: {count} inputs, {wrong} wrong")
    sys.exit(1 if wrong else 0)


main()
