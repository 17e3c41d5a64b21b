#!/usr/bin/env python3
"""Sends sr_server as much as the rules allow, and compares its replies with what is written here.

usage: tests/limits.py PROGRAM [PART ..]

PART is one of those below; all if none is named. A server may answer at any time that it is out of memory: each part has one that always does at a size fail.

| Part | What is as large as it may be |
|---|---|
| `policy` | 64 consumers, 1,024 classes that are all in use, and 4,096 stranded entries, which RECOVER.RUN moves |
| `names` | a key, a group and consumers of 1 MiB each, in commands and in a recovery |
| `read` | 10,000 entries in one XREADGROUP, and then in XACK, by the 4,096 words of a request |
| `waits` | requests that come piece by piece while a read before them waits, over a socket in both ways |

Prints each reply that differs, and how many there are; the status is 1 if one differs, or if it took too long.
"""

import sys
import tempfile
import time

from lib import piped, servers
from lib.resp import lines, spelled
from lib.tally import judged

SECONDS = 600  # an unproved program is slow
STRANDED, CONSUMERS, CLASSES = 4096, 64, 1024
EACH = STRANDED // CONSUMERS  # entries that a consumer gets
WORD = 1 << 20  # bytes
READ, WORDS = 10_000, 4_096
PAUSE = 0.1  # seconds in which a server reads what was sent


def ids(last):
    return [b"%d-1" % number for number in range(1, last + 1)]


# ---- policy

def class_of(number):
    return b"k%04d" % (number % CLASSES)


NAMES = [b"w%02d" % place for place in range(CONSUMERS)]
WEIGHT = len(b"c" + class_of(0))  # of each entry


def owner_of(number):
    """The one consumer that takes the class of an entry for nothing. With all others it costs its weight."""
    return NAMES[number % CLASSES % CONSUMERS]


def policy_file():
    limits = "".join(f"{name.decode()} = {EACH}\n" for name in NAMES)
    tables = []
    for number in range(CLASSES):
        rates = "".join(f"{name.decode()} = {int(name != owner_of(number))}\n" for name in NAMES)
        tables.append(f"[rates.{class_of(number).decode()}]\n{rates}")
    return f'class_field = "c"\n[limits]\n{limits}{"".join(tables)}'


def without_prices(reply):
    """A plan in whose place for prices is whether they show it. All consumers are full, and a plan of no cost is a cheapest one: so prices are
    right exactly if none is above another by more than an entry costs there."""
    match reply:
        case [word, total, moves, list(prices), gone] if [name for name, _ in prices] == NAMES:
            return [word, total, moves, max(price for _, price in prices) - min(price for _, price in prices) <= WEIGHT, gone]
    return reply


def policy(tally, program):
    numbers = range(1, STRANDED + 1)
    moves = [[b"%d-1" % number, owner_of(number)] for number in numbers]
    rows = [(["XADD", "s", f"{number}-1", "c", class_of(number)], b"%d-1" % number) for number in numbers]
    rows += [
        ("XGROUP CREATE s g 0".split(), b"OK"),
        (f"XREADGROUP GROUP g D COUNT {STRANDED} STREAMS s >".split(), [[b"s", [[b"%d-1" % number, [b"c", class_of(number)]] for number in numbers]]]),
        ("RECOVER.PLAN s g DEAD D".split(), [b"plan", 0, moves, True, []]),
        ("RECOVER.RUN s g DEAD D".split(), [b"done", 0, moves, True, []]),
        ("XPENDING s g".split(), [STRANDED, b"1-1", b"%d-1" % STRANDED, [[name, b"%d" % EACH] for name in NAMES]]),
        ("RECOVER.RUN s g DEAD D".split(), [b"done", 0, [], True, []]),
    ]
    with tempfile.NamedTemporaryFile("w", suffix=".toml") as file:
        file.write(policy_file())
        file.flush()
        judge(tally, "policy", program, rows, "--policy", file.name)


def judge(tally, name, program, rows, *options):
    """Compares the replies to these commands."""
    replies = piped.replies_of(program, [command for command, _ in rows], *options)
    for (command, wanted), reply in zip(rows, replies):
        tally.compare(f"{name}: {b' '.join(word if isinstance(word, bytes) else word.encode() for word in command)[:60]!r}", wanted, without_prices(reply))


# ---- names

def names(tally, program):
    key, group, first, second = (letter * WORD for letter in (b"k", b"g", b"a", b"b"))
    entry = [b"1-1", [b"f", b"v"]]
    rows = [
        (["XADD", key, "1-1", "f", "v"], b"1-1"),
        (["XGROUP", "CREATE", key, group, "0"], b"OK"),
        (["XREADGROUP", "GROUP", group, first, "STREAMS", key, ">"], [[key, [entry]]]),
        (["XPENDING", key, group], [1, b"1-1", b"1-1", [[first, b"1"]]]),
        (["RECOVER.PLAN", key, group, "DEAD", first], [b"none", [b"1-1"], [], 0]),
        (["XCLAIM", key, group, second, "0", "1-1", "JUSTID"], [b"1-1"]),
        (["XAUTOCLAIM", key, group, first, "0", "0"], [b"0-0", [entry], []]),
        (["XREADGROUP", "GROUP", group, first, "STREAMS", key, "0"], [[key, [entry]]]),
        (["XGROUP", "DELCONSUMER", key, group, second], 0),
        (["XGROUP", "DELCONSUMER", key, group, first], 1),
        (["XGROUP", "DESTROY", key, group], 1),
        (["XRANGE", key, "-", "+"], [entry]),
    ]
    judge(tally, "names", program, rows)


# ---- read

def read(tally, program):
    all_ids = ids(READ)
    rows = [(["XADD", "s", entry, "f", "v"], entry) for entry in all_ids]
    rows += [
        (["XGROUP", "CREATE", "s", "g", "0"], b"OK"),
        (["XREADGROUP", "GROUP", "g", "A", "COUNT", f"{READ}", "STREAMS", "s", ">"], [[b"s", [[entry, [b"f", b"v"]] for entry in all_ids]]]),
        (["XREADGROUP", "GROUP", "g", "A", "STREAMS", "s", "0"], [[b"s", [[entry, [b"f", b"v"]] for entry in all_ids]]]),
        (["XPENDING", "s", "g"], [READ, all_ids[0], all_ids[-1], [[b"A", b"%d" % READ]]]),
    ]
    most = WORDS - 3  # ids that a request has room for beside XACK, the key and the group
    for place in range(0, READ, most):
        rows.append((["XACK", "s", "g", *all_ids[place:place + most]], len(all_ids[place:place + most])))
    rows.append((["XPENDING", "s", "g"], [0, None, None, None]))
    judge(tally, "read", program, rows)


# ---- waits

def waits(tally, program, way):
    with servers.Server(program, **{way: 2}) as server, server.connect() as waiting, server.connect() as other:
        waiting.send("XREAD", "BLOCK", 0, "STREAMS", "s", "$")
        for piece in (lines("PING", "XLEN s"), spelled("PING")[:7], spelled("PING")[7:] + lines("XLEN s"), lines("PING")):
            time.sleep(PAUSE)
            waiting.socket.sendall(piece)
        time.sleep(PAUSE)
        tally.compare(f"{way}: XADD", b"1-1", other.call("XADD", "s", "1-1", "f", "v"))
        tally.compare(f"{way}: the read", [[b"s", [[b"1-1", [b"f", b"v"]]]]], waiting.reply())
        for wanted in (b"PONG", 1, b"PONG", 1, b"PONG"):
            tally.compare(f"{way}: after the read", wanted, waiting.reply())


def waits_in_each_way(tally, program):
    for way in servers.WAYS:
        tally.play(waits, program, way)


PARTS = {"policy": policy, "names": names, "read": read, "waits": waits_in_each_way}


def run(tally, program, parts):
    for part in parts:
        tally.play(PARTS[part], program)


def main():
    if len(sys.argv) < 2 or not set(sys.argv[2:]) <= set(PARTS):
        sys.exit(__doc__.split("\n\n")[1])
    program, *parts = sys.argv[1:]
    return judged("limits", SECONDS, lambda tally: run(tally, program, parts or PARTS))


if __name__ == "__main__":
    sys.exit(main())
