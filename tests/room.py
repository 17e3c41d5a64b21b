#!/usr/bin/env python3
"""Measures how much memory a server's entries, pending entries and records take, and what is left of what has gone, which no contract says.

usage: tests/room.py PROGRAM [WORD]

PROGRAM is sr_server; with WORD only the figures that have it in their names are taken. A server gets the same commands twice, so that it keeps
the same records of them; only once do entries, or pending entries, stay. What its resident memory grows by then is what they take. A record
stays each time: it is measured against no commands. Consumers that are deleted have a name of their own once, and once the same. Prints each figure with its bound; the status is 1 if one is above it.
"""

import subprocess
import sys
import threading

from lib import resp

MANY, SOME = 200_000, 100_000
AT_ONCE = 1_000


def resident(process):
    """The resident bytes of a process."""
    with open(f"/proc/{process.pid}/status") as status:
        return next(int(line.split()[1]) * 1024 for line in status if line.startswith("VmRSS:"))


def grown(program, commands):
    """By how many bytes the memory of a server grew when it had answered these commands."""
    with subprocess.Popen([program, "--stdio"], stdin=subprocess.PIPE, stdout=subprocess.PIPE) as server:
        replies = resp.Replies(server.stdout)
        server.stdin.write(resp.spelled("PING"))
        server.stdin.flush()
        replies.reply()
        before = resident(server)
        sender = threading.Thread(target=send, args=(server.stdin, commands), daemon=True)
        sender.start()
        for _ in commands:
            replies.reply()
        sender.join()
        after = resident(server)
        server.stdin.close()
    return after - before


def send(stream, commands):
    stream.write(resp.spelled_all(commands))
    stream.flush()


def added(*options):
    """Adds small entries to a stream."""
    return [["XADD", "s", *options, "*", "f", "v"]] * MANY


def delivered(*options):
    """Adds small entries, and delivers them to two consumers in turn, many at a time."""
    group = ["XGROUP", "CREATE", "s", "g", "0", "MKSTREAM"]
    reads = [["XREADGROUP", "GROUP", "g", f"c{turn % 2}", "COUNT", f"{AT_ONCE}", *options, "STREAMS", "s", ">"] for turn in range(MANY // AT_ONCE)]
    return [group, *added(), *reads]


def numbered(first):
    """Adds some small entries, with ids that follow this number."""
    return [["XADD", "s", f"{number}-1", "f", "v"] for number in range(first + 1, first + SOME + 1)]


def made(name_of):
    """Makes a consumer, and deletes it, again and again, each of the name that it has by its number."""
    names = map(name_of, range(SOME))
    return [GROUP, *(["XGROUP", word, "s", "g", name] for name in names for word in ("CREATECONSUMER", "DELCONSUMER"))]


def read(name_of):
    """Has a consumer read an entry, and deletes it with that, again and again, each of the name that it has by its number."""
    commands = [GROUP, *numbered(0)]
    for name in map(name_of, range(SOME)):
        commands.append(["XREADGROUP", "GROUP", "g", name, "COUNT", "1", "STREAMS", "s", ">"])
        commands.append(["XGROUP", "DELCONSUMER", "s", "g", name])
    return commands


def acknowledged(first, *options):
    """Adds some entries, delivers them, and acknowledges all."""
    delivery = ["XREADGROUP", "GROUP", "g", "c", "COUNT", f"{SOME}", *options, "STREAMS", "s", ">"]
    starts = range(first + 1, first + SOME, AT_ONCE)
    return [*numbered(first), delivery, *(["XACK", "s", "g", *(f"{number}-1" for number in range(start, start + AT_ONCE))] for start in starts)]


def own(number):
    return f"c{number:06}"


def same(_):
    return own(0)


GROUP = ["XGROUP", "CREATE", "s", "g", "0", "MKSTREAM"]
LARGE = 15 * [b"x" * 1_048_576]  # words of a request, nearly as many bytes as it may have

# What is measured, the bytes for one that are allowed, of how many, and the commands after which they stay and after which none stay.
FIGURES = [
    ("an entry `f v`", 20, MANY, added("MAXLEN", f"{2 * MANY}"), added("MAXLEN", "1")),
    ("a pending entry", 87, MANY, delivered(), delivered("NOACK")),
    ("the record of a `PING`", 130, MANY, [["PING"]] * MANY, []),
    ("an `XADD s * f v`, its record and its entry", 220, MANY, added(), []),
    ("the record of an `XADD s MAXLEN 1 * f v`", 328, MANY, added("MAXLEN", "1"), []),
    ("the record of an `XACK s g 1-1`", 312, MANY, [["XACK", "s", "g", "1-1"]] * MANY, []),
    ("what a consumer of its own name leaves that was made and deleted", 5, SOME, made(own), made(same)),
    ("what a consumer of its own name leaves that had an entry and was deleted", 5, SOME, read(own), read(same)),
    ("a pending entry, and one after it was acknowledged,", 95, SOME, [GROUP, *acknowledged(0), *acknowledged(SOME)],
     [GROUP, *acknowledged(0, "NOACK"), *acknowledged(SOME, "NOACK")]),
    ("what a request of 15 MiB leaves", 1 << 20, 1, [["FOO", *LARGE]], [["FOO"]]),
]


def main():
    if not 2 <= len(sys.argv) <= 3:
        sys.exit(__doc__.split("\n\n")[1])
    program, *words = sys.argv[1:]
    above = 0
    for name, most, count, staying, going in FIGURES:
        if all(word in name for word in words):
            taken = (grown(program, staying) - grown(program, going)) / count
            above += taken > most
            print(f"room: {name} takes {taken:,.1f} bytes, of {most:,} allowed", flush=True)
    return 1 if above else 0


if __name__ == "__main__":
    sys.exit(main())
