#!/usr/bin/env python3
"""Times a built server and a Redis server on trims of streams: python3 bench/trims.py PROGRAM [--redis REDIS_SERVER]

Requests are made beforehand and sent without waiting for replies: to PROGRAM --stdio over a pipe, to REDIS_SERVER (`redis-server` if
not given, Debian: redis-server; left out if it is not installed) over a socket of its own. Each number is the microseconds of processor
time that the server takes for a request, its system calls counted: the median of five runs by turns, each with servers of their own.
A row whose replies are wrong says so and has no number, and the status is then 1.
"""
import argparse
import shutil
import statistics
import sys

from groups import Ours, Redis
from streams import Wrong, adds, request  # (which makes lib known)

from lib.resp import bulk

MANY, FEW = 1_000_000, 1_000  # entries
RUNS = 5


def capped(entries, times):
    """XADD that keeps so many entries, of a stream that has as many."""
    words = (request(b"XADD", b"s", b"MAXLEN", b"%d" % entries, b"2-%d" % n, b"f", b"v") for n in range(1, times + 1))
    return b"".join(words), b"".join(bulk(b"2-%d" % n) for n in range(1, times + 1)), entries


def trimmed(entries, going, times, words):
    """XTRIM of so many entries, over and over."""
    asked = (request(b"XTRIM", b"s", *words(entries, going * n)) for n in range(1, times + 1))
    return b"".join(asked), b":%d\r\n" % going * times, entries - going * times


def deleted(entries, times):
    """XDEL of one entry, around the middle of the stream."""
    asked = (request(b"XDEL", b"s", b"1-%d" % (entries // 2 + (n // 2 if n % 2 else -(n // 2)))) for n in range(1, times + 1))
    return b"".join(asked), b":1\r\n" * times, entries - times


def by_length(entries, gone):
    return b"MAXLEN", b"%d" % (entries - gone)


def by_id(_, gone):
    return b"MINID", b"1-%d" % (gone + 1)


# The entries of the stream beforehand, how many requests there are, and what makes them with their replies and the length afterwards.
ROWS = [
    (f"XADD s MAXLEN {FEW:,} 2-N f v", FEW, 100_000, capped),
    (f"XADD s MAXLEN {MANY:,} 2-N f v", MANY, 300, capped),
    (f"XTRIM s MAXLEN, {FEW:,} entries go", MANY, 500, lambda entries, times: trimmed(entries, FEW, times, by_length)),
    (f"XTRIM s MINID, {FEW:,} entries go", MANY, 500, lambda entries, times: trimmed(entries, FEW, times, by_id)),
    (f"XDEL s of one in the middle of {MANY:,}", MANY, 10_000, deleted),
]


def run(server, entries, times, made):
    """The microseconds of a request."""
    requests, wanted, left = made
    with server as connection:
        connection.ask(adds(entries))
        took, replies = connection.ask(requests)
        _, length = connection.ask(request(b"XLEN", b"s"))
        if replies != wanted or length != b":%d\r\n" % left:
            raise Wrong(f"{replies[:40]!r}.., and then a length of {length!r}")
        return took / times * 1e6


def show(servers, name, entries, times, make):
    """Prints a row. Whether its replies were right."""
    made = make(entries, times)
    try:
        runs = [[run(server, entries, times, made) for server in servers] for _ in range(RUNS)]
    except Wrong as wrong:
        print(f"{name:40}{entries:11,}  wrong: {wrong}", flush=True)
        return False
    medians = list(map(statistics.median, zip(*runs)))
    ratio = f"{medians[1]:9.2f}{medians[0] / medians[1]:9.2f}" if len(medians) > 1 else ""
    print(f"{name:40}{entries:11,}{medians[0]:11.2f}{ratio}", flush=True)
    return True


def main():
    parser = argparse.ArgumentParser(description=__doc__, formatter_class=argparse.RawDescriptionHelpFormatter)
    parser.add_argument("program", metavar="PROGRAM")
    parser.add_argument("--redis", metavar="REDIS_SERVER", default="redis-server")
    options = parser.parse_args()
    servers = [Ours(options.program)] + ([Redis(options.redis)] if shutil.which(options.redis) else [])
    print(f"{'microseconds of processor time a request':40}{'entries':>11}{'sr_server':>11}{'Redis':>9}{'ratio':>9}")
    return 0 if all([show(servers, *row) for row in ROWS]) else 1


if __name__ == "__main__":
    sys.exit(main())
