#!/usr/bin/env python3
"""Times a recovery in a Redis of its own by sr_recover, and by the ways in which stranded entries are handed on today.

usage: bench/live.py SR_RECOVER [RUNS]

A group has some entries pending for a dead consumer D, of four classes and three sizes, and live consumers with rates of
their own and room for half as many again. The ways:

sr_recover   sr_recover run, a process of its own
one takes    one consumer claims all by XAUTOCLAIM, 100 at a time
all take     the consumers claim by XAUTOCLAIM in turn, 10 at a time, until nothing is left: first come, first served
in turn      a coordinator lists by XPENDING, 1,000 at a time, and gives each consumer as many by XCLAIM
greedy       a coordinator that also reads each entry by XRANGE, and gives it to the cheapest consumer that has room

Each number is the median of the runs: from start to end, calls to Redis, the longest of them as SLOWLOG tells it (while
one is carried out, nobody else is served), what the entries then cost by the policy, and how many of them are beyond a
limit. The coordinators are Python and send their calls one by one, but for XRANGE in pipelines of 100. It needs
redis-server.
"""

import collections
import os
import random
import statistics
import sys
import time

sys.path.insert(0, os.path.join(os.path.dirname(os.path.realpath(__file__)), "..", "tests"))
from lib import recover, recover_busy, servers  # noqa: E402
from lib.flow import least_total  # noqa: E402
from lib.live import all_replies, texts  # noqa: E402

SIZES = ((100, 8), (4096, 64))
RUNS = 5
SLOWLOG = 1_000_000  # calls that it holds

Taken = collections.namedtuple("Taken", "seconds calls longest cost beyond")


class Group(recover_busy.Group):
    """The group of recover_busy without soft limits, whose limits are half as much again as is stranded."""

    @staticmethod
    def live(choice, name, share, spare):
        limit = share * 3 // 2 + 1
        return recover_busy.Live(name, limit, None, {kind: choice.randint(1, 50) for kind in recover_busy.CLASSES})

    def cost(self, at, live):
        """What the entry at this place costs at a consumer."""
        return live.rates[self.stranded[at][0]] * self.weight(self.stranded[at])


def place_of(entry_id):
    return int(entry_id.split(b"-")[0]) - 1


def autoclaim(redis, name, count, start=b"0-0"):
    """Claims the next of D's entries that nobody has claimed; where to go on."""
    return redis.call("XAUTOCLAIM", "s", "g", name, 0, start, "COUNT", count, "JUSTID")[0]


def one_takes(redis, group):
    start = b"0-0"
    while True:
        start = autoclaim(redis, group.lives[0].name, 100, start)
        if start == b"0-0":
            return


def all_take(redis, group):
    start = b"0-0"
    while True:
        for live in group.lives:
            start = autoclaim(redis, live.name, 10, start)
            if start == b"0-0":
                return


def pending(redis):
    """The ids that are pending for D, page by page."""
    start, page = "-", [None] * 1000
    while len(page) == 1000:
        page = redis.call("XPENDING", "s", "g", start, "+", 1000, "D")
        yield from (row[0] for row in page)
        start = b"(" + page[-1][0] if page else start


def claim(redis, given):
    for name, ids in given.items():
        for first in range(0, len(ids), 1000):
            redis.call("XCLAIM", "s", "g", name, 0, *ids[first : first + 1000], "JUSTID")


def in_turn(redis, group):
    given = collections.defaultdict(list)
    for number, entry_id in enumerate(pending(redis)):
        given[group.lives[number % len(group.lives)].name].append(entry_id)
    claim(redis, given)


def greedy(redis, group):
    given, ids = collections.defaultdict(list), list(pending(redis))
    numbers = {texts(one)[b"name"]: texts(one)[b"pending"] for one in redis.call("XINFO", "CONSUMERS", "s", "g")}
    rooms = {live.name: live.limit - numbers.get(live.name, 0) for live in group.lives}
    for first in range(0, len(ids), 100):
        part = ids[first : first + 100]
        for entry_id, entry in zip(part, all_replies(redis, (["XRANGE", "s", one, one] for one in part))):
            fields = texts(entry[0][1])
            weight = sum(map(len, entry[0][1]))
            free = (live for live in group.lives if rooms[live.name])
            live = min(free, key=lambda live: live.rates[fields[b"c"]] * weight)
            rooms[live.name] -= 1
            given[live.name].append(entry_id)
    claim(redis, given)


WAYS = {"one takes": one_takes, "all take": all_take, "in turn": in_turn, "greedy": greedy}


def by_program(server, policy):
    found = recover.run(server.port, policy, "run", ["s", "g", "D"])
    if found.status != 0:
        raise SystemExit(f"sr_recover ended with status {found.status}: {found.errors}")
    return found.seconds


def outcome(redis, group):
    """What the entries cost where they now are, and how many are beyond a limit."""
    cost = beyond = 0
    for live in group.lives:
        rows = redis.call("XPENDING", "s", "g", "-", "+", len(group.stranded), live.name)
        cost += sum(group.cost(place_of(row[0]), live) for row in rows)
        beyond += max(0, len(rows) - live.limit)
    if redis.call("XPENDING", "s", "g", "-", "+", 1, "D"):
        raise SystemExit("an entry is left with D")
    return cost, beyond


def taken(server, redis, group, way, policy):
    """One recovery by one of the ways."""
    all_replies(redis, group.commands())
    redis.call("SLOWLOG", "RESET")
    if way == "sr_recover":
        seconds = by_program(server, policy)
    else:
        began = time.perf_counter()
        WAYS[way](redis, group)
        seconds = time.perf_counter() - began
    # what a script calls is logged too, without an address
    logged = [entry for entry in redis.call("SLOWLOG", "GET", -1) if not entry[4].startswith(b"?")]
    calls = [entry[2] for entry in logged if entry[3][0].upper() != b"SLOWLOG"]
    return Taken(seconds, len(calls), max(calls), *outcome(redis, group))


def main():
    if len(sys.argv) not in (2, 3):
        sys.exit(__doc__)
    if not servers.Redis.installed():
        sys.exit("bench/live.py: redis-server is not installed (Debian: redis-server)")
    recover.PROGRAM = os.path.abspath(sys.argv[1])
    runs = int(sys.argv[2]) if len(sys.argv) == 3 else RUNS
    print(f"{'entries':>7} {'consumers':>9}  {'way':10} {'ms':>8} {'calls':>6} {'longest ms':>10} {'cost':>9} {'beyond':>6}")
    options = ["--slowlog-log-slower-than", "0", "--slowlog-max-len", str(SLOWLOG)]
    for entries, consumers in SIZES:
        group = Group(random.Random(7), entries, consumers, 0, 0)
        policy = recover.policy_text(group.lives)
        least = least_total(*group.problem({}))
        with servers.Redis(*options) as server, server.connect(120) as redis:
            for way in ["sr_recover", *WAYS]:
                rows = [taken(server, redis, group, way, policy) for _ in range(runs)]
                row = Taken(*map(statistics.median, zip(*rows)))
                if way == "sr_recover" and {one.cost for one in rows} != {least}:
                    raise SystemExit(f"sr_recover's plans cost {rows}, and the least is {least}")
                print(f"{entries:7} {consumers:9}  {way:10} {row.seconds * 1000:8.1f} {row.calls:6} {row.longest / 1000:10.2f} {row.cost:9} {row.beyond:6}", flush=True)


if __name__ == "__main__":
    main()
