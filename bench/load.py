#!/usr/bin/env python3
"""Loads a built server as one client can that asks for much, or very many, beside a Redis server.

usage: bench/load.py PROGRAM [--table] [ROW[=N] ..]

ROW is the name of one in the table; all if none is named, which takes some ten minutes. `woken_readers=2000` gives one that has a size
another. sr_server is started with `--connections 1000 --keep 100000` (`loop`) and, where the row is for both ways of serving, with
`--workers 64 --keep 100000`; Redis (Debian: redis-server) with `--save '' --appendonly no`. All go by turns in the same minutes. Time is
processor time, utime and stime of the process, and memory VmRSS; `ms that a PING waits` is the longest that another client's PING, sent
every millisecond, was not answered. Each number is the median of the row's turns. What is wanted is said in the last line of a row, with
the servers of which it does not hold. With --table all is printed once more at the end, as docs/BENCH.md has it. Needs cc.

The status is 1 if it does not hold of a row, or if a row could not be measured.
"""

import collections
import contextlib
import os
import shutil
import statistics
import sys
import tempfile
import time

HERE = os.path.dirname(os.path.realpath(__file__))
sys.path.insert(0, os.path.join(HERE, "..", "tests"))
import load_memory as memory  # noqa: E402
import load_recovery as recovery  # noqa: E402
import load_requests as requests  # noqa: E402
import load_share as share  # noqa: E402
from lib import servers  # noqa: E402
from net import Load, print_load  # noqa: E402

CONNECTIONS, WORKERS, KEPT, MOST = 1_000, 64, 100_000, 10_000
TABLE = "--table"
LOOP, BOTH = (servers.LOOP,), servers.WAYS[::-1]
SHOWN = "loop", "workers", "Redis"  # the servers, as they are called
KEPT_BYTES = 64  # MiB of records, where none are given
BESIDE = 48  # MiB that a server takes beside what is kept: buffers, and what memory that is used again does not give back

# `measure` is called with a server and the bench, and answers numbers by their names. `holds` is told those of ours and of Redis (none if
# there is no Redis), and whether they are as `wanted` says. `options` are ours, `redis` those of Redis, or None if it is not asked.
Row = collections.namedtuple("Row", "measure wanted holds ways options redis turns")


def row(measure, wanted, holds, ways=LOOP, options=None, redis=(), turns=1):
    return Row(measure, wanted, holds, ways, options or {}, redis, turns)


def at_most(name, bound):
    return lambda own, _: own[name] <= bound


def below_redis(times, *names):
    return lambda own, redis: not redis or all(own[name] <= times * redis[name] for name in names)


def all_of(*several):
    return lambda own, redis: all(holds(own, redis) for holds in several)


def dear(measure):
    return row(measure, "at most twice Redis", below_redis(2, "µs"), turns=3)


def kept(measure):
    most = 2 * KEPT_BYTES + BESIDE
    return row(measure, f"at most {most} MiB: twice {KEPT_BYTES} of records, and {BESIDE} beside them", at_most("MiB at most", most), BOTH)


def recovered(classes):
    most = 2 * KEPT_BYTES + BESIDE
    holds = all_of(at_most("ms of the loop for one", 10), at_most("ms that a PING waits then", 50), at_most("MiB more after", most))
    wanted = f"10 ms of the loop for one, a PING waits at most 50 at {recovery.AT_ONCE} at once, at most {most} MiB stay"
    return row(recovery.recoveries(classes), wanted, holds, options={"policy": (64, classes)}, redis=None)


def planned(entries, consumers, classes):
    measure = recovery.plans(entries, consumers, classes)
    return row(measure, "at most 10 ms of the loop", at_most("ms of the loop", 10), options={"policy": (consumers, classes)}, redis=None)


ROWS = {
    "kept_records": row(requests.kept_records, "at most 1.25 times", at_most("times", 1.25), BOTH, turns=3),
    "pipelined_pings": row(memory.pipelined_pings, "at most 64 MiB, and 4 more after 6 s than after 2", all_of(at_most("MiB after 6 s", 64),
                           lambda own, _: own["MiB after 6 s"] <= own["MiB after 2 s"] + 4), BOTH, {"keep": 1_000}),
    "large_entries": kept(memory.large_entries),
    "large_ranges": kept(memory.large_ranges),
    "large_jobs": kept(memory.large_jobs),
    "long_replies": row(memory.long_replies, "at most 80 MiB: 64 that the C library holds for a thread, and 16",
                        at_most("MiB more than before", 80), BOTH),
    "waiting_reads": row(memory.waiting_reads, "at most 16 MiB, 16 KiB of each, and 8", at_most("MiB", 16 + memory.WAITING / 64 + 8),
                         options={"unfinished": 16 << 20}),
    "keepalive": row(memory.keepalive, "both", lambda own, _: own["with a timer"] == 2, BOTH),
    "greedy": row(share.greedy, "half of what it is alone, and ten XRANGEs a second", lambda own, _: own["of these"] >= 0.5 and
                  own["XRANGEs a second"] >= 10, BOTH),
    "by_turns": row(share.by_turns, "at most 50 ms", at_most("ms that a PING waits", 50), BOTH),
    "slow_ones": row(share.slow_ones, "all is read and answered", lambda own, _: own["MB read"] == own["MB of the reply"] and own["XADD answered"],
                     options={"idle": 2}, redis=("--timeout", "2")),
    "adds_first": row(share.adds_first, "all are replied", lambda own, _: own["of the replies"] == 1),
    "recoveries_16": recovered(16),
    "recoveries_1024": recovered(1_024),
    "idle_recoveries": row(recovery.idle_recoveries, "all are done", lambda own, _: own["done"] == own["recoveries"],
                           options={"policy": (64, 1_024), "idle": 1}, redis=None),
    "plans_16": planned(4_096, 16, 16),
    "plans_64": planned(1_024, 64, 16),
    "plans_256": planned(256, 64, 16),
    "board": row(recovery.board, "a PING waits at most 50 ms", at_most("ms that a PING waits", 50), redis=None),
    "woken_readers": row(requests.woken_readers, "at most 1.5 times Redis",
                         below_redis(1.5, "s of processor to wake", "s of processor to reset"),
                         options={"connections": MOST}, redis=("--maxclients", str(MOST))),
    "long_keys": dear(requests.long_keys),
    "large_adds": dear(requests.large_adds),
    "long_field": dear(requests.long_field),
    "woken_in_group": dear(requests.woken_in_group),
    "group_create": dear(requests.grouped("CREATE", "s")),
    "group_destroy": dear(requests.grouped("DESTROY", "s")),
    "consumer_create": dear(requests.grouped("CREATECONSUMER", "s", "g")),
}


class Bench:
    """The servers, the load of load.c, the size of a row if one was given, and what was measured, for a table."""

    def __init__(self, program, folder):
        self.program, self.folder, self.load = program, folder, Load(folder)
        self.size, self.lines = None, []

    def policy(self, consumers, classes):
        """The file of a policy of so many consumers and classes."""
        path = os.path.join(self.folder, f"{consumers}-{classes}.toml")
        with open(path, "w") as file:
            file.write(recovery.policy(consumers, classes))
        return path

    def makers(self, one):
        """What begins each server of a row, by its name."""
        made, options = {}, {"keep": KEPT, **one.options}
        if "policy" in options:
            options["policy"] = self.policy(*options["policy"])
        for way, many in ((servers.LOOP, CONNECTIONS), (servers.THREADS, WORKERS)):
            if way in one.ways:
                own = {way: many, **options}
                made[SHOWN[way == servers.THREADS]] = lambda own=own: servers.Server(self.program, **own)
        if one.redis is not None and servers.Redis.installed():
            made["Redis"] = lambda: servers.Redis(*one.redis)
        return made

    def measured(self, one):
        """For each server the medians of what is measured by turns."""
        makers = self.makers(one)
        runs = {name: [] for name in makers}
        for _ in range(one.turns):
            for name, make in makers.items():
                with make() as server:
                    runs[name].append(one.measure(server, self))
        return {name: {label: statistics.median(run[label] for run in found) for label in found[0]} for name, found in runs.items()}

    def show(self, name, one):
        """Prints a row. Whether it holds."""
        began = time.monotonic()
        print(f"\n{name}: {one.measure.__doc__.split(chr(10))[0]}", flush=True)
        try:
            found = self.measured(one)
        except Exception as fault:  # so that the other rows are measured
            print(f"  could not be measured: {type(fault).__name__}: {fault}", flush=True)
            return False
        for server, numbers in found.items():
            print(f"  {server:8}{told(numbers)}")
        redis = found.pop("Redis", None)
        wrong = [server for server, numbers in found.items() if not one.holds(numbers, redis)]
        verdict = f"DOES NOT HOLD of {' and '.join(wrong)}" if wrong else "holds"
        print(f"  wanted  {one.wanted}: {verdict} ({time.monotonic() - began:.0f} s)", flush=True)
        found["Redis"] = redis or {}
        self.lines.append([one.measure.__doc__.split("\n")[0].rstrip("."), *(told(found.get(name, {})) for name in SHOWN), one.wanted])
        return not wrong


def told(numbers):
    return ", ".join(f"{shown(number)} {label}" for label, number in numbers.items())


def shown(number):
    return f"{number:,.0f}" if number == int(number) or abs(number) >= 1000 else f"{number:.3g}"


def asked(words):
    """The rows that are named, each with its size if it has one."""
    named = [(name, int(size) if size.isdecimal() else None) for name, _, size in (word.partition("=") for word in words)]
    if not {name for name, _ in named} <= set(ROWS):
        sys.exit(f"{__doc__}\nRows: {', '.join(ROWS)}")
    return named or [(name, None) for name in ROWS]


def main(program, *words):
    servers.stop_when_ended()
    servers.raised_limit(MOST)
    table = TABLE in words
    named = asked([word for word in words if word != TABLE])
    if shutil.which("cc") is None:
        sys.exit("load: there is no C compiler, cc")
    print_load()
    with tempfile.TemporaryDirectory() as folder:
        bench, held = Bench(program, folder), []
        for name, size in named:
            bench.size = size
            with contextlib.suppress(BrokenPipeError):
                held.append(bench.show(name, ROWS[name]))
    print(f"\n{sum(held)} of {len(held)} rows hold")
    print_load()
    if table:
        print("\n" + "\n".join(f"| {' | '.join(line)} |" for line in [["", *SHOWN, "wanted"], ["---"] * 5, *bench.lines]))
    return 0 if all(held) else 1


if __name__ == "__main__":
    if len(sys.argv) < 2 or sys.argv[1].startswith("-"):
        sys.exit(__doc__)
    sys.exit(main(*sys.argv[1:]))
