#!/usr/bin/env python3
"""Times a built server over sockets, by turns with a Redis server: python3 bench/net.py PROGRAM [TURNS [WAY]]

sr_server is started with `--connections 10000 --keep 100000` (with `--workers 64` if WAY is `workers`), Redis with `--save '' --appendonly
no`, on the loopback interface; without `redis-server` (Debian: redis-server) PROGRAM is timed alone. Every turn has servers of its own. Each
number is the median of TURNS turns (3 if not given), and the ratio is PROGRAM's to Redis's. The load of the machine is printed at the
beginning and at the end: other work at the same time makes all numbers worse.

redis-benchmark  requests a second, as it tells them (Debian: redis-tools), with one thread
load             the same by bench/load.c, which looks at every reply, and takes less time than a server for it (it needs cc)
reads            a second: XREADGROUP, and XACK of what it brought once it is there
wake-up          microseconds from an XADD until the last of the readers that wait in XREAD has it, or the one that is served of those that
                 wait in XREADGROUP: half of the rounds, and 99 of 100
busy             the part of the time that the server worked. If it is far below 1, the client or the machine was the limit, and not the server
µs               processor time of the server for each request, or for each read with its XACK, and the ratio of it

The status is 1 if a reply was wrong: the row then says so and has no number.
"""

import csv
import os
import shutil
import statistics
import subprocess
import sys
import tempfile
import time

HERE = os.path.dirname(os.path.realpath(__file__))
sys.path.insert(0, os.path.join(HERE, "..", "tests"))
from lib import crowd, servers  # noqa: E402
from lib.resp import spelled  # noqa: E402

ENTRIES = 1_000  # of the stream that XLEN and XRANGE look at
CLIENTS = 50  # connections of most rows
# the words of a request, and how many are sent without a pipeline and with one
COMMANDS = [
    ("PING", 200_000, 1_000_000),
    ("XADD s * f v", 200_000, 1_000_000),
    ("XLEN s", 200_000, 1_000_000),
    ("XRANGE s 1-500 + COUNT 10", 100_000, 400_000),
    ("XRANGE s 1-500 + COUNT 100", 50_000, 100_000),
]
DEPTHS = 1, 16
READS = [(1, 100_000, 400_000), (10, 50_000, 100_000)]  # entries of a read, and how many reads without a pipeline and with one
CROWDS = 1_000, 5_000
READERS, ROUNDS = (1, 10, 50), 200
CONNECTIONS, KEPT, WORKERS = 10_000, 100_000, 64
SECONDS = 240
BUSY = "   busy             µs           ratio"  # the head of what follows a rate


class Wrong(Exception):
    """A reply that is not what it must be."""


class Load:
    """bench/load.c, compiled."""

    def __init__(self, folder):
        self.program = os.path.join(folder, "load")
        subprocess.run(["cc", "-O2", "-o", self.program, os.path.join(HERE, "load.c")], check=True)

    def run(self, server, *words):
        """The numbers that it prints."""
        ran = subprocess.run([self.program, str(server.port), *map(str, words)], capture_output=True, text=True, timeout=SECONDS, check=False)
        if ran.returncode:
            raise Wrong(ran.stderr.strip() or f"load: status {ran.returncode}")
        return [float(line) for line in ran.stdout.split()]

    def fill(self, server, entries):
        """A stream `s` with the ids 1-1, 1-2 and so on, and a group `g` that has had none of them."""
        with server.connect(SECONDS) as connection:
            connection.call("XGROUP", "CREATE", "s", "g", 0, "MKSTREAM")
        self.run(server, "fill", entries)


def by_redis_benchmark(server, words, connections, depth, number):
    options = ["-p", str(server.port), "-n", str(number), "-c", str(connections), "-P", str(depth), "--threads", "1", "--csv", "-e"]
    ran = subprocess.run(["redis-benchmark", *options, *words.split()], capture_output=True, text=True, timeout=SECONDS, check=True)
    if "Error from server" in ran.stdout:
        raise Wrong(ran.stdout.splitlines()[0])
    rows = list(csv.DictReader(line for line in ran.stdout.splitlines() if line.startswith('"')))
    return float(rows[-1]["rps"])


def by_load(load):
    def rate(server, words, connections, depth, number):
        return number / load.run(server, "requests", connections, depth, number, words)[0]
    return rate


def requests(load, tool, words, connections, depth, number):
    """A second, at a stream of some entries; the part of the time that the server worked, and microseconds of its work for each."""
    def run(server):
        load.fill(server, ENTRIES)
        worked, began = server.processor(), time.monotonic()
        rate = tool(server, words, connections, depth, number)
        worked, took = server.processor() - worked, time.monotonic() - began
        with server.connect() as connection:
            added = connection.call("XLEN", "s") - ENTRIES
        if words.startswith("XADD") != (added >= number - connections * depth > 0):
            raise Wrong(f"{added} entries were added")
        return rate, worked / took, 1e6 * worked / number
    return run


def reads(load, depth, number, entries):
    """Reads a second, each acknowledged; the part of the time that the server worked, and microseconds of its work for each."""
    def run(server):
        load.fill(server, number * entries)
        worked, began = server.processor(), time.monotonic()
        rate = number / load.run(server, "groups", CLIENTS, depth, number, entries)[0]
        worked, took = server.processor() - worked, time.monotonic() - began
        with server.connect() as connection:
            if connection.call("XPENDING", "s", "g")[0]:
                raise Wrong("entries are pending")
        return rate, worked / took, 1e6 * worked / number
    return run


def wake_up(load, kind, readers):
    """Microseconds until those that wait have the entry: half of the rounds, and 99 of 100."""
    def run(server):
        with server.connect() as connection:
            connection.call("XGROUP", "CREATE", "s", "g", "$", "MKSTREAM")
        took = sorted(load.run(server, kind, readers, ROUNDS))
        return took[ROUNDS // 2], took[ROUNDS * 99 // 100]
    return run


class Table:
    """Runs a measure on all servers by turns, and prints a row."""

    def __init__(self, program, turns, way):
        many = {"connections": CONNECTIONS} if way == servers.LOOP else {"workers": WORKERS}
        self.makers = [lambda: servers.Server(program, **many, keep=KEPT)]
        self.makers += [lambda: servers.Redis("--maxclients", str(CONNECTIONS))] if servers.Redis.installed() else []
        self.turns, self.failed = turns, False

    def measured(self, name, measure):
        """For each server the medians of what is measured, or nothing if a reply was wrong."""
        found = [[] for _ in self.makers]
        try:
            for _ in range(self.turns):
                for runs, make in zip(found, self.makers):
                    with make() as server:
                        runs.append(measure(server))
        except (Wrong, OSError, subprocess.SubprocessError) as fault:
            print(f"{name:52}wrong: {fault}", flush=True)
            self.failed = True
            return []
        return [[statistics.median(column) for column in zip(*runs)] for runs in found]

    def row(self, name, measure):
        """A rate of each server, the ratio, how much each worked, and for how long for each request."""
        if medians := self.measured(name, measure):
            rates, parts, costs = zip(*medians)
            more = "".join(f"{busy:7.2f}" for busy in parts) + "".join(f"{cost:9.2f}" for cost in costs)
            self.show(name, rates, "12,.0f", more + (f"{costs[0] / costs[1]:8.2f}" if len(costs) > 1 else ""))

    def show(self, name, numbers, form, more=""):
        ratio = f"{numbers[0] / numbers[1]:8.2f}" if len(numbers) > 1 and numbers[1] else ""
        print(f"{name:52}" + "".join(f"{number:{form}}" for number in numbers) + ratio + more, flush=True)

    def head(self, name, more=""):
        own = len(self.makers)
        print(f"\n{name:52}" + "".join(f"{title:>12}" for title in ["sr_server", "Redis"][:own]) + f"{'ratio':>8}" * (own > 1) + more, flush=True)


def print_load():
    print(f"load {' '.join(f'{number:.2f}' for number in os.getloadavg())} on {os.cpu_count()} processors", flush=True)


def tools(load):
    return ([("redis-benchmark", by_redis_benchmark)] if shutil.which("redis-benchmark") else []) + [("load", by_load(load))]


def time_requests(table, load):
    for title, tool in tools(load):
        table.head(f"requests a second, by {title}", BUSY)
        for place, depth in enumerate(DEPTHS):
            for words, *numbers in COMMANDS:
                table.row(f"{words:27} {CLIENTS} connections, -P {depth}", requests(load, tool, words, CLIENTS, depth, numbers[place]))


def time_reads(table, load):
    table.head("reads a second, each acknowledged", BUSY)
    for place, depth in enumerate(DEPTHS):
        for entries, *numbers in READS:
            name = f"XREADGROUP COUNT {entries}, XACK"
            table.row(f"{name:27} {CLIENTS} connections, -P {depth}", reads(load, depth, numbers[place], entries))


def time_crowds(table, load):
    for title, tool in tools(load):
        table.head(f"requests a second, by {title}", BUSY)
        for connections in CROWDS:
            for words, number, _ in COMMANDS[:2]:
                table.row(f"{words:27} {connections:,} connections", requests(load, tool, words, connections, 1, number))


def beside(others, measure):
    """A measure beside so many connections, of which half are idle and half wait in XREAD."""
    def run(server):
        with crowd.Crowd(server, others // 2), crowd.Crowd(server, others // 2) as waiting:
            waiting.send(spelled("XREAD", "BLOCK", 0, "STREAMS", "none", "$"))
            return measure(server)
    return run


def time_beside(table, load):
    table.head("requests a second beside others, by load", BUSY)
    for others in CROWDS:
        for words, number, _ in COMMANDS[:3]:
            measure = requests(load, by_load(load), words, CLIENTS, 1, number)
            table.row(f"{words:27} beside {others:,}", beside(others, measure))


def time_wake_ups(table, load):
    table.head("microseconds until readers that wait have it")
    for command, kind in (("XREAD, all", "wake"), ("XREADGROUP, one", "turns")):
        for readers in READERS:
            medians = table.measured(f"{command} of {readers}", wake_up(load, kind, readers))
            for place, part in enumerate(("half of the rounds", "99 of 100") if medians else ()):
                table.show(f"{command} of {readers}, {part}", [numbers[place] for numbers in medians], "12,.0f")


def main(program, turns=3, way=servers.LOOP):
    servers.ways_of([way])
    servers.stop_when_ended()
    servers.raised_limit(CONNECTIONS)
    print_load()
    table = Table(program, int(turns), way)
    with tempfile.TemporaryDirectory() as folder:
        load = Load(folder)
        time_requests(table, load)
        time_reads(table, load)
        time_wake_ups(table, load)
        if way == servers.LOOP:
            time_crowds(table, load)
            time_beside(table, load)
    print()
    print_load()
    return 1 if table.failed else 0


if __name__ == "__main__":
    if not 2 <= len(sys.argv) <= 4:
        sys.exit(__doc__)
    sys.exit(main(*sys.argv[1:]))
