#!/usr/bin/env python3
"""Times requests that cost more than their length lets expect, beside a Redis server: bench/hostile.py PROGRAM [RUNS [WAY]]

Each row is a server of its own, which serves in this way: `connections`, one loop, if none is given, or `workers`. A number is milliseconds
from the first byte of the request to the last of its reply: the least of RUNS runs (5 if not given). `waits` is the longest that a PING
of another client, sent every millisecond, waited during a run. The ratio is PROGRAM's to Redis's; what Redis has not is timed alone. Without
`redis-server` (Debian: redis-server) all are.
"""

import os
import random
import sys
import tempfile
import threading
import time

sys.path.insert(0, os.path.join(os.path.dirname(os.path.realpath(__file__)), "..", "tests"))
from lib import servers  # noqa: E402
from lib.heavy import carried_out, settled  # noqa: E402
from lib.resp import spelled  # noqa: E402

SECONDS = 120
RUNS = 5
KEYS, READERS, LONG = 2_000, 60, 20_000
KIB, MIB = 1 << 10, 1 << 20


class Pings(threading.Thread):
    """A client that sends a PING every millisecond, and keeps the longest wait while it is watched."""

    def __init__(self):
        super().__init__(daemon=True)
        self.connection, self.longest, self.watched, self.ends = None, 0.0, False, False

    def run(self):
        while not self.ends:
            began, watched = time.perf_counter(), self.watched
            self.connection.call("PING")
            if watched or self.watched:
                self.longest = max(self.longest, time.perf_counter() - began)
            time.sleep(0.001)

    def __call__(self, server):
        self.connection = server.connect(SECONDS)
        return self

    def __enter__(self):
        self.start()
        return self

    def __exit__(self, *_):
        self.ends = True
        self.join()
        self.connection.close()


class Run:
    """One run: its milliseconds."""

    pings = None  # the client that is watched during a run

    def __enter__(self):
        self.pings.watched = True
        self.began = time.perf_counter()
        return self

    def __exit__(self, *_):
        self.took = (time.perf_counter() - self.began) * 1000
        self.pings.watched = False


def timed(connection, *words):
    """The milliseconds of one request."""
    text = spelled(*words)
    with Run() as run:
        connection.socket.sendall(text)
        connection.reply()
    return run.took


def pending(connection, entries, consumer, group=True):
    """Entries of a stream `s` that are pending for a consumer."""
    if group:
        connection.call("XGROUP", "CREATE", "s", "g", "0", "MKSTREAM")
    carried_out(connection, (["XADD", "s", "*", "c", "k"] for _ in range(entries)))
    connection.call("XREADGROUP", "GROUP", "g", consumer, "COUNT", entries, "STREAMS", "s", ">")


# ---- the rows: what is there before, and the request. Each gives its times.


def many_dead(server, runs):
    """RECOVER.PLAN of 4,000 names without entries beside 100,000 pending."""
    with server.connect(SECONDS) as connection:
        pending(connection, 100_000, "w")
        names = [f"dead-{number}" for number in range(4_000)]
        settled(server)
        return [timed(connection, "RECOVER.PLAN", "s", "g", "DEAD", *names) for _ in range(runs)]


def many_owners(server, runs):
    """RECOVER.PLAN of 4,000 names with an entry each beside 100,000 pending."""
    with server.connect(SECONDS) as connection:
        pending(connection, 100_000, "w")
        names = [f"dead-{number}" for number in range(4_000)]
        carried_out(connection, (["XADD", "s", "*", "c", "k"] for _ in names))
        carried_out(connection, (["XREADGROUP", "GROUP", "g", name, "COUNT", 1, "STREAMS", "s", ">"] for name in names))
        settled(server)
        return [timed(connection, "RECOVER.PLAN", "s", "g", "DEAD", *names) for _ in range(runs)]


def many_rates(classes):
    def row(server, runs):
        times = []
        with server.connect(SECONDS) as connection:
            for run in range(runs):
                connection.call("XGROUP", "CREATE", f"s{run}", "g", "0", "MKSTREAM")
                carried_out(connection, (["XADD", f"s{run}", "*", "c", f"k{number % classes}"] for number in range(4_096)))
                connection.call("XREADGROUP", "GROUP", "g", "dead", "COUNT", 4_096, "STREAMS", f"s{run}", ">")
                settled(server)
                times.append(timed(connection, "RECOVER.RUN", f"s{run}", "g", "DEAD", "dead"))
        return times

    row.__doc__ = f"RECOVER.RUN of 4,096 entries of {classes:,} classes of 64 rates."
    return row


class Readers:
    """Connections that wait on 2,000 keys each, or in a group on one."""

    def __init__(self, server, group=False):
        self.connections = [server.connect(SECONDS) for _ in range(READERS)]
        with server.connect(SECONDS) as connection:
            if group:
                connection.call("XGROUP", "CREATE", "jobs", "g", "0", "MKSTREAM")
                carried_out(connection, (["XGROUP", "CREATE", f"key-{number}", "g", "0", "MKSTREAM"] for number in range(KEYS)))
        keys = [f"key-{number}" for number in range(KEYS)]
        for connection in self.connections:
            if group:
                connection.send("XREADGROUP", "GROUP", "g", "w", "BLOCK", 0, "STREAMS", *keys, *[">"] * KEYS)
            else:
                connection.send("XREAD", "BLOCK", 0, "STREAMS", *keys, *["$"] * KEYS)
        settled(server)

    def __enter__(self):
        return self

    def __exit__(self, *_):
        for connection in self.connections:
            connection.close()


def beside_readers(*words):
    def row(server, runs):
        with Readers(server), server.connect(SECONDS) as connection:
            return [timed(connection, *words) for _ in range(runs * 4)]

    row.__doc__ = f"{' '.join(words)} beside {READERS} readers of 2,000 keys each."
    return row


def packet_beside_readers(server, runs):
    """200 PINGs in one packet beside 60 readers of 2,000 keys each, to the last byte."""
    with Readers(server), server.connect(SECONDS) as connection:
        packet, times = spelled("PING") * 200, []
        for _ in range(runs):
            with Run() as run:
                connection.socket.sendall(packet)
                connection.file.read(len(b"+PONG\r\n") * 200)
            times.append(run.took)
        return times


def wake_one(server, _):
    """XADD that wakes one of 60 group readers of 2,000 keys each, until it has the entry."""
    with Readers(server, group=True) as readers, server.connect(SECONDS) as connection:
        with Run() as run:
            connection.send("XADD", "key-7", "*", "f", "v")
            readers.connections[0].reply()
        return [run.took]


def long_ranges(server, _):
    """110 XRANGEs of 20,000 entries each in one packet, to the last byte."""
    with server.connect(SECONDS) as connection:
        carried_out(connection, (["XADD", "s", f"{number}-1", "f", "v"] for number in range(1, LONG + 1)))
        request = spelled("XRANGE", "s", "-", "+")
        connection.socket.sendall(request)
        names = (f"{number}-1" for number in range(1, LONG + 1))
        length = len(f"*{LONG}\r\n") + sum(len(f"*2\r\n${len(name)}\r\n{name}\r\n*2\r\n$1\r\nf\r\n$1\r\nv\r\n") for name in names)
        connection.file.read(length)
        with Run() as run:
            connection.socket.sendall(request * 110)
            for _ in range(110):
                connection.file.read(length)
        return [run.took]


def missing_keys(length):
    def row(server, runs):
        keys = [f"{number:0{length}}" for number in range(KEYS)]
        with server.connect(SECONDS) as connection:
            return [timed(connection, "XREAD", "STREAMS", *keys, *["0"] * KEYS) for _ in range(runs)]

    row.__doc__ = f"XREAD of 2,000 missing keys of {length} bytes."
    return row


def heavy_deletion(server, runs):
    """XDEL of one of 128 entries of 256 KiB."""
    with server.connect(SECONDS) as connection:
        carried_out(connection, (["XADD", "s", f"{number}-1", "v", b"x" * (256 * KIB)] for number in range(1, 129)), 16)
        return [timed(connection, "XDEL", "s", f"{number}-1") for number in random.Random(1).sample(range(20, 110), runs)]


def heavy_trim(server, runs):
    """XADD of 64 KiB with MAXLEN 200."""
    with server.connect(SECONDS) as connection:
        words = ["XADD", "s", "MAXLEN", 200, "*", "v", b"x" * (64 * KIB)]
        carried_out(connection, [words] * 400, 64)
        return [timed(connection, *words) for _ in range(runs * 20)]


def heaviest_deletion(server, _):
    """XDEL of 100 entries of 1 MiB."""
    with server.connect(SECONDS) as connection:
        carried_out(connection, (["XADD", "s", f"{number}-1", "v", b"x" * MIB] for number in range(1, 131)), 8)
        return [timed(connection, "XDEL", "s", *(f"{number}-1" for number in range(1, 101)))]


def heaviest_addition(server, _):
    """the dearest XADD of 200 of 1 MiB."""
    with server.connect(SECONDS) as connection:
        return [max(timed(connection, "XADD", "s", "*", "v", b"x" * MIB) for _ in range(200))]


def grouped(words, before):
    def row(server, runs):
        with server.connect(SECONDS) as connection:
            connection.call("XGROUP", "CREATE", "s", "g", "0", "MKSTREAM")
            carried_out(connection, before)
            return [timed(connection, *words(number)) for number in range(runs * 4)]

    return row


GROUPS = [["XGROUP", "CREATE", "s", f"g{number}", "0"] for number in range(20_000)]
CONSUMERS = [["XGROUP", "CREATECONSUMER", "s", "g", f"w{number}"] for number in range(20_000)]


def last_of_many(server, runs):
    """XGROUP DELCONSUMER of one entry beside 200,000 pending."""
    with server.connect(SECONDS) as connection:
        pending(connection, 200_000, "w")
        times = []
        for number in range(runs):
            pending(connection, 1, f"other{number}", group=False)
            times.append(timed(connection, "XGROUP", "DELCONSUMER", "s", "g", f"other{number}"))
        return times


def rows():
    """Each row: its name, its function, and whether Redis has it."""
    yield many_dead.__doc__, many_dead, False
    yield many_owners.__doc__, many_owners, False
    for classes in (16, 1_024):
        row = many_rates(classes)
        yield row.__doc__, row, False
    for words in (["PING"], ["XADD", "elsewhere", "*", "f", "v"]):
        row = beside_readers(*words)
        yield row.__doc__, row, True
    yield packet_beside_readers.__doc__, packet_beside_readers, True
    yield wake_one.__doc__, wake_one, True
    yield long_ranges.__doc__, long_ranges, True
    for length in (8, 8_000):
        row = missing_keys(length)
        yield row.__doc__, row, True
    for row in (heavy_deletion, heavy_trim, heaviest_deletion, heaviest_addition):
        yield row.__doc__, row, True
    yield "XGROUP CREATE at 20,000 groups.", grouped(lambda n: ["XGROUP", "CREATE", "s", f"g1{n}x", "0"], GROUPS), True
    yield "XGROUP DESTROY at 20,000 groups.", grouped(lambda n: ["XGROUP", "DESTROY", "s", f"g1{n}"], GROUPS), True
    yield "XGROUP CREATECONSUMER at 20,000 consumers.", grouped(lambda n: ["XGROUP", "CREATECONSUMER", "s", "g", f"w1{n}x"], CONSUMERS), True
    yield last_of_many.__doc__, last_of_many, True


def policy_text():
    """One consumer that may take all, and 63 others, with 1,024 classes of 64 rates."""
    choice = random.Random(1)
    lines = ['class_field = "c"', "[limits]"] + [f"w{number} = 1000" for number in range(64)]
    for kind in range(1023):
        lines += [f"[rates.k{kind}]"] + [f"w{number} = {choice.randint(1, 1000)}" for number in range(64)]
    return "\n".join(lines + ['[rates."*"]'] + [f"w{number} = 1" for number in range(64)]) + "\n"


def measured(make, row, runs):
    """The least time of a row, and the longest wait of another client meanwhile."""
    Run.pings = Pings()
    with make() as server, Run.pings(server) as pings:
        times = row(server, runs)
    return min(times), pings.longest * 1000


def main():
    if len(sys.argv) not in (2, 3, 4) or sys.argv[3:] not in ([], [servers.THREADS], [servers.LOOP]):
        sys.exit(__doc__)
    runs = int(sys.argv[2]) if len(sys.argv) > 2 else RUNS
    serving = {"workers": 64} if sys.argv[3:] == [servers.THREADS] else {"connections": 1_000}
    has_redis = servers.Redis.installed()
    print(f"{'':78} {'ms':>9} {'waits':>8} {'Redis':>9} {'waits':>8} {'ratio':>6}")
    with tempfile.NamedTemporaryFile("w", suffix=".toml") as policy:
        policy.write(policy_text())
        policy.flush()
        for name, row, in_redis in rows():
            own, waits = measured(lambda: servers.Server(sys.argv[1], policy=policy.name, keep=100_000, **serving), row, runs)
            line = f"{name[:-1]:78} {own:9.3f} {waits:8.1f}"
            if in_redis and has_redis:
                other, waits = measured(servers.Redis, row, runs)
                line += f" {other:9.3f} {waits:8.1f} {own / other:6.1f}"
            print(line, flush=True)


if __name__ == "__main__":
    main()
