#!/usr/bin/env python3
"""Times a built server on streams: python3 bench/streams.py PROGRAM

Requests are made beforehand, and go to PROGRAM --stdio over a pipe from one thread, while another reads the replies.
Each number is the least of three runs, each with a server of its own. The status is 1 where a reply was wrong: the
row then says so and has no number.
"""
import fcntl
import os
import random
import subprocess
import sys
import threading
import time

sys.path.insert(0, os.path.join(os.path.dirname(os.path.realpath(__file__)), "..", "tests"))
from lib.resp import spelled as request  # noqa: E402

MANY, FEW = 1_000_000, 1_000  # entries
RANGES, COUNT = 50_000, 10
WIDE, NARROW = 1 << 20, 4096  # bytes that a pipe holds
LONG = (1, 2, 4, 8, 16)  # mebibytes of one request
RUNS = 3


class Wrong(Exception):
    """A reply that is not what it must be."""


def adds(count):
    """XADD with the ids 1-1, 1-2 and so on."""
    return b"".join(request(b"XADD", b"s", b"1-%d" % n, b"f", b"v") for n in range(1, count + 1))


def ranges(entries):
    """XRANGE from places all over a stream with these ids, each with COUNT entries behind it."""
    places = random.Random(1)
    words = (b"1-%d" % places.randint(1, entries - COUNT + 1) for _ in range(RANGES))
    return b"".join(request(b"XRANGE", b"s", start, b"+", b"COUNT", b"%d" % COUNT) for start in words)


def long_add(mebibytes):
    """One XADD with so many values of a mebibyte, less 16 bytes each, so that 16 of them are within the limit."""
    value = b"v" * ((1 << 20) - 16)
    return request(b"XADD", b"s", b"*", *(b"f", value) * mebibytes)


class Server:
    """A server over two pipes, of which the one to it holds `room` bytes."""

    def __init__(self, program, room=WIDE):
        self.process = subprocess.Popen([program, "--stdio"], stdin=subprocess.PIPE, stdout=subprocess.PIPE, bufsize=0)
        fcntl.fcntl(self.process.stdin, fcntl.F_SETPIPE_SZ, room)
        fcntl.fcntl(self.process.stdout, fcntl.F_SETPIPE_SZ, WIDE)
        self.room = room
        self.sender = threading.Thread()

    def __enter__(self):
        return self

    def __exit__(self, *_):
        self.process.kill()
        if self.sender.is_alive():
            self.sender.join()
        self.process.communicate()

    def ask(self, requests, strings, entries):
        """The seconds that these requests take: by the clock on the wall, and of the server's processor.

        Their replies must hold so many bulk strings (an error holds none), and the stream so many entries then.
        """
        self.sender = threading.Thread(target=self.send, args=(requests + request(b"XLEN", b"s"),))
        wall, processor = time.perf_counter(), self.processor()
        self.sender.start()
        replies = self.receive()
        wall, processor = time.perf_counter() - wall, self.processor() - processor
        if replies.count(b"$") != strings or not replies.endswith(b":%d\r\n" % entries):
            errors = (line for line in replies.split(b"\r\n") if line.startswith(b"-"))
            raise Wrong(next(errors, replies[-80:]).decode())
        return wall, processor

    def send(self, requests):
        rest = memoryview(requests)
        try:
            while rest:
                rest = rest[os.write(self.process.stdin.fileno(), rest[: self.room]) :]
        except BrokenPipeError:
            pass

    def receive(self):
        """The replies up to that of XLEN, the only one with a colon."""
        replies, last = [], False
        while not (last and replies[-1].endswith(b"\n")):
            replies.append(os.read(self.process.stdout.fileno(), WIDE))
            last = last or b":" in replies[-1]
            if not replies[-1]:
                raise Wrong("the server ended")
        return b"".join(replies)

    def processor(self):
        """The seconds of processor time that the server took until now, its system calls counted."""
        with open(f"/proc/{self.process.pid}/stat") as stat:
            user, system = stat.read().rpartition(")")[2].split()[11:13]
        return (int(user) + int(system)) / os.sysconf("SC_CLK_TCK")

    def memory(self, name):
        """A number of bytes: VmRSS, what is resident now, or VmHWM, what was so at most."""
        with open(f"/proc/{self.process.pid}/status") as status:
            return next(int(line.split()[1]) * 1024 for line in status if line.startswith(name))


def time_adds(program, requests, entries, room=WIDE):
    """The seconds of so many adds, after which the stream has so many entries."""
    with Server(program, room) as server:
        return [server.ask(requests, MANY, entries)]


def time_long(program, add):
    """The seconds of one long add in reads of few bytes. Processor time is counted in ticks, and is at least one."""
    with Server(program, NARROW) as server:
        wall, processor = server.ask(add, 1, 1)
        return [(wall, max(processor, 1 / os.sysconf("SC_CLK_TCK")))]


def time_ranges(program, adding, requests, entries):
    """The seconds of the ranges over a stream, then of the adds before them, then its bytes: now, and at most."""
    with Server(program) as server:
        server.ask(b"", 0, 0)
        empty = server.memory("VmRSS")
        added = server.ask(adding, entries, entries)
        taken = [server.memory(name) - empty for name in ("VmRSS", "VmHWM")]
        return [server.ask(requests, RANGES * COUNT * 3, entries), added, taken]


def show(name, number, run):
    """Prints a row for so many requests, from the least of what the runs took."""
    try:
        runs = [run() for _ in range(RUNS)]
    except Wrong as wrong:
        print(f"{name:40}wrong: {wrong}", flush=True)
        return None
    least = [tuple(map(min, zip(*row))) for row in zip(*runs)]
    print_row(name, number, least[0])
    return least


def print_row(name, number, seconds):
    cells = (f"{number / time:11,.0f}/s{time / number * 1e6:9.2f} us" for time in seconds)
    print(f"{name:40}" + "".join(cells), flush=True)


def main(program):
    print(f"{'':40}{'by the wall clock':>25}{'of processor time':>25}")
    add = request(b"XADD", b"s", b"*", b"f", b"v") * MANY
    capped = request(b"XADD", b"s", b"MAXLEN", b"%d" % FEW, b"*", b"f", b"v") * MANY
    rows = [
        show("XADD s * f v", MANY, lambda: time_adds(program, add, MANY)),
        show(f"the same in reads of {NARROW:,} bytes", MANY, lambda: time_adds(program, add, MANY, NARROW)),
        show(f"XADD s MAXLEN {FEW:,} * f v", MANY, lambda: time_adds(program, capped, FEW)),
    ]
    for mebibytes in LONG:
        name = f"one XADD of {mebibytes} MiB in reads of {NARROW:,} bytes"
        rows.append(show(name, 1, lambda: time_long(program, long_add(mebibytes))))
    for entries in (FEW, MANY):
        adding, asking = adds(entries), ranges(entries)
        name = f"XRANGE s 1-N + COUNT {COUNT} of {entries:,}"
        rows.append(show(name, RANGES, lambda: time_ranges(program, adding, asking, entries)))
    if rows[-1]:
        _, added, (now, most) = rows[-1]
        print_row("XADD s 1-N f v", MANY, added)
        print(f"bytes of memory per entry: {now / MANY:.0f} of {MANY:,} entries, and at most {most / MANY:.0f} before")
    return 0 if all(rows) else 1


if __name__ == "__main__":
    sys.exit(main(*sys.argv[1:]))
