#!/usr/bin/env python3
"""Times a built server and a Redis server on consumer groups: python3 bench/groups.py PROGRAM [PENDING ..]

Requests are made beforehand and sent without waiting for replies: to PROGRAM --stdio over a pipe, to `redis-server` (Debian:
redis-server; left out if it is not installed) over a socket of its own. Each number is processor time of the server, its system
calls counted: the least of three runs by turns, each with servers of their own. Pending are the first entries of a stream, all
with one consumer: these numbers of them, rising, or 1,000, 10,000 and 200,000. With 1,000,000 a row takes a minute or more. A row
whose replies are wrong says so and has no number, and the status is then 1.
"""
import os
import random
import shutil
import socket
import subprocess
import sys
import tempfile
import threading
import time

from streams import Server, Wrong, adds, request  # (which makes lib known)

from lib.resp import bulk

MANY, ENTRIES, PENDING = 1_000_000, 250_000, (1_000, 10_000, 200_000)
MORE = 50_000  # entries of a longer stream than ENTRIES that are not pending
ROUNDS, TIMES = 20_000, 1_000
RUNS = 3
END = b"end-of-run"


class Connection:
    """Requests and their replies over a pair of file descriptors."""

    def __init__(self, to, back, process):
        self.to, self.back, self.process = to, back, process

    def ask(self, requests):
        """The seconds of processor time that these requests take, and their replies."""
        sender = threading.Thread(target=self.send, args=(requests + request(b"PING", END),))
        before = self.processor()
        sender.start()
        replies = self.receive()
        took = self.processor() - before
        sender.join()
        wrong = next((line for line in replies.split(b"\r\n") if line.startswith(b"-")), None)
        if wrong:
            raise Wrong(wrong.decode())
        return took, replies

    def send(self, requests):
        rest = memoryview(requests)
        while rest:
            rest = rest[os.write(self.to, rest[: 1 << 20]) :]

    def receive(self):
        replies, end = bytearray(), bulk(END)
        while not replies.endswith(end):
            piece = os.read(self.back, 1 << 20)
            if not piece:
                raise Wrong("the server ended")
            replies += piece
        return bytes(replies[: -len(end)])

    def processor(self):
        """The seconds of processor time that the server took until now, by its scheduler, which counts in nanoseconds."""
        total = 0
        for thread in os.listdir(f"/proc/{self.process.pid}/task"):
            with open(f"/proc/{self.process.pid}/task/{thread}/schedstat") as stat:
                total += int(stat.read().split()[0])
        return total / 1e9

    def memory(self):
        """The bytes that are resident."""
        with open(f"/proc/{self.process.pid}/status") as status:
            return next(int(line.split()[1]) * 1024 for line in status if line.startswith("VmRSS"))


class Ours:
    """sr_server over two pipes."""

    def __init__(self, program):
        self.program = program

    def __enter__(self):
        self.server = Server(self.program)
        process = self.server.process
        return Connection(process.stdin.fileno(), process.stdout.fileno(), process)

    def __exit__(self, *stopped):
        self.server.__exit__(*stopped)


class Redis:
    """redis-server over a socket."""

    def __init__(self, program="redis-server"):
        self.program = program

    def __enter__(self):
        self.folder = tempfile.TemporaryDirectory()
        path = os.path.join(self.folder.name, "redis")
        options = ["--port", "0", "--unixsocket", path, "--save", "", "--appendonly", "no", "--dir", self.folder.name]
        self.process = subprocess.Popen([self.program, *options], stdout=subprocess.DEVNULL)
        self.socket = socket.socket(socket.AF_UNIX)
        while True:
            try:
                self.socket.connect(path)
                return Connection(self.socket.fileno(), self.socket.fileno(), self.process)
            except (FileNotFoundError, ConnectionRefusedError):
                time.sleep(0.02)

    def __exit__(self, *_):
        self.socket.close()
        self.process.kill()
        self.process.wait()
        self.folder.cleanup()


def ids(first, count):
    return [b"1-%d" % n for n in range(first, first + count)]


def read(reader, count, *options):
    return request(b"XREADGROUP", b"GROUP", b"g", reader, b"COUNT", b"%d" % count, *options, b"STREAMS", b"s", b">")


def fill(server, entries, pending, *options, each=None):
    """A stream of that many entries, of which the first go to A by one call, or `each` by a call. The bytes that each took."""
    server.ask(adds(entries) + request(b"XGROUP", b"CREATE", b"s", b"g", b"0") + read(b"A", 1))
    before = server.memory()
    each = each or pending
    server.ask(read(b"A", each, *options) * (pending // each))
    return (server.memory() - before) / pending


def bytes_of_pending(server, pending, each=None):
    """The bytes of a pending entry: those of a delivery with it, less those of one with NOACK, which leaves but its reply behind."""
    with server as connection:
        kept = fill(connection, pending + MORE, pending, each=each)
    with server as connection:
        return kept - fill(connection, pending + MORE, pending, b"NOACK", each=each)


def read_and_acknowledge(pending):
    """XREADGROUP COUNT 10, and XACK of those ten, over and over."""
    first = pending + 2
    rounds = (read(b"B", 10) + request(b"XACK", b"s", b"g", *ids(first + 10 * n, 10)) for n in range(ROUNDS))
    return b"".join(rounds), ROUNDS, lambda replies: replies.count(b":10\r\n") == ROUNDS


def one_by_one(words, right):
    """A command for each of the first ids, in their order."""
    def made(pending):
        return b"".join(request(*words(n)) for n in range(1, TIMES + 1)), TIMES, right
    return made


def from_random_places(words, right):
    """A command for ids all over the pending entries."""
    def made(pending):
        places = random.Random(1)
        return b"".join(request(*words(places.randint(1, pending - 20))) for _ in range(TIMES)), TIMES, right
    return made


def each_once(words, right):
    """A command for each of as many ids, all over the pending entries and in no order."""
    def made(pending):
        places = random.Random(1).sample(range(1, pending + 1), TIMES)
        return b"".join(request(*words(n)) for n in places), TIMES, right
    return made


def of_ten(words, text):
    """A command about the ten entries that B has, which come after those of A."""
    def made(pending):
        return read(b"B", 10) + request(*words) * TIMES, TIMES, lambda replies: replies.count(text) == TIMES
    return made


def all_of(text):
    return lambda replies: replies.count(text) == TIMES


ROWS = [
    ("XREADGROUP COUNT 10 and XACK of these", read_and_acknowledge),
    ("XACK of the oldest", one_by_one(lambda n: [b"XACK", b"s", b"g", b"1-%d" % n], all_of(b":1\r\n"))),
    ("XACK of one anywhere", each_once(lambda n: [b"XACK", b"s", b"g", b"1-%d" % n], all_of(b":1\r\n"))),
    ("XPENDING s g", one_by_one(lambda n: [b"XPENDING", b"s", b"g"], all_of(b"*4\r\n:"))),
    ("XPENDING s g 1-N + 10", from_random_places(lambda n: [b"XPENDING", b"s", b"g", b"1-%d" % n, b"+", b"10"], all_of(b"*10\r\n"))),
    ("XREADGROUP of B's ten from 0, others A's", of_ten(
        [b"XREADGROUP", b"GROUP", b"g", b"B", b"COUNT", b"9", b"STREAMS", b"s", b"0"], b"$1\r\ns\r\n*9\r\n")),
    ("XPENDING s g - + 10 B, others A's", of_ten([b"XPENDING", b"s", b"g", b"-", b"+", b"10", b"B"], b"*10\r\n*4\r\n")),
    ("XCLAIM s g B 0 1-N, N rising", one_by_one(lambda n: [b"XCLAIM", b"s", b"g", b"B", b"0", b"1-%d" % n], all_of(b"*1\r\n*2\r\n"))),
    ("XAUTOCLAIM s g B 0 1-N COUNT 10", from_random_places(
        lambda n: [b"XAUTOCLAIM", b"s", b"g", b"B", b"0", b"1-%d" % n, b"COUNT", b"10"], all_of(b"*10\r\n*2\r\n"))),
]


def run(server, entries, pending, make):
    """The microseconds of a request."""
    with server as connection:
        fill(connection, entries, pending)
        requests, count, right = make(pending)
        took, replies = connection.ask(requests)
        if not right(replies):
            raise Wrong(replies[:80].decode())
        return took / count * 1e6


def length(pending, reads):
    """How many entries the stream has: more are read than looked at."""
    return max(MANY, pending + 12 * ROUNDS) if reads else max(ENTRIES, pending + MORE)


def main(program, *numbers):
    numbers = tuple(map(int, numbers)) or PENDING
    servers = [Ours(program)] + ([Redis()] if shutil.which("redis-server") else [])
    print(f"{'microseconds of processor time a request':48}{'pending':>9}{'sr_server':>11}{'Redis':>9}{'ratio':>7}")
    failed = False
    for name, make in ROWS:
        reads = make is read_and_acknowledge
        for pending in (1, numbers[-1]) if reads else numbers:
            try:
                runs = [[run(server, length(pending, reads), pending, make) for server in servers] for _ in range(RUNS)]
            except Wrong as wrong:
                print(f"{name:48}{pending:9,}  wrong: {wrong}", flush=True)
                failed = True
                continue
            least = [min(times) for times in zip(*runs)]
            ratio = f"{least[1]:9.2f}{least[0] / least[1]:7.2f}" if len(least) > 1 else ""
            print(f"{name:48}{pending:9,}{least[0]:11.2f}{ratio}", flush=True)
    for each in (None, 1):
        taken = ", ".join(f"{bytes_of_pending(server, numbers[-1], each):.0f}" for server in servers)
        print(f"bytes of memory per pending entry, of {numbers[-1]:,}, delivered {'one by one' if each else 'by one call'}: {taken}")
    return failed


if __name__ == "__main__":
    sys.exit(main(*sys.argv[1:]))
