"""Rows of load.py on what clients get beside others, and on clients that take their time."""

import time

from lib import connections_share, crowd, heavy, servers
from lib.connections_share import long_range
from lib.crowd import Crowd
from lib.resp import Fault, array, bulk, spelled

CLIENTS, LONG, AHEAD, ALONE, BESIDE = 50, 20_000, 16, 3, 6  # clients, entries of a long range, how many are asked for at once, and seconds
TIMES, PATIENCE, QUIET = 20_000, 20, 0.5  # BLOCK and XADD of each of two clients, and seconds until they are done, and of silence then
READ, READ_SIZE = 31, 1_000_000  # entries of a reply, and bytes of each
SPEED, STEP = 3_000_000, 0.05  # bytes a second, and the seconds of a step
SENT, SENDS = 4, 6  # long words of a request, and the seconds that it takes
ROOM = 1 << 16  # bytes that the reader has room for
ADDS, GIVES_UP = 400_000, 20  # XADDs before the first reply is read, and seconds after which they are given up


def greedy(server, bench):
    """50 clients' PINGs beside one that pipelines XRANGEs of 20,000 entries, 16 at a time."""
    def pings(seconds):
        return bench.load.run(server, "during", CLIENTS, 1, seconds, "PING")[0] / seconds

    with server.connect() as maker:
        length = long_range(maker, "long", LONG)
    alone = pings(ALONE)
    with heavy.Flood(server, spelled("XRANGE", "long", "-", "+"), length, AHEAD) as one:
        time.sleep(0.5)
        before = one.count()
        beside = pings(BESIDE)
        ranges = (one.count() - before) / length / BESIDE
    return {"PINGs a second alone": alone, "beside it": beside, "of these": beside / alone, "XRANGEs a second": ranges}


def by_turns(server, _):
    """How long a PING waits while two pipelines of BLOCK and XADD wake each other."""
    with server.connect() as maker, Crowd(server, 2) as clients, heavy.Waits(server) as waits:
        for key in ("a", "b"):
            maker.call("XGROUP", "CREATE", key, "g", "$", "MKSTREAM")
        for each, own, other in zip(clients, "ab", "ba"):
            each.sendall(connections_share.by_turns(own, other, TIMES))
        heavy.settled(server)
        waits.reset()
        began, watched = time.monotonic(), connections_share.Watched(clients.sockets)
        maker.send("XADD", "a", "*", "f", "v")
        last, until = began, began + PATIENCE
        while time.monotonic() < until:
            answered = waits.count()
            if watched.step(min(until, time.monotonic() + QUIET)):
                last = time.monotonic()
            elif waits.count() > answered + 1:
                break  # others are answered, and nothing comes of those two
        return {"ms that a PING waits": 1000 * waits.longest(), "MB of replies": watched.count / 1e6, "seconds": last - began}


class Taker:
    """Reads a reply at a steady speed, and writes a request."""

    def __init__(self, server, length):
        self.reader, self.writer = crowd.opened(server.port, servers.SECONDS, received=ROOM), crowd.opened(server.port, servers.SECONDS)
        self.length, self.count, self.request, self.sent = length, 0, spelled("XADD", "s", "1-1", *["f", b"v" * READ_SIZE] * SENT), 0

    def __enter__(self):
        return self

    def __exit__(self, *_):
        self.reader.close()
        self.writer.close()

    def run(self):
        self.reader.sendall(spelled("XRANGE", "slow", "-", "+"))
        began = time.monotonic()
        while self.count < self.length:
            time.sleep(STEP)
            took = time.monotonic() - began
            self.write(len(self.request) * min(1, took / SENDS))
            if not self.read(min(self.length, SPEED * took)):
                return

    def read(self, until):
        """Whether the reply goes on."""
        while self.count < int(until):
            piece = crowd.received(self.reader) if until - self.count > 1 << 16 else self.reader.recv(int(until) - self.count)
            if not piece:
                return False
            self.count += len(piece)
        return True

    def write(self, until):
        try:
            self.writer.sendall(self.request[self.sent:int(until)])
            self.sent = int(until)
        except ConnectionError:
            pass  # it was closed


def slow_ones(server, _):
    """What a client reads of a reply of 31 MB at 3 MB a second, and whether an XADD of 4 MB over six seconds is answered, at `--idle` 2."""
    with server.connect() as maker:
        heavy.carried_out(maker, (["XADD", "slow", f"{place}-1", "f", b"v" * READ_SIZE] for place in range(1, READ + 1)))
    length = len(array([array([bulk(b"%d-1" % place), spelled("f", b"v" * READ_SIZE)]) for place in range(1, READ + 1)]))
    with Taker(server, length) as taker:
        try:
            taker.run()
        except ConnectionError:
            pass
        [answer] = crowd.gathered([taker.writer], 9, seconds=2)
    return {"MB read": taker.count / 1e6, "MB of the reply": length / 1e6, "XADD answered": int(answer == bulk(b"1-1"))}


def adds_first(server, _):
    """A client that sends 400,000 XADDs before it reads."""
    text = b"".join(spelled("XADD", "s", f"{number}-1", "f", "v") for number in range(1, ADDS + 1))
    wanted = sum(len(bulk(b"%d-1" % number)) for number in range(1, ADDS + 1))
    began, count = time.monotonic(), 0
    with crowd.opened(server.port, GIVES_UP) as client:
        try:
            client.sendall(text)
            count = len(crowd.gathered([client], wanted)[0])
        except (TimeoutError, ConnectionError):
            pass
        if count > wanted:
            raise Fault(f"{count} bytes came, and {wanted} were wanted")
    return {"of the replies": count / wanted, "seconds": time.monotonic() - began, "MiB": server.memory() / (1 << 20)}
