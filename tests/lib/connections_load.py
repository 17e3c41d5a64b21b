"""Connections that come and go, and slow ones that keep nobody out."""

import multiprocessing
import socket
import time

from . import crowd
from .crowd import Crowd
from .resp import Fault, spelled, spelled_all

TURNS, BATCH = 20_000, 100  # connections in all, and at a time
FIRST = 4_000  # of them, after which memory is looked at first
GROWS = 4 << 20  # bytes by which it may grow by the others: less than 270 for each
HALF = spelled("XADD", "s", "*", "f", "v" * 3_000)[:1_500]
LONG = spelled("XADD", "s", "*", "f", "v" * 900_000)[:800_000]
RARELY = 200  # of so many connections one sends the long one
SETTLES = 10  # seconds in which a server has closed what its clients have

SLOW = 450  # clients that stop in a request, and as many that do not read
LARGE = 192, 1_000  # entries of the stream that these ask for, and bytes of each
RECEIVED = 4_096  # bytes of room that these have for what they do not read
PINGS = 200  # of another client
SOON = 0.05  # seconds in which it is answered, on a machine that does nothing else
SCHEDULED = 3  # times that the machine lets it wait, as the echo shows: for the client, the server, and the client again


def settled(server, handles):
    """How many descriptors a server has open, once they are no more than these or the time is up."""
    until = time.monotonic() + SETTLES
    while server.handles() > handles and time.monotonic() < until:
        time.sleep(0.02)
    return server.handles()


def sent_by(place):
    """What the connection of this place sends before it goes away."""
    if place % RARELY == 1:
        return LONG
    kinds = [b"", HALF, spelled("XREAD", "BLOCK", 0, "STREAMS", "s", "$"), spelled("PING") * 20,
             spelled("XREADGROUP", "GROUP", "g", "c", "BLOCK", 0, "STREAMS", "s", ">")]
    return kinds[place % len(kinds)]


def batch(server, other, first):
    """Some connections are made, each sends what it does, and all go away."""
    with Crowd(server, BATCH) as gone:
        for place, each in enumerate(gone, first):
            each.sendall(sent_by(place))
        crowd.pinged(other.socket)
        for place, each in enumerate(gone, first):
            crowd.leave(each, killed=place % 3 == 0)


def come_and_go(tally, server):
    """Very many connections are made and dropped, some in a request, some while they wait: no descriptor and no memory is lost."""
    with server.connect() as other:
        other.call("XGROUP", "CREATE", "s", "g", "$", "MKSTREAM")
        handles, sizes = server.handles(), {}
        for first in range(0, TURNS, BATCH):
            batch(server, other, first)
            if first + BATCH in (FIRST, TURNS):
                tally.compare(f"descriptors after {first + BATCH:,} connections", handles, settled(server, handles))
                sizes[first + BATCH] = server.memory()
        told = " and ".join(f"{size >> 10:,} KiB after {number:,} connections" for number, size in sizes.items())
        tally.holds(f"memory is not lost: {told}", sizes[TURNS] <= sizes[FIRST] + GROWS)
        tally.compare("XADD once all are gone", b"1-1", other.call("XADD", "s", "1-1", "a", "b"))
        tally.compare("what is pending for them", 0, other.call("XPENDING", "s", "g")[0])


class Echo:
    """A process that sends back what it is sent: how long that takes is how long the machine lets two processes wait for each other."""

    def __init__(self):
        self.socket, end = socket.socketpair()
        self.process = multiprocessing.get_context("fork").Process(target=self.run, args=(self.socket, end), daemon=True)
        self.process.start()
        end.close()

    @staticmethod
    def run(other, end):
        other.close()
        while piece := end.recv(64):
            end.sendall(piece)

    def __enter__(self):
        return self

    def __exit__(self, *_):
        self.socket.close()
        self.process.join()


class Waits:
    """How long a client waits for its PINGs, and for the echo just after each."""

    def __init__(self, other, echo):
        self.other, self.echo, self.pings, self.echoes = other, echo.socket, [], []

    def ping(self):
        began = time.monotonic()
        crowd.pinged(self.other)
        ended = time.monotonic()
        self.echo.sendall(b"echo")
        if self.echo.recv(64) != b"echo":
            raise Fault("the echo is at its end")
        self.pings.append(ended - began)
        self.echoes.append(time.monotonic() - ended)

    def judge(self, tally, what):
        longest, most = max(self.pings), SOON + SCHEDULED * max(self.echoes)
        tally.holds(f"PING {what}: the longest of {len(self.pings)} took {longest:.3f} seconds, and {most:.3f} are allowed", longest <= most)


def slow_clients(tally, server):
    """Clients that stop in a request, and clients that ask for much and do not read, keep nobody out, and get what they asked for later."""
    with server.connect() as maker:
        count, size = LARGE
        maker.socket.sendall(spelled_all(["XADD", "large", f"{number}-1", "f", b"v" * size] for number in range(1, count + 1)))
        for _ in range(count):
            maker.reply()
        asked = spelled("XRANGE", "large", "-", "+")
        maker.socket.sendall(asked)
        [large] = crowd.gathered([maker.socket], count * size)
        large += crowd.gathered([maker.socket], 1, 0.2)[0]
    with Echo() as echo, Crowd(server, SLOW) as halves, Crowd(server, SLOW, received=RECEIVED) as deaf, server.connect() as other:
        waits = Waits(other.socket, echo)
        for place, (half, silent) in enumerate(zip(halves, deaf)):
            half.sendall(HALF)
            silent.sendall(asked)
            if place % 10 == 0:
                waits.ping()
        waits.judge(tally, "while slow clients come")
        waits = Waits(other.socket, echo)
        for _ in range(PINGS):
            waits.ping()
        waits.judge(tally, f"beside {2 * SLOW} slow clients")
        halves.send(spelled("XADD", "s", "*", "f", "v" * 3_000)[1_500:])
        found = halves.gathered(20)
        tally.compare("requests that are completed at last", SLOW, sum(text.startswith(b"$") for text in found))
        tally.compare("replies that are read at last", SLOW, deaf.gathered(len(large)).count(large))
