"""What a client gets of one loop beside another that asks for all that it can: counted by replies, and not by time."""

import select
import time

from . import crowd, heavy, servers
from .crowd import PING, PONG, Crowd
from .resp import array, bulk, spelled

ENTRIES = 2_000  # of a long range
CLIENTS = 50  # that send one PING after the other
LONG, SHORT = 40, 20_000  # replies of the long ones and of the others, each of which is waited for at least
FEWEST, MOST = 3, 4_000  # PINGs that are answered for each long reply
PATIENCE = 15  # seconds until there are that many

ADDS = 400_000  # that a client sends before it reads
AHEAD = 20_000  # BLOCK and XADD that each of two clients sends before the first entry comes
EARLY = 0.1  # part of them after which another client is answered at the latest


def long_range(maker, key, entries):
    """A stream of short entries. How many bytes the reply has that lists it."""
    heavy.carried_out(maker, (["XADD", key, f"{number}-1", "f", "v"] for number in range(1, entries + 1)))
    return len(array([array([bulk(b"%d-1" % number), spelled("f", "v")]) for number in range(1, entries + 1)]))


def share(tally, server):
    """Clients that send one PING after the other are answered beside one that pipelines long ranges, and it is answered beside them."""
    with server.connect() as maker:
        length = long_range(maker, "long", ENTRIES)
    with heavy.Flood(server, spelled("XRANGE", "long", "-", "+")) as one, heavy.Pings(server, CLIENTS) as others:
        until = time.monotonic() + PATIENCE
        while (one.count() < LONG * length or others.count() < SHORT) and time.monotonic() < until:
            time.sleep(0.01)
        ranges, pings = one.count() // length, others.count()
    tally.holds(f"{ranges} long replies beside {pings:,} PINGs: there are too few of one kind", ranges >= LONG and pings >= SHORT)
    tally.holds(f"{ranges} long replies beside {pings:,} PINGs: the PINGs have too small a part", pings >= FEWEST * ranges)
    tally.holds(f"{ranges} long replies beside {pings:,} PINGs: the long ones have too small a part", pings <= MOST * ranges)


def adds_first(tally, server):
    """A client that sends very many XADDs before it reads any reply gets all of them in the end, and others are served meanwhile."""
    ids = [b"%d-1" % number for number in range(1, ADDS + 1)]
    with server.connect() as other, crowd.opened(server.port, servers.SECONDS) as client:
        text = b"".join(spelled("XADD", "s", entry, "f", "v") for entry in ids)
        wanted = b"".join(map(bulk, ids))
        client.sendall(text)
        crowd.pinged(other.socket)
        [found] = crowd.gathered([client], len(wanted))
        tally.holds(f"{len(found):,} bytes of {len(wanted):,} of replies that are read late", found == wanted)
        tally.compare("entries", ADDS, other.call("XLEN", "s"))


def by_turns(own, other, times=AHEAD):
    """What one of two clients sends: it waits for an entry of its stream, and adds one to the other's, over and over."""
    wait = spelled("XREADGROUP", "GROUP", "g", "c", "COUNT", 1, "BLOCK", 0, "NOACK", "STREAMS", own, ">")
    return (wait + spelled("XADD", other, "*", "f", "v")) * times


def bytes_by_turns():
    """How many bytes both clients are replied, at most: an entry and an id for each."""
    entry = bulk(b"0" * 13 + b"-00000")
    return 2 * AHEAD * (len(array([array([bulk(b"a"), array([array([entry, spelled("f", "v")])])])])) + len(entry))


class Watched:
    """Connections that are read as replies come, which counts their bytes."""

    def __init__(self, sockets):
        self.sockets, self.count, self.poll = {each.fileno(): each for each in sockets}, 0, select.epoll()
        for each in sockets:
            self.poll.register(each, select.EPOLLIN)

    def step(self, until):
        """The handles that had something, and None if it is too late."""
        left = until - time.monotonic()
        events = self.poll.poll(left) if left > 0 else []
        for handle, _ in events:
            self.count += len(crowd.received(self.sockets[handle]))
        return [handle for handle, _ in events] or None


def letters_between(tally, server):
    """Two clients have each other's reads end by turns, each of which has sent very much: another is answered long before they are done."""
    with server.connect() as maker, Crowd(server, 3) as clients:
        first, second, other = clients.sockets
        for key in ("a", "b"):
            maker.call("XGROUP", "CREATE", key, "g", "$", "MKSTREAM")
        first.sendall(by_turns("a", "b"))
        second.sendall(by_turns("b", "a"))
        heavy.settled(server)  # it has read all of it then
        watched, until = Watched([first, second]), time.monotonic() + servers.SECONDS
        maker.call("XADD", "a", "*", "f", "v")
        watched.step(until)
        other.sendall(PING)
        while not crowd.answered([other], 0) and watched.step(until):
            pass
        part = watched.count / bytes_by_turns()
        tally.compare("the other's answer", [PONG], crowd.gathered([other], len(PONG)))
        tally.holds(f"it is answered after {part:.2f} of what those two are replied", part < EARLY)
