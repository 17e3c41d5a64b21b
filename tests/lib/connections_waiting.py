"""Very many readers that wait, and readers that go away while they wait."""

import time

from . import busy, crowd, heavy
from .connections_load import settled
from .crowd import Crowd
from .resp import array, bulk, spelled, spelled_all

READERS = 5_000
LEAVING = 2_000  # readers of a group of whom every second one goes away
ROUNDS, MISSED = 10, 2  # times that one reader goes away just before an entry comes, and how often the entry may be lost to it: the
# machine may let the server wait just before it reads what asked for much, so that it reads the entry with it
LOT = b"x" * 20_000  # more than the server reads at a time (16 KiB)
FEW, MANY = 1_000, 5_500  # readers whose costs are compared
LONGER = 2.5  # times that each of many may cost of what each of a few does
QUIET = 0.2  # seconds after which nothing more is expected


def read(name, *options):
    """A read of the group that waits."""
    return spelled("XREADGROUP", "GROUP", "g", name, "BLOCK", 0, *options, "STREAMS", "s", ">")


def ids(first, last):
    return [b"%d-1" % number for number in range(first, last + 1)]


def delivered(entry):
    """The reply that has this one entry of the stream."""
    return array([array([bulk(b"s"), array([array([bulk(entry), spelled("a", "b")])])])])


def add(maker, entries):
    """Adds entries in one piece, and answers the replies."""
    maker.socket.sendall(spelled_all(["XADD", "s", entry, "a", "b"] for entry in entries))
    return [maker.reply() for _ in entries]


def in_turn(tally, sockets, entries, what):
    """Each of these readers has the entry of its turn, and nobody has more."""
    wanted = [delivered(entry) for entry in entries]
    found = crowd.gathered(sockets, [len(text) for text in wanted])
    wrong = next((place for place, pair in enumerate(zip(wanted, found)) if pair[0] != pair[1]), None)
    told = "" if wrong is None else f", but {wrong + 1} has {found[wrong]!r}"
    tally.compare(f"{what}: each has the entry of its turn{told}", None, wrong)
    tally.compare(f"{what}: who has more", [], crowd.answered(sockets, QUIET))


def readers_of_a_stream(tally, server):
    """Very many readers of one stream wait, and each is given the one entry that comes."""
    with Crowd(server, READERS) as readers, server.connect() as maker:
        add(maker, ids(1, 1))
        readers.send(spelled("XREAD", "BLOCK", 0, "STREAMS", "s", "$"))
        # The second PING comes after all that was ready together with the first.
        for _ in range(2):
            crowd.pinged(maker.socket)
        tally.compare("readers that are answered before there is an entry", [], crowd.answered(readers.sockets, QUIET))
        tally.compare("XADD beside readers of a stream", ids(2, 2), add(maker, ids(2, 2)))
        wanted = delivered(b"2-1")
        tally.compare("readers of a stream that have the entry", READERS, readers.gathered(len(wanted)).count(wanted))
        tally.compare("PINGs of those readers", READERS, readers.pinged())


def readers_of_a_group(tally, server):
    """Very many readers of one group wait, and of as many entries each is given one, in order of blocking."""
    with Crowd(server, READERS) as readers, server.connect() as maker:
        maker.call("XGROUP", "CREATE", "s", "g", "$", "MKSTREAM")
        for place, each in enumerate(readers.sockets):
            each.sendall(read(f"c{place}"))
            crowd.pinged(maker.socket)  # so that the next one blocks later
        entries = ids(1, READERS)
        tally.compare("XADDs beside readers of a group", entries, add(maker, entries))
        in_turn(tally, readers.sockets, entries, "readers of a group")
        count, first, last, owners = maker.call("XPENDING", "s", "g")
        tally.compare("what is pending", (READERS, b"1-1", entries[-1]), (count, first, last))
        wanted = sorted([b"c%d" % place, b"1"] for place in range(READERS))
        tally.holds("one entry is pending for each", sorted(owners) == wanted)


def readers_that_leave(tally, server):
    """Every second reader of a group goes away, some by a reset, and entries come at once: those that are there are given them all."""
    with Crowd(server, LEAVING) as readers, server.connect() as maker:
        maker.call("XGROUP", "CREATE", "s", "g", "$", "MKSTREAM")
        for place, each in enumerate(readers.sockets):
            each.sendall(read(f"c{place % 2}"))
            crowd.pinged(maker.socket)
        for place in range(0, LEAVING, 2):
            crowd.leave(readers.sockets[place], killed=place % 4)
        entries = ids(1, LEAVING // 2)
        tally.compare("XADDs once readers left", entries, add(maker, entries))
        in_turn(tally, readers.sockets[1::2], entries, "readers that are left")
        wanted = [LEAVING // 2, b"1-1", entries[-1], [[b"c1", b"%d" % (LEAVING // 2)]]]
        tally.compare("what is pending once readers left", wanted, maker.call("XPENDING", "s", "g"))


def left_before_served(tally, server):
    """A reader goes away just before an entry comes, both while the server is busy with what another client asks, or with what the one asks
    that adds the entry, also if this one sends more before it than is read at a time: the next reader is given it, also with NOACK."""
    with server.connect() as maker, server.connect() as other:
        replied, number = busy.made(other), 0
        maker.call("XGROUP", "CREATE", "s", "g", "$", "MKSTREAM")
        for who, asks, more, answer in (
            ("another", other, b"", b""),
            ("the one that adds", maker, b"", b""),
            ("the one that adds, by a lot,", maker, spelled("PING", LOT), bulk(LOT)),
        ):
            given = 0
            for _ in range(ROUNDS):
                number += 1
                given += one_leaves(
                    server,
                    maker,
                    number,
                    lambda: asks.socket.sendall(busy.ASKED + more),
                    lambda: asks.file.read(replied + len(answer)),
                )
            tally.holds(f"the next reader has {given} of {ROUNDS} entries, while {who} keeps the server busy", given >= ROUNDS - MISSED)


def one_leaves(server, maker, number, begin, end):
    """A round in which one reader leaves, after what has the server do much begins. Whether the next reader is given the entry."""
    with Crowd(server, 2) as (gone, here):
        for each in (gone, here):
            each.sendall(read("A", *["NOACK"] * (number // 2 % 2)))
            crowd.pinged(maker.socket)
        begin()
        time.sleep(busy.MOMENT)
        crowd.leave(gone, killed=number % 4 < 2)
        maker.send("XADD", "s", f"{number}-1", "a", "b")
        end()
        wanted = delivered(b"%d-1" % number)
        return maker.reply() == b"%d-1" % number and crowd.gathered([here], len(wanted), seconds=1)[0] == wanted


def cost_of(server, number, entry):
    """Microseconds of processor time for each of so many readers that wait: to give it this entry, and to leave it once it is reset."""
    handles, read = server.handles(), spelled("XREAD", "BLOCK", 0, "STREAMS", "s", "$")
    with server.connect() as maker, Crowd(server, number) as readers:
        readers.send(read)
        heavy.settled(server)
        before = server.processor()
        add(maker, ids(entry, entry))
        readers.gathered(len(delivered(b"%d-1" % entry)))
        woken = server.processor() - before
        readers.send(read)
        heavy.settled(server)
        before = server.processor()
        for each in readers:
            crowd.leave(each, killed=True)
        settled(server, handles + 1)
        return 1e6 * woken / number, 1e6 * (server.processor() - before) / number


def each_of_many(tally, server):
    """A reader that is woken or reset beside very many others costs what it does beside a few."""
    few, many = cost_of(server, FEW, 1), cost_of(server, MANY, 2)
    for what, one, other in zip(("woken", "reset"), few, many):
        told = f"{one:.1f} microseconds for each of {FEW:,} readers that are {what}, and {other:.1f} for each of {MANY:,}"
        tally.holds(told, other <= LONGER * one)
