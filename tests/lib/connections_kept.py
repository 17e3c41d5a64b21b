"""What a loop keeps in memory, and workers of `kept_bytes`: records that are let go by their number and by their bytes, buffers of long replies, reads that wait."""

import time

from . import crowd, heavy, servers
from .connections_bounds import GROWS, UNFINISHED
from .crowd import PING, PONG, Crowd
from .resp import array, bulk, spelled

PINGS, ROUNDS = 200_000, 6  # of one client, which waits for none of them, and how often it does so
FIRST = 2  # rounds after which buffers and what the memory has of its own are there
STAYS = 3 << 20  # bytes by which the server may grow in the rounds after them: four of each PING
WITHIN = 24 << 20  # and by all of them

LATE = 2_000_000  # PINGs that are sent before any is read
LATER = 100 << 20  # bytes that stay of them at most: the C library gives back in pieces of 64 MiB
SERVERS, FEW, LAST = 5, 10, 1_000  # that are begun for it at most, for so many connections, and the records that each keeps

BYTES = 4 << 20  # of records, as --keep-bytes has it
MANY = 100_000  # records, so that their number is no bound
ENTRIES = 16, 1 << 16  # of a stream, and bytes of each: a MiB
RANGES = 400  # that are asked for
BY_DEFAULT = 64 << 20  # bytes of records, if no number is given
BESIDE = 32 << 20  # bytes that the server takes beside them: the last reply, and what memory that is used again does not give back
DOUBLE = 2  # records that are not let go yet, and new ones

ASKED = 3_000  # PINGs, one after the other, once none or very many records are kept
FILLS = 90_000  # records before the others
LONGER = 3  # times that these may take, in processor time

READERS, TWICE = 150, 2  # connections that each read such a range as often at once
GIVEN_BACK = 100 << 20  # bytes by which the server may be larger after them: the C library gives back what a thread frees in pieces of 64 MiB
SHORT = 3_000  # PINGs that let go of the records of those reads
SETTLES = 5  # seconds in which the server gives back

WAITING, KEYS = 300, 900  # reads that wait, and the keys of each
HELD = 16 << 10  # bytes of each that the bound does not count


def filled(maker):
    """A stream `long` of a MiB. How many bytes the reply has that lists it."""
    number, size = ENTRIES
    heavy.carried_out(maker, (["XADD", "long", f"{place}-1", "f", b"v" * size] for place in range(1, number + 1)))
    return len(array([array([bulk(b"%d-1" % place), spelled("f", b"v" * size)]) for place in range(1, number + 1)]))


def kept_pings(tally, server):
    """One client pipelines PINGs at full rate: records are let go as fast as they come, and memory does not grow by them."""
    sizes = [server.memory()]
    with crowd.opened(server.port, servers.SECONDS) as client:
        for place in range(ROUNDS):
            tally.compare(f"bytes of PONGs of round {place}", PINGS * len(PONG), heavy.exchange(client, PING * PINGS, PINGS * len(PONG)))
            sizes.append(server.memory())
    told = " ".join(f"{size >> 10:,}" for size in sizes)
    tally.holds(f"KiB before and after each {PINGS:,} PINGs: {told}; too many stay", sizes[-1] <= sizes[FIRST] + STAYS)
    tally.holds(f"KiB before and after each {PINGS:,} PINGs: {told}; it grows too much", sizes[-1] <= sizes[0] + WITHIN)


def grown_by_ranges(tally, server):
    """By how much a server grows that answers many ranges of a MiB to one client."""
    with server.connect() as maker:
        length, before = filled(maker), server.memory()
        found = heavy.exchange(maker.socket, spelled("XRANGE", "long", "-", "+") * RANGES, length * RANGES)
        tally.compare("bytes of the ranges", length * RANGES, found)
        return server.memory() - before


def kept_bytes(tally, server):
    """Records of large replies are let go by their bytes, long before there are too many of them."""
    grown = grown_by_ranges(tally, server)
    tally.holds(f"grown by {grown >> 20} MiB, though {BYTES >> 20} of records are kept", grown <= DOUBLE * BYTES + BESIDE)


def kept_by_default(tally, server):
    """The same without a number of bytes."""
    grown = grown_by_ranges(tally, server)
    tally.holds(f"grown by {grown >> 20} MiB, though {BY_DEFAULT >> 20} of records are kept", grown <= DOUBLE * BY_DEFAULT + BESIDE)


def each_ping(server, client):
    """Seconds of processor time of a PING, of some that are sent one after the other."""
    before = server.processor()
    for _ in range(ASKED):
        crowd.pinged(client)
    return (server.processor() - before) / ASKED


def kept_records(tally, server):
    """A PING after very many records that are kept costs what it costs after none."""
    with crowd.opened(server.port, servers.SECONDS) as client:
        few = each_ping(server, client)
        heavy.exchange(client, PING * FILLS, FILLS * len(PONG))
        many = each_ping(server, client)
        told = f"{1e6 * few:.1f} microseconds of processor time a PING after none, and {1e6 * many:.1f} after {FILLS:,}"
        tally.holds(told, many <= LONGER * few)


def kept_put_off(tally, server):
    """The same where hardly any record may be kept: records are let go while a client goes on that others were put before."""
    grown = grown_by_ranges(tally, server)
    tally.holds(f"grown by {grown >> 20} MiB though one record is kept", grown <= DOUBLE * BESIDE)


def kept_later(tally, program):
    """The same of very many PINGs that were sent before any reply was read; nor is what they were sent in kept. The most records that there are
    at a time, for which room stays, depends on what else is at work: one server of a few is enough."""
    grown = []
    while not grown or grown[-1] > LATER and len(grown) < SERVERS:
        with servers.Server(program, connections=FEW, keep=LAST) as server, crowd.opened(server.port, servers.SECONDS) as client:
            before = server.memory()
            client.sendall(PING * LATE)
            tally.compare("bytes of PONGs that are read late", LATE * len(PONG), heavy.exchange(client, b"", LATE * len(PONG)))
            grown.append(shrunk(server, before + LATER) - before)
    told = ", ".join(f"{size >> 20}" for size in grown)
    tally.holds(f"grown by {told} MiB after {LATE:,} PINGs that were sent first", grown[-1] <= LATER)


def shrunk(server, size):
    """The memory of a server, once it is no more than this or the time is up."""
    until = time.monotonic() + SETTLES
    while server.memory() > size and time.monotonic() < until:
        time.sleep(0.05)
    return server.memory()


def given_back(tally, server):
    """Connections that once read a long reply keep no buffer of its length, once its record is let go too."""
    with server.connect() as maker, Crowd(server, READERS) as readers:
        length, before = filled(maker), server.memory()
        for each in readers:
            found = heavy.exchange(each, spelled("XRANGE", "long", "-", "+") * TWICE, length * TWICE)
            tally.compare("bytes of long replies", length * TWICE, found)
        heavy.exchange(maker.socket, PING * SHORT, SHORT * len(PONG))
        tally.compare("those that are served", READERS, readers.pinged())
        grown = shrunk(server, before + GIVEN_BACK) - before
        tally.holds(f"grown by {grown >> 20} MiB after {READERS} reads of {TWICE} MiB", grown <= GIVEN_BACK)


def waiting_reads(tally, server):
    """Reads that wait on many keys hold no more than unanswered requests may, or are closed."""
    asked = spelled("XREAD", "BLOCK", 0, "STREAMS", *(f"key-{place}" for place in range(KEYS)), *["$"] * KEYS)
    with server.connect() as other, Crowd(server, WAITING) as readers:
        before = server.memory()
        for each in readers:
            try:
                each.sendall(asked)
            except ConnectionError:
                pass  # it is closed by what it sends
            crowd.pinged(other.socket)
        grown, closed = server.memory() - before, len(crowd.answered(readers.sockets, 0))
        told = f"{WAITING - closed} reads of {KEYS} keys that wait hold {grown >> 20} MiB, and {UNFINISHED >> 20} are allowed"
        tally.holds(told, grown <= UNFINISHED + HELD * WAITING + GROWS // 3)
        tally.holds(f"{closed} of {WAITING} reads are closed", closed < WAITING)
