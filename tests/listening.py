#!/usr/bin/env python3
"""Has clients use a server over sockets: reads that wait, clients that vanish, a recovery, the stored run, many requests, many connections,
checkpoints.

usage: tests/listening.py PROGRAM [WAY ..]

PROGRAM is sr_server, or `redis-server` (Debian: redis-server), with which the answers to `answered` were compared. WAY is `workers` or
`connections`, by which sr_server serves; both if none is named. More connections than are served, and records that are let go of by their
bytes, are tried with workers alone: `tests/connections.py` has those of a loop. There the server that gets 1,500 may have 256 descriptors open, so it ends if it accepts more of
them than it serves.

Prints each answer that differs, and how many there are; the status is 1 if one differs, or if the server ended or took too long.
"""

import os
import select
import socket
import struct
import sys
import tempfile
import time

from lib import connections_kept as kept
from lib import resp, servers
from lib.tally import judged

STORED = os.path.join(os.path.dirname(os.path.abspath(__file__)), "..", "crates", "sr_server")
SECONDS = 90  # for all of one way, on a machine that does much else
PATIENCE = 8  # seconds for one answer
QUIET = 0.2  # seconds after which nothing more is expected
SOON = 0.5  # seconds within which a deadline of 50 milliseconds is answered, but for one of several: the machine may do something else
DEADLINES = 5
SINGLE = 20_000  # requests of one connection, each read by itself
TURNS = 5_000  # connections, one after the other
SOME = 4  # connections that are served at a time
FEW = 2  # the same, when more of them come
MANY, DESCRIPTORS = 1_500, 256
BEYOND = 2  # connections that are accepted beyond the workers: one that waits for a worker, and one that waits for its place
ROUNDS, AT_A_TIME, DEPTH = 4, 200_000, 1_000  # times that memory is looked at, after so many requests, of which so many are sent at once
KEPT = 1_000  # records
GROWS = 64 << 20  # bytes, at most, by which memory grows after the first round: without checkpoints it were more than twice as much

ENTRIES = [[b"s", [[b"1-1", [b"a", b"b"]]]], [b"s", [[b"2-1", [b"a", b"c"]]]]]

# One consumer may take entries of class x, and has room for two.
POLICY = 'class_field = "c"\n[limits]\nA = 2\n[rates.x]\nA = 1\n'

# A reader dies with an entry, and another takes it over: the entry goes to A, at a cost of 2, and no price is needed.
RECOVERY = [
    ("PING", b"+PONG\r\n"),
    ("XGROUP CREATE s g $ MKSTREAM", b"+OK\r\n"),
    ("XADD s 1-1 c x", b"$3\r\n1-1\r\n"),
    (
        "XREADGROUP GROUP g D STREAMS s >",
        b"*1\r\n*2\r\n$1\r\ns\r\n*1\r\n*2\r\n$3\r\n1-1\r\n*2\r\n$1\r\nc\r\n$1\r\nx\r\n",
    ),
    (
        "RECOVER.RUN s g DEAD D",
        b"*5\r\n$4\r\ndone\r\n:2\r\n*1\r\n*2\r\n$3\r\n1-1\r\n$1\r\nA\r\n*1\r\n*2\r\n$1\r\nA\r\n:0\r\n*0\r\n",
    ),
    ("XLEN s", b":1\r\n"),
]


def quiet(*connections, seconds=QUIET):
    """Whether none of them is answered for a while."""
    return not readable(*connections, seconds=seconds)


def readable(*connections, seconds=PATIENCE):
    """Those of the connections that are answered first, or none."""
    ready, _, _ = select.select([connection.socket for connection in connections], [], [], seconds)
    return [connection for connection in connections if connection.socket in ready]


def vanish(connection):
    """Ends a connection as a client that is killed does, by a reset."""
    connection.socket.setsockopt(socket.SOL_SOCKET, socket.SO_LINGER, struct.pack("ii", 1, 0))
    connection.close()


def wait_for_entry(tally, reader, other):
    """A read that waits is answered when another client adds an entry."""
    tally.compare("PING", b"PONG", other.call("PING"))
    tally.compare("XGROUP", b"OK", other.call("XGROUP", "CREATE", "s", "g", "$", "MKSTREAM"))
    reader.send("XREADGROUP", "GROUP", "g", "A", "BLOCK", 0, "STREAMS", "s", ">")
    tally.compare("a read that waits has no answer", True, quiet(reader))
    tally.compare("PING while another waits", b"PONG", other.call("PING"))
    tally.compare("XADD", b"1-1", other.call("XADD", "s", "1-1", "a", "b"))
    tally.compare("a read that waited", [ENTRIES[0]], reader.reply())


def wait_for_deadline(tally, reader):
    """A read that waits for 50 milliseconds is answered then, though no client does anything; and so are the next ones."""
    took = []
    for _ in range(DEADLINES):
        began = time.monotonic()
        tally.compare("a deadline", None, reader.call("XREAD", "BLOCK", 50, "STREAMS", "s", "$"))
        took.append(time.monotonic() - began)
    told = ", ".join(f"{seconds:.3f}" for seconds in took)
    tally.compare(f"50 milliseconds, which took {told} seconds", (True, True), (min(took) > 0.045, sorted(took)[-2] < SOON))


def vanish_while_waiting(tally, server, reader, other):
    """Clients vanish while they wait, one politely: the others are served, and in the end so are as many as before."""
    gone = [server.connect(PATIENCE) for _ in range(2)]
    for connection in gone:
        connection.send("XREAD", "BLOCK", 0, "STREAMS", "s", "$")
    tally.compare("reads that wait have no answer", True, quiet(*gone))
    gone[0].close()
    vanish(gone[1])
    reader.send("XREADGROUP", "GROUP", "g", "A", "BLOCK", 0, "STREAMS", "s", ">")
    tally.compare("a read beside those that vanished", True, quiet(reader))
    tally.compare("PING after clients vanished", b"PONG", other.call("PING"))
    tally.compare("XADD after clients vanished", b"2-1", other.call("XADD", "s", "2-1", "a", "c"))
    tally.compare("a read that waited beside them", [ENTRIES[1]], reader.reply())
    for number in range(SOME - 2):
        gone[number] = server.connect(PATIENCE)
        tally.compare("PING in the place of one that vanished", b"PONG", gone[number].call("PING"))
    for connection in gone:
        connection.close()


def answered(tally, server):
    """What clients are answered that are no more than are served."""
    with server.connect(PATIENCE) as reader, server.connect(PATIENCE) as other:
        wait_for_entry(tally, reader, other)
        wait_for_deadline(tally, reader)
        vanish_while_waiting(tally, server, reader, other)


def woken(tally, server):
    """Reads that wait are answered by what another client does, whatever that is, and also if it goes on at once."""
    with server.connect(PATIENCE) as reader, server.connect(PATIENCE) as second, server.connect(PATIENCE) as other:
        for connection in (reader, second):
            connection.send("XREAD", "BLOCK", 0, "STREAMS", "s", "$")
        tally.compare("reads of a key that is missing have no answer", True, quiet(reader, second))
        other.socket.sendall(resp.lines("XADD s 1-1 a b", "PING", "XLEN t"))
        tally.compare("XADD and what follows it", [b"1-1", b"PONG", 0], [other.reply() for _ in range(3)])
        tally.compare("both reads, once there is an entry", [[ENTRIES[0]], [ENTRIES[0]]], [reader.reply(), second.reply()])
        for group in ("g", "h"):
            tally.compare("XGROUP CREATE", b"OK", other.call("XGROUP", "CREATE", "s", group, "$"))
        reader.send("XREADGROUP", "GROUP", "g", "A", "BLOCK", 0, "STREAMS", "s", ">")
        second.send("XREADGROUP", "GROUP", "h", "A", "BLOCK", 0, "STREAMS", "s", ">")
        tally.compare("reads of groups that had every entry have no answer", True, quiet(reader, second))
        tally.compare("XGROUP SETID", b"OK", other.call("XGROUP", "SETID", "s", "g", "0"))
        tally.compare("a read of a group that was set back", [ENTRIES[0]], reader.reply())
        tally.compare("XGROUP DESTROY", 1, other.call("XGROUP", "DESTROY", "s", "h"))
        tally.compare("a read of a group that is gone", "NOGROUP no such key or consumer group", str(second.reply()))


def single_reads(tally, server, number):
    """Very many requests on one connection, each sent when the one before is answered."""
    with server.connect(PATIENCE) as connection:
        text, right = resp.spelled("PING"), 0
        for _ in range(number):
            connection.socket.sendall(text)
            right += connection.file.readline() == b"+PONG\r\n"
        tally.compare(f"{number:,} requests, one at a time", number, right)


def one_after_the_other(tally, server, number):
    """Very many connections, each opened when the one before is closed."""
    right = 0
    for _ in range(number):
        with server.connect(PATIENCE) as connection:
            right += connection.call("PING") == b"PONG"
    tally.compare(f"{number:,} connections, one after the other", number, right)


def more_than_workers(tally, server):
    """Connections beyond the workers wait, and are served as others end."""
    served = [server.connect(PATIENCE) for _ in range(FEW)]
    for connection in served:
        tally.compare("PING of the first connections", b"PONG", connection.call("PING"))
    waiting = [server.connect(PATIENCE) for _ in range(2)]
    for connection in waiting:
        connection.send("PING")
    tally.compare("connections beyond the workers have no answer", True, quiet(*waiting, seconds=2 * QUIET))
    for connection in served:
        connection.close()
        ready = readable(*waiting)
        tally.compare("how many are served once one ends", 1, len(ready))
        for late in ready:
            tally.compare("PING of one that waited", b"PONG", late.reply())
            late.socket.shutdown(socket.SHUT_WR)  # its worker is free now, and takes the next one
            waiting.remove(late)


def recovered(tally, server):
    """A session over a book that others may use writes what it writes over one of its own, and ends when its client has said all."""
    with server.connect(PATIENCE) as connection:
        for line, _ in RECOVERY:
            connection.send(*line.split(" "))
        connection.socket.shutdown(socket.SHUT_WR)
        found = connection.file.read()
    tally.compare("a recovery at a seat", b"".join(reply for _, reply in RECOVERY), found)


def stored(tally, server):
    """The stored run of the program has the same replies over a socket as it has over standard output."""
    with open(os.path.join(STORED, "stdin"), "rb") as sent, open(os.path.join(STORED, "stdout"), "rb") as wanted:
        with server.connect(PATIENCE) as connection:
            connection.socket.sendall(sent.read())
            connection.socket.shutdown(socket.SHUT_WR)
            tally.compare("the stored run", wanted.read(), connection.file.read())


def started(number, port):
    """That many connections, each begun and none waited for: a listener takes only some of them."""
    connections = []
    for _ in range(number):
        connection = socket.socket()
        connection.setblocking(False)
        connection.connect_ex((servers.HOST, port))
        connections.append(connection)
    return connections


def many(tally, server, number):
    """Very many connections are opened and held. The server accepts no more than it can serve soon, and goes on."""
    with server.connect(PATIENCE) as first, server.connect(PATIENCE) as second:
        for connection in (first, second):
            tally.compare("PING before the many", b"PONG", connection.call("PING"))
        before = server.handles()
        held = started(number, server.port)
        time.sleep(5 * QUIET)
        accepted = server.handles() - before
        tally.compare(f"{number:,} connections, of which it accepted {accepted}", True, accepted <= BEYOND)
        for connection in (first, second):
            tally.compare("PING beside the many", b"PONG", connection.call("PING"))
        for connection in held:
            connection.close()
    with server.connect(PATIENCE) as connection:
        tally.compare("PING after the many", b"PONG", connection.call("PING"))


def bounded(tally, server, number):
    """A server that makes checkpoints takes no more memory for more requests."""
    pings, pongs, sizes = resp.spelled("PING") * DEPTH, b"+PONG\r\n" * DEPTH, []
    with server.connect(PATIENCE) as connection:
        for _ in range(ROUNDS):
            right = 0
            for _ in range(number // DEPTH):
                connection.socket.sendall(pings)
                right += connection.file.read(len(pongs)) == pongs
            tally.compare("many requests at a time", number // DEPTH, right)
            sizes.append(server.memory())
    told = ", ".join(f"{size >> 10:,}" for size in sizes)
    tally.compare(f"memory bounded after {number:,} requests each, KiB {told}", True, sizes[-1] <= sizes[0] + GROWS)


def served(tally, program, way):
    """All parts that both ways have."""
    def few(part, number, *words, **options):
        tally.serve(part, lambda: servers.Server(program, **{way: number}, **options), *words)

    few(answered, SOME)
    few(woken, SOME)
    few(single_reads, FEW, SINGLE)
    few(one_after_the_other, FEW, TURNS)
    few(stored, FEW)
    with tempfile.NamedTemporaryFile("w", suffix=".toml") as policy:
        policy.write(POLICY)
        policy.flush()
        few(recovered, FEW, policy=policy.name)
    # A checkpoint a hundredth of a second after each request changes nothing.
    few(answered, SOME, keep=1)
    few(woken, SOME, keep=1)
    few(bounded, FEW, AT_A_TIME, keep=KEPT)


def of_workers(tally, program):
    """More connections than workers, and records that are let go of by their bytes."""
    number = min(MANY, servers.raised_limit(MANY))
    tally.serve(more_than_workers, lambda: servers.Server(program, workers=FEW))
    tally.serve(many, lambda: servers.Server(program, workers=FEW, descriptors=DESCRIPTORS), number)
    tally.serve(kept.kept_bytes, lambda: servers.Server(program, workers=FEW, **{"keep": kept.MANY, "keep-bytes": kept.BYTES}))


def run(tally, program, way):
    served(tally, program, way)
    if way == servers.THREADS:
        of_workers(tally, program)


def main():
    if len(sys.argv) < 2:
        sys.exit(__doc__.split("\n\n")[1])
    program, *words = sys.argv[1:]
    if os.path.basename(program) == "redis-server":
        return judged("listening", SECONDS, lambda tally: tally.serve(answered, servers.Redis))
    return max([judged(f"listening, {way}", SECONDS, lambda tally: run(tally, program, way)) for way in servers.ways_of(words)])


if __name__ == "__main__":
    sys.exit(main())
