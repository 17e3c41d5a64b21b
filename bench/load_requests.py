"""Rows of load.py on requests that cost more than their length lets expect, in processor time."""

import statistics
import time

from lib import crowd, heavy
from lib.connections_kept import each_ping
from lib.connections_load import settled
from lib.crowd import PING, PONG, Crowd
from lib.resp import ErrorReply, array, bulk, spelled

KEPT = 90_000  # records
READERS = 9_900
KEYS, LENGTH, IN_GROUP = 2_000, 8_000, 20  # keys of a read, their bytes, and reads of a group
LARGE, LAST, ADDS = 1 << 16, 200, 100  # bytes of an entry, entries that stay, and how many are added
NAME = 1 << 20  # bytes of a field's name
GROUPS, TIMES = 20_000, 200  # groups or consumers that are there, and how often there is one more


def kept_records(server, _):
    """A PING after 90,000 records that are kept, and after none."""
    with server.connect() as client:
        few = each_ping(server, client.socket)
        heavy.exchange(client.socket, PING * KEPT, KEPT * len(PONG))
        many = each_ping(server, client.socket)
    return {"µs after none": 1e6 * few, "µs after them": 1e6 * many, "times": many / few}


class Watch:
    """What a server does in a moment: the seconds of processor time, and the milliseconds that a PING waits."""

    def __init__(self, server, waits):
        heavy.settled(server)
        waits.reset()
        self.server, self.waits, self.before, self.began = server, waits, server.processor(), time.monotonic()

    def told(self, what):
        took, waited = self.server.processor() - self.before, 1000 * self.waits.longest()
        return {f"s of processor to {what}": took, f"s to {what}": time.monotonic() - self.began, f"ms that a PING waits ({what})": waited}


def woken_readers(server, bench):
    """9,900 readers that one XADD wakes, and that are reset while they wait again."""
    number, handles = bench.size or READERS, server.handles()
    wanted = array([array([bulk(b"s"), array([array([bulk(b"1-1"), spelled("f", "v")])])])])
    with server.connect() as maker, heavy.Waits(server) as waits, Crowd(server, number) as readers:
        readers.send(spelled("XREAD", "BLOCK", 0, "STREAMS", "s", "0"))
        watch = Watch(server, waits)
        maker.call("XADD", "s", "1-1", "f", "v")
        served = readers.gathered(len(wanted)).count(wanted)
        woken = watch.told("wake")
        readers.send(spelled("XREAD", "BLOCK", 0, "STREAMS", "s", "1-1"))
        watch = Watch(server, waits)
        for each in readers:
            crowd.leave(each, killed=True)
        settled(server, handles + 2)
        return {"readers": served, **woken, **watch.told("reset")}


def worked(server, connection, requests):
    """Microseconds of processor time of each of these requests: half of them took no more."""
    found = []
    for words in requests:
        text, before = spelled(*words), server.processor()
        connection.socket.sendall(text)
        if isinstance(reply := connection.reply(), ErrorReply):
            raise reply
        found.append(1e6 * (server.processor() - before))
    return {"µs": statistics.median(found)}


def long_keys(server, _):
    """XREAD of 2,000 missing keys of 8,000 bytes."""
    words = ["XREAD", "STREAMS", *(f"{number:0{LENGTH}}" for number in range(KEYS)), *["0"] * KEYS]
    with server.connect() as connection:
        return worked(server, connection, [words] * 5)


def large_adds(server, _):
    """XADD of 64 KiB with MAXLEN 200."""
    words = ["XADD", "s", "MAXLEN", LAST, "*", "f", b"v" * LARGE]
    with server.connect() as connection:
        heavy.carried_out(connection, [words] * LAST)
        return worked(server, connection, [words] * ADDS)


def long_field(server, _):
    """XADD of a field whose name has 1 MiB, with MAXLEN 10."""
    with server.connect() as connection:
        return worked(server, connection, [["XADD", "s", "MAXLEN", 10, "*", b"f" * NAME, "v"]] * 30)


def woken_in_group(server, _):
    """XADD that wakes one of 20 readers of a group that wait on 2,000 keys each."""
    keys, found = [f"key-{number}" for number in range(KEYS)], []
    with server.connect() as connection, Crowd(server, IN_GROUP) as readers:
        heavy.carried_out(connection, (["XGROUP", "CREATE", key, "g", "0", "MKSTREAM"] for key in keys))
        readers.send(spelled("XREADGROUP", "GROUP", "g", "w", "BLOCK", 0, "STREAMS", *keys, *[">"] * KEYS))
        heavy.settled(server)
        for each in readers:
            before = server.processor()
            connection.call("XADD", keys[7], "*", "f", "v")
            crowd.gathered([each], 1)
            found.append(1e6 * (server.processor() - before))
    return {"µs": statistics.median(found)}


def grouped(*words):
    """A row of XGROUP with these words before a name, beside 20,000 of these."""
    def row(server, _):
        more = ["0"] if words[0] == "CREATE" else []
        there = ["CREATECONSUMER", "s", "g"] if words[0] == "CREATECONSUMER" else ["CREATE", "s"]
        with server.connect() as connection:
            connection.call("XGROUP", "CREATE", "s", "g", "0", "MKSTREAM")
            start = ["0"] if there[0] == "CREATE" else []
            heavy.carried_out(connection, (["XGROUP", *there, f"n{number}", *start] for number in range(GROUPS)))
            names = [f"n{100 * number}" if words[0] == "DESTROY" else f"n{100 * number}x" for number in range(TIMES)]
            return worked(server, connection, (["XGROUP", *words, name, *more] for name in names))

    row.__doc__ = f"XGROUP {words[0]} beside {GROUPS:,}."
    return row
