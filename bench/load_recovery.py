"""Rows of load.py on recoveries: what they take of the loop, and how long others wait for them. Redis has none."""

import contextlib
import random
import statistics
import time

from lib import heavy
from lib.crowd import Crowd
from lib.heavy import Loop
from lib.resp import ErrorReply, Fault, Replies, spelled
from lib.stranded import Stranded

ENTRIES, AT_ONCE, TIMES = 4_096, 100, 5  # stranded entries, recoveries at once, and how often there is one alone
LIMIT, DEAREST = 1_000, 1_000  # entries that a consumer may have, and the most that one costs
RESTS = 3  # seconds after which memory is looked at
CONSUMERS = 100_000  # of the group on the board
MIB = 1 << 20


def policy(consumers, classes):
    """Rates at random of each class, the last for all classes that it does not name."""
    choice, names = random.Random(1), [f"w{number}" for number in range(consumers)]
    lines = ['class_field = "c"', "[limits]"] + [f"{name} = {LIMIT}" for name in names]
    for kind in [f"k{number}" for number in range(classes - 1)] + ['"*"']:
        lines += [f"[rates.{kind}]"] + [f"{name} = {choice.randint(1, DEAREST)}" for name in names]
    return "\n".join(lines) + "\n"


def concluded(reply, word):
    if isinstance(reply, ErrorReply) or reply[0] != word:
        raise Fault(f"a recovery is answered by {str(reply)[:80]}")


def at_once(server, keys, waits):
    """Seconds until all of these are recovered, and how long a PING waited."""
    with Crowd(server, len(keys)) as clients:
        waits.reset()
        began = time.monotonic()
        for each, key in zip(clients, keys):
            each.sendall(spelled("RECOVER.RUN", key, "g", "DEAD", "dead"))
        for each in clients:
            with each.makefile("rb") as file:
                concluded(Replies(file).reply(), b"done")
        return time.monotonic() - began, waits.longest()


def recoveries(classes):
    def row(server, bench):
        with server.connect() as maker, heavy.Waits(server) as waits:
            stranded, loop, number = Stranded(maker, ENTRIES, classes), Loop(server, maker), bench.size or AT_ONCE
            keys, took, ran = [stranded.more() for _ in range(TIMES + number)], [], []
            heavy.settled(server)
            memory = server.memory()
            for key in keys[:TIMES]:
                waits.reset()
                before = loop.ran()
                concluded(maker.call("RECOVER.RUN", key, "g", "DEAD", "dead"), b"done")
                took, ran = took + [waits.longest()], ran + [loop.ran() - before]
            seconds, longest = at_once(server, keys[TIMES:], waits)
            time.sleep(RESTS)
            one = {"ms of the loop for one": 1000 * statistics.median(ran), "ms that a PING waits": 1000 * statistics.median(took)}
            more = {"at once": number, "ms that a PING waits then": 1000 * longest, "seconds for these": seconds}
            return {**one, **more, "MiB more after": (server.memory() - memory) / MIB}

    row.__doc__ = f"RECOVER.RUN of {ENTRIES:,} entries by 64 consumers of {classes:,} classes, one and some at once."
    return row


def idle_recoveries(server, bench):
    """Clients that wait for recoveries of 4,096 entries of 1,024 classes by 64 consumers, all at once, at `--idle` 1."""
    with server.connect() as maker:
        stranded, done = Stranded(maker, ENTRIES, 1_024), 0
        keys = [stranded.more() for _ in range(bench.size or AT_ONCE)]
    began = time.monotonic()
    with Crowd(server, len(keys)) as clients:
        for each, key in zip(clients, keys):
            each.sendall(spelled("RECOVER.RUN", key, "g", "DEAD", "dead"))
        for each in clients:
            with each.makefile("rb") as file, contextlib.suppress(ConnectionError):  # it may be closed
                concluded(Replies(file).reply(), b"done")
                done += 1
    return {"recoveries": len(keys), "done": done, "seconds": time.monotonic() - began}


def plans(entries, consumers, classes):
    def row(server, _):
        with server.connect() as maker, heavy.Waits(server) as waits:
            stranded, loop, took, ran = Stranded(maker, entries, classes), Loop(server, maker), [], []
            key = stranded.more()
            heavy.settled(server)
            for _ in range(TIMES):
                waits.reset()
                before = loop.ran()
                concluded(maker.call("RECOVER.PLAN", key, "g", "DEAD", "dead"), b"plan")
                took, ran = took + [waits.longest()], ran + [loop.ran() - before]
            return {"ms of the loop": 1000 * statistics.median(ran), "ms that a PING waits": 1000 * statistics.median(took)}

    row.__doc__ = f"RECOVER.PLAN of {entries:,} entries by {consumers} consumers of {classes} classes: {entries * consumers:,} pairs."
    return row


def board(server, bench):
    """RECOVER.BOARD of 100,000 consumers."""
    number = bench.size or CONSUMERS
    with server.connect() as maker, heavy.Waits(server) as waits:
        maker.call("XGROUP", "CREATE", "s", "g", "0", "MKSTREAM")
        text = b"".join(spelled("XGROUP", "CREATECONSUMER", "s", "g", f"c{place}") for place in range(number))
        heavy.exchange(maker.socket, text, number * len(b":1\r\n"))
        heavy.settled(server)
        waits.reset()
        began = time.monotonic()
        reply = maker.call("RECOVER.BOARD", "s", "g")
        return {"ms": 1000 * (time.monotonic() - began), "ms that a PING waits": 1000 * waits.longest(), "bytes": len(reply)}
