#!/usr/bin/env python3
"""Has readers wait in BLOCK 0 whose clients go away, and many readers of one group wait at once: who is gone holds no worker and is given
nothing, and who is served is woken alone.

usage: tests/waiting.py PROGRAM [WAY ..]

PROGRAM is sr_server, and WAY `workers` or `connections`, by which it serves; both if none is named. A worker that waits looks for its client
once a second, so clients that went away count as gone two seconds later; a loop leaves them at once. Wake-ups are the times that a thread
of the server gave up its processor of its own accord, less those of a server at which nothing happens.

| Part | A wrong program that it catches |
|---|---|
| `restarted` | a wait that never looks for its client: after as many restarts as it has workers it serves nobody |
| `given` | the same: an entry is given to a client that is gone, and with NOACK it is lost |
| `woken` | one served reader wakes all that wait |

Prints each answer that differs, and how many there are; the status is 1 if one differs, or if the server ended or took too long.
"""

import os
import sys
import time

from lib import resp, servers
from lib.tally import judged

SECONDS = 60  # for all of one way
PATIENCE = 8  # seconds for one answer
GONE = {servers.THREADS: 2.5, servers.LOOP: 0}  # seconds after which a server has left who is gone
SERVED = 8  # connections that are served at a time
RESTARTS = 80
READERS = 50
ROUNDS = 20
MOST = 8  # wake-ups for one served reader: its own, its next request, and those of the client that adds


def read(*options):
    return ["XREADGROUP", "GROUP", "g", "A", "BLOCK", 0, *options, "STREAMS", "s", ">"]


def wait_and_vanish(server, *options):
    """A client begins to wait, and goes away."""
    with server.connect(PATIENCE) as connection:
        connection.send(*read(*options))
        time.sleep(0.02)


def restarted(tally, server, gone):
    """A consumer restarts many more times than connections are served, waiting each time: others are served all the while."""
    with server.connect(PATIENCE) as other:
        other.call("XGROUP", "CREATE", "s", "g", "$", "MKSTREAM")
        for number in range(RESTARTS):
            wait_and_vanish(server)
            if number % (SERVED - 2) == 0:
                tally.compare(f"PING after {number + 1} restarts", b"PONG", other.call("PING"))
                time.sleep(gone / 2)
    with server.connect(PATIENCE) as late:
        tally.compare("PING of a new client after all restarts", b"PONG", late.call("PING"))


def given(tally, server, gone):
    """An entry goes to the reader that is there, and not to those that waited before it and are gone, with and without NOACK."""
    with server.connect(PATIENCE) as other, server.connect(PATIENCE) as reader:
        other.call("XGROUP", "CREATE", "s", "g", "$", "MKSTREAM")
        for number, options in ((1, []), (2, ["NOACK"])):
            for _ in range(SERVED - 4):
                wait_and_vanish(server, *options)
            time.sleep(gone)
            reader.send(*read(*options))
            time.sleep(0.1)
            tally.compare("XADD", b"%d-1" % number, other.call("XADD", "s", f"{number}-1", "a", "b"))
            wanted = [[b"s", [[b"%d-1" % number, [b"a", b"b"]]]]]
            tally.compare(f"the reader that is there, {options}", wanted, reader.reply())
        # What a NOACK read was given is not pending, and nothing else was given to anybody.
        tally.compare("XPENDING", [1, b"1-1", b"1-1", [[b"A", b"1"]]], other.call("XPENDING", "s", "g"))


def switches(server):
    """How often the threads of a server gave up their processors of their own accord."""
    count, folder = 0, f"/proc/{server.process.pid}/task"
    for thread in os.listdir(folder):
        with open(f"{folder}/{thread}/status") as status:
            count += next(int(line.split()[1]) for line in status if line.startswith("voluntary_ctxt_switches"))
    return count


def woken(tally, server, _):
    """Many readers of a group wait, and each entry wakes the one that is given it."""
    with server.connect(PATIENCE) as other:
        other.call("XGROUP", "CREATE", "s", "g", "$", "MKSTREAM")
        readers = [server.connect(PATIENCE) for _ in range(READERS)]
        for reader in readers:
            reader.send(*read("NOACK"))
        time.sleep(1)
        before, began = switches(server), time.monotonic()
        time.sleep(1)
        idle = (switches(server) - before) / (time.monotonic() - began)
        before, began = switches(server), time.monotonic()
        for number in range(ROUNDS):
            tally.compare("XADD beside many readers", b"%d-1" % (number + 1), other.call("XADD", "s", f"{number + 1}-1", "a", "b"))
            reader = served(readers)
            tally.compare("a reader of many", [[b"s", [[b"%d-1" % (number + 1), [b"a", b"b"]]]]], reader.reply())
            reader.send(*read("NOACK"))
        more = switches(server) - before - idle * (time.monotonic() - began)
        tally.compare(f"{more / ROUNDS:.1f} wake-ups for one served reader of {READERS}", True, more / ROUNDS < MOST)
        for reader in readers:
            reader.close()


def served(readers):
    """The reader that has an answer."""
    by_socket = {reader.socket: reader for reader in readers}
    ready, _, _ = servers.select.select(list(by_socket), [], [], PATIENCE)
    if len(ready) != 1:
        raise resp.Fault(f"{len(ready)} readers were served")
    return by_socket[ready[0]]


def run(tally, program, way):
    for part, served in ((restarted, SERVED), (given, SERVED), (woken, READERS + 2)):
        tally.serve(part, lambda: servers.Server(program, **{way: served}), GONE[way])


def main():
    if len(sys.argv) < 2:
        sys.exit(__doc__.split("\n\n")[1])
    program, *words = sys.argv[1:]
    return max([judged(f"waiting, {way}", SECONDS, lambda tally: run(tally, program, way)) for way in servers.ways_of(words)])


if __name__ == "__main__":
    sys.exit(main())
