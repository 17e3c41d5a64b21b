#!/usr/bin/env python3
"""Runs sr_server over a socket once for each allocation that it makes, refuses that allocation alone, and has a client wait for deadlines
and go away.

usage: tests/refused_tick.py PROGRAM [WAY ..]

PROGRAM is sr_server, and WAY `workers` or `connections`, by which it serves; both if none is named.

In each run a client has two reads that wait for 100 milliseconds, one after the other. Each is answered by nothing, or by `-OOM out of
memory`; or the server does not begin, or the connection ends. In some runs a tick is what is refused: it is made up for by the next.

Then the client goes away while a read of a group waits without an end. If the allocation was refused by then, another client comes: it is
served, and is the one that reads the entry that it adds, since nothing is given to who is gone. In some runs the leave is what is refused:
a loop tries it again each second, and a worker every 10 milliseconds.

Prints the runs in which anything else comes of it; the status is 1 if there is one, or if no tick was refused, or no leave. It needs cc and
glibc (tests/lib/refuse.c).
"""

import itertools
import os
import sys
import tempfile
import time
from concurrent.futures import ThreadPoolExecutor

from lib import refusing, resp, servers

PATIENCE = 10  # seconds for one answer, on a machine that does much else
DEADLINE = 100  # milliseconds
TAKEN = 0.03  # seconds in which a request is taken that is not answered at once
SETTLED = 0.3  # seconds in which a leave is made once the connection is closed
LEFT = 2.5  # seconds after which a leave that was refused has been tried again
READS = 2
BATCH = 16  # runs that are begun before the first of them is looked at
MOST = 4_000  # allocations, far more than such a run makes

SERVED = 1  # connections at a time: a place or a worker that is lost would be missed
GROUP = "XGROUP", "CREATE", "s", "g", "$", "MKSTREAM"
READ = "STREAMS", "s", ">"
# What the client sends last. After that its leave is the ninth record, for which the list of records grows.
LAST = "XREADGROUP", "GROUP", "g", "gone", "BLOCK", 0, *READ
ENTRY = [[b"s", [[b"1-1", [b"a", b"b"]]]]]


class Run:
    """What came of a run: whether the refused allocation was reached, whether that was in a tick or in the leave, and what is wrong."""

    def __init__(self, program, way, library, number):
        self.number, self.reached, self.tick, self.leave, self.wrong = number, False, False, False, None
        with tempfile.TemporaryFile() as errors:
            try:
                server = servers.Server(program, env=refusing.environment(library, number), errors=errors, **{way: SERVED})
            except resp.Fault:
                self.reached = is_refused(errors)  # (it did not begin)
                return
            with server:
                self.play(server, errors)

    def play(self, server, errors):
        """Has a client wait and go away, and then another come, unless the allocation was not reached yet."""
        idle, before = server.handles(), True
        try:
            with server.connect(PATIENCE) as connection:
                self.wait(connection, errors)
                connection.call("PING")
                connection.send(*LAST)
                time.sleep(TAKEN)
                before = is_refused(errors)
        except TimeoutError:
            self.wrong = f"no answer within {PATIENCE} seconds"
        except (OSError, resp.ErrorReply):
            pass  # (the connection ended, or PING was refused)
        if not comes(lambda: server.handles() <= idle, PATIENCE):
            self.wrong = self.wrong or f"not closed within {PATIENCE} seconds after the client went away"
        self.reached = comes(lambda: is_refused(errors), SETTLED)
        self.leave = self.reached and not before
        if self.reached and not self.wrong:
            self.go_on(server)

    def wait(self, connection, errors):
        """Has the client make a group, and wait for deadlines."""
        connection.send(*GROUP)
        connection.reply()
        for _ in range(READS):
            connection.send("XREAD", "BLOCK", DEADLINE, "STREAMS", "s", "$")
            time.sleep(TAKEN)
            before = is_refused(errors)
            answer = connection.reply()
            self.tick |= answer is None and not before and is_refused(errors)
            if answer is not None and str(answer) != "OOM out of memory":
                self.wrong = f"a read that waits is answered by {answer!r}"

    def go_on(self, server):
        """Has another client come, as soon as there is a place for it, after the first is gone."""
        connection = first_served(server)
        if not connection:
            self.wrong = f"no place for another client within {LEFT} seconds"
            return
        try:
            with connection:
                connection.send(*GROUP)
                connection.reply()  # (the group is there, unless it was what was refused)
                connection.call("XADD", "s", "1-1", "a", "b")
                entry = connection.call("XREADGROUP", "GROUP", "g", "next", *READ)
        except (OSError, resp.ErrorReply) as error:
            self.wrong = f"the next client is not served: {error!r}"
        else:
            if entry != ENTRY:
                self.wrong = f"the next client adds an entry, and reads {entry!r}"


def first_served(server):
    """The first client that comes now and is served, or None if none is for some time."""
    until = time.monotonic() + LEFT
    while time.monotonic() < until:
        connection = server.connect(PATIENCE)
        try:
            if connection.call("PING") == b"PONG":
                return connection
        except (OSError, resp.ErrorReply):
            pass  # (there is no place for it)
        connection.close()
        time.sleep(0.005)
    return None


def comes(is_so, seconds):
    """Waits until something is so, and answers whether it came within these seconds."""
    until = time.monotonic() + seconds
    while not is_so():
        if time.monotonic() > until:
            return False
        time.sleep(0.005)
    return True


def is_refused(errors):
    """Whether the library has said in a file that it refused an allocation."""
    return b"refused\n" in os.pread(errors.fileno(), 1 << 16, 0)


def walked(program, way, library):
    """The runs, up to the first that does not reach its allocation."""
    with ThreadPoolExecutor(os.cpu_count()) as pool:
        for first in range(1, MOST, BATCH):
            for run in pool.map(lambda number: Run(program, way, library, number), range(first, first + BATCH)):
                if run.reached or run.wrong:
                    yield run
                if not run.reached:
                    return


def judged(program, way, library):
    """Plays all runs of one way, and prints what came of them. Answers the status."""
    runs = list(walked(program, way, library))
    wrong = [f"allocation {run.number}: {run.wrong}" for run in runs if run.wrong]
    ticks, leaves = sum(run.tick for run in runs), sum(run.leave for run in runs)
    wrong += [f"no {what} was refused" for what, count in (("tick", ticks), ("leave", leaves)) if not count]
    text = f"refused_tick, {way}: {len(runs)} allocations refused in turn, {ticks} of them of ticks, {leaves} of leaves; {len(wrong)} wrong"
    print(text, *itertools.islice(wrong, 10), sep="\n  ", flush=True)
    return 1 if wrong else 0


def main():
    if len(sys.argv) < 2:
        sys.exit(__doc__.split("\n\n")[1])
    program, *words = sys.argv[1:]
    with tempfile.TemporaryDirectory() as folder:
        library = refusing.library_in(folder)
        return max([judged(os.path.abspath(program), way, library) for way in servers.ways_of(words)])


if __name__ == "__main__":
    sys.exit(main())
