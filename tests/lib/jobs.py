"""Producers, workers that die, recoveries and idle clients of one group, for some time: whether a job is lost, and what memory does.

A job is an entry of one to 64 KiB. A worker dies with what it has read, by a reset of its connection, and begins again once a recovery has
given that to others. What is acknowledged is deleted, so that the stream stays short.
"""

import collections
import random
import threading
import time

from . import crowd, servers
from .resp import ErrorReply, spelled

PRODUCERS, WORKERS, CLASSES = 2, 12, 4
SIZES = 1 << 10, 1 << 16  # bytes of a job
RESTS = 0.01  # seconds from one job of a producer to the next
BACKLOG = 1_000  # jobs that are not done, at which producers wait
COUNT, BLOCK = 8, 200  # jobs of a read, and milliseconds that it waits
DIES = 0.01  # of so many reads a worker dies
RECOVERS = 0.5  # seconds from one recovery to the next
LIMIT = 1_000  # jobs that a worker may have
SILENT, WAITING = 200, 100  # idle clients, and such that wait for an entry that never comes
LOOKS = 1  # seconds from one look at memory to the next
BLOCK_OF_BYTES = random.Random(1).randbytes(1 << 20)
DONE = 60  # seconds in which all that is left is done at the end


def names():
    return [f"w{number:02}" for number in range(WORKERS)]


def policy():
    """Costs of each class at each worker, at random."""
    choice = random.Random(2)
    limits = "".join(f"{name} = {LIMIT}\n" for name in names())
    rates = "".join(f"[rates.k{kind}]\n" + "".join(f"{name} = {choice.randint(1, 50)}\n" for name in names()) for kind in range(CLASSES))
    return f'class_field = "c"\n[limits]\n{limits}{rates}'


def body(number):
    """The bytes of the job of this number."""
    choice = random.Random(number)
    size = choice.randint(*SIZES)
    start = choice.randrange(len(BLOCK_OF_BYTES) - size)
    return BLOCK_OF_BYTES[start:start + size]


class Work:
    """What all of them share: which jobs were added, by id, and how often each was acknowledged; who is dead; and what went wrong."""

    def __init__(self, server):
        self.server, self.lock = server, threading.Lock()
        self.added, self.done, self.dead, self.faults = {}, collections.Counter(), set(), []
        self.produces, self.works, self.deaths, self.moved, self.recoveries, self.stale = True, True, 0, 0, 0, 0

    def left(self):
        return len(self.added) - len(self.done)

    def wrong(self, text):
        with self.lock:
            self.faults.append(text)

    def played(self, play, *words):
        """A thread of one of them, which ends with what it finds wrong."""
        def run():
            try:
                play(*words)
            except Exception as fault:
                self.wrong(f"{play.__name__} {words}: {fault!r}")
        thread = threading.Thread(target=run, daemon=True)
        thread.start()
        return thread


def produce(work, first):
    """Adds jobs, each with a number of its own."""
    number, choice = first, random.Random(first)
    with work.server.connect() as connection:
        while work.produces:
            if work.left() < BACKLOG:
                name = connection.call("XADD", "jobs", "*", "n", number, "c", f"k{choice.randrange(CLASSES)}", "body", body(number))
                with work.lock:
                    work.added[name] = number
                number += PRODUCERS
            time.sleep(RESTS)


def worker(work, name, seed):
    """Works under this name, dies now and then, and begins again once it was recovered."""
    choice = random.Random(seed)
    while work.works:
        connection = work.server.connect()
        if one_life(work, name, connection, choice):
            return
        crowd.leave(connection.socket, killed=True)
        connection.close()
        with work.lock:
            work.deaths += 1
            work.dead.add(name)
        while name in work.dead and work.works:
            time.sleep(0.02)


def one_life(work, name, connection, choice):
    """What was given to it first, and then what is new, until it dies or there is no more to do. Whether it lives."""
    while work.works:
        for start, more in (("0", []), (">", ["BLOCK", BLOCK])):
            streams = connection.call("XREADGROUP", "GROUP", "g", name, "COUNT", COUNT, *more, "STREAMS", "jobs", start)
            entries = [entry for _, found in streams or [] for entry in found]
            if work.produces and entries and choice.random() < DIES:
                return False
            finish(work, connection, entries)
    connection.close()
    return True


def finish(work, connection, entries):
    """Looks whether each job is what was added, acknowledges and deletes them."""
    if not entries:
        return
    for entry, fields in entries:
        if fields[5] != body(int(fields[1])):
            work.wrong(f"the job {entry} has other bytes than were added")
    ids = [entry for entry, _ in entries]
    acknowledged = connection.call("XACK", "jobs", "g", *ids)
    if acknowledged != len(ids):
        work.wrong(f"{acknowledged} of {len(ids)} jobs were pending")
    connection.call("XDEL", "jobs", *ids)
    with work.lock:
        work.done.update(ids)


def recover(work):
    """Has the jobs of the dead given to others, over and over."""
    with work.server.connect() as connection:
        while work.works:
            time.sleep(RECOVERS)
            if dead := sorted(work.dead):
                connection.send("RECOVER.RUN", "jobs", "g", "DEAD", *dead)
                reply = connection.reply()
                if isinstance(reply, ErrorReply):
                    if not str(reply).startswith("STALE"):
                        raise reply
                    work.stale += 1
                    continue
                with work.lock:
                    work.recoveries, work.moved = work.recoveries + 1, work.moved + len(reply[2])
                    work.dead.difference_update(dead)


def watched(server, until, sizes):
    """Notes the memory of a server until a moment."""
    while (left := until - time.monotonic()) > 0:
        sizes.append(server.memory())
        time.sleep(min(LOOKS, left))


def judged(work):
    """What is left in the group and the stream, and what was lost or done twice."""
    with work.server.connect() as connection:
        if pending := connection.call("XPENDING", "jobs", "g")[0]:
            work.wrong(f"{pending} jobs are pending")
        if length := connection.call("XLEN", "jobs"):
            work.wrong(f"{length} jobs are in the stream")
    lost = set(work.added) - set(work.done)
    if lost or set(work.done) - set(work.added) or any(count != 1 for count in work.done.values()):
        twice = sum(count > 1 for count in work.done.values())
        work.wrong(f"{len(work.added)} jobs were added, {len(lost)} of them lost, {twice} done twice")


def play(server, seconds, seed):
    """All of them for so many seconds. What happened, and the memory of the server second by second."""
    work, sizes = Work(server), []
    with server.connect() as connection:
        for key in ("jobs", "quiet"):
            connection.call("XGROUP", "CREATE", key, "g", "0", "MKSTREAM")
    with crowd.Crowd(server, SILENT), crowd.Crowd(server, WAITING) as waiting:
        waiting.send(spelled("XREAD", "BLOCK", 0, "STREAMS", "quiet", "$"))
        producers = [work.played(produce, work, first) for first in range(PRODUCERS)]
        others = [work.played(worker, work, name, f"{seed} {name}") for name in names()] + [work.played(recover, work)]
        watched(server, time.monotonic() + seconds, sizes)
        work.produces = False
        for thread in producers:
            thread.join(servers.SECONDS)
        late = time.monotonic() + DONE
        while (work.left() or work.dead) and time.monotonic() < late:
            time.sleep(0.1)
        work.works = False
        for thread in others:
            thread.join(servers.SECONDS)
        if any(thread.is_alive() for thread in producers + others):
            work.wrong("a producer, a worker or a recovery hangs")
    judged(work)
    return work, sizes
