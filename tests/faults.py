#!/usr/bin/env python3
"""Has accepts of a server fail, moves the clock that it reads, and refuses it threads: what passes must pass, and nothing else ends it.

usage: tests/faults.py PROGRAM [WAY ..]

PROGRAM is sr_server, and WAY `workers` or `connections`, by which it serves; both if none is named.

| Part | A wrong program that it catches |
|---|---|
| `passing` | ends serving at such a fault, or says something of it |
| `lasting` | tries again at once, over and over; ends serving after the second fault |
| `ending` | tries again for ever; waits for its last client; ends with another status or line |
| `threadless` | says that it listens before its threads stand |
| `set_back` | a clock that stands still until the system's has caught up; one that goes back with it |
| `set_ahead` | a clock that does not follow the system's; one that goes back with it, or stands still, after that |

Prints each answer that differs, and how many there are; the status is 1 if one differs, or if it took too long. It needs cc (lib/faults.c).
"""

import contextlib
import errno
import mmap
import os
import struct
import subprocess
import sys
import tempfile
import time

from lib import servers
from lib.tally import judged

SOURCE = os.path.join(os.path.dirname(os.path.abspath(__file__)), "lib", "faults.c")
SECONDS = 20  # for all of one way
PATIENCE = 3  # seconds for one answer, and for the end of the program
SERVED = 4  # connections that are served at a time
KEPT = 100_000  # records: without it the server says that it keeps all
NEEDED = {servers.THREADS: SERVED + 2, servers.LOOP: 2}  # threads that a server begins: a loop, and one for its plans
NUMBERS = ["error", "times", "failed", "ahead", "threads"]  # in the file that faults.c reads
ALL = -1
STEP = 600  # seconds by which the clock is moved

# Those of the moment, and those that are the listener's own.
PASSING = ["EMFILE", "ENFILE", "ENOBUFS", "ENOMEM", "EPERM", "EPROTO", "ENETDOWN", "ECONNABORTED"]
BLOCKING = ["EAGAIN"]  # one more for a listener that blocks. To a loop it says that no connection waits
OWN = ["EBADF", "EFAULT", "EINVAL", "ENOTSOCK", "EOPNOTSUPP"]

LASTS = 0.3  # seconds
RETRIES = range(5, 40)  # in that time, at one each 10 milliseconds


class Faults:
    """What the library is told, and the library, in a folder of its own."""

    def __init__(self, folder):
        library, name = os.path.join(folder, "faults.so"), os.path.join(folder, "told")
        subprocess.run(["cc", "-O2", "-shared", "-fPIC", "-o", library, SOURCE, "-ldl"], check=True)
        with open(name, "w+b") as file:
            file.write(bytes(8 * len(NUMBERS)))
            file.flush()
            self.told = mmap.mmap(file.fileno(), 8 * len(NUMBERS))
        self.environment = {"LD_PRELOAD": library, "FAULTS": name}
        self.reset()

    def reset(self):
        for name in NUMBERS:
            self[name] = 0
        self["threads"] = ALL

    def __setitem__(self, name, number):
        struct.pack_into("q", self.told, 8 * NUMBERS.index(name), number)

    def __getitem__(self, name):
        return struct.unpack_from("q", self.told, 8 * NUMBERS.index(name))[0]

    def fail(self, name, times):
        """Has this many further accepts fail with the error of this name."""
        self["failed"], self["error"] = 0, getattr(errno, name)
        self["times"] = times


class Trial:
    """A server to which faults happen, and what it says on standard error."""

    def __init__(self, program, way, faults, served=SERVED):
        self.errors = tempfile.TemporaryFile()
        self.server = servers.Server(program, **{way: served}, keep=KEPT, env=faults.environment, errors=self.errors)

    def __enter__(self):
        return self

    def __exit__(self, *_):
        self.server.stop()
        self.errors.close()

    def connect(self):
        return self.server.connect(PATIENCE)

    def pinged(self):
        with self.connect() as connection:
            return connection.call("PING")

    def said(self):
        self.errors.seek(0)
        return self.errors.read()

    def status(self):
        """The status with which the program ends, or None if it does not."""
        with contextlib.suppress(subprocess.TimeoutExpired):
            return self.server.process.wait(PATIENCE)


def passing(tally, faults, program, way):
    """One accept fails: the client is served, nothing is said, and the server lives."""
    with Trial(program, way, faults) as trial:
        for name in PASSING + BLOCKING * (way == servers.THREADS):
            faults.fail(name, 1)
            tally.compare(f"PING after {name}", b"PONG", trial.pinged())
            tally.compare(f"accepts that failed with {name}", 1, faults["failed"])
        tally.holds("the server lives", trial.server.alive())
        tally.compare("standard error", b"", trial.said())


def lasting(tally, faults, program, way):
    """Each accept fails for a while: it is tried again now and then, and in the end the client is served."""
    with Trial(program, way, faults) as trial:
        faults.fail("EMFILE", ALL)
        with trial.connect() as connection:
            time.sleep(LASTS)
            faults["times"] = 0
            tries = faults["failed"]
            tally.holds(f"tried {tries} times in {LASTS} seconds", tries in RETRIES)
            tally.compare("PING after a while", b"PONG", connection.call("PING"))


def ending(tally, faults, program, way):
    """The listener is at fault: the program ends with its line and status, though clients are connected, one waits, and one is not served yet."""
    for name in OWN:
        with Trial(program, way, faults) as trial, contextlib.ExitStack() as stack:
            clients = [stack.enter_context(trial.connect()) for _ in range(SERVED)]
            for client in clients:
                tally.compare("PING", b"PONG", client.call("PING"))
            clients[-1].send("XREAD", "BLOCK", 0, "STREAMS", "s", "$")
            stack.enter_context(trial.connect())
            time.sleep(0.05)
            faults.fail(name, ALL)
            with contextlib.suppress(ConnectionError):  # it may be reset at once
                stack.enter_context(trial.connect())
            tally.compare(f"status after {name}", 1, trial.status())
            tally.compare(f"standard error after {name}", b"listen: accept fault\n", trial.said())
            tally.compare(f"accepts that failed with {name}", 1, faults["failed"])
        faults.reset()


def threadless(tally, faults, program, way):
    """One of its threads cannot begin: the program does not say that it listens, and ends."""
    for threads in range(NEEDED[way]):
        faults["threads"] = threads
        words = [program, "--listen", f"{servers.HOST}:{servers.free_port()}", f"--{way}", str(SERVED)]
        try:
            ended = subprocess.run(words, env=faults.environment, capture_output=True, timeout=PATIENCE, check=False)
            found = ended.returncode, ended.stdout, ended.stderr
        except subprocess.TimeoutExpired as late:
            found = None, late.stdout, late.stderr
        tally.compare(f"the end with {threads} threads", (1, b"", b"start: no thread\n"), found)


def moment(entry_id):
    """The milliseconds of an id."""
    return int(entry_id.split(b"-")[0])


def waited(tally, what, connection, milliseconds):
    """A read whose deadline comes after that many milliseconds is answered then."""
    began = time.monotonic()
    tally.compare(what, None, connection.call("XREAD", "BLOCK", milliseconds, "STREAMS", "none", "$"))
    seconds = time.monotonic() - began
    tally.holds(f"{what} took {seconds:.3f} seconds", milliseconds / 1000 - 0.02 < seconds < milliseconds / 1000 + 1)


def passes(tally, what, connection, last):
    """Moments go on from the last one by the time that passes. The new last one."""
    first = connection.call("XADD", "t", "*", "a", "b")
    tally.holds(f"{what}: {first} is not before {last}", moment(first) >= moment(last))
    time.sleep(0.1)
    second = connection.call("XADD", "t", "*", "a", "b")
    passed = moment(second) - moment(first)
    tally.holds(f"{what}: {passed} milliseconds in 100", 90 <= passed < 1_000)
    return second


def set_back(tally, faults, program, way):
    """The clock is set back: deadlines, idle times and ids go on."""
    with Trial(program, way, faults) as trial, trial.connect() as connection, trial.connect() as waiting:
        last = connection.call("XADD", "s", "*", "a", "b")
        connection.call("XGROUP", "CREATE", "s", "g", "0")
        connection.call("XREADGROUP", "GROUP", "g", "A", "STREAMS", "s", ">")
        waiting.send("XREAD", "BLOCK", 300, "STREAMS", "none", "$")
        time.sleep(0.05)
        began = time.monotonic()
        faults["ahead"] = -STEP
        waited(tally, "BLOCK 100 after the clock was set back", connection, 100)
        last = passes(tally, "ids after the clock was set back", connection, last)
        [[_, _, idle, _]] = connection.call("XPENDING", "s", "g", "-", "+", 10)
        passed = int(1000 * (time.monotonic() - began))
        tally.holds(f"XPENDING tells {idle} milliseconds after {passed}", passed <= idle < passed + 1_000)
        claimed = connection.call("XAUTOCLAIM", "s", "g", "B", passed, "0", "JUSTID")
        tally.compare("entries that XAUTOCLAIM claims", 1, len(claimed[1]))
        early = connection.call("XAUTOCLAIM", "s", "g", "B", STEP * 1000, "0", "JUSTID")
        tally.compare("entries that XAUTOCLAIM claims too early", [], early[1])
        tally.compare("a read that waited meanwhile", None, waiting.reply())
        tally.holds("it waited for at most a second", time.monotonic() - began < 1.3)
        faults["ahead"] = 0
        passes(tally, "ids after the clock is right again", connection, last)


def set_ahead(tally, faults, program, way):
    """The clock is set ahead and back again: moments go ahead with it, and on from there."""
    with Trial(program, way, faults) as trial, trial.connect() as connection:
        first = connection.call("XADD", "t", "*", "a", "b")
        faults["ahead"] = STEP
        ahead = connection.call("XADD", "t", "*", "a", "b")
        far = moment(ahead) - moment(first)
        tally.holds(f"an id {far} milliseconds ahead", STEP * 1000 <= far < STEP * 1000 + 1_000)
        waited(tally, "BLOCK 100 while the clock is ahead", connection, 100)
        faults["ahead"] = 0
        waited(tally, "BLOCK 100 after the clock was ahead", connection, 100)
        last = passes(tally, "ids after the clock was ahead", connection, ahead)
        faults["ahead"] = 2 * STEP
        further = connection.call("XADD", "t", "*", "a", "b")
        far = moment(further) - moment(last)
        tally.holds(f"an id {far} milliseconds further ahead", STEP * 500 < far < STEP * 1000 + 1_000)


def run(tally, program, way):
    with tempfile.TemporaryDirectory() as folder:
        faults = Faults(folder)
        for part in (passing, lasting, ending, threadless, set_back, set_ahead):
            faults.reset()
            tally.play(part, faults, program, way)


def main():
    if len(sys.argv) < 2:
        sys.exit(__doc__.split("\n\n")[1])
    program, *words = sys.argv[1:]
    return max([judged(f"faults, {way}", SECONDS, lambda tally: run(tally, program, way)) for way in servers.ways_of(words)])


if __name__ == "__main__":
    sys.exit(main())
