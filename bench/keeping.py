#!/usr/bin/env python3
"""What checkpoints do to memory, page faults, throughput and the longest wait: python3 bench/keeping.py PROGRAM [SECONDS]

Each server gets pipelined PINGs from LOADERS connections for SECONDS (default 30), without --keep and with each of KEPT. Another connection
sends a PING every millisecond. Prints, for each: requests a second; resident memory after a third of the time and at the end; page faults a
request in the last third; and the three longest waits of the other connection. The load is sent from this machine, by this program.
"""
import os
import sys
import threading
import time

sys.path.insert(0, os.path.join(os.path.dirname(os.path.realpath(__file__)), "..", "tests"))
from lib import servers  # noqa: E402
from lib.resp import spelled  # noqa: E402

LOADERS = 3
DEPTH = 1_000  # requests that a loader sends at a time
KEPT = None, 1_000, 100_000, 1_000_000
PONG = b"+PONG\r\n"


def load(server, until, counts, number):
    """Sends pipelines of PINGs, and counts them."""
    pings, pongs = spelled("PING") * DEPTH, len(PONG) * DEPTH
    with server.connect() as connection:
        while time.monotonic() < until:
            connection.socket.sendall(pings)
            connection.file.read(pongs)
            counts[number] += DEPTH


def wait(server, until, waits):
    """Sends a PING every millisecond, and notes how long each answer took."""
    ping = spelled("PING")
    with server.connect() as connection:
        while time.monotonic() < until:
            began = time.monotonic()
            connection.socket.sendall(ping)
            connection.file.read(len(PONG))
            waits.append(time.monotonic() - began)
            time.sleep(0.001)


def faults(server):
    """How many pages the server was given so far."""
    with open(f"/proc/{server.process.pid}/stat", encoding="ascii") as stat:
        return int(stat.read().rpartition(")")[2].split()[7])


def measure(program, keep, seconds):
    counts, waits = [0] * LOADERS, []
    with servers.Server(program, workers=8, keep=keep) as server:
        began = time.monotonic()
        until = began + seconds
        threads = [threading.Thread(target=load, args=(server, until, counts, number)) for number in range(LOADERS)]
        threads.append(threading.Thread(target=wait, args=(server, until, waits)))
        for thread in threads:
            thread.start()
        time.sleep(seconds / 3)
        early = server.memory()
        time.sleep(seconds / 3)
        before, done = faults(server), sum(counts)
        time.sleep(seconds / 3 - 0.2)
        late, more, asked = server.memory(), faults(server) - before, sum(counts) - done
        for thread in threads:
            thread.join()
    longest = ", ".join(f"{1000 * taken:.1f}" for taken in sorted(waits)[-3:])
    print(
        f"keep {keep}: {sum(counts) / seconds:,.0f} a second; {early >> 20:,} and {late >> 20:,} MiB; "
        f"{more / max(asked, 1):.3f} page faults a request; longest waits {longest} ms of {len(waits):,}",
        flush=True,
    )


def main(program, seconds=30):
    for keep in KEPT:
        measure(program, keep, float(seconds))


if __name__ == "__main__":
    if len(sys.argv) not in (2, 3):
        sys.exit(__doc__)
    main(*sys.argv[1:])
