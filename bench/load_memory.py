"""Rows of load.py on memory: what records, buffers, reads that wait and connections keep."""

import subprocess
import time

from lib import connections_kept, crowd, heavy, servers
from lib.connections_kept import filled
from lib.crowd import PING, PONG, Crowd
from lib.resp import spelled

MIB = 1 << 20
STEPS, STEP, AFTER = 3, 2, 10  # parts of a load, their seconds, and the seconds after it until memory is looked at again
LASTS, RESTS = 6, 2  # seconds of other loads, and after them
MOST = 1_500 * MIB  # at which a load is stopped, so that the machine does not run out
ENTRY, RANGE, JOB = 10_000, 1 << 20, 1 << 16  # bytes
READERS, TWICE, MANY = 50, 2, 110_000  # connections, MiB that each reads once, and PINGs that let go of what was recorded of it
WAITING, KEYS = 400, 900  # reads that wait, and the keys of each


def pipelined_pings(server, _):
    """Memory while one client pipelines PINGs."""
    found = {}
    with heavy.Flood(server, PING) as flood:
        for step in range(1, STEPS + 1):
            time.sleep(STEP)
            found[f"MiB after {step * STEP} s"] = server.memory() / MIB
        found["PINGs a second"] = flood.count() / len(PONG) / (STEPS * STEP)
    time.sleep(AFTER)
    found[f"MiB {AFTER} s after the end"] = server.memory() / MIB
    return found


def flooded(server, text):
    """The most memory that a server takes while a client pipelines a request, and that some time later."""
    most, until, worked = 0, time.monotonic() + LASTS, server.processor()
    with heavy.Flood(server, text):
        while time.monotonic() < until and most < MOST:
            time.sleep(0.05)
            most = max(most, server.memory())
    worked = server.processor() - worked
    time.sleep(RESTS)
    return {"MiB at most": most / MIB, f"MiB {RESTS} s after the end": server.memory() / MIB, "processor s": worked}


def large_entries(server, _):
    """Memory while one client pipelines XADDs of 10 KB with MAXLEN 100."""
    return flooded(server, spelled("XADD", "s", "MAXLEN", 100, "*", "f", b"v" * ENTRY))


def large_ranges(server, _):
    """Memory while one client pipelines XRANGEs of 1 MiB."""
    with server.connect() as maker:
        filled(maker)
    return flooded(server, spelled("XRANGE", "long", "-", "+"))


def large_jobs(server, _):
    """Memory while one client pipelines jobs of 64 KiB: XADD with MAXLEN 100 and XREADGROUP NOACK."""
    with server.connect() as maker:
        maker.call("XGROUP", "CREATE", "s", "g", "$", "MKSTREAM")
    read = spelled("XREADGROUP", "GROUP", "g", "c", "COUNT", 1, "NOACK", "STREAMS", "s", ">")
    return flooded(server, spelled("XADD", "s", "MAXLEN", 100, "*", "f", b"v" * JOB) + read)


def long_replies(server, _):
    """Memory after 50 connections that once read 2 MiB, once the records of it are let go."""
    with server.connect() as maker, Crowd(server, READERS) as readers:
        length, before = filled(maker), server.memory()
        for each in readers:
            heavy.exchange(each, spelled("XRANGE", "long", "-", "+") * TWICE, length * TWICE)
        heavy.exchange(maker.socket, PING * MANY, MANY * len(PONG))
        connections_kept.shrunk(server, before)
        return {"MiB more than before": (server.memory() - before) / MIB}


def waiting_reads(server, _):
    """Memory of reads that wait on 900 keys each, at `--unfinished` 16 MiB."""
    asked = spelled("XREAD", "BLOCK", 0, "STREAMS", *(f"key-{place}" for place in range(KEYS)), *["$"] * KEYS)
    with server.connect() as other, Crowd(server, WAITING) as readers:
        before = server.memory()
        for each in readers:
            try:
                each.sendall(asked)
            except ConnectionError:
                pass  # it is closed by what it sends
            crowd.pinged(other.socket)
        grown, waiting = server.memory() - before, WAITING - len(crowd.answered(readers.sockets, 0))
        held = grown / 1024 / max(waiting, 1)
        return {"reads that wait": waiting, "KiB as sent": len(asked) / 1024, "KiB held by one": held, "MiB": grown / MIB}


def keepalive(server, _):
    """Sockets of connected clients with a keepalive timer, of two."""
    with server.connect() as one, server.connect() as other:
        one.call("PING")
        other.call("PING")
        words = ["ss", "-tnoH", "state", "established", f"( sport = :{server.port} )"]
        text = subprocess.run(words, capture_output=True, text=True, timeout=servers.SECONDS, check=True).stdout
    return {"with a timer": text.count("keepalive")}
