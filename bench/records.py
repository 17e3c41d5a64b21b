#!/usr/bin/env python3
"""Tells what a record of the book takes: python3 bench/records.py PROGRAM [OTHER]

Sends PROGRAM --stdio the same command many times, and prints by how many bytes its resident memory grew for each, and the
processor time of each. With OTHER, a server that keeps no records, by turns with it: the difference is what the records take. What an XADD
takes more than one that keeps one entry is the entry.
"""
import os
import subprocess
import sys
import threading
import time

sys.path.insert(0, os.path.join(os.path.dirname(os.path.realpath(__file__)), "..", "tests"))
from lib.resp import spelled  # noqa: E402

MANY = 1_000_000
RUNS = 3
TICK = os.sysconf("SC_CLK_TCK")


def resident(process):
    """The resident bytes of a process."""
    with open(f"/proc/{process.pid}/status") as status:
        for line in status:
            if line.startswith("VmRSS:"):
                return int(line.split()[1]) * 1024
    raise RuntimeError("no VmRSS")


def processor(process):
    """The seconds of processor time that a process took."""
    with open(f"/proc/{process.pid}/stat") as stat:
        fields = stat.read().rsplit(")", 1)[1].split()
    return (int(fields[11]) + int(fields[12])) / TICK


def drained(stream, lines):
    """Reads so many lines."""
    left = lines
    while left > 0:
        piece = os.read(stream.fileno(), 1 << 20)
        if not piece:
            raise RuntimeError("the server ended")
        left -= piece.count(b"\n")


def measured(program, command, lines):
    """What many of a command take: bytes and microseconds each. Each is answered by so many lines."""
    with subprocess.Popen([program, "--stdio"], stdin=subprocess.PIPE, stdout=subprocess.PIPE, bufsize=0) as process:
        process.stdin.write(spelled(b"PING"))
        drained(process.stdout, 1)
        before, began = resident(process), processor(process)
        piece = spelled(*command) * 1000
        reader = threading.Thread(target=drained, args=(process.stdout, lines * MANY))
        reader.start()
        for _ in range(MANY // 1000):
            process.stdin.write(piece)
        reader.join()
        time.sleep(0.05)
        taken = (resident(process) - before) / MANY, (processor(process) - began) / MANY * 1e6
        process.stdin.close()
    return taken


def main():
    programs = sys.argv[1:]
    rows = (
        ("XADD s * f v", (b"XADD", b"s", b"*", b"f", b"v"), 2),
        ("XADD s MAXLEN 1 * f v", (b"XADD", b"s", b"MAXLEN", b"1", b"*", b"f", b"v"), 2),
        ("XLEN s", (b"XLEN", b"s"), 1),
        ("PING", (b"PING",), 1),
    )
    for name, command, lines in rows:
        best = [(float("inf"), float("inf"))] * len(programs)
        for _ in range(RUNS):
            for i, program in enumerate(programs):
                size, cost = measured(program, command, lines)
                best[i] = min(best[i][0], size), min(best[i][1], cost)
        cells = "   ".join(f"{size:7.1f} bytes {cost:6.3f} us" for size, cost in best)
        print(f"{name:21} {cells}")


main()
