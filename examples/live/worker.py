#!/usr/bin/env python3
"""A worker of a queue of jobs in Redis.

usage: worker.py PORT NAME [JOBS]

It does the jobs that are pending for it, recovered ones among them, then new ones, and ends when there are none. With
JOBS it takes twelve at once, does only this many, and then says so and hangs, as a worker may.
"""

import os
import sys
import time

sys.path.insert(0, os.path.join(os.path.dirname(os.path.realpath(__file__)), "..", "..", "tests"))
from lib.servers import Connection  # noqa: E402

ALL = 12


def entries(jobs, name, start, count):
    """The next jobs: those that are pending for the worker if `start` is 0, and new ones if it is `>`."""
    streams = jobs.call("XREADGROUP", "GROUP", "render", name, "COUNT", count, "STREAMS", "jobs", start)
    return streams[0][1] if streams else []


def work(jobs, name):
    """Does jobs until there are none. How many it did."""
    done = 0
    for start in ("0", ">"):
        while found := entries(jobs, name, start, 2):
            done += sum(jobs.call("XACK", "jobs", "render", entry) for entry, _ in found)
    return done


def main(port, name, number=None):
    with Connection(int(port)) as jobs:
        if number is None:
            print(f"{name} did {work(jobs, name)} jobs")
            return
        for entry, _ in entries(jobs, name, ">", ALL)[: int(number)]:
            jobs.call("XACK", "jobs", "render", entry)
        print(f"{name} did {number} jobs of {ALL}, and hangs", flush=True)
        time.sleep(3600)


if __name__ == "__main__":
    if len(sys.argv) not in (3, 4):
        sys.exit(__doc__)
    main(*sys.argv[1:])
