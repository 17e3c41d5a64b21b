#!/usr/bin/env python3
"""A queue of jobs with redis-py (Debian: python3-redis).

usage: redis_py.py PORT

The server is `sr_server --listen 127.0.0.1:PORT --policy examples/policies/renderers.toml`, without a stream `jobs`.
"""

import sys
import threading

import redis

KINDS = ["image", "video", "image", "image", "video", "image"]


def connect(port):
    return redis.Redis(host="127.0.0.1", port=port, decode_responses=True)


def produce(port, kinds):
    jobs = connect(port)
    for number, kind in enumerate(kinds):
        jobs.xadd("jobs", {"kind": kind, "file": f"{number}.raw"})


def work(port, name, wanted):
    """Does the jobs that are pending for it, recovered ones among them, then new ones. Ends when that many are done."""
    jobs, done, start = connect(port), 0, "0"
    while done < wanted:
        reply = jobs.xreadgroup("render", name, {"jobs": start}, count=2, block=5000)
        entries = reply[0][1] if reply else []
        done += sum(jobs.xack("jobs", "render", entry) for entry, _ in entries)
        # its own pending entries until there are none, then new ones, and so on
        start = ">" if start == "0" and not entries else "0"
    return done


def work_while_jobs_come(port):
    producer = threading.Timer(0.2, produce, (port, KINDS))
    producer.start()
    assert work(port, "gpu", len(KINDS)) == len(KINDS)
    producer.join()


def claim(jobs, name):
    """Takes over one job of a worker that is gone."""
    _, entries = jobs.xautoclaim("jobs", "render", name, 0, "0-0", count=1)[:2]
    assert [jobs.xack("jobs", "render", entry) for entry, _ in entries] == [1]


def inspect(jobs):
    stream = jobs.xinfo_stream("jobs")
    assert (stream["length"], stream["groups"]) == (10, 1) and stream["first-entry"][1]["kind"] == "image"
    (group,) = jobs.xinfo_groups("jobs")
    assert (group["name"], group["consumers"], group["pending"]) == ("render", 3, 3)
    consumers = {it["name"]: it["pending"] for it in jobs.xinfo_consumers("jobs", "render")}
    assert consumers == {"cpu": 0, "gpu": 0, "old": 3}
    assert jobs.xpending("jobs", "render")["consumers"] == [{"name": "old", "pending": 3}]


def recover(jobs):
    plan = jobs.execute_command("RECOVER.PLAN", "jobs", "render", "DEAD", "old")
    done = jobs.execute_command("RECOVER.RUN", "jobs", "render", "DEAD", "old")
    assert (plan[0], done[0]) == ("plan", "done") and plan[1:] == done[1:] and len(done[2]) == 3
    assert jobs.execute_command("RECOVER.BOARD", "jobs", "render").startswith("consumer ")
    assert jobs.xpending_range("jobs", "render", "-", "+", 10, consumername="old") == []
    return done[1]


def refused(jobs, *words):
    try:
        jobs.execute_command(*words)
    except redis.ResponseError as error:
        return str(error)
    raise AssertionError(f"{words} was not refused")


def main(port):
    jobs = connect(port)
    assert jobs.ping() and jobs.xgroup_create("jobs", "render", "0", mkstream=True)
    work_while_jobs_come(port)
    print("a waiting worker did 6 jobs")
    produce(port, KINDS[:4])
    assert len(jobs.xreadgroup("render", "old", {"jobs": ">"})[0][1]) == 4
    claim(jobs, "cpu")
    print("of 4 jobs of a worker that is gone, one was claimed")
    inspect(jobs)
    print(f"the other 3 were recovered, at a cost of {recover(jobs)}")
    assert work(port, "gpu", 3) == 3 and jobs.xpending("jobs", "render")["pending"] == 0
    print("and finished by the worker that got them")
    print("refused:", refused(jobs, "XADD", "jobs"))
    print("refused:", refused(jobs, "NOSUCH"))
    with jobs.pipeline(transaction=False) as pipeline:
        for number in range(100):
            pipeline.xadd("jobs", {"kind": "image", "file": f"{number}.raw"})
        assert len(pipeline.execute()) == 100
    print(f"the same connection went on: {jobs.xlen('jobs')} jobs in all")


if __name__ == "__main__":
    if len(sys.argv) != 2:
        sys.exit(__doc__)
    main(int(sys.argv[1]))
