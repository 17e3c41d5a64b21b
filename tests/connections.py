#!/usr/bin/env python3
"""Has very many clients use one loop of a server: readers that wait, connections that come and go, slow ones, greedy ones, bounds, long and
cut streams of requests, and recoveries of a group that is used without pause.

usage: tests/connections.py PROGRAM [PART ..]

PROGRAM is sr_server, or `redis-server` (Debian: redis-server), with which those parts can be compared in which both do the same. PART is the
name of one in the table; all if none is named.

| Part | A wrong program that it catches |
|---|---|
| `readers_of_a_stream` | serves some readers of a stream alone; walks all of them for each event |
| `readers_of_a_group` | serves readers of a group in another order than that of blocking, or two of them by one entry |
| `readers_that_leave` | gives an entry to a reader that is gone |
| `each_of_many` | steps over all readers for each that is woken or goes |
| `left_before_served` | the same, if it goes away in the moment before the entry comes, while the server does something else, also for the client that adds it, and that has more to be read |
| `come_and_go` | keeps a descriptor or memory of a connection that is gone, in a request or while its read waits |
| `slow_clients` | waits for one client; writes all of a reply before it serves others |
| `beyond_limit` | closes a connection beyond the limit without a word, or serves it; never lets one in again |
| `come_again` | turns away a client that closes and connects again, since it accepts before it learns who has gone |
| `idle` | counts whole requests alone; closes a connection that waits, or just after it waited |
| `idle_bytes` | closes a client while it reads a long reply or sends a long request; never closes one that does not read |
| `idle_waiting` | never closes a connection whose read waits; leaves its read in the group; closes others by the same number |
| `unfinished` | closes others than who sends too much; counts on what is answered or gone |
| `after_a_wait` | keeps all that comes after a read that waits |
| `few_descriptors` | begins, and fails when connections come |
| `half_closed` | ends a connection that says no more, before its replies are written |
| `long_pipelines` | loses or repeats bytes after a write that came short |
| `long_replies` | answers all that one client asked for at once before it answers others |
| `cut` | reads a request otherwise that comes in two pieces, or byte by byte |
| `unread` | goes on to read of a client that does not read |
| `kept_pings` | lets go of fewer records than come, or sleeps while there are more to let go of |
| `kept_bytes`, `kept_by_default` | counts records, and not their bytes |
| `kept_put_off`, `kept_later` | lets go of no record while a client goes on with what it sent long ago; keeps the buffer that held that |
| `kept_records` | walks over all records that are kept for each request |
| `given_back` | keeps a buffer as long as the longest reply |
| `waiting_reads` | counts the bytes of a read that waits as they were sent, and not what it holds |
| `share` | goes on with a client that has asked for much after each event of another; or answers it only once nothing else is to be done |
| `adds_first` | stops to read of a client whose replies wait for it to read, before it has sent all |
| `letters_between` | hands on entries to readers that wait until no more come, before it looks at other clients |
| `busy_recoveries` | solves a small recovery beside the loop, so that it is stale |
| `half_closed_plan` | leaves a client that says no more while its plan is made |
| `in_turn` | begins or concludes all recoveries that are asked for before it looks at other clients |
| `left_before_planned` | gives a place for a plan to a client that has gone, and not to the next |

Prints each answer that differs, and how many there are; the status is 1 if one differs, or if a server ended or all took too long.
"""

import os
import sys
import tempfile
import time

from lib import connections_bounds as bounds
from lib import connections_idle as idles
from lib import connections_kept as kept
from lib import connections_load as load
from lib import connections_recovery as recovery
from lib import connections_share as shares
from lib import connections_streams as streams
from lib import connections_waiting as waiting
from lib import servers
from lib.tally import judged

SECONDS = 240  # for all of it, on a machine that does much else
MANY = 6_000  # connections, for most parts
KEPT = 1_000  # records
SLOW = 1_000  # connections of which most are slow
REDIS = {"idle": "--timeout"}  # options that Redis has too

# The parts, for how many connections their server is (without a number a part begins it), its options, and whether Redis does the same.
PARTS = [
    (waiting.readers_of_a_stream, MANY, {}, True),
    (waiting.readers_of_a_group, MANY, {}, True),
    (waiting.readers_that_leave, MANY, {}, False),
    (waiting.each_of_many, MANY, {}, True),
    (waiting.left_before_served, 10, {}, False),
    (load.come_and_go, MANY, {}, False),
    (load.slow_clients, SLOW, {}, True),
    (bounds.beyond_limit, bounds.LIMIT, {}, True),
    (bounds.come_again, bounds.LIMIT, {}, False),
    (idles.idle, MANY, {"idle": idles.IDLE}, False),
    (idles.idle_bytes, MANY, {"idle": idles.IDLE}, True),
    (idles.idle_waiting, MANY, {"idle-waiting": idles.IDLE}, False),
    (bounds.unfinished, MANY, {"unfinished": bounds.UNFINISHED}, False),
    (bounds.after_a_wait, MANY, {"unfinished": bounds.UNFINISHED}, False),
    (bounds.few_descriptors, None, {}, False),
    (streams.half_closed, MANY, {}, False),
    (streams.long_pipelines, MANY, {}, True),
    (streams.long_replies, MANY, {}, True),
    (streams.cut, MANY, {}, True),
    (streams.unread, MANY, {"unfinished": bounds.UNFINISHED}, False),
    (kept.kept_pings, MANY, {}, True),
    (kept.kept_bytes, MANY, {"keep": kept.MANY, "keep-bytes": kept.BYTES}, False),
    (kept.kept_by_default, MANY, {"keep": kept.MANY}, False),
    (kept.kept_put_off, MANY, {"keep": 1}, False),
    (kept.kept_later, None, {}, False),
    (kept.kept_records, MANY, {"keep": kept.MANY}, True),
    (kept.given_back, MANY, {}, True),
    (kept.waiting_reads, MANY, {"unfinished": bounds.UNFINISHED}, False),
    (shares.share, MANY, {}, False),
    (shares.adds_first, MANY, {}, True),
    (shares.letters_between, MANY, {}, False),
    (recovery.busy_recoveries, MANY, {}, False),
    (recovery.half_closed_plan, MANY, {}, False),
    (recovery.in_turn, MANY, {}, False),
    (recovery.left_before_planned, MANY, {}, False),
]


def play(tally, program, part, connections, policy, options):
    """Plays a part with a server of its own, if it wants one."""
    if connections is None:
        tally.play(part, program)
    elif is_redis(program):
        more = [word for name in REDIS if name in options for word in (REDIS[name], str(options[name]))]
        tally.serve(part, lambda: servers.Redis("--maxclients", str(connections), *more))
    else:
        options = {"connections": connections, "keep": KEPT, "policy": policy, **options}
        tally.serve(part, lambda: servers.Server(program, **options))


def is_redis(program):
    return os.path.basename(program) == "redis-server"


def run(tally, program, names):
    servers.raised_limit(MANY)
    with tempfile.NamedTemporaryFile("w", suffix=".toml") as policy:
        policy.write(recovery.policy())
        policy.flush()
        for part, connections, options, alike in PARTS:
            if (not names or part.__name__ in names) and (alike or not is_redis(program)):
                began, before = time.monotonic(), tally.differing
                play(tally, program, part, connections, policy.name, options)
                print(f"  {part.__name__}: {time.monotonic() - began:.1f} seconds{', differs' * (tally.differing > before)}", flush=True)


def main():
    program, *names = sys.argv[1:] or [None]
    if program is None or not set(names) <= {part.__name__ for part, *_ in PARTS}:
        sys.exit(__doc__.split("\n\n")[1])
    return judged("connections", SECONDS, lambda tally: run(tally, program, names))


if __name__ == "__main__":
    sys.exit(main())
