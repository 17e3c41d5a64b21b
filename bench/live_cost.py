#!/usr/bin/env python3
"""What runs of two sr_recover programs cost a Redis of its own, side by side, and how often they are done in a busy group.

usage: bench/live_cost.py BEFORE AFTER [RUNS]

Prints a table in Markdown with a row for each group below: how the runs ended, how many calls Redis was sent, how much
of its processor's time they took (INFO, used_cpu_user), and how long the longest script took (commandstats), while
which nobody else is served. `until none is left` is one run with --all, if the program has it, or else one after
another with --at-most 4096. In a busy group 8 workers add, read and acknowledge without pause, at most two entries at a
time; the limits of its consumers are half as much again as is needed, and a run, of which there are RUNS (100 without
it), has three tries, and --spare 2 if the program has that.
It needs redis-server.
"""

import collections
import os
import random
import sys

sys.path.insert(0, os.path.join(os.path.dirname(os.path.realpath(__file__)), "..", "tests"))
sys.path.insert(0, os.path.dirname(os.path.realpath(__file__)))
from lib import recover, recover_busy, servers  # noqa: E402
from lib.live import Live, Script, all_replies  # noqa: E402
from lib.recover_rows import pending_for  # noqa: E402
from live import Group  # noqa: E402

RUNS, WORKERS, TRIES = 100, 8, 3
MIB = 1 << 20
LIVES = [Live(b"A", 10**9, None, {b"x": 1}), Live(b"B", 10**9, None, {b"x": 2})]
NAMES = ["s", "g", "D"]

Cost = collections.namedtuple("Cost", "ended calls millis script")


def entries(number, *fields):
    """Entries of these fields, which are pending for D."""
    yield ["XGROUP", "CREATE", "s", "g", 0, "MKSTREAM"]
    yield from (["XADD", "s", f"{at}-1", "c", "x", *fields] for at in range(1, number + 1))
    yield ["XCLAIM", "s", "g", "D", 0, *(f"{at}-1" for at in range(1, number + 1)), "FORCE", "JUSTID"]


def gone(number):
    """One entry behind so many that are gone."""
    yield from pending_for({"D": range(1, number + 2)}, number + 1)
    yield ["XTRIM", "s", "MAXLEN", 1]


def leftover(number):
    """Ten entries beside so many consumers."""
    yield from pending_for({"D": range(1, 11)}, 10)
    yield from (["XGROUP", "CREATECONSUMER", "s", "g", f"old{at}"] for at in range(number))


def many_fields(number):
    return [word for at in range(number - 1) for word in (f"f{at}", "v")]


ROWS = [
    ("plan --at-most 10 of 5,000", lambda: pending_for({"D": range(1, 5001)}, 5000), "plan", ["--at-most", 10]),
    ("until none of 50,000 is left", lambda: pending_for({"D": range(1, 50_001)}, 50_000), "run", None),
    ("run --at-most 4096 of 150,000", lambda: pending_for({"D": range(1, 150_001)}, 150_000), "run", ["--at-most", 4096]),
    ("run with 33 entries of 2.1 MiB", lambda: entries(33, "v", "v" * (21 * MIB // 10)), "run", []),
    ("run with 64 entries of 1 MiB", lambda: entries(64, "v", "v" * MIB), "run", []),
    ("run with 4,096 entries of 64 fields", lambda: entries(4096, *many_fields(64)), "run", []),
    ("run with 4,096 small entries", lambda: entries(4096), "run", []),
    ("run --at-most 1 behind 50,000 gone ones", lambda: gone(50_000), "run", ["--at-most", 1]),
    ("run with ten entries beside 10,000 consumers", lambda: leftover(10_000), "run", []),
]


def told(connection, section):
    text = connection.call("INFO", section).decode()
    return dict(line.split(":", 1) for line in text.split("\r\n") if ":" in line)


def statistics_of(connection):
    """How many calls there were, and how long the longest script took at most, in milliseconds."""
    stats = {name: dict(part.split("=") for part in text.split(",")) for name, text in told(connection, "commandstats").items()}
    scripts = [float(own["usec_per_call"]) / 1000 for name, own in stats.items() if name.startswith("cmdstat_eval")]
    inside = ("cmdstat_config", "cmdstat_info", "cmdstat_client", "cmdstat_script")
    return sum(int(own["calls"]) for name, own in stats.items() if not name.startswith(inside)), max(scripts, default=0)


def has(program, option):
    """Whether a program has an option."""
    return option in recover.ended([program, "run", "--help"]).out


def runs_of(action, options):
    """The options of each run, one after another."""
    if options is not None:
        return [options]
    return [["--all"]] if has(recover.PROGRAM, b"--all") else [["--at-most", 4096]] * 13


def cost_of(program, setting, action, options):
    """What a program costs."""
    recover.PROGRAM = program
    with servers.Redis() as server, server.connect(300) as connection:
        all_replies(connection, setting())
        Script(connection)
        connection.call("CONFIG", "RESETSTAT")
        before = float(told(connection, "cpu")["used_cpu_user"])
        policy = recover.policy_text(LIVES)
        ended = [recover.run(server.port, policy, action, NAMES, "--timeout", 60_000, *own) for own in runs_of(action, options)]
        after = float(told(connection, "cpu")["used_cpu_user"])
        calls, script = statistics_of(connection)
    failed = [found.errors.decode().strip() or f"status {found.status}" for found in ended if found.status]
    return Cost(failed[0] if failed else "done", calls, (after - before) * 1000, script)


def is_done(program, server, group, tries=TRIES):
    recover.PROGRAM = program
    spare = ["--spare", recover_busy.MOST_READ] if has(program, b"--spare") else []
    options = ["--tries", tries, "--timeout", 60_000, *spare]
    return recover.run(server.port, recover.policy_text(group.lives), "run", NAMES, *options).status == 0


def busy(programs, number, runs):
    """How many of the runs in a busy group are done, of each of the programs, by turns."""
    group = Group(random.Random(7), number, WORKERS, 0, 0)
    done = collections.Counter()
    with servers.Redis() as server, server.connect(120) as connection:
        all_replies(connection, group.commands())
        with recover_busy.Clients(server.port, group.lives):
            for _ in range(runs):
                for program in programs:
                    done[program] += is_done(program, server, group)
                    recover_busy.give_back(connection, group)
    return [done[program] for program in programs]


def main():
    if len(sys.argv) not in (3, 4):
        sys.exit(__doc__)
    if not servers.Redis.installed():
        sys.exit("bench/live_cost.py: redis-server is not installed (Debian: redis-server)")
    programs = [os.path.abspath(path) for path in sys.argv[1:3]]
    runs = int(sys.argv[3]) if len(sys.argv) == 4 else RUNS
    servers.stop_when_ended()
    print("| Group | Before | After | Calls | | Redis's processor, ms | | Longest script, ms | |")
    print("|---|---|---|---:|---:|---:|---:|---:|---:|")
    for name, setting, action, options in ROWS:
        costs = [cost_of(program, setting, action, options) for program in programs]
        cells = [*(one.ended for one in costs), *(f"{one.calls:,}" for one in costs)]
        cells += [f"{one.millis:.0f}" for one in costs] + [f"{one.script:.1f}" for one in costs]
        print("|", " | ".join([name, *cells]), "|", flush=True)
    for number in (300, 1000):
        counts = [f"{count} of {runs} done" for count in busy(programs, number, runs)]
        print("|", " | ".join([f"a busy group, {number} stranded", *counts, *[""] * 6]), "|", flush=True)


if __name__ == "__main__":
    main()
