#!/usr/bin/env python3
"""Makes the same group in sr_server and in a Redis, and has RECOVER.PLAN and `sr_recover plan --check` plan for it.

usage: tests/server_live.py [GROUPS [SEED]]

The programs are those of the environment variables SR_SERVER and SR_RECOVER, or crates/*/out/. Both have to reply the
same bytes: the plan with its prices, or the shortage. If crates/plan_check/out/plan_check is there (or PLAN_CHECK), it
has to find each reply right, for the problem that sr_recover prints before it. Prints what differs, and one last line;
the status is 1 if anything does. It needs redis-server, and is skipped where a program is missing.
"""

import os
import random
import subprocess
import sys
import tempfile

from lib import recover, servers
from lib.live import all_replies
from lib.resp import text_of_reply
from live import History

GROUPS, SEED, SECONDS = 60, 1, 60


def program(name):
    """The path of a program, or None if it is not there."""
    path = os.environ.get(name.upper(), os.path.join(recover.ROOT, "crates", name, "out", name))
    return path if os.access(path, os.X_OK) else None


def replied(connection, history):
    """The bytes of the reply to RECOVER.PLAN."""
    connection.send("RECOVER.PLAN", history.key, history.group, "DEAD", *history.dead)
    return text_of_reply(connection.file)


def checked(checker, text, wanted):
    """What is wrong with what plan_check says of a problem and its reply."""
    found = subprocess.run([checker], input=text, capture_output=True, timeout=SECONDS, check=False)
    if found.returncode or not found.stdout.startswith(wanted):
        yield f"plan_check says {found.stdout} of {text}"


def faults_of(history, server, redis, checker):
    """What is wrong with the replies to one group."""
    setting = list(history.setting())
    policy = recover.policy_text(history.lives)
    with tempfile.NamedTemporaryFile("w", suffix=".toml") as file:
        file.write(policy)
        file.flush()
        with servers.Server(server, policy=file.name) as started, started.connect() as connection:
            all_replies(connection, setting)
            reply = replied(connection, history)
    all_replies(redis, [["FLUSHALL"], *setting])
    names = [history.key, history.group, *history.dead]
    ended = recover.run(redis.socket.getpeername()[1], policy, "plan", names, "--check")
    is_plan = reply.startswith(b"*5\r\n$4\r\nplan\r\n")
    if ended.status != (0 if is_plan else 3) or ended.out.partition(b"reply\n")[2] != reply:
        yield f"{policy}\n{setting}\nsr_server: {reply}\nsr_recover: {ended}"
    elif checker:
        yield from checked(checker, ended.out, b"cheapest" if is_plan else b"impossible")


def main():
    groups, seed = (list(map(int, sys.argv[1:])) + [GROUPS, SEED][len(sys.argv) - 1 :])[:2]
    server, checker = program("sr_server"), program("plan_check")
    if not program("sr_recover") or not server:
        print("server_live: skipped, since sr_server or sr_recover is not built")
        return 0
    if not servers.Redis.installed():
        sys.exit("redis-server is not installed (Debian: redis-server)")
    wrong = 0
    with servers.Redis() as redis, redis.connect() as connection:
        for number in range(1, groups + 1):
            faults = list(faults_of(History(random.Random(seed * 10**9 + number)), server, connection, checker))
            wrong += bool(faults)
            print(*faults, sep="\n", end="\n" * bool(faults), flush=True)
    print(f"server_live: {groups} groups{'' if checker else ', without plan_check'}, {wrong} wrong")
    return 1 if wrong else 0


if __name__ == "__main__":
    sys.exit(main())
