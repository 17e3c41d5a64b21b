#!/usr/bin/env python3
"""Sends the same commands to sr_server and to a Redis server over sockets, with readers that block, and prints what differs.

usage: compare_net.py SR_SERVER [ROUNDS [SEED [WAY]]]

sr_server serves by `workers` and then by `connections`, or by the WAY that is named. Both servers are started on the loopback interface (Debian: redis-server). In each round one connection makes random commands on two
streams with a group each, and four more read with BLOCK 0, each from then on until it is answered. After each command the replies
of the readers that were answered by it are compared, and which readers they are. Left out is what differs by decision
(docs/DECISIONS.md): XGROUP SETID, after which Redis leaves a reader waiting that has an answer, and an entry that is trimmed as it is
added. Errors count as the same, since their texts are each server's own. The status is 1 if anything differs.
"""

import os
import random
import select
import sys
import time

sys.path.insert(0, os.path.join(os.path.dirname(os.path.realpath(__file__)), "..", "tests"))
from lib import resp, servers  # noqa: E402

READERS = 4
STEPS = 30
SERVED = 64  # connections that sr_server serves at a time
BLOCKED = 0.004  # seconds after which a read has surely come to block
ANSWERED = 0.02  # and after which a reader that is answered has surely its reply


class Side:
    """One of the two servers, with a connection for commands and one for each reader."""

    def __init__(self, server):
        self.server = server
        self.maker = server.connect()
        self.readers = [server.connect() for _ in range(READERS)]

    def command(self, words):
        self.maker.send(*words)
        return comparable(self.maker.reply())

    def block(self, reader, words):
        self.readers[reader].send(*words)

    def answered(self, waiting):
        """The replies of those readers, of the ones that wait, that have one."""
        found = {}
        until = time.monotonic() + ANSWERED
        while len(found) < len(waiting) and time.monotonic() < until:
            sockets = {self.readers[reader].socket: reader for reader in waiting if reader not in found}
            ready, _, _ = select.select(list(sockets), [], [], max(0, until - time.monotonic()))
            for each in ready:
                found[sockets[each]] = comparable(self.readers[sockets[each]].reply())
        return found

    def close(self):
        for connection in [self.maker, *self.readers]:
            connection.close()


def comparable(reply):
    """A reply without the text of an error."""
    if isinstance(reply, resp.ErrorReply):
        return "error"
    return [comparable(part) for part in reply] if isinstance(reply, list) else reply


class Round:
    """A random round on two streams of its own."""

    def __init__(self, seed):
        self.random = random.Random(seed)
        self.keys = [f"a{seed}", f"b{seed}"]
        self.last = 0

    def start(self):
        return [["XGROUP", "CREATE", key, "g", "$", "MKSTREAM"] for key in self.keys]

    def add(self):
        return self.add_to(self.random.choice(self.keys))

    def add_to(self, key):
        self.last += self.random.choice([1, 1, 1, 2])
        return ["XADD", key, f"{self.last}-{self.random.choice([0, 1, 5])}", "f", str(self.last)]

    def command(self):
        key = self.random.choice(self.keys)
        others = [
            ["XACK", key, "g", f"{self.last}-1", f"{self.last}-0"],
            ["XPENDING", key, "g"],
            ["XRANGE", key, "-", "+", "COUNT", "3"],
            ["XLEN", key],
            ["XDEL", key, f"{self.last}-1"],
            ["XREADGROUP", "GROUP", "g", "maker", "COUNT", "1", "STREAMS", key, ">"],
            ["XGROUP", "DESTROY", key, "g"],
            ["XGROUP", "CREATE", key, "g", "$"],
            ["XCLAIM", key, "g", "maker", "0", f"{self.last}-1"],
        ]
        return self.add() if self.random.random() < 0.5 else self.random.choice(others)

    def read(self, reader):
        keys = self.random.choice([[self.keys[0]], [self.keys[1]], self.keys])
        count = self.random.choice([[], ["COUNT", "1"]])
        if self.random.random() < 0.5:
            return ["XREAD", *count, "BLOCK", "0", "STREAMS", *keys, *["$" for _ in keys]]
        quiet = self.random.choice([[], ["NOACK"]])
        return ["XREADGROUP", "GROUP", "g", f"reader{reader}", *count, "BLOCK", "0", *quiet, "STREAMS", *keys, *[">" for _ in keys]]


def compare(servers, seed):
    """How many replies of a round were compared, and how many were the same."""
    sides, script = [Side(server) for server in servers], Round(seed)
    waiting, compared, same = set(), 0, 0

    def tell(what, ours, theirs):
        nonlocal compared, same
        compared, same = compared + 1, same + (ours == theirs)
        if ours != theirs:
            print(f"seed {seed}: {what}\n  ours  {ours}\n  Redis {theirs}")

    def collect(what):
        found = [side.answered(waiting) for side in sides]
        if found[0] or found[1]:
            tell(f"readers after {what}", *found)
        waiting.difference_update(found[0], found[1])

    try:
        for words in script.start():
            tell(words, *[side.command(words) for side in sides])
        for _ in range(STEPS):
            idle = [reader for reader in range(READERS) if reader not in waiting]
            if idle and script.random.random() < 0.6:
                reader = script.random.choice(idle)
                words = script.read(reader)
                for side in sides:
                    side.block(reader, words)
                time.sleep(BLOCKED)
                waiting.add(reader)
            else:
                words = script.command()
                tell(words, *[side.command(words) for side in sides])
            if waiting:
                collect(words)
        # a reader that still waits when it goes away would hold its worker for ever
        while waiting:
            for key in script.keys:
                words = script.add_to(key)
                tell(words, *[side.command(words) for side in sides])
                collect(words)
    finally:
        for side in sides:
            side.close()
    return compared, same


def main():
    if not 2 <= len(sys.argv) <= 5:
        sys.exit(__doc__)
    if not servers.Redis.installed():
        sys.exit("redis-server is not installed (Debian: redis-server)")
    rounds, first = (int(word) for word in (sys.argv[2:4] + ["50", "0"][len(sys.argv[2:4]):]))
    servers.stop_when_ended()
    differ = False
    for way in servers.ways_of(sys.argv[4:]):
        with servers.Server(sys.argv[1], **{way: SERVED}) as ours, servers.Redis() as theirs:
            counts = [compare([ours, theirs], seed) for seed in range(first, first + rounds)]
        compared, same = (sum(column) for column in zip(*counts))
        print(f"{way}: {same:,} of {compared:,} replies over sockets are the same, blocked readers among them")
        differ |= compared != same
    return differ


if __name__ == "__main__":
    sys.exit(main())
