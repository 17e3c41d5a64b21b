"""Sends the same random commands to sr_server and to a Redis server, and prints the replies that differ.

usage: compare.py SR_SERVER [ROUNDS [SEED]]

It starts `redis-server` (Debian: redis-server) on a socket of its own. Each round has 40 commands on two keys, of which the first
exists from the start. Replies count as the same if both are errors, both are empty lists of either kind, or both are ids that the
clock gave, since the texts of errors and the moments are each server's own, and if idle times are both short or both long. Commands whose replies differ by decision
(docs/DECISIONS.md) are left out: `~`, an option given twice, numbers with a leading zero and `-0`, ids that begin with a sign or
a space, and XDEL and XACK of a bad id if the key or the group may be missing; IDLE and TIME below 0; the greatest COUNT of XAUTOCLAIM; `-` and
`+` as ids of XGROUP; the greatest id in XREADGROUP; and XINFO, which tells other things. A claim that claims nothing and a read that delivers nothing make their consumer
here and not in Redis, so those that claim and read are never made otherwise. The status is 1 if anything differs.
"""

import os
import random
import socket
import subprocess
import sys
import tempfile
import time

sys.path.insert(0, os.path.join(os.path.dirname(os.path.realpath(__file__)), "..", "tests"))
from lib.resp import spelled_all  # noqa: E402

LAST = 2**64 - 1
BAD_IDS = ["", "-", "+", "x", "1-", "-1", "1-1-1", f"{LAST + 1}", f"1-{LAST + 1}", "(", "(1", "((1-1", "*", "1-*", "*-1", "$", ">",
           "1 ", "0-0", "0", "(-", "(+", "(0-0", f"({LAST}-{LAST}"]
NUMBERS = ["0", "1", "2", "3", "5", "100", "-1", "x", "", "1.5", f"{2**63 - 1}", f"{2**63}", f"-{2**63}", "1 "]
COUNTS = ["0", "1", "2", "5", "100", "x", ""]
LONG = 100_000  # milliseconds: longer than a round takes, and less than the time since a delivery at TIME 0 to 100
IDLES = ["0", "0", "0", f"{LONG}", "-1", "x", ""]
COMMANDS_A_ROUND = 40


def replies(text):
    """The replies that a text of RESP2 spells."""
    lines = iter(text.split(b"\r\n"))

    def reply():
        line = next(lines).decode()
        kind, rest = line[0], line[1:]
        if kind == "*":
            return [reply() for _ in range(max(int(rest), 0))]
        if kind == "$":
            return None if rest == "-1" else comparable(next(lines).decode())
        return "error" if kind == "-" else line

    return [reply() for _ in range(COMMANDS_A_ROUND)]


def comparable(text):
    """A text, or `now` for an id of the clock."""
    milliseconds = text.partition("-")[0]
    return "now" if milliseconds.isdigit() and 10**12 < int(milliseconds) < 10**15 else text


def without_idle(words, reply):
    """A reply in which the idle times of XPENDING count as the same if they are of about the same length."""
    if words[0].upper() != "XPENDING" or not isinstance(reply, list):
        return reply
    return [[*row[:2], int(row[2][1:]) < LONG, row[3]] if isinstance(row, list) and len(row) == 4 else row for row in reply]


def replies_of_ours(program, commands):
    run = subprocess.run([program, "--stdio"], input=spelled_all(commands), capture_output=True, check=False)
    return replies(run.stdout)


def replies_of_redis(path, commands):
    with socket.socket(socket.AF_UNIX) as connection:
        connection.connect(path)
        connection.sendall(spelled_all([["FLUSHALL"], *commands, ["QUIT"]]))
        text = b"".join(iter(lambda: connection.recv(1 << 16), b""))
    return replies(text.removeprefix(b"+OK\r\n"))


class Commands:
    """Random commands: right ones, wrong ones, and ones at the limits."""

    def __init__(self, seed):
        self.random = random.Random(seed)

    def likely(self, chance):
        return self.random.random() < chance

    def in_some_case(self, word):
        return word if self.likely(0.8) else "".join(self.random.choice([c, c.lower()]) for c in word)

    def id(self, bad=0.1):
        if self.likely(bad):
            return self.random.choice(BAD_IDS)
        milliseconds = self.random.choice([0, LAST - 1, LAST]) if self.likely(0.05) else self.random.randrange(12)
        sequence = self.random.choice([0, LAST - 1, LAST]) if self.likely(0.15) else self.random.randrange(4)
        return f"{milliseconds}" if self.likely(0.25) else f"{milliseconds}-{sequence}"

    def number(self):
        return self.random.choice(NUMBERS) if self.likely(0.25) else f"{self.random.randrange(6)}"

    def trim(self):
        kind = self.random.choice(["MAXLEN", "MINID"])
        sign = ["="] if self.likely(0.3) else []
        limit = ["LIMIT", self.number()] if self.likely(0.1) else []
        return [self.in_some_case(kind), *sign, self.number() if kind == "MAXLEN" else self.id(), *limit]

    def add(self, key):
        option = [self.in_some_case("NOMKSTREAM")] if self.likely(0.15) else []
        trim = self.trim() if self.likely(0.25) else []
        entry_id = f"{self.random.randrange(14)}-*" if self.likely(0.2) else self.id(0.08)
        fields = ["f", "v"] * self.random.choice([1, 1, 1, 2])
        return [self.in_some_case("XADD"), key, *option, *trim, entry_id, *(fields[1:] if self.likely(0.05) else fields)]

    def range(self, key):
        count = [self.in_some_case("COUNT"), self.number()] if self.likely(0.35) else []
        return [self.in_some_case(self.random.choice(["XRANGE", "XREVRANGE"])), key, self.end(), self.end(), *count]

    def option(self, name, values=None):
        """An option with one of these values, or without one, or not at all."""
        if self.likely(0.7):
            return []
        return [self.in_some_case(name), *([] if values is None else [self.random.choice(values)])]

    def read(self):
        """XREAD of one key or of both."""
        keys = self.random.choice([["s"], ["t"], ["s", "t"], ["t", "s"]])
        places = ["$" if self.likely(0.1) else self.id() for _ in keys]
        return [self.in_some_case("XREAD"), *self.option("COUNT", NUMBERS), self.in_some_case("STREAMS"), *keys, *places[self.likely(0.05):]]

    def read_group(self):
        """XREADGROUP of one key or of both, its options in any order."""
        keys = self.random.choice([["s"], ["s"], ["t"], ["s", "t"], ["t", "s"]])
        places = [">" if self.likely(0.6) else self.random.choice(["0", "0", self.id()]) for _ in keys]
        places = ["0" if place == f"{LAST}-{LAST}" else place for place in places]
        options = [["GROUP", self.random.choice("gggh"), self.random.choice("RS")], self.option("COUNT", NUMBERS), self.option("NOACK")]
        self.random.shuffle(options)
        if self.likely(0.03):
            options.pop()
        return [self.in_some_case("XREADGROUP"), *sum(options, []), self.in_some_case("STREAMS"), *keys, *places[self.likely(0.05):]]

    def groups(self, key):
        """XGROUP in its five forms."""
        group, consumer = self.random.choice("ggh"), self.random.choice("AB")
        place = "$" if self.likely(0.3) else self.id().strip("-+") or "0"
        rest = self.random.choice([
            ["CREATE", key, group, place, *self.option("MKSTREAM")],
            ["CREATE", key, group, place, *self.option("MKSTREAM")],
            ["SETID", key, group, place],
            ["DESTROY", key, group],
            ["CREATECONSUMER", key, group, consumer],
            ["DELCONSUMER", key, group, self.random.choice("ARSC")],
            ["CREATE", key, group],
        ])
        return [self.in_some_case("XGROUP"), self.in_some_case(rest[0]), *rest[1:]]

    def pending(self, key):
        """What is done to the pending entries of a group."""
        group, consumer = self.random.choice("ggh"), self.random.choice("AB")
        ids = [self.id(0) for _ in range(self.random.randrange(1, 4))]
        consumer = self.random.choice("ARSC")
        listing = [*self.option("IDLE", IDLES), self.end(), self.end(), self.number(), *self.random.choice([[], [consumer]])]
        claim = [group, "C", self.random.choice(IDLES)]
        return self.random.choice([
            ["XACK", key, group, *ids],
            ["XPENDING", key, group],
            ["XPENDING", key, group, *listing],
            ["XCLAIM", key, *claim, *ids, *self.option("IDLE", COUNTS), *self.option("TIME", COUNTS),
             *self.option("RETRYCOUNT", COUNTS), *self.option("JUSTID")],
            ["XAUTOCLAIM", key, *claim, self.end(), *self.option("COUNT", COUNTS), *self.option("JUSTID")],
        ])

    def end(self):
        if self.likely(0.25):
            return self.random.choice("-+")
        return "(" + self.id() if self.likely(0.25) else self.id()

    def one(self):
        key = self.random.choice(["s", "s", "s", "t"])
        others = [["PING"], ["PING", "a"], ["PING", "a", "b"], ["FOO"], ["XLEN", key, "x"], ["XGROUP"], ["XGROUP", "FOO", key]]
        makers = [
            (40, lambda: self.add(key)),
            (10, lambda: [self.in_some_case("XTRIM"), key, *self.trim()]),
            (10, lambda: ["XDEL", key, *(self.id(0.1 if key == "s" else 0) for _ in range(self.random.randrange(4)))]),
            (6, lambda: ["XLEN", key]),
            (31, lambda: self.range(key)),
            (10, lambda: self.read()),
            (12, lambda: self.groups(key)),
            (12, lambda: self.pending(key)),
            (20, lambda: self.read_group()),
            (3, lambda: self.random.choice(others)),
        ]
        weights, choices = zip(*makers)
        return self.random.choices(choices, weights)[0]()


def compare(program, path, seed):
    """How many replies of a round were the same, and how many of these were errors. Prints the first that differs."""
    commands = Commands(seed)
    sent = [["XADD", "s", "0-1", "f", "v"]] + [commands.one() for _ in range(COMMANDS_A_ROUND - 1)]
    same, errors = 0, 0
    for words, ours, theirs in zip(sent, replies_of_ours(program, sent), replies_of_redis(path, sent)):
        if without_idle(words, ours) != without_idle(words, theirs):
            print(f"round {seed}: {' '.join(words)}\n    sr_server {ours}\n    Redis     {theirs}")
            break
        same, errors = same + 1, errors + (ours == "error")
    return same, errors


def main():
    program = sys.argv[1]
    rounds, first = (int(word) for word in (sys.argv[2:] + ["1000", "0"][len(sys.argv) - 2:])[:2])
    with tempfile.TemporaryDirectory() as folder:
        path = os.path.join(folder, "redis")
        options = ["--port", "0", "--unixsocket", path, "--save", "", "--appendonly", "no", "--dir", folder]
        with subprocess.Popen(["redis-server", *options], stdout=subprocess.DEVNULL) as redis:
            try:
                while not os.path.exists(path):
                    if redis.poll() is not None:
                        sys.exit("redis-server ended before it listened")
                    time.sleep(0.05)
                counts = [compare(program, path, seed) for seed in range(first, first + rounds)]
            finally:
                redis.terminate()
    same, errors = (sum(column) for column in zip(*counts))
    print(f"{same:,} replies of {rounds * COMMANDS_A_ROUND:,} compared are the same, {errors:,} of them errors")
    return same < rounds * COMMANDS_A_ROUND


if __name__ == "__main__":
    sys.exit(main())
