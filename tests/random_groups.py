#!/usr/bin/env python3
"""Sends random commands of consumer groups to a server, and compares its replies with those of a plain model.

usage: tests/random_groups.py PROGRAM [NUMBER [SEED [SIZE]]]

The model is the one of model.py. PROGRAM is sr_server, or `redis-server` (Debian: redis-server), with which the model is compared where
the two agree: every consumer that reads or claims is made by a command of its own first, errors count as equal, and `~` and FORCE are
left out. NUMBER is 100,000 if not given, and the same SEED gives the same commands. Streams are led to be small and large by turns, or
to have SIZE entries: with some thousands lists are longer than one block of the server's.

Prints how many replies differ, and the first that does; the status is 1 if any does.
"""

import itertools
import os
import random
import sys

from lib import piped
from lib.model import Model, text_of
from lib.piped import LONG

NUMBER, SEED = 100_000, 1
CONSUMERS = "ABCDE"


class Commands:
    """Random commands for what a model holds, which is led to be small and large by turns, or of one size."""

    SIZES, STEPS = (3, 20, 150, 1_000), 4_000

    def __init__(self, model, seed, size=None):
        self.model, self.random, self.made = model, random.Random(seed), 0
        self.sizes = [size] if size else self.SIZES

    def likely(self, chance):
        return self.random.random() < chance

    def key(self):
        """Of these the last is never made, and nor is the last name of a group."""
        return self.random.choice(45 * "s" + 4 * "t" + "u")

    def name(self):
        return self.random.choice(33 * "g" + 16 * "h" + "i")

    def consumer(self):
        return self.random.choice("AAAAAAAAAABBBBCCCDDE")

    def few(self, most=20):
        return f"{self.random.randint(1, most)}"

    def id(self, key):
        """An id near those of the stream, now and then without its sequence number."""
        stream = self.model.stream(key)
        first = next(iter(stream.entries), stream.last)[0]
        milliseconds = self.random.randint(max(1, first - 3), stream.last[0] + 1)
        return f"{milliseconds}" if self.likely(0.1) else f"{milliseconds}-{self.random.randrange(3)}"

    def pending_ids(self, key, name):
        """Some ids that are pending in a group, a run of them or from all over, and now and then others."""
        group = self.model.group(key, name)
        ids = list(group.pending) if group else []
        if not ids or self.likely(0.1):
            return [self.id(key) for _ in range(self.random.randint(1, 4))]
        number = self.random.randint(1, min(12, len(ids)))
        if self.likely(0.6):
            place = self.random.randrange(len(ids) - number + 1)
            some = sorted(ids)[place : place + number]
        else:
            some = self.random.choices(ids, k=number)
        return [text_of(entry_id).decode() for entry_id in some]

    def option(self, chance, *words):
        return list(words) if self.likely(chance) else []

    def trim(self, key):
        """A trim that takes a few entries, or many while the stream is to shrink."""
        entries = list(self.model.stream(key).entries)
        going = self.random.randint(-2, 8 if len(entries) <= self.size else len(entries) // 3 + 8)
        sign = self.option(0.2, "=")
        if self.likely(0.5):
            return ["MAXLEN", *sign, f"{max(0, len(entries) - going)}"]
        return ["MINID", *sign, text_of(entries[going]).decode() if 0 <= going < len(entries) else self.id(key)]

    def limited(self, trim):
        """The same with a limit."""
        return [trim[0], "~", trim[-1], *self.option(0.7, "LIMIT", f"{self.random.randrange(10)}")]

    def add(self, key):
        milliseconds, sequence = self.model.stream(key).last
        stays = self.likely(0.5) and sequence < 2
        next_id = f"{milliseconds}-{sequence + 1}" if stays else f"{milliseconds + 1}-{self.random.randrange(2)}"
        place = self.random.choice([self.id(key), "0-0"]) if self.likely(0.03) else next_id
        trim = self.trim(key) if self.likely(0.02) else []
        return ["XADD", key, *self.option(1 if key == "u" else 0.05, "NOMKSTREAM"), *trim, place, "f", f"v{self.made}"]

    def remove(self, key):
        if self.likely(0.7):
            return ["XDEL", key, *(self.id(key) for _ in range(self.random.randint(1, 3)))]
        trim = self.trim(key)
        return ["XTRIM", key, *(self.limited(trim) if self.likely(0.4) else trim)]

    def look(self, key):
        ends = self.ends(key)
        count = self.option(0.97, "COUNT", self.few())
        return self.random.choice([["XLEN", key], ["XRANGE", key, *ends, *count], ["XREVRANGE", key, *ends[::-1], *count]])

    def ends(self, key):
        """The start and the end of a range."""
        start, end = (self.random.choice(["", "", "("]) + self.id(key) for _ in range(2))
        return self.random.choice([["-", "+"], [start, "+"], ["-", end], [start, end]])

    def read(self, key):
        places = {key: self.random.choice([">", ">", ">", "0", self.id(key)])}
        if self.likely(0.05):
            places["t" if key == "s" else "s"] = ">"
        options = [*self.option(0.98, "COUNT", self.few(40)), *self.option(0.03, "NOACK")]
        return ["XREADGROUP", "GROUP", self.name(), self.consumer(), *options, "STREAMS", *places, *places.values()]

    def acknowledge(self, key):
        name = self.name()
        return ["XACK", key, name, *self.pending_ids(key, name)]

    def pending(self, key):
        if self.likely(0.3):
            return ["XPENDING", key, self.name()]
        least = self.option(0.3, "IDLE", self.random.choice(["0", f"{LONG}"]))
        count = self.random.choice(["0", "-1", "10", self.few(), self.few(2000 if self.likely(0.05) else 5)])
        return ["XPENDING", key, self.name(), *least, *self.ends(key), count, *self.option(0.4, self.random.choice(CONSUMERS + "Z"))]

    def claim(self, key):
        name, least = self.name(), self.random.choice(["0", "0", "0", f"{LONG}"])
        times = self.random.choice([[], [], ["IDLE", "0"], ["IDLE", f"{LONG}"], ["TIME", "0"]])
        count = self.option(0.2, "RETRYCOUNT", f"{self.random.randrange(5)}")
        flags = [*self.option(0.3, "JUSTID"), *self.option(0.02, "FORCE")]
        return ["XCLAIM", key, name, self.consumer(), least, *self.pending_ids(key, name), *times, *count, *flags]

    def claim_next(self, key):
        name, least = self.name(), self.random.choice(["0", "0", f"{LONG}"])
        start = self.random.choice(["-", "0-0", self.id(key), "(" + self.id(key), *self.pending_ids(key, name)])
        count = self.option(0.9, "COUNT", self.few(8))
        return ["XAUTOCLAIM", key, name, self.consumer(), least, start, *count, *self.option(0.3, "JUSTID")]

    def change_group(self, key):
        name, place = self.name(), self.random.choice(["0", "$", self.id(key)])
        if not self.model.group(key, name) and self.likely(0.7):
            return ["XGROUP", "CREATE", key, name if name < "i" else "h", place, *self.option(0 if key == "u" else 0.8, "MKSTREAM")]
        return ["XGROUP", *self.random.choices([
            ["CREATE", key, name if name < "i" else "h", place],
            ["SETID", key, name, place],
            ["DESTROY", key, self.random.choice("ghi") if key == "t" else "i"],
            ["CREATECONSUMER", key, name, self.random.choice(CONSUMERS + "F")],
            ["DELCONSUMER", key, name, self.random.choice(CONSUMERS + "F")],
        ], [4, 8, 2, 4, 1])[0]]

    def inform(self, key):
        return ["XINFO", *self.random.choice([["GROUPS", key], ["CONSUMERS", key, self.name()]])]

    # How likely each kind of command is while the stream is to grow, and while it is to shrink.
    MAKERS = (add, remove, look, read, acknowledge, pending, claim, claim_next, change_group, inform)
    GROWING = list(itertools.accumulate([48, 2, 8, 15, 2, 8, 6, 5, 3, 3]))
    SHRINKING = list(itertools.accumulate([10, 10, 8, 10, 18, 15, 12, 9, 4, 4]))

    def one(self):
        if self.made % self.STEPS == 0:
            self.size = self.random.choice(self.sizes)
        self.made += 1
        key = self.key()
        grows = len(self.model.stream(key).entries) < self.size
        return self.random.choices(self.MAKERS, cum_weights=self.GROWING if grows else self.SHRINKING)[0](self, key)


def is_of_redis(words):
    """Whether a command means the same to a Redis server."""
    return "~" not in words and "FORCE" not in words


def with_consumer(words):
    """A command, and before it the one that makes its consumer."""
    if words[0] == "XREADGROUP":
        keys = words[words.index("STREAMS") + 1 :]
        return [["XGROUP", "CREATECONSUMER", key, *words[2:4]] for key in keys[: len(keys) // 2]] + [words]
    if words[0] in ("XCLAIM", "XAUTOCLAIM"):
        return [["XGROUP", "CREATECONSUMER", *words[1:4]], words]
    return [words]


def made(number, seed, size, for_redis):
    """Commands, and the replies of the model."""
    model, commands, wanted = Model(), [], []
    choice = Commands(model, seed, size)
    while len(commands) < number:
        words = choice.one()
        for each in with_consumer(words) if for_redis else [words]:
            if not for_redis or is_of_redis(each):
                commands.append(each)
                wanted.append(model.reply(each))
    return commands, wanted


def any_error(reply):
    return "error" if isinstance(reply, str) else reply


def main():
    if not 2 <= len(sys.argv) <= 5:
        sys.exit(__doc__.split("\n\n")[1])
    program, number, seed, size = (sys.argv[1:] + [NUMBER, SEED, 0][len(sys.argv) - 2 :])[:4]
    for_redis = os.path.basename(program) == "redis-server"
    commands, wanted = made(int(number), int(seed), int(size), for_redis)
    replies = piped.replies_of_redis(commands) if for_redis else piped.replies_of(program, commands)
    replies = list(map(piped.without_clock, commands, replies))
    if for_redis:
        wanted, replies = list(map(any_error, wanted)), list(map(any_error, replies))
    return piped.compared("random_groups", commands, wanted, replies)


if __name__ == "__main__":
    sys.exit(main())
