#!/usr/bin/env python3
"""Sends random commands of streams to a server, and compares its replies with those of a plain model.

usage: tests/random_streams.py PROGRAM [NUMBER [SEED]]

The model is the one of model.py, which keeps each entry as it was added and goes through all of them. PROGRAM is sr_server, or `redis-server`
(Debian: redis-server), with which the model is compared where the two agree: `~` and a COUNT of 0 are left out. NUMBER is 100,000 if not given, and the same SEED
gives the same commands. The stream is led to be empty, and to have up to some 700 entries, so that it takes several blocks of the server's, of
which ids that lie far apart begin new ones, and long fields large ones.

Prints how many replies differ, and the first that does; the status is 1 if any does.
"""

import itertools
import os
import random
import sys

from lib import piped
from lib.model import Model, text_of

NUMBER, SEED = 100_000, 1
FAR = 2**32  # how far apart parts of ids may lie in one block
LENGTHS = (0, 1, 2, 5, 20, 253, 254, 255, 256, 1_000)  # of values; a length of 255 takes more than one byte


class Commands:
    """Random commands for what a model holds, which is led to be small and large by turns."""

    SIZES, STEPS = (0, 2, 130, 300, 700), 2_500

    def __init__(self, model, seed):
        self.model, self.random, self.made = model, random.Random(seed), 0

    def likely(self, chance):
        return self.random.random() < chance

    def ids(self):
        return list(self.model.stream("s").entries)

    def next_id(self):
        """An id above the last one: mostly near it, and now and then far from it in one part or the other."""
        milliseconds, sequence = self.model.stream("s").last
        return self.random.choices([
            (milliseconds, sequence + self.random.randint(1, 3)),
            (milliseconds + self.random.randint(1, 1_000), self.random.choice([0, 0, 1, sequence])),
            (milliseconds + self.random.choice([FAR - 1, FAR, FAR + 1, 5 * FAR]), 0),
            (milliseconds, sequence + self.random.choice([FAR - 1, FAR, FAR + 1, 5 * FAR])),
            (milliseconds + 1, self.random.choice([FAR - 1, FAR, 2**63, 2**64 - 1])),
        ], [60, 37, 1, 1, 1])[0]

    def add(self):
        milliseconds, sequence = self.next_id()
        if sequence >= 2**64:
            milliseconds, sequence = milliseconds + 1, 0
        trim = ["MAXLEN", f"{len(self.ids())}"] if self.likely(0.02) else []
        fields = []
        for _ in range(self.random.choice([1, 1, 1, 2, 5])):
            length = self.random.choices(LENGTHS, [1, 30, 30, 30, 20, 1, 1, 1, 1, 1])[0]
            fields += [self.random.choice(["f", "field", ""]), "v" * length]
        place = f"{milliseconds}-{sequence}" if not self.likely(0.01) else "0-1"
        return ["XADD", "s", *trim, place, *fields]

    def some(self):
        """An id of the stream, or one near it."""
        ids = self.ids()
        if not ids:
            return self.model.stream("s").last
        milliseconds, sequence = self.random.choice(ids)
        return self.random.choice([(milliseconds, sequence)] * 6 + [(milliseconds, sequence + 1), (milliseconds + 1, 0), (milliseconds, 0)])

    def spelled(self):
        milliseconds, sequence = self.some()
        return f"{milliseconds}-{min(sequence, 2**64 - 1)}"

    def delete(self):
        """Deletes some entries from all over, or a run of them."""
        ids = self.ids()
        if not ids or self.likely(0.5):
            return ["XDEL", "s", *(self.spelled() for _ in range(self.random.randint(1, 4)))]
        place = self.random.randrange(len(ids))
        return ["XDEL", "s", *(text_of(entry_id).decode() for entry_id in ids[place : place + self.random.choice([1, 5, 140])])]

    def trim(self):
        number = len(self.ids())
        going = self.random.choice([0, 1, 2, 10, 127, 128, 129, number])
        bound = ["MAXLEN", f"{max(0, number - going)}"] if self.likely(0.5) else ["MINID", self.spelled()]
        if self.likely(0.3):
            return ["XTRIM", "s", bound[0], "~", bound[1], "LIMIT", f"{self.random.choice([0, 1, 3, 128, 200])}"]
        return ["XTRIM", "s", *bound]

    def look(self):
        start, end = (self.random.choice(["", "", "("]) + self.spelled() for _ in range(2))
        ends = self.random.choice([["-", "+"], [start, "+"], ["-", end], [start, end]])
        count = ["COUNT", f"{self.random.choice([0, 1, 2, 10, 127, 128, 129, 300])}"] if self.likely(0.95) else []
        kinds = [["XLEN", "s"], ["XRANGE", "s", *ends, *count], ["XREVRANGE", "s", *ends[::-1], *count]]
        return self.random.choices(kinds, [1, 4, 4])[0]

    MAKERS = (add, delete, trim, look)
    GROWING = list(itertools.accumulate([80, 3, 1, 16]))
    SHRINKING = list(itertools.accumulate([35, 35, 4, 26]))

    def one(self):
        if self.made % self.STEPS == 0:
            self.size = self.random.choice(self.SIZES)
        self.made += 1
        grows = len(self.ids()) < self.size
        return self.random.choices(self.MAKERS, cum_weights=self.GROWING if grows else self.SHRINKING)[0](self)


def is_of_redis(words):
    """Whether a command means the same to a Redis server, which replies null to a range of no entries."""
    return "~" not in words and words[-2:] != ["COUNT", "0"]


def made(number, seed, for_redis):
    """Commands, and the replies of the model."""
    model, commands, wanted = Model(), [], []
    choice = Commands(model, seed)
    while len(commands) < number:
        words = choice.one()
        if not for_redis or is_of_redis(words):
            commands.append(words)
            wanted.append(model.reply(words))
    return commands, wanted


def main():
    if not 2 <= len(sys.argv) <= 4:
        sys.exit(__doc__.split("\n\n")[1])
    program, number, seed = (sys.argv[1:] + [NUMBER, SEED][len(sys.argv) - 2 :])[:3]
    for_redis = os.path.basename(program) == "redis-server"
    commands, wanted = made(int(number), int(seed), for_redis)
    replies = piped.replies_of_redis(commands) if for_redis else piped.replies_of(program, commands)
    return piped.compared("random_streams", commands, wanted, replies)


if __name__ == "__main__":
    sys.exit(main())
