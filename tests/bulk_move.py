#!/usr/bin/env python3
"""Has sr_server move thousands of stranded entries by one RECOVER.RUN, and looks where each entry is then.

usage: tests/bulk_move.py PROGRAM

First a small case, whose replies are written here. Then a large one, in which the replies are compared with those of the model of model.py:
after RECOVER.RUN it has made the claims that the plan stands for. Prints how many replies differ, and the first that does; the status is 1
if any does.
"""

import collections
import random
import sys
import tempfile

from lib import piped
from lib.model import Model, text_of
from lib.piped import LONG

# A has room for two entries. B has room for three, since one of four is taken by 6-1.
SMALL_POLICY = """
class_field = "c"
[limits]
A = 2
B = 4
[rates.image]
A = 1
B = 2
[rates.video]
A = 1
B = 9
"""

# D dies with 1-1, 2-1, 3-1 and 5-1, which is deleted, and E with 4-1. By weight, 1-1 costs 11 at A and 22 at B, 2-1 and 4-1 cost 8 and 16,
# and 3-1 costs 8 and 72. A saves most by 3-1 and 1-1: 8 + 11 + 16 + 16.
PLANNED = [51, [[b"1-1", b"A"], [b"2-1", b"B"], [b"3-1", b"A"], [b"4-1", b"B"]], "prices", [b"5-1"]]

# The price of a place at A, by which it is as dear as B for none of its own entries and cheaper for none of B's.
PRICES = [[[b"A", price], [b"B", 0]] for price in range(8, 12)]

SMALL = [
    ("XADD s 1-1 c image v long", b"1-1"),
    ("XADD s 2-1 c image v x", b"2-1"),
    ("XADD s 3-1 c video v x", b"3-1"),
    ("XADD s 4-1 c image v x", b"4-1"),
    ("XADD s 5-1 c video v x", b"5-1"),
    ("XADD s 6-1 c video v x", b"6-1"),
    ("XADD s 7-1 c video v x", b"7-1"),
    ("XGROUP CREATE s g 0", b"OK"),
    ("XREADGROUP GROUP g D COUNT 3 STREAMS s >", [[b"s", [
        [b"1-1", [b"c", b"image", b"v", b"long"]], [b"2-1", [b"c", b"image", b"v", b"x"]], [b"3-1", [b"c", b"video", b"v", b"x"]]]]]),
    ("XREADGROUP GROUP g E COUNT 1 STREAMS s >", [[b"s", [[b"4-1", [b"c", b"image", b"v", b"x"]]]]]),
    ("XREADGROUP GROUP g D COUNT 1 STREAMS s >", [[b"s", [[b"5-1", [b"c", b"video", b"v", b"x"]]]]]),
    ("XREADGROUP GROUP g B COUNT 1 STREAMS s >", [[b"s", [[b"6-1", [b"c", b"video", b"v", b"x"]]]]]),
    ("XREADGROUP GROUP g W COUNT 1 STREAMS s >", [[b"s", [[b"7-1", [b"c", b"video", b"v", b"x"]]]]]),
    (f"XCLAIM s g D 0 2-1 3-1 5-1 IDLE {LONG} RETRYCOUNT 5 JUSTID", [b"2-1", b"3-1", b"5-1"]),
    (f"XCLAIM s g W 0 7-1 IDLE {LONG} JUSTID", [b"7-1"]),
    ("XDEL s 5-1", 1),
    ("RECOVER.PLAN s g DEAD E D", [b"plan", *PLANNED]),
    ("RECOVER.RUN s g DEAD D E", [b"done", *PLANNED]),
    # What was moved was delivered now, as often as before. In the place of an idle time is whether it is long.
    ("XPENDING s g - + 10", [
        [b"1-1", b"A", False, 1], [b"2-1", b"B", False, 5], [b"3-1", b"A", False, 5], [b"4-1", b"B", False, 1],
        [b"5-1", b"D", True, 5], [b"6-1", b"B", False, 1], [b"7-1", b"W", True, 1]]),
    ("XPENDING s g", [7, b"1-1", b"7-1", [[b"A", b"2"], [b"B", b"3"], [b"D", b"1"], [b"W", b"1"]]]),
    ("XPENDING s g - + 10 B", [[b"2-1", b"B", False, 5], [b"4-1", b"B", False, 1], [b"6-1", b"B", False, 1]]),
    ("XINFO CONSUMERS s g", [[b"name", name, b"pending", number, b"idle"] for name, number in
                             [(b"A", 2), (b"B", 3), (b"D", 1), (b"E", 0), (b"W", 1)]]),
    ("XREADGROUP GROUP g D STREAMS s 0", [[b"s", [[b"5-1", None]]]]),
    ("XREADGROUP GROUP g E STREAMS s 0", [[b"s", []]]),
]

SEED, ENTRIES, DELIVERED = 1, 5_000, 4_800
DEAD = ["X1", "X2", "X3"]
LIVE = {"A": 900, "B": 700, "C": 1500, "E": 600, "F": 0, "G": 50, "H": 900, "I": 800}  # limits
OTHER = "W"
# The rates of a class: each consumer may take three of the four classes.
RATES = {f"k{kind}": {name: 1 + (place * 7 + kind * 5) % 11 for place, name in enumerate(LIVE) if place % 4 != kind} for kind in range(4)}


def policy():
    lines = ['class_field = "c"', "[limits]"] + [f"{name} = {limit}" for name, limit in LIVE.items()]
    for kind, rates in RATES.items():
        lines += [f"[rates.{kind}]"] + [f"{name} = {rate}" for name, rate in rates.items()]
    return "\n".join(lines) + "\n"


def served(program, text, commands):
    """The replies of the program under a policy, without what the clock tells."""
    with tempfile.NamedTemporaryFile("w", suffix=".toml") as file:
        file.write(text)
        file.flush()
        replies = piped.replies_of(program, commands, "--policy", file.name)
    return list(map(piped.without_clock, commands, replies))


def without_prices(words, reply):
    """A reply in which right prices of the small case count as the same."""
    if words[0].startswith("RECOVER") and isinstance(reply, list) and len(reply) == 5 and reply[3] in PRICES:
        return [*reply[:3], "prices", reply[4]]
    return reply


def small(program):
    commands = [command.split() for command, _ in SMALL]
    replies = served(program, SMALL_POLICY, commands)
    return piped.compared("bulk_move, 4 entries", commands, [reply for _, reply in SMALL], list(map(without_prices, commands, replies)))


class Setting:
    """Commands that leave thousands of entries with dead consumers, and some with live and other ones; and the model's replies."""

    def __init__(self):
        self.random, self.model, self.commands, self.wanted = random.Random(SEED), Model(), [], []
        self.add()
        self.deliver()
        self.change()

    def step(self, *words):
        self.commands.append(list(words))
        self.wanted.append(self.model.reply(self.commands[-1]))
        return self.wanted[-1]

    def add(self):
        for number in range(1, ENTRIES + 1):
            self.step("XADD", "s", f"{number}-1", "c", f"k{self.random.randrange(4)}", "v", "v" * self.random.randint(1, 60))
        self.step("XGROUP", "CREATE", "s", "g", "0")

    def deliver(self):
        """In runs of entries, of which the dead have most."""
        names = [*DEAD * 8, *LIVE, OTHER]
        left = DELIVERED
        while left:
            count = min(left, self.random.randint(1, 60))
            self.step("XREADGROUP", "GROUP", "g", self.random.choice(names), "COUNT", f"{count}", "STREAMS", "s", ">")
            left -= count

    def change(self):
        """Delivers some again, claims some as if long ago, and deletes and acknowledges others."""
        self.step("XREADGROUP", "GROUP", "g", "X1", "COUNT", "300", "STREAMS", "s", "1000")
        ids = self.group().ids()
        for entry_id in self.random.sample(ids, len(ids) // 3):
            count = ["RETRYCOUNT", f"{self.random.randrange(9)}"] if self.random.random() < 0.5 else []
            owner, *_ = self.group().pending[entry_id]
            self.step("XCLAIM", "s", "g", owner, "0", text_of(entry_id).decode(), "IDLE", f"{LONG}", *count, "JUSTID")
        self.step("XDEL", "s", *self.some(ids, 200))
        self.step("XACK", "s", "g", *self.some(ids, 100))

    def some(self, ids, number):
        return [text_of(entry_id).decode() for entry_id in self.random.sample(ids, number)]

    def group(self):
        return self.model.group("s", "g")

    def pending_of_dead(self):
        """The pending ids of the dead: those in the stream, and those that are gone."""
        ids = [entry_id for entry_id in self.group().ids() if self.group().pending[entry_id][0] in DEAD]
        there = [entry_id for entry_id in ids if self.model.stream("s").entry(entry_id)]
        return there, [entry_id for entry_id in ids if entry_id not in there]

    def rooms(self):
        return {name: max(0, limit - self.group().number(name)) for name, limit in LIVE.items()}

    def costs(self, entry_id):
        """What an entry costs at each consumer that may take it."""
        fields = self.model.stream("s").entries[entry_id]
        weight = sum(map(len, fields))
        return {name.encode(): rate * weight for name, rate in RATES[fields[1].decode()].items()}


def judged(setting, plan):
    """What is asked of a plan, with what should be and what is found."""
    kind, total, moves, prices, gone = plan
    there, not_there = setting.pending_of_dead()
    rooms, costs, price = setting.rooms(), list(map(setting.costs, there)), dict(map(tuple, prices))
    given = collections.Counter(consumer for _, consumer in moves)
    pairs = [(consumer, cost) for (_, consumer), cost in zip(moves, costs)]
    yield "the kind of the plan", b"plan", kind
    yield "the ids that it gives", list(map(text_of, there)), [entry_id for entry_id, _ in moves]
    yield "the ids that are gone", list(map(text_of, not_there)), gone
    yield "the live consumers", [name.encode() for name in LIVE], [name for name, _ in prices]
    yield "entries at consumers that may not take them", [], [pair for pair in pairs if pair[0] not in pair[1]]
    yield "consumers with more than their room", [], [name for name in given if given[name] > rooms[name.decode()]]
    yield "the total", sum(cost.get(consumer, 0) for consumer, cost in pairs), total
    with_prices = [(name, {other: cost[other] + price[other] for other in cost}) for name, cost in pairs]
    yield "entries that would be cheaper elsewhere", [], [pair for pair in with_prices if pair[1].get(pair[0], 0) > min(pair[1].values())]
    yield "consumers with a price and with room", [], [name for name in price if price[name] and given[name] < rooms[name.decode()]]


def claim(model, moves):
    """Makes the claims that a plan stands for: one for each consumer, in the order of their names."""
    for consumer in sorted({consumer for _, consumer in moves}):
        ids = [entry_id.decode() for entry_id, owner in moves if owner == consumer]
        model.reply(["XCLAIM", "s", "g", consumer.decode(), "0", *ids, "JUSTID"])


PLAN, RUN = (["RECOVER." + word, "s", "g", "DEAD", *DEAD, "nobody"] for word in ("PLAN", "RUN"))

LOOKS = [
    ["XPENDING", "s", "g", "-", "+", "10000"],
    ["XPENDING", "s", "g"],
    ["XINFO", "CONSUMERS", "s", "g"],
    *(["XPENDING", "s", "g", "-", "+", "10000", name] for name in [*DEAD, *LIVE, OTHER]),
    *(["XPENDING", "s", "g", "IDLE", f"{LONG}", "-", "+", "10000", name] for name in [*DEAD, *LIVE, OTHER]),
    *(["XREADGROUP", "GROUP", "g", name, "STREAMS", "s", "0"] for name in DEAD),
    ["XREADGROUP", "GROUP", "g", "A", "STREAMS", "s", ">"],
    ["XPENDING", "s", "g"],
]


def large(program):
    setting = Setting()
    before = LOOKS[:3]
    wanted = setting.wanted + list(map(setting.model.reply, before))
    commands = [*setting.commands, *before, PLAN, RUN, *LOOKS]
    replies = served(program, policy(), commands)
    plan = replies[len(wanted)]
    if not isinstance(plan, list) or len(plan) != 5:
        print(f"RECOVER.PLAN replied: {str(plan)[:1000]}")
        return 1
    asked, right, found = zip(*judged(setting, plan))
    failed = piped.compared("bulk_move, a plan", [[text] for text in asked], right, found, "properties")
    claim(setting.model, plan[2])
    wanted += [plan, [b"done", *plan[1:]], *map(setting.model.reply, LOOKS)]
    return piped.compared(f"bulk_move, {len(plan[2]):,} entries", commands, wanted, replies) or failed


def main():
    if len(sys.argv) != 2:
        sys.exit(__doc__.split("\n\n")[1])
    return max([small(sys.argv[1]), large(sys.argv[1])])


if __name__ == "__main__":
    sys.exit(main())
