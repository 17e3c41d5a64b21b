#!/usr/bin/env python3
"""Has a book make plans for random small groups under random policies with soft limits and fees, and judges them by themselves.

usage: tests/plans.py BOOK_DRIVER PLAN_CHECK [NUMBER [SEED]]

The least total is that of all assignments, gone through one by one. A plan has to cost this and its prices to show it, by the words of
docs/RECOVERY.md; a shortage has to be one. plan_check has to say the same of the reply, and of replies that are changed in one place:
most of these are wrong, and the others are told right. Prints what differs; the status is 1 if anything does.
"""

import io
import itertools
import random
import subprocess
import sys

from lib import driver, resp

NUMBER, SEED, SECONDS = 300, 1, 60
KINDS = ("x", "y")


class Consumer:
    """A live consumer: its limit, its soft limit and fee if it has them, what is pending for it, and its rate for each class."""

    def __init__(self, choice, name):
        self.name = name
        self.limit = choice.randint(0, 4)
        self.tier = (choice.randint(0, self.limit), choice.choice([0, 1, 5, 9, 30])) if choice.random() < 0.6 else None
        self.pending = choice.choice([0, 0, 0, 1, 2])
        self.rates = {kind: choice.randint(0, 4) for kind in KINDS if choice.random() < 0.8}

    def tiers(self):
        """Its room without a fee, and with a soft limit the rest at the fee."""
        room = max(self.limit - self.pending, 0)
        if self.tier is None:
            return [(room, 0)]
        soft, fee = self.tier
        free = max(soft - self.pending, 0)
        return [(free, 0), (room - free, fee)]

    def room(self):
        return sum(room for room, _ in self.tiers())


class Group:
    """Entries that are stranded with D, each with a class and a weight, and the consumers that could take them."""

    def __init__(self, choice):
        self.consumers = [Consumer(choice, name) for name in "ABC"[: choice.randint(1, 3)]]
        self.entries = [(f"{at}-1", choice.choice(KINDS), choice.randint(0, 3)) for at in range(1, choice.randint(0, 5) + 1)]

    def policy(self):
        def table(name, pairs):
            return f"[{name}]\n" + "".join(f"{key} = {value}\n" for key, value in pairs)

        soft = [consumer for consumer in self.consumers if consumer.tier]
        return "".join(
            [
                'version = 2\nclass_field = "c"\n',
                table("limits", [(consumer.name, consumer.limit) for consumer in self.consumers]),
                table("soft", [(consumer.name, consumer.tier[0]) for consumer in soft]),
                table("fees", [(consumer.name, consumer.tier[1]) for consumer in soft]),
                *(table(f"rates.{kind}", [(c.name, c.rates[kind]) for c in self.consumers if kind in c.rates]) for kind in KINDS),
            ]
        )

    def commands(self):
        """What makes the group: what is pending for the live comes first."""
        yield "XGROUP", "CREATE", "s", "g", "0", "MKSTREAM"
        for consumer in self.consumers:
            for _ in range(consumer.pending):
                yield "XADD", "s", "0-*", "c", "x"
                yield "XREADGROUP", "GROUP", "g", consumer.name, "STREAMS", "s", ">"
        for key, kind, more in self.entries:
            yield "XADD", "s", key, "c", kind, "v", "v" * more
        if self.entries:
            yield "XREADGROUP", "GROUP", "g", "D", "STREAMS", "s", ">"

    def cost(self, entry, consumer):
        """What an entry costs at a consumer, or None. Its fields `c` and `v` and their values have 3 bytes, and those of the second."""
        _, kind, more = self.entries[entry]
        rate = consumer.rates.get(kind)
        return None if rate is None else rate * (3 + more)

    def places(self, goes):
        """The tier of each entry, as a consumer's number and 0 or 1: the first by id fill the first tier. None if one has no room."""
        found, given = [], [0] * len(self.consumers)
        for to in goes:
            (free, _), *_ = tiers = self.consumers[to].tiers()
            if given[to] >= sum(room for room, _ in tiers):
                return None
            found.append((to, int(given[to] >= free)))
            given[to] += 1
        return found

    def total(self, goes):
        """What an assignment costs, or None if it is not one."""
        costs = [self.cost(entry, self.consumers[to]) for entry, to in enumerate(goes)]
        places = None if None in costs else self.places(goes)
        return None if places is None else sum(costs) + sum(self.consumers[to].tiers()[tier][1] for to, tier in places)

    def least(self):
        """The least total of all assignments, or None if there is none."""
        goes = itertools.product(range(len(self.consumers)), repeat=len(self.entries))
        return min((total for total in map(self.total, goes) if total is not None), default=None)

    def shows(self, reply):
        """Whether a reply of a plan shows it cheapest: each entry where charge and price are least, and each tier with a price full."""
        _, total, moves, prices, _ = reply
        names = [consumer.name for consumer in self.consumers]
        goes = [names.index(name) if name in names else None for _, name in moves]
        fit = [name for name, *_ in prices] == names and all(len(own) - 1 == len(c.tiers()) for c, own in zip(self.consumers, prices))
        if not fit or None in goes or self.total(goes) != total or [key for key, _ in moves] != [key for key, *_ in self.entries]:
            return False
        priced = [own for _, *own in prices]
        places = self.places(goes)
        for entry, (to, tier) in enumerate(places):
            charges = {
                (at, number): self.cost(entry, consumer) + fee + priced[at][number]
                for at, consumer in enumerate(self.consumers)
                for number, (_, fee) in enumerate(consumer.tiers())
                if self.cost(entry, consumer) is not None
            }
            if charges[to, tier] > min(charges.values()):
                return False
        return all(
            priced[at][number] == 0 or places.count((at, number)) == room
            for at, consumer in enumerate(self.consumers)
            for number, (room, _) in enumerate(consumer.tiers())
        )

    def is_short(self, reply):
        """Whether a reply of a shortage is right: more entries than the rooms of all that may take one of them."""
        _, keys, rooms, places = reply
        chosen = [entry for entry, (key, *_) in enumerate(self.entries) if key in keys]
        may = [consumer for consumer in self.consumers if any(self.cost(entry, consumer) is not None for entry in chosen)]
        expected = [[consumer.name, consumer.room()] for consumer in may]
        return keys == [self.entries[entry][0] for entry in chosen] and rooms == expected and places == sum(c.room() for c in may) < len(keys)

    def is_right(self, reply):
        return self.shows(reply) if reply[0] != "none" else self.is_short(reply)

    def problem(self):
        """The lines of the problem, for plan_check."""
        for key, kind, more in self.entries:
            yield f"entry {key} {kind} {3 + more}"
        for consumer in self.consumers:
            (room, _), *more = consumer.tiers()
            yield f"consumer {consumer.name} {room}" + "".join(f" {rest} {fee}" for rest, fee in more)
            for kind, rate in consumer.rates.items():
                yield f"rate {kind} {consumer.name} {rate}"


def plain(reply):
    """A reply with texts in place of bytes."""
    return [plain(item) for item in reply] if isinstance(reply, list) else reply.decode() if isinstance(reply, bytes) else reply


def spelled(reply):
    """A reply as the server sends it."""
    if isinstance(reply, list):
        return resp.array([spelled(item) for item in reply])
    return b":%d\r\n" % reply if isinstance(reply, int) else resp.bulk(reply.encode())


def planned(program, groups):
    """The reply to a plan of each group, by a book of its own."""
    lines, last = [], []
    for group in groups:
        lines += [f"policy {driver.spelled([group.policy()])}", "join 0"]
        lines += [f"call 10 1 {driver.spelled(words)}" for words in group.commands()]
        lines += [f"snapshot 20 1 {driver.spelled(['s', 'g', 'D'])}", "conclude 20 1 0 1"]
        last.append(len(lines) - 1)
    run = subprocess.run([program], input="".join(f"{line}\n" for line in lines), capture_output=True, timeout=SECONDS, text=True, check=True)
    answers = run.stdout.splitlines()
    for at in last:
        yield plain(resp.Replies(io.BytesIO(bytes.fromhex(answers[at].split(" ")[-1]))).reply())


def changed(choice, reply):
    """A reply with one number or one name changed."""
    copy = [item if not isinstance(item, list) else [list(part) if isinstance(part, list) else part for part in item] for item in reply]
    numbers = [(copy, at) for at, item in enumerate(copy) if isinstance(item, int)]
    numbers += [(own, at) for own in copy[3 if reply[0] != "none" else 2] for at, item in enumerate(own) if isinstance(item, int)]
    names = [(move, 1) for move in copy[2]] if reply[0] != "none" else []
    where, at = choice.choice(numbers + names)
    if isinstance(where[at], int):
        where[at] = max(where[at] + choice.choice([-5, -1, 1, 5]), 0)
    else:
        where[at] = choice.choice("ABC")
    return copy


def checked(program, group, reply):
    """Whether plan_check finds a reply right."""
    text = "".join(f"{line}\n" for line in group.problem()).encode() + b"reply\n" + spelled(reply)
    run = subprocess.run([program], input=text, capture_output=True, timeout=SECONDS, check=False)
    return run.returncode == 0, run.stdout.decode().strip()


def main():
    if len(sys.argv) < 3:
        sys.exit(__doc__.split("\n\n")[1])
    count, seed = (list(map(int, sys.argv[3:])) + [NUMBER, SEED][len(sys.argv) - 3 :])[:2]
    choice = random.Random(seed)
    groups = [Group(choice) for _ in range(count)]
    wrong, plans, refused, told = 0, 0, 0, 0
    for group, reply in zip(groups, planned(sys.argv[1], groups)):
        least = group.least()
        plans += least is not None
        replies = [reply, changed(choice, reply), changed(choice, reply)]
        given = [checked(sys.argv[2], group, item) for item in replies]
        good = reply[0] == ("none" if least is None else "plan") and least in (None, reply[1]) and group.is_right(reply)
        expected = [True, *(group.is_right(item) for item in replies[1:])]
        refused += expected.count(False)
        told += expected.count(True) - 1
        if not good or [right for right, _ in given] != expected:
            wrong += 1
            print(f"{group.policy()}\n{group.entries}\nleast total: {least}\nreplies: {replies}\nexpected: {expected}\nplan_check: {given}")
    print(f"plans: {count} groups, {plans} with a plan, {refused} changed replies refused, {told} right, {wrong} wrong")
    sys.exit(1 if wrong else 0)


main()
