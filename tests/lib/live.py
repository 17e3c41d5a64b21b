"""A group in Redis as its clients see it, a plan for what the dead have left, and the words that conclude.lua gets.

Rules are by the words of docs/POLICY.md, problems by those of docs/RECOVERY.md.
"""

import collections
import os

from .resp import ErrorReply, spelled_all
from .transport import Problem, cheapest

SCRIPT = os.path.join(os.path.dirname(os.path.abspath(__file__)), "../../crates/sr_live/src/conclude.lua")
IN_PROGRAM = os.path.join(os.path.dirname(SCRIPT), "script.rt")
PAGE = 1000
CLASS = b"c"

# A live consumer of the policy: its limit, its soft limit and fee or None, its rate for each class that it may take.
Live = collections.namedtuple("Live", "name limit tier rates")

# What a plan depends on: for each dead consumer the ids that are pending for it, each with its fields, or None if it is
# gone; how many are pending for each consumer; and how many entries had been removed from the stream before. `rows` is None
# if there is no such group.
Seen = collections.namedtuple("Seen", "rows numbers removed", defaults=[0])


def texts(pairs):
    """A table from a flat list of names and values."""
    return dict(zip(pairs[::2], pairs[1::2]))


def number_of(entry_id):
    """An id as a pair of numbers, in whose order ids are."""
    return tuple(map(int, entry_id.split(b"-")))


def all_replies(connection, commands):
    """The replies to commands that are sent at once; an error is one of them."""
    commands = list(commands)
    connection.socket.sendall(spelled_all(commands))
    return [connection.reply() for _ in commands]


def seen_by(connection, key, group, dead, idle=0, deliveries=None):
    """What ordinary commands tell, which are not of one moment. Of the dead only what was delivered at most so often, if that is asked for."""
    removed = removed_from(connection.call("XINFO", "STREAM", key))
    consumers = map(texts, connection.call("XINFO", "CONSUMERS", key, group))
    numbers = {consumer[b"name"]: consumer[b"pending"] for consumer in consumers}
    return Seen({name: rows_of(connection, key, group, name, idle, deliveries) for name in sorted(dead)}, numbers, removed)


def is_within(deliveries, count):
    """Whether an entry that was delivered so often may be moved."""
    return deliveries is None or count <= deliveries


def removed_from(stream):
    """How many entries were removed from a stream, by what XINFO STREAM tells."""
    return texts(stream)[b"entries-added"] - texts(stream)[b"length"]


def rows_of(connection, key, group, name, idle, deliveries):
    """The rows of a dead consumer that have been idle for so many milliseconds, in pages, and the fields of each."""
    ids, start, page = [], "-", [None] * PAGE
    while len(page) == PAGE:
        page = connection.call("XPENDING", key, group, "IDLE", idle, start, "+", PAGE, name)
        ids += [entry_id for entry_id, _, _, count in page if is_within(deliveries, count)]
        start = b"(" + page[-1][0] if page else start
    entries = all_replies(connection, (["XRANGE", key, entry_id, entry_id] for entry_id in ids))
    return [(entry_id, entry[0][1] if entry else None) for entry_id, entry in zip(ids, entries)]


class Dump:
    """All that Redis tells of a key at one moment. `text` is equal exactly if nothing of it has changed."""

    def __init__(self, connection, key):
        [self.text] = all_replies(connection, [["XINFO", "STREAM", key, "FULL", "COUNT", 0]])
        whole = {} if isinstance(self.text, ErrorReply) else texts(self.text)
        self.entries = dict(whole.get(b"entries", []))
        self.groups = {group[b"name"]: group for group in map(texts, whole.get(b"groups", []))}
        self.stream = {name: part for name, part in whole.items() if name != b"groups"}
        self.text = str(self.text)

    def pending(self, group):
        """For each pending id its consumer and its delivery count, and when it was delivered last."""
        return {entry_id: (owner, count, time) for entry_id, owner, time, count in self.groups[group][b"pending"]}

    def others(self, group):
        """The other groups, and all of this one but who its consumers are and what is pending for whom."""
        moving = (b"pending", b"consumers")
        own = {name: part for name, part in self.groups[group].items() if name not in moving}
        return own, [other for name, other in self.groups.items() if name != group]

    def seen(self, group, dead, deliveries=None):
        """What a plan depends on at this moment, without one of the commands by which a client finds it out."""
        if group not in self.groups:
            return Seen(None, {})
        rows, numbers = {name: [] for name in dead}, collections.Counter()
        for entry_id, (owner, count, _) in self.pending(group).items():
            numbers[owner] += 1
            if owner in rows and is_within(deliveries, count):
                rows[owner].append((entry_id, self.entries.get(entry_id)))
        return Seen(rows, numbers)


def up_to(rows, last):
    """The rows whose ids are not above the last that is compared."""
    return [row for row in rows if last == "+" or number_of(row[0]) <= number_of(last)]


def problem_of(lives, seen, last):
    """The ids of the stranded entries up to the last one, and their problem."""
    rows = (up_to(own, last) for own in seen.rows.values())
    stranded = sorted((row for own in rows for row in own if row[1] is not None), key=lambda row: number_of(row[0]))
    return [entry_id for entry_id, _ in stranded], Problem(
        [[cost(fields, live) for live in lives] for _, fields in stranded],
        [tiers(live, seen.numbers.get(live.name, 0)) for live in lives],
    )


def cost(fields, live):
    """What an entry costs at a consumer, or None. Its class is the value of its first field of that name."""
    classes = [value for name, value in zip(fields[::2], fields[1::2]) if name == CLASS]
    rate = live.rates.get(classes[0]) if classes else None
    return None if rate is None else rate * max(1, sum(map(len, fields)))


def tiers(live, pending):
    """The room without a fee, and with a soft limit the rest at the fee."""
    room = max(0, live.limit - pending)
    if live.tier is None:
        return [(room, 0)]
    soft, fee = live.tier
    free = max(0, soft - pending)
    return [(free, 0), (room - free, fee)]


def spared(lives, spare):
    """The consumers with limits that are lower by so many places, and soft limits that are at most as high."""
    lower = [(live, max(0, live.limit - spare)) for live in lives]
    return [live._replace(limit=limit, tier=live.tier and (min(live.tier[0], limit), live.tier[1])) for live, limit in lower]


def after_acks(seen, acks):
    """What is seen once each consumer has acknowledged so many entries."""
    return seen._replace(numbers={name: max(0, number - acks) for name, number in seen.numbers.items()})


class Plan:
    """A cheapest plan for what was seen, or for the first entries of it (`most`), and the prices that show it."""

    deliveries = None  # how often an entry may have been delivered, if that is asked for

    def __init__(self, lives, seen, most=None, above=None):
        self.lives, self.seen, self.last, self.idle = lives, seen, "+", 0
        self.ids, problem = problem_of(lives, seen, self.last)
        if most is not None and len(self.ids) >= most:
            self.last = self.ids[most - 1]
            self.ids, problem = problem_of(lives, seen, self.last)
        solved = cheapest(problem, above)
        self.is_possible = solved is not None
        if solved:
            self.goes, self.prices = solved
            self.total = problem.total(self.goes)
            self.free_loads = [own[0] for own in problem.loads(self.goes)]

    def moves(self):
        """For each live consumer the ids that it gets."""
        return [[entry_id for entry_id, to in zip(self.ids, self.goes) if to == own] for own in range(len(self.lives))]

    def words(self, group, within):
        """What the script gets after the key."""
        most = "-" if self.deliveries is None else self.deliveries
        yield from (group, within, self.last, self.idle, most, self.seen.removed, len(self.seen.rows))
        for name, rows in self.seen.rows.items():
            compared = up_to(rows, self.last)
            yield from (name, len(compared))
            for entry_id, fields in compared:
                yield from (entry_id, int(fields is not None))
        yield len(self.lives)
        for live, ids, free_load, prices in zip(self.lives, self.moves(), self.free_loads, self.prices):
            soft = "-" if live.tier is None else live.tier[0]
            yield from (live.name, live.limit, soft, len(ids), free_load, *(prices + [0])[:2], *ids)


def carried_out(plan, group, before, after):
    """What is wrong once a plan is carried out: only the owners and the delivery times of its entries may differ."""
    owners = {entry_id: plan.lives[to].name for entry_id, to in zip(plan.ids, plan.goes)}
    old, new = before.pending(group), after.pending(group)
    expected = {entry_id: (owners.get(entry_id, owner), count) for entry_id, (owner, count, _) in old.items()}
    if {entry_id: (owner, count) for entry_id, (owner, count, _) in new.items()} != expected:
        yield f"pending afterwards: {new}\nexpected: {expected}"
    if any(new[entry_id][2] < old[entry_id][2] for entry_id in owners if entry_id in new and entry_id in old):
        yield f"delivered earlier than before: {old}\n{new}"
    kept = [entry_id for entry_id in old if entry_id in new and entry_id not in owners]
    if any(new[entry_id][2] != old[entry_id][2] for entry_id in kept):
        yield f"other delivery times: {old}\n{new}"
    if after.stream != before.stream or after.others(group) != before.others(group):
        yield f"the stream or another group has changed: {after.text}"
    consumers = {consumer[b"name"]: consumer for consumer in map(texts, after.groups[group][b"consumers"])}
    if set(consumers) != {texts(it)[b"name"] for it in before.groups[group][b"consumers"]} | set(owners.values()):
        yield f"consumers afterwards: {sorted(consumers)}"
    for name, consumer in consumers.items():
        own = [entry_id for entry_id, (owner, *_) in new.items() if owner == name]
        if [row[0] for row in consumer[b"pending"]] != own:
            yield f"pending for {name}: {consumer}"


def is_in_program():
    """Whether the program has the same text as conclude.lua: between the first and the last quote of script.rt."""
    with open(SCRIPT, encoding="utf-8") as file, open(IN_PROGRAM, encoding="utf-8") as program:
        return program.read().partition('"')[2].rpartition('"')[0] == file.read()


class Script:
    """conclude.lua at a server."""

    def __init__(self, connection):
        with open(SCRIPT, "rb") as file:
            self.text = file.read()
        self.connection = connection
        self.digest = connection.call("SCRIPT", "LOAD", self.text)

    def answer(self, key, group, plan, within=0):
        """The answer as a list, or the error that Redis made of it."""
        words = list(plan.words(group, within))
        return all_replies(self.connection, [["EVALSHA", self.digest, 1, key, *words]])[0]
