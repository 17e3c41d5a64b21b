#!/usr/bin/env python3
"""Has a Redis of its own run conclude.lua after random changes of a group, and judges each answer by the state then.

usage: tests/live_script.py [HISTORIES [SEED]]

A history is a group with dead and live consumers, a cheapest plan for what was seen of it, what other clients do then,
and the script, with some `within`, perhaps for the first entries alone. All that Redis tells of the key is read right
before and after the script, with no other client there:

done     the plan is an assignment at its total, and costs at most the gap more than the least total, which is found
         independently; the gap is at most `within`; exactly the moves are carried out, and delivery counts stay
stale    nothing has changed, and what it names is a reason

First come rows with the answers that they should have (lib/live_rows.py), and the time of the largest plan. Prints what
is wrong, the tally of the answers, and one last line; the status is 1 if something is wrong. It needs redis-server.
"""

import collections
import random
import sys

from lib import live_rows, servers
from lib.live import Dump, Live, Plan, Script, all_replies, carried_out, is_in_program, problem_of
from lib.live import seen_by, tiers, up_to

HISTORIES, SEED = 3000, 1
MOST_STRANDED, MOST_ENTRIES = 8, 14
NAMES = [b"A", b"b c", b'say "x"', b"it's", b"two\r\nlines", b"zero\0byte", b"\xff\xfe", b"-", b"+", b"1", b"", b"\\"]
KINDS = (b"x", b"y")


def random_live(choice, name):
    limit = choice.randint(0, 5)
    tier = (choice.randint(0, min(limit, 3)), choice.choice([0, 1, 5, 9, 30])) if choice.random() < 0.6 else None
    return Live(name, limit, tier, {kind: choice.randint(0, 4) for kind in KINDS if choice.random() < 0.85})


class History:
    """A random group, and what is done to it."""

    names = NAMES

    def __init__(self, choice):
        self.choice = choice
        self.key, self.group, *names = choice.sample(self.names, len(self.names))
        self.dead = sorted(names[: choice.choice([1, 1, 2])])
        self.lives = [random_live(choice, name) for name in sorted(names[2 : choice.randint(3, 6)])]
        self.others = names[6:7]
        self.last, self.given = 0, []
        self.within = choice.choice([0, 0, 0, 1, 5, 30, 1000, 2**64 - 1])
        self.most = choice.choice([None, None, None, 1, 2, 4])
        self.above = choice.choice([None, None, 0, 3, 50])
        self.deliveries = choice.choice([None, None, 1, 1, 2])

    def somebody(self, dead=1, live=1, others=1):
        """The name of a consumer, by these weights of its kind."""
        kinds = [self.dead, [live.name for live in self.lives], self.others]
        return self.choice.choice(self.choice.choices(kinds, [dead, live, others])[0])

    def some_id(self):
        return b"%d-1" % self.choice.randint(1, self.last)

    def add(self):
        self.last += 1
        value = "v" * self.choice.randint(0, 3)
        return ["XADD", self.key, b"%d-1" % self.last, "c", self.choice.choice(KINDS), "v", value]

    def read(self, name, place=">", count=1):
        return ["XREADGROUP", "GROUP", self.group, name, "COUNT", count, "STREAMS", self.key, place]

    def setting(self):
        """What makes the group. Some live consumers are not in it, and some entries are gone."""
        yield ["XGROUP", "CREATE", self.key, self.group, 0, "MKSTREAM"]
        stranded = 0
        for _ in range(self.choice.randint(2, MOST_ENTRIES)):
            name = self.somebody(dead=4 if stranded < MOST_STRANDED else 0, live=2, others=0.5)
            stranded += name in self.dead
            yield self.add()
            self.given += [] if name in self.dead else [b"%d-1" % self.last]
            yield self.read(name)
        if self.deliveries is not None:
            yield from (self.read(name, 0, self.choice.randint(1, 4)) for name in self.dead if self.choice.random() < 0.5)
        for _ in range(self.choice.choice([0, 0, 1, 2])):
            yield ["XDEL", self.key, self.some_id()]

    def act(self):
        """What another client does."""
        key, group, name = self.key, self.group, self.somebody(dead=1, live=3, others=0.5)
        moved = ["XCLAIM", key, group, name, 0, self.some_id(), *self.choice.choice([[], ["JUSTID"]])]
        acts = [
            (12, [["XACK", key, group, self.choice.choice(self.given or [self.some_id()])]]),
            (2, [["XACK", key, group, self.some_id()]]),
            (3, [self.add()]),
            (6, [self.add(), self.read(self.somebody(dead=0.1, live=3, others=0.3))]),
            (2, [self.read(name)]),
            (3, [self.read(self.somebody(live=0, others=0), 0, 10)]),
            (2, [moved]),
            (1, [["XDEL", key, self.some_id()]]),
            (1, [["XGROUP", "DELCONSUMER", key, group, name]]),
            (1, [["XGROUP", "SETID", key, group, self.some_id()], self.read(name, count=self.choice.randint(1, 3))]),
            (0.3, [["XGROUP", "DESTROY", key, group]]),
            (0.3, [["DEL", key]]),
        ]
        weights, choices = zip(*acts)
        return self.choice.choices(choices, weights)[0]


def changed_rows(plan, now):
    """The answers that are right since the rows of the dead are others. A row that was gone may be there or not."""
    for name, rows in plan.seen.rows.items():
        old, new = dict(up_to(rows, plan.last)), dict(up_to(now.rows[name], plan.last))
        stranded = [entry_id for entry_id, fields in old.items() if fields is not None]
        if not set(stranded) <= set(new) <= set(old):
            yield [b"stale", b"pending", name]
        else:
            yield from ([b"stale", b"entry", entry_id] for entry_id in stranded if new[entry_id] is None)


def changed_places(plan, now):
    """The same since a live consumer has no room, or another number of its entries is without a fee."""
    for live, ids, free_load in zip(plan.lives, plan.moves(), plan.free_loads):
        pending = now.numbers.get(live.name, 0)
        if ids and pending + len(ids) > live.limit:
            yield [b"stale", b"room", live.name]
        elif min(len(ids), tiers(live, pending)[0][0]) != free_load:
            yield [b"stale", b"fee", live.name]


def reasons(plan, group, now, within):
    """The answers that are right if the plan must not be carried out; none if it may."""
    if now.rows is None:
        return [[b"stale", b"group", group]]
    changed = list(changed_rows(plan, now)) or list(changed_places(plan, now))
    if changed:
        return changed
    gap = problem_of(plan.lives, now, plan.last)[1].gap(plan.goes, plan.prices)
    return [[b"stale", b"gap", b"%d" % gap]] if gap > within else []


def faults_of(plan, history, answer, before, after):
    """What is wrong with an answer."""
    now = before.seen(history.group, history.dead, history.deliveries)
    expected = reasons(plan, history.group, now, history.within)
    if expected:
        yield from ([] if answer in expected else [f"expected one of {expected}"])
        yield from ([] if after.text == before.text else [f"changed: {after.text}"])
        return
    _, problem = problem_of(plan.lives, now, plan.last)
    total, least, gap = problem.total(plan.goes), problem.least(), problem.gap(plan.goes, plan.prices)
    if answer != [b"done", len(plan.ids), gap]:
        yield f"expected done, {len(plan.ids)} claimed, gap {gap}"
    if total is None or total != plan.total or not least <= total <= least + gap <= least + history.within:
        yield f"total {total}, planned {plan.total}, least {least}, gap {gap}, within {history.within}"
    if len(plan.lives) ** len(plan.ids) <= 256 and problem.least_of_all() != least:
        yield f"least total {least}, and of all assignments {problem.least_of_all()}"
    yield from carried_out(plan, history.group, before, after)


def is_still_cheapest(plan, history, before):
    """Whether a plan would be a cheapest one of this moment, at whatever total."""
    now = before.seen(history.group, history.dead, history.deliveries)
    if now.rows is None or list(changed_rows(plan, now)):
        return False
    _, problem = problem_of(plan.lives, now, plan.last)
    return problem.total(plan.goes) is not None and problem.total(plan.goes) == problem.least()


def play(connection, script, choice):
    """One history: the word of the answer, and what is wrong. None if there is no plan."""
    history = History(choice)
    setting = [["FLUSHALL"], *history.setting()]
    all_replies(connection, setting)
    seen = seen_by(connection, history.key, history.group, history.dead, deliveries=history.deliveries)
    plan = Plan(history.lives, seen, history.most, history.above)
    plan.deliveries = history.deliveries
    if not plan.is_possible:
        return None
    acts = [command for _ in range(choice.randint(0, 4)) for command in history.act()]
    all_replies(connection, acts)
    before = Dump(connection, history.key)
    answer = script.answer(history.key, history.group, plan, history.within)
    faults = list(faults_of(plan, history, answer, before, Dump(connection, history.key)))
    if faults:
        words = list(plan.words(history.group, history.within))
        print(f"{setting}\nthen {acts}\nwords {words}\nanswer {answer!r}", *faults, sep="\n")
    if not isinstance(answer, list):
        return "error", faults
    return worded(answer, is_still_cheapest(plan, history, before)), faults


def worded(answer, is_cheapest):
    """An answer as it is counted. `stale` is not wrong of a plan that would be a cheapest one, but could be better."""
    if answer[0] == b"done":
        return "done at a gap" if answer[2] else "done"
    return f"stale {answer[1].decode()}{' of a cheapest plan' if is_cheapest else ''}"


def played(connection, histories, seed):
    """The tally of the answers of random histories, and how many of these are wrong."""
    script, tally, wrong, number = Script(connection), collections.Counter(), 0, 0
    while tally.total() < histories:
        number += 1
        played_one = play(connection, script, random.Random(seed * 10**9 + number))
        if played_one:
            tally[played_one[0]] += 1
            wrong += bool(played_one[1])
            if played_one[1]:
                print(f"history {number} of seed {seed} is wrong", flush=True)
    return tally, wrong


def main():
    if not is_in_program():
        sys.exit("crates/sr_live/src/script.rt has another text than conclude.lua")
    histories, seed = (list(map(int, sys.argv[1:])) + [HISTORIES, SEED][len(sys.argv) - 1 :])[:2]
    if not servers.Redis.installed():
        sys.exit("redis-server is not installed (Debian: redis-server)")
    with servers.Redis() as server, server.connect() as connection:
        rows, wrong_rows = live_rows.compared(connection)
        tally, wrong = played(connection, histories, seed)
    print(", ".join(f"{word} {count}" for word, count in sorted(tally.items())))
    print(f"{rows} rows, {wrong_rows} wrong")
    done, stale = (sum(tally[word] for word in tally if word.startswith(kind)) for kind in ("done", "stale"))
    print(f"{histories} histories: {done} done, {stale} stale, {wrong} wrong")
    sys.exit(1 if wrong or wrong_rows else 0)


if __name__ == "__main__":
    main()
