#!/usr/bin/env python3
"""Has sr_recover make and carry out plans at a Redis of its own, while another client acts between any two calls.

usage: tests/live.py [HISTORIES [SEED]]

The program is that of the environment variable SR_RECOVER, or crates/sr_recover/out/sr_recover. A proxy between the two
sees each call, and can act as another client before it. In a random history it does so, also within a snapshot:

snapshot   each plan is a cheapest one for what the replies told, its prices show it, and the script gets just these
done       judged as tests/live_script.py does it, by the state right before and after the script; printed as it was
stale      nothing has changed by any call of the program, and what is printed is what the script answered
the rest   there is no plan for what the replies told; or Redis replied an error, which is printed

Before that come rows worked out by hand (lib/recover_rows.py, lib/recover_names.py), standard input, output or error
that is closed (lib/recover_closed.py), JSON (lib/recover_json.py), URLs, sockets and Sentinels (lib/recover_reach.py),
replies that are cut or wrong (lib/recover_cuts.py), errors (lib/recover_errors.py), groups that are watched
(lib/recover_watch.py), and counts of what was done (lib/recover_metrics.py); afterwards a busy group
(lib/recover_busy.py) and a cluster (lib/recover_cluster.py). Prints what is wrong, a tally, and one last line; the
status is 1 if something is wrong. It needs redis-server. For a slow build of the program
BUSY_ENTRIES=512 in the environment makes the busy group smaller.
"""

import collections
import os
import random
import re
import sys
import time

import live_script
from lib import recover, recover_busy, recover_closed, recover_cluster, recover_cuts, recover_errors, recover_json, recover_names
from lib import recover_metrics, recover_reach, recover_rows, recover_watch, servers
from lib.live import Dump, Plan, after_acks, all_replies, number_of, problem_of, seen_by, spared, up_to
from lib.resp import ErrorReply, encoded, value_of

HISTORIES, SEED = 300, 1


class History(live_script.History):
    """A random group whose names can be words of a command line and keys of a policy."""

    names = [b"A", b"b c", b'say "x"', b"it's", b"two\r\nlines", b"caf\xc3\xa9", b"-x", b"-", b"+", b"1", b"#", b"\\"]

    def __init__(self, choice):
        super().__init__(choice)
        self.tries = choice.choice([1, 1, 2, 3])
        self.often = choice.choice([0, 0.05, 0.1, 0.2, 0.4])
        self.right_before = choice.choice([0, 0.5, 0.8])
        self.check = choice.random() < 0.4
        self.within = self.asked_within = choice.choice([0, 0, 1, 5, 30, 2**64 - 1])
        self.seen_within = choice.choice([None, None, None, 0, 20, 10**12])
        self.spare = choice.choice([0, 0, 1, 1, 2, 10**9])

    def acts(self, call):
        """What another client does right before a call. It may be only that the live acknowledge, as they always do."""
        if self.choice.random() >= (self.right_before if call.words[0] == b"EVALSHA" else self.often):
            return []
        if self.given and self.choice.random() < 0.4:
            return [["XACK", self.key, self.group, *self.choice.choices(self.given, k=self.choice.randint(1, 3))]]
        return [command for _ in range(self.choice.randint(1, 2)) for command in self.act()]

    def told_idle(self, call, text):
        """The reply to a call. In that of XINFO CONSUMERS idle times are any, and a newer Redis tells one field more."""
        if call.words[:2] != [b"XINFO", b"CONSUMERS"] or text.startswith(b"-"):
            return text
        more = self.choice.choice([[], [b"inactive", -1]])
        told = [[*one[:5], self.choice.choice([0, 1, 20, 21, 10**12, 2**62]), *more] for one in value_of(text)]
        return encoded(told)

    def options(self):
        yield from ("--tries", self.tries, "--within", self.asked_within)
        yield from ["--spare", self.spare] if self.spare else ()
        yield from [] if self.most is None else ("--at-most", self.most)
        yield from [] if self.deliveries is None else ("--given-up-after", self.deliveries)
        yield from [] if self.seen_within is None else ("--seen-within", self.seen_within)
        yield from ["--check"] if self.check else []


class Watch:
    """Looks on as the program runs, acts as another client, and finds what is wrong with what the program does."""

    def __init__(self, history, connection):
        self.history, self.connection = history, connection
        self.told, self.faults, self.log = recover.Told(history.deliveries), [], []
        self.scripts, self.error, self.plan, self.is_cheapest = [], None, None, False
        self.spare = history.spare

    def act(self, call):
        self.see_spare()
        acts = self.history.acts(call)
        self.log += [*acts, call.words[:1] + call.words[-1:]]
        all_replies(self.connection, acts)
        before = Dump(self.connection, self.history.key)
        text = self.history.told_idle(call, call.forward())
        after, reply = Dump(self.connection, self.history.key), value_of(text)
        if call.words[0] in (b"XINFO", b"XPENDING", b"XRANGE"):
            self.error = text[1:-2] if isinstance(reply, ErrorReply) else None
            self.told.add(call.words, reply)
        if call.is_script() and not is_missing_script(reply):
            self.judge(call.words, reply, before, after)
        elif before.text != after.text:
            self.faults.append(f"{call.words} changed something")
        return recover.Sent(text)

    def see_spare(self):
        """Once what was looked up has too few places with those that are left free, it goes on without these."""
        if not self.spare or not self.told.is_whole:
            return
        seen, lives = self.told.seen(), self.told.live(self.history.lives, self.history.seen_within)
        last = first_of(seen, self.history.most)
        if not is_twice(seen) and problem_of(spared(lives, self.spare), seen, last)[1].least() is None:
            self.spare = 0

    def judge(self, words, reply, before, after):
        """What is wrong with a plan that was sent, by what the program was told, and with what came of it."""
        self.scripts.append(reply)
        self.plan, group, within = recover.plan_of(words, self.told.live(self.history.lives, self.history.seen_within))
        self.faults += faults_of_plan(self.plan, self.told.seen(), self.history.most, self.spare)
        self.history.within = min(self.history.asked_within + worth_of(self.plan, self.spare), 2**64 - 1)
        if (words[3], group, within) != (self.history.key, self.history.group, self.history.within):
            self.faults.append(f"the script is called for {words[3:6]}, at most at {self.history.within}")
        self.faults += live_script.faults_of(self.plan, self.history, reply, before, after)
        self.is_cheapest = live_script.is_still_cheapest(self.plan, self.history, before)


def is_missing_script(reply):
    return isinstance(reply, ErrorReply) and str(reply).startswith("NOSCRIPT")


def first_of(seen, most):
    """The last entry that a plan for the first ones moves."""
    ids, _ = problem_of([], seen, "+")
    return ids[most - 1] if most is not None and len(ids) >= most else "+"


def are_there(rows):
    """The ids, each with whether its entry is in the stream."""
    return [(entry_id, fields is not None) for entry_id, fields in rows]


def is_twice(seen):
    """Whether an entry is pending for two."""
    ids = [row[0] for own in seen.rows.values() for row in own]
    return len(set(ids)) < len(ids)


def worth_of(plan, spare):
    """What the free places are worth if each consumer acknowledges as many entries as places are left free."""
    if not spare or plan.total is None:
        return 0
    return problem_of(plan.lives, after_acks(plan.seen, spare), plan.last)[1].gap(plan.goes, plan.prices)


def faults_of_plan(plan, seen, most, spare):
    """What is wrong with a plan, by what the program was told."""
    if plan.last != first_of(seen, most):
        yield f"compared up to {plan.last}, not {first_of(seen, most)}"
    if plan.seen.removed != seen.removed:
        yield f"{plan.seen.removed} are said to have been removed, and {seen.removed} had been"
    wanted = {name: are_there(up_to(own, plan.last)) for name, own in seen.rows.items()}
    sent = {name: are_there(own) for name, own in plan.seen.rows.items()}
    ids, problem = problem_of(spared(plan.lives, spare), seen, plan.last)
    plan.seen, plan.total = seen, problem.total(plan.goes) if ids == plan.ids else None
    if sent != wanted or ids != plan.ids:
        yield f"the script gets {sent} and {plan.ids}, and Redis told {wanted}"
    elif plan.total is None or plan.total != problem.least():
        yield f"a plan at {plan.total}, and the least total is {problem.least()}"
    elif not problem.shows(plan.goes, plan.prices) or [own[0] for own in problem.loads(plan.goes)] != plan.free_loads:
        yield f"the prices {plan.prices} do not show it, or without a fee are not {plan.free_loads}"


def faults_of_print(watch, ended):
    """What is wrong with what the program prints of a plan that was carried out."""
    history, plan = watch.history, watch.plan
    _, problem = problem_of(plan.lives, watch.told.seen(), plan.last)
    gone = gone_of(watch.told.seen(), plan.last)
    if history.check:
        lines, _, text = ended.out.partition(b"reply\n")
        moves = [[entry_id, plan.lives[to].name] for entry_id, to in zip(plan.ids, plan.goes)]
        prices = [[live.name, *own] for live, own in zip(plan.lives, plan.prices)]
        wanted = [b"done", plan.total, moves, prices, [entry_id for entry_id, _ in gone]]
        if value_of(text) != wanted or not lines.startswith(b"entry " if plan.ids else (b"gone ", b"consumer ", b"")):
            yield f"printed {ended.out}, wanted {wanted}"
        return
    printed, shares = recover.Printed(ended.out), {}
    for to, live in enumerate(plan.lives):
        costs = [problem.costs[entry][to] for entry, at in enumerate(plan.goes) if at == to]
        fees = [problem.fee(to, number) for number in range(len(costs))]
        shares[live.name] = len(costs), sum(costs) + sum(fees), plan.prices[to]
    wanted = shares, plan.total, gone, tuple(watch.scripts[-1][1:])
    found = printed.shares, printed.total, printed.gone, printed.done
    if found != wanted or printed.gone_in_all != len(gone) or not printed.is_whole:
        yield f"printed {found}, wanted {wanted}"


def gone_of(seen, last):
    """The entries that are gone, each with its owner, in order of their ids."""
    rows = [(row[0], name) for name, own in seen.rows.items() for row in up_to(own, last) if row[1] is None]
    return sorted(rows, key=lambda row: number_of(row[0]))


def faults_of_end(watch, ended):
    """What is wrong with how the program ended."""
    history, last = watch.history, (watch.scripts or [None])[-1]
    seen, status = watch.told.seen(), ended.status
    watch.see_spare()
    if watch.spare != history.spare and not ended.errors.count(b"note: too few places with --spare %d" % history.spare):
        yield "it does not tell that it plans without --spare"
    if status not in (0, 3) and b"done" in ended.out + ended.errors:
        yield "it prints done"
    if isinstance(last, list) and last[0] == b"done":
        yield from faults_of_print(watch, ended) if status == 0 else ["it was carried out"]
    elif status == 4:
        stale = ended.errors.endswith(b"group: it changed while it was looked at: try again\n") and is_twice(seen)
        stale = stale or (last and recover.Printed(ended.out).stale == last)
        yield from [] if stale else [f"stale, and the script answered {last}"]
    elif status == 3:
        lives = watch.told.live(history.lives, history.seen_within)
        _, problem = problem_of(lives, seen, first_of(seen, history.most))
        yield from [] if not is_twice(seen) and problem.least() is None else [f"there is a plan for {seen}"]
    elif status != 1 or not watch.error or re.sub(rb"[^ -~]", b"?", watch.error) not in ended.errors:
        yield f"Redis told {watch.error!r}, and the script answered {last}"


def begun(connection, choice):
    """A history, and the commands that begin it. It has a plan at first, or it would seldom have one later."""
    while True:
        history = History(choice)
        setting = [["FLUSHALL"], *history.setting(), *choice.choice([[], [], [["SCRIPT", "FLUSH"]]])]
        all_replies(connection, setting)
        seen = seen_by(connection, history.key, history.group, history.dead, deliveries=history.deliveries)
        if Plan(history.lives, seen, history.most).is_possible or choice.random() < 0.1:
            return history, setting


def play(connection, proxy, choice):
    """One history: how it ended, and what is wrong."""
    history, setting = begun(connection, choice)
    watch = Watch(history, connection)
    proxy.begin(watch.act)
    names = [history.key, history.group, *choice.sample(history.dead, len(history.dead))]
    ended = recover.run(proxy.port, recover.policy_text(history.lives), "run", names, *history.options())
    faults = [*watch.faults, *faults_of_end(watch, ended)]
    if faults:
        text = f"{setting}\nlog {watch.log}\nlives {history.lives}\noptions {list(history.options())}"
        print(f"{text}\nscripts {watch.scripts!r}\nended {ended}", *faults, sep="\n")
    return worded(watch, ended), faults


def worded(watch, ended):
    """An ending as it is counted."""
    if ended.status == 0:
        return "done at a gap" if watch.scripts[-1][2] else "done"
    if ended.status == 4 and watch.scripts:
        word = watch.scripts[-1][1].decode()
        return f"stale {word}{' of a cheapest plan' if watch.is_cheapest else ''}"
    others = {1: "error of Redis", 3: "no plan", 4: "changed within a snapshot"}
    return others.get(ended.status, f"status {ended.status}")


def played(connection, histories, seed):
    """The tally of random histories, and how many of these are wrong."""
    tally, wrong = collections.Counter(), 0
    with recover.Proxy(connection.socket.getpeername()[1]) as proxy:
        for number in range(1, histories + 1):
            word, faults = play(connection, proxy, random.Random(seed * 10**9 + number))
            tally[word] += 1
            wrong += bool(faults) or bool(proxy.faults)
            if faults or proxy.faults:
                print(f"history {number} of seed {seed} is wrong", *proxy.faults, flush=True)
            proxy.faults = []
    return tally, wrong


def timed(name, part, *given):
    """Runs a part of the test, and says how long it took."""
    began = time.monotonic()
    found = part(*given)
    print(f"{name}: {time.monotonic() - began:.0f} seconds", flush=True)
    return found


def main():
    histories, seed = (list(map(int, sys.argv[1:])) + [HISTORIES, SEED][len(sys.argv) - 1 :])[:2]
    if not servers.Redis.installed():
        sys.exit("redis-server is not installed (Debian: redis-server)")
    if not os.access(recover.PROGRAM, os.X_OK):
        sys.exit(f"live: {recover.PROGRAM} is missing: set SR_RECOVER, or build crates/sr_recover")
    servers.stop_when_ended()
    tally = recover.Tally()
    with servers.Redis() as server, server.connect() as connection:
        timed("rows", recover_rows.compare, tally, connection)
        timed("names", recover_names.compare, tally, connection)
        timed("closed", recover_closed.compare, tally, connection)
        timed("json", recover_json.compare, tally, connection)
        timed("reach", recover_reach.compare, tally)
        timed("cuts", recover_cuts.compare, tally)
        timed("errors", recover_errors.compare, tally)
        timed("watch", recover_watch.compare, tally, connection)
        timed("metrics", recover_metrics.compare, tally, connection)
        ends, wrong = timed("histories", played, connection, histories, seed)
    timed("busy", recover_busy.compare, tally)
    timed("cluster", recover_cluster.compare, tally)
    print(", ".join(f"{word} {count}" for word, count in sorted(ends.items())))
    print(f"live: {tally.rows} comparisons, {tally.wrong} wrong; {histories} histories, {wrong} wrong")
    sys.exit(1 if wrong or tally.wrong else 0)


if __name__ == "__main__":
    main()
