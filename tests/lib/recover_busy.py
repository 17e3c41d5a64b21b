"""sr_recover at a busy group: clients read and acknowledge without pause while plans are made and carried out.

The proxy wraps the call of the script in MULTI and EXEC, with XINFO CONSUMERS before it, so that what the script saw is
known. The true loss is what the plan costs at that moment less the least total of that moment, which lib/flow.py finds
by itself: the printed gap may not be below it.

`--within` allows for what is acknowledged, and not for what is read. So it matters what the plan fills: a busy consumer
that it fills to its limit, or to its soft limit, has no room for one entry more than it had in the snapshot. In the
roomy group busy consumers have no soft limit and some room to spare, and nine of ten runs have to be done. In the tight
group about half of them are filled, and how many runs are done is only printed, as it is with `--spare`.
"""

import collections
import multiprocessing
import os
import random

from .flow import least_total
from .live import Live, Script, all_replies, texts, tiers
from .recover import Printed, Proxy, Sent, passed_on, plan_of, policy_text, run
from .resp import encoded
from .servers import Connection, Redis

ENTRIES = int(os.environ.get("BUSY_ENTRIES", "4096"))  # fewer for a slow build of the program
TAKERS, CLIENTS, RUNS, TRIES = 64, 20, 10, 3
PROCESSES = 4  # in which the clients are
SIZES = (10, 30, 60)  # of what an entry holds
CLASSES = [b"k%d" % number for number in range(4)]
MOST_READ = 2  # entries that a client reads at once
PART = 100  # of the total: what `--within` allows
PATIENCE = 60_000  # milliseconds: Redis has much to do


class Group:
    """The stranded entries by kind, and the consumers, of which the first few are busy."""

    def __init__(self, choice, entries, takers, clients, spare):
        self.kinds = [(name, size) for name in CLASSES for size in SIZES]
        self.stranded = [choice.choice(self.kinds) for _ in range(entries)]
        spares = [spare] * clients + [0] * (takers - clients)
        self.lives = [self.live(choice, b"w%02d" % at, entries // takers, more) for at, more in enumerate(spares)]

    @staticmethod
    def live(choice, name, share, spare):
        """About half of the consumers will be full. `spare` is added to the limit of a busy one."""
        limit = choice.randint(share, 3 * share)
        tier = (limit // 2, choice.randint(1, 3000)) if not spare and choice.random() < 0.2 else None
        return Live(name, limit + spare, tier, {kind: choice.randint(1, 50) for kind in CLASSES})

    def weight(self, kind):
        """That of the fields `c` and `v` and their values."""
        name, size = kind
        return 2 + len(name) + size

    def commands(self):
        yield from (["FLUSHALL"], ["XGROUP", "CREATE", "s", "g", 0, "MKSTREAM"])
        for at, (name, size) in enumerate(self.stranded, 1):
            yield ["XADD", "s", f"{at}-1", "c", name, "v", "v" * size]
        yield ["XREADGROUP", "GROUP", "g", "D", "COUNT", len(self.stranded), "STREAMS", "s", ">"]

    def problem(self, numbers):
        """How many entries of each kind there are, what one costs in each column, and each column's room."""
        columns = [(live, *tier) for live in self.lives for tier in tiers(live, numbers.get(live.name, 0))]
        costs = [[live.rates[kind[0]] * self.weight(kind) + fee for live, _, fee in columns] for kind in self.kinds]
        return [self.stranded.count(kind) for kind in self.kinds], costs, [room for _, room, _ in columns]

    def total(self, plan, numbers):
        """What a plan costs if this many entries are pending for each consumer, or None if one has no room."""
        total = 0
        for to, live in enumerate(self.lives):
            given = [at for at, goes in enumerate(plan.goes) if goes == to]
            own = tiers(live, numbers.get(live.name, 0))
            if len(given) > sum(room for room, _ in own):
                return None
            total += sum(live.rates[self.stranded[at][0]] * self.weight(self.stranded[at]) for at in given)
            total += own[-1][1] * max(0, len(given) - own[0][0])
        return total


def work(port, names, ends):
    """Some clients, each of which adds entries, reads as many and acknowledges them, again and again."""
    choice = random.Random(os.getpid())
    connections = [Connection(port) for _ in names]
    while not ends.is_set():
        for name, connection in zip(names, connections):
            read(connection, name, choice.randint(1, MOST_READ))


def read(connection, name, number):
    replies = all_replies(connection, [
        *[["XADD", "s", "*", "c", "k0"]] * number,
        ["XREADGROUP", "GROUP", "g", name, "COUNT", number, "STREAMS", "s", ">"],
    ])
    if isinstance(replies[-1], list):
        ids = [entry[0] for entry in replies[-1][0][1]]
        all_replies(connection, [["XACK", "s", "g", *ids], ["XDEL", "s", *ids]])


class Clients:
    """Clients that work as long as they are there."""

    def __init__(self, port, lives):
        self.ends = multiprocessing.Event()
        names = [live.name for live in lives]
        parts = [names[first::PROCESSES] for first in range(PROCESSES)]
        works = [(port, part, self.ends) for part in parts]
        self.processes = [multiprocessing.Process(target=work, args=given, daemon=True) for given in works]

    def __enter__(self):
        for process in self.processes:
            process.start()

    def __exit__(self, *_):
        self.ends.set()
        for process in self.processes:
            process.join()


class Watch:
    """Keeps each call of the script with what it saw and what it answered."""

    def __init__(self):
        self.scripts = []

    def act(self, call):
        if not call.is_script():
            return passed_on(call)
        for words in (["MULTI"], ["XINFO", "CONSUMERS", "s", "g"], call.words, ["EXEC"]):
            call.server.send(*words)
        *_, (consumers, answer) = [call.server.reply() for _ in range(4)]
        numbers = {texts(one)[b"name"]: texts(one)[b"pending"] for one in consumers}
        self.scripts.append((call.words, numbers, answer))
        return Sent(encoded(answer))


def judged(tally, group, script, printed, spare, asked):
    """Compares what is printed with the state that the script saw. The gap and the loss."""
    words, numbers, answer = script
    plan, _, within = plan_of(words, group.lives)
    tally.check(f"busy: within {within} with --spare {spare}", True, within > asked if spare else within == asked)
    total, least = group.total(plan, numbers), least_total(*group.problem(numbers))
    gap = printed.done[1]
    wanted = tuple(answer[1:]), len(group.stranded), total
    tally.check("busy: what is printed", wanted, (printed.done, printed.done[0], printed.total))
    loss = total - least
    tally.check(f"busy: a loss of {loss}, a gap of {gap}, within {within}", True, 0 <= loss <= gap <= within)
    return gap, loss


def give_back(connection, group):
    """Has the dead consumer have its entries again."""
    ids = [f"{at}-1" for at in range(1, len(group.stranded) + 1)]
    parts = [ids[at : at + 1000] for at in range(0, len(ids), 1000)]
    all_replies(connection, (["XCLAIM", "s", "g", "D", 0, *part, "JUSTID"] for part in parts))


def played(tally, server, group, clients, spare, runs=RUNS):
    """How many of the runs were done, at which gaps and losses, and why others were not."""
    done, reasons = [], collections.Counter()
    policy = policy_text(group.lives)
    with server.connect(120) as connection, Proxy(server.port) as proxy:
        all_replies(connection, group.commands())
        Script(connection)  # so that no run has to send it
        total = Printed(run(server.port, policy, "plan", ["s", "g", "D"], "--timeout", PATIENCE).out).total
        with Clients(server.port, group.lives[:clients]):
            for _ in range(runs):
                watch = Watch()
                proxy.begin(watch.act)
                options = ["--tries", TRIES, "--within", total // PART, "--spare", spare, "--timeout", PATIENCE]
                found = run(proxy.port, policy, "run", ["s", "g", "D"], *options)
                reasons.update(answer[1].decode() for *_, answer in watch.scripts if answer[0] == b"stale")
                if found.status == 0:
                    done.append(judged(tally, group, watch.scripts[-1], Printed(found.out), spare, total // PART))
                else:
                    tally.check("busy: status", (4, b""), (found.status, found.errors))
                give_back(connection, group)
        tally.check("busy: the proxy's faults", [], proxy.faults)
    return done, reasons, total


def compare(tally):
    """Compares runs at both groups."""
    groups = ("roomy", ENTRIES // 10, 0, RUNS * 9 // 10), ("tight", 0, 0, 0), ("tight, with --spare", 0, MOST_READ, 0)
    for name, room, spare, least in groups:
        group = Group(random.Random(7), ENTRIES, TAKERS, CLIENTS, room)
        with Redis() as server:
            done, reasons, total = played(tally, server, group, CLIENTS, spare)
        tally.check(f"a busy group that is {name}: {len(done)} of {RUNS} runs are done", True, len(done) >= least)
        told = ", ".join(f"{word} {count}" for word, count in sorted(reasons.items())) or "none"
        gap, loss = map(max, zip(*done)) if done else (0, 0)
        limits = f"within {total // PART} of {total}: greatest gap {gap}, greatest loss {loss}"
        print(f"a busy group that is {name}: {len(done)} of {RUNS} runs done, {limits}; stale: {told}", flush=True)
