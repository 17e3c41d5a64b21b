#!/usr/bin/env python3
"""Drives a hub by random schedules, and compares what it has to send to each connection with a plain model over a book.

usage: tests/hub.py HUB_DRIVER BOOK_DRIVER [RUNS [SEED]] [--wrong KIND]

A schedule is what the network and the clock do to up to fifty connections: they come and go, their bytes come in pieces that are cut
anywhere, some of what is to be sent is sent, deadlines are reached, verdicts are made, and records are dropped. The requests are commands of
all kinds on a few keys, and what is no command or no request. The model (lib/hub.py) hands each of them to `book_driver` as an event, and
after each line tells what every connection has to be sent, which of them have their letter, and which want a verdict: `hub_driver` has to
tell the same.

There are RUNS schedules, 1,000 if not given, of the seeds from SEED on: RUNS 1 makes one again. Then each wrong hub of lib/hub.py is driven by
them until it is found, and one that is not counts as a failure. With --wrong KIND that hub stands for HUB_DRIVER.
Prints the shortest beginning of a schedule that is answered wrongly; the status is 1 if there is one.
"""

import argparse
import difflib
import itertools
import os
import random
import subprocess
import sys
from concurrent.futures import ProcessPoolExecutor

from lib.hub import WRONG, Book, Model
from lib.resp import spelled
from lib.schedule import decode

RUNS, SEED = 1_000, 1
BATCH = 25  # schedules for one hub_driver
TRIES = 400  # schedules in which a wrong hub has to be found
SHOWN = 400  # characters of a line that is printed

POLICIES = [
    "",
    '[limits]\nB = 4\nC = 3\nE = 2\n[rates."*"]\nB = 1\nC = 2\nE = 2\n',
    'class_field = "f"\n[limits]\nB = 100\nC = 100\n[rates.a]\nB = 3\n[rates."*"]\nB = 2\nC = 1\n',
    '[limits]\nB = 1\n[rates."*"]\nB = 5\n',
]
BEGIN = "XGROUP CREATE s g 0 MKSTREAM", "XADD s * f a", "XADD s * f b", "XADD s * f a", "XREADGROUP GROUP g A COUNT 2 STREAMS s >"
WRONG_COMMANDS = [
    "FOO", "XADD s", "XADD s x a b", "XADD s 0-0 a b", "XREAD BLOCK -1 STREAMS s $", "RECOVER.PLAN s g", "RECOVER.RUN s g TRIES 99 DEAD A",
    "XGROUP", "XINFO NOTHING s", "RECOVER.BOARD s", "XRANGE s - x", "XREADGROUP GROUP i A STREAMS s >", "RECOVER.PLAN s i DEAD A", "ping",
]
NO_REQUESTS = [b"PING\r\n", b"*x\r\n", b"*1\r\n$-5\r\n", b"*4097\r\n", b"\0", b"*1\r\n$1\r\nab\r\n"]


class Schedule:
    """The lines of a schedule, and what the model answers to each."""

    def __init__(self, model, seed):
        self.model, self.random = model, random.Random(seed)
        self.lines, self.answers, self.coming, self.moments = [], [], {}, [1000]
        self.most = self.random.choice([1, 2, 3, 3, 4, 4, 5, 6, 8, 12, 20, 50])
        self.is_heavy = self.likely(0.04)
        self.play(f"policy {self.random.choice(POLICIES).encode().hex() or '-'}")
        self.play("connect 1000")
        if self.likely(0.8):
            self.coming[0] = spelled_all(BEGIN)
        for _ in range(self.random.choice([20, 40, 60, 60, 100]) + 2 * self.most):
            self.step()
        self.end()

    def likely(self, chance):
        return self.random.random() < chance

    def play(self, line):
        self.lines.append(line)
        self.answers.append(self.model.play(line))

    def look(self):
        self.play("look")

    def moment(self):
        """The moment of a call: now and then the clock is set back."""
        if self.likely(0.5):
            self.moments.append(self.moments[-1] + self.random.choice([1, 1, 2, 5, 20, 60]))
        return max(0, self.moments[-1] - 50) if self.likely(0.03) else self.moments[-1]

    def token(self):
        tokens = list(self.model.connections)
        return self.random.choice(tokens) if tokens and not self.likely(0.01) else 99

    # ---- steps

    def step(self):
        steps = {self.connect: 12, self.take: 50, self.go: 12, self.go_with_letter: 8, self.sent: 10, self.tick: 4, self.close: 2, self.begin: 6,
                 self.judge: 6, self.compact: 1, self.tell: 1}
        [step] = self.random.choices(list(steps), list(steps.values()))
        before = len(self.lines)
        step()
        if len(self.lines) > before and (not self.is_heavy or self.likely(0.2)):
            self.look()

    def connect(self):
        if len(self.model.connections) < self.most:
            self.play(f"connect {self.moment()}")

    def take(self):
        token = self.token()
        text = self.coming.get(token) or self.requests()
        count = len(text) if self.likely(0.5) else self.random.randint(0, min(len(text), self.random.choice([1, 20, 100, len(text)])))
        self.coming[token] = text[count:]
        self.play(f"take {token} {self.moment()} {text[:count].hex() or '-'}")

    def go(self):
        self.play(f"go {self.token()} {self.moment()}")

    def go_with_letter(self):
        given = self.model.with_letters()
        tokens = [token for token, it in self.model.connections.items() if it in given]
        if tokens:
            self.play(f"go {self.random.choice(tokens)} {self.moment()}")

    def sent(self):
        token = self.token()
        connection = self.model.connections.get(token)
        whole = len(connection.unsent) if connection else 1
        self.play(f"sent {token} {self.random.choice([0, 1, whole, whole, self.random.randint(0, whole), whole + 1])}")
        if self.is_heavy and self.likely(0.5):
            self.play(f"go {token} {self.moment()}")

    def tick(self):
        self.play(f"tick {self.moment() + self.random.choice([0, 0, 10, 100])}")

    def close(self):
        token = self.token()
        self.coming.pop(token, None)
        self.play(f"close {token} {self.moment()}")

    def begin(self):
        tokens = [token for token, it in self.model.connections.items() if it.stage == "asks"]
        if tokens:
            self.play(f"go {self.random.choice(tokens)} {self.moment()}")

    def judge(self):
        tokens = [token for token, it in self.model.connections.items() if it.stage == "judges"]
        if tokens or self.likely(0.05):
            token = self.random.choice(tokens) if tokens else self.token()
            self.play(f"{'lack' if self.likely(0.1) else 'judge'} {token} {self.moment()}")

    def compact(self):
        self.play(f"compact {self.random.choice([0, 3, 10, 1000])}")

    def tell(self):
        self.play(self.random.choice(["letters", "book", f"unsent {self.token()}"]))

    def end(self):
        """Lets all come to an end, as an event loop does that has time enough."""
        for _ in range(200):
            tokens = [token for token, it in self.model.connections.items() if it.unsent or it.stage in ("asks", "judges")]
            given = self.model.with_letters()
            tokens = {token: None for token, it in self.model.connections.items() if it in given} | dict.fromkeys(tokens)
            if not tokens:
                break
            for token in tokens:
                self.play(f"sent {token} {1 << 40}")
                self.play(f"judge {token} {self.moments[-1]}")
                self.play(f"go {token} {self.moments[-1]}")
        self.play(f"tick {self.moments[-1] + 100_000}")
        self.look()
        self.play("book")

    # ---- requests

    def requests(self):
        """The bytes of some requests, one after the other, or now and then what is none."""
        text = spelled_all([self.command() for _ in range(self.random.choice([1, 1, 1, 2, 3, 5, 8]))])
        if self.likely(0.02):
            place = self.random.randrange(len(text) + 1)
            return text[:place] + self.random.choice(NO_REQUESTS) + text[place:]
        return self.random.choice([b"*0\r\n", b"*-1\r\n"]) + text if self.likely(0.03) else text

    def command(self):
        kinds = {self.add: 12, self.look_at: 6, self.read: 8, self.read_group: 10, self.remove: 3, self.acknowledge: 4, self.claim: 4,
                 self.pending: 3, self.change_group: 4, self.inform: 2, self.recover: 8, self.wrong: 3, self.ping: 3}
        [kind] = self.random.choices(list(kinds), list(kinds.values()))
        return kind()

    def key(self):
        return self.random.choice("sssssstu")

    def group(self):
        return self.random.choice("gggggh")

    def consumer(self):
        return self.random.choice("AAABBCDE")

    def id(self):
        return f"{self.random.choice(self.moments[:10] + self.moments[-10:])}-{self.random.choice([0, 0, 0, 1])}"

    def option(self, chance, text):
        return f" {text}" if self.likely(chance) else ""

    def block(self):
        return self.option(0.7, f"BLOCK {self.random.choice([0, 0, 5, 50, 1000])}")

    def add(self):
        place = "*" if self.likely(0.8) else self.id()
        value = self.random.choice("abc") * (self.random.choice([10, 3_000, 20_000]) if self.is_heavy else 1)
        trim = self.option(0.05, f"MAXLEN {self.random.randrange(4)}") + self.option(0.05, "NOMKSTREAM")
        return f"XADD {self.key()}{trim} {place} f {value}"

    def look_at(self):
        key = self.key()
        return self.random.choice([f"XLEN {key}", f"XRANGE {key} - +", f"XREVRANGE {key} + - COUNT 2", f"XRANGE {key} {self.id()} + COUNT 3"])

    def read(self):
        options = self.option(0.3, "COUNT 1") + self.block()
        if self.likely(0.2):
            return f"XREAD{options} STREAMS s t $ {self.id()}"
        return f"XREAD{options} STREAMS {self.key()} {self.random.choice(['$', '$', '0', self.id()])}"

    def read_group(self):
        options = self.option(0.4, "COUNT 1") + self.block() + self.option(0.1, "NOACK")
        return f"XREADGROUP GROUP {self.group()} {self.consumer()}{options} STREAMS {self.key()} {self.random.choice(['>', '>', '>', '>', '0'])}"

    def remove(self):
        return self.random.choice([f"XDEL {self.key()} {self.id()}", f"XTRIM {self.key()} MAXLEN {self.random.randrange(5)}"])

    def acknowledge(self):
        return f"XACK {self.key()} {self.group()} {self.id()} {self.id()}"

    def claim(self):
        place = f"{self.key()} {self.group()} {self.consumer()} 0"
        if self.likely(0.4):
            return f"XAUTOCLAIM {place} 0 COUNT 2"
        return f"XCLAIM {place} {self.id()} {self.id()}" + self.option(0.3, "JUSTID") + self.option(0.1, "FORCE")

    def pending(self):
        return f"XPENDING {self.key()} {self.group()}" + self.option(0.6, "- + 5")

    def change_group(self):
        place = f"{self.key()} {self.group()}"
        return self.random.choice([
            f"XGROUP CREATE {place} 0 MKSTREAM", f"XGROUP CREATE {place} $ MKSTREAM", f"XGROUP CREATE {place} 0", f"XGROUP DESTROY {place}",
            f"XGROUP DELCONSUMER {place} {self.consumer()}", f"XGROUP SETID {place} 0",
        ])

    def inform(self):
        return self.random.choice([f"XINFO STREAM {self.key()}", f"XINFO GROUPS {self.key()}", f"XINFO CONSUMERS {self.key()} {self.group()}"])

    def recover(self):
        place = f"{self.random.choice('sssst')} {self.random.choice('ggggh')}"
        dead = self.random.choice(["A", "A", "A B", "A D", "D A A", "B"])
        return self.random.choice([
            f"RECOVER.PLAN {place} DEAD {dead}", f"RECOVER.RUN {place} DEAD {dead}", f"RECOVER.RUN {place} TRIES 1 DEAD {dead}",
            f"recover.run {place} tries 2 dead {dead}", f"RECOVER.BOARD {place}",
        ])

    def wrong(self):
        return self.random.choice(WRONG_COMMANDS)

    def ping(self):
        return self.random.choice(["PING", "PING there"])


def spelled_all(commands):
    return b"".join(spelled(*command.split(" ")) for command in commands)


# ---- running them


def wrong_answers(kind, book, lines):
    """What a wrong hub answers, up to where its book refuses what no right hub asks."""
    hub = WRONG[kind](book)
    for line in lines:
        try:
            yield hub.play(line)
        except ValueError as fault:
            yield str(fault)
            return


def difference(schedule, answers):
    """The place of the first line that is answered wrongly, what should have been answered and what was, or None."""
    for place, (wanted, found) in enumerate(itertools.zip_longest(schedule.answers, answers)):
        if wanted != found:
            return place, wanted, found
    return None


def run_batch(hub_program, book_program, seeds, kind=None):
    """How many lines the schedules of these seeds have, and the first of them that goes wrong, with where and how."""
    book, other = Book(book_program), Book(book_program) if kind else None
    model = Model(book)
    schedules = [(seed, Schedule(model, seed)) for seed in seeds]
    given = {}
    if kind:
        given = {seed: list(wrong_answers(kind, other, schedule.lines)) for seed, schedule in schedules}
        other.end()
    else:
        text = "".join(line + "\n" for _, schedule in schedules for line in schedule.lines)
        run = subprocess.run([hub_program], input=text, stdout=subprocess.PIPE, text=True, env={}, check=False)
        answers = iter(run.stdout.splitlines())
        given = {seed: list(itertools.islice(answers, len(schedule.lines))) for seed, schedule in schedules}
    book.end()
    for seed, schedule in schedules:
        if differs := difference(schedule, given[seed]):
            return sum(len(it.lines) for _, it in schedules), (seed, schedule.lines, differs)
    if not kind and run.returncode:
        return 0, (seeds[-1], ["the end"], (0, "status 0", f"status {run.returncode}"))
    return sum(len(it.lines) for _, it in schedules), None


def rows(answer):
    """An answer in the form for people, each of its lines cut to a length that can be read."""
    lines = decode(answer).splitlines() if answer else ["nothing"]
    return [line if len(line) <= SHOWN else f"{line[:SHOWN]}.. ({len(line)} characters)" for line in lines]


def show(what, failure):
    """Prints the beginning of a schedule up to the line that is answered wrongly, in the form of hub/*.schedule."""
    seed, lines, (place, wanted, found) = failure
    print(f"hub: {what}, seed {seed}, in line {place + 1} of {len(lines)}:")
    print(*(f"  {decode(line)}" for line in [line for line in lines[:place] if line != "look"] + lines[place:place + 1]), sep="\n")
    print(*difflib.unified_diff(rows(wanted), rows(found), "expected", "answered", lineterm=""), sep="\n", flush=True)


def run_all(hub_program, book_program, runs, seed, kind=None):
    """Runs the schedules, and prints the first failures. Returns how many batches failed."""
    batches = [range(begin, min(begin + BATCH, seed + runs)) for begin in range(seed, seed + runs, BATCH)]
    lines, wrong = 0, 0
    with ProcessPoolExecutor(os.cpu_count()) as pool:
        for count, failure in pool.map(run_batch, *zip(*((hub_program, book_program, batch, kind) for batch in batches))):
            lines += count
            if failure:
                wrong += 1
                if wrong <= 3:
                    show(f"a hub that {kind}" if kind else "wrong", failure)
    print(f"hub: {runs:,} schedules from seed {seed} on, {lines:,} lines, {wrong:,} of {len(batches):,} batches wrong", flush=True)
    return wrong


def place_found(book_program, kind, seed):
    """How many schedules it takes to find a wrong hub, or None."""
    for begin in range(seed, seed + TRIES, BATCH):
        failure = run_batch(None, book_program, range(begin, begin + BATCH), kind)[1]
        if failure:
            return failure[0] - seed + 1
    return None


def find_wrong(book_program, seed):
    """Has each wrong hub be found. Returns how many are not."""
    missed = 0
    with ProcessPoolExecutor(os.cpu_count()) as pool:
        places = pool.map(place_found, *zip(*((book_program, kind, seed) for kind in WRONG)))
        for kind, place in zip(WRONG, places):
            missed += place is None
            if place is None:
                print(f"hub: a hub that {kind} is not found by {TRIES} schedules")
    print(f"hub: {len(WRONG) - missed} of {len(WRONG)} wrong hubs found")
    return missed


def main():
    parser = argparse.ArgumentParser(usage=__doc__.split("\n\n")[1].removeprefix("usage: "))
    parser.add_argument("programs", nargs=2)
    parser.add_argument("numbers", nargs="*", type=int)
    parser.add_argument("--wrong", choices=WRONG)
    given = parser.parse_args()
    hub_program, book_program = map(os.path.abspath, given.programs)
    runs, seed = (given.numbers + [RUNS, SEED][len(given.numbers):])[:2]
    wrong = run_all(hub_program, book_program, runs, seed, given.wrong)
    if not given.wrong:
        wrong += find_wrong(book_program, seed)
    return 1 if wrong else 0


if __name__ == "__main__":
    sys.exit(main())
