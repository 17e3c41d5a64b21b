"""Looks for problems that take the solver long: times it and LEMON's network simplex by turns on random problems of random kinds.

usage: worst.py BENCH_SOLVER LEMON [--seed SEED] [--first NUMBER] [--problems COUNT] [--seconds SECONDS] [--tiers]

Each problem has 4,096 entries and 64 consumers and follows from the seed and its number alone. Its kind is a mix: how costs arise,
which consumers are dear, how many are allowed, how the rooms differ, and with `--tiers` how many consumers have a second tier and at
what fee. 2,000 problems are made, or as many as there is time for: no new one begins after SECONDS, 1,800 if nothing is said.

Times are those of the processor, and a problem that seems to be the worst so far is timed three times more, where the least counts: a
busy machine changes little. Each new worst is printed, and at the end the greatest time of ours and the greatest ratio to LEMON's.
`--seed SEED --first NUMBER --problems 1` times one problem again. A problem at which the answers differ ends the run.
"""

import argparse
import random
import re
import resource
import subprocess
import sys
import tempfile
import time

import families
from families import CONSUMERS, ENTRIES, MAX_COST

# How often the solver solves a problem, less the once that it takes to print the answer; and how often one that may be the worst is
# timed again.
TIMES = 2
AGAIN = 3

# A time of ours below this is never the worst ratio: what is measured there is the clock.
SHORTEST = 2.0

LINE = re.compile(r".*?: (?:(?P<whole>[0-9.]+) ms, )?(?:[0-9.]+ of them the simplex alone, )?(?P<answer>.*)")


# How costs arise: each function gives a row of costs for each entry.


def any_costs(rng):
    """Any cost below some power of two."""
    bits = rng.choice((1, 4, 16, 30, 40))
    return [[rng.getrandbits(bits) for _ in range(CONSUMERS)] for _ in range(ENTRIES)]


def weights(rng):
    """A consumer's rate, of the class that the entry belongs to, times the entry's weight."""
    classes = rng.choice((1, 1, 2, 16, 512))
    rates = [[rng.getrandbits(20) for _ in range(CONSUMERS)] for _ in range(classes)]
    heavy = [rng.getrandbits(20) for _ in range(ENTRIES)]
    if rng.random() < 0.3:
        heavy.sort(reverse=rng.random() < 0.5)
    return [[rate * weight for rate in rng.choice(rates)] for weight in heavy]


def distances(rng):
    """Distances on a line."""
    places = [rng.getrandbits(39) for _ in range(CONSUMERS)]
    positions = [rng.getrandbits(39) for _ in range(ENTRIES)]
    return [[abs(position - place) for place in places] for position in positions]


def runs(rng):
    """Runs of entries that prefer one consumer after another, with a small random part."""
    run, turn, noise = rng.choice((8, 32, 64)), rng.choice((16, 32, 64)), rng.choice((1, 20, 28))
    return [
        [((consumer - entry // run % turn) % CONSUMERS << 30) + rng.getrandbits(noise) for consumer in range(CONSUMERS)]
        for entry in range(ENTRIES)
    ]


def copies(rng):
    """Some random rows, each for many entries."""
    rows = [[rng.getrandbits(40) for _ in range(CONSUMERS)] for _ in range(rng.choice((4, 64, 700)))]
    return [list(rng.choice(rows)) for _ in range(ENTRIES)]


COSTS = (any_costs, weights, weights, distances, runs, copies)


# What changes the costs of an entry, and which of them are left.


def mask(rng, rows):
    """Makes some consumers dear to all entries, or to some."""
    kind = rng.choice(("no mask", "no mask", "one dear", "eight dear", "some dear to some", "equal for some"))
    if kind == "no mask":
        return kind
    dear = rng.sample(range(CONSUMERS), 8 if kind == "eight dear" else 1)
    step = rng.choice((2, 8))
    for entry, row in enumerate(rows):
        if kind == "equal for some" and entry % step == 0:
            row[:] = [1000] * CONSUMERS
        elif kind in ("one dear", "eight dear") or entry % step == 0:
            for consumer in dear:
                row[consumer] = MAX_COST
    return kind


def stretch(rng, rows):
    """Stretches the costs of each entry to the whole range, or leaves them as they are."""
    if rng.random() < 0.7:
        return "own ranges"
    for row in rows:
        row[:] = families.stretched(row)
    return "equal ranges"


def thin(rng, rows):
    """Allows each entry a few consumers alone, perhaps with one that all are allowed; or leaves all allowed."""
    if rng.random() < 0.5:
        return "all allowed", False
    count = rng.randint(2, 16)
    in_a_row, has_outlet = rng.random() < 0.3, rng.random() < 0.5
    for row in rows:
        if in_a_row:
            first = rng.randrange(CONSUMERS)
            kept = {(first + number) % CONSUMERS for number in range(count)}
        else:
            kept = set(rng.sample(range(CONSUMERS), count))
        outlet = max(row)
        row[:] = [cost if consumer in kept else None for consumer, cost in enumerate(row)]
        if has_outlet:
            row[-1] = outlet
    return f"{count} allowed{' in a row' * in_a_row}{' and an outlet' * has_outlet}", has_outlet


def rooms_for(rng, has_outlet):
    """How many places each consumer has, and in words how they differ."""
    spare = rng.choice((0, 0, 1, 64, 400, 1000))
    kind = rng.choice(("equal rooms", "a great room", "four great rooms", "any rooms"))
    if has_outlet and rng.random() < 0.5:
        return "a great outlet", [rng.choice((32, 48, 60))] * (CONSUMERS - 1) + [ENTRIES]
    parts = [1.0] * CONSUMERS
    if kind == "any rooms":
        parts = [rng.random() for _ in parts]
    great = 1 if kind == "a great room" else 4 if kind == "four great rooms" else 0
    for consumer in rng.sample(range(CONSUMERS), great):
        parts[consumer] = rng.choice((5, 30, 150, 1000))
    places, whole = ENTRIES + spare, sum(parts)
    sums = [round(places * sum(parts[:number]) / whole) for number in range(CONSUMERS + 1)]
    return f"{kind}, {spare} to spare", [after - before for before, after in zip(sums, sums[1:])]


def tiers(rng, rooms):
    """The rooms, some of them in two tiers at a fee."""
    bits, some = rng.choice((0, 10, 30, 37, 40)), rng.choice((0.2, 1.0))
    fee = rng.getrandbits(bits)
    one_fee = rng.random() < 0.3
    tiered = [
        families.tiered(room, fee if one_fee else rng.getrandbits(bits)) if rng.random() < some else room for room in rooms
    ]
    return f"{'one fee' if one_fee else 'fees'} below 2^{bits} at {some:.0%}", tiered


def problem(seed, number, has_tiers):
    """A problem: its name, which says its kind, its rooms and its rows of costs."""
    rng = random.Random(f"{seed} {number}")
    made = rng.choice(COSTS)
    rows = made(rng)
    words = [made.__name__.replace("_", " "), mask(rng, rows), stretch(rng, rows)]
    allowed, has_outlet = thin(rng, rows)
    differ, rooms = rooms_for(rng, has_outlet)
    words += [allowed, differ]
    if has_tiers:
        fees, rooms = tiers(rng, rooms)
        words.append(fees)
    return f"{number}, " + ", ".join(words), rooms, rows


def spent_by_children():
    """The processor time of the programs that have ended, in milliseconds."""
    usage = resource.getrusage(resource.RUSAGE_CHILDREN)
    return 1e3 * (usage.ru_utime + usage.ru_stime)


def run(command, problem_file):
    """What a program prints of the problems in a file, and its processor time in milliseconds."""
    before = spent_by_children()
    printed = subprocess.run(command, stdin=problem_file, stdout=subprocess.PIPE, text=True, check=True).stdout
    spent = spent_by_children() - before
    problem_file.seek(0)
    return LINE.fullmatch(printed.strip()), spent


def by_turns(solver, lemon, made, times):
    """The least processor time of each program, by turns; of ours, what it takes longer to solve a problem some times more."""
    once, more, theirs = [], [], []
    with tempfile.TemporaryFile("w+") as short, tempfile.TemporaryFile("w+") as long:
        for out, count in ((short, 0), (long, TIMES)):
            out.write(families.text(*made, count))
            out.seek(0)
        for _ in range(times):
            ours, spent = run([solver], short)
            once.append(spent)
            more.append(run([solver], long)[1])
            other = run([lemon, "processor"], short)[0]
            theirs.append(float(other["whole"]))
            answer = ours["answer"]
            if answer != other["answer"] and not (answer.startswith("short") and other["answer"] == "none"):
                sys.exit(f"{made[0]}: {answer}, and LEMON: {other['answer']}")
    return max(min(more) - min(once), 0) / TIMES, min(theirs)


def main():
    parser = argparse.ArgumentParser(usage=__doc__.partition("usage: ")[2].partition("\n")[0])
    parser.add_argument("solver")
    parser.add_argument("lemon")
    parser.add_argument("--seed", type=int, default=1)
    parser.add_argument("--first", type=int, default=1)
    parser.add_argument("--problems", type=int, default=2000)
    parser.add_argument("--seconds", type=int, default=1800)
    parser.add_argument("--tiers", action="store_true")
    given = parser.parse_args()
    end = time.monotonic() + given.seconds
    worst_time, worst_ratio, slow, behind, done = (0.0, ""), (0.0, ""), 0, 0, 0
    for number in range(given.first, given.first + given.problems):
        if time.monotonic() > end:
            break
        name, rooms, rows = problem(given.seed, number, given.tiers)
        ours, theirs = by_turns(given.solver, given.lemon, (name, rooms, rows), 1)
        if ours > worst_time[0] or (ours > SHORTEST and ours / theirs > worst_ratio[0]):
            again = by_turns(given.solver, given.lemon, (name, rooms, rows), AGAIN)
            ours, theirs = min(ours, again[0]), min(theirs, again[1])
        done += 1
        slow += ours > 100
        behind += ours > SHORTEST and ours > theirs
        said = f"{ours:.1f} ms, LEMON {theirs:.1f} ms, seed {given.seed}, problem {name}"
        if ours > worst_time[0]:
            worst_time = ours, said
            print(f"time: {said}", flush=True)
        if ours > SHORTEST and ours / theirs > worst_ratio[0]:
            worst_ratio = ours / theirs, said
            print(f"ratio {ours / theirs:.2f}: {said}", flush=True)
    print(f"{done} problems, {slow} above 100 ms, {behind} behind LEMON (of those above {SHORTEST:.0f} ms)")
    print(f"worst time: {worst_time[1]}")
    print(f"worst ratio {worst_ratio[0]:.2f}: {worst_ratio[1]}")


if __name__ == "__main__":
    main()
