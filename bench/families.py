"""Prints transportation problems, each made from a fixed seed.

usage: families.py [costly | ties | small | small-tiers | tiers BITS | generous BITS]

With no argument these are the 27 families on the page of sr_solver, of 4,096 entries and 64 consumers, and with `tiers` the same, where each
consumer has half of its room at a fee below 2^BITS, or at none for 0; with `generous` it has far more places at such a fee than there
are entries. With `ties` each entry costs the same at two consumers but for a constant, and the consumers come in both orders. With
`costly` they are others of this size, made to take long: few allowed pairs, from 2 to 12 for each entry, with a dear outlet that all are
allowed and without, one great room beside small ones, and both; the rooms are exact or have some to spare, and the entries are shuffled.
With `small` they are 10,000 random problems of all shapes, of at most 16 entries, and with `small-tiers` others where a consumer may have
two tiers. A problem is a line: its name and a colon, how often it is to be timed, how many entries and consumers it has, the room of each
consumer, `FIRST+NEXT@FEE` if it has two tiers, and for each entry its cost at each consumer, `-` where it is not allowed.
"""

import functools
import sys

ENTRIES = 4096
CONSUMERS = 64
MAX_COST = 1 << 40

# The room of each consumer where there is one place for each entry, and where a fifth of the places stays free.
TIGHT = [64] * CONSUMERS
SLACK = [80] * CONSUMERS

# The seed of each generator of random numbers, and the stream of those that a whole problem shares.
SEED = 2026
SHARED = 1 << 20

# Rates and weights are below this.
FACTORS = 1 << 20

# One entry out of this many is different.
PERIOD = 8

# What a tied consumer costs more than the other, and a room that is never full.
MORE = 1 << 38
GENEROUS = 1_000_000

SMALL_PROBLEMS = 10_000

# How often the solver is timed on each family; the least time counts.
TIMES = 3

MULTIPLIER = 6364136223846793005
MASK_32 = (1 << 32) - 1
MASK_64 = (1 << 64) - 1


class Pcg32:
    """M. E. O'Neill's generator PCG XSH RR 64/32, begun from a state and a stream as its reference code does."""

    def __init__(self, state, stream):
        self.increment = (stream << 1 | 1) & MASK_64
        self.state = self.after(state + self.increment & MASK_64)

    def after(self, state):
        """The state that comes after this one."""
        return state * MULTIPLIER + self.increment & MASK_64

    def next_u32(self):
        """The next 32 bits, which the state gives before it moves on."""
        state = self.state
        self.state = self.after(state)
        bits = ((state >> 18 ^ state) >> 27) & MASK_32
        turn = state >> 59
        return (bits >> turn | bits << (32 - turn)) & MASK_32

    def next_u64(self):
        """The next 64 bits, the lower half first."""
        low = self.next_u32()
        return self.next_u32() << 32 | low


# The families where each entry is allowed each consumer: a row of costs for each entry.


def random_row(rng):
    """A random cost at each consumer."""
    return [rng.next_u64() % MAX_COST for _ in range(CONSUMERS)]


@functools.cache
def random():
    """Any cost for any pair."""
    rng = Pcg32(SEED, SHARED)
    return [random_row(rng) for _ in range(ENTRIES)]


def equal():
    """The same cost for each pair."""
    return [[1000] * CONSUMERS] * ENTRIES


@functools.cache
def rates(kind):
    """The rates of the consumers for a class of entries."""
    rng = Pcg32(SEED, kind)
    return [rng.next_u64() % FACTORS for _ in range(CONSUMERS)]


def weighted(kind, weight):
    """The costs of an entry of a class and a weight: the rates times the weight."""
    return [min(rate * weight, MAX_COST) for rate in rates(kind)]


def rising():
    """A consumer's rate times an entry's weight, the weights rising."""
    return [weighted(SHARED, entry * 256) for entry in range(ENTRIES)]


def falling():
    """A consumer's rate times an entry's weight, the weights falling."""
    return [weighted(SHARED, (ENTRIES - entry) * 255) for entry in range(ENTRIES)]


def masked():
    """Rising weights, but that the last consumer costs each entry the most that a pair may: so the costs of each entry differ by
    nearly as much."""
    return [weighted(SHARED, entry * 128)[:-1] + [MAX_COST] for entry in range(ENTRIES)]


def classes(count):
    """Entries of some classes: a class gives the rates of its entries, and each entry has a random weight."""
    rng = Pcg32(SEED, SHARED)
    return [weighted(entry % count, rng.next_u64() % FACTORS) for entry in range(ENTRIES)]


def line():
    """The distance of an entry and a consumer on a line, where they stand at random."""
    rng = Pcg32(SEED, SHARED)
    places = random_row(Pcg32(SEED, 0))
    positions = [rng.next_u64() % MAX_COST for _ in range(ENTRIES)]
    return [[abs(position - place) for place in places] for position in positions]


def conveyor():
    """Runs of 32 entries that prefer the first 32 consumers in turn; each step past the preferred one costs the same, and a random
    part."""
    return [
        [((consumer - entry // 32 % 32) % CONSUMERS << 30) + cost % (1 << 20) for consumer, cost in enumerate(row)]
        for entry, row in enumerate(random())
    ]


def copies():
    """64 different random rows, each for 64 entries."""
    return [random_row(Pcg32(SEED, kind)) for kind in range(64)] * 64


# The families where some entries are allowed some consumers alone.


def allowed(is_allowed):
    """Random costs for the pairs of an entry and a consumer that this allows."""
    return [
        [cost if is_allowed(entry, consumer) else None for consumer, cost in enumerate(row)]
        for entry, row in enumerate(random())
    ]


def chain():
    """Entries that are each allowed two neighbours alone."""
    return allowed(lambda entry, consumer: consumer - entry % (CONSUMERS - 1) in (0, 1))


def blocks():
    """Nine blocks of seven consumers: an entry is allowed those of its block, and the last one, which all share."""
    return allowed(lambda entry, consumer: consumer // 7 == entry % 9 or consumer == CONSUMERS - 1)


def window():
    """Entries that are each allowed eight consumers in a row, round the end."""
    return allowed(lambda entry, consumer: (consumer - entry) % CONSUMERS < 8)


def last_is_short():
    """Any cost for any pair, but that each 64th entry, the last one too, is allowed the first consumer alone."""
    return allowed(lambda entry, consumer: entry % 64 != 63 or consumer == 0)


# The families that were found to take a solver long: each was made against an order in which entries might be placed.


def equal_eighth():
    """Masked weights, except that each eighth entry costs the same at every consumer."""
    return [row if entry % PERIOD else [1000] * CONSUMERS for entry, row in enumerate(masked())]


def confined_eighth():
    """Masked weights, except that each eighth entry, for 128 of them, is allowed the first two consumers alone."""
    rows = masked()
    for entry in range(0, 128 * PERIOD, PERIOD):
        rows[entry][2:] = [None] * (CONSUMERS - 2)
    return rows


def fallback():
    """Rising weights, and a last consumer that costs each entry 2^39 more."""
    rows = [weighted(SHARED, entry * 64) for entry in range(ENTRIES)]
    for row in rows:
        row[-1] = min(row[-1] + MAX_COST // 2, MAX_COST)
    return rows


def sparse_row(rng, count):
    """Random costs at some consumers, at most this many, at random."""
    chosen = {rng.next_u32() % CONSUMERS for _ in range(count)}
    return [cost if consumer in chosen else None for consumer, cost in enumerate(random_row(rng))]


def sparse(count):
    """Entries that are each allowed some consumers alone, at most this many, at random."""
    rng = Pcg32(SEED, SHARED)
    return [sparse_row(rng, count) for _ in range(ENTRIES)]


def uneven(small, great):
    """The same room at each consumer, except that each sixteenth, the last one too, has a great one."""
    return ([small] * 15 + [great]) * (CONSUMERS // 16)


def families():
    """Each problem: its name, its rooms and its rows of costs."""
    yield "random, tight", TIGHT, random()
    yield "equal, tight", TIGHT, equal()
    yield "rising weights, tight", TIGHT, rising()
    yield "rising weights, slack", SLACK, rising()
    yield "falling weights, tight", TIGHT, falling()
    yield "falling weights, slack", SLACK, falling()
    yield "masked weights, tight", TIGHT, masked()
    yield "masked weights, slack", SLACK, masked()
    yield "16 classes", TIGHT, classes(16)
    yield "1,024 classes", TIGHT, classes(1024)
    yield "line", TIGHT, line()
    yield "conveyor of 32", TIGHT, conveyor()
    yield "copies", TIGHT, copies()
    yield "chain", TIGHT, chain()
    yield "blocks", TIGHT, blocks()
    yield "window of 8", TIGHT, window()
    yield "shortage at the last entry", [TIGHT[0] - 1] + SLACK[1:], last_is_short()
    yield "rising weights, one place short", [TIGHT[0] - 1] + TIGHT[1:], rising()
    yield "equal eighth", SLACK, equal_eighth()
    yield "confined eighth", TIGHT, confined_eighth()
    yield "fallback", [32] * (CONSUMERS - 1) + [ENTRIES], fallback()
    yield "rooms of 1", uneven(1, 1009), masked()
    yield "rooms of 17", uneven(17, 769), masked()
    for count in range(2, 6):
        yield f"{count} allowed", SLACK, sparse(count)


# The families of few allowed pairs, and those of one great room. In most, the range of costs is the same for each entry.


def shuffled(rows):
    """The rows in a random order."""
    rng = Pcg32(SEED, 4)
    rows = list(rows)
    for last in range(len(rows) - 1, 0, -1):
        other = rng.next_u32() % (last + 1)
        rows[last], rows[other] = rows[other], rows[last]
    return rows


def chosen(rng, count, consumers):
    """This many of the first consumers, at random."""
    numbers = set()
    while len(numbers) < count:
        numbers.add(rng.next_u32() % consumers)
    return numbers


def stretched(costs):
    """The costs, stretched so that the least is 0 and the greatest is the most that a pair may cost."""
    least, greatest = min(costs), max(costs)
    return [(cost - least) * MAX_COST // max(greatest - least, 1) for cost in costs]


def equal_ranges(count):
    """Entries that are each allowed this many consumers, where the least cost is 0 and the greatest the most that may be."""
    rng = Pcg32(SEED, 5)
    rows = []
    for _ in range(ENTRIES):
        row = [None] * CONSUMERS
        numbers = chosen(rng, count, CONSUMERS)
        for consumer, cost in zip(numbers, stretched([rng.next_u64() % MAX_COST for _ in numbers])):
            row[consumer] = cost
        rows.append(row)
    return rows


def outlet(count):
    """Entries that are each allowed this many consumers, at costs where the least is 0, and the last one, which costs the most that
    a pair may."""
    rows = equal_ranges(count)
    for row in rows:
        row[:] = [cost if cost is None else cost // 2 for cost in row[:-1]] + [MAX_COST]
    return rows


def sparse_weights(count):
    """Entries that are each allowed this many consumers, at their rates times the weight of the entry."""
    rng = Pcg32(SEED, 6)
    rows = []
    for row in rising():
        numbers = chosen(rng, count, CONSUMERS)
        rows.append([cost if consumer in numbers else None for consumer, cost in enumerate(row)])
    return shuffled(rows)


def great_room(great, entries):
    """The rooms for this many entries: a great one, and the rest in equal parts."""
    rest, others = entries - great, CONSUMERS - 1
    return [great] + [rest * (number + 1) // others - rest * number // others for number in range(others)]


def mixed_counts(least, most, has_outlet):
    """Entries that are each allowed from `least` to `most` consumers at random costs, and perhaps the last one, which costs the most
    that a pair may; shuffled."""
    rng = Pcg32(SEED, 7)
    rows = []
    for entry in range(ENTRIES):
        row = [None] * CONSUMERS
        for consumer in chosen(rng, least + entry % (most - least + 1), CONSUMERS - 1):
            row[consumer] = rng.next_u64() % (MAX_COST // 2)
        if has_outlet:
            row[-1] = MAX_COST
        rows.append(row)
    return shuffled(rows)


def with_great_consumer(count, has_outlet):
    """Entries that are each allowed the first consumer, at random costs, and this many others at their rates times the weight of the
    entry, perhaps the last one too, which costs the most that a pair may; shuffled."""
    rng = Pcg32(SEED, 8)
    rows = []
    for row in masked():
        numbers = chosen(rng, count, CONSUMERS - 2)
        kept = [cost if consumer in numbers else None for consumer, cost in enumerate(row[1:-1])]
        rows.append([rng.next_u64() % MAX_COST, *kept, MAX_COST if has_outlet else None])
    return shuffled(rows)


def mixed_families():
    """Each problem: its name, its rooms and its rows of costs. One great room, from 2 to 12 allowed consumers, an outlet or none."""
    small = [52] * (CONSUMERS - 1)
    yield "2 to 12 allowed, spare", [72] * (CONSUMERS - 1) + [0], mixed_counts(2, 12, False)
    yield "2 to 4 allowed, spare", [72] * (CONSUMERS - 1) + [0], mixed_counts(2, 4, False)
    yield "2 to 12 allowed and an outlet, exact", small + [ENTRIES - sum(small)], mixed_counts(2, 12, True)
    yield "2 to 4 allowed and an outlet, spare", [32] * (CONSUMERS - 1) + [ENTRIES], mixed_counts(2, 4, True)
    yield "8 to 12 allowed and an outlet, spare", small + [ENTRIES], mixed_counts(8, 12, True)
    for great, count in ((512, 3), (1024, 8), (3072, 2), (3900, 12)):
        rooms = great_room(great, ENTRIES)
        yield f"a room of {great}, {count} allowed and an outlet", rooms[:-1] + [ENTRIES], with_great_consumer(count, True)
    yield "a room of 2,048, 6 allowed, spare", great_room(2048, ENTRIES + 2048), with_great_consumer(6, False)


def costly_families():
    """Each problem: its name, its rooms and its rows of costs."""
    spare = ENTRIES + ENTRIES // 16
    for count in range(2, 13):
        yield f"{count} allowed, equal ranges", SLACK, equal_ranges(count)
        # all places but for those of the outlet are for three quarters of the entries, or for nearly all
        yield f"{count} allowed and an outlet", [48] * (CONSUMERS - 1) + [ENTRIES], outlet(count)
        yield f"{count} allowed and an outlet, exact", TIGHT, outlet(count)
        yield f"{count} allowed, rising weights", SLACK, sparse_weights(count)
    for great in (512, 1024, 2048, 3072, 3900):
        for kind, rows in (("masked", shuffled(masked())), ("rising", shuffled(rising()))):
            yield f"a room of {great}, {kind} weights, exact", great_room(great, ENTRIES), rows
            yield f"a room of {great}, {kind} weights, spare", great_room(great, spare), rows
    yield from mixed_families()


def tiered(room, fee):
    """A room of two tiers: half of it, and the rest at a fee."""
    return room // 2, room - room // 2, fee


def with_tiers(bits):
    """The families, where each consumer has half of its room at a fee of its own below 2^bits."""
    rng = Pcg32(SEED, 2)
    fees = [rng.next_u64() % (1 << bits) if bits else 0 for _ in range(CONSUMERS)]
    for name, rooms, rows in families():
        yield name, [tiered(room, fee) for room, fee in zip(rooms, fees)], rows


def generous(bits):
    """The families, where each consumer has half of its room, and far more than there are entries at a fee of its own below 2^bits."""
    for name, rooms, rows in with_tiers(bits):
        yield name, [(first, GENEROUS, fee) for first, _, fee in rooms], rows


# The families of ties.


def tied_families():
    """Each problem: its name, its rooms and its rows of costs. Half of the consumers cost a constant more than others of the same rate, or
    the same, and a fee."""
    half = CONSUMERS // 2
    rows = [row[:half] for row in classes(1)]
    twins = [row + [min(cost + MORE, MAX_COST) for cost in row] for row in rows]
    few_rates = [[*row[:8] * 4, *[min(cost + MORE, MAX_COST) for cost in row[:8]] * 4] for row in rows]
    pool = [row + [min(row[0] + MORE, MAX_COST)] * half for row in rows]
    at_a_fee = TIGHT[:half] + [(0, room, MORE) for room in TIGHT[half:]]
    problems = [
        ("twins", TIGHT, twins),
        ("twins, slack", SLACK, twins),
        ("twins of eight rates", TIGHT, few_rates),
        ("twins at a fee", at_a_fee, [row + row for row in rows]),
        ("a pool of one rate", TIGHT, pool),
        ("a pool of one rate at a fee", at_a_fee, [row + [row[0]] * half for row in rows]),
        ("one rate, half at a fee", at_a_fee, [[row[0]] * CONSUMERS for row in rows]),
    ]
    for name, rooms, costs in problems:
        yield name, rooms, costs
        yield f"{name}, turned", rooms[::-1], [row[::-1] for row in costs]


# Random small problems of all shapes.


def small_rooms(rng):
    """The rooms of 1, of 64 or of up to six consumers, none of them greater than 0, 1, 2 or 20."""
    kind = rng.next_u32() % 8
    consumers = (1, 64)[kind] if kind < 2 else rng.next_u32() % 7
    greatest = (0, 1, 2, 20)[rng.next_u32() % 4]
    return [rng.next_u32() % (greatest + 1) for _ in range(consumers)]


def small_cost(rng, kind):
    """A cost of one kind: equal, small, near the greatest, or any."""
    if kind == 0:
        return 7
    if kind == 1:
        return rng.next_u64() % 4
    if kind == 2:
        return MAX_COST - rng.next_u64() % 2
    return rng.next_u64() % MAX_COST


def small_pair(rng, kind, most):
    """A cost, or `None`: the greater `most`, the more pairs are allowed, and at 5 all."""
    cost = small_cost(rng, kind)
    return cost if rng.next_u32() % 5 < most else None


def small_problems():
    """Each problem: its name, its rooms and its rows of costs."""
    rng = Pcg32(SEED, 1)
    for number in range(1, SMALL_PROBLEMS + 1):
        rooms = small_rooms(rng)
        entries = rng.next_u32() % 17
        most, kind = rng.next_u32() % 6, rng.next_u32() % 4
        rows = [[small_pair(rng, kind, most) for _ in rooms] for _ in range(entries)]
        yield f"small {number}", rooms, rows


def small_tier(rng, room, kind):
    """This room, or a part of it and the rest at a fee of the same kind as the costs."""
    if rng.next_u32() % 3 == 0:
        return room
    first = rng.next_u32() % (room + 1)
    return first, room - first, small_cost(rng, kind)


def small_tiered_problems():
    """Random small problems where a consumer may have two tiers."""
    rng = Pcg32(SEED, 3)
    for number in range(1, SMALL_PROBLEMS + 1):
        kind = rng.next_u32() % 4
        rooms = [small_tier(rng, room, kind) for room in small_rooms(rng)]
        entries = rng.next_u32() % 17
        most = rng.next_u32() % 6
        rows = [[small_pair(rng, kind, most) for _ in rooms] for _ in range(entries)]
        yield f"tiers {number}", rooms, rows


def spelled(room):
    """The room of a consumer, of one tier or of two."""
    return str(room) if isinstance(room, int) else "{}+{}@{}".format(*room)


def text(name, rooms, rows, times=0):
    """A problem as it is printed, to be timed so often."""
    costs = ("-" if cost is None else str(cost) for row in rows for cost in row)
    return f"{name}: " + " ".join([str(times), str(len(rows)), str(len(rooms)), *map(spelled, rooms), *costs]) + "\n"


def main():
    match sys.argv[1:]:
        case []:
            problems, times = families(), TIMES
        case ["costly"]:
            problems, times = costly_families(), TIMES
        case ["ties"]:
            problems, times = tied_families(), TIMES
        case ["generous", bits] if bits.isdecimal():
            problems, times = generous(int(bits)), TIMES
        case ["tiers", bits] if bits.isdecimal():
            problems, times = with_tiers(int(bits)), TIMES
        case ["small"]:
            problems, times = small_problems(), 0
        case ["small-tiers"]:
            problems, times = small_tiered_problems(), 0
        case _:
            sys.exit("usage: families.py [costly | ties | small | small-tiers | tiers BITS | generous BITS]")
    sys.stdout.writelines(text(*problem, times) for problem in problems)


if __name__ == "__main__":
    main()
