"""Small problems of docs/RECOVERY.md: a cheapest assignment with prices that show it, and the least total by itself.

An assignment is the number of a consumer for each entry. Of a consumer's entries the first fill its first tier.
"""

import itertools


class Problem:
    """What each entry costs at each consumer, None if it is not allowed, and each consumer's tiers: room and fee."""

    def __init__(self, costs, tiers):
        self.costs, self.tiers = costs, tiers

    def room(self, consumer):
        return sum(room for room, _ in self.tiers[consumer])

    def fee(self, consumer, number):
        """What a consumer's entry of this number costs beside."""
        return 0 if number < self.tiers[consumer][0][0] else self.tiers[consumer][1][1]

    def loads(self, goes):
        """How many entries are in each tier of each consumer. None if one has no room for its entries."""
        given = [goes.count(consumer) for consumer in range(len(self.tiers))]
        if any(number > self.room(consumer) for consumer, number in enumerate(given)):
            return None
        first = [min(number, tiers[0][0]) for number, tiers in zip(given, self.tiers)]
        return [(free, number - free)[: len(tiers)] for free, number, tiers in zip(first, given, self.tiers)]

    def total(self, goes):
        """What an assignment costs, or None if it is not one."""
        costs, loads = [self.costs[entry][to] for entry, to in enumerate(goes)], self.loads(goes)
        if None in costs or loads is None:
            return None
        pairs = zip(loads, self.tiers)
        return sum(costs) + sum(load * fee for own, tiers in pairs for load, (_, fee) in zip(own, tiers))

    def least_of_all(self):
        """The least total of all assignments, gone through one by one, or None if there is none."""
        goes = itertools.product(range(len(self.tiers)), repeat=len(self.costs))
        return min((total for total in map(self.total, map(list, goes)) if total is not None), default=None)

    def least(self):
        """The same. Of beginnings that give each consumer as many entries only the cheapest is gone on with."""
        totals = {(0,) * len(self.tiers): 0}
        for row in self.costs:
            reached = {}
            for given, total in totals.items():
                for to, cost in enumerate(row):
                    if cost is not None and given[to] < self.room(to):
                        then = given[:to] + (given[to] + 1,) + given[to + 1 :]
                        reached[then] = min(reached.get(then, float("inf")), total + cost + self.fee(to, given[to]))
            totals = reached
        return min(totals.values(), default=None)

    def gap(self, goes, prices):
        """What the places that an assignment leaves are worth at the prices of their tiers."""
        pairs = zip(self.tiers, self.loads(goes), prices)
        return sum(price * (room - load) for own in pairs for (room, _), load, price in zip(*own))

    def shows(self, goes, prices):
        """Whether prices show it cheapest: each entry where cost, fee and price are least, a tier with a price full."""
        given = [0] * len(self.tiers)
        for row, to in zip(self.costs, goes):
            charges = {
                (at, number): cost + fee + prices[at][number]
                for at, cost in enumerate(row)
                if cost is not None
                for number, (_, fee) in enumerate(self.tiers[at])
            }
            number = int(given[to] >= self.tiers[to][0][0])
            given[to] += 1
            if charges[to, number] > min(charges.values()):
                return False
        return self.gap(goes, prices) == 0


class Columns:
    """The tiers of a problem, one after another, and the one that each entry is in so far."""

    def __init__(self, problem):
        self.problem, self.at = problem, []
        self.columns = [(to, *tier) for to, tiers in enumerate(problem.tiers) for tier in tiers]

    def charges(self, entry):
        """Cost and fee of an entry in each column that it is allowed."""
        row = self.problem.costs[entry]
        return {column: row[to] + fee for column, (to, _, fee) in enumerate(self.columns) if row[to] is not None}

    def is_full(self, column):
        return self.at.count(column) == self.columns[column][1]

    def steps(self):
        """For each entry and each other column: from where, to where, and what more it costs there."""
        for entry, start in enumerate(self.at):
            charges = self.charges(entry)
            for column, charge in charges.items():
                if column != start:
                    yield entry, start, column, charge - charges[start]

    def add(self, entry):
        """Puts the next entry in, moving others, at the least total. Says whether there is a way."""
        reached = self.charges(entry)
        by = dict.fromkeys(reached, entry)
        changing = True
        while changing:
            changing = False
            for other, start, column, more in self.steps():
                if start in reached and reached[start] + more < reached.get(column, float("inf")):
                    reached[column], by[column], changing = reached[start] + more, other, True
        ends = [column for column in reached if not self.is_full(column)]
        if not ends:
            return False
        column = min(ends, key=reached.get)
        while by[column] != entry:
            other = by[column]
            column, self.at[other] = self.at[other], column
        self.at.append(column)
        return True

    def least_prices(self):
        """The least prices that show the assignment cheapest."""
        prices, changing = [0] * len(self.columns), True
        while changing:
            changing = False
            for _, start, column, more in self.steps():
                if prices[column] < prices[start] - more:
                    prices[column], changing = prices[start] - more, True
        return prices

    def greatest_prices(self, most):
        """The greatest prices up to `most` that show it cheapest. The least ones must not be above that."""
        prices, changing = [most if self.is_full(column) else 0 for column in range(len(self.columns))], True
        while changing:
            changing = False
            for _, start, column, more in self.steps():
                if prices[start] > prices[column] + more:
                    prices[start], changing = prices[column] + more, True
        return prices

    def by_consumer(self, prices):
        """Prices by consumer, one for each of its tiers."""
        takers = range(len(self.problem.tiers))
        return [[price for price, (to, *_) in zip(prices, self.columns) if to == own] for own in takers]


def cheapest(problem, above=None):
    """A cheapest assignment and the least prices that show it, or the greatest up to so much above these; or None."""
    columns = Columns(problem)
    if not all(columns.add(entry) for entry in range(len(problem.costs))):
        return None
    prices = columns.least_prices()
    if above is not None:
        prices = columns.greatest_prices(max(prices, default=0) + above)
    return [columns.columns[column][0] for column in columns.at], columns.by_consumer(prices)
