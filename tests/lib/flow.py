"""The least total of a large problem of docs/RECOVERY.md whose entries are of few kinds, found without prices.

A column is a tier of a consumer. The first tier of a consumer costs no more than the second, so a cheapest way fills it
first without being told to.
"""

INFINITE = float("inf")


class Flow:
    """Entries of a few kinds in columns that have room for some. More of them come in by a cheapest way each."""

    def __init__(self, costs, rooms):
        """`costs` has for each kind what an entry costs in each column, or None if it is not allowed there."""
        self.costs, self.left, self.total = costs, list(rooms), 0
        self.given = [[0] * len(rooms) for _ in costs]

    def reach(self, kind):
        """What one more entry of a kind costs in each column if others move on for it, and the kind that goes there.

        Third, for each kind that moves on: what that costs until it leaves, and the column that it leaves.
        """
        costs, ways, starts, waiting = [INFINITE] * len(self.left), [None] * len(self.left), {kind: (0, None)}, [kind]
        while waiting:
            one = waiting.pop(0)
            base = starts[one][0]
            for column, cost in enumerate(self.costs[one]):
                if cost is None or base + cost >= costs[column]:
                    continue
                costs[column], ways[column] = base + cost, one
                for other, given in enumerate(self.given):
                    start = costs[column] - (self.costs[other][column] or 0)
                    if given[column] and start < starts.get(other, (INFINITE, None))[0]:
                        starts[other] = start, column
                        waiting += [] if other in waiting else [other]
        return costs, ways, starts

    def add(self, kind, number):
        """Puts entries of a kind in. Says whether there is room."""
        while number:
            costs, ways, starts = self.reach(kind)
            end = min((column for column, left in enumerate(self.left) if left), key=costs.__getitem__, default=None)
            if end is None or costs[end] == INFINITE:
                return False
            path, column = [], end
            while column is not None:
                path.append((ways[column], column))
                column = starts[ways[column]][1]
            moved = [self.given[one][came] for (one, _), (_, came) in zip(path, path[1:])]
            step = min(number, self.left[end], *moved)
            for one, column in path:
                self.given[one][column] += step
            for (one, _), (_, came) in zip(path, path[1:]):
                self.given[one][came] -= step
            self.left[end] -= step
            self.total += step * costs[end]
            number -= step
        return True


def least_total(numbers, costs, rooms):
    """The least total of this many entries of each kind, or None if there is no room for them."""
    flow = Flow(costs, rooms)
    return flow.total if all(flow.add(kind, number) for kind, number in enumerate(numbers)) else None
