"""Compares the solver's answers to random small problems with those of scipy.

usage: check_solver.py BENCH_SOLVER

The problems are those of `families.py small` and `small-tiers`. The independent answer is scipy's assignment of entries to single
places, of which a consumer has as many as its room, each with its fee (Debian: python3-scipy). All its sums stay below 2^53, so that
floating point is exact.
"""

import subprocess
import sys

import families
import numpy
from scipy.optimize import linear_sum_assignment


def tiers(consumer, room):
    """The tiers of a consumer, each with its room and its fee."""
    if isinstance(room, int):
        return [(consumer, room, 0)]
    return [(consumer, room[0], 0), (consumer, room[1], room[2])]


def total(rooms, rows):
    """The least total of an assignment, or `short`."""
    columns = [tier for consumer, room in enumerate(rooms) for tier in tiers(consumer, room)]
    places = [(c, fee) for c, room, fee in columns for _ in range(min(room, len(rows)))]
    if len(places) < len(rows):
        return "short"
    if not rows:
        return "0"
    # a pair that is not allowed costs more than any assignment: at most 16 entries at 2^41 each
    forbidden = 2.0**46
    matrix = numpy.array([[forbidden if row[c] is None else float(row[c] + fee) for c, fee in places] for row in rows])
    chosen, taken = linear_sum_assignment(matrix)
    if any(matrix[i, j] == forbidden for i, j in zip(chosen, taken)):
        return "short"
    return str(sum(rows[i][places[j][0]] + places[j][1] for i, j in zip(chosen, taken)))


def answers(solver, problems):
    """What the solver says of each problem: the total, or `short`."""
    given = "".join(families.text(*problem) for problem in problems)
    printed = subprocess.run([solver], input=given, stdout=subprocess.PIPE, text=True, check=True).stdout
    for (name, _, _), line in zip(problems, printed.splitlines(), strict=True):
        answer = line.removeprefix(f"{name}: ")
        yield "short" if answer.startswith("short, ") else answer.removeprefix("best, total ")


def main():
    problems = [*families.small_problems(), *families.small_tiered_problems()]
    short, wrong = 0, 0
    for (name, rooms, rows), answer in zip(problems, answers(sys.argv[1], problems), strict=True):
        expected = total(rooms, rows)
        short += expected == "short"
        if answer != expected:
            wrong += 1
            print(f"{name}, rooms {rooms}, costs {rows}: {answer}, and scipy: {expected}")
    print(f"{len(problems)} problems, {short} without an assignment, {wrong} different")
    sys.exit(wrong > 0)


main()
