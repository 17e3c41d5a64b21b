"""Times the solver and LEMON's network simplex by turns on the same problems, and prints a row for each family.

usage: turns.py BENCH_SOLVER LEMON [ROUNDS [BITS | costly]]

Each round runs both programs over all families, one after the other, so that both see the machine in the same minutes. With BITS
each consumer has half of its room at a fee below 2^BITS, or at none for 0; with `costly` the families are those that are made to take
long. The times printed are the least of all rounds; the ratios divide them. A family whose answers differ ends the run.
"""

import os
import re
import subprocess
import sys

import families

LINE = re.compile(r"(?P<family>.*): (?P<whole>[0-9.]+) ms, (?:(?P<alone>[0-9.]+) of them the simplex alone, )?(?P<answer>.*)")


def lines(command, problems):
    """The families that a program timed, with what it says of each."""
    with open(problems) as stdin:
        printed = subprocess.run(command, stdin=stdin, capture_output=True, text=True, check=True).stdout
    return {found["family"]: found for found in map(LINE.fullmatch, printed.splitlines()) if found}


def agree(ours, theirs):
    """Whether two answers are the same total, or both say that there is no assignment."""
    return ours == theirs or (ours.startswith("short") and theirs == "none")


def main():
    solver, lemon = sys.argv[1:3]
    rounds = int(sys.argv[3]) if len(sys.argv) > 3 else 3
    match sys.argv[4:]:
        case []:
            made = families.families()
        case ["costly"]:
            made = families.costly_families()
        case [bits]:
            made = families.with_tiers(int(bits))
    problems = os.path.join(os.path.dirname(lemon), "problems")
    with open(problems, "w") as out:
        out.writelines(families.text(*problem, families.TIMES) for problem in made)
    ours, whole, alone, answers = {}, {}, {}, {}
    for _ in range(rounds):
        for family, found in lines([solver], problems).items():
            ours.setdefault(family, []).append(float(found["whole"]))
            answers[family] = found["answer"]
        for family, found in lines([lemon], problems).items():
            whole.setdefault(family, []).append(float(found["whole"]))
            alone.setdefault(family, []).append(float(found["alone"]))
            if not agree(answers[family], found["answer"]):
                sys.exit(f"{family}: {answers[family]}, and LEMON: {found['answer']}")
    print("load averages:", *os.getloadavg())
    print("| Family | Ours, ms | greatest | LEMON, ms | alone | ours / LEMON | Answer of both |")
    print("|---|---|---|---|---|---|---|")
    for family, times in ours.items():
        least, other = min(times), min(whole[family])
        print(
            f"| {family} | {least:.2f} | {max(times):.2f} | {other:.2f} | {min(alone[family]):.2f} "
            f"| {least / other:.2f} | {answers[family]} |"
        )


main()
