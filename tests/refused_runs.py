#!/usr/bin/env python3
"""Has sr_server refuse one RECOVER.RUN a thousand times, and measures how much memory it keeps of that, which no contract says.

usage: tests/refused_runs.py PROGRAM

2,000 entries are stranded, and the plan gives half of them to each of two consumers. What is refused is the last growth of the run: the room
of the second consumer, when that of the first was made. Then the server may keep no more than after the first refusal, beside the record of
each run: this is what it keeps if the growth before is refused, when no room was made. A run to which nothing is refused moves all entries.
Prints what is kept; the status is 1 if that is too much, or if a run is answered by anything else. It needs cc and glibc
(tests/lib/refuse.c).
"""

import os
import subprocess
import sys
import tempfile

from lib import piped, refusing, resp

ENTRIES, RUNS = 2_000, 1_000
MOST = 4_096  # bytes that may be kept beside what the first refusal leaves

# The second consumer by name. Nothing else has as many bytes as its name, so a growth of this size is a copy of that.
FIRST, SECOND = "a", 777 * "b"

POLICY = f"""
[limits]
{FIRST} = {ENTRIES // 2}
{SECOND} = {ENTRIES // 2 + 1}
[rates."*"]
{FIRST} = 1
{SECOND} = 1
"""

# One entry is the second consumer's already, so that its list and its name are there.
BEFORE = [
    *(["XADD", "s", f"{number}-1", "c", "x"] for number in range(ENTRIES + 1)),
    ["XGROUP", "CREATE", "s", "g", "0", "MKSTREAM"],
    ["XREADGROUP", "GROUP", "g", SECOND, "COUNT", "1", "STREAMS", "s", ">"],
    ["XREADGROUP", "GROUP", "g", "dead", "STREAMS", "s", ">"],
]
RUN = ["RECOVER.RUN", "s", "g", "DEAD", "dead"]
LOOK = ["XPENDING", "s", "g"]

REFUSED = "OOM out of memory"


class Server:
    """A server with stranded entries, of which a growth can be refused while it runs."""

    def __init__(self, program, library, policy, path):
        self.shared = refusing.Shared(path)
        pipes = {"stdin": subprocess.PIPE, "stdout": subprocess.PIPE, "stderr": subprocess.DEVNULL}
        env = refusing.environment(library, 0) | {"REFUSE_BY": path}
        self.process = subprocess.Popen([program, "--stdio", "--policy", policy], env=env, **pipes)
        self.replies = resp.Replies(self.process.stdout)
        for words in BEFORE:
            self.ask(words)

    def ask(self, words):
        self.process.stdin.write(resp.spelled(*words))
        self.process.stdin.flush()
        return piped.told(self.replies, 1)[0]

    def run(self, turn):
        """Runs the recovery, and refuses this growth of those that are as large as the second name; none if it is 0."""
        self.shared.refuse(len(SECOND), turn)
        return self.ask(RUN)

    def __enter__(self):
        return self

    def __exit__(self, *_):
        self.process.stdin.close()
        self.process.wait()


def last_growth(server):
    """The number of the last growth that can be refused, found by refusing one after the other."""
    turn = 1
    while server.run(turn) == REFUSED:
        turn += 1
    return turn - 1


def kept(server, turn):
    """How many bytes more a server holds after many refused runs than after one, and whether entries were moved."""
    before, held = server.ask(LOOK), []
    for _ in range(RUNS):
        if server.run(turn) != REFUSED:
            raise SystemExit("refused_runs: a run was not refused")
        held.append(server.shared.held())
    return held[-1] - held[0], server.ask(LOOK) != before


def main():
    if len(sys.argv) != 2:
        sys.exit(__doc__.split("\n\n")[1])
    program = os.path.abspath(sys.argv[1])
    with tempfile.TemporaryDirectory() as folder:
        library, policy, path = refusing.library_in(folder), os.path.join(folder, "policy.toml"), os.path.join(folder, "shared")
        with open(policy, "w") as file:
            file.write(POLICY)

        def begun():
            return Server(program, library, policy, path)

        with begun() as server:
            turn = last_growth(server)
        with begun() as server:
            records, _ = kept(server, turn - 1)
        with begun() as server:
            all_kept, moved = kept(server, turn)
            done = server.run(0)[0]
    more = all_kept - records
    print(f"refused_runs: {RUNS:,} runs refused at growth {turn} keep {more:,} bytes beside {records:,} of records, of {MOST:,} allowed"
          f"{'; and they moved entries' if moved else ''}; then {done!r}")
    return 1 if more > MOST or moved or done != b"done" else 0


if __name__ == "__main__":
    sys.exit(main())
