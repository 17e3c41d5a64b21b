#!/usr/bin/env python3
"""Runs sr_server once for each allocation that it makes, and refuses that allocation alone.

usage: tests/refused_memory.py PROGRAM

A request that memory is refused to is answered by `-OOM out of memory`, and changes nothing. Or the program ends with status 1 and a line
that says so, and has written the first of the right replies.

- Commands that are sent at once: the model of model.py is not given the refused one, and what it replies to all others has to be replied.
- Commands on a stream whose entries are packed, and on a group whose lists are longer than a block, of which the first ones get all their
  memory: likewise.
- A recovery under a policy, one request after the other: a refused one is sent again, and then it and all others have to be replied as
  bulk_move.py says. Before a refused RECOVER.RUN is sent again, each entry is where it was, and as it was.

And once the random bytes that the program needs are refused: it says so, though its policy file is missing too, and replies nothing.

Prints the runs in which anything else happens; then the status is 1. It needs cc and glibc (tests/lib/refuse.c).
"""

import io
import itertools
import os
import subprocess
import sys
import tempfile
from concurrent.futures import ThreadPoolExecutor

import bulk_move
from lib import piped, refusing, resp
from lib.model import Model
from lib.piped import LONG

SECONDS = 60
BATCH = 64  # runs that are begun before the first of them is looked at

REFUSED = "OOM out of memory"
LINES = ["start: out of memory", "session: out of memory"]
POLICY_LINE = "policy: out of memory"


class Pinged(Model):
    """The model, which also replies to PING."""

    def ping(self):
        return b"PONG"


# The server reads them at once.
RUN = ["PING", "XADD s 1-1 a b", "XLEN s", "XRANGE s - +"]

# The server reads 4,096 bytes at a time, so these come in three pieces, of which two end within a request.
GROUPS = [
    "XADD s 1-1 a b",
    f"XADD s 2-1 a {2500 * 'x'} c d",
    "XGROUP CREATE s g 0",
    "XGROUP CREATE t h $ MKSTREAM",
    "XADD s NOMKSTREAM MAXLEN = 3 3-1 a b",
    "XREADGROUP GROUP g D COUNT 2 STREAMS s >",
    f"XADD s MINID = 2 4-1 a {2500 * 'y'}",
    "XREADGROUP GROUP g E STREAMS s >",
    "XPENDING s g",
    "XREADGROUP GROUP g D STREAMS s 0",
    f"XCLAIM s g F 0 3-1 IDLE {LONG} RETRYCOUNT 7 JUSTID",
    "XPENDING s g - + 10",
    "XAUTOCLAIM s g F 0 - COUNT 2",
    "XINFO CONSUMERS s g",
    "XACK s g 2-1 3-1",
    f"XADD t 1-1 a {2500 * 'z'}",
    "XREADGROUP GROUP h D STREAMS t >",
    "XPENDING s g",
    "XDEL s 4-1 2-1",
    "XGROUP DELCONSUMER s g E",
    "XREVRANGE s + -",
    "XTRIM t MAXLEN 0",
    "XLEN t",
    "XGROUP CREATECONSUMER s g D",
    "XGROUP SETID s g 3",
    "XREADGROUP GROUP g G STREAMS s >",
    "XINFO GROUPS s",
    "XINFO GROUPS t",
    "XPENDING s g - + 10",
    "XGROUP DESTROY t h",
    "XINFO GROUPS t",
]

# Lists of pending entries that get their first blocks, and more entries in the middle. The commands before these get all their memory.
FILLED = [*(f"XADD s {number}-1 a b" for number in range(1, 1501)), "XGROUP CREATE s g 0", "XREADGROUP GROUP g D COUNT 600 STREAMS s >"]
BLOCKS = [
    "XREADGROUP GROUP g D COUNT 700 STREAMS s >",
    "XREADGROUP GROUP g E COUNT 20 STREAMS s >",
    "XCLAIM s g E 0 5-1 400-1 700-1 JUSTID",
    "XACK s g 2-1 650-1 651-1 1299-1",
    "XAUTOCLAIM s g F 0 600 COUNT 3 JUSTID",
    "XGROUP SETID s g 3",
    "XREADGROUP GROUP g E COUNT 2 STREAMS s >",
    "XPENDING s g",
    "XPENDING s g - + 2000",
    "XPENDING s g - + 2000 E",
    "XGROUP DELCONSUMER s g D",
    "XPENDING s g - + 2000",
]

# Entries of which so many lie open that they are packed. The commands before these get all their memory.
NEARLY = [f"XADD s {number}-1 a b" for number in range(1, 125)]
PACKED = [
    *(f"XADD s {number}-1 a b" for number in range(125, 133)),
    "XRANGE s 120 + COUNT 20",
    "XDEL s 5-1 64-1 131-1",
    "XTRIM s MAXLEN 100",
    "XREVRANGE s + - COUNT 12",
    "XRANGE s - +",
    f"XADD s {2**40}-1 c d",
    "XLEN s",
]

# What is pending before the small recovery of bulk_move.py is made. In the place of an idle time is whether it is long.
STRANDED = [
    [b"1-1", b"D", False, 1], [b"2-1", b"D", True, 5], [b"3-1", b"D", True, 5], [b"4-1", b"E", False, 1],
    [b"5-1", b"D", True, 5], [b"6-1", b"B", False, 1], [b"7-1", b"W", True, 1],
]
LOOK = ["XPENDING", "s", "g", "-", "+", "10"]


class Run:
    """What came of a run: whether it came to the refused allocation, which requests were refused, whether it ended early, with which line, and
    what is wrong."""

    def __init__(self):
        self.reached, self.refused, self.ended, self.line, self.wrong = False, [], False, None, None

    def end(self, status, errors, lines):
        """Takes in how the program ended. Only what was refused ends it early, and then no request was refused as well."""
        told = errors.decode(errors="replace").splitlines()
        self.reached = "refused" in told
        told = [line for line in told if line != "refused"]
        is_refused = self.reached and status == 1 and len(told) == 1 and told[0] in lines and not self.refused
        is_whole = (status, told) == (0, []) and not self.ended and len(self.refused) <= self.reached
        if not is_refused and not is_whole and not self.wrong:
            self.wrong = f"status {status}, lines {told}, ended early: {self.ended}, refused: {self.refused}"
        self.ended, self.line = is_refused, told[0] if is_refused else None


def judge(run, commands, output):
    """Compares the replies to commands with those of a model that is given all but the refused ones."""
    replies, model = resp.Replies(output), Pinged()
    for words in commands:
        if not output.peek(1):
            run.ended = True
            return
        [reply] = piped.told(replies, 1)
        if reply == REFUSED:
            run.refused.append(words[0])
            continue
        wanted, reply = model.reply(words), piped.without_clock(words, reply)
        if reply != wanted:
            run.wrong = f"{' '.join(words)[:80]}, {piped.difference(wanted, reply)}"
            return
    if output.peek(1):
        run.wrong = "there are more replies than commands"


def sent_at_once(program, library, commands, path, number):
    """A run that gets these commands from a file."""
    run = Run()
    with open(path, "rb") as file:
        ran = subprocess.run([program, "--stdio"], stdin=file, capture_output=True, env=refusing.environment(library, number), timeout=SECONDS)
    judge(run, commands, io.BufferedReader(io.BytesIO(ran.stdout)))
    run.end(ran.returncode, ran.stderr, LINES)
    return run


def recovered(program, library, policy, number):
    """A run that gets the commands of the small recovery one after the other, and a refused one again."""
    run, pipes = Run(), {"stdin": subprocess.PIPE, "stdout": subprocess.PIPE, "stderr": subprocess.PIPE}
    process = subprocess.Popen([program, "--stdio", "--policy", policy], env=refusing.environment(library, number), **pipes)
    replies = resp.Replies(process.stdout)

    def ask(words):
        process.stdin.write(resp.spelled(*words))
        process.stdin.flush()
        [reply] = piped.told(replies, 1)
        return bulk_move.without_prices(words, piped.without_clock(words, reply))

    try:
        for command, wanted in bulk_move.SMALL:
            words = command.split()
            reply = ask(words)
            if reply == REFUSED:
                run.refused.append(words[0])
                if words[0] == "RECOVER.RUN":
                    compare(run, f"after a refused {command}", STRANDED, ask(LOOK))
                reply = ask(words)
            compare(run, command, wanted, reply)
    except (BrokenPipeError, ConnectionError):
        run.ended = True
    try:
        process.stdin.close()
    except BrokenPipeError:
        pass
    process.stdout.read()
    errors = process.stderr.read()
    run.end(process.wait(SECONDS), errors, [*LINES, POLICY_LINE])
    return run


def without_random(program, library):
    """Whether a run that gets no random bytes does anything but say so."""
    pipes = {"input": resp.spelled("PING"), "capture_output": True, "env": {"LD_PRELOAD": library, "REFUSE_RANDOM": "1"}}
    ran = subprocess.run([program, "--stdio", "--policy", "missing.toml"], timeout=SECONDS, check=False, **pipes)
    found, wanted = (ran.returncode, ran.stdout, ran.stderr), (1, b"", b"start: no random source\n")
    print(f"refused_memory, no random bytes: {'as expected' if found == wanted else found}", flush=True)
    return found != wanted


def compare(run, name, wanted, reply):
    if reply != wanted and not run.wrong:
        run.wrong = f"{name}, {piped.difference(wanted, reply)}"


def first_behind(run_with):
    """The number of the first allocation that a run does not make."""
    made, not_made = 0, 1
    while run_with(not_made).reached:
        made, not_made = not_made, 2 * not_made
    while made + 1 < not_made:
        middle = (made + not_made) // 2
        made, not_made = (middle, not_made) if run_with(middle).reached else (made, middle)
    return not_made


def walk(name, run_with, needed, least=1, lines=()):
    """Refuses the allocations of a run in turn, up to the run that makes fewer. Tells what came of it. Some `needed` request has to be refused,
    and for each of these lines some run has to end with it."""
    runs = []
    with ThreadPoolExecutor(os.cpu_count()) as pool:
        for first in itertools.count(least, BATCH):
            runs += pool.map(run_with, range(first, first + BATCH))
            if not runs[-1].reached:
                break
    count = next(place for place, run in enumerate(runs) if not run.reached)
    runs = runs[: count + 1]
    wrong = [f"allocation {number}: {run.wrong}" for number, run in enumerate(runs, least) if run.wrong]
    if not any(needed in run.refused for run in runs):
        wrong.append(f"no {needed} was refused")
    wrong += [f"no run ended with the line {line!r}" for line in lines if all(run.line != line for run in runs)]
    refused, ended = sum(len(run.refused) for run in runs), sum(run.ended for run in runs)
    told = f"{refused:,} requests refused and {ended:,} sessions ended for them"
    print(f"refused_memory, {name}: {count:,} allocations refused in turn, {told}; {len(wrong)} wrong", *wrong[:5], sep="\n  ", flush=True)
    return bool(wrong)


def main():
    if len(sys.argv) != 2:
        sys.exit(__doc__.split("\n\n")[1])
    program, failed = os.path.abspath(sys.argv[1]), []
    with tempfile.TemporaryDirectory() as folder:
        path, policy = (os.path.join(folder, name) for name in ("commands", "policy.toml"))
        library = refusing.library_in(folder)

        def given(lines):
            commands = [line.split() for line in lines]
            with open(path, "wb") as file:
                file.write(resp.spelled_all(commands))
            return lambda number: sent_at_once(program, library, commands, path, number)

        failed.append(walk("four commands", given(RUN), "XADD"))
        failed.append(walk("groups", given(GROUPS), "XADD"))
        least = first_behind(given(NEARLY))
        failed.append(walk("entries in blocks", given([*NEARLY, *PACKED]), "XADD", least))
        least = first_behind(given(FILLED))
        failed.append(walk("lists in blocks", given([*FILLED, *BLOCKS]), "XREADGROUP", least))
        with open(policy, "w") as file:
            file.write(bulk_move.SMALL_POLICY)
        lines = [*LINES, POLICY_LINE]
        failed.append(without_random(program, library))
        failed.append(walk("a recovery", lambda number: recovered(program, library, policy, number), "RECOVER.RUN", lines=lines))
    return 1 if any(failed) else 0


if __name__ == "__main__":
    sys.exit(main())
