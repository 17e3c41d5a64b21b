#!/usr/bin/env python3
"""Times recoveries: python3 bench/recovery.py SERVER DRIVER

A stream has some stranded entries of four classes, all pending for a dead consumer, and perhaps others pending for a consumer that the
policy does not name. The policy has some live consumers, of which each may take three of the classes, at rates of its own, and of which
together have room for half as many entries again. Each number is the least of several runs, in milliseconds:

plan, run    from the request of RECOVER.PLAN or RECOVER.RUN, sent to SERVER --stdio over a pipe, to the last byte of its reply
snapshot     an event Snapshot of `book_driver`, which is one step
conclude     the event Conclude without and with its plan carried out, in `book_driver`: it makes the verdict first, outside the step

The time inside steps is that of two snapshots, of what run takes beyond plan, and of comparing the two snapshots and making the reply
twice. These last are in plan as in run, and not told apart from the rest of it: the solver, and the reply sent and read.
"""
import os
import random
import subprocess
import sys
import tempfile
import time

from streams import request

STRANDED, CONSUMERS, OTHERS = (10, 100, 1_000, 4_096), (4, 8, 16, 64), (0, 100_000)
CLASSES = 4
RUNS = 5


def policy(consumers, stranded):
    """A policy by which each consumer may take three of the four classes."""
    choice = random.Random(consumers * 10_000 + stranded)
    limit = stranded * 3 // (2 * consumers) + 1
    lines = ['class_field = "c"', "[limits]"] + [f"w{k} = {limit}" for k in range(consumers)]
    for kind in range(CLASSES):
        lines.append(f"[rates.k{kind}]")
        lines += [f"w{k} = {choice.randint(1, 1000)}" for k in range(consumers) if k % CLASSES != kind]
    return "\n".join(lines) + "\n"


def setting(stranded, others):
    """The commands that leave so many entries with the dead consumer, and so many with another one."""
    choice = random.Random(stranded)
    yield b"XGROUP", b"CREATE", b"s", b"g", b"0", b"MKSTREAM"
    for number in range(1, stranded + others + 1):
        value = b"v" * choice.randint(1, 60)
        yield b"XADD", b"s", b"%d-1" % number, b"c", b"k%d" % choice.randrange(CLASSES), b"v", value
    yield b"XREADGROUP", b"GROUP", b"g", b"dead", b"COUNT", b"%d" % stranded, b"STREAMS", b"s", b">"
    if others:
        yield b"XREADGROUP", b"GROUP", b"g", b"other", b"COUNT", b"%d" % others, b"STREAMS", b"s", b">"


class Server:
    """The server under a policy, over a pipe."""

    def __init__(self, program, path):
        self.process = subprocess.Popen([program, "--stdio", "--policy", path], stdin=subprocess.PIPE, stdout=subprocess.PIPE, bufsize=1 << 20)

    def send(self, words):
        self.process.stdin.write(request(*words))

    def line(self):
        return self.process.stdout.readline()

    def reply(self):
        """The first bulk string of a reply, which is read to its end."""
        line = self.line()
        kind, count = line[:1], line[1:].strip()
        if kind == b"-":
            raise SystemExit(line.decode())
        if kind == b"$":
            return self.process.stdout.read(int(count) + 2)[:-2] if int(count) >= 0 else None
        if kind == b"*":
            return [self.reply() for _ in range(max(int(count), 0))]
        return line

    def drain(self, unread):
        """Reads so many replies; none is unread then."""
        self.process.stdin.flush()
        for _ in range(unread):
            self.reply()
        return 0

    def ask(self, *words):
        began = time.perf_counter()
        self.send(words)
        self.process.stdin.flush()
        return self.reply(), (time.perf_counter() - began) * 1000

    def close(self):
        self.process.stdin.close()
        self.process.wait()


def served(program, path, stranded, others):
    """The times of a plan and of a run."""
    server = Server(program, path)
    unread = 0
    for words in setting(stranded, others):
        server.send(words)
        unread += 1
        if unread == 500:
            unread = server.drain(unread)
    server.drain(unread)
    plans = [server.ask(b"RECOVER.PLAN", b"s", b"g", b"DEAD", b"dead") for _ in range(3)]
    done, run = server.ask(b"RECOVER.RUN", b"s", b"g", b"DEAD", b"dead")
    server.close()
    if {plan[0][0] for plan in plans} != {b"plan"} or done[0] != b"done" or len(done[2]) != stranded:
        raise SystemExit(f"the replies begin with {plans[0][0][:2]} and {done[:2]}")
    return min(took for _, took in plans), run


def stepped(program, text, stranded, others):
    """The times of a snapshot, and of a verdict made and concluded, without and with its plan carried out."""
    driver = subprocess.Popen([program], stdin=subprocess.PIPE, stdout=subprocess.PIPE)

    def ask(line):
        began = time.perf_counter()
        driver.stdin.write(line.encode() + b"\n")
        driver.stdin.flush()
        answer = driver.stdout.readline()
        took = (time.perf_counter() - began) * 1000
        if not answer.startswith(b"ok"):
            raise SystemExit(f"{line[:60]}: {answer[:60]}")
        return took

    ask("policy " + text.encode().hex())
    ask("join 0")
    for words in setting(stranded, others):
        ask("call 0 1 " + " ".join(word.hex() for word in words))
    snapshots, concluded = [], []
    for apply in (0, 0, 0, 1):
        snapshots.append(ask("snapshot 0 1 73 67 " + b"dead".hex()))
        concluded.append(ask(f"conclude 0 1 {apply} 1"))
    driver.stdin.close()
    driver.wait()
    return min(snapshots), min(concluded[:3]), concluded[3]


def main():
    if len(sys.argv) != 3:
        sys.exit(__doc__)
    print(f"{'stranded':>8} {'consumers':>9} {'others':>7} {'plan':>8} {'run':>8} {'snapshot':>9} {'conclude':>9} {'and carry out':>13}")
    for stranded in STRANDED:
        for consumers in CONSUMERS:
            for others in OTHERS:
                text = policy(consumers, stranded)
                with tempfile.NamedTemporaryFile("w", suffix=".toml", delete=False) as file:
                    file.write(text)
                runs = [served(sys.argv[1], file.name, stranded, others) + stepped(sys.argv[2], text, stranded, others) for _ in range(RUNS if others == 0 else 2)]
                os.unlink(file.name)
                plan, run, snapshot, concluded, applied = map(min, zip(*runs))
                print(f"{stranded:8} {consumers:9} {others:7} {plan:8.2f} {run:8.2f} {snapshot:9.2f} {concluded:9.2f} {applied:13.2f}", flush=True)


if __name__ == "__main__":
    main()
