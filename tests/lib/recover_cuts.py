"""sr_recover with answers that are cut, wrong, moved, or never come, and with one side killed on the way.

Whatever comes in place of an answer, the program says `done` only if Redis did. Before the script was sent it ends with
status 1, with nothing changed; after that with status 5, since the plan may have been carried out.
"""

import concurrent.futures
import random
import signal
import subprocess
import tempfile

from .live import all_replies
from .live_rows import TWO, TWO_LIVE
from .recover import Proxy, Sent, passed_on, policy_text, run, words_of
from .recover_rows import has_ipv6
from .servers import HOST, Redis

GROUP = ["s", "g", "D"]
WORKERS = 4
SILENCE = 400  # milliseconds, for answers that stop: long enough that no other one is late on a busy machine
HANGS = 5  # of the cuts every this many hangs too
CALLS = ["XPENDING", "XINFO", "XPENDING", "XRANGE", "XPENDING", "EVALSHA", "EVAL"]
FIRST_SENT = CALLS.index("EVALSHA")
SEEN = ["--seen-within", 10**12]
SEEN_CALL = 3  # with it: behind XINFO, XPENDING and XRANGE
UNKNOWN = b"redis: the plan was sent, and what came of it is not known: "

# What comes in place of an answer: no reply of RESP2, another one, or one that only begins well.
GARBAGE = [
    b"\r\n",
    b"\0",
    b"hello\r\n",
    b"HTTP/1.1 400 Bad Request\r\n\r\n",
    b"+OK\r\n",
    b"+done\r\n",
    b":2\r\n",
    b":-1\r\n",
    b"$-1\r\n",
    b"$4\r\ndone\r\n",
    b"$4\r\ndone!!",
    b"$-2\r\n",
    b"$99999999999999999999\r\n",
    b"*-1\r\n",
    b"*-2\r\n",
    b"*1\r\n*0\r\n",
    b"*1\r\n$4\r\ndone\r\n",
    b"*3\r\n$4\r\ndone\r\n$1\r\n2\r\n:0\r\n",
    b"*3\r\n$4\r\ndone\r\n:-2\r\n:0\r\n",
    b"*3\r\n$4\r\nDONE\r\n:2\r\n:0\r\n",
    b"*3\r\n+done\r\n:2\r\n:0\r\n",
    b"*4\r\n$4\r\ndone\r\n:2\r\n:0\r\n:0\r\n",
    b"*3\r\n:2\r\n:0\r\n$4\r\ndone\r\n",
    b"%1\r\n+done\r\n:2\r\n",
    b"_\r\n",
    b"*3\n$4\ndone\n:2\n:0\n",
    b"*1\r\n" * 2000,
]
ENDLESS = b"*99999999\r\n"  # too long: before the script fewer entries are asked for then, at another connection


class Side:
    """A Redis with a proxy before it, on which one run after another begins anew."""

    def __init__(self):
        self.server = Redis()
        self.connection = self.server.connect()
        self.proxy = Proxy(self.server.port)

    def close(self):
        self.connection.close()
        self.server.stop()

    def begin(self, act=passed_on):
        all_replies(self.connection, [["FLUSHALL"], ["SCRIPT", "FLUSH"], *TWO])
        self.proxy.begin(act)

    def run(self, *options):
        return run(self.proxy.port, policy_text(TWO_LIVE), "run", GROUP, *options)

    def owners(self):
        """For whom the two entries are pending."""
        rows = self.connection.call("XPENDING", "s", "g", "1-1", "2-1", 9)
        return b"".join(row[1] for row in rows)


def replaced(number, change):
    """Has the answer to one call be another."""
    return lambda call: change(call.forward()) if call.number == number else passed_on(call)


def refused(number, text):
    """Has one call not come to Redis, and be answered with an error of this text."""
    return lambda call: Sent(b"-%s\r\n" % text) if call.number == number else passed_on(call)


def cut(at, then):
    """Has an answer end after this many bytes, and always before its end."""
    return lambda text: Sent(text[: min(at, len(text) - 1)], then)


def is_right(side, number, found):
    """Whether a run ended as it should if the answer to a call was not what Redis had answered."""
    status = 1 if number < FIRST_SENT else 5
    text = b"redis: " if number < FIRST_SENT else UNKNOWN
    owners = b"BA" if number == len(CALLS) - 1 else b"DD"
    return (found.status, found.out, side.owners()) == (status, b"", owners) and found.errors.startswith(text)


def cuts(lengths):
    """Each answer ends after each of its bytes: the connection is closed, or nothing more comes."""
    for number, length in enumerate(lengths):
        for at in range(length):
            for then in ["close"] + ["hang"] * (at % HANGS == 0):
                yield number, f"{CALLS[number]} is cut at byte {at}: {then}", cut(at, then)


def garbage(lengths):
    """Something else comes in place of each answer, or behind it."""
    noise = [random.Random(seed).randbytes(40) for seed in range(5)]
    for number in range(len(lengths)):
        for text in [*GARBAGE, *noise, *([] if number < FIRST_SENT else [ENDLESS])]:
            yield number, f"{text[:40]!r} in place of {CALLS[number]}", lambda _, text=text: Sent(text, "close")
        yield number, f"another reply behind {CALLS[number]}", lambda text: Sent(text + b"+OK\r\n", "close")


def lengths_of(side, *options):
    """How many bytes each answer has, of a run of which nothing is cut."""
    lengths = []

    def act(call):
        sent = passed_on(call)
        lengths.append((call.words[0].decode(), len(sent.text)))
        return sent

    side.begin(act)
    side.run(*options)
    return lengths


def cases_of(side):
    lengths = lengths_of(side)
    assert [name for name, _ in lengths] == CALLS, lengths
    lengths = [length for _, length in lengths]
    return [*cuts(lengths), *garbage(lengths)]


def played(cases):
    """Plays some of the cases at a Redis of their own. What was wrong with which."""
    side, wrong = Side(), []
    try:
        for number, what, change in cases:
            side.begin(replaced(number, change))
            found = side.run("--timeout", SILENCE if what.endswith("hang") else 20000)
            if not is_right(side, number, found):
                wrong.append((what, number, found, side.owners()))
        return [*wrong, *side.proxy.faults]
    finally:
        side.close()


def broken(tally, side):
    """All cuts and all garbage."""
    cases = cases_of(side)
    parts = [cases[first::WORKERS] for first in range(WORKERS)]
    with concurrent.futures.ThreadPoolExecutor(WORKERS) as pool:
        wrong = [fault for faults in pool.map(played, parts) for fault in faults]
    for fault in wrong:
        print(*fault, flush=True)
    tally.rows += len(cases)
    tally.wrong += len(wrong)
    print(f"{len(cases)} answers were cut or replaced", flush=True)


def idles(tally, side):
    """The answer to XINFO CONSUMERS, which --seen-within asks for, is cut or another one."""
    name, length = lengths_of(side, *SEEN)[SEEN_CALL]
    tally.check("the call for idle times", "XINFO", name)
    changes = [cut(at, "close") for at in range(length)]
    changes += [lambda _, text=text: Sent(text, "close") for text in GARBAGE]
    for change in changes:
        side.begin(replaced(SEEN_CALL, change))
        found = side.run(*SEEN)
        seen = *found[:2], found.errors.startswith(b"redis: "), side.owners()
        tally.check("an answer to XINFO that is cut or replaced", (1, b"", True, b"DD"), seen)


def moved(tally, side):
    """MOVED is followed, at each call, to the node that it names, and not for ever."""
    with Redis() as other, other.connect() as connection, Proxy(other.port) as there:
        for number in range(len(CALLS)):
            all_replies(connection, [["FLUSHALL"], *TWO])
            side.begin(refused(number, b"MOVED 1 %s:%d" % (HOST.encode(), there.port)))
            found = side.run()
            owners = b"".join(row[1] for row in connection.call("XPENDING", "s", "g", "1-1", "2-1", 9))
            seen = found.status, found.errors, side.owners(), owners
            tally.check(f"MOVED at call {number}", (0, b"", b"DD", b"BA"), seen)
    side.begin(lambda call: Sent(b"-MOVED 1 %s:%d\r\n" % (HOST.encode(), side.proxy.port)))
    tally.check("MOVED for ever", (1, b"", b"redis: moved from node to node too often\n"), side.run()[:3])
    side.begin(lambda call: Sent(b"-MOVED 1 nowhere\r\n"))
    text = b"redis: the key is on another node, whose name is not a host and a port: nowhere. See CLUSTER NODES\n"
    tally.check("MOVED to no host and port", (1, b"", text), side.run()[:3])
    for text in (b"MOVED", b"MOVED 1", b"MOVED 1 ", b"MOVED x y", b"MOVED 1 " + b"\xff" * 9 + b":1"):
        side.begin(lambda call, text=text: Sent(b"-%s\r\n" % text))
        found = side.run()
        tally.check(f"{text}", (1, b"", True), (*found[:2], found.errors.startswith(b"redis: ")))


def without_host(tally, side):
    """MOVED that names no host means the host that was asked."""
    with Redis() as other, other.connect() as connection:
        all_replies(connection, TWO)
        side.begin(lambda call: Sent(b"-MOVED 1 :%d\r\n" % other.port))
        tally.check("MOVED without a host", (0, b""), (side.run().status, side.run().errors))


def by_ipv6(tally, side):
    """MOVED that names an IPv6 address, which Redis writes without brackets."""
    if not has_ipv6():
        print("MOVED to an IPv6 address: skipped, since this machine has none")
        return
    with Redis("--bind", HOST, "::1") as other, other.connect() as connection:
        all_replies(connection, TWO)
        side.begin(lambda call: Sent(b"-MOVED 1 ::1:%d\r\n" % other.port))
        found = side.run()
        tally.check("MOVED to an IPv6 address", (0, b"", b"DD"), (found.status, found.errors, side.owners()))
    found = side.run()
    text = b"redis: cannot connect to [::1]:%d: Connection refused" % other.port
    tally.check("MOVED to an IPv6 address where nobody listens", (1, text), (found.status, found.errors[: len(text)]))


def killed(tally, side):
    """The program is killed right before and right after the script ran: the plan was carried out as a whole or not."""
    for what, runs, owners in (("before", False, b"DD"), ("after", True, b"BA")):
        process = []

        def act(call, runs=runs, process=process):
            if call.words[0] != b"EVAL":
                return passed_on(call)
            text = call.forward() if runs else b""
            process[0].send_signal(signal.SIGKILL)
            process[0].wait()
            return Sent(text, "close")

        side.begin(act)
        with tempfile.NamedTemporaryFile("w", suffix=".toml") as file:
            file.write(policy_text(TWO_LIVE))
            file.flush()
            words = words_of(side.proxy.port, file.name, "run", GROUP, [])
            process.append(subprocess.Popen(words, stdout=subprocess.PIPE))
            out = process[0].communicate()[0]
        tally.check(f"killed right {what} the script", (b"", owners), (out, side.owners()))
        side.proxy.begin()
        found = side.run()
        tally.check(f"killed right {what} the script: the next run", (0, b"BA"), (found.status, side.owners()))


def redis_killed(tally):
    """Redis is killed while the script is with it, and before that."""
    for number, status, text in ((0, 1, b"redis: it closed the connection\n"), (len(CALLS) - 1, 5, UNKNOWN)):
        side = Side()

        def act(call, number=number, side=side):
            if call.number != number:
                return passed_on(call)
            side.server.process.kill()
            side.server.process.wait()
            return Sent(b"", "close")

        side.begin(act)
        found = side.run()
        seen = *found[:2], found.errors.startswith(text)
        tally.check(f"Redis is killed at call {number}", (status, b"", True), seen)
        side.close()


def writes(tally, side):
    """Output that cannot be written: the plan was carried out, and that is said."""
    side.begin()
    with tempfile.NamedTemporaryFile("w", suffix=".toml") as file, open("/dev/full", "wb") as full:
        file.write(policy_text(TWO_LIVE))
        file.flush()
        failed = b"output: a write failed"
        for action, wanted in (("plan", failed + b"\n"), ("run", failed + b", and the plan was carried out\n")):
            words = words_of(side.proxy.port, file.name, action, GROUP, [])
            found = subprocess.run(words, stdout=full, stderr=subprocess.PIPE, check=False)
            tally.check(f"{action} to a full disk", (1, wanted), (found.returncode, found.stderr))
    tally.check("it was carried out", b"BA", side.owners())


def compare(tally):
    """Compares all of it."""
    side = Side()
    try:
        for part in (moved, without_host, by_ipv6, killed, writes, idles, broken):
            part(tally, side)
        tally.check("the proxy's faults", [], side.proxy.faults)
    finally:
        side.close()
    redis_killed(tally)
