"""sr_recover watch: who is found dead, what is moved then, and what is told of turn after turn."""

import re
import signal
import subprocess
import tempfile
import threading
import time

from .live import all_replies
from .live_rows import TWO, TWO_LIVE, lines
from .recover import Proxy, Sent, policy_text, words_of
from .recover_json import DONE as RUN, NONE as NOTHING, PLAN, SHORT, STALE, values_of
from .recover_rows import ONE_LIVE, Bench, SECRET, before_script, has_idle, pending_for, users
from .servers import HOST, Redis, free_port

AFTER = 1000  # milliseconds after which a consumer is dead
PAIR = ["s", "g"]
SECONDS = 30  # that a line may be waited for
GROUPS = 100

# The two entries of D have been idle for longer than that. A consumer that claims its own entries was seen by it.
OLD = lines("XCLAIM s g D 0 1-1 2-1 IDLE 100000 JUSTID\nXCLAIM s g A 0 0-1 IDLE 100000 JUSTID\nXCLAIM s g B 0 0-2 IDLE 100000 JUSTID")
OLD_TWO = [*TWO, *OLD]
NOTE_A = b"note: A of s g has a limit in the policy, and is dead by --dead-after\n"

# What is said of a group, the idle times that Redis tells, options, and what comes of it: the status, the line without the
# time and the milliseconds, and who has 0-1, 1-1 and 2-1 then. B may take three entries and has one.
DEAD, QUICK = {b"A": 0, b"B": 0, b"D": AFTER}, {b"A": 0, b"B": 0, b"D": AFTER - 1}
BOTH = {b"A": AFTER, b"B": 0, b"D": 10**12}
DONE = b"s g: dead D, claimed 2, cost 6, gap 0, tries 1"
NONE = b"s g: dead A D, none: too few places for 3 entries"
NO_GROUP = "redis: XINFO CONSUMERS is answered with an error: NOGROUP No such consumer group 'h' for key name 's' (look for its name: XINFO GROUPS)"
NOT_KNOWN = "redis: the plan was sent, and what came of it is not known: it closed the connection. Plan again to see what is left"
REFUSED = "redis: cannot connect to %s:%d: Connection refused (os error 111). Is Redis running there, and is this its port?"
ROWS = [
    ("a worker died", OLD_TWO, DEAD, [], (0, DONE, b"ABA")),
    ("it was seen a millisecond later", OLD_TWO, QUICK, [], (0, b"", b"ADD")),
    ("it is slow: its entries are old, and it was seen", OLD_TWO, dict.fromkeys(DEAD, 0), [], (0, b"", b"ADD")),
    ("its entries are young", TWO, DEAD, [], (0, b"", b"ADD")),
    ("one of its entries is old", [*TWO, *lines("XCLAIM s g D 0 2-1 IDLE 100000 JUSTID")], DEAD, [], (0, DONE.replace(b"2, cost 6", b"1, cost 2"), b"ADA")),
    ("one without entries is dead to nobody", [*TWO, *lines("XACK s g 1-1 2-1")], DEAD, [], (0, b"", b"A")),
    ("two died, and there are too few places", OLD_TWO, BOTH, [], (3, NONE, b"ADD")),
    ("two died, and two entries are moved", OLD_TWO, BOTH, ["--at-most", 2], (0, b"s g: dead A D, claimed 2, cost 8, gap 0, tries 1", b"BBD")),
    ("nobody else was seen", OLD_TWO, {**DEAD, b"A": 5, b"B": 5}, ["--seen-within", 4], (3, b"s g: dead D, none: too few places for 2 entries", b"ADD")),
    ("too few places to leave one free", OLD_TWO, DEAD, ["--spare", 1], (0, DONE, b"ABA")),
    ("an entry is gone", [*OLD_TWO, *lines("XDEL s 1-1")], DEAD, [], (0, b"s g: dead D, claimed 1, cost 2, gap 0, tries 1, gone 1", b"ADA")),
    ("all are gone", [*OLD_TWO, *lines("XDEL s 1-1 2-1")], DEAD, [], (0, b"s g: dead D, gone 2", b"ADD")),
]

WRONG = [
    (["--dead-after", 1], PAIR),
    (["--once"], PAIR),
    (["--once", "--dead-after", 0], PAIR),
    (["--once", "--dead-after", 10**12 + 1], PAIR),
    (["--once", "--dead-after", "x"], PAIR),
    (["--every", 0, "--dead-after", 1], PAIR),
    (["--every", 86401, "--dead-after", 1], PAIR),
    (["--once", "--dead-after", 1, "--all"], PAIR),
    (["--once", "--dead-after", 1, "--check"], PAIR),
    (["--once", "--dead-after", 1, "--at-most", 0], PAIR),
    (["--once", "--dead-after", 1, "--tries", 17], PAIR),
    (["--once", "--dead-after", 1], []),
    (["--once", "--dead-after", 1], ["s"]),
    (["--once", "--dead-after", 1], ["s", "g", "t"]),
]


class Told:
    """The lines that a running program has printed on one of its outputs."""

    def __init__(self, file):
        self.lines, self.file = [], file
        threading.Thread(target=self.read, daemon=True).start()

    def read(self):
        for line in self.file:
            self.lines.append(line)

    def wait_for(self, count):
        """The lines, once there are so many of them, or after a while."""
        until = time.monotonic() + SECONDS
        while len(self.lines) < count and time.monotonic() < until:
            time.sleep(0.02)
        return [untimed(line) for line in self.lines]


class Running:
    """The program, as it watches a group."""

    def __init__(self, port, lives, *options, groups=PAIR):
        self.policy = tempfile.NamedTemporaryFile("w", suffix=".toml")
        self.policy.write(policy_text(lives))
        self.policy.flush()
        words = words_of(port, self.policy.name, "watch", groups, ["--every", 1, "--dead-after", AFTER, *options])
        self.process = subprocess.Popen(words, stdin=subprocess.DEVNULL, stdout=subprocess.PIPE, stderr=subprocess.PIPE)
        self.out, self.errors = Told(self.process.stdout), Told(self.process.stderr)

    def __enter__(self):
        return self

    def __exit__(self, *_):
        self.policy.close()
        if self.process.poll() is None:
            self.process.kill()
        self.process.wait()

    def ended(self):
        """The status after SIGTERM."""
        self.process.send_signal(signal.SIGTERM)
        return self.process.wait(SECONDS)


def untimed(line):
    """A line without its time, if that is now, and without the milliseconds."""
    found = re.fullmatch(rb"(\d+) (.*)\n", line, re.DOTALL)
    if not found or abs(int(found[1]) - time.time()) > 2 * SECONDS:
        return line
    return re.sub(rb", ms \d+", b"", found[2])


def owners(connection):
    """Who has the entries from 0-1 on, but for 0-2."""
    return b"".join(row[1] for row in connection.call("XPENDING", "s", "g", "-", "+", 9) if row[0] != b"0-2")


def once(bench, *options, after=AFTER, groups=PAIR, **given):
    return bench.plan("--once", "--dead-after", after, *options, action="watch", names=groups, **given)


def found_dead(bench, proxy):
    """Who is dead by idle times that are told, and what is moved then."""
    for what, setting, times, options, (status, line, owned) in ROWS:
        bench.begin(setting)
        proxy.begin(has_idle(times))
        found = once(bench, *options, port=proxy.port)
        out = [untimed(text) for text in found.out.splitlines(keepends=True)]
        note = NOTE_A if times is BOTH else b""
        note += b"note: too few places with --spare 1, so it is planned without it\n" if options[:1] == ["--spare"] else b""
        bench.check(what, (status, [line] if line else [], note), (found.status, out, found.errors))
        bench.check(f"{what}: owners", owned, owners(bench.connection))


def asked_calls(bench, proxy):
    """Two calls tell that nobody is silent. Each silent one that has entries costs one more, and without old entries nothing else."""
    left = [*TWO, *(["XGROUP", "CREATECONSUMER", "s", "g", f"left{at}"] for at in range(9))]
    silent = dict.fromkeys([*DEAD, *(b"left%d" % at for at in range(9))], AFTER)
    for setting, times, wanted in ((OLD_TWO, dict.fromkeys(DEAD, AFTER - 1), 2), (TWO, silent, 5), (left, silent, 5)):
        bench.begin(setting)
        before = bench.dump()
        proxy.begin(has_idle(times))
        found = once(bench, port=proxy.port)
        bench.check(f"{wanted} calls", ((0, b"", b""), wanted), (found[:3], len(proxy.calls)))
        bench.check(f"{wanted} calls change nothing", before, bench.dump())
    names = [f"s{at}" for at in range(GROUPS)]
    bench.begin([[name if word == "s" else word for word in words] for name in names for words in TWO])
    proxy.begin()
    found = once(bench, after=10**12, groups=[word for name in names for word in (name, "g")], port=proxy.port)
    print(f"watch: {GROUPS} groups by {len(proxy.calls)} calls: {1000 * found.seconds:.0f} ms behind a proxy", flush=True)
    bench.check(f"{GROUPS} groups", ((0, b"", b""), 2 * GROUPS), (found[:3], len(proxy.calls)))


def comes_back(bench, proxy):
    """The dead one reads its entries again right before the script, and keeps them."""
    back = "XREADGROUP GROUP g D STREAMS s 0"
    for tries, status, wanted in ((2, 0, []), (1, 4, [b"s g: dead D, stale pending, nothing was changed"])):
        bench.begin(OLD_TWO)
        told = has_idle(DEAD)
        act = before_script(bench.connection, back)
        proxy.begin(lambda call, told=told, act=act: (act if call.is_script() else told)(call))
        found = once(bench, "--tries", tries, port=proxy.port)
        out = [untimed(text) for text in found.out.splitlines(keepends=True)]
        bench.check(f"it comes back, {tries} tries", (status, wanted, b""), (found.status, out, found.errors))
        bench.check(f"it comes back, {tries} tries: owners", b"ADD", owners(bench.connection))


def by_rounds(bench, proxy):
    """A, which has a price, acknowledges an entry before the first script: the second plan costs 4."""
    bench.begin(OLD_TWO)
    told, act = has_idle(DEAD), before_script(bench.connection, "XACK s g 0-1")
    proxy.begin(lambda call: (act if call.is_script() else told)(call))
    found = once(bench, port=proxy.port)
    bench.check("two rounds", (0, b"s g: dead D, claimed 2, cost 4, gap 0, tries 2"), (found.status, untimed(found.out)))


def in_turns(bench, proxy):
    """100 entries a turn, if nothing else is said."""
    bench.begin(pending_for({"D": range(1, 151)}, 150))
    all_replies(bench.connection, [["XGROUP", "CREATECONSUMER", "s", "g", "B"]])
    for claimed in (100, 50, None):
        time.sleep(0.01)
        proxy.begin(has_idle({b"B": 0, b"D": 5}))
        found = once(bench, after=5, lives=ONE_LIVE, port=proxy.port)
        wanted = b"s g: dead D, claimed %d, cost %d, gap 0, tries 1" % (claimed, 2 * claimed) if claimed else b""
        bench.check(f"a turn: {claimed}", (0, wanted, b""), (found.status, untimed(found.out), found.errors))


def faults(bench, proxy):
    """One group has a fault, and the other one is looked at all the same; a plan of which it is not known what came of it."""
    bench.begin(OLD_TWO)
    idle = has_idle(DEAD)
    proxy.begin(lambda call: Sent(call.forward()) if b"h" in call.words else idle(call))
    found = once(bench, groups=["s", "h", *PAIR], port=proxy.port)
    text = b"s h: " + NO_GROUP.encode()
    bench.check("no such group beside one", (1, DONE, text), (found.status, untimed(found.out), untimed(found.errors)))
    bench.begin(OLD_TWO)
    told = has_idle(DEAD)
    proxy.begin(lambda call: Sent(b"", "close") if call.is_script() else told(call))
    found = once(bench, port=proxy.port)
    text = b"s g: " + NOT_KNOWN.encode()
    bench.check("no answer", (5, b"", text), (found.status, found.out, untimed(found.errors)))
    found = once(bench, port=1)
    bench.expect("nobody listens", (1, b"", b"redis: cannot connect to 127.0.0.1:1: Connection refused"), found)


def untimed_values(out):
    """The objects, one a line, without their time if that is now, and without the milliseconds if these are a number."""
    values = values_of(out)
    for one in values:
        if abs(one.get("time", 0) - time.time()) < 2 * SECONDS:
            del one["time"]
        if isinstance(one.get("ms"), int):
            del one["ms"]
    return values


def as_json(bench, proxy):
    """The same as objects: of a turn that moves entries, of what hinders one, and of faults. Of a turn of nothing there is none."""
    short = SHORT | {"dead": ["A", "D"], "short": ["0-1", "1-1", "2-1"], "tries": 1}
    gone = NOTHING | RUN | {"gone": 2, "claimed": 0}
    lost = {"status": 5, "key": "s", "group": "g", "fault": NOT_KNOWN}
    other = {"status": 1, "key": "s", "group": "h", "fault": NO_GROUP}
    told, late = has_idle(DEAD), has_idle(BOTH)
    cut = lambda call: Sent(b"", "close") if call.is_script() else told(call)
    passed = lambda call: Sent(call.forward()) if b"h" in call.words else told(call)
    act = before_script(bench.connection, "XREADGROUP GROUP g D STREAMS s 0")
    back = lambda call: (act if call.is_script() else told)(call)
    rows = [
        ("a worker died", OLD_TWO, told, PAIR, 0, [PLAN | RUN]),
        ("it was seen", OLD_TWO, has_idle(QUICK), PAIR, 0, []),
        ("there are too few places", OLD_TWO, late, PAIR, 3, [short]),
        ("all are gone", [*OLD_TWO, *lines("XDEL s 1-1 2-1")], told, PAIR, 0, [gone]),
        ("it comes back", OLD_TWO, back, PAIR, 4, [STALE]),
        ("no answer", OLD_TWO, cut, PAIR, 5, [lost]),
        ("no such group beside one", OLD_TWO, passed, ["s", "h", *PAIR], 1, [other, PLAN | RUN]),
    ]
    for what, setting, act_of, groups, status, wanted in rows:
        bench.begin(setting)
        proxy.begin(act_of)
        found = once(bench, "--json", "--tries", 1, groups=groups, port=proxy.port)
        bench.check(f"{what}, as JSON", (status, wanted), (found.status, untimed_values(found.out)))


def way_as_json(tally):
    """Redis is away at first, and comes: both are objects, and so is the turn after that."""
    port = free_port()
    with Running(port, TWO_LIVE, "--json") as program:
        program.out.wait_for(1)
        with Redis(port=port) as server, server.connect() as connection:
            all_replies(connection, TWO)
            until = time.monotonic() + SECONDS
            while len(program.out.lines) < 3 and time.monotonic() < until:
                all_replies(connection, OLD[1:])
                time.sleep(0.1)
            values = untimed_values(b"".join(program.out.lines))
    tally.check("Redis comes, as JSON", [{"redis": "away", "fault": REFUSED % (HOST, port)}, {"redis": "back"}, PLAN | RUN], values)


def of_a_user(bench, proxy):
    """The first user of docs/LIVE.md may watch."""
    recover, granted = next(iter(users()))
    bench.begin([*OLD_TWO, ["ACL", "SETUSER", recover, "reset", *granted]])
    proxy.begin(has_idle(DEAD))
    found = once(bench, "--user", recover, env={"REDISCLI_AUTH": SECRET}, port=proxy.port)
    bench.check("a user's rights", (0, DONE, b""), (found.status, untimed(found.out), found.errors))
    bench.connection.call("ACL", "DELUSER", recover)


def command_lines(bench, _):
    """Command lines that are refused before Redis is asked anything."""
    for options, groups in WRONG:
        found = bench.plan(*options, action="watch", names=groups, port=1)
        bench.check(f"watch {options} {groups}", (2, b"", True), (found.status, found.out, found.errors.startswith(b"error: ")))


def really_dead(tally, server):
    """Without any help: D dies, A is slow, and B works. D is found, and only D."""
    with server.connect() as connection:
        all_replies(connection, [["FLUSHALL"], *TWO])
        finds_the_dead(tally, server, connection)


def finds_the_dead(tally, server, connection):
    """The program does, which is ended then."""
    with Running(server.port, TWO_LIVE) as program:
        until = time.monotonic() + SECONDS
        while not program.out.lines and time.monotonic() < until:
            all_replies(connection, OLD[1:])  # both are seen, and keep old entries
            time.sleep(0.1)
        tally.check("who died is found", [DONE], program.out.wait_for(1))
        tally.check("and what it had is moved", b"ABA", owners(connection))
        time.sleep(AFTER / 1000 + 0.1)  # A and B got entries, which counts as being seen: they are dead only now
        until = time.monotonic() + SECONDS
        while len(program.out.lines) < 2 and time.monotonic() < until:
            time.sleep(0.1)
        tally.check("nobody is left", b"s g: dead A B, none: too few places for 4 entries", program.out.wait_for(2)[-1])
        time.sleep(3)
        tally.check("that is told once", 2, len(program.out.lines))
        notes = [NOTE_A, NOTE_A.replace(b"A", b"B", 1)]
        tally.check("and so is that they may take entries", notes, program.errors.wait_for(2))
        tally.check("SIGTERM ends it", -signal.SIGTERM, program.ended())


def way_of(lines_told):
    """Whether Redis is said to be away or back, line by line."""
    return ["back" if b"it is back" in line else "away" for line in lines_told if b"redis: " in line]


def restarted(tally):
    """Redis is away at first, comes, goes and comes again: each is told once, and each time a dead one is found."""
    port = free_port()
    with Running(port, TWO_LIVE) as program:
        tally.check("Redis is away", [(REFUSED % (HOST, port)).encode()], program.errors.wait_for(1))
        for number in (1, 2):
            time.sleep(3)
            wanted = ["away", "back"] * number
            tally.check(f"that is told once, {number}", wanted[:-1], way_of(program.errors.wait_for(2 * number - 1)))
            with Redis(port=port) as server, server.connect() as connection:
                all_replies(connection, TWO)
                until = time.monotonic() + SECONDS
                while len(program.out.lines) < number and time.monotonic() < until:
                    all_replies(connection, OLD[1:])
                    time.sleep(0.1)
                tally.check(f"a dead one is found, {number}", [DONE] * number, program.out.wait_for(number)[:number])
                tally.check(f"Redis is back, {number}", wanted, way_of(program.errors.wait_for(2 * number)))
        tally.check("it goes on", None, program.process.poll())
        tally.check("SIGTERM ends it while Redis is away", -signal.SIGTERM, program.ended())


def compare(tally, connection):
    """Compares all rows."""
    bench = Bench(tally, connection)
    parts = found_dead, asked_calls, comes_back, by_rounds, in_turns, faults, as_json, of_a_user, command_lines
    with Proxy(bench.port) as proxy:
        for part in parts:
            part(bench, proxy)
    with Redis() as server:
        really_dead(tally, server)
    restarted(tally)
    way_as_json(tally)
