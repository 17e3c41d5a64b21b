"""What sr_recover does, row by row, with what it should print and its status: each row worked out by hand."""

import os
import re
import socket
import subprocess
import tempfile
import time

from . import live_rows as script_rows
from .live import Dump, Live, all_replies
from .live_rows import FEE_LIVE, FIRST_ROWS, IDLE_ROWS, SOFT, SOFT_LIVE, TWO, TWO_LIVE, lines
from .recover import PROGRAM, ROOT, Printed, Proxy, Sent, ended, passed_on, policy_text, run, words_of
from .resp import encoded, value_of
from .servers import HOST, Redis

GROUP = ["s", "g", "D"]
PLAN = (
    b"consumer  entries  cost  price\n"
    b"A               1     2      2\n"
    b"B               1     4      0\n"
    b"total           2     6\n"
)
UNKNOWN = b"redis: the plan was sent, and what came of it is not known: %s. Plan again to see what is left\n"
SECRET = "s3cret word"
CHECKER = os.environ.get("PLAN_CHECK", os.path.join(ROOT, "crates", "plan_check", "out", "plan_check"))
LIVE_PAGE = os.path.join(ROOT, "docs", "LIVE.md")
LARGE, TAKERS = 4096, 64
LATE = 0.5  # seconds that the program may take beside its timeout, on a machine with other work

# What another client does right before the script, options, and the answer: in the setting of TWO where nothing else is
# said. Those of live_rows come on top.
GAPS = [
    ("A acknowledges, within less than the gap", "XACK s g 0-1", ["--within", 1], script_rows.stale(b"gap", b"2")),
    ("A acknowledges, within the gap", "XACK s g 0-1", ["--within", 2], script_rows.done(2, 2)),
    ("A acknowledges, within more than the gap", "XACK s g 0-1", ["--within", 2**64 - 1], script_rows.done(2, 2)),
]


# A has two entries and two places left, and B one entry and three places. With --spare 1 the plan is that of TWO: it gives
# 1-1 to B and 2-1 to A, which has a price of 2, and one place left. So the gap is 2, and 4 if A acknowledges one.
SPARE_TWO = [*TWO[:-3], *lines("XADD s 0-3 c x\nXREADGROUP GROUP g A COUNT 1 STREAMS s >"), *TWO[-3:]]
SPARE_LIVE = [live._replace(limit=limit) for live, limit in zip(TWO_LIVE, (4, 4))]
GIVEN_TO_A, GIVEN_TO_B = script_rows.GIVEN_TO_A, script_rows.GIVEN_TO_B
SPARE_ROWS = [
    ("nothing has changed", "PING", [], script_rows.done(2, 2)),
    ("A acknowledges one", "XACK s g 0-1", [], script_rows.done(2, 4)),
    ("A acknowledges two", "XACK s g 0-1 0-3", [], script_rows.stale(b"gap", b"6")),
    ("A acknowledges two, within less", "XACK s g 0-1 0-3", ["--within", 1], script_rows.stale(b"gap", b"6")),
    ("A acknowledges two, within as much", "XACK s g 0-1 0-3", ["--within", 2], script_rows.done(2, 6)),
    ("A is given one", GIVEN_TO_A, [], script_rows.done(2, 0)),
    ("A is given two", f"{GIVEN_TO_A}\n{GIVEN_TO_A}", [], script_rows.stale(b"room", b"A")),
    ("A is given two, within any gap", f"{GIVEN_TO_A}\n{GIVEN_TO_A}", ["--within", 2**64 - 1], script_rows.stale(b"room", b"A")),
    ("B is given one", GIVEN_TO_B, [], script_rows.done(2, 2)),
    ("A acknowledges one, and B is given one", f"XACK s g 0-1\n{GIVEN_TO_B}", [], script_rows.done(2, 4)),
    ("an entry of the dead is acknowledged", "XACK s g 1-1", [], script_rows.stale(b"pending", b"D")),
]


class Bench:
    """A Redis, the program before it, and what is compared."""

    def __init__(self, tally, connection):
        self.tally, self.connection, self.check = tally, connection, tally.check
        self.port = connection.socket.getpeername()[1]

    def begin(self, setting=TWO):
        replies = all_replies(self.connection, [["FLUSHALL"], *setting])
        faults = [reply for reply in replies if isinstance(reply, Exception)]
        if faults:
            raise SystemExit(f"a setting was refused: {faults[0]}")

    def expect(self, what, wanted, found):
        """Compares a status and what is printed, in which a text may be a part of what is wanted."""
        status, out, errors = wanted
        self.check(f"{what}: status", status, found.status)
        self.check(f"{what}: {out} in {found.out}", True, out in found.out)
        self.check(f"{what}: {errors} in {found.errors}", True, errors in found.errors if errors else not found.errors)

    def plan(self, *options, action="plan", lives=TWO_LIVE, names=GROUP, env=None, port=None):
        return run(port or self.port, policy_text(lives), action, names, *options, env=env)

    def dump(self, key="s"):
        return Dump(self.connection, key).text


def before_script(connection, changes, at=1):
    """Has another client do this right before the program calls the script for the first time, or another one."""
    left = [changes, *[None] * (at - 1)]

    def act(call):
        if call.words[0] == b"EVALSHA" and left:
            all_replies(connection, lines(left.pop() or "PING"))
        return passed_on(call)

    return act


def answered(found):
    """The answer of the script, as the program printed it."""
    printed = Printed(found.out)
    return [b"done", *printed.done] if printed.done else printed.stale


def between(bench, proxy):
    """The table of docs/LIVE.md, and more: something happens between snapshot and script."""
    rows = [(TWO, TWO_LIVE, what, changes, [], wanted) for what, changes, wanted in script_rows.TWO_ROWS]
    rows += [(SOFT, SOFT_LIVE, what, changes, [], wanted) for what, changes, wanted in script_rows.SOFT_ROWS]
    rows += [(SOFT, FEE_LIVE, what, changes, [], wanted) for what, changes, wanted in script_rows.FEE_ROWS]
    rows += [(TWO, TWO_LIVE, what, changes, ["--at-most", 1], wanted) for what, changes, wanted in FIRST_ROWS]
    rows += [(script_rows.GONE, TWO_LIVE, what, changes, [], wanted) for what, changes, wanted in script_rows.GONE_ROWS]
    rows += [(TWO, TWO_LIVE, what, changes, options, wanted) for what, changes, options, wanted in GAPS]
    rows += [(SPARE_TWO, SPARE_LIVE, f"--spare 1: {what}", changes, ["--spare", 1, *options], wanted) for what, changes, options, wanted in SPARE_ROWS]
    idle = ["--idle-over", script_rows.IDLE]
    rows += [(script_rows.IDLE_TWO, TWO_LIVE, what, changes, idle, wanted) for what, changes, wanted in IDLE_ROWS]
    often = ["--given-up-after", script_rows.DELIVERIES]
    rows += [(script_rows.OFTEN, TWO_LIVE, f"delivered often: {what}", changes, often, wanted) for what, changes, wanted in script_rows.OFTEN_ROWS]
    for setting, lives, what, changes, options, wanted in rows:
        bench.begin(setting)
        proxy.begin(before_script(bench.connection, changes))
        found = bench.plan("--tries", 1, *options, action="run", lives=lives, port=proxy.port)
        bench.check(what, wanted, answered(found))
        bench.check(f"{what}: status", (0, b"") if wanted[0] == b"done" else (4, b""), (found.status, found.errors))


def statuses(bench, proxy):
    """Each status once, with the text that belongs to it."""
    bench.begin()
    before = bench.dump()
    bench.expect("a plan", (0, PLAN, b""), bench.plan())
    bench.check("a plan is all that is printed", PLAN, bench.plan().out)
    for found in (bench.plan("--check"), bench.plan("--at-most", 1), board(bench)):
        bench.check("plan and board change nothing", (0, before), (found.status, bench.dump()))
    told = b"redis: XPENDING is answered with an error: NOGROUP No such key 't' or consumer group 'g'"
    bench.expect("no such key", (1, b"", told), bench.plan(names=["t", "g", "D"]))
    told = b"redis: XPENDING is answered with an error: NOGROUP No such key 's' or consumer group 'h'"
    bench.expect("no such group", (1, b"", told), bench.plan(names=["s", "h", "D"]))
    bench.expect("options", (2, b"", b"error: --tries: a number from 1 to 16\n"), bench.plan("--tries", 17, action="run"))
    short = b"none: too few places for\n0-1\n1-1\n2-1\n"
    bench.expect("no plan", (3, short, b""), bench.plan(names=["s", "g", "A", "D"]))
    bench.expect("no plan to run", (3, short, b""), bench.plan(action="run", names=["s", "g", "A", "D"]))
    bench.check("nothing of that changes anything", before, bench.dump())
    proxy.begin(before_script(bench.connection, "XACK s g 2-1"))
    stale = b"stale: pending D, nothing was changed\n"
    bench.expect("stale", (4, stale, b""), bench.plan("--tries", 1, action="run", port=proxy.port))
    bench.begin()
    proxy.begin(lambda call: Sent(b"", "close") if call.is_script() else passed_on(call))
    text = UNKNOWN % b"it closed the connection"
    bench.expect("no answer", (5, b"", text), bench.plan(action="run", port=proxy.port))
    bench.expect("done", (0, PLAN + b"done, claimed 2, gap 0\n", b""), bench.plan(action="run"))
    bench.expect("nothing is left", (0, b"done, claimed 0, gap 0\n", b""), bench.plan(action="run"))
    for answer in (b"*3\r\n$4\r\ndone\r\n:1\r\n:0\r\n", b"*3\r\n$4\r\ndone\r\n:3\r\n:0\r\n", b"*3\r\n$4\r\ndone\r\n:2\r\n:1\r\n"):
        bench.begin()
        proxy.begin(lambda call, answer=answer: Sent(answer) if call.is_script() else passed_on(call))
        text = UNKNOWN % b"the answer does not fit the plan"
        bench.expect(f"{answer}", (5, b"", text), bench.plan(action="run", port=proxy.port))
        calls = sum(words[0] == b"EVALSHA" for words in proxy.calls)
        bench.check(f"{answer}: no other round", 1, calls)


def board(bench, *options):
    return run(bench.port, policy_text(SOFT_LIVE), "board", GROUP[:2], *options)


def without_idle(out):
    """What the board prints, without the idle times."""
    return re.sub(rb" +\d+( +(?:\d+|-)\n)", rb"\1", out)


def other_names(bench, _):
    """A name that no consumer has, one that is named twice, other databases, and the board."""
    bench.begin()
    nobody = bench.plan(names=["s", "g", "E"])
    bench.check("an unknown name: an empty plan", (0, 0), (nobody.status, Printed(nobody.out).total))
    bench.check("an unknown name is told", b"note: the group has no consumer E\n", nobody.errors)
    bench.check("a name is given twice", bench.plan().out, bench.plan(names=["s", "g", "D", "D"]).out)
    short = b"none: too few places for\n0-1\n0-2\n1-1\n2-1\n"
    bench.expect("all are dead", (3, short, b""), bench.plan(names=["s", "g", "A", "B", "D"]))
    all_replies(bench.connection, lines("XGROUP CREATECONSUMER s g E\nXGROUP DELCONSUMER s g B"))
    wanted = (
        b"consumer  pending  limit  soft  room  idle  delivered\n"
        b"A               1      4     2     3          1\n"
        b"D               2      -     -     -          1\n"
        b"E               0      -     -     -          -\n"
        b"B               0      4     -     4     -          -\n"
    )
    found = board(bench)
    bench.check("the board", (0, wanted, b""), (found.status, without_idle(found.out), found.errors))
    bench.begin()
    bench.expect("another database", (1, b"", b"NOGROUP No such key 's'"), bench.plan("--db", 3))
    all_replies(bench.connection, lines("MOVE s 3"))
    bench.check("the key's database", (0, PLAN), bench.plan("--db", 3)[:2])
    error = b"redis: SELECT is answered with an error: ERR DB index is out of range"
    bench.expect("no such database", (1, b"", error), bench.plan("--db", 99))


TOML, SHAPE, RANGE = b"policy: not TOML", b"policy: wrong shape", b"policy: a value is out of its range"
TIERS = "version = 2\n[limits]\nA = 2\n[soft]\nA = 1\n[fees]\nA = 1\n"

# Each with the first key for which it is refused, its line, and what is wrong there.
POLICIES = [
    ("[limits\n", TOML + b", line 1\n"),
    ("version = 1\n\n[limits]\nA = 1\nA = 2\n", TOML + b", line 5\n"),
    ("limits = 3\n", SHAPE + b": limits, line 1: it has to be a table\n"),
    ("version = 3\n[limit]\nA = 1\n", SHAPE + b": limit, line 2: a policy has no such key\n"),
    ("[limits]\nA = 1\n\n[rates.x]\nA = 1\nB = 1\n", SHAPE + b": rates.x.B, line 6: the consumer has no limit\n"),
    ("[limits]\nA = 1\n[rates.x]\nA = 1.5\n", SHAPE + b": rates.x.A, line 4: it has to be an integer\n"),
    ("rates.x = [\n1,\n2]\n", SHAPE + b": rates.x, line 1: it has to be a table\n"),
    ("[rates]\n'a.b' = { C = 1 }\n", SHAPE + b": rates.a.b.C, line 2: the consumer has no limit\n"),
    (TIERS.replace("version = 2\n", ""), SHAPE + b": soft, line 3: it has to stand in a file of version 2\n"),
    (TIERS + "B = 1\n", SHAPE + b": fees.B, line 8: the consumer has no soft limit\n"),
    (TIERS.replace("[fees]\nA = 1\n", ""), SHAPE + b": soft.A, line 5: the consumer has no fee\n"),
    ("version = 2\n[soft]\n[limits]\nA = -1\n", RANGE + b": limits.A, line 4: it has to be 0 to 1000000000\n"),
    (TIERS.replace("A = 1", "A = 3", 1), RANGE + b": soft.A, line 5: it has to be 0 to the consumer's limit\n"),
    ("# below\n[limits]\nA = -1\n", RANGE + b": limits.A, line 3: it has to be 0 to 1000000000\n"),
    ("[limits]\nA = 1\n[rates.'*']\nA = 1048577\n", RANGE + b": rates.*.A, line 4: it has to be 0 to 1048576\n"),
    ("version = 3\n", RANGE + b": version, line 1: it has to be 1 or 2\n"),
]


def policies(bench, _):
    """Policies that are refused, before Redis is asked anything; and an empty one."""
    for text, wanted in POLICIES:
        bench.check(f"policy {text!r}", (1, b"", wanted), run(1, text, "plan", GROUP)[:3])
    for path, why in (("/nonexistent/policy.toml", b"No such file or directory (os error 2)"), ("/", b"Is a directory (os error 21)")):
        found = ended(words_of(bench.port, path, "plan", GROUP, []))
        bench.check(f"no policy file: {path}", (1, b"", b"policy: cannot read the file %s: %s\n" % (path.encode(), why)), found[:3])
    bench.begin()
    short = b"none: too few places for\n1-1\n2-1\n"
    bench.expect("an empty policy", (3, short, b""), run(bench.port, "", "plan", GROUP))


OPTIONS = [
    "--spare -1",
    "--spare 1000000001",
    "--spare x",
    "--seen-within -1",
    "--seen-within 1000000000001",
    "--seen-within x",
    "--idle-over -1",
    "--idle-over 1000000000001",
    "--idle-over x",
    "--given-up-after 0",
    "--given-up-after 1000000001",
    "--given-up-after x",
    "--tries 0",
    "--tries 17",
    "--tries x",
    "--within -1",
    f"--within {2**64}",
    "--at-most 0",
    "--at-most 4097",
    "--all",
    "--timeout 0",
    "--timeout 600001",
    "--db -1",
    "--nonsense",
    "--password word",
]
LINES = ["", "stop", "plan", "plan s g D", "run --policy /dev/null s g"]
LINES += ["board --policy /dev/null s", "board --policy /dev/null s g D"]


def command_lines(bench, _):
    """Command lines that are refused, and help."""
    for options in OPTIONS:
        found = bench.plan(*options.split())
        bench.check(options, (2, b"", True), (found.status, found.out, found.errors.startswith(b"error: ")))
    found = bench.plan("--all", "--check", action="run")
    bench.check("--all --check", (2, b"", b"error: --all: it prints a line for each step, and no --check\n"), found[:3])
    for line in LINES:
        found = ended([PROGRAM, *line.split()])
        bench.check(f"sr_recover {line}", (2, b"", True), (found.status, found.out, found.errors != b""))
    found = ended([PROGRAM, "--help"])
    bench.check("help", (0, True, b""), (found.status, b"board" in found.out, found.errors))
    bench.check("the version", (0, b"sr_recover %s\n" % newest(), b""), ended([PROGRAM, "--version"])[:3])
    with open("/dev/full", "wb") as full:
        for option in ("--help", "--version"):
            found = subprocess.run([PROGRAM, option], stdout=full, stderr=subprocess.PIPE, timeout=60, check=False)
            bench.check(f"{option} to a full disk", (1, b"output: a write failed\n"), (found.returncode, found.stderr))


def newest():
    """The date of the newest version in the changelog."""
    with open(os.path.join(ROOT, "CHANGELOG.md"), encoding="utf-8") as page:
        return next(line[3:].strip().encode() for line in page if line.startswith("## "))


# Forms of --redis that are wrong. Others, and URLs, are in lib/recover_reach.py.
PORT_MISSING = b"error: --redis: the port is missing: a host and a port, as 127.0.0.1:6379\n"
PORT_WRONG = b"error: --redis: the port has to be a number from 1 to 65535\n"
WRONG_PLACES = [
    ("127.0.0.1", PORT_MISSING),
    ("localhost", PORT_MISSING),
    ("127.0.0.1:", PORT_MISSING),
    ("[::1]", PORT_MISSING),
    (":6379", b"error: --redis: the host is missing: a host and a port, as 127.0.0.1:6379\n"),
    ("127.0.0.1:0", PORT_WRONG),
    ("127.0.0.1:65536", PORT_WRONG),
    ("127.0.0.1:redis", PORT_WRONG),
    ("127.0.0.1:-1", PORT_WRONG),
    ("::1", b"error: --redis: an IPv6 address and a port, as [::1]:6379\n"),
]


def places(bench, _):
    """Forms of --redis that are wrong, hosts that there are not, and places where nobody listens or answers."""
    for place, wanted in WRONG_PLACES:
        bench.check(place, (2, b"", wanted), at_place(place)[:3])
    for place, host in (("no such host:1", b"no such host"), ("nobody.invalid:6379", b"nobody.invalid")):
        text = b"redis: cannot find the host %s: failed to lookup address information" % host
        found = at_place(place)
        seen = found.status, found.out, found.errors[: len(text)], found.errors.endswith(b". Is its name right?\n")
        bench.check(place, (1, b"", text, True), seen)
    text = b"redis: cannot connect to %s: Connection refused (os error 111). Is Redis running there, and is this its port?\n"
    for place in ("127.0.0.1:1", "[::1]:1") if has_ipv6() else ("127.0.0.1:1",):
        bench.check(f"nobody listens at {place}", (1, b"", text % place.encode()), at_place(place)[:3])


def has_ipv6():
    """Whether this machine has the loopback address of IPv6."""
    try:
        socket.create_server(("::1", 0), family=socket.AF_INET6).close()
        return True
    except OSError:
        return False


def at_place(place):
    words = words_of(1, "/dev/null", "plan", GROUP, [])
    return ended([place if word == f"{HOST}:1" else word for word in words])


def passwords(bench, _):
    """A password from a file and from the environment, and wrong ones. None is ever printed."""
    bench.begin()
    bench.connection.call("CONFIG", "SET", "requirepass", SECRET)
    bench.connection.call("ACL", "SETUSER", "planner", "reset", "on", f">{SECRET}2", "allkeys", "allcommands")
    refused = b"redis: the user's name or the password is refused: WRONGPASS"
    with tempfile.TemporaryDirectory() as folder:
        path = os.path.join(folder, "password")
        rows = [
            ("a password in a file", SECRET, {}, [], (0, PLAN, b"")),
            ("a line end after it", SECRET + "\n", {}, [], (0, PLAN, b"")),
            ("a line end of two bytes", SECRET + "\r\n", {}, [], (0, PLAN, b"")),
            ("in the environment", None, {"REDISCLI_AUTH": SECRET}, [], (0, PLAN, b"")),
            ("the file is what counts", SECRET, {"REDISCLI_AUTH": "other"}, [], (0, PLAN, b"")),
            ("of another user", SECRET + "2\n", {}, ["--user", "planner"], (0, PLAN, b"")),
            ("a wrong one", SECRET + "3", {}, [], (1, b"", refused)),
            ("a wrong one in the environment", None, {"REDISCLI_AUTH": SECRET + "4"}, [], (1, b"", refused)),
            ("another user's", SECRET, {}, ["--user", "planner"], (1, b"", refused)),
            ("a user without one", None, {}, ["--user", "planner"], (2, b"", b"error: a user needs a password")),
            ("none", None, {}, [], (1, b"", b"NOAUTH Authentication required. (give a password: --password-file")),
        ]
        for what, text, env, options, wanted in rows:
            if text is not None:
                with open(path, "w", encoding="utf-8") as file:
                    file.write(text)
                options = [*options, "--password-file", path]
            found = bench.plan(*options, env=env)
            bench.expect(what, wanted, found)
            bench.check(f"{what}: password printed", False, SECRET.encode() in found.out + found.errors)
    found = bench.plan("--password-file", "/nonexistent/password")
    text = b"password: cannot read the file /nonexistent/password: No such file or directory (os error 2)\n"
    bench.check("no password file", (1, b"", text), found[:3])
    bench.connection.call("CONFIG", "SET", "requirepass", "")
    bench.connection.call("ACL", "DELUSER", "planner")


def echoing(bench, _):
    """A Redis that does not know AUTH tells with what words it was called. The password is not printed all the same."""
    with Redis("--rename-command", "AUTH", "") as server:
        found = bench.plan(env={"REDISCLI_AUTH": SECRET}, port=server.port)
        bench.check("AUTH is unknown", (1, b""), found[:2])
        bench.check("AUTH is unknown: password printed", False, SECRET.encode() in found.out + found.errors)


def users():
    """The two lines of docs/LIVE.md that make a user: its name, and the words after that."""
    with open(LIVE_PAGE, encoding="utf-8") as page:
        for line in page:
            if line.startswith("    ACL SETUSER "):
                name, *words = line.split()[2:]
                yield name, [word.replace("SECRET", SECRET).replace("~jobs", "~s") for word in words]


RIGHTS = [
    ("+xinfo|stream", "NOPERM this user has no permissions to run the 'xinfo|stream' command"),
    ("+xpending", "NOPERM this user has no permissions to run the 'xpending' command"),
    ("+xrange", "NOPERM this user has no permissions to run the 'xrange' command"),
    ("+xclaim", "ERR The user executing the script can't run this command or subcommand"),
    ("+evalsha", "NOPERM this user has no permissions to run the 'evalsha' command"),
    ("+eval", "NOPERM this user has no permissions to run the 'eval' command"),
    ("+select", "NOPERM this user has no permissions to run the 'select' command"),
    ("~s", "NOPERM this user has no permissions to access one of the keys used as arguments"),
]
ADVICE = b"(the user lacks a right: docs/LIVE.md has the line for ACL SETUSER)\n"
ASKING = "+xinfo|consumers"  # for the board, --seen-within and notes alone
HIDDEN = b"note: whether the group has all these consumers is not known: the user lacks +xinfo|consumers\n"


def rights(bench, _):
    """The users of docs/LIVE.md, and the first one with each right missing in turn."""
    (recover, granted), (planner, reading) = users()
    tried = sorted([ASKING, *(right for right, _ in RIGHTS)])
    bench.check("the rights that are tried", tried, sorted(word for word in granted if word[0] in "+~"))
    for missing, wanted in [*RIGHTS, (None, None)]:
        left = [word for word in granted if word != missing]
        moving = [["MOVE", "s", 3]] if missing in (None, "+select") else []
        bench.begin([*TWO, ["SCRIPT", "FLUSH"], ["ACL", "SETUSER", recover, "reset", *left], *moving])
        before = bench.dump()
        options = ["--user", recover, *(["--db", 3] if moving else [])]
        found = bench.plan(*options, action="run", env={"REDISCLI_AUTH": SECRET})
        if missing:
            bench.expect(f"without {missing}", (1, b"", wanted.encode()), found)
            bench.check(f"without {missing}: advice", ADVICE, found.errors[-len(ADVICE) :])
            bench.check(f"without {missing}: nothing has changed", before, bench.dump())
        else:
            bench.expect("with all rights", (0, b"done, claimed 2, gap 0\n", b""), found)
    without_asking(bench, recover)
    bench.begin([*TWO, ["ACL", "SETUSER", recover, "-eval"]])
    found = bench.plan("--user", recover, action="run", env={"REDISCLI_AUTH": SECRET})
    bench.expect("the script is known", (0, b"done, claimed 2", b""), found)
    bench.begin([*TWO, ["ACL", "SETUSER", planner, "reset", *reading]])
    for action, names, wanted in (("plan", GROUP, 0), ("board", GROUP[:2], 0), ("run", GROUP, 1)):
        found = bench.plan("--user", planner, action=action, names=names, env={"REDISCLI_AUTH": SECRET})
        bench.check(f"{action} of a user that only reads", wanted, found.status)
    bench.connection.call("ACL", "DELUSER", recover, planner)


def without_asking(bench, user):
    """A user that may not ask for the consumers of a group: a note tells it where a name has no pending entries."""
    env = {"REDISCLI_AUTH": SECRET}
    bench.begin([*TWO, ["ACL", "SETUSER", user, "-xinfo|consumers"]])
    for setting, note in ((["PING"], b""), (["XACK", "s", "g", "0-2"], HIDDEN)):
        all_replies(bench.connection, [setting])
        found = bench.plan("--user", user, env=env)
        bench.check(f"without {ASKING} after {setting}", (0, note), (found.status, found.errors))
    told = b"redis: XINFO CONSUMERS is answered with an error: NOPERM"
    for action, names, options in (("plan", GROUP, ["--seen-within", 9]), ("board", GROUP[:2], [])):
        found = bench.plan("--user", user, *options, action=action, names=names, env=env)
        bench.expect(f"{action} {options} without {ASKING}", (1, b"", told), found)
    found = bench.plan("--user", user, action="run", env=env)
    bench.check(f"run without {ASKING}", (0, (2, 0), HIDDEN), (found.status, Printed(found.out).done, found.errors))


def firsts(bench, _):
    """--at-most, run after run: three entries, of which the second is gone."""
    bench.begin([*TWO, *lines("XADD s 3-1 c x\nXADD s 4-1 c x\nXREADGROUP GROUP g D COUNT 9 STREAMS s >\nXDEL s 2-1")])
    lives = [Live(b"B", 9, None, {b"x": 1})]
    bench.check("the first", [b"1-1"], moved(bench, lives, 1))
    bench.check("the next two", [b"3-1", b"4-1"], moved(bench, lives, 2))
    bench.check("none is left", [], moved(bench, lives, 4096))


ONE_LIVE = [Live(b"B", 9999, None, {b"x": 1})]


def pending_for(dead, number):
    """Commands by which the entries from 1-1 on are pending for these consumers, each with the numbers of its own."""
    yield ["XGROUP", "CREATE", "s", "g", "0", "MKSTREAM"]
    yield from (["XADD", "s", f"{at}-1", "c", "x"] for at in range(1, number + 1))
    for name, own in dead.items():
        ids = [f"{at}-1" for at in own]
        yield from (["XCLAIM", "s", "g", name, 0, *ids[at : at + 1000], "FORCE", "JUSTID"] for at in range(0, len(ids), 1000))


# Who has which entries; up to which they are deleted; --at-most; how many pages are looked up, how many calls of XRANGE
# there are, and how many entries these list. Ranges are for 32 entries, then 64, 128 and 256. One that lists more than two
# and a half times what is wanted is followed by single calls, as many as it listed in vain, up to a multiple of 32, and then
# by one for 32.
REACHES = [
    ("ten of many", {"D": range(1, 5001)}, 0, 10, 1, 1, 10),
    ("as many as there are", {"D": range(1, 1001)}, 0, 1000, 1, 7, 1000),
    ("one page and one entry", {"D": range(1, 5001)}, 0, 1001, 2, 8, 1001),
    ("behind gone ones", {"D": range(1, 5001)}, 1500, 10, 2, 9, 10),
    ("fewer than asked for", {"D": range(1, 2002)}, 0, 4096, 3, 12, 2001),
    ("two take turns", {"D": range(1, 6001, 2), "E": range(2, 6001, 2)}, 0, 10, 2, 1, 10),
    ("two take turns, two pages each", {"D": range(1, 6001, 2), "E": range(2, 6001, 2)}, 0, 2500, 4, 13, 2500),
    ("one after the other", {"D": range(1, 3001), "E": range(3001, 6001)}, 0, 2500, 4, 13, 2500),
    ("the later one first", {"D": range(3001, 6001), "E": range(1, 3001)}, 0, 2500, 4, 13, 2500),
    ("one has few", {"D": range(1, 3001), "E": range(1500, 1501)}, 0, 1600, 3, 10, 1600),
    ("every other entry", {"D": range(1, 6001, 2)}, 0, 1000, 1, 16, 1995),
    ("every tenth entry", {"D": range(1, 6001, 10)}, 0, 600, 1, 550, 1069),
    ("some together, far from others", {"D": [*range(1, 301), *range(5001, 5301)]}, 0, 600, 1, 199, 780),
]


class Counted:
    """Counts what a run looks up: pages, calls of XRANGE, and the entries that these list."""

    def __init__(self, proxy):
        self.pages = self.calls = self.entries = 0
        proxy.begin(self.act)

    def act(self, call):
        text = call.forward()
        self.pages += call.words[0] == b"XPENDING" and len(call.words) > 3
        if call.words[0] == b"XRANGE":
            self.calls += 1
            self.entries += len(value_of(text))
        return Sent(text)


def no_further(bench, proxy):
    """--at-most: no more pages and no more entries are looked up than it needs. The plan is that of the first ones."""
    for what, dead, deleted, most, *wanted in REACHES:
        bench.begin([*pending_for(dead, 6000), ["XTRIM", "s", "MINID", f"{deleted + 1}-1"]])
        counted = Counted(proxy)
        found = bench.plan("--at-most", most, "--check", lives=ONE_LIVE, names=["s", "g", *dead], port=proxy.port)
        ids = [line.split()[1] for line in found.out.split(b"\n") if line.startswith(b"entry ")]
        mine = sorted({at for own in dead.values() for at in own if at > deleted})[:most]
        bench.check(f"{what}: the first ones", (0, [b"%d-1" % at for at in mine]), (found.status, ids))
        bench.check(f"{what}: pages, calls and entries", wanted, [counted.pages, counted.calls, counted.entries])


def many(bench, proxy):
    """More pending than are looked at: with --at-most the first ones, whatever comes later; otherwise a fault, and soon."""
    bench.begin(pending_for({"D": range(1, 120_001)}, 120_000))
    proxy.begin()
    found = bench.plan("--at-most", 4096, "--timeout", 60000, lives=ONE_LIVE, port=proxy.port)
    bench.check("120,000 are pending", (0, LARGE), (found.status, Printed(found.out).shares[b"B"][0]))
    bench.check("calls for 4,096 of them", True, len(proxy.calls) < 50)
    text = b"group: too many entries: 100,000 are looked at at most, and without --at-most 4,096 may be stranded\n"
    proxy.begin()
    bench.expect("too many are stranded", (1, b"", text), bench.plan("--timeout", 60000, lives=ONE_LIVE, port=proxy.port))
    bench.check("that is known after 4,097", True, len(proxy.calls) < 50)
    bench.connection.call("XTRIM", "s", "MINID", "110001-1")
    bench.expect("too many are gone", (1, b"", text), bench.plan("--timeout", 60000, "--at-most", 99, lives=ONE_LIVE))


def calls_of(connection, command):
    """How often Redis was called so since CONFIG RESETSTAT."""
    stats = connection.call("INFO", "commandstats").decode()
    return sum(int(line.split("calls=")[1].split(",")[0]) for line in stats.split() if line.startswith(f"cmdstat_{command}:"))


SUM = b"note: all is moved in steps, and together they may cost more than one plan would\n"


def hidden(bench, proxy):
    """An entry that is deleted, which XSETID hides: the script claims the other one, and that is told."""
    bench.begin()
    proxy.begin(before_script(bench.connection, "XDEL s 2-1\nXSETID s 2-1 ENTRIESADDED 3"))
    text = UNKNOWN % b"the answer does not fit the plan"
    bench.expect("hidden by XSETID", (5, b"", text), bench.plan(action="run", port=proxy.port))


def everything(bench, proxy):
    """--all: one line a step, and how it ends. The two entries of TWO cost 6 together, and 202 one after the other."""
    bench.begin()
    first, second = (b"done, claimed 1, gap 0, cost %d\n" % cost for cost in (2, 200))
    found = bench.plan("--all", "--at-most", 1, action="run")
    bench.check("one by one", (0, first + second, SUM), found[:3])
    found = bench.plan("--all", action="run")
    bench.check("none is left", (0, b"done, claimed 0, gap 0, cost 0\n", b""), found[:3])
    bench.begin()
    found = bench.plan("--all", action="run")
    bench.check("one step", (0, b"done, claimed 2, gap 0, cost 6\n", b""), found[:3])
    bench.begin([*TWO, ["XDEL", "s", "2-1"]])
    found = bench.plan("--all", action="run")
    bench.check("one is gone", (0, first + b"gone: 1\ngone 2-1 of D\n", b""), found[:3])
    bench.begin()
    lives = [Live(b"A", 2, None, {b"x": 1, b"y": 1})]
    found = bench.plan("--all", "--at-most", 1, action="run", lives=lives)
    bench.check("too few places", (3, first + b"none: too few places for\n2-1\n", SUM), found[:3])
    bench.begin()
    proxy.begin(before_script(bench.connection, "XDEL s 2-1", 2))
    found = bench.plan("--all", "--at-most", 1, "--tries", 1, action="run", port=proxy.port)
    bench.check("the second is stale", (4, first + b"stale: entry 2-1, nothing was changed\n", SUM), found[:3])
    bench.begin(pending_for({"D": range(1, 5001)}, 5000))
    found = bench.plan("--all", action="run", lives=ONE_LIVE)
    counts = [int(line.split(b",")[1].split()[1]) for line in found.out.split(b"\n")[:-1]]
    bench.check("5,000 entries", (0, [4096, 904]), (found.status, counts))


def too_long(bench, _):
    """Entries that have more than 64 MiB together are read fewer at a time; one that has that alone cannot be read."""
    bench.begin(pending_for({}, 0))
    value = "v" * (2200 << 10)
    all_replies(bench.connection, [["XADD", "s", f"{at}-1", "c", "x", "v", value] for at in range(1, 34)])
    bench.connection.call("XCLAIM", "s", "g", "D", 0, *[f"{at}-1" for at in range(1, 34)], "FORCE", "JUSTID")
    for options, entries, calls in ([], 33, 1 + 3), (["--at-most", 1], 1, 1), (["--at-most", 20], 20, 1):
        bench.connection.call("CONFIG", "RESETSTAT")
        found = bench.plan("--timeout", 60000, *options, lives=ONE_LIVE)
        bench.check(f"{entries} long entries", (0, entries), (found.status, Printed(found.out).shares.get(b"B", [0])[0]))
        bench.check(f"{entries} long entries: calls", calls, calls_of(bench.connection, "xrange"))
    bench.begin([*pending_for({}, 1), ["XADD", "s", "2-1", "c", "x", "v", "v" * (65 << 20)], ["XADD", "s", "3-1", "c", "x"]])
    bench.connection.call("XCLAIM", "s", "g", "D", 0, "1-1", "2-1", "FORCE", "JUSTID")
    found = bench.plan("--timeout", 60000, lives=ONE_LIVE)
    bench.expect("an entry of 65 MiB", (1, b"", b"redis: a reply is too long\n"), found)
    found = bench.plan("--timeout", 60000, "--at-most", 1, lives=ONE_LIVE)
    bench.check("the one before it", (0, 1), (found.status, Printed(found.out).shares[b"B"][0]))
    bench.begin()


def gone(bench, _):
    """How many entries are gone, and the first 20 of them; with --check all of them."""
    added = "\n".join(f"XADD s {at}-1 c x" for at in range(3, 33))
    deleted = " ".join(f"{at}-1" for at in range(2, 32))
    bench.begin([*TWO, *lines(f"{added}\nXREADGROUP GROUP g D COUNT 99 STREAMS s >\nXDEL s {deleted}")])
    lives = [Live(b"B", 9, None, {b"x": 1})]
    rows = b"".join(b"gone %d-1 of D\n" % at for at in range(2, 22))
    wanted = b"total           2     4\ngone: 30\n" + rows
    bench.check("30 are gone", (0, wanted), (0, bench.plan(lives=lives).out.partition(b"\n")[2].partition(b"\n")[2]))
    out = bench.plan("--check", lives=lives).out
    bench.check("--check lists all", [b"gone %d-1" % at for at in range(2, 32)], [line for line in out.split(b"\n") if line[:5] == b"gone "])
    found = bench.plan(action="run", lives=lives)
    bench.check("they stay", (0, 30), (found.status, len(bench.connection.call("XPENDING", "s", "g", "-", "+", 99, "D"))))
    bench.connection.call("XACK", "s", "g", *deleted.split())
    bench.check("after XACK none is told", b"gone" in bench.plan(lives=lives).out, False)


def spare(bench, proxy):
    """--spare: both entries at A are cheaper by 2, and A has just two places. It is planned without if it cannot be."""
    bench.begin(SPARE_TWO)
    for places, total in ((0, 4), (1, 6)):
        found = bench.plan("--spare", places, lives=SPARE_LIVE)
        bench.check(f"--spare {places}", (0, total, b""), (found.status, Printed(found.out).total, found.errors))
    problem = bench.plan("--spare", 1, "--check", lives=SPARE_LIVE).out
    bench.check("--check has the lower limits", True, b"consumer A 1\nconsumer B 2\n" in problem)
    note = b"note: too few places with --spare %d, so it is planned without it\n"
    for places in (2, 10**9):
        found = bench.plan("--spare", places, lives=SPARE_LIVE)
        bench.check(f"--spare {places}", (0, 4, note % places), (found.status, Printed(found.out).total, found.errors))
    bench.begin()
    proxy.begin(before_script(bench.connection, GIVEN_TO_B))
    found = bench.plan("--spare", 1, action="run", port=proxy.port)
    bench.check("a run without", (0, PLAN + b"done, claimed 2, gap 0\n", note % 1), found[:3])
    bench.begin()
    short = b"none: too few places for\n0-1\n1-1\n2-1\n"
    for action in ("plan", "run"):
        found = bench.plan("--spare", 1, action=action, names=["s", "g", "A", "D"])
        bench.check(f"{action}: no plan without either", (3, short, note % 1), found[:3])


def idle(bench, _):
    """--idle-over: an entry that has not been idle for so long is left, and is not even read."""
    bench.begin(script_rows.IDLE_TWO)
    for over, ids in ((0, [b"1-1", b"2-1"]), (script_rows.IDLE, [b"1-1"]), (2 * script_rows.OLD, [])):
        out = bench.plan("--check", "--idle-over", over).out
        listed = [line.split()[1] for line in out.split(b"\n") if line.startswith(b"entry ")]
        bench.check(f"idle for {over}", ids, listed)
    found = bench.plan("--idle-over", script_rows.IDLE, action="run")
    bench.check("the idle one is moved", (0, (1, 0)), (found.status, Printed(found.out).done))
    owners = [row[1] for row in bench.connection.call("XPENDING", "s", "g", "1-1", "2-1", 9)]
    bench.check("the other one stays", [b"A", b"D"], owners)


def given_up(bench, _):
    """--given-up-after: what was delivered more often is left and told, 20 of it at most, also if there are more pages than one."""
    bench.begin(script_rows.OFTEN)
    told = b"note: given up, as --given-up-after %d asks: %d\n"
    first, second = b"note: given up 1-1 of D, deliveries 3\n", b"note: given up 2-1 of D, deliveries 2\n"
    for most, ids, notes in ((3, [b"1-1", b"2-1"], b""), (2, [b"2-1"], told % (2, 1) + first), (1, [], told % (1, 2) + first + second)):
        found = bench.plan("--check", "--given-up-after", most)
        listed = [line.split()[1] for line in found.out.split(b"\n") if line.startswith(b"entry ")]
        bench.check(f"delivered at most {most} times", (ids, notes), (listed, found.advice))
    found = bench.plan("--given-up-after", 2, action="run")
    bench.check("the other one is moved", (0, (1, 0), told % (2, 1) + first), (found.status, Printed(found.out).done, found.advice))
    rows = bench.connection.call("XPENDING", "s", "g", "1-1", "2-1", 9)
    bench.check("the first one stays", [(b"1-1", b"D", 3), (b"2-1", b"A", 2)], [(row[0], row[1], row[3]) for row in rows])
    added = "\n".join(f"XADD s {at}-1 c x" for at in range(3, 1203))
    again = "XREADGROUP GROUP g D COUNT 1199 STREAMS s 1-1"
    bench.begin([*TWO, *lines(f"{added}\nXREADGROUP GROUP g D COUNT 1200 STREAMS s >\n{again}")])
    found = bench.plan("--given-up-after", 1, "--check", lives=[Live(b"B", 9, None, {b"x": 1, b"y": 1})])
    listed = [line.split()[1] for line in found.out.split(b"\n") if line.startswith(b"entry ")]
    bench.check("more than a page", ([b"1-1", b"1201-1", b"1202-1"], True), (listed, found.advice.startswith(told % (1, 1199))))
    bench.check("twenty are told", 21, found.advice.count(b"\n"))


def newcomers(bench, _):
    """A note for each consumer that is given entries and that the group does not have; none for one that is given none."""
    bench.begin([*TWO, *lines("XGROUP DELCONSUMER s g A\nXGROUP DELCONSUMER s g B")])
    note = b"note: the group has no consumer %s, and the plan gives it entries\n"
    for action in ("plan", "run"):
        lives = [Live(b"A", 2, None, {b"x": 1, b"y": 1}), *TWO_LIVE[1:], Live(b"C", 9, None, {})]
        found = bench.plan(action=action, lives=lives)
        bench.check(f"{action}: newcomers", (0, note % b"A"), (found.status, found.errors))
    bench.begin([*TWO, *lines("XGROUP DELCONSUMER s g B")])
    found = bench.plan()
    bench.check("one of two is new", (0, PLAN, note % b"B"), found[:3])
    bench.begin()
    bench.check("none is", b"", bench.plan().errors)


SEEN_LIVES = [*TWO_LIVE, Live(b"C", 9, None, {b"x": 0, b"y": 0}), Live(b"E", 9, None, {b"x": 0, b"y": 0})]
LEFT_OUT = b"note: %s is given nothing, since "
LONG_IDLE = LEFT_OUT + b"it has been idle for %d ms\n"
ABSENT = LEFT_OUT + b"the group has no such consumer\n"


def has_idle(times):
    """Has the reply to XINFO CONSUMERS tell these idle times, and one field more, as a newer Redis does."""
    def act(call):
        text = call.forward()
        if call.words[:2] != [b"XINFO", b"CONSUMERS"]:
            return Sent(text)
        return Sent(encoded([[*one[:5], times[one[1]], b"inactive", 10**6] for one in value_of(text)]))

    return act


def seen_within(bench, proxy):
    """--seen-within: E has been idle for too long, and the group never had C. Each would take an entry at no cost."""
    setting = [*TWO, *lines("XGROUP CREATECONSUMER s g E")]
    times = {b"A": 0, b"B": 99, b"D": 10**6, b"E": 100}
    absent, idle = ABSENT % b"C", LONG_IDLE % (b"E", 100)
    zero = {b"C": (0, 0, [0]), b"E": (2, 0, [0])}
    none = b"none: too few places for\n1-1\n2-1\n"
    rows = [
        ("E is live as well", 100, (0, absent), 0, zero[b"E"]),
        ("E has been idle for too long", 99, (0, absent + idle), 6, None),
        ("only A is live", 98, (3, LONG_IDLE % (b"B", 99) + absent + idle), None, None),
    ]
    for what, within, wanted, total, share in rows:
        for action in ("plan", "run"):
            bench.begin(setting)
            proxy.begin(has_idle(times))
            found = bench.plan("--seen-within", within, action=action, lives=SEEN_LIVES, port=proxy.port)
            printed = Printed(found.out)
            bench.check(f"{action}: {what}", wanted, (found.status, found.errors))
            bench.check(f"{action}: {what}: the plan", (total, share), (printed.total, printed.shares.get(b"E")))
            bench.check(f"{action}: {what}: C", None, printed.shares.get(b"C"))
            bench.check(f"{action}: {what}: none", wanted[0] == 3, found.out == none)
            asked = [words[:2] for words in proxy.calls].count([b"XINFO", b"CONSUMERS"])
            bench.check(f"{action}: {what}: calls of XINFO", 1, asked)
    found = bench.plan("--seen-within", 0, names=["s", "g", "A", "B", "C", "E", "X"], lives=SEEN_LIVES)
    told = b"".join(b"note: the group has no consumer %s\n" % name for name in (b"C", b"X"))
    bench.check("nobody is live, and no dead one is told to be left out", told, found.errors)


def leftovers(bench, proxy):
    """XINFO CONSUMERS is asked once if a consumer has no pending entries, and else not at all; never in the script."""
    for changes, action, wanted in (("PING", "plan", 0), ("PING", "run", 0), ("XACK s g 0-2", "plan", 1), ("XACK s g 0-2", "run", 1)):
        bench.begin([*TWO, *lines(changes), ["CONFIG", "RESETSTAT"]])
        proxy.begin(passed_on)
        found = bench.plan(action=action, port=proxy.port)
        calls = script_rows.stat(bench.connection, b"xinfo|consumers", b"calls")
        bench.check(f"{action} after {changes}: calls of XINFO", (0, b"", wanted), (found.status, found.errors, calls))


def moved(bench, lives, most):
    """The ids that are pending for B after a run, and were not before."""
    ids = [{row[0] for row in bench.connection.call("XPENDING", "s", "g", "-", "+", 99, "B")}]
    bench.plan("--at-most", most, action="run", lives=lives)
    ids.append({row[0] for row in bench.connection.call("XPENDING", "s", "g", "-", "+", 99, "B")})
    return sorted(ids[1] - ids[0])


def rounds(bench, proxy):
    """--tries: another client acts in the first rounds alone."""
    cases = (1, 1, 4), (1, 2, 0), (2, 2, 4), (2, 3, 0), (15, 16, 0), (16, 16, 4), (2, None, 0), (3, None, 4)
    for busy, tries, wanted in cases:
        bench.begin()
        left = list(range(busy))

        def act(call, left=left):
            if call.words[0] == b"EVALSHA" and left:
                added = f"XADD s {100 - left.pop()}-2 c x"
                all_replies(bench.connection, lines(f"{added}\nXREADGROUP GROUP g D STREAMS s >"))
            return passed_on(call)

        proxy.begin(act)
        lives = [Live(b"B", 99, None, {b"x": 1, b"y": 1})]
        options = [] if tries is None else ["--tries", tries]
        found = bench.plan(*options, action="run", lives=lives, port=proxy.port)
        calls = sum(words[0] == b"EVALSHA" for words in proxy.calls)
        bench.check(f"busy in {busy} rounds, {tries} tries", (wanted, min(busy + 1, tries or 3)), (found.status, calls))
        bench.check("each round is a snapshot of its own", calls, sum(words[:2] == [b"XINFO", b"STREAM"] for words in proxy.calls))


def within_snapshot(bench, proxy):
    """An entry is claimed by one dead consumer of the other while they are looked up: it is seen twice."""
    for tries, wanted in ((1, 4), (2, 0)):
        bench.begin([*TWO, *lines("XGROUP CREATECONSUMER s g E")])
        pages = []

        def act(call, pages=pages):
            text = call.forward()
            if call.words[0] == b"XPENDING" and len(call.words) > 3 and not pages:
                pages.append(all_replies(bench.connection, lines("XCLAIM s g E 0 1-1")))
            return Sent(text)

        proxy.begin(act)
        found = bench.plan("--tries", tries, action="run", names=["s", "g", "D", "E"], port=proxy.port)
        text = b"group: it changed while it was looked at: try again\n"
        bench.check(f"seen twice, {tries} tries", (wanted, text if wanted else b""), (found.status, found.errors))


def checked(bench, _):
    """--check, as plan_check finds it: a plan, one that was carried out, and a shortage."""
    if not os.access(CHECKER, os.X_OK):
        print("plan_check is not built: what --check prints is not given to it")
        return
    bench.begin()
    rows = [("plan", GROUP, b"cheapest, total 6\n"), ("plan", ["s", "g", "A", "D"], b"impossible")]
    for action, names, wanted in [*rows, ("run", GROUP, b"cheapest, total 6\n")]:
        text = bench.plan("--check", action=action, names=names).out
        found = subprocess.run([CHECKER], input=text, capture_output=True, timeout=60, check=False)
        is_right = found.returncode == 0 and found.stdout.startswith(wanted)
        bench.check(f"plan_check of {action} {names}: {found.stdout}", True, is_right)


def silence(bench, _):
    """--timeout with a Redis that never answers, and one that answers late."""
    with socket.create_server((HOST, 0)) as server:
        for wait in (100, 500, 1500):
            found = bench.plan("--timeout", wait, port=server.getsockname()[1])
            bench.check(f"silence, {wait} ms", (1, b"", b"redis: no answer in time (--timeout)\n"), found[:3])
            late = found.seconds - wait / 1000
            bench.check(f"silence, {wait} ms: {found.seconds:.2f} seconds", True, 0 <= late < LATE)
    bench.begin()
    with Proxy(bench.port, lambda call: (time.sleep(0.1), passed_on(call))[1]) as proxy:
        found = bench.plan("--timeout", 2000, action="run", port=proxy.port)
        bench.expect("each answer is late, but in time", (0, PLAN + b"done", b""), found)


def large(bench, _):
    """As many stranded entries as may be, and one more; and consumers as many as may be."""
    commands, lives, *_ = script_rows.planted(LARGE, TAKERS, 0)
    bench.begin(commands)
    for action in ("plan", "run"):
        found = bench.plan("--timeout", 60000, action=action, lives=lives)
        print(f"{action} of {LARGE} entries and {TAKERS} consumers: {found.seconds:.1f} seconds", flush=True)
        printed = Printed(found.out)
        moved_in_all = sum(own[0] for own in printed.shares.values())
        notes = sum(own[0] > 0 for own in printed.shares.values())  # none of them is in the group before the run
        told = found.status, found.errors.count(b", and the plan gives it entries\n"), moved_in_all
        bench.check(f"{action} of a large group", (0, notes, LARGE), told)
        bench.check(f"{action}: claimed", (LARGE, 0) if action == "run" else None, printed.done)
    bench.begin([*commands, *lines("XADD s 9999-1 c k0 v v\nXREADGROUP GROUP g D STREAMS s >")])
    text = b"group: too many entries: 100,000 are looked at at most, and without --at-most 4,096 may be stranded\n"
    bench.expect("one entry more", (1, b"", text), bench.plan("--timeout", 60000, lives=lives))
    found = bench.plan("--timeout", 60000, "--at-most", 100, action="run", lives=lives)
    bench.expect("the first hundred", (0, b"done, claimed 100, gap", b"and the plan gives it entries"), found)


def compare(tally, connection):
    """Compares all rows."""
    bench = Bench(tally, connection)
    looks = between, statuses, other_names, policies, command_lines, places, passwords, echoing, rights
    reads = firsts, no_further, many, everything, hidden, too_long, gone, spare, idle, given_up, newcomers, seen_within, leftovers
    parts = *looks, *reads, rounds, within_snapshot, checked, silence, large
    with Proxy(bench.port) as proxy:
        for part in parts:
            part(bench, proxy)
