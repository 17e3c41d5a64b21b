"""sr_recover with --json: what it prints is read as JSON, and is nothing else. Each value is worked out by hand."""

import json
import subprocess
import tempfile

from .live import Live, all_replies
from .live_rows import DELIVERIES, OFTEN, SOFT, SOFT_LIVE, TWO, TWO_LIVE, lines
from .recover import Proxy, policy_text, run, words_of
from .recover_rows import GROUP, before_script

OF = {"key": "s", "group": "g", "dead": ["D"]}
A = {"name": "A", "entries": 1, "cost": 2, "price": 2, "beyond": None}
B = {"name": "B", "entries": 1, "cost": 4, "price": 0, "beyond": None}
NO_A, NO_B = ({"name": name, "entries": 0, "cost": 0, "price": 0, "beyond": None} for name in "AB")
PLAN = OF | {"status": 0, "entries": 2, "gone": 0, "total": 6, "consumers": [A, B]}
NONE = PLAN | {"entries": 0, "total": 0, "consumers": [NO_A, NO_B]}
ONE = PLAN | {"entries": 1, "total": 2, "consumers": [A | {"price": 0}, NO_B]}
SHORT = OF | {"status": 3, "entries": 0, "gone": 0, "total": None, "consumers": []}
STALE = OF | {"status": 4, "stale": "pending", "of": "D", "tries": 1}
DONE = {"claimed": 2, "gap": 0, "tries": 1}
ROOMY = [TWO_LIVE[0]._replace(limit=9), TWO_LIVE[1]]  # with a place left at A, so that its price is 0
TOGETHER = b"note: all is moved in steps, and together they may cost more than one plan would\n"

# Names that have to be escaped, and one that is not UTF-8.
QUOTED, LINES, ACCENT, LATIN = b'say "x"\\', b"two\r\n\x01\x7f", "café ☕".encode(), b"caf\xe9\xf0\x9f."


def once(pairs):
    """An object none of whose names is there twice."""
    members = dict(pairs)
    if len(members) < len(pairs):
        raise ValueError(f"a name twice: {pairs}")
    return members


def values_of(out):
    """The values, one a line."""
    *texts, rest = out.split(b"\n")
    return [json.loads(text.decode(), object_pairs_hook=once) for text in texts] + [rest] * (rest != b"")


def printed(port, action, *options, lives=TWO_LIVE, names=GROUP):
    """The status, the values, and what is told on standard error."""
    found = run(port, policy_text(lives), action, names, "--json", *options)
    return found.status, values_of(found.out), found.errors


def unpriced(values):
    """The same without the prices, if several would show the plan."""
    for one in values:
        one["consumers"] = [{name: value for name, value in row.items() if name != "price"} for row in one["consumers"]]
    return values


def begun(connection, setting, *more):
    all_replies(connection, [["FLUSHALL"], *setting, *more])


def plans(tally, port, connection):
    """Plans: a whole one, of nobody, with a gone entry, with a soft limit; and none."""
    begun(connection, TWO)
    tally.check("a plan", (0, [PLAN], b""), printed(port, "plan"))
    note = b"note: the group has no consumer E\n"
    tally.check("of nobody", (0, [NONE | {"dead": ["E"]}], note), printed(port, "plan", names=["s", "g", "E"]))
    short = SHORT | {"dead": ["A", "D"], "short": ["0-1", "1-1", "2-1"]}
    tally.check("no plan", (3, [short], b""), printed(port, "plan", names=["s", "g", "D", "A"]))
    begun(connection, TWO, ["XDEL", "s", "2-1"])
    tally.check("one is gone", (0, [ONE | {"gone": 1}], b""), printed(port, "plan", lives=ROOMY))
    begun(connection, OFTEN)
    left = {"given_up": {"entries": 1, "first": [{"id": "1-1", "name": "D", "delivered": 3}]}}
    tally.check("one is given up", (0, [ONE | left], b""), printed(port, "plan", "--given-up-after", DELIVERIES, lives=ROOMY))
    none = {"given_up": {"entries": 0, "first": []}}
    tally.check("none is given up", (0, [PLAN | none], b""), printed(port, "plan", "--given-up-after", 3))
    begun(connection, SOFT)
    both = A | {"entries": 2, "cost": 2 + 2 + 5, "price": 5, "beyond": 0}
    tally.check("a soft limit", (0, [PLAN | {"total": 9, "consumers": [both, NO_B]}], b""), printed(port, "plan", lives=SOFT_LIVE))


def runs(tally, port, connection, proxy):
    """Runs: done, with nothing left, at the second try, at a gap, in steps; stale, and without a plan."""
    begun(connection, TWO)
    tally.check("a run", (0, [PLAN | DONE], b""), printed(port, "run", "--within", 3))
    tally.check("nothing is left", (0, [NONE | DONE | {"claimed": 0}], b""), printed(port, "run", lives=ROOMY))
    begun(connection, TWO)
    short = SHORT | {"dead": ["A", "D"], "short": ["0-1", "1-1", "2-1"], "tries": 1}
    tally.check("no plan to run", (3, [short], b""), printed(port, "run", names=["s", "g", "A", "D"]))
    proxy.begin(before_script(connection, "XADD s * c x\nXREADGROUP GROUP g D STREAMS s >"))
    tally.check("stale", (4, [STALE], b""), printed(proxy.port, "run", "--tries", 1))
    begun(connection, TWO)
    proxy.begin(before_script(connection, "XACK s g 0-1"))
    tally.check("at a gap", (0, [PLAN | DONE | {"gap": 2}], b""), printed(proxy.port, "run", "--within", 2))
    begun(connection, TWO)
    proxy.begin(before_script(connection, "XACK s g 0-1"))
    status, values, told = printed(proxy.port, "run")
    again = PLAN | DONE | {"total": 4, "tries": 2, "consumers": [A | {"entries": 2, "cost": 4}, NO_B]}
    tally.check("at the second try", (0, unpriced([again]), b""), (status, unpriced(values), told))
    begun(connection, TWO)
    status, values, told = printed(port, "run", "--all", "--at-most", 1)
    steps = [ONE | DONE | {"claimed": 1}, ONE | DONE | {"claimed": 1, "total": 200, "consumers": [NO_A, B | {"cost": 200}]}]
    tally.check("in steps", (0, unpriced([dict(one) for one in steps]), TOGETHER), (status, unpriced(values), told))


def board(tally, port, connection):
    """The board: the consumers of the group, and then those of the policy."""
    begun(connection, TWO, *lines("XGROUP CREATECONSUMER s g E\nXGROUP DELCONSUMER s g B"))
    status, values, told = printed(port, "board", lives=SOFT_LIVE, names=GROUP[:2])
    idle = [one.pop("idle") for one in values[0]]
    wanted = [
        {"name": "A", "pending": 1, "limit": 4, "soft": 2, "room": 3, "delivered": 1},
        {"name": "D", "pending": 2, "limit": None, "soft": None, "room": None, "delivered": 1},
        {"name": "E", "pending": 0, "limit": None, "soft": None, "room": None, "delivered": None},
        {"name": "B", "pending": 0, "limit": 4, "soft": None, "room": 4, "delivered": None},
    ]
    tally.check("the board", (0, [wanted], b""), (status, values, told))
    tally.check("idle times", [int, int, int, type(None)], [type(one) for one in idle])


def names(tally, port, connection):
    """Names of all kinds: of a key, a group and consumers."""
    lives = [Live(ACCENT, 9, None, {b"x": 1})]
    setting = [["XADD", QUOTED, "1-1", "c", "x"], ["XGROUP", "CREATE", QUOTED, LINES, "0"], ["XGROUP", "CREATECONSUMER", QUOTED, LINES, ACCENT]]
    begun(connection, setting, ["XREADGROUP", "GROUP", LINES, QUOTED, "STREAMS", QUOTED, ">"])
    of = {"key": 'say "x"\\', "group": "two\r\n\x01\x7f", "dead": ['say "x"\\']}
    wanted = ONE | of | {"consumers": [A | {"name": "café ☕", "price": 0}]}
    tally.check("names of a plan", (0, [wanted], b""), printed(port, "plan", lives=lives, names=[QUOTED, LINES, QUOTED]))
    all_replies(connection, [["XGROUP", "CREATECONSUMER", QUOTED, LINES, name] for name in (LATIN, "😀".encode())])
    status, values, told = printed(port, "board", lives=lives, names=[QUOTED, LINES])
    listed = sorted(["café ☕", "caf\ufffd\ufffd.", "😀", 'say "x"\\'])
    tally.check("names of a board", (0, listed, b""), (status, sorted(one["name"] for one in values[0]), told))


def faults(tally, port, connection):
    """A fault is told as ever, and nothing is printed on standard output."""
    begun(connection, TWO)
    found = run(port, policy_text(TWO_LIVE), "plan", GROUP, "--json", "--check")
    tally.check("--json --check", (2, b"", b"error: --json: it prints JSON alone, and no --check\n"), found[:3])
    for action in ("plan", "run", "board"):
        found = run(port, policy_text(TWO_LIVE), action, ["s", "h", "D"][: 2 + (action != "board")], "--json")
        told = b" is answered with an error: NOGROUP "
        tally.check(f"{action} of no group", (1, b"", True), (*found[:2], told in found.errors))
    with tempfile.NamedTemporaryFile("w", suffix=".toml") as file, open("/dev/full", "wb") as full:
        file.write(policy_text(TWO_LIVE))
        file.flush()
        words = words_of(port, file.name, "run", GROUP, ["--json"])
        found = subprocess.run(words, stdout=full, stderr=subprocess.PIPE, timeout=60, check=False)
    told = b"output: a write failed, and the plan was carried out\n"
    tally.check("a run to a full disk", (1, told), (found.returncode, found.stderr))


def compare(tally, connection):
    """Compares all of it."""
    port = connection.socket.getpeername()[1]
    with Proxy(port) as proxy:
        plans(tally, port, connection)
        runs(tally, port, connection, proxy)
        board(tally, port, connection)
        names(tally, port, connection)
        faults(tally, port, connection)
