"""sr_recover with names in a policy that end in `*`, a policy that it judges, what would help, and the delivery counts of the board: each row
worked out by hand. And its man page."""

import glob
import os
import re
import shutil
import subprocess
import tempfile
import tomllib

from .live import Live, all_replies
from .live_rows import FEE_LIVE, GONE, SOFT, TWO, TWO_LIVE, lines
from .recover import PROGRAM, ROOT, Printed, Proxy, Sent, ended, policy_text, run
from .recover_rows import GROUP, LIVE_PAGE, POLICIES, Bench, has_idle, pending_for
from .servers import HOST

NOWHERE = 1  # a port where nobody listens
UNGUARDED = b"note: without --seen-within a name that ends in * stands for consumers that are gone, too\n"

WORKERS = lines("XGROUP CREATE s g 0 MKSTREAM\n" + "\n".join(f"XGROUP CREATECONSUMER s g {name}" for name in ("w1", "w2", "w-gpu-1", "x")))

# A policy, and what it is for the group of WORKERS: in each table a whole name goes first, and the longest beginning next.
STARS = """# of workers whose names change
version = 2
class_field = "c"
[limits]
w1 = 3
"w*" = 5
"w-gpu*" = 7
[soft]
"w*" = 2
[fees]
"w*" = 4
[rates.x]
"w*" = 1
"w-gpu*" = 9
[rates."*"]
w1 = 6
[rates.none]
"""
SAME = {"w1": 2, "w2": 2, "w-gpu-1": 2}, {"w1": 4, "w2": 4, "w-gpu-1": 4}
EXPANDED = {
    "version": 2,
    "class_field": "c",
    "limits": {"w1": 3, "w2": 5, "w-gpu-1": 7},
    "soft": SAME[0],
    "fees": SAME[1],
    "rates": {"x": {"w1": 1, "w2": 1, "w-gpu-1": 9}, "*": {"w1": 6}, "none": {}},
}

# Limits, and those of the group of WORKERS.
LIMITS = [
    ({"*": 1}, {"w1": 1, "w2": 1, "w-gpu-1": 1, "x": 1}),
    ({"*": 1, "x": 2, "y": 3}, {"w1": 1, "w2": 1, "w-gpu-1": 1, "x": 2, "y": 3}),
    ({"v*": 1}, {}),
    ({"w1*": 1, "w*": 2, "*": 3}, {"w1": 1, "w2": 2, "w-gpu-1": 2, "x": 3}),
    ({"x*": 1}, {"x": 1}),
    ({"w*-1": 1, "w2*": 2}, {"w*-1": 1, "w2": 2}),
]


def table(name, pairs):
    return f"[{name}]\n" + "".join(f'"{key}" = {number}\n' for key, number in pairs.items())


def judged(port, text, *more):
    """What `policy` says of a text, alone or for a group."""
    with tempfile.NamedTemporaryFile("w", suffix=".toml") as file:
        file.write(text)
        file.flush()
        return ended([PROGRAM, "policy", "--redis", f"{HOST}:{port}", file.name, *map(str, more)])


def judges(bench):
    """A file alone: the first fault with its key and line, as for a plan, and no word of one without a fault. Nothing is connected to."""
    for text, wanted in POLICIES:
        bench.check(f"policy of {text!r}", (1, b"", wanted), judged(NOWHERE, text)[:3])
    for path in glob.glob(os.path.join(ROOT, "examples", "policies", "*.toml")):
        bench.check(path, (0, b"", b""), ended([PROGRAM, "policy", path])[:3])
    bench.check("names with stars", (0, b"", b""), judged(NOWHERE, STARS)[:3])
    text = STARS.replace('"w-gpu*" = 7\n', "")
    fault = b"policy: wrong shape: rates.x.w-gpu*, line 13: the consumer has no limit\n"
    bench.check("a rate of a beginning without a limit", (1, b"", fault), judged(NOWHERE, text)[:3])
    for words in ([], ["/dev/null", "s"], ["/dev/null", "s", "g", "D"], ["--policy", "/dev/null"], ["--redis", "x", "/dev/null"]):
        found = ended([PROGRAM, "policy", *words])
        bench.check(f"policy {words}", (2, b"", True), (found.status, found.out, found.errors != b""))


def expands(bench):
    """A policy for a group. What is printed is a policy for which no name stands for others, and plans by it are the same."""
    bench.begin(WORKERS)
    found = judged(bench.port, STARS, "s", "g")
    bench.check("stars", (0, EXPANDED, b""), (found.status, tomllib.loads(found.out.decode()), found.errors))
    bench.check("what is printed is a policy", (0, b"", b""), judged(NOWHERE, found.out.decode())[:3])
    for limits, wanted in LIMITS:
        found = judged(bench.port, table("limits", limits), "s", "g")
        bench.check(f"{limits}", (0, {"limits": wanted}), (found.status, tomllib.loads(found.out.decode())))
    plain = policy_text(TWO_LIVE)
    bench.check("no stars: the file as it is", (0, plain.encode(), b""), judged(bench.port, plain, "s", "g")[:3])
    all_replies(bench.connection, [["XGROUP", "CREATECONSUMER", "s", "g", b"w\xff"], ["XGROUP", "CREATECONSUMER", "s", "g", "w*"]])
    found = judged(bench.port, table("limits", {"w*": 1}), "s", "g")
    wanted = {"w*": 1, "w1": 1, "w2": 1, "w-gpu-1": 1}
    bench.check("a name that is no text, and one with a star", {"limits": wanted}, tomllib.loads(found.out.decode()))
    told = b"redis: XINFO CONSUMERS is answered with an error: NOGROUP"
    bench.expect("no such group", (1, b"", told), judged(bench.port, STARS, "s", "h"))
    text = "version = 2\n[limits]\n'w*' = 9\nw1 = 2\n[soft]\n'w*' = 5\n[fees]\n'w*' = 1\n"
    fault = b"policy: a value is out of its range: soft.w1: it has to be 0 to the consumer's limit\n"
    bench.check("a soft limit above a limit", (1, b"", fault), judged(bench.port, text, "s", "g")[:3])


def is_called(proxy, *words):
    return sum(call[: len(words)] == list(words) for call in proxy.calls)


STAR_RATES = "[limits]\n'*' = 3\n[rates.'*']\n'*' = 1\n"


def plans(bench, proxy):
    """Plans by names with stars: the dead are given nothing, and with --seen-within neither is who was not seen for too long."""
    bench.begin()
    for action in ("plan", "run"):
        found = run(bench.port, STAR_RATES, action, GROUP)
        printed = Printed(found.out)
        wanted = 0, 4, {b"A", b"B"}, UNGUARDED
        bench.check(f"{action} by a star", wanted, (found.status, printed.total, set(printed.shares), found.errors))
    for within, names in ((100, {b"A", b"B"}), (99, {b"A"}), (0, set())):
        bench.begin()
        proxy.begin(has_idle({b"A": 1 if within else 99, b"B": 100, b"D": 0}))
        found = run(proxy.port, STAR_RATES, "plan", GROUP, "--seen-within", within)
        shares = set(Printed(found.out).shares) if names else set()
        bench.check(f"--seen-within {within}", (0 if names else 3, names, b""), (found.status, shares, found.errors))
    proxy.begin()
    found = run(proxy.port, policy_text(TWO_LIVE), "plan", GROUP)
    bench.check("without a star no consumers are asked for", (0, 0), (found.status, is_called(proxy, b"XINFO", b"CONSUMERS")))
    bench.begin()
    found = run(bench.port, STAR_RATES, "board", GROUP[:2])
    limits = [line.split()[2] for line in found.out.split(b"\n")[1:-1]]
    bench.check("the board", (0, [b"3"] * 3, b""), (found.status, limits, found.errors))


def too_many(bench, proxy):
    """More than 64 live consumers are told with their number: the dead, and who was not seen, are not counted."""
    names = [b"w%02d" % number for number in range(65)]
    bench.begin([*TWO, *(["XGROUP", "CREATECONSUMER", "s", "g", name] for name in names)])
    text = "[limits]\n'w*' = 3\n[rates.'*']\n'w*' = 1\n"
    fault = b"policy: it is for 65 live consumers, and may be for 64 at most\n"
    for action, group in (("plan", GROUP), ("run", GROUP), ("board", GROUP[:2])):
        found = run(bench.port, text, action, group)
        bench.check(f"{action}: 65", (1, b"", fault), (*found[:2], found.errors.removeprefix(UNGUARDED)))
    bench.check("policy: 65", (1, b"", fault), judged(bench.port, text, "s", "g")[:3])
    found = run(bench.port, text, "plan", [*GROUP, "w00"])
    bench.check("64, and one is dead", (0, 64), (found.status, len(Printed(found.out).shares)))
    whole = text.replace("[rates", "w01 = 1\nv = 1\n[rates")
    found = judged(bench.port, whole, "s", "g")
    bench.check("one that has a name beside", (1, fault.replace(b"65", b"66")), (found.status, found.errors))
    proxy.begin(has_idle({name: 100 for name in [b"A", b"B", b"D", *names]} | {b"w64": 101}))
    found = run(proxy.port, text, "plan", GROUP, "--seen-within", 100)
    bench.check("64 were seen", (0, 64, b""), (found.status, len(Printed(found.out).shares), found.errors))


SAVES = b"note: one more place at A would save up to 2\n"
NOBODY = b"note: nobody who is live may take these\n"
FULL = [live._replace(limit=1) for live in TWO_LIVE]
ONLY_X, ONLY_Y = Live(b"A", 1, None, {b"x": 1}), Live(b'b "c"', 9, None, {b"y": 1})


def advice(bench, _):
    """Where one more place would save most, and who could take entries for which there are too few places."""
    rows = [
        # both at A would cost 4 in place of 6
        ("a price", TWO, TWO_LIVE, GROUP, (0, SAVES)),
        ("no price", GONE, TWO_LIVE, GROUP, (0, b"")),
        # 2 + 2 in place of 2 + 8
        ("a price of a first tier", SOFT, FEE_LIVE, GROUP, (0, b"note: one more place without a fee at A would save up to 6\n")),
        ("nothing to plan", TWO, TWO_LIVE, ["s", "g", "E"], (0, b"")),
        ("one could take them", TWO, TWO_LIVE, ["s", "g", "A", "D"], (3, b"note: these may go to B (room 2)\n")),
        ("two could take them", TWO, FULL, GROUP, (3, b"note: these may go to A (room 0), B (room 0)\n")),
        ("one may not", TWO, [ONLY_X, ONLY_Y], GROUP, (3, b"note: these may go to A (room 0)\n")),
        ("the other may not", TWO, [ONLY_X._replace(limit=9), ONLY_Y._replace(limit=0)], GROUP, (3, b'note: these may go to "b \\"c\\"" (room 0)\n')),
        ("nobody", TWO, TWO_LIVE, ["s", "g", "A", "B", "D"], (3, NOBODY)),
    ]
    for what, setting, lives, names, wanted in rows:
        for action in ("plan", "run"):
            bench.begin(setting)
            found = bench.plan(action=action, lives=lives, names=names)
            bench.check(f"advice of {action}: {what}", wanted, (found.status, found.advice))
    bench.begin()
    bench.check("--check has none", b"", bench.plan("--check").advice)
    bench.check("--all has none", b"", bench.plan("--all", action="run").advice)


# Who has which entries, one that was delivered more often, how often, and the calls of XPENDING for what is pending: one for 1,000 entries.
DELIVERED = [
    ({"D": range(1, 2502)}, "D", "2400-1", 9, 3),
    ({"D": range(1, 1000), "E": range(1000, 1001)}, "E", "1000-1", 7, 2),
    ({"D": range(1, 3)}, "D", "1-1", 2**40, 1),
]


def deliveries(bench, proxy):
    """The board's highest delivery counts."""
    for dead, name, entry, count, calls in DELIVERED:
        bench.begin([*pending_for(dead, 2501), ["XCLAIM", "s", "g", name, 0, entry, "RETRYCOUNT", count, "JUSTID"]])
        proxy.begin()
        found = run(proxy.port, "", "board", GROUP[:2])
        told = {line.split()[0]: line.split()[-1] for line in found.out.split(b"\n")[1:-1]}
        bench.check(f"delivered {count} times", (0, b"%d" % count), (found.status, told.get(name.encode())))
        pages = sum(call[0] == b"XPENDING" and len(call) > 3 for call in proxy.calls)
        bench.check(f"delivered {count} times: pages", calls, pages)
    bench.begin()
    for change in (lambda text: text.replace(b"*4\r\n", b"*3\r\n", 1), lambda text: b"*1\r\n:1\r\n", lambda text: b"$1\r\nx\r\n"):
        proxy.begin(lambda call, change=change: Sent(change(call.forward()) if call.words[0] == b"XPENDING" and len(call.words) > 3 else call.forward()))
        found = run(proxy.port, "", "board", GROUP[:2])
        bench.check("rows of another shape", (1, b"", True), (*found[:2], found.errors.startswith(b"redis: ")))
    proxy.begin(lambda call: Sent(b"-NOPERM no\r\n" if call.words[0] == b"XPENDING" and len(call.words) > 3 else call.forward()))
    bench.expect("an error", (1, b"", b"redis: XPENDING is answered with an error: NOPERM no"), run(proxy.port, "", "board", GROUP[:2]))


def manual(bench):
    """The man page has each command and each option of the tables of docs/LIVE.md, and is roff."""
    page = subprocess.run([os.path.join(ROOT, "scripts", "manual"), PROGRAM], capture_output=True, text=True, timeout=60, check=False).stdout
    with open(LIVE_PAGE, encoding="utf-8") as file:
        cells = [line.split("|")[1] for line in file if line.startswith("| `")]
    options = [option for cell in cells for option in re.findall("`(--[a-z-]+)", cell)]
    lacking = [option for option in options if "\\&" + option.replace("-", "\\-") not in page]
    bench.check("options that the man page lacks", (True, []), (len(options) > 9, lacking))
    for command in ("plan", "run", "board", "policy"):
        bench.check(f"the man page has {command}", True, f"\n.SS {command}\n" in page)
    bench.check("the man page has statuses", True, "\n.SH STATUSES\n" in page)
    if shutil.which("groff"):
        found = subprocess.run(["groff", "-man", "-ww", "-Tascii"], input=page, capture_output=True, text=True, timeout=60, check=False)
        bench.check("groff of the man page", (0, ""), (found.returncode, found.stderr))


def compare(tally, connection):
    """Compares all rows."""
    bench = Bench(tally, connection)
    judges(bench)
    expands(bench)
    manual(bench)
    with Proxy(bench.port) as proxy:
        for part in (plans, too_many, advice, deliveries):
            part(bench, proxy)
        tally.check("the proxy's faults", [], proxy.faults)
