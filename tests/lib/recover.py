"""Runs sr_recover at a Redis, through a proxy that sees each call, and reads what it prints.

    with servers.Redis() as redis, Proxy(redis.port) as proxy:
        proxy.act = lambda call: Sent(call.forward())       # or anything else: act as another client, cut the reply
        ended = run(proxy.port, policy_text(lives), "run", ["s", "g", "D"], "--tries", 3)
"""

import collections
import os
import re
import socket
import subprocess
import tempfile
import threading
import time
import traceback

from .live import CLASS, Plan, Seen, is_within, number_of, removed_from, texts
from .resp import Ended, ErrorReply, Fault, Replies, text_of_reply
from .servers import HOST, Connection

ROOT = os.path.join(os.path.dirname(os.path.realpath(__file__)), "..", "..")
PROGRAM = os.environ.get("SR_RECOVER", os.path.join(ROOT, "crates", "sr_recover", "out", "sr_recover"))
SECONDS = 120  # that the program has
UNREAD = object()  # in place of the fields of an entry that was listed, and not asked for

# What the program printed, how it ended, and after how long. Notes on what would help, and on what was given up, are not among the errors.
Run = collections.namedtuple("Run", "status out errors seconds advice", defaults=[b""])
ADVICE = re.compile(rb"^note: (?:one more place|these may go to|nobody who is live|given up,?) .*\n", re.MULTILINE)

# What goes to the program in place of a reply, and what the proxy does then: None, "close" or "hang".
Sent = collections.namedtuple("Sent", "text then", defaults=[None])


class Tally:
    """Compares what is found with what is wanted, and counts what is wrong."""

    def __init__(self):
        self.rows, self.wrong = 0, 0

    def check(self, what, wanted, found):
        self.rows += 1
        if wanted != found:
            self.wrong += 1
            print(f"{what}: expected {wanted!r}, not {found!r}", flush=True)


class Call:
    """A request of the program: its words, and whose turn it is at Redis."""

    def __init__(self, number, words, server):
        self.number, self.words, self.server = number, words, server

    def forward(self):
        """Has Redis answer it. The bytes of the reply."""
        self.server.send(*self.words)
        return text_of_reply(self.server.file)

    def is_script(self):
        return self.words[0] in (b"EVALSHA", b"EVAL")


def passed_on(call):
    return Sent(call.forward())


class Proxy:
    """Listens, and has `act` say for each request what is sent in return. It serves one connection at a time."""

    def __init__(self, port, act=passed_on):
        self.target, self.act, self.calls, self.faults = port, act, [], []
        self.listener = socket.create_server((HOST, 0))
        self.port = self.listener.getsockname()[1]
        threading.Thread(target=self.serve, daemon=True).start()

    def __enter__(self):
        return self

    def __exit__(self, *_):
        self.listener.shutdown(socket.SHUT_RDWR)
        self.listener.close()

    def begin(self, act=passed_on):
        """What is done with the next run."""
        self.act, self.calls = act, []

    def serve(self):
        while True:
            try:
                client, _ = self.listener.accept()
            except OSError:
                return
            with client, Connection(self.target) as server:
                self.talk(client, server)

    def talk(self, client, server):
        client.setsockopt(socket.IPPROTO_TCP, socket.TCP_NODELAY, 1)
        requests, then = Replies(client.makefile("rb")), None
        try:
            while then is None:
                call = Call(len(self.calls), requests.reply(), server)
                self.calls.append(call.words)
                text, then = self.act(call)
                client.sendall(text)
            while then == "hang" and client.recv(65536):
                pass
        except (Ended, ConnectionError):
            pass
        except Exception:  # of `act`: told where the run is judged, and the next run is served all the same
            self.faults.append(traceback.format_exc())


def quoted(name):
    """A text as a TOML key."""
    text = name.decode() if isinstance(name, bytes) else name
    odd = {'"': '\\"', "\\": "\\\\"}
    return '"' + "".join(odd.get(c) or (c if " " <= c <= "~" else f"\\u{ord(c):04x}") for c in text) + '"'


def table(name, pairs):
    return f"[{name}]\n" + "".join(f"{quoted(key)} = {value}\n" for key, value in pairs)


def policy_text(lives):
    """The policy file in which these are the consumers. Both classes of the histories have a table, be it empty."""
    soft = [live for live in lives if live.tier]
    kinds = sorted({b"x", b"y"}.union(*(live.rates for live in lives)))
    rates = {kind: [(live.name, live.rates[kind]) for live in lives if kind in live.rates] for kind in kinds}
    return "".join([
        f'version = 2\nclass_field = "{CLASS.decode()}"\n',
        table("limits", [(live.name, live.limit) for live in lives]),
        table("soft", [(live.name, live.tier[0]) for live in soft]),
        table("fees", [(live.name, live.tier[1]) for live in soft]),
        *(table(f"rates.{quoted(kind)}", own) for kind, own in rates.items()),
    ])


def words_of(port, policy, action, names, options):
    """The words that run the program. Names come after `--`, since one may begin with `-`."""
    place = ["--redis", f"{HOST}:{port}", "--policy", policy]
    return [PROGRAM, action, *place, *map(str, options), "--", *map(os.fsdecode, names)]


def run_of(status, out, errors, seconds=None):
    """A run that ended so."""
    return Run(status, out, ADVICE.sub(b"", errors), seconds, b"".join(ADVICE.findall(errors)))


def ended(words, env=None):
    """Runs the program to its end."""
    env = {name: value for name, value in os.environ.items() if name not in ("REDISCLI_AUTH", "REDIS_URL")} | (env or {})
    began = time.monotonic()
    done = subprocess.run(words, stdin=subprocess.DEVNULL, capture_output=True, timeout=SECONDS, check=False, env=env)
    return run_of(done.returncode, done.stdout, done.stderr, time.monotonic() - began)


def run(port, policy, action, names, *options, env=None):
    """Runs the program to its end, under the policy of this text."""
    with tempfile.NamedTemporaryFile("w", suffix=".toml") as file:
        file.write(policy)
        file.flush()
        return ended(words_of(port, file.name, action, names, options), env)


NAME = rb'"(?:[^"\\]|\\.)*"|\S+'


def name_of(text):
    """A name as the program prints it."""
    if not text.startswith(b'"'):
        return text
    one = re.compile(rb"\\x(..)|\\(.)", re.DOTALL)
    return one.sub(lambda found: bytes.fromhex(found[1].decode()) if found[1] else found[2], text[1:-1])


class Printed:
    """What the program prints of a plan: who gets how many entries, at what cost, the prices, and what came of it."""

    def __init__(self, out):
        self.shares, self.gone, self.gone_in_all, self.short = {}, [], 0, []
        self.total = self.done = self.stale = None
        lines = out.split(b"\n")
        self.is_whole = lines.pop() == b""
        for line in lines:
            self.read(line)

    def read(self, line):
        if found := re.fullmatch(rb"done, claimed (\d+), gap (\d+)", line):
            self.done = tuple(map(int, found.groups()))
        elif found := re.fullmatch(rb"stale: (\w+) (" + NAME + rb"), nothing was changed", line):
            self.stale = [b"stale", found[1], name_of(found[2])]
        elif found := re.fullmatch(rb"total +(\d+) +(\d+)", line):
            self.total = int(found[2])
        elif found := re.fullmatch(rb"gone: (\d+)", line):
            self.gone_in_all = int(found[1])
        elif found := re.fullmatch(rb"gone (\d+-\d+) of (" + NAME + rb")", line):
            self.gone.append((found[1], name_of(found[2])))
        elif found := re.fullmatch(rb"(\d+-\d+)", line):
            self.short.append(found[1])
        elif found := re.fullmatch(rb"(" + NAME + rb") +(\d+) +(\d+)((?: +(?:\d+|-))+)", line):
            prices = [int(price) for price in found[4].split() if price != b"-"]
            self.shares[name_of(found[1])] = int(found[2]), int(found[3]), prices
        elif not line.startswith((b"consumer ", b"none: ")):
            raise Fault(f"the program prints {line!r}")


def plan_of(words, lives):
    """The plan that a call of the script carries, its group and `within`. Of an entry it has whether it is there."""
    left = iter(words[4:])
    plan = Plan.__new__(Plan)
    plan.lives, group, within, plan.last, plan.idle = lives, next(left), int(next(left)), next(left), int(next(left))
    plan.last = "+" if plan.last == b"+" else plan.last
    deliveries, removed = next(left), int(next(left))
    plan.deliveries = None if deliveries == b"-" else int(deliveries)
    rows = {}
    for _ in range(int(next(left))):
        name = next(left)
        rows[name] = [(next(left), [] if next(left) == b"1" else None) for _ in range(int(next(left)))]
    owners, plan.free_loads, plan.prices, names = {}, [], [], []
    for to in range(int(next(left))):
        names.append((next(left), int(next(left)), next(left)))
        load, free_load, first, second = (int(next(left)) for _ in range(4))
        plan.free_loads.append(free_load)
        plan.prices.append([first, second][: 2 if lives[to].tier else 1])
        owners.update((next(left), to) for _ in range(load))
    wanted = [(live.name, live.limit, b"-" if live.tier is None else b"%d" % live.tier[0]) for live in lives]
    if names != wanted or next(left, None) is not None:
        raise Fault(f"the script is sent {names}, not {wanted}")
    plan.seen = Seen(rows, {}, removed)
    plan.ids = sorted(owners, key=number_of)
    plan.goes = [owners[entry_id] for entry_id in plan.ids]
    return plan, group, within


class Told:
    """What the replies of Redis told the program in its last round: what a plan has to be made of."""

    def __init__(self, deliveries=None):
        self.deliveries = deliveries
        self.numbers, self.idles, self.rows, self.removed, self.is_whole = {}, {}, {}, None, False

    def add(self, words, reply):
        """Takes the reply to a call. The numbers come last."""
        if isinstance(reply, ErrorReply):
            return
        if words[:2] == [b"XINFO", b"STREAM"]:
            self.removed, self.rows = removed_from(reply), {}  # a look-up begins with it
        elif words[0] == b"XINFO":
            self.idles = {texts(one)[b"name"]: texts(one)[b"idle"] for one in reply}
        elif words[0] == b"XPENDING" and len(words) == 3:
            self.numbers = {name: int(number) for name, number in reply[3] or []}
            self.is_whole = True
        elif words[0] == b"XPENDING":
            self.is_whole = False
            within = [row[0] for row in reply if is_within(self.deliveries, row[3])]
            self.rows.setdefault(words[-1], []).extend([entry_id, UNREAD] for entry_id in within)
        elif words[0] == b"XRANGE":
            self.add_range(*map(number_of, words[2:4]), int(words[5]) if len(words) > 4 else None, reply)

    def add_range(self, first, last, count, reply):
        """What a range tells, which is of no entry behind the last one if it lists as many as were asked for."""
        there = {number_of(entry_id): fields for entry_id, fields in reply}
        last = max(there) if len(reply) == count else last
        for row in (row for own in self.rows.values() for row in own if first <= number_of(row[0]) <= last):
            row[1] = there.get(number_of(row[0]))

    def seen(self):
        """With --at-most entries that come later are listed and not read: no plan has to do with them."""
        rows = {name: [tuple(row) for row in own if row[1] is not UNREAD] for name, own in self.rows.items()}
        return Seen(rows, self.numbers, self.removed)

    def live(self, lives, within):
        """Those of the consumers that may be given entries: that have been idle for at most so long, if that is asked for."""
        return [live for live in lives if within is None or self.idles.get(live.name, within + 1) <= within]
