"""sr_recover with --metrics: the file is read as Prometheus reads it, and each number is worked out by hand."""

import os
import re
import shutil
import socket
import subprocess
import tempfile
import time

from .live import Live, all_replies
from .live_rows import TWO, TWO_LIVE
from .recover import Proxy, Sent, policy_text, run, words_of
from .recover_rows import GROUP, before_script, has_idle
from .recover_watch import BOTH, DEAD, OLD_TWO, PAIR, SECONDS, Running, untimed
from .servers import HOST, Redis

TOTALS = "runs", "claimed", "stale", "without_plan", "errors"
COUNTERS = [f"sr_recover_{word}_total" for word in TOTALS]
SUCCESS, MILLIS = "sr_recover_last_success_timestamp_seconds", "sr_recover_last_run_milliseconds"
TYPES = dict.fromkeys(COUNTERS, "counter") | dict.fromkeys((SUCCESS, MILLIS), "gauge")
OF = (("group", "g"), ("key", "s"))
DONE, NONE, STALE, WITHOUT, ERROR = (1, 2, 0, 0, 0), (1, 0, 0, 0, 0), (1, 0, 1, 0, 0), (1, 0, 0, 1, 0), (1, 0, 0, 0, 1)

QUIET = [["XADD", "s", "1-1", "c", "x"], ["XGROUP", "CREATE", "s", "g", "0"]]  # nobody is dead

# A line of the text form, version 0.0.4 ("Exposition formats" in Prometheus' documentation). In a value of a label \, " and a line feed are
# escaped, and nothing else is.
LABEL = re.compile(r'([a-zA-Z_][a-zA-Z0-9_]*)="((?:[^"\\\n]|\\[\\"n])*)"(?:,|$)')
SAMPLE = re.compile(r'([a-zA-Z_:][a-zA-Z0-9_:]*)\{(.*)\} (\d+)', re.DOTALL)
ESCAPES = {"\\\\": "\\", '\\"': '"', "\\n": "\n"}


def labels_of(text):
    """The labels of a sample, each once."""
    found = LABEL.findall(text)
    if LABEL.sub("", text) or len(dict(found)) < len(found):
        raise ValueError(f"labels {text!r}")
    return tuple(sorted((name, re.sub(r"\\.", lambda one: ESCAPES[one[0]], value)) for name, value in found))


def read(path):
    """The types of the metrics, and of each the value for each group. All lines of a metric are together, behind its help and its type."""
    with open(path, encoding="utf-8", newline="\n") as file:
        *lines, rest = file.read().split("\n")
    types, values, name = {}, {}, None
    if rest:
        raise ValueError(f"a last line without an end: {rest!r}")
    for line in lines:
        if found := re.fullmatch(r"# HELP (\S+) \S.*", line):
            name = found[1]
            if name in values:
                raise ValueError(f"{name} twice")
            values[name] = {}
        elif found := re.fullmatch(r"# TYPE (\S+) (counter|gauge)", line):
            if found[1] != name or name in types or values[name]:
                raise ValueError(f"the type {line!r} of {name}")
            types[name] = found[2]
        else:
            found = SAMPLE.fullmatch(line)
            if not found or found[1] != name or name not in types:
                raise ValueError(f"a line {line!r} of {name}")
            labels = labels_of(found[2])
            if labels in values[name]:
                raise ValueError(f"{line!r} twice")
            values[name][labels] = int(found[3])
    return types, values


def told(path, of=OF):
    """What the file tells of a group: the counters in their order, whether the last success is now, or 0, and how long the last run took."""
    types, values = read(path)
    if types != TYPES:
        return types
    success = values[SUCCESS][of]
    when = "now" if abs(success - time.time()) < SECONDS else success
    return tuple(values[name][of] for name in COUNTERS), when, values[MILLIS][of]


class Folder:
    """A folder with the file, and what a run with it comes to."""

    def __init__(self, tally, port):
        self.tally, self.port = tally, port
        self.path = tempfile.mkdtemp()
        self.file = os.path.join(self.path, "jobs.prom")

    def run(self, *options, action="run", names=GROUP, port=None, lives=TWO_LIVE):
        return run(port or self.port, policy_text(lives), action, names, "--metrics", self.file, *options)

    def check(self, what, status, counts, *options, **given):
        """Runs it, and compares the status and the counts. Nothing but the file is left."""
        began = time.monotonic()
        found = self.run(*options, **given)
        most = 1000 * (time.monotonic() - began)
        tally, (numbers, when, millis) = self.tally, told(self.file)
        tally.check(f"metrics of {what}", (status, counts, "now" if status == 0 else 0), (found.status, numbers, when))
        tally.check(f"metrics of {what}: {millis} of at most {most:.0f} ms", True, millis <= most)
        tally.check(f"metrics of {what}: files", ["jobs.prom"], os.listdir(self.path))
        return found


def runs(folder, connection, proxy):
    """What is counted of a run, by its status."""
    def begun(act=None):
        all_replies(connection, [["FLUSHALL"], *TWO])
        proxy.begin(*[act] * bool(act))

    begun()
    folder.check("a run", 0, DONE)
    first = os.stat(folder.file).st_ino
    folder.check("a run of nothing", 0, NONE, lives=[TWO_LIVE[0]._replace(limit=9), TWO_LIVE[1]])
    folder.tally.check("the file is another one", True, os.stat(folder.file).st_ino != first)
    begun()
    folder.check("a run without a plan", 3, WITHOUT, names=["s", "g", "A", "D"])
    folder.check("a run in steps", 0, DONE, "--all", "--at-most", 1)
    begun(before_script(connection, "XADD s * c x\nXREADGROUP GROUP g D STREAMS s >"))
    folder.check("a stale run", 4, STALE, "--tries", 1, port=proxy.port)
    begun(lambda call: Sent(b"", "close") if call.is_script() else Sent(call.forward()))
    folder.check("a run of which nothing is known", 5, ERROR, port=proxy.port)
    folder.check("a run while Redis is away", 1, ERROR, port=1)
    begun()
    found = folder.run(names=["s", "h", "D"])
    of = (("group", "h"), ("key", "s"))
    folder.tally.check("metrics of no group", (1, ERROR, 0), (found.status, *told(folder.file, of)[:2]))
    printed_nowhere(folder)


def printed_nowhere(folder):
    """A plan that was carried out and could not be told is an error, and its entries count."""
    with tempfile.NamedTemporaryFile("w", suffix=".toml") as file, open("/dev/full", "wb") as full:
        file.write(policy_text(TWO_LIVE))
        file.flush()
        words = words_of(folder.port, file.name, "run", GROUP, ["--metrics", folder.file])
        status = subprocess.run(words, stdout=full, stderr=subprocess.DEVNULL, timeout=60, check=False).returncode
    folder.tally.check("metrics of a run to a full disk", (1, (1, 2, 0, 0, 1), 0), (status, *told(folder.file)[:2]))


def names(folder, connection):
    """Names with all that is escaped, and with what is not."""
    key, group = 'say "x"\\n\n', "café ☕\r\\"
    setting = [["XADD", key, "1-1", "c", "x"], ["XGROUP", "CREATE", key, group, "0"], ["XREADGROUP", "GROUP", group, "D", "STREAMS", key, ">"]]
    all_replies(connection, [["FLUSHALL"], *setting])
    found = folder.run(names=[key, group, "D"], lives=[Live(b"A", 9, None, {b"x": 1})])
    of = (("group", group), ("key", key))
    folder.tally.check("metrics of odd names", (0, (1, 1, 0, 0, 0), "now"), (found.status, *told(folder.file, of)[:2]))


def once(folder, connection, proxy):
    """One turn of two groups, of which one is not there."""
    all_replies(connection, [["FLUSHALL"], *OLD_TWO])
    idle = has_idle(DEAD)
    proxy.begin(lambda call: Sent(call.forward()) if b"h" in call.words else idle(call))
    options = ["--once", "--dead-after", 1000]
    found = folder.run(*options, action="watch", names=["s", "h", *PAIR], port=proxy.port)
    wanted = (1, (ERROR, 0), (DONE, "now"))
    of_both = [told(folder.file, (("group", group), ("key", "s")))[:2] for group in "hg"]
    folder.tally.check("metrics of two groups", wanted, (found.status, *of_both))
    all_replies(connection, [["FLUSHALL"], *OLD_TWO])
    proxy.begin(has_idle(BOTH))
    folder.check("a turn without a plan", 3, WITHOUT, *options, action="watch", names=PAIR, port=proxy.port)
    proxy.begin(has_idle(DEAD))
    folder.check("a turn that moves entries", 0, DONE, *options, action="watch", names=PAIR, port=proxy.port)
    found = folder.run(*options, action="watch", names=[*PAIR, "s", "h", *PAIR])
    folder.tally.check("a group twice", (2, b"", b"error: KEY GROUP: a group is named twice\n"), found[:3])


def refused(folder):
    """Files that cannot be written: it is told before a connection is opened, and nothing is left."""
    missing, link = os.path.join(folder.path, "none", "jobs.prom"), os.path.join(folder.path, "link")
    os.symlink("nowhere", link)
    there = sorted(os.listdir(folder.path))
    other = b"there is something else than a file"
    rows = [(missing, b"No such file or directory (os error 2)"), (folder.path, other), (link, other), ("/dev/null", other)]
    rows += [(os.path.join(folder.file, "x"), b"Not a directory (os error 20)")]
    for path, why in rows:
        for action, names_of, options in (("run", GROUP, []), ("watch", PAIR, ["--every", 1, "--dead-after", 1])):
            with socket.create_server((HOST, 0)) as listener:
                port = listener.getsockname()[1]
                found = run(port, policy_text(TWO_LIVE), action, names_of, "--metrics", path, *options)
                listener.setblocking(False)
                try:
                    opened = bool(listener.accept())
                except BlockingIOError:
                    opened = False
            wanted = b"error: --metrics: cannot write the file %s: %s\n" % (path.encode(), why)
            folder.tally.check(f"{action} --metrics {path}", (2, b"", wanted, False), (*found[:3], opened))
    found = run(1, policy_text(TWO_LIVE), "run", GROUP, "--metrics", "")
    folder.tally.check("no name", (2, b"", b"error: --metrics: it has to be the name of a file\n"), found[:3])
    folder.tally.check("what is left of these", there, sorted(os.listdir(folder.path)))
    os.unlink(link)


def vanished(folder, connection, proxy):
    """The folder goes away before the script: the plan is carried out and printed all the same."""
    def act(call):
        if call.is_script():
            shutil.rmtree(folder.path, ignore_errors=True)
        return Sent(call.forward())

    all_replies(connection, [["FLUSHALL"], *TWO])
    proxy.begin(act)
    found = folder.run(port=proxy.port)
    text = b"metrics: cannot write the file %s: No such file or directory (os error 2)\n" % folder.file.encode()
    done = found.out.endswith(b"done, claimed 2, gap 0\n")
    folder.tally.check("the folder is gone after a run", (0, True, text), (found.status, done, found.errors))
    os.mkdir(folder.path)


def wait_for(holds):
    """Whether that holds, now or after a while."""
    until = time.monotonic() + SECONDS
    while not holds() and time.monotonic() < until:
        time.sleep(0.05)
    return holds()


def counted(path, of=OF):
    """How many runs were counted, or None while there is no file."""
    try:
        return told(path, of)[0][0]
    except FileNotFoundError:
        return None


def in_turns(tally):
    """Turn after turn is counted; a folder that is gone is told once, and again if that happens again."""
    with Redis() as server, server.connect() as connection:
        folder = Folder(tally, server.port)
        all_replies(connection, QUIET)
        with Running(server.port, TWO_LIVE, "--metrics", folder.file) as program:
            tally.check("turns are counted", True, wait_for(lambda: (counted(folder.file) or 0) >= 2))
            numbers, when, _ = told(folder.file)
            tally.check("each is a success", ((0, 0, 0, 0), "now"), (numbers[1:], when))
            last = None
            for number in (1, 2):
                shutil.rmtree(folder.path)
                wait_for(lambda number=number: len(failures(program)) == number)
                time.sleep(2.5)  # two turns that tell nothing
                text = b"metrics: cannot write the file %s: No such file or directory (os error 2)" % folder.file.encode()
                tally.check(f"that it fails is told once, {number}", [text] * number, failures(program))
                os.mkdir(folder.path)
                tally.check(f"it is written again, {number}", True, wait_for(lambda: counted(folder.file) is not None))
                tally.check(f"no turn is forgotten, {number}", True, counted(folder.file) > (last or 2))
                last = counted(folder.file)
            tally.check("it goes on", None, program.process.poll())
        shutil.rmtree(folder.path)


def failures(program):
    """The lines on the file that a running program has printed on standard error."""
    return [line for line in map(untimed, list(program.errors.lines)) if line.startswith(b"metrics: ")]


def while_away(tally):
    """Redis is away: each turn is an error, and once it is there no turn is."""
    with Redis() as server:
        port = server.port
        folder = Folder(tally, port)
        with Running(port, TWO_LIVE, "--metrics", folder.file) as program, server.connect() as connection:
            all_replies(connection, QUIET)
            wait_for(lambda: (counted(folder.file) or 0) >= 1 and told(folder.file)[1] == "now")
            before = told(folder.file)[0]
            server.stop()
            tally.check("errors while Redis is away", True, wait_for(lambda: told(folder.file)[0][4] >= before[4] + 2))
            runs_of, _, _, _, errors = told(folder.file)[0]
            tally.check("each is a run", True, errors <= runs_of)
            tally.check("it goes on", None, program.process.poll())
        shutil.rmtree(folder.path)


def compare(tally, connection):
    """Compares all of it."""
    port = connection.socket.getpeername()[1]
    folder = Folder(tally, port)
    with Proxy(port) as proxy:
        runs(folder, connection, proxy)
        names(folder, connection)
        once(folder, connection, proxy)
        refused(folder)
        vanished(folder, connection, proxy)
    shutil.rmtree(folder.path)
    in_turns(tally)
    while_away(tally)
