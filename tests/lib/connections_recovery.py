"""Recoveries of a group that clients use without pause, and one for a client that says no more."""

import io
import multiprocessing
import random
import re
import select
import socket
import time

from . import crowd, heavy, servers
from .crowd import Crowd
from .heavy import Loop
from .resp import ErrorReply, Fault, Replies, spelled, spelled_all
from .stranded import Stranded

TAKERS, CLIENTS = 64, 20  # consumers of the policy, and how many of them are busy
RUNS, ENTRIES = 10, 250  # recoveries, and the entries of each: 16,000 pairs, which are solved in the loop
LARGE = 4_096  # entries of one more, which is solved beside it
LIMIT = 1_000  # entries that a taker may have
CLASSES = 4
AT_ONCE, EACH = 20, 1_024  # recoveries that are asked for at once, and the entries of each: too many for the loop to solve
MOST = 2.5  # times what one takes of the loop, while a PING of another client waits
PLACES, GONE = 4, 20  # plans that are wanted beside the loop at a time, and clients that go away while they wait for a place
WORKED = 2 * CLIENTS  # entries that the busy clients do from one recovery to the next
READ = re.compile(rb"\*1\r\n\*2\r\n\$1\r\ns\r\n\*1\r\n\*2\r\n\$\d+\r\n(\d+-\d+)\r\n\*2\r\n\$1\r\nc\r\n\$2\r\nk0\r\n")


def takers():
    return [f"c{number:02}" for number in range(TAKERS)]


def policy():
    """Costs of each class at each taker, at random, and more room than there are entries."""
    choice, names = random.Random(1), takers()
    limits = "".join(f"{name} = {LIMIT}\n" for name in names)
    rates = "".join(f"[rates.k{kind}]\n" + "".join(f"{name} = {choice.randint(1, 50)}\n" for name in names) for kind in range(CLASSES))
    return f'class_field = "c"\n[limits]\n{limits}{rates}'


class Busy:
    """A process whose clients add, read and acknowledge without pause, each as a taker of its own."""

    def __init__(self, port):
        context = multiprocessing.get_context("fork")
        self.done, self.stop = context.Value("q", 0, lock=False), context.Event()
        self.process = context.Process(target=self.run, args=(port,), daemon=True)

    def __enter__(self):
        self.process.start()
        return self

    def __exit__(self, *_):
        self.stop.set()
        self.process.join(servers.SECONDS)
        if self.process.is_alive():
            self.process.kill()

    def run(self, port):
        clients, poll = {}, select.epoll()
        for name in takers()[:CLIENTS]:
            client = crowd.opened(port, servers.SECONDS)
            asked = spelled("XADD", "s", "*", "c", "k0") + spelled("XREADGROUP", "GROUP", "g", name, "COUNT", 1, "STREAMS", "s", ">")
            clients[client.fileno()] = [client, asked, b""]
            poll.register(client, select.EPOLLIN)
            client.sendall(asked)
        while not self.stop.is_set():
            for handle, _ in poll.poll(1):
                self.step(clients[handle])

    def step(self, state):
        """Acknowledges what a client has read; once that is done, it adds and reads again, so that now it has an entry and now none. `state`
        is the client, what it asks, and what it was told."""
        client, asked, before = state
        text = before + crowd.received(client)
        read = READ.search(text)
        state[2] = b"" if read or text == b":1\r\n" else text
        if read:
            client.sendall(spelled("XACK", "s", "g", read[1]))
        elif text == b":1\r\n":
            self.done.value += 1
            client.sendall(asked)


    def wait(self, number):
        """Waits until so many more entries are done."""
        wanted, until = self.done.value + number, time.monotonic() + servers.SECONDS
        while self.done.value < wanted:
            if time.monotonic() > until:
                raise Fault(f"the busy clients have not done {number} entries in {servers.SECONDS} seconds")
            time.sleep(0.001)


def strand(maker, dead, entries):
    """Has a consumer read entries, and does nothing with them."""
    commands = [["XADD", "s", "*", "c", f"k{number % CLASSES}", "v", "v" * (number % 7)] for number in range(entries)]
    maker.socket.sendall(spelled_all([*commands, ["XREADGROUP", "GROUP", "g", dead, "COUNT", entries, "STREAMS", "s", ">"]]))
    replies = [maker.reply() for _ in range(entries + 1)]
    return len(replies[-1][0][1])


def recover(maker, dead, *tries):
    """What a recovery says first, and how many entries it moved."""
    maker.send("RECOVER.RUN", "s", "g", *tries, "DEAD", dead)
    reply = maker.reply()
    return (str(reply).split(" ")[0], 0) if isinstance(reply, ErrorReply) else (reply[0].decode(), len(reply[2]))


def busy_recoveries(tally, server):
    """Recoveries of a group that twenty clients use without pause are done, each at its first round; a larger one is not in their way."""
    with server.connect() as maker:
        maker.call("XGROUP", "CREATE", "s", "g", "0", "MKSTREAM")
        for number in range(RUNS):
            tally.compare("stranded entries", ENTRIES, strand(maker, f"d{number}", ENTRIES))
        tally.compare("stranded entries of the large one", LARGE, strand(maker, "large", LARGE))
        with Busy(server.port) as busy:
            for number in range(RUNS):
                busy.wait(WORKED)
                tally.compare(f"recovery {number} at its first round", ("done", ENTRIES), recover(maker, f"d{number}", "TRIES", 1))
            tally.holds("the large one is done, or was stale", recover(maker, "large") in (("done", LARGE), ("STALE", 0)))
            busy.wait(WORKED)
        pending = dict(maker.call("XPENDING", "s", "g")[3])
        tally.compare("what is left of the dead", [], [name for name in pending if name.startswith(b"d")])
        moved = sum(int(count) for name, count in pending.items() if name != b"large")
        tally.holds(f"{moved} entries are pending for others", moved >= RUNS * ENTRIES)


def half_closed_plan(tally, server):
    """A client asks for a plan that is made beside the loop, and shuts down the side that it writes: it gets the plan, and then the end."""
    with server.connect() as maker, crowd.opened(server.port, servers.SECONDS) as client:
        maker.call("XGROUP", "CREATE", "s", "g", "0", "MKSTREAM")
        tally.compare("stranded entries", LARGE, strand(maker, "large", LARGE))
        client.sendall(crowd.PING + spelled("RECOVER.PLAN", "s", "g", "DEAD", "large") + crowd.PING)
        client.shutdown(socket.SHUT_WR)
        text = crowd.rest(client)
        tally.holds(f"the replies around the plan, of {len(text):,} bytes", text.startswith(crowd.PONG) and text.endswith(crowd.PONG))
        plan = Replies(io.BytesIO(text[len(crowd.PONG):])).reply()
        tally.compare("the plan", (b"plan", LARGE), (plan[0], len(plan[2])) if isinstance(plan, list) else plan)


def asked_at_once(clients, keys):
    for each, key in zip(clients, keys):
        each.sendall(spelled("RECOVER.RUN", key, "g", "DEAD", "dead"))


def concluded(client, entries):
    """Whether a recovery of so many entries is done."""
    with client.makefile("rb") as file:
        reply = Replies(file).reply()
    return isinstance(reply, list) and (reply[0], len(reply[2])) == (b"done", entries)


def in_turn(tally, server):
    """Recoveries that are asked for at once: another client does not wait for more than one of them. What the loop does meanwhile is counted in
    its processor time."""
    with server.connect() as maker, server.connect() as other:
        stranded, loop = Stranded(maker, EACH, CLASSES), Loop(server, maker)
        first, *keys = [stranded.more() for _ in range(1 + AT_ONCE)]
        heavy.settled(server)
        before = loop.ran()
        maker.call("RECOVER.RUN", first, "g", "DEAD", "dead")
        alone, longest = loop.ran() - before, 0
        with Crowd(server, AT_ONCE) as clients:
            asked_at_once(clients, keys)
            until = time.monotonic() + servers.SECONDS
            while len(crowd.answered(clients.sockets, 0)) < AT_ONCE and time.monotonic() < until:
                before = loop.ran()
                crowd.pinged(other.socket)
                longest = max(longest, loop.ran() - before)
            tally.compare("recoveries that are done", AT_ONCE, sum(concluded(each, EACH) for each in clients))
        text = f"{1000 * longest:.1f} ms of the loop while a PING waits, where one recovery takes {1000 * alone:.1f}"
        tally.holds(text, longest <= MOST * alone)


def left_before_planned(tally, server):
    """Clients go away while they wait for a place for their plans. The places are given to who waits behind them."""
    with server.connect() as maker:
        stranded = Stranded(maker, EACH, CLASSES)
        keys = [stranded.more() for _ in range(PLACES + GONE + 1)]
        heavy.settled(server)
        with Crowd(server, len(keys)) as clients:
            asked_at_once(clients, keys)
            crowd.pinged(maker.socket)
            for each in clients.sockets[PLACES:-1]:
                crowd.leave(each, killed=True)
            for place in (*range(PLACES), len(keys) - 1):
                tally.holds(f"recovery {place} is done", concluded(clients.sockets[place], EACH))
