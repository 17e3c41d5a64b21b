"""How long a connection of one loop may be idle: one of which nothing comes, one that takes its time, and one whose read waits."""

import time

from . import crowd, heavy, servers
from .crowd import PING, PONG, Crowd
from .resp import array, bulk, spelled

IDLE = 1  # seconds, as --idle has it
CLOSED = IDLE - 0.1, IDLE + 2  # when an idle connection is closed: the server looks at them once a second
LASTS = 3.5  # seconds that this is looked at
STEP = 0.1
WORKERS = 10  # whose reads wait longer than a connection may be idle: the first ends after 1.5 seconds, each other a step later
RESTS = 0.4  # seconds after which a worker goes on
SLOWLY = 32, 1 << 19  # entries of a long reply, and bytes of each: 16 MiB
SENT = 3, 1_000_000  # long words of a long request, and bytes of each
STEPS = 30  # in which it is sent, and that reply read: longer than a connection may be idle
ROOM = 1 << 16  # bytes of room that the reader has for what it does not read yet


class Idlers:
    """Connections of a server that closes idle ones. Each is looked at in each step; those that are closed have their times."""

    def __init__(self, server):
        self.server, self.began, self.closed = server, time.monotonic(), {}
        self.silent, self.half, self.slow, self.asking, self.waiting, self.other = Crowd(server, 6).sockets
        self.half.sendall(spelled("XADD", "s", "*", "f", "v")[:-3])
        self.waiting.sendall(spelled("XREAD", "BLOCK", 0, "STREAMS", "s", "$"))
        self.workers = Crowd(server, WORKERS).sockets
        for place, worker in enumerate(self.workers):
            worker.sendall(spelled("XREAD", "BLOCK", 1500 + int(1000 * STEP) * place, "STREAMS", "none", "$"))
        self.asks, self.pongs, self.goes_on = 0, 0, {}
        self.trickle = iter(spelled("XADD", "s", "*", "f", "v" * 99))

    def __enter__(self):
        return self

    def __exit__(self, *_):
        for each in [self.silent, self.half, self.slow, self.asking, self.waiting, self.other, *self.workers]:
            each.close()

    def now(self):
        return time.monotonic() - self.began

    def step(self):
        """One client sends a PING, one a byte of its request, and a worker that has its answer rests, sends a PING and reads again."""
        self.ask(self.asking)
        if self.slow not in self.closed:
            self.slow.sendall(bytes([next(self.trickle)]))
        for worker, begins in list(self.goes_on.items()):
            if self.now() >= begins:
                del self.goes_on[worker]
                self.ask(worker, spelled("XREAD", "BLOCK", 0, "STREAMS", "none", "$"))
        self.look(STEP)

    def ask(self, connection, more=b""):
        self.asks += 1
        connection.sendall(PING + more)

    def look(self, seconds):
        """Takes what has come, and notes who is closed."""
        open_ones = [each for each in [self.silent, self.half, self.slow, self.asking, *self.workers] if each not in self.closed]
        until = time.monotonic() + seconds
        while (left := until - time.monotonic()) > 0:
            for place in crowd.answered(open_ones, left):
                self.take(open_ones[place], crowd.received(open_ones[place]))
            open_ones = [each for each in open_ones if each not in self.closed]

    def take(self, connection, text):
        if not text:
            self.closed[connection] = self.now()
        elif connection in self.workers and text == b"*-1\r\n":
            self.goes_on[connection] = self.now() + RESTS
        else:
            self.pongs += text.count(PONG)


def idle(tally, server):
    """A connection of which nothing comes for a while is closed, also in a request. One that asks is not, or sends byte after byte, or whose
    read waits."""
    with Idlers(server) as idlers:
        while idlers.now() < LASTS:
            idlers.step()
        for name in ("silent", "half"):
            when = idlers.closed.get(getattr(idlers, name))
            tally.holds(f"the {name} one is closed after {when} seconds", when is not None and CLOSED[0] < when < CLOSED[1])
        kept = [idlers.asking, idlers.slow, *idlers.workers]
        tally.compare("who asks or waits for a while is closed", [], [idlers.closed[each] for each in kept if each in idlers.closed])
        idlers.look(STEP)
        tally.compare("PINGs that are answered", idlers.asks, idlers.pongs)
        tally.compare("workers that went on", {}, idlers.goes_on)
        with server.connect() as maker:
            maker.call("XADD", "s", "1-1", "a", "b")
        tally.holds("a read that waited all the time has the entry", crowd.gathered([idlers.waiting], 20)[0].startswith(b"*1\r\n*2\r\n"))


class Slow:
    """A client that reads a long reply and one that sends a long request, a step at a time, and one that never reads what it asked for."""

    def __init__(self, server, length):
        self.reader, self.deaf = (crowd.opened(server.port, servers.SECONDS, received=ROOM) for _ in range(2))
        self.writer = crowd.opened(server.port, servers.SECONDS)
        number, size = SENT
        self.left, self.request = length, spelled("XADD", "s", "1-1", *["f", b"v" * size] * number)
        for each in (self.reader, self.deaf):
            each.sendall(spelled("XRANGE", "slow", "-", "+"))

    def __enter__(self):
        return self

    def __exit__(self, *_):
        for each in (self.reader, self.deaf, self.writer):
            each.close()

    def step(self, steps):
        """A part of both. Whether there is more to be read and sent."""
        more = STEPS - steps
        size = -(-self.left // more)
        while size and (piece := self.reader.recv(size)):
            size, self.left = size - len(piece), self.left - len(piece)
        part = -(-len(self.request) // more)
        self.writer.sendall(self.request[:part])
        self.request = self.request[part:]
        return bool(self.left or self.request)


def idle_bytes(tally, server):
    """A client that takes its time to read a long reply, or to send a long request, is not idle; one that reads nothing is."""
    number, size = SLOWLY
    with server.connect() as maker:
        heavy.carried_out(maker, (["XADD", "slow", f"{place}-1", "f", b"v" * size] for place in range(1, number + 1)))
    length = len(array([array([bulk(b"%d-1" % place), spelled("f", b"v" * size)]) for place in range(1, number + 1)]))
    with Slow(server, length) as slow:
        try:
            steps = 0
            while slow.step(steps):
                steps += 1
                time.sleep(STEP)
        except ConnectionError:
            pass
        tally.compare("bytes of a long reply that are missing", 0, slow.left)
        tally.compare("the reply to a long request", bulk(b"1-1"), crowd.gathered([slow.writer], 9, seconds=2)[0])
        tally.holds("the one that reads nothing is closed before it has all", len(crowd.rest(slow.deaf)) < length)


def goes_on(client, until):
    """Whether a read that waits for a shorter time is answered each time until a moment."""
    while time.monotonic() < until:
        client.sendall(spelled("XREAD", "BLOCK", int(1000 * IDLE / 2), "STREAMS", "none", "$"))
        if crowd.received(client) != b"*-1\r\n":
            return False
    return True


def idle_waiting(tally, server):
    """A connection whose read waits for too long is closed and given nothing more; one that reads anew meanwhile is not, nor a silent one."""
    with server.connect() as maker, Crowd(server, 3) as clients:
        maker.call("XGROUP", "CREATE", "s", "g", "$", "MKSTREAM")
        waiting, again, silent = clients
        waiting.sendall(spelled("XREADGROUP", "GROUP", "g", "c", "BLOCK", 0, "STREAMS", "s", ">"))
        began = time.monotonic()
        tally.holds("one that reads anew is answered each time", goes_on(again, began + LASTS))
        tally.compare("what the one that waits was told", [b""], crowd.gathered([waiting], 1, seconds=0.1))
        tally.holds("it is closed", crowd.answered([waiting], 0) == [0])
        crowd.pinged(silent)
        maker.call("XADD", "s", "*", "a", "b")
        tally.compare("what is pending for it", 0, maker.call("XPENDING", "s", "g")[0])
