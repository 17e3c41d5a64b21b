"""Clients that load a server, each in a process of its own, which count what they are answered.

    with heavy.Flood(server, resp.spelled("PING")) as flood, heavy.Pings(server, 50) as others:
        time.sleep(5)
    print(flood.bytes(), others.count())
"""

import multiprocessing
import select
import time

from . import crowd, servers
from .crowd import PING, PONG
from .resp import Fault, spelled_all

PIECE = 1 << 18  # bytes that are sent or read at a time
PART = 2_000  # requests that are sent before their replies are read
LOOKS = 200  # milliseconds after which a client looks whether it is to stop
EVERY, PATIENCE = 0.001, 120  # seconds from one PING to the next of a client that measures how long they wait, and that one may
PROBES = 2_000  # PINGs by which the thread of a loop is found
SETTLED = 0.005, 20  # a PING is answered within these seconds, so many times in a row, once a server does nothing else


class Client:
    """A process that runs until it is stopped, or the server ends its connection."""

    def __init__(self, server, *words):
        context = multiprocessing.get_context("fork")
        self.counted, self.longest_ = context.Value("q", 0, lock=False), context.Value("d", 0.0, lock=False)
        self.stops, self.ended_ = context.Value("b", 0, lock=False), context.Value("b", 0, lock=False)
        self.process = context.Process(target=self.play, args=(server.port, *words), daemon=True)

    def __enter__(self):
        self.process.start()
        return self

    def __exit__(self, *_):
        self.stop()

    def play(self, *words):
        try:
            self.run(*words)
        except OSError:
            pass  # the server ended its connection, or was not heard of any more
        self.ended_.value = 1

    def stop(self):
        self.stops.value = 1
        self.process.join(servers.SECONDS)
        if self.process.is_alive():
            self.process.kill()
            self.process.join()

    def count(self):
        return self.counted.value

    def ended(self):
        """Whether it has stopped, or the server has ended its connection."""
        return bool(self.ended_.value)

    def during(self, seconds):
        """How much it counts in this time, a second."""
        before, began = self.count(), time.monotonic()
        time.sleep(seconds)
        return (self.count() - before) / (time.monotonic() - began)


class Flood(Client):
    """Sends a text of requests over and over, and counts the bytes of the replies. It waits for none of them; or, if it is told how many bytes
    the replies to one text have, for all but some texts."""

    def run(self, port, text, replied=0, ahead=0):
        view, into, sent = memoryview(text * max(1, PIECE // len(text))), bytearray(PIECE), 0
        with crowd.opened(port, servers.SECONDS) as connection:
            connection.setblocking(False)
            poll = select.poll()
            poll.register(connection)
            while not self.stops.value:
                may = (self.count() // replied + ahead) * len(text) - sent if replied else len(view)
                poll.modify(connection, select.POLLIN | select.POLLOUT if may else select.POLLIN)
                for _, event in poll.poll(LOOKS):
                    if event & select.POLLOUT:
                        place = sent % len(view)
                        sent += connection.send(view[place:place + may])
                    if event & ~select.POLLOUT:
                        read = connection.recv_into(into)
                        if not read:
                            return
                        self.counted.value += read


class Pings(Client):
    """Some connections that each send a PING, and the next once it is answered. Their answers are counted."""

    def run(self, port, number):
        sockets = [crowd.opened(port, servers.SECONDS) for _ in range(number)]
        places, poll = {each.fileno(): each for each in sockets}, select.epoll()
        for each in sockets:
            poll.register(each, select.EPOLLIN)
            each.sendall(PING)
        while not self.stops.value:
            for handle, _ in poll.poll(LOOKS / 1000):
                each = places[handle]
                if each.recv(len(PONG)) != PONG:
                    return
                self.counted.value += 1
                each.sendall(PING)


class Waits(Client):
    """One connection that sends a PING every millisecond, and keeps the longest that one was not answered."""

    def run(self, port):
        with crowd.opened(port, PATIENCE) as connection:
            while not self.stops.value:
                began = time.monotonic()
                try:
                    crowd.pinged(connection)
                finally:
                    self.longest_.value = max(self.longest_.value, time.monotonic() - began)
                self.counted.value += 1
                time.sleep(EVERY)

    def reset(self):
        """Forgets what was before, once a PING was answered."""
        before = self.count()
        while self.count() < before + 2 and not self.ended():
            time.sleep(EVERY)
        self.longest_.value = 0.0

    def longest(self):
        """Seconds, also of a PING that is under way."""
        before = self.count()
        while self.count() == before and not self.ended():
            time.sleep(EVERY)
        return self.longest_.value


class Loop:
    """The thread of a server that answers PINGs: the processor time that it takes."""

    def __init__(self, server, connection):
        before = server.processors()
        for _ in range(PROBES):
            crowd.pinged(connection.socket)
        self.server, after = server, server.processors()
        self.thread = max(after, key=lambda thread: after[thread] - before.get(thread, 0))

    def ran(self):
        return self.server.ran(self.thread)


def exchange(connection, text, wanted, seconds=servers.SECONDS):
    """Sends a text of requests without waiting, and reads until this many bytes have come. How many came before the time was up, or the
    end."""
    view, into, place, count, until = memoryview(text), bytearray(PIECE), 0, 0, time.monotonic() + seconds
    poll = select.poll()
    poll.register(connection, select.POLLIN | select.POLLOUT)
    connection.setblocking(False)
    while count < wanted and (left := until - time.monotonic()) > 0:
        for _, event in poll.poll(1000 * left):
            if event & select.POLLOUT and place < len(view):
                place += connection.send(view[place:])
            if event & ~select.POLLOUT:
                read = connection.recv_into(into)
                if not read:
                    return count
                count += read
        if place == len(view):
            poll.modify(connection, select.POLLIN)
    connection.settimeout(seconds)
    return count


def carried_out(connection, commands, part=PART):
    """Has many commands carried out, so many at a time. Each reply is passed over, but an error ends it."""
    commands = list(commands)
    for first in range(0, len(commands), part):
        several = commands[first:first + part]
        connection.socket.sendall(spelled_all(several))
        for words in several:
            reply = connection.reply()
            if isinstance(reply, Exception):
                raise Fault(f"{' '.join(map(str, words))[:80]}: {reply}")


def settled(server):
    """Waits until a server does nothing else than to answer PINGs."""
    soon, times = SETTLED
    with server.connect() as connection:
        quick = 0
        while quick < times:
            began = time.monotonic()
            connection.call("PING")
            quick = quick + 1 if time.monotonic() - began < soon else 0
            time.sleep(soon)
