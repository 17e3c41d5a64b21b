"""Clients that misuse a server: they cut requests, stop in the middle, vanish before replies, never read, send garbage, wait and vanish."""

import collections
import multiprocessing
import random
import socket
import threading
import time

from . import crowd, resp, servers

PATIENCE = 30  # seconds that a reply may take
DEAF = 10  # connections that never read, in the whole run: the records may keep every large reply
ASKED = 12  # large replies that such a connection asks for
PROTOCOL_ERROR = b"-ERR Protocol error\r\n"
PART = 100  # clients of one process


class Tally:
    """What the threads did, and what went wrong."""

    def __init__(self):
        self.lock = threading.Lock()
        self.acts, self.faults = collections.Counter(), []
        self.records = 0

    def carried(self, requests):
        """That many requests, each of which leaves a record or two."""
        with self.lock:
            self.records += requests

    def did(self, act):
        with self.lock:
            self.acts[act] += 1
            self.records += 2  # the session's beginning and end
            return self.acts[act]

    def wrong(self, text):
        with self.lock:
            self.faults.append(text)

    def add(self, acts, faults, records):
        """Takes in what another tally has counted."""
        with self.lock:
            self.acts += acts
            self.faults += faults
            self.records += records


def vanish(connection, choice):
    """Closes a connection, politely or by a reset."""
    crowd.leave(connection, killed=choice.random() < 0.5)


class Rough(threading.Thread):
    """One connection after another, each misused."""

    def __init__(self, port, seed, tally, until, deaf):
        super().__init__(daemon=True)
        self.port, self.choice, self.tally, self.until, self.most_deaf = port, random.Random(seed), tally, until, deaf

    def run(self):
        acts = [self.cut, self.stop, self.leave, self.deaf, self.garbage, self.block]
        while time.monotonic() < self.until:
            act = self.choice.choices(acts, [6, 4, 4, 1, 4, 3])[0]
            try:
                act()
            except (ConnectionError, BrokenPipeError):
                pass  # the server may end a connection that is misused
            except Exception as fault:
                self.tally.wrong(f"{act.__name__}: {fault!r}")
                return

    def connect(self, act, received=None):
        connection = socket.socket()
        if received:
            connection.setsockopt(socket.SOL_SOCKET, socket.SO_RCVBUF, received)
        connection.settimeout(PATIENCE)
        connection.connect((servers.HOST, self.port))
        self.tally.did(act)
        return connection

    def request(self):
        """A request with a short reply, and the reply where it is known."""
        word = self.choice.randbytes(self.choice.choice([0, 1, 20, 2000]))
        return self.choice.choice([
            (("PING", word), resp.bulk(word)),
            (("PING",), b"+PONG\r\n"),
            (("XADD", "rough", "MAXLEN", 1000, "*", "f", word), None),
            (("XRANGE", "small", "-", "+", "COUNT", 3), None),
            (("XREADGROUP", "GROUP", "g", f"c{self.choice.randrange(9)}", "COUNT", 1, "STREAMS", "rough", ">"), None),
            (("XADD", "rough"), b"-ERR wrong number of arguments\r\n"),
            (("NOSUCH", word), b"-ERR unknown command\r\n"),
        ])

    def requests(self, most):
        """Some requests: their bytes, their number, and the replies that are known, each with its place."""
        made = [self.request() for _ in range(self.choice.randint(1, most))]
        text = b"".join(resp.spelled(*words) for words, _ in made)
        self.tally.carried(len(made))
        return text, [reply for _, reply in made]

    def pieces(self, text):
        places = sorted(self.choice.randrange(len(text) + 1) for _ in range(self.choice.randrange(12)))
        return [text[start:end] for start, end in zip([0, *places], [*places, len(text)])]

    def cut(self):
        """Whole requests in pieces; each gets its reply."""
        text, known = self.requests(8)
        with self.connect("cut") as connection, connection.makefile("rb") as file:
            for piece in self.pieces(text):
                connection.sendall(piece)
                time.sleep(self.choice.choice([0, 0, 0.001, 0.02]))
            for reply in known:
                found = reply_text(file)
                if not found or (reply is not None and found != reply):
                    self.tally.wrong(f"cut: the reply is {found[:80]!r}, not {reply and reply[:80]!r}")

    def stop(self):
        """The beginning of a request, and nothing more."""
        text = resp.spelled("XADD", "rough", "*", "f", self.choice.randbytes(self.choice.choice([10, 5000, 1 << 18])))
        part = text[: self.choice.randrange(len(text))]
        connection = self.connect("stop")
        connection.sendall(part)
        time.sleep(self.choice.random() * 0.5)
        vanish(connection, self.choice)

    def leave(self):
        """Requests whose replies nobody waits for."""
        text, _ = self.requests(50)
        connection = self.connect("leave")
        connection.sendall(text)
        vanish(connection, self.choice)

    def deaf(self):
        """Large replies that are never read."""
        with self.tally.lock:
            if self.tally.acts["deaf"] >= self.most_deaf:
                return
        connection = self.connect("deaf", received=4096)
        text = resp.spelled("XRANGE", "large", "-", "+") * ASKED
        self.tally.carried(ASKED)
        connection.sendall(text)
        time.sleep(0.2 + self.choice.random())
        vanish(connection, self.choice)

    def garbage(self):
        """Bytes that no request begins with, perhaps after requests. What is short is answered by the protocol error."""
        text = self.choice.choice([b"", b"*1\r\n$4\r\nPING\r\n"])
        bad = self.choice.choice([b"PING\r\n", b"*x", b"*1\r\n:1\r\n", b"*1\r\n$-1\r\n", b"*99999\r\n", b"*1\r\n$2\r\nabc", b"\0"])
        bad += self.choice.randbytes(self.choice.choice([0, 100, 100_000]))
        with self.connect("garbage") as connection:
            self.tally.carried(1 if text else 0)
            connection.sendall(text + bad)
            found = b"".join(iter(lambda: connection.recv(4096), b""))
        if found != (b"+PONG\r\n" if text else b"") + PROTOCOL_ERROR and len(bad) < 4000:
            self.tally.wrong(f"garbage: the reply to {text + bad[:20]!r} is {found[:80]!r}")

    def block(self):
        """A wait for an entry that never comes, for the whole time or not."""
        wait = self.choice.randint(50, 1000)
        with self.connect("block") as connection:
            self.tally.carried(2)
            if self.choice.random() < 0.5:
                text = resp.spelled("XREAD", "BLOCK", wait, "STREAMS", "quiet", "$")
            else:
                text = resp.spelled("XREADGROUP", "GROUP", "g", "c", "BLOCK", wait, "STREAMS", "quiet", ">")
            connection.sendall(text)
            if self.choice.random() < 0.5:
                time.sleep(self.choice.random() * wait / 1000)
                vanish(connection, self.choice)
            elif (found := connection.recv(100)) != b"*-1\r\n":
                self.tally.wrong(f"block: the reply is {found!r}")


def reply_text(file):
    """The bytes of the next reply, or none if there is no whole one."""
    try:
        return resp.text_of_reply(file)
    except resp.Ended:
        return b""


class Crew:
    """Rough clients in processes of their own, so that honest ones do not wait for them. They use the port until a moment of the clock."""

    def __init__(self, port, seed, number, until):
        context = multiprocessing.get_context("fork")
        self.results, numbers = context.Queue(), [range(first, min(first + PART, number)) for first in range(0, number, PART)]
        deaf = max(1, DEAF // len(numbers))
        self.processes = [context.Process(target=self.run, args=(port, seed, part, until, deaf), daemon=True) for part in numbers]
        for process in self.processes:
            process.start()

    def run(self, port, seed, numbers, until, deaf):
        tally = Tally()
        threads = [Rough(port, f"{seed} {number}", tally, until, deaf) for number in numbers]
        for thread in threads:
            thread.start()
        late = until + 4 * PATIENCE
        for thread in threads:
            thread.join(max(0, late - time.monotonic()))
        hanging = sum(thread.is_alive() for thread in threads)
        self.results.put((tally.acts, tally.faults + [f"{hanging} rough clients hang"] * (hanging > 0), tally.records))

    def join(self, tally, seconds):
        """Waits for all, and adds what they counted."""
        for _ in self.processes:
            tally.add(*self.results.get(timeout=seconds))
        for process in self.processes:
            process.join()
