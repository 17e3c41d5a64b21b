"""sr_recover with standard input, output or error closed when it starts: no socket gets its place, and so nothing that is printed."""

import contextlib
import queue
import socket
import subprocess
import tempfile
import threading

from .live import Live, all_replies
from .live_rows import TWO, TWO_LIVE, lines
from .recover import policy_text, run_of, words_of
from .recover_rows import GROUP, PLAN, without_idle
from .servers import HOST

SECONDS = 60
ALL = (0, 1, 2)
FAILED = b"output: a write failed"
DONE = b"done, claimed 2, gap 0\n"
NOTE = b"note: the group has no consumer E\n"
BOARD = (
    b"consumer  pending  limit  soft  room  idle  delivered\n"
    b"A               1      2     -     1          1\n"
    b"B               1      3     -     2          1\n"
    b"D               2      -     -     -          1\n"
)
NONE = (
    b"consumer  entries  cost  price\n"
    b"A               0     0      0\n"
    b"B               0     0      0\n"
    b"total           0     0\n"
)

# What is closed, what is called and for whom, and the status and the two outputs then. A program whose output cannot be written ends with
# status 1, and says so as far as it can.
ROWS = [
    ((), "plan", GROUP, (0, PLAN, b"")),
    ((0,), "plan", GROUP, (0, PLAN, b"")),
    ((1,), "plan", GROUP, (1, b"", FAILED + b"\n")),
    ((2,), "plan", GROUP, (0, PLAN, b"")),
    ((0, 1), "plan", GROUP, (1, b"", FAILED + b"\n")),
    ((1, 2), "plan", GROUP, (1, b"", b"")),
    (ALL, "plan", GROUP, (1, b"", b"")),
    ((), "plan", ["s", "g", "E"], (0, NONE, NOTE)),
    ((2,), "plan", ["s", "g", "E"], (1, b"", b"")),
    ((), "board", GROUP[:2], (0, BOARD, b"")),
    ((1,), "board", GROUP[:2], (1, b"", FAILED + b"\n")),
    (ALL, "board", GROUP[:2], (1, b"", b"")),
    ((), "run", GROUP, (0, PLAN + DONE, b"")),
    ((0,), "run", GROUP, (0, PLAN + DONE, b"")),
    ((1,), "run", GROUP, (1, b"", FAILED + b", and the plan was carried out\n")),
    ((2,), "run", GROUP, (0, PLAN + DONE, b"")),
    (ALL, "run", GROUP, (1, b"", b"")),
]

# Two stranded entries, of which the consumer DEL gets both at a cost of 0. The line of the table would be a command for Redis.
DEL = [*lines("XADD s 1-1 c x\nXADD s 2-1 c x\nXGROUP CREATE s g 0\nXREADGROUP GROUP g D STREAMS s >"), ["MSET", "2", "a", "0", "b"]]
DEL_LIVE = [Live(b"DEL", 2, None, {b"x": 0})]


class Relay:
    """Passes bytes on to a Redis and back. Of each connection it hands over all that came from the client."""

    def __init__(self, port):
        self.target, self.texts = port, queue.Queue()
        self.listener = socket.create_server((HOST, 0))
        self.port = self.listener.getsockname()[1]
        threading.Thread(target=self.serve, daemon=True).start()

    def close(self):
        self.listener.shutdown(socket.SHUT_RDWR)
        self.listener.close()

    def serve(self):
        with contextlib.suppress(OSError):
            while True:
                client, _ = self.listener.accept()
                with client, socket.create_connection((HOST, self.target)) as server:
                    back = threading.Thread(target=passed_on, args=(server, client))
                    back.start()
                    self.texts.put(passed_on(client, server))
                    back.join()


def passed_on(here, there):
    """Sends all that comes from one end to the other, until no more comes."""
    text = b""
    with contextlib.suppress(OSError):
        while piece := here.recv(65536):
            text += piece
            there.sendall(piece)
    with contextlib.suppress(OSError):
        there.shutdown(socket.SHUT_WR)
    return text


def run(closed, port, lives, action, names):
    """Runs the program to its end, with these descriptors closed."""
    closing = " ".join(f"{descriptor}>&-" for descriptor in closed)
    with tempfile.NamedTemporaryFile("w", suffix=".toml") as file:
        file.write(policy_text(lives))
        file.flush()
        words = ["sh", "-c", f'exec "$0" "$@" {closing}', *words_of(port, file.name, action, names, [])]
        done = subprocess.run(words, stdin=subprocess.DEVNULL, capture_output=True, timeout=SECONDS, check=False)
    out = without_idle(done.stdout) if action == "board" else done.stdout
    return run_of(done.returncode, out, done.stderr)


def rows(tally, connection, relay):
    """All rows. What is sent to Redis is the same as with nothing closed."""
    texts = {}
    for closed, action, names, wanted in ROWS:
        all_replies(connection, [["FLUSHALL"], ["SCRIPT", "FLUSH"], *TWO])
        found = run(closed, relay.port, TWO_LIVE, action, names)
        sent = relay.texts.get(timeout=SECONDS)
        owners = b"".join(row[1] for row in connection.call("XPENDING", "s", "g", "1-1", "2-1", 9))
        what = f"{action} {names} with {closed} closed"
        tally.check(what, (*wanted, b"BA" if action == "run" else b"DD"), (*found[:3], owners))
        wanted = texts.setdefault((action, *names), sent)
        tally.check(f"{what}: what is sent", wanted[-80:], sent[-80:])
        tally.check(f"{what}: all that is sent", True, sent == wanted)


def printed_commands(tally, connection):
    """What is printed would delete two keys if it came to Redis."""
    for closed in (1,), (1, 2):
        all_replies(connection, [["FLUSHALL"], *DEL])
        run(closed, connection.socket.getpeername()[1], DEL_LIVE, "plan", ["s", "g", "D"])
        connection.call("PING")  # answered after all that had come before
        tally.check(f"a consumer named DEL, {closed} closed", 2, connection.call("EXISTS", "2", "0"))


def compare(tally, connection):
    """Compares all of it."""
    relay = Relay(connection.socket.getpeername()[1])
    try:
        rows(tally, connection, relay)
    finally:
        relay.close()
    printed_commands(tally, connection)
