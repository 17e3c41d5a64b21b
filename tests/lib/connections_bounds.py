"""What bounds the connections of one loop: their number, what unanswered requests hold, and descriptors."""

import re
import subprocess
import time

from . import busy, crowd, servers
from .connections_load import settled
from .crowd import PING, PONG, Crowd
from .resp import spelled

LIMIT = 16  # connections that the server of `beyond_limit` serves
MORE = 200  # that come at once beyond them
REFUSAL = b"-ERR max number of clients reached\r\n"
SOON = 5  # seconds in which one is let in once another has closed
AGAIN = 100  # times that a client closes and connects again

UNFINISHED = 8 << 20  # bytes, as --unfinished has it
PART, PARTS = 1_000_000, 4  # a request that is not finished yet, and how many of them there are
TOO_MUCH = 12  # words of that length: one connection's request that goes beyond the bound
PUSHED = 64 << 20  # bytes that a client tries to send after a read that waits
GROWS = 48 << 20  # bytes by which the server grows then: the bound, buffers that grow by doubling, and what is read besides

FEW, MANY = 64, 1_000  # descriptors, and connections that need more


def told(server):
    """What one more connection is told, until it is closed."""
    with crowd.opened(server.port, servers.SECONDS) as late:
        return crowd.rest(late)


def is_served(connection):
    """Whether a new connection answers a PING. One that is refused may be reset by it."""
    try:
        connection.sendall(PING)
        return crowd.received(connection) == PONG
    except ConnectionError:
        return False


def lets_in(server):
    """Whether one more connection is served within a while."""
    until = time.monotonic() + SOON
    while time.monotonic() < until:
        with crowd.opened(server.port, servers.SECONDS) as late:
            if is_served(late):
                return True
        time.sleep(0.01)
    return False


def beyond_limit(tally, server):
    """A connection beyond the limit is told so and closed, and one is let in whenever another has gone, also while its read waited."""
    with Crowd(server, LIMIT) as served:
        for _ in range(3):
            tally.compare("what one more connection is told", REFUSAL, told(server))
        late = [crowd.opened(server.port, servers.SECONDS) for _ in range(MORE)]
        tally.compare("how many of many more are told", MORE, crowd.gathered(late, 1_000).count(REFUSAL))
        for each in late:
            each.close()
        with crowd.opened(server.port, servers.SECONDS) as eager:
            tally.holds("one that sends at once is not served", not is_served(eager))
        tally.compare("those that are served", LIMIT, served.pinged())
        served.sockets.pop().close()
        tally.holds("another is let in once one has closed", lets_in(server))
        gone = served.sockets.pop()
        gone.sendall(spelled("XREAD", "BLOCK", 0, "STREAMS", "s", "$"))
        crowd.pinged(served.sockets[0])
        crowd.leave(gone, killed=True)
        tally.holds("another is let in once one that waited was reset", lets_in(server))
        tally.compare("those that are left", LIMIT - 2, served.pinged())


def come_again(tally, server):
    """A client that closes and at once connects again is let in each time while others take all places but its own, also if the server learns
    of both at once, since it is busy."""
    with server.connect() as other, Crowd(server, LIMIT - 2) as others:
        replied, served = busy.made(other), 0
        again = crowd.opened(server.port, servers.SECONDS)
        crowd.pinged(again)
        tally.compare("what one more connection is told beside it", REFUSAL, told(server))
        crowd.pinged(again)  # once the server does not look for more of them
        for number in range(AGAIN):
            is_busy = number % 2 == 1
            if is_busy:
                other.socket.sendall(busy.ASKED)
                time.sleep(busy.MOMENT)
            crowd.leave(again, killed=number % 4 < 2)
            again = crowd.opened(server.port, servers.SECONDS)
            if is_busy:
                other.file.read(replied)
            served += is_served(again)
        again.close()
        tally.compare("how often it is let in", AGAIN, served)
        tally.compare("those that are served beside it", LIMIT - 2, others.pinged())


def push(connection, text, most):
    """How many bytes a connection takes, of this text over and over, before it is closed, takes no more for a while, or has taken the most."""
    connection.settimeout(1)
    count = 0
    try:
        while count < most:
            count += connection.send(text[count % len(text):])
    except (TimeoutError, ConnectionError):
        pass
    return count


def unfinished(tally, server):
    """Unanswered requests hold no more than may be: who sends more is closed, and nobody else; what is answered or gone counts no longer."""
    begin, end = spelled("XADD", "s", "*", "f", "v" * PART)[:-2], b"\r\n"
    large = spelled("XADD", "s", "*", *["v" * PART] * TOO_MUCH)[:-2]
    with Crowd(server, PARTS) as within, server.connect() as other:
        crowd.pinged(other.socket)
        handles = server.handles()
        within.send(begin)
        crowd.pinged(other.socket)
        tally.compare("who is closed within the bound", [], crowd.answered(within.sockets, 0.1))
        with crowd.opened(server.port, 2) as beyond:
            push(beyond, large, len(large))
            tally.compare("who sends more than may be", b"", crowd.gathered([beyond], 1, seconds=2)[0])
            tally.holds("it is closed, and does not just wait", crowd.answered([beyond], 0) == [0])
        tally.compare("who is closed beside it", [], crowd.answered(within.sockets, 0.1))
        within.send(end)
        tally.compare("requests within the bound that are answered", PARTS, sum(text[:1] == b"$" for text in within.gathered(20)))
        for _ in range(3 * UNFINISHED // PART):
            with crowd.opened(server.port, servers.SECONDS) as gone:
                gone.sendall(begin)
            crowd.pinged(other.socket)
            settled(server, handles)
        added = 0
        for _ in range(3 * UNFINISHED // PART):
            other.socket.sendall(begin + end)
            added += isinstance(other.reply(), bytes)
        tally.compare("such requests of one connection, one after the other", 3 * UNFINISHED // PART, added)


def after_a_wait(tally, server):
    """A client that sends without end after a read that waits fills nothing: it is closed, or no more is read of it."""
    with server.connect() as other, crowd.opened(server.port, 2) as reader:
        before = server.memory()
        reader.sendall(spelled("XREAD", "BLOCK", 0, "STREAMS", "s", "$"))
        count = push(reader, PING * 1_000, PUSHED)
        grown = server.memory() - before
        tally.holds(f"it sent {count >> 20} MiB after its read, of {PUSHED >> 20}", count < PUSHED)
        tally.holds(f"the server grew by {grown >> 20} MiB", grown < GROWS)
        crowd.pinged(other.socket)


def few_descriptors(tally, program):
    """A server that may not have a descriptor for each connection does not begin, and says how many it may have."""
    words = [program, "--listen", f"{servers.HOST}:{servers.free_port()}", "--connections", str(MANY)]
    try:
        ended = subprocess.run(words, capture_output=True, timeout=5, check=False, preexec_fn=servers.limited(FEW))
        found = ended.returncode, ended.stdout
        numbers = [int(number) for number in re.findall(rb"\d+", ended.stderr)]
    except subprocess.TimeoutExpired as late:
        found, numbers = (None, late.stdout), []
    tally.compare("a server with too few descriptors", (2, b""), found)
    tally.holds(f"standard error has the number of descriptors, {numbers}", FEW in numbers)
