"""Very many connections to one server, which one client holds and polls.

    with crowd.Crowd(server, 5_000) as readers:
        readers.send(resp.spelled("PING"))
        answers = readers.gathered(len(b"+PONG\\r\\n"))
"""

import select
import socket
import struct
import time

from . import servers
from .resp import Fault, spelled

BATCH = 64  # connections that are opened before a server has accepted the last of them: fewer than a listener holds
PIECE = 1 << 16  # bytes that are read at a time
PING, PONG = spelled("PING"), b"+PONG\r\n"


def opened(port, seconds, received=None):
    """A socket with a connection to this port. With `received`, it has room for about so many bytes, and takes small segments, for which
    the other end has little room to write as well."""
    connection = socket.socket()
    if received:
        connection.setsockopt(socket.SOL_SOCKET, socket.SO_RCVBUF, received)
        connection.setsockopt(socket.IPPROTO_TCP, socket.TCP_MAXSEG, 536)
    connection.settimeout(seconds)
    connection.connect((servers.HOST, port))
    connection.setsockopt(socket.IPPROTO_TCP, socket.TCP_NODELAY, 1)
    return connection


def leave(connection, killed):
    """Ends a connection: politely, or by a reset, as a client that is killed does."""
    if killed:
        connection.setsockopt(socket.SOL_SOCKET, socket.SO_LINGER, struct.pack("ii", 1, 0))
    connection.close()


def rest(connection):
    """All that still comes of a connection, until its end or a reset."""
    pieces = []
    try:
        while piece := connection.recv(PIECE):
            pieces.append(piece)
    except ConnectionResetError:
        pass
    return b"".join(pieces)


def gathered(sockets, wanted, seconds=servers.SECONDS):
    """For each socket what comes until it has brought so many bytes, is at its end, or so much time has passed. `wanted` is one number, or
    one for each."""
    counts = [wanted] * len(sockets) if isinstance(wanted, int) else list(wanted)
    found, poll, places = [bytearray() for _ in sockets], select.epoll(), {}
    for place, each in enumerate(sockets):
        if counts[place] > 0:
            poll.register(each, select.EPOLLIN)
            places[each.fileno()] = place
    until = time.monotonic() + seconds
    with poll:
        while places and (left := until - time.monotonic()) > 0:
            for handle, _ in poll.poll(left):
                place = places[handle]
                piece = received(sockets[place])
                found[place] += piece
                if not piece or len(found[place]) >= counts[place]:
                    poll.unregister(handle)
                    del places[handle]
    return [bytes(text) for text in found]


def received(connection):
    """The next bytes, or none at the end."""
    try:
        return connection.recv(PIECE)
    except ConnectionResetError:
        return b""


def answered(sockets, seconds):
    """The places of the sockets for which something comes within so much time, or is there."""
    places, poll = {each.fileno(): place for place, each in enumerate(sockets)}, select.poll()
    for handle in places:
        poll.register(handle, select.POLLIN)
    return sorted(places[handle] for handle, _ in poll.poll(1000 * seconds))


class Crowd:
    """Connections of one client, in the order in which they were made. The server has accepted them all."""

    def __init__(self, server, number, seconds=servers.SECONDS, received=None):
        self.sockets = []
        try:
            for place in range(number):
                self.sockets.append(opened(server.port, seconds, received))
                if place % BATCH == BATCH - 1 or place == number - 1:
                    pinged(self.sockets[-1])
        except BaseException:
            self.close()
            raise

    def __enter__(self):
        return self

    def __exit__(self, *_):
        self.close()

    def __iter__(self):
        return iter(self.sockets)

    def close(self):
        for each in self.sockets:
            each.close()

    def send(self, text):
        """Sends the same to each."""
        for each in self.sockets:
            each.sendall(text)

    def gathered(self, wanted, seconds=servers.SECONDS):
        return gathered(self.sockets, wanted, seconds)

    def pinged(self):
        """How many answer a PING."""
        self.send(PING)
        return self.gathered(len(PONG)).count(PONG)


def pinged(connection):
    """Has a connection answer a PING. What came before on other connections has been accepted and read then."""
    connection.sendall(PING)
    found = connection.recv(len(PONG), socket.MSG_WAITALL)
    if found != PONG:
        raise Fault(f"PING is answered by {found!r}")
