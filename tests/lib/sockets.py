"""What `sr_server --listen` replies to bytes that come in pieces."""

import socket

from . import crowd, servers

OLD = b"$1\r\ns\r\n"  # the key in the requests
NEW = range(128, 228)  # keys of one byte each, by which the exchanges of one server do not meet


def renamed(pieces, key):
    """The same pieces of requests at another key."""
    text, place = b"".join(pieces).replace(OLD, b"$1\r\n%c\r\n" % key), 0
    for piece in pieces:
        yield text[place:place + len(piece)]
        place += len(piece)


def exchanged(server, other, pieces):
    """All that a client is replied that sends these pieces, each once the one before has most likely been read, and then no more."""
    with crowd.opened(server.port, servers.SECONDS) as client:
        try:
            for place, piece in enumerate(pieces):
                if place:
                    crowd.pinged(other.socket)
                client.sendall(piece)
            client.shutdown(socket.SHUT_WR)
        except OSError:
            pass  # it was closed before it had sent all
        return crowd.rest(client)


def exchanges(program, way, cases):
    """The replies to the pieces of each case, which finds no keys."""
    cases = list(cases)
    for first in range(0, len(cases), len(NEW)):
        with servers.Server(program, **{way: 8}) as server, server.connect() as other:
            for key, pieces in zip(NEW, cases[first:first + len(NEW)]):
                yield exchanged(server, other, list(renamed(pieces, key)))
