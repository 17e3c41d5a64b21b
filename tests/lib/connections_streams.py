"""Bytes of many connections of one loop: half-closed ones, long pipelines, requests that are cut, and clients that do not read."""

import socket
import threading
import time

from . import crowd, servers
from .crowd import PING, PONG, Crowd
from .resp import array, bulk, spelled, spelled_all

HALF_CLOSED = 50  # connections that say all that they have to say, and shut down their side
LARGE = 64, 1_000  # entries of a range, and bytes of each
PIPELINES, DEPTH = 4, 10_000  # connections at once, and requests of each
LATE = 0.3  # seconds in which such a connection sends and does not read
SENT, BUFFERED = 96 << 20, 40 << 20  # bytes that a client sends without reading, and that may be in buffers: the system's, of both ends, and
# those of the server, which grow by doubling
WORD = b"w" * 4_000
LONG, TIMES = 20_000, 60  # entries of a long reply, and how many such replies are asked for at once


def entry(number):
    return array([bulk(b"%d-1" % number), spelled("f", b"v" * LARGE[1])])


def fill(maker):
    """A stream of entries of a kilobyte, and the reply that has them all."""
    maker.socket.sendall(spelled_all(["XADD", "large", f"{number}-1", "f", b"v" * LARGE[1]] for number in range(1, LARGE[0] + 1)))
    for _ in range(LARGE[0]):
        maker.reply()
    return array([entry(number) for number in range(1, LARGE[0] + 1)])


def half_closed(tally, server):
    """Clients that shut down the side that they write get all replies, long ones too, and then the end. A last part of a request has none."""
    with server.connect() as maker, Crowd(server, HALF_CLOSED) as clients:
        large = fill(maker)
        asked = spelled_all([["PING"], *[["XRANGE", "large", "-", "+"]] * 100, ["XLEN", "large"]])
        wanted = PONG + large * 100 + b":%d\r\n" % LARGE[0]
        for place, each in enumerate(clients):
            each.sendall(asked if place == 0 else PING + spelled("XADD", f"s{place}", "1-1", "a", "b") + PING[:place % len(PING)])
            each.shutdown(socket.SHUT_WR)
        found = [crowd.rest(each) for each in clients]
        tally.holds(f"{len(found[0]):,} bytes of {len(wanted):,} of a client that has said all", found[0] == wanted)
        tally.compare("others that have said all", {PONG + b"$3\r\n1-1\r\n"}, set(found[1:]))
        wanted = [1] * (HALF_CLOSED - 1)
        tally.compare("what they added", wanted, [maker.call("XLEN", f"s{place}") for place in range(1, HALF_CLOSED)])


class Pipeline(threading.Thread):
    """A client that sends requests of all lengths without waiting, reads late, and compares what it gets."""

    def __init__(self, server, number, large):
        super().__init__()
        self.socket = crowd.opened(server.port, servers.SECONDS)
        self.pieces = [self.piece(number, place, large) for place in range(DEPTH)]
        self.wanted = b"".join(reply for _, reply in self.pieces)
        self.place = None

    @staticmethod
    def piece(number, place, large):
        """A request, and its reply."""
        if place % 10 == 0:
            return spelled("XRANGE", "large", "-", "+"), large
        if place % 10 == 5:
            return spelled("XADD", f"s{number}", f"{place}-1", "a", "b"), bulk(b"%d-1" % place)
        word = b"%d of %d " % (place, number) + WORD[:place % 300]
        return spelled("PING", word), bulk(word)

    def run(self):
        """Reads until all is there or something differs, which is at the place then."""
        sender = threading.Thread(target=self.socket.sendall, args=(b"".join(request for request, _ in self.pieces),), daemon=True)
        sender.start()
        time.sleep(LATE)
        place = 0
        while place < len(self.wanted) and (piece := crowd.received(self.socket)) == self.wanted[place:place + len(piece)] and piece:
            place += len(piece)
        self.place = place
        self.socket.close()
        sender.join()


def long_pipelines(tally, server):
    """Pipelines whose replies are far more than the system's buffers hold arrive whole and in order."""
    with server.connect() as maker:
        large = fill(maker)
        pipelines = [Pipeline(server, number, large) for number in range(PIPELINES)]
        for each in pipelines:
            each.start()
        for each in pipelines:
            each.join()
            tally.compare(f"bytes of {DEPTH:,} replies that are right", len(each.wanted), each.place)
        crowd.pinged(maker.socket)


def long_replies(tally, server):
    """A client that asks for many long replies at once, and reads them, holds up others for one of them or two, not for all."""
    with server.connect() as maker, server.connect() as other, crowd.opened(server.port, servers.SECONDS) as reader:
        maker.socket.sendall(spelled_all(["XADD", "long", f"{number}-1", "f", "v"] for number in range(1, LONG + 1)))
        for _ in range(LONG):
            maker.reply()
        one = len(array([array([bulk(b"%d-1" % number), spelled("f", "v")]) for number in range(1, LONG + 1)]))
        reader.sendall(spelled("XRANGE", "long", "-", "+") * TIMES)
        found = len(crowd.received(reader))
        other.socket.sendall(PING)
        answers = threading.Thread(target=other.reply)
        answers.start()
        while answers.is_alive() and found < one * TIMES:
            found += len(crowd.received(reader))
        tally.holds(f"a PING is answered after {found / one:.1f} of {TIMES} long replies", found < one * TIMES / 2)
        while found < one * TIMES and (piece := crowd.received(reader)):
            found += len(piece)
        answers.join()
        tally.compare("bytes of long replies", one * TIMES, found)


def cut_at(key):
    """Requests of many kinds at a key, and their replies."""
    words = [["PING"], ["XADD", key, "1-1", "field", "\r\n$3\r\n"], ["XGROUP", "CREATE", key, "g", "0"], ["PING", ""],
             ["XREADGROUP", "GROUP", "g", "c", "COUNT", "1", "STREAMS", key, ">"], ["XACK", key, "g", "1-1"], ["XLEN", key]]
    read = array([array([bulk(key.encode()), array([array([bulk(b"1-1"), spelled("field", "\r\n$3\r\n")])])])])
    return spelled_all(words) + b"*0\r\n" + PING, b"+PONG\r\n$3\r\n1-1\r\n+OK\r\n$0\r\n\r\n" + read + b":1\r\n:1\r\n+PONG\r\n"


def cut(tally, server):
    """Requests that are cut in two, at every place, on as many connections at once; and byte by byte."""
    cases = [cut_at(f"k{place:04}") for place in range(len(cut_at("k0000")[0]) + 1)]
    with server.connect() as other, Crowd(server, len(cases)) as clients, crowd.opened(server.port, servers.SECONDS) as slow:
        for place, (each, (text, _)) in enumerate(zip(clients, cases)):
            each.sendall(text[:place])
        crowd.pinged(other.socket)
        for place, (each, (text, _)) in enumerate(zip(clients, cases)):
            each.sendall(text[place:])
        found = crowd.gathered(clients.sockets, [len(wanted) for _, wanted in cases])
        wrong = [place for place, (_, wanted) in enumerate(cases) if found[place] != wanted]
        tally.compare(f"places of {len(cases)} at which a cut shows", [], wrong)
        text, wanted = cut_at("slow")
        for byte in text:
            slow.sendall(bytes([byte]))
            crowd.pinged(other.socket)
        slow.shutdown(socket.SHUT_WR)
        tally.compare("requests that come byte by byte", wanted, crowd.rest(slow))


def unread(tally, server):
    """A client sends without end and reads nothing: the server takes no more of it than unanswered requests may hold and the system's buffers.
    It is closed then, or gets all once it reads."""
    request, reply = spelled("PING", WORD), bulk(WORD)
    with server.connect() as other, crowd.opened(server.port, 1) as client:
        before, count, closed = server.memory(), 0, False
        try:
            while count < SENT:
                count += client.send(request[count % len(request):])
        except TimeoutError:
            pass
        except ConnectionError:
            closed = True
        grown = server.memory() - before
        tally.holds(f"{count >> 20} MiB were taken of a client that does not read, of {SENT >> 20}", count < BUFFERED)
        tally.holds(f"the server grew by {grown >> 20} MiB for it", grown < BUFFERED)
        crowd.pinged(other.socket)
        if not closed:
            goes_on(tally, client, count, request, reply)


def goes_on(tally, client, count, request, reply):
    """A client that has sent so many bytes sends the rest of its request, and reads."""
    client.settimeout(servers.SECONDS)
    sender = threading.Thread(target=client.sendall, args=(request[count % len(request):],), daemon=True)
    sender.start()
    number = count // len(request) + 1
    [found] = crowd.gathered([client], number * len(reply))
    tally.holds(f"{number} replies are read in the end", found == reply * number)
    sender.join()
