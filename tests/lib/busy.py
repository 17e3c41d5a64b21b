"""Keeps a loop busy for some milliseconds, so that it learns at once of all that happens meanwhile.

    with server.connect() as other:
        replied = busy.made(other)
        other.socket.sendall(busy.ASKED)
        time.sleep(busy.MOMENT)
        ..
        other.file.read(replied)
"""

from .resp import array, bulk, spelled, spelled_all

ENTRIES = 20_000  # of the range that it is asked for
MOMENT = 0.002  # seconds in which the server has begun with it
ASKED = spelled("XRANGE", "large", "-", "+")


def made(connection):
    """Makes the stream of that range. Answers how many bytes the reply has."""
    ids = [b"%d-1" % number for number in range(1, ENTRIES + 1)]
    connection.socket.sendall(spelled_all(["XADD", "large", entry, "a", "b"] for entry in ids))
    for _ in ids:
        connection.reply()
    return len(array([array([bulk(entry), spelled("a", "b")]) for entry in ids]))
