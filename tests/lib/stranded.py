"""Many groups of which each has entries that are pending for one consumer, `dead`.

    stranded = Stranded(connection, 4_096, 16)
    connection.call("RECOVER.RUN", stranded.more(), "g", "DEAD", "dead")
"""

from . import heavy
from .resp import Fault, array, bulk, spelled


class Stranded:
    """Streams of which each has entries that are pending for one consumer. The text for one of them is that for each, but for its key."""

    def __init__(self, connection, entries, classes):
        self.connection, self.count = connection, 0
        kinds = [b"k%d" % number for number in range(classes)]
        ids = [b"%d-1" % number for number in range(1, entries + 1)]
        fields = [spelled("c", kinds[number % classes]) for number in range(entries)]
        read = array([array([bulk(b"s000"), array([array([name, each]) for name, each in zip(map(bulk, ids), fields)])])])
        adds = [spelled("XADD", "s000", name, "c", kinds[number % classes]) for number, name in enumerate(ids)]
        made = spelled("XGROUP", "CREATE", "s000", "g", "0", "MKSTREAM")
        self.text = made + b"".join(adds) + spelled("XREADGROUP", "GROUP", "g", "dead", "COUNT", entries, "STREAMS", "s000", ">")
        self.length = len(b"+OK\r\n") + sum(map(len, map(bulk, ids))) + len(read)

    def more(self):
        """Makes one more, and answers its key."""
        key = b"s%03d" % self.count
        found = heavy.exchange(self.connection.socket, self.text.replace(b"s000", key), self.length)
        if found != self.length:
            raise Fault(f"{found} bytes came of {self.length} while entries were made")
        self.count += 1
        return key
