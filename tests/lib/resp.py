"""RESP2 as a client has it: requests are spelled, and replies are spelled and read."""

import io


class Fault(Exception):
    """Bytes that are not a reply."""


class Ended(ConnectionError):
    """The server ended the connection, and the file has no whole reply any more."""


class ErrorReply(Exception):
    """A reply that is an error."""


class Simple(bytes):
    """A simple string. It equals the bulk string of the same bytes."""


def bulk(word):
    """The bulk string of these bytes."""
    return b"$%d\r\n%s\r\n" % (len(word), word)


def array(items):
    """The array of these replies, each of which is spelled already."""
    return b"*%d\r\n" % len(items) + b"".join(items)


def encoded(value):
    """A reply as Redis spells it."""
    if isinstance(value, list):
        return array([encoded(item) for item in value])
    if isinstance(value, ErrorReply):
        return b"-%s\r\n" % str(value).encode()
    return b":%d\r\n" % value if isinstance(value, int) else bulk(value)


def spelled(*words):
    """The request of these words, which is also the array of them as a reply. A word is bytes, a text or a number."""
    return array([bulk(word if isinstance(word, bytes) else str(word).encode()) for word in words])


def spelled_all(commands):
    """The requests of these commands, each a list of words."""
    return b"".join(spelled(*words) for words in commands)


def lines(*commands):
    """The requests of these commands, each a text in which one blank separates the words."""
    return spelled_all(command.split(" ") for command in commands)


class Replies:
    """The replies that a file holds."""

    def __init__(self, file):
        self.file = file

    def reply(self):
        """The next reply: bytes, a number, None, a list, or an ErrorReply."""
        line = self.file.readline()
        if not line.endswith(b"\r\n"):
            raise Ended("the server ended the connection")
        kind, rest = line[:1], line[1:-2]
        if kind == b"+":
            return Simple(rest)
        if kind == b"-":
            return ErrorReply(rest.decode(errors="replace"))
        if kind == b":":
            return int(rest)
        if kind == b"$":
            return self.bulk(int(rest))
        if kind == b"*":
            return None if rest == b"-1" else [self.reply() for _ in range(int(rest))]
        raise Fault(f"no reply begins with {line[:40]!r}")

    def bulk(self, length):
        if length < 0:
            return None
        text = self.file.read(length + 2)
        if len(text) < length + 2:
            raise Ended("the server ended the connection")
        if text[length:] != b"\r\n":
            raise Fault(f"a bulk string of {length} bytes ends with {text[length:]!r}")
        return text[:-2]


def value_of(text):
    """The one reply that these bytes are."""
    file = io.BytesIO(text)
    reply = Replies(file).reply()
    if file.read():
        raise Fault("there is more than one reply")
    return reply


class Kept:
    """A file, and the bytes that were read of it."""

    def __init__(self, file):
        self.file, self.text = file, b""

    def readline(self):
        return self.keep(self.file.readline())

    def read(self, count):
        return self.keep(self.file.read(count))

    def keep(self, piece):
        self.text += piece
        return piece


def text_of_reply(file):
    """The bytes of the next reply that a file holds."""
    kept = Kept(file)
    Replies(kept).reply()
    return kept.text
