"""A plain reader of requests: RESP2 arrays of bulk strings, within the limits of docs/COMMANDS.md."""

# The limits of a request: words, bytes of a word, bytes of all words, digits of a header.
WORDS, WORD, TOTAL, DIGITS = 4096, 1_048_576, 16_777_216, 10


class Broken(Exception):
    """No continuation of the bytes is a request."""


class Short(Exception):
    """The bytes end within a request."""


class Requests:
    """The requests that some bytes hold. `fault` tells whether a byte follows after which no further request can come, and `whole` how many
    bytes the requests take."""

    def __init__(self, text):
        self.text, self.place, self.whole, self.requests, self.fault = text, 0, 0, [], False
        try:
            while self.place < len(text):
                if request := self.request():
                    self.requests.append(request)
                self.whole = self.place
        except Broken:
            self.fault = True
        except Short:
            pass

    def byte(self):
        if self.place == len(self.text):
            raise Short
        self.place += 1
        return self.text[self.place - 1:self.place]

    def expect(self, *wanted):
        for one in wanted:
            if self.byte() != one:
                raise Broken

    def number(self, most):
        """The number of a header, to its line end: at most this."""
        value, count = 0, 0
        while (digit := self.byte()) in (b"0", b"1", b"2", b"3", b"4", b"5", b"6", b"7", b"8", b"9"):
            value, count = 10 * value + int(digit), count + 1
            if value > most or count > DIGITS:
                raise Broken
        if digit != b"\r" or not count:
            raise Broken
        self.expect(b"\n")
        return value

    def request(self):
        """The words of the next request, or none for an empty command."""
        self.expect(b"*")
        if self.text[self.place:self.place + 1] == b"-":
            self.expect(b"-", b"1", b"\r", b"\n")
            return []
        words, left = [], TOTAL
        for _ in range(self.number(WORDS)):
            self.expect(b"$")
            length = self.number(min(WORD, left))
            left -= length
            if len(self.text) - self.place < length:
                raise Short
            words.append(self.text[self.place:self.place + length])
            self.place += length
            self.expect(b"\r", b"\n")
        return words
