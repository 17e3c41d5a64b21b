"""A plain model of a hub: it carries out the lines of hub_driver with a book_driver, one event after another.

The requests in a connection's bytes are found by requests.py. Each is handed to the book as one event, in the order in which the hub has
to carry them out: a connection's own one after the other, and while one waits for its letter or for a verdict none behind it is begun.
What the book answers is what the connection has to be told.
"""

import re

from .driver import Driver, spelled
from .requests import Requests

PROTOCOL, MEMORY = b"-ERR Protocol error\r\n", b"-OOM out of memory\r\n"
REFUSALS = {
    "Unknown": b"-ERR unknown command\r\n", "Arity": b"-ERR wrong number of arguments\r\n", "Syntax": b"-ERR syntax error\r\n",
    "Number": b"-ERR value is not an integer or out of range\r\n",
    "BadId": b"-ERR Invalid stream ID specified as stream command argument\r\n",
}
REPLIED = re.compile(r"ok \d+ [01] reply (.*)")
ROUNDS = 3  # of a recovery that does not say how many


class Book(Driver):
    """A book_driver, which can be asked many lines at once."""

    def ask_all(self, lines):
        if not lines:
            return []
        self.run.stdin.write("".join(line + "\n" for line in lines))
        self.run.stdin.flush()
        return [self.run.stdout.readline().rstrip("\n") for _ in lines]


class Connection:
    """The session, by its ordinal in book_driver, the bytes and requests that wait, what is to be sent, and what it is doing."""

    def __init__(self, session):
        self.session, self.rest, self.requests, self.failed = session, b"", [], False
        self.unsent, self.stage, self.is_applied, self.later = b"", "idle", False, 0

    def feed(self, piece):
        if not self.failed:
            read = Requests(self.rest + piece)
            self.requests += read.requests
            self.rest, self.failed = read.text[read.whole:], read.fault


class Model:
    """A hub over a book. `play` carries out a line of hub_driver, and returns the line that answers it."""

    full = 64 * 1024  # while this many bytes are to be sent, no further request of a connection is begun

    def __init__(self, book):
        self.book_driver = book
        self.policy("-")

    def play(self, line):
        form, *words = line.split(" ")
        return getattr(self, form)(*words)

    # ---- the book

    def ask(self, line):
        return self.book_driver.ask(line)

    def event(self, line):
        """The answer to an event. It is made at once, and so are the servings after it."""
        return self.ask(line)

    def waiting(self):
        """The connections that wait, in the order in which they began to."""
        return sorted((it for it in self.connections.values() if it.stage == "waiting"), key=lambda it: it.since)

    def with_letters(self):
        """Of these the ones that were given their letter."""
        found = self.waiting()
        answers = self.book_driver.ask_all([f"status {it.session}" for it in found])
        return [it for it, answer in zip(found, answers) if answer == "status Letter"]

    def lacks(self, what):
        """Whether memory is refused for this. Never, here (refused.py)."""
        return False

    # ---- lines of no connection

    def policy(self, word):
        self.connections, self.free, self.sessions, self.begun = {}, [], 0, 0
        return self.ask(f"policy {word}")

    def connect(self, moment):
        if self.lacks("connect"):
            return "fault Memory"
        self.event(f"join {moment}")
        self.sessions += 1
        # (the token that became free last is given first)
        token = self.free.pop() if self.free else len(self.connections)
        self.connections[token] = Connection(self.sessions)
        return f"ok {token}"

    def tick(self, moment):
        if self.ask(f"due {moment}") == "due 0":
            return "ok 0"
        if self.lacks("tick"):
            return "fault Memory"
        self.event(f"expire {moment}")
        return "ok 1"

    def compact(self, keep):
        if self.kept() <= int(keep):
            return "ok 0"
        self.ask("checkpoint")
        return "ok 1"

    def kept(self):
        records = self.ask("records")
        return 0 if records == "records -" else records.count(";") + 1

    def book(self):
        kept = self.kept()
        return f"book {int(self.ask('base').split()[1]) + kept} {kept}"

    def letters(self):
        given = self.with_letters()
        return " ".join(["letters", *(f"{token}" for token in sorted(self.connections) if self.connections[token] in given)])

    def look(self):
        given, parts = self.with_letters(), ["look"]
        for token in sorted(self.connections):
            connection = self.connections[token]
            mark = "V" if connection.stage == "judges" else "L" if connection in given else ""
            parts.append(f"{token}{mark}={connection.unsent.hex()}")
        return " ".join(parts)

    # ---- lines of a connection

    def take(self, token, moment, piece):
        connection = self.connections.get(int(token))
        if not connection:
            return "fault Gone"
        if connection.stage in ("broken", "cut"):
            return "fault Ended"
        if self.lacks("piece"):
            connection.stage = "cut"
            return "fault Memory"
        connection.feed(b"" if piece == "-" else bytes.fromhex(piece))
        self.answer_waiting(connection, moment)
        return "ok"

    def go(self, token, moment):
        connection = self.connections.get(int(token))
        if not connection:
            return "gone"
        if connection.stage == "asks":
            self.begin(connection, moment)
        self.answer_waiting(connection, moment)
        return "ok"

    def unsent(self, token):
        connection = self.connections.get(int(token))
        return f"unsent {connection.unsent.hex() or '-'}" if connection else "gone"

    def sent(self, token, count):
        connection = self.connections.get(int(token))
        if not connection:
            return "gone"
        sent, connection.unsent = connection.unsent[:int(count)], connection.unsent[int(count):]
        return f"sent {sent.hex() or '-'}"

    def close(self, token, moment):
        connection = self.connections.get(int(token))
        if connection:
            if self.lacks("close"):
                return "fault Memory"
            self.leave(connection, moment)
            del self.connections[int(token)]
            self.free.append(int(token))
        return "ok"

    def leave(self, connection, moment):
        self.event(f"leave {moment} {connection.session}")

    def judge(self, token, moment):
        connection = self.connections.get(int(token))
        if not connection or connection.stage != "judges":
            return "none"
        if self.lacks("verdict"):
            self.lack(token, moment)
            return "ok"
        if self.lacks("event"):
            self.tell(connection, MEMORY)
        else:
            self.conclude(connection, moment)
        self.answer_waiting(connection, moment)
        return "ok"

    def lack(self, token, moment):
        connection = self.connections.get(int(token))
        if not connection or connection.stage != "judges":
            return "none"
        self.tell(connection, MEMORY)
        self.answer_waiting(connection, moment)
        return "lacking"

    # ---- requests

    def answer_waiting(self, connection, moment):
        """Answers what waits, until there is nothing to go on with."""
        while True:
            if connection.stage == "waiting" and connection in self.with_letters():
                self.take_letter(connection)
            elif connection.stage == "idle" and len(connection.unsent) < self.full and connection.requests:
                self.answer(connection, moment, connection.requests.pop(0))
            else:
                break
        if connection.stage == "idle" and len(connection.unsent) < self.full and connection.failed:
            self.tell(connection, PROTOCOL, "broken")

    def take_letter(self, connection):
        letter = self.ask(f"collect {connection.session}").split(" ")[2]
        self.tell(connection, bytes.fromhex(letter))

    def tell(self, connection, text, stage="idle"):
        if self.lacks("text"):
            connection.stage = "cut"
        else:
            connection.unsent += text
            connection.stage = stage

    def answer(self, connection, moment, words):
        """Answers one request."""
        if self.lacks("event"):
            return self.tell(connection, MEMORY)
        answer = self.event(f"call {moment} {connection.session} {spelled(words)}")
        if answer != "bad":
            self.comes(connection, words, answer)
        elif is_board(words):
            self.comes(connection, words, self.event(asked(connection, moment, words)))
        else:
            connection.stage, connection.asked = "asks", words

    def begin(self, connection, moment):
        """Begins the recovery that a connection asks for."""
        if self.lacks("event"):
            return self.tell(connection, MEMORY)
        self.comes(connection, connection.asked, self.event(asked(connection, moment, connection.asked)))

    def comes(self, connection, words, answer):
        """What the book answers to a request."""
        if replied := REPLIED.fullmatch(answer):
            self.tell(connection, bytes.fromhex(replied[1]))
        elif answer.startswith("refused "):
            self.tell(connection, REFUSALS[answer.split(" ")[1]])
        elif answer.endswith(" blocked"):
            self.begun += 1
            connection.stage, connection.since = "waiting", self.begun
        elif answer.endswith(" snap"):
            connection.stage = "judges"
        else:
            raise ValueError(f"{words} was answered by {answer}")

    def conclude(self, connection, moment):
        """Concludes a round of a recovery."""
        answer = self.event(f"conclude {moment} {connection.session} {int(connection.is_applied)} {int(connection.later == 0)}")
        if replied := REPLIED.fullmatch(answer):
            self.tell(connection, bytes.fromhex(replied[1]))
        elif answer.endswith(" stale"):
            connection.later -= 1
        else:
            raise ValueError(f"a verdict was answered by {answer}")


def is_board(words):
    return len(words) == 3


def asked(connection, moment, words):
    """The line for the event that a request of RECOVER.BOARD, RECOVER.PLAN or RECOVER.RUN is. What the recovery is, the connection keeps."""
    name, key, group, *rest = words
    place = f"{moment} {connection.session} {spelled([key, group])}"
    if is_board(words):
        return f"board {place}"
    rounds, dead = (int(rest[1]), rest[3:]) if rest[0].upper() == b"TRIES" else (ROUNDS, rest[1:])
    connection.is_applied, connection.later = name.upper() == b"RECOVER.RUN", rounds - 1
    return f"snapshot {place} {spelled(dead)}"


# ---- hubs that are wrong, each in one way


class Swaps(Model):
    """Tells the last two replies of a piece in the other order."""

    def answer_waiting(self, connection, moment):
        self.told = []
        super().answer_waiting(connection, moment)
        last = self.told[-2:]
        if len(last) == 2 and connection.unsent.endswith(b"".join(last)):
            connection.unsent = connection.unsent[:-len(b"".join(last))] + last[1] + last[0]

    def tell(self, connection, text, stage="idle"):
        if hasattr(self, "told"):
            self.told.append(text)
        super().tell(connection, text, stage)


class Strays(Model):
    """Hands each tenth reply to another connection."""

    told = 0

    def tell(self, connection, text, stage="idle"):
        self.told += 1
        others = [it for it in self.connections.values() if it is not connection]
        if self.told % 10 == 0 and others:
            others[0].unsent += text
            text = b""
        super().tell(connection, text, stage)


class Drops(Model):
    """Drops a request behind a call that begins to wait."""

    def answer(self, connection, moment, words):
        super().answer(connection, moment, words)
        if connection.stage == "waiting":
            del connection.requests[:1]


class Loses(Model):
    """Passes over a letter."""

    def take_letter(self, connection):
        connection.stage = "idle"


class Dawdles(Model):
    """Takes a letter, and answers the requests behind it only when it goes on again."""

    def answer_waiting(self, connection, moment):
        if connection.stage == "waiting" and connection in self.with_letters():
            self.take_letter(connection)
        else:
            super().answer_waiting(connection, moment)


class Lingers(Model):
    """Lets a session stay whose connection is over: its read waits on."""

    def leave(self, connection, moment):
        pass


class Sleeps(Model):
    """Answers no read whose deadline is reached."""

    def tick(self, moment):
        return self.ask(f"due {moment}").replace("due", "ok")


class Repeats(Model):
    """Sends again what was sent last, if only a part of what there was could be sent."""

    def sent(self, token, count):
        answer = super().sent(token, count)
        connection = self.connections.get(int(token))
        if connection and connection.unsent:
            connection.unsent = bytes.fromhex(answer.split(" ")[1].replace("-", ""))[-1:] + connection.unsent
        return answer


class Overflows(Model):
    """Begins requests however much is to be sent."""

    full = 1 << 62


class Forgets(Model):
    """Takes a connection whose bytes were no requests for one that can go on."""

    def tell(self, connection, text, stage="idle"):
        if stage == "broken":
            connection.rest, connection.failed = b"", False
        super().tell(connection, text)


class Rushes(Model):
    """Begins a recovery as soon as it is asked for."""

    def answer(self, connection, moment, words):
        super().answer(connection, moment, words)
        if connection.stage == "asks":
            self.begin(connection, moment)


class Hastens(Model):
    """Concludes each round of a recovery as its last one."""

    def conclude(self, connection, moment):
        connection.later = 0
        super().conclude(connection, moment)


WRONG = {it.__name__.lower(): it for it in (Swaps, Strays, Drops, Loses, Dawdles, Lingers, Sleeps, Repeats, Overflows, Forgets, Rushes, Hastens)}
