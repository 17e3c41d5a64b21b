"""Sessions as text: commands in words as redis-cli takes them, and replies as redis-cli prints them.

scripts/replay has the form of the files.
"""

import re

from .resp import ErrorReply, Simple

ESCAPES = {"n": b"\n", "r": b"\r", "t": b"\t", "a": b"\a", "b": b"\b"}
NAMED = {ord(code): f"\\{name}" for name, code in ESCAPES.items()} | {ord('"'): '\\"', ord("\\"): "\\\\"}
WORD = re.compile(r"""\s*(?: "((?:[^"\\]|\\.)*)" | '((?:[^'\\]|\\.)*)' | ([^\s"']+) )(?=\s|$)""", re.VERBOSE)
ESCAPE = re.compile(rb"\\(x[0-9a-fA-F]{2}|.)")
ANY = re.compile(r"(<\d+>|(?<= )_\d*(?=\n|$))")


class Row:
    """A command, the moment that it is at, and the replies that are right, of which there are none if any will do."""

    def __init__(self, number, moment, command):
        self.number, self.moment, self.command, self.replies = number, moment, command, []

    def add(self, line):
        """Takes in one more line of a reply."""
        if line == "or":
            self.replies.append([])
        else:
            self.replies = self.replies or [[]]
            self.replies[-1].append(line)

    def wanted(self):
        return ["\n".join(lines) for lines in self.replies]


class Session:
    """The rows of one session, and the policy of its server. One that is served has a server, and the others a book."""

    def __init__(self, served):
        self.served, self.policy, self.rows = served, "", []


def lines_of(path):
    """The lines of a file that count, with their numbers. Of a Markdown file these are the ones of blocks fenced by ```session."""
    is_page = path.endswith(".md")
    counts = not is_page
    with open(path, encoding="utf-8") as lines:
        for number, line in enumerate(map(str.rstrip, lines), 1):
            if is_page and line.startswith("```"):
                counts = line == "```session"
            elif counts and line and not line.startswith("#"):
                yield number, line


def sessions_of(path):
    """The sessions of a file. A file without a line that begins one is one session of a server, and has a reply for each command."""
    found, moment = [], 5
    lines = list(lines_of(path))
    is_whole = not any(line in ("new", "new served") for _, line in lines)
    if is_whole:
        found.append(Session(served=True))
    for number, line in lines:
        if line in ("new", "new served"):
            found.append(Session(served=line == "new served"))
            moment = 5
        elif not found:
            raise ValueError(f"line {number} is in no session")
        elif line.startswith("| "):
            found[-1].policy += line[2:] + "\n"
        elif line.startswith("@ ") and not found[-1].served:
            moment = int(line[2:])
        elif line.startswith("> "):
            found[-1].rows.append(Row(number, moment, line[2:]))
        elif found[-1].rows:
            found[-1].rows[-1].add(line)
        else:
            raise ValueError(f"line {number} is a reply to no command")
    for session in found:
        if not session.rows:
            raise ValueError("a session has no commands")
        for row in session.rows if is_whole else []:
            if not row.replies:
                raise ValueError(f"line {row.number} is a command with no reply")
    return found


def unescaped(text):
    """The bytes of a word in double quotes."""
    def one(match):
        code = match[1].decode()
        return bytes([int(code[1:], 16)]) if len(code) == 3 else ESCAPES.get(code, code.encode())
    return ESCAPE.sub(one, text.encode())


def words_of(line):
    """The words of a command as redis-cli reads them: bare, or in single or double quotes."""
    words, place = [], 0
    while line[place:].strip():
        match = WORD.match(line, place)
        if not match:
            raise ValueError(f"unbalanced quotes: {line}")
        double, single, bare = match.groups()
        if double is not None:
            words.append(unescaped(double))
        else:
            words.append((bare if single is None else single.replace("\\'", "'")).encode())
        place = match.end()
    return words


def quoted(text):
    """A bulk string as redis-cli prints it."""
    return '"' + "".join(NAMED.get(byte, chr(byte) if 32 <= byte < 127 else f"\\x{byte:02x}") for byte in text) + '"'


def printed(reply, indent=""):
    """A reply as redis-cli prints it."""
    if isinstance(reply, list):
        width = len(str(len(reply)))
        inner = indent + " " * (width + 2)
        rows = (f"{place:{width}}) {printed(item, inner)}" for place, item in enumerate(reply, 1))
        return f"\n{indent}".join(rows) or "(empty array)"
    if reply is None:
        return "(nil)"
    if isinstance(reply, ErrorReply):
        return f"(error) {reply}"
    if isinstance(reply, int):
        return f"(integer) {reply}"
    return reply.decode() if isinstance(reply, Simple) else quoted(reply)


class Judge:
    """Compares the replies of a session with its rows, and keeps the ids that the clock has given."""

    def __init__(self):
        self.ids = {}

    def is_met(self, row, reply):
        """Whether a reply, as redis-cli prints it, is one of those that are right."""
        return not row.replies or any(self.is_like(wanted, reply) for wanted in row.wanted())

    def is_like(self, wanted, reply):
        """Whether a reply is this one; notes the ids that are new."""
        pieces = ANY.split(wanted)
        form = "".join(re.escape(piece) if place % 2 == 0 else r"(\d+)" if piece[0] == "_" else r"(\d+-\d+)" for place, piece in enumerate(pieces))
        match = re.fullmatch(form, reply)
        return bool(match) and all(self.fits(name, text) for name, text in zip(pieces[1::2], match.groups()))

    def fits(self, name, text):
        """Whether a number is at most the one that is named, or an id the one of this name, above all of lesser names and below the others."""
        if name[0] == "_":
            return name == "_" or int(text) <= int(name[1:])
        ordinal, entry = int(name[1:-1]), tuple(map(int, text.split("-")))
        self.ids.setdefault(ordinal, entry)
        rising = [self.ids[name] for name in sorted(self.ids)]
        return self.ids[ordinal] == entry and all(low < high for low, high in zip(rising, rising[1:]))
