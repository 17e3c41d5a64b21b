"""Histories and their answers, in the form for people and in that of book_driver. scripts/history tells the form for people."""

import re

from .resp import array, bulk

WORD = re.compile(r' *(?:"((?:[^"\\]|\\.)*)"|([^" ]+))(?= |$)')
BARE = re.compile(rb'[!$-\[\]-~]+')
STRING = re.compile(r'"((?:[^"\\]|\\.)*)"')
WORDED = ("call ", "board ", "snapshot ")
NULLS = {"(nil)": b"$-1\r\n", "(nil array)": b"*-1\r\n"}
HEADS = re.compile(r"(ok \d+ [01] reply|letter \d+) (.+)")
RECORD = re.compile(r"(\d+ \d+ (?:E|V\d+))((?: .+)?)")


def unquoted(text):
    """The bytes that a text in double quotes stands for."""
    return re.sub(rb"\\(x[0-9a-f]{2}|.)", lambda it: bytes.fromhex(it[1][1:].decode()) if it[1][1:] else it[1], text.encode())


def quoted(word):
    """A byte string in double quotes."""
    named = {ord('"'): '\\"', ord("\\"): "\\\\"}
    return '"' + "".join(named.get(byte, chr(byte) if 32 <= byte < 127 else f"\\x{byte:02x}") for byte in word) + '"'


def words_of(text):
    """The words of a call in the form for people."""
    words, place = [], 0
    while text[place:].strip(" "):
        match = WORD.match(text, place)
        if not match:
            raise ValueError(f"not words: {text}")
        words.append(match[2].encode() if match[1] is None else unquoted(match[1]))
        place = match.end()
    return words


def reply_at(text, place):
    """The bytes of the reply that stands in a text from a place on, and where it ends."""
    for name, spelled in NULLS.items():
        if text.startswith(name, place):
            return spelled, place + len(name)
    if text.startswith("[", place):
        return array_at(text, place + 1)
    if match := re.compile(r'\(error "([^"\r\n]*)"\)').match(text, place):
        return f"-{match[1]}\r\n".encode(), match.end()
    if match := STRING.match(text, place):
        word = unquoted(match[1])
        return bulk(word), match.end()
    if match := re.compile(r"-?\d+").match(text, place):
        return f":{match[0]}\r\n".encode(), match.end()
    if match := re.compile(r"[A-Z]+").match(text, place):
        return f"+{match[0]}\r\n".encode(), match.end()
    raise ValueError(f"not a reply: {text[place:]}")


def array_at(text, place):
    """The bytes of the array whose items stand in a text from a place on, and where it ends."""
    items = []
    while not text.startswith("]", place):
        item, place = reply_at(text, place + 2 if text.startswith(", ", place) else place)
        items.append(item)
    return array(items), place + 1


def reply_of(text):
    """The bytes of the reply that a text is."""
    spelled, end = reply_at(text, 0)
    if end != len(text):
        raise ValueError(f"more than a reply: {text}")
    return spelled


def reply_in(spelled, place):
    """The form for people of the reply that stands in some bytes from a place on, and where it ends."""
    end = spelled.index(b"\r\n", place)
    kind, line, end = spelled[place:place + 1], spelled[place + 1:end].decode(), end + 2
    if line == "-1" and kind in b"$*":
        return "(nil)" if kind == b"$" else "(nil array)", end
    if kind == b"*":
        items = []
        for _ in range(int(line)):
            item, end = reply_in(spelled, end)
            items.append(item)
        return "[" + ", ".join(items) + "]", end
    if kind == b"$":
        return quoted(spelled[end:end + int(line)]), end + int(line) + 2
    return {b"+": line, b":": line, b"-": f'(error "{line}")'}[kind], end


def shown(digits):
    """The form for people of a reply in hexadecimal digits; the digits themselves if they are not a reply."""
    try:
        text = reply_in(bytes.fromhex(digits), 0)[0]
        return text if reply_of(text).hex() == digits else digits
    except (ValueError, KeyError):
        return digits


def encoded_record(text):
    """A record in the form of the program."""
    head, rest = RECORD.fullmatch(text).groups()
    place = 0
    while place < len(rest):
        session = re.compile(r" (\d+)=").match(rest, place)
        reply, place = reply_at(rest, session.end())
        head += f" {session[1]}={reply.hex()}"
    return head


def decoded_record(text):
    """A record in the form for people."""
    return re.sub(r"=([0-9a-f]+)", lambda it: "=" + shown(it[1]), text)


def encode(line):
    """A line in the form of the program."""
    if line.startswith(WORDED):
        form, moment, session, *words = line.split(" ", 3)
        return " ".join([form, moment, session, *(word.hex() or "-" for word in words_of("".join(words)))])
    if line.startswith("policy ") and line != "policy -":
        [text] = words_of(line.removeprefix("policy "))
        return f"policy {text.hex()}"
    match = HEADS.fullmatch(line)
    return f"{match[1]} {reply_of(match[2]).hex()}" if match else line


def decode(line):
    """A line in the form for people; of `records` several."""
    if line.startswith(WORDED):
        form, moment, session, *words = line.split(" ")
        words = [b"" if word == "-" else bytes.fromhex(word) for word in words]
        return " ".join([form, moment, session, *(word.decode() if BARE.fullmatch(word) else quoted(word) for word in words)])
    if line.startswith("policy ") and line != "policy -":
        return f"policy {quoted(bytes.fromhex(line.removeprefix('policy ')))}"
    if line.startswith("records ") and line != "records -":
        return "\n  ".join(["records", *map(decoded_record, line.removeprefix("records ").split(";"))])
    match = HEADS.fullmatch(line)
    return f"{match[1]} {shown(match[2])}" if match else line


def encode_all(lines):
    """Lines in the form of the program, those of one `records` in one."""
    found = []
    for line in lines:
        if not line.strip() or line.startswith("#"):
            continue
        if line.startswith(" "):
            found[-1] += (" " if found[-1] == "records" else ";") + encoded_record(line.strip())
        else:
            found.append(encode(line))
    return found
