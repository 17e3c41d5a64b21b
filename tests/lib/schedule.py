"""Schedules and their answers, in the form for people and in that of hub_driver. scripts/schedules tells the form for people."""

import re

from .history import quoted, reply_at, reply_in, reply_of, unquoted, words_of
from .resp import spelled


def replies_of(text):
    """The bytes that stand in a text as replies, and as `<"..">` where they are no whole reply, with one blank between two of them."""
    found, place = b"", 0
    while place < len(text):
        if text.startswith('<"', place):
            end = text.index('">', place)
            piece, place = unquoted(text[place + 2:end]), end + 2
        else:
            piece, place = reply_at(text, place)
        found, place = found + piece, place + 1
    return found


def shown(digits):
    """The form for people of some replies in hexadecimal digits."""
    text, place, parts = bytes.fromhex(digits), 0, []
    while place < len(text):
        try:
            part, end = reply_in(text, place)
            is_reply = end <= len(text) and reply_of(part) == text[place:end]
        except (ValueError, KeyError):
            is_reply = False
        if not is_reply:
            parts.append(f"<{quoted(text[place:])}>")
            break
        parts.append(part)
        place = end
    return " ".join(parts)


def encode(line):
    """A line of a schedule in the form of the program."""
    form, _, rest = line.partition(" ")
    if form in ("take", "bytes"):
        token, moment, text = rest.split(" ", 2)
        piece = unquoted(text[1:-1]) if form == "bytes" else b"".join(spelled(*words_of(part)) for part in text.split(" | "))
        return f"take {token} {moment} {piece.hex() or '-'}"
    if form == "policy" and rest != "-":
        return f"policy {words_of(rest)[0].hex()}"
    return line


def encode_answer(line):
    """An answer, or the line for a connection that a `look` has, in the form of the program."""
    if line.startswith(" "):
        connection, _, replies = line.strip().partition(" ")
        return f" {connection}={replies_of(replies).hex()}"
    form, _, rest = line.partition(" ")
    return f"{form} {replies_of(rest).hex()}" if form in ("sent", "unsent") and rest != "-" else line


def encode_all(lines, encode_one):
    """Lines in the form of the program, those of one `look` in one."""
    found = []
    for line in lines:
        if not line.strip() or line.startswith("#"):
            continue
        if line.startswith(" "):
            found[-1] += encode_one(line)
        else:
            found.append(encode_one(line))
    return found


def read_schedule(path):
    """The lines of a schedule in the form of the program."""
    with open(path, encoding="utf-8") as file:
        return encode_all(file.read().splitlines(), encode)


def read_answers(path):
    """The answers beside a schedule in the form of the program."""
    with open(path.removesuffix(".schedule") + ".answers", encoding="utf-8") as file:
        return encode_all(file.read().splitlines(), encode_answer)


def decode(line):
    """A line or an answer in the form for people: of `look` a line for each connection, and of `take` the bytes."""
    form, _, rest = line.partition(" ")
    if form == "take":
        token, moment, digits = rest.split(" ")
        return f"bytes {token} {moment} {quoted(bytes.fromhex(digits.replace('-', '')))}"
    if form == "policy" and rest != "-":
        return f"policy {quoted(bytes.fromhex(rest))}"
    if form in ("sent", "unsent") and re.fullmatch("[0-9a-f]{2,}", rest):
        return f"{form} {shown(rest)}"
    if form == "look":
        parts = re.findall(r"(\d+[LV]?)=([0-9a-f]*)", rest)
        return "\n  ".join(["look", *(f"{connection} {shown(digits)}".rstrip() for connection, digits in parts)])
    return line
