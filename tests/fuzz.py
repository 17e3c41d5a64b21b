#!/usr/bin/env python3
"""Sends sr_server random bytes and requests with random changes, and judges what it replies by a small reader of its own.

usage: tests/fuzz.py PROGRAM [SEED [NUMBER]]

Each input goes to an `sr_server --stdio` of its own. That has to end with status 0 and no line on standard error or, if the reader below
finds a fault, with status 1 and the line for it. What it writes has to be whole replies: one for each request before the fault, and then
the protocol error exactly if there is a fault. A name that is no command, and a number of words that a command does not have, are answered
by their errors. NUMBER is how many random inputs there are, after some that are
as long as they may be. The same seed gives the same inputs, so an input that is told can be sent again.
Prints what differs; the status is 1 if anything does.
"""

import itertools
import os
import random
import re
import subprocess
import sys
from concurrent.futures import ThreadPoolExecutor

from lib.requests import WORD, WORDS, Requests
from lib.resp import array, bulk, spelled

SECONDS = 60  # that one input may take
NUMBER = 1_000
SEED = 1

PROTOCOL, LINE = b"-ERR Protocol error\r\n", b"session: protocol error\n"
UNKNOWN, ARITY = b"-ERR unknown command\r\n", b"-ERR wrong number of arguments\r\n"

# The least and the greatest number of words of each command, with its name. Of XGROUP and XINFO the second word belongs to the name.
ANY = WORDS
ARITIES = {
    "PING": (1, 2), "XADD": (5, ANY), "XTRIM": (4, 7), "XDEL": (3, ANY), "XLEN": (2, 2), "XRANGE": (4, 6), "XREVRANGE": (4, 6), "XREAD": (4, ANY),
    "XREADGROUP": (7, ANY), "XACK": (4, ANY), "XPENDING": (3, 9), "XCLAIM": (6, ANY), "XAUTOCLAIM": (6, 9), "XGROUP CREATE": (5, 6),
    "XGROUP SETID": (5, 5), "XGROUP DESTROY": (4, 4), "XGROUP CREATECONSUMER": (5, 5), "XGROUP DELCONSUMER": (5, 5), "XINFO STREAM": (3, 3),
    "XINFO GROUPS": (3, 3), "XINFO CONSUMERS": (4, 4), "RECOVER.PLAN": (5, ANY), "RECOVER.RUN": (5, ANY), "RECOVER.BOARD": (3, 3),
}


HEAD = re.compile(rb"[+][^\r\n]*\r\n|-[^\r\n]+\r\n|:-?(?:0|[1-9][0-9]*)\r\n|[$*](?:-1|0|[1-9][0-9]*)\r\n")


def end_of_reply(text, place):
    """Where the reply ends that begins at a place, or None if there is no whole one."""
    head = HEAD.match(text, place)
    if not head:
        return None
    place, count = head.end(), int(head[0][1:]) if head[0][:1] in b"$*" else -1
    if head[0][:1] == b"$" and count >= 0:
        return place + count + 2 if text[place + count:place + count + 2] == b"\r\n" else None
    for _ in range(max(count, 0)):
        place = end_of_reply(text, place)
        if place is None:
            return None
    return place


def replies_in(text):
    """The replies that some bytes are, each as its bytes, or None if they are not whole replies."""
    found, place = [], 0
    while place < len(text):
        end = end_of_reply(text, place)
        if end is None:
            return None
        found.append(text[place:end])
        place = end
    return found


def refusal(words):
    """The error that a request is answered by for its name or its number of words, or None."""
    name = words[0].decode("latin-1").upper()
    if name in ("XGROUP", "XINFO"):
        if len(words) == 1:
            return ARITY
        name += " " + words[1].decode("latin-1").upper()
    if name not in ARITIES:
        return UNKNOWN
    least, most = ARITIES[name]
    return None if least <= len(words) <= most else ARITY


def fault_of(sent, status, output, errors):
    """What is wrong with what came of an input, or None."""
    read = Requests(sent)
    if (status, errors) != ((1, LINE) if read.fault else (0, b"")):
        return f"status {status}, and {errors[:200]!r} on standard error; {'a' if read.fault else 'no'} fault was sent"
    replies = replies_in(output)
    if replies is None:
        return f"no whole replies: {output[-200:]!r}"
    if read.fault and (not replies or replies.pop() != PROTOCOL):
        return f"no protocol error at the end: {output[-200:]!r}"
    if len(replies) != len(read.requests):
        return f"{len(read.requests)} requests and {len(replies)} replies"
    for words, reply in zip(read.requests, replies):
        wanted = refusal(words)
        if reply == PROTOCOL or (reply in (UNKNOWN, ARITY) or wanted) and reply != wanted:
            return f"{words[:8]} was answered by {reply[:100]!r}"
    return None


class Inputs:
    """Random inputs, each by a seed of its own."""

    HEADERS = [
        b"*0\r\n", b"*-1\r\n", b"*1\r\n", b"*00000000002\r\n", b"*0000000001\r\n", b"*4096\r\n", b"*4097\r\n", b"*-2\r\n", b"*",
        b"$0\r\n\r\n", b"$-1\r\n", b"$1048576\r\n", b"$1048577\r\n", b"$", b"\r\n", b"\n", b"\r", b"-", b"PING\r\n", b"+OK\r\n", b":1\r\n",
        b"\0",
    ]
    NAMES = ["s", "t", "g", "h", "A", "B", "", "\xff"]
    VALUES = [
        "0", "1", "5", "-1", "5-1", "5-*", "*", "$", ">", "-", "+", "(5", "x", "", f"{2**63 - 1}", f"{2**63}", f"{2**64 - 1}-{2**64 - 1}",
        "007", "-0",
    ]
    OPTIONS = [
        "COUNT", "BLOCK", "NOACK", "STREAMS", "GROUP", "MAXLEN", "MINID", "~", "=", "LIMIT", "NOMKSTREAM", "MKSTREAM", "IDLE", "TIME",
        "RETRYCOUNT", "JUSTID", "FORCE", "LASTID", "DEAD", "TRIES",
    ]
    GOOD = [
        "PING", "XADD s * a b", "XADD s 5-* a b", "XADD t MAXLEN ~ 3 LIMIT 1 * a b", "XGROUP CREATE s g 0 MKSTREAM",
        "XREADGROUP GROUP g A COUNT 2 STREAMS s >", "XREADGROUP GROUP g A STREAMS s 0", "XREAD COUNT 1 STREAMS s t 0 0",
        "XRANGE s - + COUNT 2", "XREVRANGE s + -", "XPENDING s g - + 5", "XPENDING s g", "XCLAIM s g B 0 5-1 JUSTID",
        "XAUTOCLAIM s g B 0 0 COUNT 1", "XACK s g 5-1", "XDEL s 5-0", "XTRIM s MINID 5", "XLEN s", "XINFO STREAM s", "XINFO GROUPS s",
        "XINFO CONSUMERS s g", "XGROUP SETID s g $", "XGROUP DELCONSUMER s g A", "RECOVER.PLAN s g DEAD A",
        "RECOVER.RUN s g TRIES 2 DEAD A B", "RECOVER.BOARD s g",
    ]

    def __init__(self, seed):
        self.random = random.Random(seed)

    def likely(self, chance):
        return self.random.random() < chance

    def word(self):
        kind = self.random.random()
        if kind < 0.9:
            return self.random.choice(self.random.choice([self.NAMES, self.VALUES, self.OPTIONS])).encode("latin-1")
        return self.random.randbytes(self.random.choice([1, 3, 20, 5000]))

    def command(self):
        """A command that fits its form, one that nearly does, or any words."""
        if self.likely(0.5):
            words = self.random.choice(self.GOOD).encode().split()
            for _ in range(self.random.choice([0, 0, 1, 2])):
                place = self.random.randrange(len(words) + 1)
                words[place:place + self.random.randrange(2)] = [self.word()] * self.random.choice([0, 1, 1])
            return words or [b""]
        name = self.random.choice([*ARITIES, "FOO", "XADDS", ""]).split(" ")
        return [*(part.encode() for part in name), *(self.word() for _ in range(self.random.choice([0, 1, 2, 3, 4, 5, 6, 8, 12])))]

    def requests(self):
        """The bytes of some requests, one after the other."""
        commands = [self.command() for _ in range(self.random.choice([1, 2, 5, 10, 20]))]
        pieces = [spelled(*((word.lower() if self.likely(0.1) else word) for word in words)) for words in commands]
        for _ in range(self.random.choice([0, 0, 0, 1])):
            pieces.insert(self.random.randrange(len(pieces) + 1), self.random.choice([b"*0\r\n", b"*-1\r\n", b"*0000000000\r\n"]))
        return b"".join(pieces)

    def changed(self, text):
        """Some bytes with one change."""
        place = self.random.randrange(len(text) + 1)
        end = min(len(text), place + self.random.choice([0, 1, 1, 2, 7, 100]))
        kind = self.random.randrange(6)
        if kind == 0:
            return text[:place] + self.random.randbytes(self.random.choice([1, 1, 2, 9])) + text[place:]
        if kind == 1:
            return text[:place] + text[end:]
        if kind == 2:
            return text[:place] + text[place:end] * 2 + text[end:]
        if kind == 3:
            return text[:place]
        if kind == 4:
            return text[:place] + self.random.choice(self.HEADERS) + text[end:]
        turned = bytes(byte ^ 1 << self.random.randrange(8) for byte in text[place:min(end, place + 2)])
        return text[:place] + turned + text[place + len(turned):]

    def input(self):
        kind = self.random.random()
        if kind < 0.1:
            return self.random.randbytes(self.random.choice([0, 1, 2, 10, 100, 5000]))
        if kind < 0.25:
            return b"".join(self.random.choice(self.HEADERS) for _ in range(self.random.randrange(12)))
        text = self.requests()
        for _ in range(self.random.choice([0, 0, 1, 1, 3])):
            text = self.changed(text)
        return text


def long_inputs():
    """Requests about as long as they may be: very many short words, or words of the greatest length, and perhaps one too many of either."""
    for count, word in [(4095, b""), (4096, b""), (4096, b"x"), (4097, b"")]:
        yield array([bulk(word)] * count)
    for count, last in itertools.product([1, 15, 16, 17], [bulk(b""), bulk(b"x"), b""]):
        yield array([bulk(b"v" * WORD)] * count + ([last] if last else []))


def tried(program, sent):
    """An input, and what is wrong with what came of it."""
    try:
        run = subprocess.run([program, "--stdio"], input=sent, capture_output=True, timeout=SECONDS, check=False)
        wrong = fault_of(sent, run.returncode, run.stdout, run.stderr)
    except subprocess.TimeoutExpired:
        wrong = f"it does not end within {SECONDS} seconds"
    return sent, wrong


def main():
    if len(sys.argv) not in (2, 3, 4):
        sys.exit(__doc__.split("\n\n")[1])
    seed = int(sys.argv[2]) if len(sys.argv) > 2 else SEED
    number = int(sys.argv[3]) if len(sys.argv) > 3 else NUMBER
    program, broken, requests, wrong = os.path.abspath(sys.argv[1]), 0, 0, 0
    inputs = itertools.chain(long_inputs(), (Inputs(f"{seed} {turn}").input() for turn in range(number)))
    with ThreadPoolExecutor(os.cpu_count()) as pool:
        for turn, (sent, fault) in enumerate(pool.map(tried, itertools.repeat(program), inputs)):
            read = Requests(sent)
            broken, requests = broken + read.fault, requests + len(read.requests)
            if fault:
                wrong += 1
                if wrong <= 10:
                    print(f"fuzz, seed {seed}, input {turn}: {fault}\n  {sent[:1000]!r}")
    print(f"fuzz: seed {seed}, {turn + 1:,} inputs with {requests:,} requests and {broken:,} faults, {wrong:,} wrong")
    return 1 if wrong else 0


if __name__ == "__main__":
    sys.exit(main())
