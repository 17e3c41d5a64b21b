"""Sends commands to a server and reads its replies.

A command is a list of words. A reply is bytes, a number, None or a list, and an error is its text.
"""

import io
import subprocess
import threading

from . import servers
from .resp import ErrorReply, Replies, spelled_all

SECONDS = 600  # an unproved program is slow
LONG = 10_000_000  # milliseconds: longer than a run takes


def told(replies, number):
    """The next replies, this many."""
    found = (replies.reply() for _ in range(number))
    return [str(reply) if isinstance(reply, ErrorReply) else reply for reply in found]


def replies_of(program, commands, *options):
    """The replies of `sr_server --stdio`, which gets all commands before the first of them is read."""
    sent = spelled_all(commands)
    ran = subprocess.run([program, "--stdio", *options], input=sent, stdout=subprocess.PIPE, timeout=SECONDS, check=True)
    output = io.BytesIO(ran.stdout)
    replies = told(Replies(output), len(commands))
    if output.read(1):
        raise SystemExit(f"{program} replies more than {len(commands):,} times")
    return replies


def replies_of_redis(commands):
    """The replies of a Redis server (Debian: redis-server)."""
    with servers.Redis() as server, server.connect() as connection:
        sender = threading.Thread(target=connection.socket.sendall, args=(spelled_all(commands),), daemon=True)
        sender.start()
        return told(connection, len(commands))


def without_clock(words, reply):
    """A reply in which a row of XPENDING has whether its idle time is long, and XINFO tells no idle time nor what Redis alone tells."""
    if not isinstance(reply, list):
        return reply
    if words[0] == "XPENDING" and len(words) > 3:
        return [[entry_id, owner, idle >= LONG, count] for entry_id, owner, idle, count in reply]
    if words[0] == "XINFO":
        return [row[: 5 if words[1] == "CONSUMERS" else 8] for row in reply]
    return reply


def difference(wanted, reply):
    """Where two replies differ first: the way there through their lists, and the two parts."""
    way = ""
    while isinstance(wanted, list) and isinstance(reply, list) and len(wanted) == len(reply):
        place = next(place for place, pair in enumerate(zip(wanted, reply)) if pair[0] != pair[1])
        way, wanted, reply = f"{way}[{place}]", wanted[place], reply[place]
    return f"{f'at {way}, ' if way else ''}expected: {str(wanted)[:1000]}\nreplied: {str(reply)[:1000]}"


def compared(name, commands, wanted, replies, noun="commands"):
    """Prints how many replies are not the wanted ones, and the first of them. The status for it."""
    differing = [place for place, pair in enumerate(zip(wanted, replies)) if pair[0] != pair[1]]
    if differing:
        first = differing[0]
        print(f"{first + 1:,}: {' '.join(map(str, commands[first]))[:1000]}\n{difference(wanted[first], replies[first])}")
    print(f"{name}: {len(commands):,} {noun}, {len(differing):,} differ")
    return 1 if differing else 0
