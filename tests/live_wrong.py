#!/usr/bin/env python3
"""Plays histories with wrong texts of conclude.lua, each of which tests/live_script.py has to find.

usage: tests/live_wrong.py

A wrong text is the right one with one change. Of each it prints how many comparisons worked out by hand found it to be wrong, or, where
none did, how many random histories; the status is 1 if that is none too, or if the text to be changed does not stand exactly once in the
script. It needs redis-server.
"""

import contextlib
import io
import random
import sys

import live_script
from lib import live_rows, servers
from lib.live import SCRIPT, Script

HISTORIES, SEED = 60, 3

WRONG = {
    "stale applied": ("  if gap >= EXACT or gap > within then\n", "  if gap >= EXACT then\n"),
    "other work applied": ("      return { 'stale', what, which }\n", ""),
    "moves of another snapshot": ("        if rows[at] and rows[at].id == pending[1] then\n", "        if rows[at] then\n"),
    "entries in between are not noticed": ("        elseif is_any then\n", "        elseif false then\n"),
    "entries that became idle are in the way": ("        elseif is_any then\n", "        else\n"),
    "idle times are not compared": ("'IDLE', claimable.idle, start", "'IDLE', '0', start"),
    "how often an entry was delivered is not compared": ("      if not most or pending[4] <= most then\n", "      if true then\n"),
    "one delivery less is too many": ("pending[4] <= most", "pending[4] < most"),
    "entries that are left are not missed": ("  return behind_gone(rows, at) > #rows\n", "  return true\n"),
    "deleted entries are not noticed": (" and #redis.call('XRANGE', key, row.id, row.id) == 0 then\n", " and false then\n"),
    "entries are never read": ("ipairs(stream.is_whole and {} or dead.rows)", "ipairs({})"),
    "what was removed is not compared": ("is_whole = added < EXACT and added - fields['length'] == removed", "is_whole = true"),
    "more may have been removed": ("fields['length'] == removed", "fields['length'] >= removed"),
    "what was added is not looked at": ("added - fields['length'] == removed", "fields['length'] > 0"),
    "a number that is not exact is trusted": ("is_whole = added < EXACT and added", "is_whole = added"),
    "gone entries have to be there": ("ipairs(stream.is_whole and {} or dead.rows) do\n    if row.is_there and #redis", "ipairs(dead.rows) do\n    if #redis"),
    "what comes before the last entry is not compared": ("fields['first-entry']", "fields['last-entry']"),
    "gone entries before the first one are in the way": ("not from_first and not", "not"),
    "those before the first one are never asked for": (" and not are_pending(group, '-', last, claimable, dead)", ""),
    "gone entries have to be pending": ("  while rows[at] and not rows[at].is_there and", "  while false and"),
    "entries that were not gone may be missing": (" and not rows[at].is_there and rows[at].id", " and rows[at].id"),
    "bounds that ignore prices": ("  return nil, live.first_price * first_left + live.next_price * next_left\n", "  return nil, 0\n"),
    "bounds that ignore the second price": (" + live.next_price * next_left\n", "\n"),
    "room is not looked at": ("  if live.load > 0 and pending + live.load > live.limit then\n", "  if false then\n"),
    "a full consumer has no room": ("pending + live.load > live.limit then\n", "pending + live.load >= live.limit then\n"),
    "who has no pending entries is full": ("judge(one, numbers[one.name] or 0)", "judge(one, numbers[one.name] or one.limit)"),
    "the numbers of another group": ("redis.pcall('XPENDING', key, group)", "redis.pcall('XPENDING', key, 'other')"),
    "the number of all": ("    numbers[consumer[1]] = tonumber(consumer[2])\n", "    numbers[consumer[1]] = summary[1]\n"),
    "the first number alone": ("  for _, consumer in ipairs(summary[4] or {}) do\n", "  for _, consumer in ipairs({ (summary[4] or {})[1] }) do\n"),
    "nothing pending is an error": ("ipairs(summary[4] or {})", "ipairs(summary[4])"),
    "a group that is gone is an error": ("fault.err:find('^NOGROUP') and", "false and"),
    "fees are not looked at": ("  if math.min(live.load, free_room) ~= live.free_load then\n", "  if false then\n"),
    "one entry less is claimed": ("  for from = 1, #one.ids, MOST_ROWS do\n", "  for from = 2, #one.ids, MOST_ROWS do\n"),
    "one more is not asked for": ("or not is_any and at > #rows", "or at > #rows"),
    "what comes later is compared": ("claimable.idle, start, last, count", "claimable.idle, start, '+', count"),
    "within has the wrong sign": ("gap > within", "gap < within"),
    "within is not reached": ("gap > within", "gap >= within"),
    "free places below a limit are not free": ("math.max(0, live.limit - pending)", "live.limit - pending"),
    "counted as asked for": ("    claimed = claimed + #redis.call(unpack(words))\n", "    redis.call(unpack(words))\n    claimed = claimed + to - from + 1\n"),
    "claims only what is idle": ("one.name, 0, unpack", "one.name, 60000, unpack"),
    "claims with an idle time": ("    table.insert(words, 'JUSTID')\n", "    table.insert(words, 'IDLE')\n    table.insert(words, 90000)\n    table.insert(words, 'JUSTID')\n"),
    "claims with a last id": ("    table.insert(words, 'JUSTID')\n", "    table.insert(words, 'LASTID')\n    table.insert(words, '99-9')\n    table.insert(words, 'JUSTID')\n"),
    "claims with another count": ("    table.insert(words, 'JUSTID')\n", "    table.insert(words, 'RETRYCOUNT')\n    table.insert(words, 7)\n    table.insert(words, 'JUSTID')\n"),
    "counts a delivery": ("    table.insert(words, 'JUSTID')\n", ""),
    "acknowledges what is gone": ("  return behind_gone(rows, at) > #rows\n", "  for _, row in ipairs(rows) do\n    if not row.is_there then redis.call('XACK', key, group, row.id) end\n  end\n  return behind_gone(rows, at) > #rows\n"),
    "makes a consumer that gets nothing": ("  for from = 1, #one.ids, MOST_ROWS do\n", "  redis.call('XGROUP', 'CREATECONSUMER', key, group, one.name)\n  for from = 1, #one.ids, MOST_ROWS do\n"),
    "chunks of one id less": ("math.min(from + MOST_ROWS - 1, #one.ids)", "math.min(from + MOST_ROWS - 2, #one.ids)"),
    "claimed before the last is judged": ("    gap = gap + worth\n", "    gap = gap + worth\n    carry_out(group, one)\n"),
}


class WrongScript(Script):
    """conclude.lua with one change."""

    def __init__(self, connection, old, new):
        with open(SCRIPT, encoding="utf-8") as file:
            text = file.read()
        if text.count(old) != 1:
            sys.exit(f"{old!r} does not stand once in conclude.lua")
        self.connection, self.text = connection, text.replace(old, new).encode()
        self.digest = connection.call("SCRIPT", "LOAD", self.text)


def found(connection, change):
    """How many comparisons find a wrong script; if none does, how many histories."""
    live_rows.Script = lambda connection: WrongScript(connection, *change)
    with contextlib.redirect_stdout(io.StringIO()):
        _, rows = live_rows.compared(connection, lambda board: None)  # large plans take long
        if rows:
            return f"{rows} rows"
        connection.call("SCRIPT", "FLUSH")
        script = WrongScript(connection, *change)
        wrong = 0
        for number in range(HISTORIES):
            played = live_script.play(connection, script, random.Random(SEED * 10**9 + number))
            wrong += bool(played and played[1])
        if not wrong:
            _, rows = live_rows.compared(connection)
    return f"{wrong} histories" if wrong else f"{rows} rows" if rows else None


def main():
    if len(sys.argv) != 1:
        sys.exit(__doc__)
    if not servers.Redis.installed():
        sys.exit("redis-server is not installed (Debian: redis-server)")
    passed = []
    with servers.Redis() as server, server.connect() as connection:
        for name, change in WRONG.items():
            by = found(connection, change)
            print(f"{name}: found by {by or 'nothing'}", flush=True)
            passed += [] if by else [name]
    print(f"{len(WRONG)} wrong scripts, {len(passed)} not found")
    sys.exit(1 if passed else 0)


if __name__ == "__main__":
    main()
