"""What other clients do between a snapshot and conclude.lua, and what it has to answer: each row worked out by hand."""

import random
import time

from .live import PAGE, Dump, Live, Plan, Script, all_replies, carried_out, seen_by

GREATEST = 2**64 - 1
EXACT = 2**53
RUNS = 3  # of a large plan, of which the least time counts
LEFTOVERS = 20_000


def done(claimed, gap=0):
    return [b"done", claimed, gap]


def stale(what, which):
    return [b"stale", what, which]


def lines(text):
    """Commands, one a line, with a blank between words."""
    return [line.split(" ") for line in text.strip().split("\n")]


# The two entries of docs/RECOVERY.md: 1-1 costs 2 at A and 4 at B, and 2-1 costs 2 and 200. A has one place left, and
# B two. The plan gives 1-1 to B and 2-1 to A. The least prices are 2 for A and 0 for B.
TWO = lines("""
XGROUP CREATE s g 0 MKSTREAM
XADD s 0-1 c x
XREADGROUP GROUP g A COUNT 1 STREAMS s >
XADD s 0-2 c x
XREADGROUP GROUP g B COUNT 1 STREAMS s >
XADD s 1-1 c x
XADD s 2-1 c y
XREADGROUP GROUP g D COUNT 2 STREAMS s >
""")
TWO_LIVE = [Live(b"A", 2, None, {b"x": 1, b"y": 1}), Live(b"B", 3, None, {b"x": 2, b"y": 100})]
GIVEN_TO_A = "XADD s * c x\nXREADGROUP GROUP g A COUNT 1 STREAMS s >"
GIVEN_TO_B = "XADD s * c x\nXREADGROUP GROUP g B COUNT 1 STREAMS s >"
AGAIN = "\n".join(" ".join(words) for words in TWO)

TWO_ROWS = [
    ("nothing has changed", "PING", done(2)),
    ("the dead reads its history again", "XREADGROUP GROUP g D STREAMS s 0", done(2)),
    ("a new entry arrives", "XADD s * c x", done(2)),
    ("the dead gets its entries again", "XGROUP SETID s g 0-2\nXREADGROUP GROUP g D COUNT 2 STREAMS s >", done(2)),
    ("B, whose price is 0, acknowledges", "XACK s g 0-2", done(2)),
    ("B leaves the group", "XGROUP DELCONSUMER s g B", done(2)),
    ("B is given one, and has room", GIVEN_TO_B, done(2)),
    ("B is given two, and has none left", GIVEN_TO_B + "\n" + GIVEN_TO_B, stale(b"room", b"B")),
    # A has two places instead of one: the plan still costs 6, and both at A would cost 4.
    ("A, whose price is 2, acknowledges", "XACK s g 0-1", stale(b"gap", b"2")),
    ("A leaves the group", "XGROUP DELCONSUMER s g A", stale(b"gap", b"2")),
    ("A acknowledges one and is given one", "XACK s g 0-1\n" + GIVEN_TO_A, done(2)),
    ("A is given one", GIVEN_TO_A, stale(b"room", b"A")),
    ("an entry of the dead is acknowledged", "XACK s g 1-1", stale(b"pending", b"D")),
    ("the last one is", "XACK s g 2-1", stale(b"pending", b"D")),
    ("an entry of the dead is claimed", "XCLAIM s g B 0 1-1", stale(b"pending", b"D")),
    ("it is delivered to B", "XGROUP SETID s g 0-2\nXREADGROUP GROUP g B COUNT 1 STREAMS s >", stale(b"pending", b"D")),
    ("the dead gets one more", "XADD s * c x\nXREADGROUP GROUP g D STREAMS s >", stale(b"pending", b"D")),
    ("the dead gets an earlier one", "XCLAIM s g D 0 0-1", stale(b"pending", b"D")),
    ("the dead gets one in place of another", "XACK s g 1-1\nXCLAIM s g D 0 0-2", stale(b"pending", b"D")),
    ("the dead leaves the group", "XGROUP DELCONSUMER s g D", stale(b"pending", b"D")),
    ("an entry of the dead is deleted", "XDEL s 2-1", stale(b"entry", b"2-1")),
    ("one is deleted and one is added", "XDEL s 2-1\nXADD s 3-1 c x", stale(b"entry", b"2-1")),
    ("an entry of A is deleted", "XDEL s 0-1", done(2)),
    ("the stream is trimmed", "XTRIM s MAXLEN 0", stale(b"entry", b"1-1")),
    ("it is trimmed to what the dead has", "XTRIM s MAXLEN 2", done(2)),
    ("it is trimmed by XADD", "XADD s MAXLEN 2 3-1 c x", stale(b"entry", b"1-1")),
    ("more are said to have been added", "XSETID s 2-1 ENTRIESADDED 9", done(2)),
    ("the same, and one is deleted", "XSETID s 2-1 ENTRIESADDED 9\nXDEL s 2-1", stale(b"entry", b"2-1")),
    ("a number that is not exact, and one is deleted", f"XSETID s 2-1 ENTRIESADDED {2**53}\nXDEL s 2-1", stale(b"entry", b"2-1")),
    ("the group is gone", "XGROUP DESTROY s g", stale(b"group", b"g")),
    ("the group is made anew", "XGROUP DESTROY s g\nXGROUP CREATE s g 0", stale(b"pending", b"D")),
    ("the key is gone", "DEL s", stale(b"group", b"g")),
    # An entry is known by its id. Redis gives none twice, but whoever writes ids may, if the key is made anew or empty.
    ("the key is made anew with the same ids", "DEL s\n" + AGAIN.replace("1-1 c x", "1-1 c z"), done(2)),
    ("the same ids are added again", "XTRIM s MAXLEN 0\nXSETID s 0-2\nXADD s 1-1 c z\nXADD s 2-1 c y", done(2)),
]

# A may have four entries, two of them without a fee, and has one: one place is left without a fee, and two at 5. Both
# entries cost 2 at A and 8 at B. The plan gives both to A, and the prices are 5 and 0 for A and 0 for B.
SOFT = [words if words[-1] != "y" else ["XADD", "s", "2-1", "c", "x"] for words in TWO]
SOFT_RATES = [{b"x": 1}, {b"x": 4}]
SOFT_LIVE = [Live(b"A", 4, (2, 5), SOFT_RATES[0]), Live(b"B", 4, None, SOFT_RATES[1])]
SOFT_ROWS = [
    ("nothing has changed at a soft limit", "PING", done(2)),
    ("A acknowledges one and both are below the soft limit", "XACK s g 0-1", stale(b"fee", b"A")),
    ("A is given one and both are above it", GIVEN_TO_A, stale(b"fee", b"A")),
    ("A is given two and has one place", GIVEN_TO_A + "\n" + GIVEN_TO_A, stale(b"room", b"A")),
    ("A acknowledges one and is given one at a soft limit", "XACK s g 0-1\n" + GIVEN_TO_A, done(2)),
    ("B is given one beside a soft limit", GIVEN_TO_B, done(2)),
]

# At a fee of 7 each gets one, at 2 + 8, and the place of A without a fee has a price of 6. With two such places both at
# A cost 4.
FEE_LIVE = [Live(b"A", 4, (2, 7), SOFT_RATES[0]), Live(b"B", 4, None, SOFT_RATES[1])]
FEE_ROWS = [
    ("A has a place more without a fee", "XACK s g 0-1", stale(b"gap", b"6")),
    ("A is given one and one would be at a fee", GIVEN_TO_A, stale(b"fee", b"A")),
]

# 1-1 was deleted before the snapshot, and stays with the dead. The plan gives 2-1 to A, at 2, with prices of 0.
GONE = [*TWO, *lines("XDEL s 1-1")]
GONE_ROWS = [
    ("the gone entry stays pending", "PING", done(1)),
    ("the gone entry is acknowledged", "XACK s g 1-1", done(1)),
    ("it is acknowledged, and A is given one", "XACK s g 1-1\n" + GIVEN_TO_A, stale(b"room", b"A")),
    ("the other one is acknowledged", "XACK s g 2-1", stale(b"pending", b"D")),
    ("both are", "XACK s g 1-1 2-1", stale(b"pending", b"D")),
    ("the other one is deleted", "XDEL s 2-1", stale(b"entry", b"2-1")),
    ("the gone entry is acknowledged and the dead gets one more", "XACK s g 1-1\nXCLAIM s g D 0 0-2", stale(b"pending", b"D")),
    ("the dead gets one more behind", "XADD s 3-1 c x\nXREADGROUP GROUP g D STREAMS s >", stale(b"pending", b"D")),
    ("the dead gets one that is gone, before the first entry", "XCLAIM s g D 0 0-2\nXTRIM s MINID 2-1", done(1)),
]

# 1-1 has been idle for longer than asked for, and 2-1 has not: the plan gives 1-1 to A, at 2, with prices of 0. What is
# as idle before the script, and was not, is for another plan.
OLD, IDLE = 7_200_000, 3_600_000
IDLE_TWO = [*TWO, *lines(f"XCLAIM s g D 0 1-1 IDLE {OLD} JUSTID")]
IDLE_ROWS = [
    ("nothing has changed, and one is not idle", "PING", done(1)),
    ("the other one is as idle now", f"XCLAIM s g D 0 2-1 IDLE {OLD} JUSTID", done(1)),
    ("an earlier one is as idle now", f"XCLAIM s g D 0 0-2 IDLE {OLD} JUSTID", done(1)),
    ("both others are as idle now", f"XCLAIM s g D 0 0-2 2-1 IDLE {OLD} JUSTID", done(1)),
    ("the other one is acknowledged", "XACK s g 2-1", done(1)),
    ("the dead gets one more, which is not idle", "XADD s * c x\nXREADGROUP GROUP g D STREAMS s >", done(1)),
    ("it is as idle as asked for, to the second", f"XCLAIM s g D 0 1-1 IDLE {IDLE + 1000} JUSTID", done(1)),
    ("it is less idle than asked for", f"XCLAIM s g D 0 1-1 IDLE {IDLE - 60000} JUSTID", stale(b"pending", b"D")),
    ("the dead reads its entries again", "XREADGROUP GROUP g D STREAMS s 0", stale(b"pending", b"D")),
    ("the dead gets it again", "XCLAIM s g D 0 1-1", stale(b"pending", b"D")),
    ("the idle one is acknowledged", "XACK s g 1-1", stale(b"pending", b"D")),
    ("it is acknowledged, and another one is as idle", f"XACK s g 1-1\nXCLAIM s g D 0 2-1 IDLE {OLD} JUSTID", stale(b"pending", b"D")),
    ("A claims it", f"XCLAIM s g A 0 1-1 IDLE {OLD} JUSTID", stale(b"pending", b"D")),
    ("the idle one is deleted", "XDEL s 1-1", stale(b"entry", b"1-1")),
]

# Entries that were delivered more than twice are left out: 1-1 was delivered three times, 2-1 twice.
DELIVERIES = 2
OFTEN = [*TWO, *lines("XREADGROUP GROUP g D COUNT 2 STREAMS s 0\nXREADGROUP GROUP g D COUNT 1 STREAMS s 0")]
OFTEN_ROWS = [
    ("nothing changed, and one was delivered too often", "", done(1)),
    ("that one is acknowledged", "XACK s g 1-1", done(1)),
    ("that one is delivered once more", "XREADGROUP GROUP g D COUNT 1 STREAMS s 0", done(1)),
    ("the other one is delivered once more", "XREADGROUP GROUP g D COUNT 2 STREAMS s 0", stale(b"pending", b"D")),
    ("the other one is acknowledged", "XACK s g 2-1", stale(b"pending", b"D")),
    ("a new one is delivered", "XADD s 3-1 c x\nXREADGROUP GROUP g D STREAMS s >", stale(b"pending", b"D")),
    ("an earlier one is pending for it, delivered twice", "XCLAIM s g D 0 0-2", stale(b"pending", b"D")),
    ("an earlier one is pending for it, delivered too often", "XCLAIM s g D 0 0-2 RETRYCOUNT 3 JUSTID", done(1)),
    ("the count of the first is set back", "XCLAIM s g D 0 1-1 RETRYCOUNT 2 JUSTID", stale(b"pending", b"D")),
]

# With the first entry alone (--at-most 1) the plan gives it to A, at 2, and the least prices are 0.
FIRST_ROWS = [
    ("the entry behind the first is acknowledged", "XACK s g 2-1", done(1)),
    ("the entry behind the first is deleted", "XDEL s 2-1", done(1)),
    ("the dead gets one more behind the first", "XADD s * c x\nXREADGROUP GROUP g D STREAMS s >", done(1)),
    ("the first entry is acknowledged", "XACK s g 1-1", stale(b"pending", b"D")),
    ("the first entry is deleted", "XDEL s 1-1", stale(b"entry", b"1-1")),
    ("the dead gets one before the first", "XCLAIM s g D 0 0-2", stale(b"pending", b"D")),
]

# A acknowledges one entry. The prices are set by hand, and the script takes them as they are. A gap below 2^53 is
# exact, and none of 2^53 or more passes. In the last rows the tier at a fee has two places left, before and after.
GAP_ROWS = [
    ("within less than the gap", TWO_LIVE, 1, [2], stale(b"gap", b"2")),
    ("within the gap", TWO_LIVE, 2, [2], done(2, 2)),
    ("within more than the gap", TWO_LIVE, GREATEST, [2], done(2, 2)),
    ("the greatest gap", TWO_LIVE, EXACT - 1, [EXACT - 1], done(2, EXACT - 1)),
    ("within one less than it", TWO_LIVE, EXACT - 2, [EXACT - 1], stale(b"gap", b"%d" % (EXACT - 1))),
    ("a gap of 2^53", TWO_LIVE, GREATEST, [EXACT], stale(b"gap", b"%d" % EXACT)),
    ("a gap of 2^53 + 1", TWO_LIVE, GREATEST, [EXACT + 1], stale(b"gap", b"%d" % EXACT)),
    ("a gap of 2^58", TWO_LIVE, GREATEST, [2**58], stale(b"gap", b"%d" % EXACT)),
    ("a place without a fee and two at one", FEE_LIVE, GREATEST, [6, 5], done(2, 16)),
    ("a sum one less than 2^53", FEE_LIVE, GREATEST, [EXACT // 2 - 1, EXACT // 4], done(2, EXACT - 1)),
    ("a sum of 2^53", FEE_LIVE, GREATEST, [EXACT // 2, EXACT // 4], stale(b"gap", b"%d" % EXACT)),
]


# What docs/LIVE.md gives a user of Redis, and how the answer begins without one part of it. Whoever runs a script needs
# what the script calls.
USER = ["on", ">secret", "resetkeys", "~s", "resetchannels", "-@all"]
COMMANDS = ["+xinfo|stream", "+xpending", "+xrange", "+xclaim", "+evalsha"]
IN_SCRIPT = "ERR The user executing the script can't run this command"
MISSING = [
    ("+xinfo|stream", IN_SCRIPT),
    ("+xpending", IN_SCRIPT),
    ("+xrange", IN_SCRIPT),
    ("+xclaim", IN_SCRIPT),
    ("+evalsha", "NOPERM this user has no permissions to run the 'evalsha' command"),
    ("~s", "NOPERM this user has no permissions to access one of the keys"),
]


class Board:
    """Compares answers, and counts those that are wrong."""

    def __init__(self, connection):
        self.connection, self.script = connection, Script(connection)
        self.rows, self.wrong = 0, 0

    def check(self, what, wanted, found):
        self.rows += 1
        if found != wanted:
            self.wrong += 1
            print(f"{what}: expected {wanted!r}, not {found!r}", flush=True)

    def begin(self, setting):
        replies = all_replies(self.connection, [["FLUSHALL"], *setting])
        faults = [reply for reply in replies if isinstance(reply, Exception)]
        if faults:
            raise SystemExit(f"a setting was refused: {faults[0]}")

    def plan(self, lives, most=None, key="s", group="g", dead=(b"D",), idle=0, deliveries=None):
        plan = Plan(lives, seen_by(self.connection, key, group, dead, idle, deliveries), most)
        plan.idle, plan.deliveries = idle, deliveries
        return plan

    def conclude(self, what, plan, wanted, within=0, key="s", group="g"):
        """Runs the script: the answer has to be the wanted one, and the state what the answer says."""
        before = Dump(self.connection, key)
        began = time.perf_counter()
        self.check(what, wanted, self.script.answer(key, group, plan, within))
        took = time.perf_counter() - began
        after = Dump(self.connection, key)
        if wanted[0] == b"done":
            group = group if isinstance(group, bytes) else group.encode()
            self.check(f"{what}: what is pending then", [], list(carried_out(plan, group, before, after)))
        else:
            self.check(f"{what}: nothing has changed", before.text, after.text)
        return took

    def table(self, setting, lives, rows, **asked):
        for what, changes, wanted in rows:
            self.begin(setting)
            plan = self.plan(lives, **asked)
            all_replies(self.connection, lines(changes))
            self.conclude(what, plan, wanted)


def gaps(board):
    for what, lives, within, prices, wanted in GAP_ROWS:
        board.begin(TWO if lives is TWO_LIVE else SOFT)
        plan = board.plan(lives)
        plan.prices = [prices, [0]]
        all_replies(board.connection, lines("XACK s g 0-1"))
        board.conclude(what, plan, wanted, within)


def errors(board):
    """What is told as Redis tells it, with nothing changed; and entries that are gone from the first."""
    board.begin(TWO)
    plan = board.plan(TWO_LIVE)
    all_replies(board.connection, lines("SET s 1"))
    answer = board.script.answer("s", "g", plan)
    board.check("the key is another kind of value", "WRONGTYPE", str(answer).split(" ", maxsplit=1)[0])
    board.begin(TWO)
    words = board.plan(TWO_LIVE).words("g", 0)
    board.check("by EVAL", done(2), board.connection.call("EVAL", board.script.text, 1, "s", *words))
    board.begin([*TWO, *lines("XDEL s 1-1")])
    plan = board.plan(TWO_LIVE)
    board.conclude("an entry was gone from the first", plan, done(1))
    board.check("it is pending for the dead", 1, board.connection.call("XPENDING", "s", "g")[3][-1][1] == b"1")


def permissions(board):
    """A user of Redis that may do just enough, and some that may do one thing less. Another entry is removed, so that each is read."""
    for missing, wanted in [*MISSING, (None, None)]:
        board.begin(TWO)
        plan = board.plan(TWO_LIVE)
        all_replies(board.connection, lines("XADD s 9-1 c x\nXDEL s 9-1"))
        before = Dump(board.connection, "s")
        user = [word for word in USER + COMMANDS if word != missing]
        board.connection.call("ACL", "SETUSER", "recover", "reset", *user)
        board.connection.call("AUTH", "recover", "secret")
        answer = board.script.answer("s", "g", plan)
        board.connection.call("AUTH", "default", "any")
        if missing:
            board.check(f"without {missing}", wanted, str(answer)[: len(wanted)])
            board.check(f"without {missing}: nothing has changed", before.text, Dump(board.connection, "s").text)
        else:
            board.check("with all of it", done(2), answer)
    board.connection.call("ACL", "DELUSER", "recover")


def leftovers(board):
    """Many consumers that once were: the time that the script takes beside them. Another group has other numbers."""
    many = [["XGROUP", "CREATECONSUMER", "s", "g", f"old{at}"] for at in range(LEFTOVERS)]
    other = lines("XGROUP CREATE s other 0\nXREADGROUP GROUP other A COUNT 2 STREAMS s >")
    board.begin([*TWO, *many, *other])
    plan = board.plan(TWO_LIVE)
    board.connection.call("CONFIG", "RESETSTAT")
    board.conclude("beside leftovers", plan, done(2))
    board.check("calls of XINFO", 0, stat(board.connection, b"xinfo|consumers", b"calls"))
    took = stat(board.connection, b"evalsha", b"usec") / 1000
    print(f"2 entries beside {LEFTOVERS:,} consumers that are left over: {took:.1f} ms in Redis", flush=True)


def names(board):
    """Names with blanks, quotes, line ends and bytes of 0."""
    for odd in (b"a b", b"\"'\\", b"one\r\ntwo\n", b"\0", b"a\0b", b"-", b"+", b"", b"\xff"):
        key, group, dead, live = odd + b"k", odd + b"g", odd, odd + b"l"
        board.begin([
            ["XGROUP", "CREATE", key, group, 0, "MKSTREAM"],
            ["XADD", key, "1-1", "c", odd],
            ["XREADGROUP", "GROUP", group, dead, "STREAMS", key, ">"],
        ])
        plan = board.plan([Live(live, 1, None, {odd: 1})], None, key, group, [dead])
        board.conclude(f"names with {odd!r}", plan, done(1), 0, key, group)
        board.conclude(f"again with {odd!r}", plan, stale(b"pending", dead), 0, key, group)


def stranded(number):
    """The commands that leave this many entries with the dead consumer."""
    yield "XGROUP", "CREATE", "s", "g", "0", "MKSTREAM"
    yield from (("XADD", "s", f"{at}-1", "c", "x") for at in range(1, number + 1))
    yield "XREADGROUP", "GROUP", "g", "D", "COUNT", str(number), "STREAMS", "s", ">"


def alone(seen, ids):
    """The plan that gives all to A, at a price of 0."""
    plan = Plan.__new__(Plan)
    plan.lives, plan.seen, plan.last, plan.idle = [Live(b"A", len(ids), None, {b"x": 1})], seen, "+", 0
    plan.ids, plan.goes, plan.prices, plan.free_loads = ids, [0] * len(ids), [[0]], [len(ids)]
    return plan


def pages(board):
    """Lists about as long as what is asked for and claimed in one call."""
    for number in (999, 1000, 1001, 1999, 2000, 2500):
        changes = [
            ("PING", "+", done(number)),
            (f"XADD s {number + 1}-1 c x\nXREADGROUP GROUP g D STREAMS s >", "+", stale(b"pending", b"D")),
            (f"XADD s {number + 1}-1 c x\nXREADGROUP GROUP g D STREAMS s >", b"%d-1" % number, done(number)),
            (f"XACK s g {number}-1", "+", stale(b"pending", b"D")),
            ("XACK s g 500-1", "+", stale(b"pending", b"D")),
            (f"XDEL s {number}-1", "+", stale(b"entry", b"%d-1" % number)),
        ]
        for change, last, wanted in changes:
            board.begin(stranded(number))
            seen = seen_by(board.connection, "s", "g", [b"D"])
            plan = alone(seen, [entry_id for entry_id, _ in seen.rows[b"D"]])
            plan.last = last
            all_replies(board.connection, [*lines(change), ["CONFIG", "RESETSTAT"]])
            board.conclude(f"{number} entries, {change!r} up to {last!r}", plan, wanted)
            if wanted[0] == b"done":
                pages_of = [-(-number // PAGE), 1 + -(-(number + 1) // PAGE)]  # and one for the numbers
                calls = [stat(board.connection, name, b"calls") for name in (b"xclaim", b"xpending")]
                board.check(f"{number} entries: calls of XCLAIM and XPENDING", pages_of, calls)


def gone(board):
    """Entries that were gone when the group was looked up: they are listed, in pages, but not those before the first entry of
    the stream; none of them is read, nor is one that is there, if none was removed since."""
    for number in (1, 999, 1000, 1001, 2500):
        for left in (1, number // 2 + 1, number):
            board.begin(stranded(number))
            ids = [f"{at}-1" for at in range(1, number + 1) if at != left]
            all_replies(board.connection, [["XDEL", "s", *ids]] if ids else [])
            plan = alone(seen_by(board.connection, "s", "g", [b"D"]), [b"%d-1" % left])
            for acknowledged in ([], ids[::2], ids):
                all_replies(board.connection, [["XACK", "s", "g", *acknowledged]] if acknowledged else [])
                all_replies(board.connection, [["CONFIG", "RESETSTAT"]])
                board.conclude(f"{number} entries, {len(ids)} gone, {len(acknowledged)} acknowledged", plan, done(1))
                board.check("calls of XRANGE", 0, stat(board.connection, b"xrange", b"calls"))
                if left == number:
                    board.check("calls of XPENDING behind gone ones", 2, stat(board.connection, b"xpending", b"calls"))
                all_replies(board.connection, [["XCLAIM", "s", "g", "D", 0, f"{left}-1", "JUSTID"]])


def removed(board):
    """An entry that somebody removed, or that XSETID hides: then each entry of the dead is read, or none."""
    for changes, calls in (("PING", 0), ("XADD s 9-1 c x", 0), ("XDEL s 0-1", 2), ("XADD s 9-1 c x\nXDEL s 9-1", 2)):
        board.begin(TWO)
        plan = board.plan(TWO_LIVE)
        all_replies(board.connection, [*lines(changes), ["CONFIG", "RESETSTAT"]])
        board.conclude(f"{changes}: nothing of the plan", plan, done(2))
        board.check(f"{changes}: calls of XRANGE", calls, stat(board.connection, b"xrange", b"calls"))
    board.begin(TWO)
    plan = board.plan(TWO_LIVE)
    all_replies(board.connection, lines("XDEL s 2-1\nXSETID s 2-1 ENTRIESADDED 3"))
    board.check("hidden by XSETID", done(1), board.script.answer("s", "g", plan))
    board.begin([*TWO, *lines(f"XSETID s 2-1 ENTRIESADDED {2**53 + 1}")])
    plan = board.plan(TWO_LIVE)
    all_replies(board.connection, lines("XDEL s 2-1"))
    board.check("more were added than a number of Lua tells exactly", stale(b"entry", b"2-1"), board.script.answer("s", "g", plan))


def stat(connection, command, name):
    """What Redis counts of a command since CONFIG RESETSTAT."""
    stats = dict(line.split(b":") for line in connection.call("INFO", "commandstats").split() if b":" in line)
    told = stats.get(b"cmdstat_" + command)
    return int(dict(part.split(b"=") for part in told.split(b","))[name]) if told else 0


def planted(number, takers, more):
    """A large plan that its prices show: an entry goes where cost and price are least, and whoever has one is full."""
    choice = random.Random(number)
    rates = [{b"k%d" % kind: choice.randint(1, 1000) for kind in range(8)} for _ in range(takers)]
    prices = [choice.choice([0, choice.randint(1, 30_000)]) for _ in range(takers)]
    commands, goes = [["XGROUP", "CREATE", "s", "g", "0", "MKSTREAM"]], []
    for at in range(1, number + 1):
        kind, value = b"k%d" % choice.randrange(8), "v" * (choice.randint(1, 60) + more)
        weight = 4 + len(value)
        goes.append(min(range(takers), key=lambda to: rates[to][kind] * weight + prices[to]))
        commands.append(["XADD", "s", f"{at}-1", "c", kind, "v", value])
    commands.append(["XREADGROUP", "GROUP", "g", "D", "COUNT", number, "STREAMS", "s", ">"])
    loads = [goes.count(to) for to in range(takers)]
    lives = [Live(b"w%02d" % to, loads[to] + (prices[to] == 0), None, rates[to]) for to in range(takers)]
    return commands, lives, goes, [[price] for price in prices], loads


def large(board):
    """Large plans, of small entries and others: the time that Redis tells for the script, and that to its answer."""
    for number, takers, more in ((100, 8, 0), (1000, 16, 0), (4096, 64, 0), (4096, 64, 10_000)):
        commands, lives, goes, prices, loads = planted(number, takers, more)
        waits, takes = [], []
        for _ in range(RUNS):
            board.begin([*commands, ["CONFIG", "RESETSTAT"]])
            seen = seen_by(board.connection, "s", "g", [b"D"])
            plan = alone(seen, [entry_id for entry_id, _ in seen.rows[b"D"]])
            plan.lives, plan.goes, plan.prices, plan.free_loads = lives, goes, prices, loads
            waits.append(board.conclude(f"{number} entries and {takers} consumers", plan, done(number)) * 1000)
            takes.append(stat(board.connection, b"evalsha", b"usec") / 1000)
        sizes = f"{number:4} entries, {takers:2} consumers, {more + 40:6,} bytes an entry"
        print(f"{sizes}: {min(takes):5.1f} ms in Redis, {min(waits):5.1f} ms to the answer", flush=True)


def compared(connection, last=large):
    """How many comparisons were made, and how many of them were wrong. `last` comes after all others."""
    board = Board(connection)
    board.table(TWO, TWO_LIVE, TWO_ROWS)
    board.table(SOFT, SOFT_LIVE, SOFT_ROWS)
    board.table(SOFT, FEE_LIVE, FEE_ROWS)
    board.table(TWO, TWO_LIVE, FIRST_ROWS, most=1)
    board.table(GONE, TWO_LIVE, GONE_ROWS)
    board.table(IDLE_TWO, TWO_LIVE, IDLE_ROWS, idle=IDLE)
    board.table(OFTEN, TWO_LIVE, OFTEN_ROWS, deliveries=DELIVERIES)
    for part in (gaps, errors, permissions, leftovers, names, pages, gone, removed, last):
        part(board)
    return board.rows, board.wrong
