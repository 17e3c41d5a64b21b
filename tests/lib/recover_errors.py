"""sr_recover with errors in place of answers: what it says of each, and whether a plan may have been carried out then."""

import re

from .live import all_replies
from .live_rows import TWO_LIVE
from .recover import Sent, passed_on, policy_text, run
from .recover_cuts import CALLS, FIRST_SENT, GROUP, Side, refused, replaced
from .recover_rows import LIVE_PAGE

UNKNOWN = b"redis: the plan was sent, and what came of it is not known: %s is answered with an error: %s. Plan again to see what is left\n"
RIGHT = b" (the user lacks a right: docs/LIVE.md has the line for ACL SETUSER)"
LATER = b" (the key is being moved to another node: try again later)"

# Errors that a script has in reply only if nothing was carried out, each with what the user can do: of Redis 7.0.15, but for the last, which
# is of Redis from 7.2 on and of Valkey. Some are told in a script, which adds its digest and a line.
OF_SCRIPT = b" script: e56f0b7a92f688ed4e817ac03c5aa8c80728a1df, on @user_script:140."
WITHOUT_A_WRITE = [
    (b"NOSCRIPT No matching script. Please use EVAL.", b""),
    (b"ASK 1649 127.0.0.1:7001", LATER),
    (b"TRYAGAIN Multiple keys request during rehashing of slot", LATER),
    (b"CLUSTERDOWN The cluster is down", b" (the cluster does not serve: see CLUSTER INFO)"),
    (
        b"MASTERDOWN Link with MASTER is down and replica-serve-stale-data is set to 'no'.",
        b" (a replica that has lost its primary: name the primary)",
    ),
    (b"LOADING Redis is loading the dataset in memory", b" (it reads its data: try again later)"),
    (
        b"BUSY Redis is busy running a script. You can only call SCRIPT KILL or SHUTDOWN NOSAVE.",
        b" (another script is running: try again later, or end it with SCRIPT KILL)",
    ),
    (b"NOAUTH Authentication required.", b" (give a password: --password-file FILE)"),
    (b"NOPERM this user has no permissions to run the 'eval' command", RIGHT),
    (b"DENIED Redis is running in protected mode", b" (it takes no connection from other machines: see protected-mode)"),
    (b"ERR max number of clients reached", b" (it has no room for another client: try again later, or raise maxclients)"),
    (b"ERR unknown command 'EVAL', with args beginning with: 'return 1' ", b""),
    (b"ERR wrong number of arguments for 'eval' command", b""),
    (b"READONLY You can't write against a read only replica." + OF_SCRIPT, b" (a replica: name its primary)"),
    (
        b"NOREPLICAS Not enough good replicas to write." + OF_SCRIPT,
        b" (too few replicas are connected, so it takes no writes: see min-replicas-to-write)",
    ),
    (
        b"MISCONF Redis is configured to save RDB snapshots, but it's currently unable to persist to disk." + OF_SCRIPT,
        b" (it cannot save its data, so it takes no writes: see its log)",
    ),
    (b"OOM command not allowed when used memory > 'maxmemory'." + OF_SCRIPT, b" (its memory is full: see maxmemory)"),
    (b"WRONGTYPE Operation against a key holding the wrong kind of value", b" (the key does not hold a stream: see TYPE)"),
    (b"ERR The user executing the script can't run this command or subcommand" + OF_SCRIPT, RIGHT),
    (b"ERR ACL failure in script: User recover has no permissions to run the 'xclaim' command" + OF_SCRIPT, RIGHT),
]

# Errors that a script may have in reply although it was carried out: of proxies, and whatever begins like one of those above.
OTHERS = [
    b"ERR",
    b"",
    b"ERR Connection timed out",
    b"ERR Connection reset by peer",
    b"upstream failure",
    b"WRONGPASS invalid username-password pair or user is disabled.",
    b"BUSYGROUP Consumer Group name already exists",
    b"BUSYKEY Target key name already exists.",
    b"LOADINGS",
    b"ERR max number of clients",
    b"ERR unknown",
    b"ERR Error running script",
    b"ERR ACL failure",
    b"ERR ACL failure in scripts:",
    b"ERR Protocol error: invalid bulk length",
    b" LOADING",
    b"loading",
]


A_STRING = [["DEL", "s"], ["SET", "s", "x"]]


def name_of(number):
    """A call as the program names it."""
    return {"XINFO": b"XINFO STREAM"}.get(CALLS[number], CALLS[number].encode())


def told(number, text, advice=b""):
    """What is printed of an error in place of the answer to a call."""
    return b"redis: %s is answered with an error: %s%s\n" % (name_of(number), text, advice)


def in_place(tally, side):
    """Each error in place of each answer, and nothing of it is done. Of a script it is told whether that is known."""
    for number, name in enumerate(CALLS):
        rows = [(text, 1, told(number, text, advice)) for text, advice in WITHOUT_A_WRITE]
        rows += [(text, 5, UNKNOWN % (name.encode(), text)) if number >= FIRST_SENT else (text, 1, told(number, text)) for text in OTHERS]
        for text, status, wanted in rows:
            if name == "EVALSHA" and text.startswith(b"NOSCRIPT"):
                continue  # then it is sent as EVAL
            side.begin(refused(number, text))
            found = side.run()
            tally.check(f"{text} in place of {name}", (status, b"", wanted, b"DD"), (*found[:3], side.owners()))


def carried_out(tally, side):
    """A proxy gives up a script that Redis carries out."""
    for text in OTHERS:
        side.begin(replaced(CALLS.index("EVAL"), lambda _, text=text: Sent(b"-%s\r\n" % text)))
        found = side.run()
        tally.check(f"carried out, and then {text}", (5, b"", UNKNOWN % (b"EVAL", text), b"BA"), (*found[:3], side.owners()))


def page(tally):
    """The errors that docs/LIVE.md lists are these, and MOVED, which is followed."""
    with open(LIVE_PAGE, encoding="utf-8") as file:
        text = file.read()
    listed = re.search(r"Nothing was carried out after (.*?)\n\n", text, re.DOTALL)
    starts = re.findall(r"`([^`]+)`", listed[1].partition("After any other error")[0]) if listed else []
    texts = [text.decode() for text, _ in WITHOUT_A_WRITE] + ["MOVED 1 127.0.0.1:7001"]
    tried = {start: any(text.startswith(start) for text in texts) for start in starts}
    tally.check("errors of the page that were not tried", [], [start for start, is_tried in tried.items() if not is_tried])
    tally.check("errors that the page lacks", [], [text for text in texts if not any(map(text.startswith, starts))])


def becomes_a_string(side):
    """Has the key be another kind of value right before the script."""
    def act(call):
        if call.words[0] == b"EVALSHA":
            all_replies(side.connection, A_STRING)
        return passed_on(call)

    return act


def of_redis(tally, side):
    """Errors that Redis itself gives: too few replicas, and another kind of key, before the look-up and before the script."""
    few = ["CONFIG", "SET", "min-replicas-to-write"]
    rows = [
        ("too few replicas", [[*few, 1]], passed_on, b"EVAL is answered with an error: NOREPLICAS"),
        ("a string", A_STRING, passed_on, b"XPENDING is answered with an error: WRONGTYPE"),
        ("a string before the script", [], becomes_a_string(side), b"EVAL is answered with an error: WRONGTYPE"),
    ]
    for what, setting, act, text in rows:
        side.begin(act)
        all_replies(side.connection, setting)
        found = side.run()
        tally.check(what, (1, b"", True), (found.status, found.out, found.errors.startswith(b"redis: " + text)))
        all_replies(side.connection, [[*few, 0]])
    side.begin()
    all_replies(side.connection, [[*few, 1]])
    side.run()
    tally.check("too few replicas: nothing has changed", b"DD", side.owners())
    all_replies(side.connection, [[*few, 0]])


def at_first(tally, side):
    """Errors in reply to AUTH and SELECT. One that says nothing of a password is not told as a refusal of it."""
    places = b"ERR max number of clients reached", b" (it has no room for another client: try again later, or raise maxclients)"
    rights = b"NOPERM this user has no permissions to run the 'select' command", RIGHT
    wrong = b"WRONGPASS invalid username-password pair or user is disabled."
    auth = {"REDISCLI_AUTH": "word"}
    for name, env, (text, advice) in (("AUTH", auth, places), ("SELECT", {}, places), ("SELECT", {}, rights)):
        side.begin(refused(0, text))
        found = run(side.proxy.port, policy_text(TWO_LIVE), "plan", GROUP, *["--db", 1] * (name == "SELECT"), env=env)
        wanted = b"redis: %s is answered with an error: %s%s\n" % (name.encode(), text, advice)
        tally.check(f"{text} in place of {name}", (1, b"", wanted), found[:3])
    side.begin(refused(0, wrong))
    found = run(side.proxy.port, policy_text(TWO_LIVE), "plan", GROUP, env=auth)
    tally.check("a wrong password", (1, b"", b"redis: the user's name or the password is refused: %s\n" % wrong), found[:3])


def compare(tally):
    """Compares all of it."""
    side = Side()
    try:
        for part in (in_place, carried_out, of_redis, at_first):
            part(tally, side)
        tally.check("the proxy's faults", [], side.proxy.faults)
    finally:
        side.close()
    page(tally)
