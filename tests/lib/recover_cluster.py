"""sr_recover at a cluster of three nodes: the key may be on another node than the one that is named."""

import re
import shutil
import subprocess
import time

from .live import all_replies
from .live_rows import TWO, TWO_LIVE
from .recover import Printed, policy_text, run
from .resp import Fault
from .servers import HOST, Redis, free_port

NODES, SECONDS = 3, 60
AFTER = 1000  # milliseconds after which a consumer is dead


def started():
    """The nodes, each with a bus of its own."""
    for _ in range(NODES):
        yield Redis("--cluster-enabled", "yes", "--cluster-port", str(free_port()), "--cluster-node-timeout", "5000")


def joined(nodes):
    """Whether they could be made one cluster that serves."""
    words = ["redis-cli", "--cluster", "create", *(f"{HOST}:{node.port}" for node in nodes), "--cluster-yes"]
    try:
        made = subprocess.run(words, stdin=subprocess.DEVNULL, capture_output=True, timeout=SECONDS, check=False)
    except subprocess.TimeoutExpired:
        return False
    until = time.monotonic() + SECONDS
    while made.returncode == 0 and time.monotonic() < until:
        if all(b"cluster_state:ok" in told(node, "CLUSTER", "INFO") for node in nodes):
            return True
        time.sleep(0.1)
    return False


def told(node, *words):
    with node.connect() as connection:
        return connection.call(*words)


def commands(key):
    """The setting of TWO at another key."""
    return [[key if word == "s" else word for word in words] for words in TWO]


def key_of(node, number):
    """A key of this node."""
    with node.connect() as connection:
        for at in range(1000):
            key = f"jobs{number}{at}"
            if not isinstance(all_replies(connection, [["GET", key]])[0], Exception):
                return key
    raise Fault("no key is on a node of the cluster")


def rows(tally, nodes):
    """Each key by way of each node."""
    for number, owner in enumerate(nodes):
        key = key_of(owner, number)
        with owner.connect() as connection:
            all_replies(connection, [["DEL", key], *commands(key)])
            for named in nodes:
                found = run(named.port, policy_text(TWO_LIVE), "plan", [key, "g", "D"])
                total = Printed(found.out).total
                tally.check(f"{key} by way of {named.port}", (0, b"", 6), (found.status, found.errors, total))
            found = run(nodes[number - 1].port, policy_text(TWO_LIVE), "run", [key, "g", "D"])
            done = Printed(found.out).done
            tally.check(f"{key} is carried out", (0, b"", (2, 0)), (found.status, found.errors, done))
            tally.check(f"{key} afterwards", [], connection.call("XPENDING", key, "g", "-", "+", 9, "D"))
    watched(tally, nodes)
    found = run(nodes[0].port, policy_text(TWO_LIVE), "board", ["jobs", "g"], "--db", 1)
    tally.check("another database", (1, b"", True), (*found[:2], b"SELECT" in found.errors))


def watched(tally, nodes):
    """A group on each node, of which all are watched by way of the first one: the dead one's entries have been idle."""
    keys = [key_of(owner, number) for number, owner in enumerate(nodes)]
    for key, owner in zip(keys, nodes):
        with owner.connect() as connection:
            all_replies(connection, [["DEL", key], *commands(key)])
    time.sleep(AFTER / 1000)
    for key, owner in zip(keys, nodes):
        with owner.connect() as connection:  # A and B are seen
            all_replies(connection, [["XREADGROUP", "GROUP", "g", name, "STREAMS", key, "0"] for name in "AB"])
    groups = [word for key in keys for word in (key, "g")]
    found = run(nodes[0].port, policy_text(TWO_LIVE), "watch", groups, "--once", "--dead-after", AFTER)
    line = r"\d+ %s g: dead D, claimed 2, cost 6, gap 0, tries 1, ms \d+\n"
    is_told = re.fullmatch("".join(line % key for key in keys).encode(), found.out) is not None
    tally.check(f"watch of {groups}: {found.out}", (0, b"", True), (found.status, found.errors, is_told))


def compare(tally):
    """Compares all rows; or says why there is none."""
    if shutil.which("redis-cli") is None:
        print("cluster: skipped, since redis-cli is not installed (Debian: redis-tools)")
        return
    nodes = []
    try:
        nodes.extend(started())
        if joined(nodes):
            rows(tally, nodes)
        else:
            print("cluster: skipped, since redis-cli could not make one")
    finally:
        for node in nodes:
            node.stop()
