"""Counts answers, prints those that differ, and bounds the time that all of it takes.

    sys.exit(tally.judged("waiting", 60, lambda tally: run(tally, program)))
"""

import signal

from . import servers
from .resp import Fault


class Late(Exception):
    """All of it took too long."""


class Tally:
    """Counts answers, and prints those that differ."""

    def __init__(self, name):
        self.name, self.answers, self.differing = name, 0, 0

    def compare(self, what, wanted, found):
        self.answers += 1
        if found != wanted:
            self.wrong(f"{what}: expected {brief(wanted)}, not {brief(found)}")

    def holds(self, what, holds):
        self.compare(what, True, holds)

    def wrong(self, text):
        self.differing += 1
        print(f"{self.name}: {text}", flush=True)

    def play(self, part, *words):
        """Plays a part. A client that is not answered, or as nobody expects, ends it."""
        try:
            part(self, *words)
        except Late:
            raise
        except Exception as fault:
            self.wrong(f"{part.__name__}: {type(fault).__name__}: {fault}")

    def serve(self, part, make, *words):
        """Plays a part with a server of its own, which this makes, and which must still run at the end."""
        with make() as server:
            self.play(part, server, *words)
            self.holds(f"{part.__name__}: the server runs", server.alive())


def brief(value):
    """How a value is printed, cut off if it is long."""
    text = repr(value)
    return text if len(text) <= 400 else f"{text[:400]} .. ({len(text):,} characters)"


def judged(name, seconds, run):
    """Has a tally of this name judge what runs, within so many seconds. Prints how many answers differ. The status."""
    def end(*_):
        raise Late

    servers.stop_when_ended()
    signal.signal(signal.SIGALRM, end)
    signal.alarm(seconds)
    tally = Tally(name)
    try:
        run(tally)
    except Late:
        tally.wrong(f"not done after {seconds} seconds")
    except (OSError, Fault) as fault:
        tally.wrong(f"the server did not begin: {fault}")
    finally:
        signal.alarm(0)
    print(f"{name}: {tally.answers} answers, {tally.differing} differ")
    return 1 if tally.differing else 0
