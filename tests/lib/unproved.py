"""Programs without proofs, as `rt try` builds them: for a first look, since only a proved program counts.

    with unproved.Trial("sr_server", ["--listen", "127.0.0.1:6379"]) as server:
        if server.wait("the server", lambda: answers("127.0.0.1:6379")):
            ..

`rt try` first interprets a program, and builds it once it comes to what it cannot interpret; then it runs what it has built, and keeps nothing
of it. `kept` copies that.
"""

import contextlib
import os
import select
import shutil
import signal
import socket
import subprocess
import time

ROOT = os.path.realpath(os.path.join(os.path.dirname(os.path.abspath(__file__)), "..", ".."))
DAY = 86400  # seconds that a program runs at most
TOLD = 15  # seconds from one line to the next while it builds
PAUSE = 0.5  # seconds between two looks at it
LACKING = "there is no rt: put the bin folder of the kit on your path (README.md, Quickstart)"


def parent_of(number):
    with open(f"/proc/{number}/stat") as stat:
        return stat.read().rpartition(")")[2].split()[1]


def words_of(number):
    """The command line of a process."""
    with open(f"/proc/{number}/cmdline") as line:
        return line.read().split("\0")[:-1]


def below(top):
    """The processes that a process has started, and those that these have."""
    parents = {}
    for number in filter(str.isdigit, os.listdir("/proc")):
        with contextlib.suppress(OSError):
            parents[number] = parent_of(number)
    found = [str(top)]
    for number in found:
        found += [child for child, parent in parents.items() if parent == number]
    return found[1:]


class Trial:
    """A program that `rt try` builds and then runs with these words, in a session of its own, so that all of it can be stopped together."""

    def __init__(self, crate, words):
        self.words = words
        folder = os.path.join(ROOT, "crates", crate)
        command = ["rt", "try", "--seconds", str(DAY), "--", *words]
        self.process = subprocess.Popen(command, cwd=folder, stdin=subprocess.DEVNULL, start_new_session=True)

    def __enter__(self):
        return self

    def __exit__(self, *_):
        for sign in (signal.SIGTERM, signal.SIGKILL):
            with contextlib.suppress(ProcessLookupError):
                os.killpg(self.process.pid, sign)
            with contextlib.suppress(subprocess.TimeoutExpired):
                self.process.wait(5)
                return

    def built(self):
        """The words that run the program once it is built: its path, after those of a loader if it has one. None before."""
        for number in below(self.process.pid):
            with contextlib.suppress(OSError):
                words = words_of(number)
                if words[-len(self.words):] == self.words:
                    return words[:-len(self.words)]
        return None

    def wait(self, name, runs):
        """Tells how long the build takes. Whether the program is built and runs at last; if not, it has ended."""
        began, told = time.monotonic(), 0
        print(f"building {name} without proofs, which takes a minute or two", flush=True)
        while self.process.poll() is None:
            if self.built() and runs():
                return True
            seconds = int(time.monotonic() - began)
            if seconds >= told + TOLD:
                told = seconds
                print(f"  {seconds} seconds", flush=True)
            time.sleep(PAUSE)
        return False


def kept(crate, words, name, folder):
    """Builds the program of a crate, and answers the words that run a copy in this folder, or None if it could not be built. `words` has the
    program connect to the place that it is given, HOST:PORT, and wait there, so that there is time to copy it."""
    with socket.create_server(("127.0.0.1", 0)) as listener:
        with Trial(crate, words(f"127.0.0.1:{listener.getsockname()[1]}")) as trial:
            if not trial.wait(name, lambda: select.select([listener], [], [], 0)[0]):
                return None
            *loader, program = trial.built()
            return [*loader, shutil.copy(program, os.path.join(folder, crate))]
