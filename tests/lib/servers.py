"""Starts a server on a free port of the loopback interface, waits until it listens, and stops it; and talks RESP2 to it.

    with servers.Server("crates/sr_server/out/sr_server", workers=8) as server, server.connect() as connection:
        connection.call("PING")

sr_server serves in two ways: `workers=N` has N threads, and `connections=N` one loop for N connections.
"""

import functools
import os
import resource
import select
import shutil
import signal
import socket
import subprocess
import tempfile
import time

from .resp import ErrorReply, Fault, Replies, spelled

HOST = "127.0.0.1"
SECONDS = 20  # that a server has to begin or to end
TRIES = 3  # another program may take the free port first
WAYS = THREADS, LOOP = "workers", "connections"  # of serving, each by the option that says how many are served
OWN = 100  # descriptors that a program needs beside its connections


def stop_when_ended():
    """Has a program that is ended by a signal stop its servers first."""
    signal.signal(signal.SIGTERM, signal.default_int_handler)


def free_port():
    with socket.socket() as probe:
        probe.bind((HOST, 0))
        return probe.getsockname()[1]


def ways_of(words):
    """The ways of serving that a command line names, or all."""
    if not set(words) <= set(WAYS):
        raise SystemExit(f"{' '.join(words)}: not among {', '.join(WAYS)}")
    return words or WAYS


def raised_limit(number):
    """How many connections this program and its servers may have each: so many, if the system allows that."""
    soft, hard = resource.getrlimit(resource.RLIMIT_NOFILE)
    limit = number + OWN if hard == resource.RLIM_INFINITY else min(hard, number + OWN)
    if soft != resource.RLIM_INFINITY and soft < limit:
        resource.setrlimit(resource.RLIMIT_NOFILE, (limit, hard))
    return limit - OWN


def clock_of(process):
    """The clock of the processor time of a process, as Linux numbers it (clock_getcpuclockid)."""
    return (~process << 3) | 2


class Connection(Replies):
    """One connection. An error reply is raised by `call`, and returned by `reply`."""

    def __init__(self, port, seconds=SECONDS):
        self.socket = socket.create_connection((HOST, port), timeout=seconds)
        self.socket.setsockopt(socket.IPPROTO_TCP, socket.TCP_NODELAY, 1)
        super().__init__(self.socket.makefile("rb"))

    def __enter__(self):
        return self

    def __exit__(self, *_):
        self.close()

    def close(self):
        self.file.close()
        self.socket.close()

    def send(self, *words):
        self.socket.sendall(spelled(*words))

    def call(self, *words):
        self.send(*words)
        reply = self.reply()
        if isinstance(reply, ErrorReply):
            raise reply
        return reply


class Process:
    """A server's process, and what the system knows of it."""

    port = None
    process = None

    def __enter__(self):
        return self

    def __exit__(self, *_):
        self.stop()

    def connect(self, seconds=SECONDS):
        return Connection(self.port, seconds)

    def alive(self):
        return self.process.poll() is None

    def stop(self):
        """Ends the process. Servers keep nothing, so nothing is lost by it that would be kept otherwise."""
        if self.alive():
            self.process.terminate()
        try:
            self.process.wait(SECONDS)
        except subprocess.TimeoutExpired:
            self.process.kill()
            self.process.wait()

    def memory(self):
        """Its resident bytes."""
        return self.status("VmRSS") * 1024

    def threads(self):
        return self.status("Threads")

    def status(self, name):
        with open(f"/proc/{self.process.pid}/status") as status:
            return next(int(line.split()[1]) for line in status if line.startswith(name + ":"))

    def handles(self):
        """How many files and sockets it has open."""
        return len(os.listdir(f"/proc/{self.process.pid}/fd"))

    def processor(self):
        """The seconds of processor time that all its threads took: utime and stime of its `stat`, in nanoseconds."""
        return time.clock_gettime(clock_of(self.process.pid))

    def processors(self):
        """The same of each of its threads."""
        return {name: self.ran(name) for name in os.listdir(f"/proc/{self.process.pid}/task")}

    def ran(self, thread):
        with open(f"/proc/{self.process.pid}/task/{thread}/schedstat") as stat:
            return int(stat.read().split()[0]) / 1e9


def limited(descriptors):
    """What has a program begin with so many files and sockets at most."""
    return functools.partial(resource.setrlimit, resource.RLIMIT_NOFILE, (descriptors, descriptors))


class Server(Process):
    """`sr_server --listen`, which prints a line when it listens."""

    name = "sr_server"

    def __init__(self, program, descriptors=None, env=None, errors=None, **options):
        """`options` are those of its command line, as `keep=1000` for `--keep 1000`; one that is None is not given. `descriptors` is how many
        files and sockets it may have open, and `errors` the file that its standard error goes to."""
        limit = descriptors and limited(descriptors)
        options = [word for name, value in options.items() if value is not None for word in (f"--{name}", str(value))]
        for _ in range(TRIES):
            self.port = free_port()
            address = f"{HOST}:{self.port}"
            words = [program, "--listen", address, *options]
            self.process = subprocess.Popen(words, stdin=subprocess.DEVNULL, stdout=subprocess.PIPE, stderr=errors, env=env, preexec_fn=limit)
            line = self.first_line()
            if line == f"listening on {address}\n".encode():
                return
            self.stop()
        raise Fault(f"{program} --listen {address} printed {line!r} and ended with status {self.process.returncode}")

    def first_line(self):
        ready, _, _ = select.select([self.process.stdout], [], [], SECONDS)
        return self.process.stdout.readline() if ready else b""

    def stop(self):
        super().stop()
        self.process.stdout.close()


class Redis(Process):
    """A Redis server (Debian: redis-server) that keeps nothing. Further options are as on its command line."""

    name = "Redis"

    def __init__(self, *more, port=None):
        self.port = port or free_port()
        self.folder = tempfile.TemporaryDirectory()
        options = ["--bind", HOST, "--port", str(self.port), "--save", "", "--appendonly", "no", "--dir", self.folder.name]
        self.process = subprocess.Popen(["redis-server", *options, *more], stdout=subprocess.DEVNULL)
        until = time.monotonic() + SECONDS
        while not self.answers():
            if not self.alive() or time.monotonic() > until:
                self.stop()
                raise Fault("redis-server did not begin")
            time.sleep(0.02)

    @staticmethod
    def installed():
        return shutil.which("redis-server") is not None

    def answers(self):
        try:
            with self.connect() as connection:
                return connection.call("PING") == b"PONG"
        except OSError:
            return False

    def stop(self):
        super().stop()
        self.folder.cleanup()
