#!/usr/bin/env python3
"""Gives sr_server command lines that it refuses, addresses, and readers and writers that fail, and compares what it does with what is written here.

usage: tests/program.py PROGRAM

A refused command line ends with status 2, no reply and some text on standard error, which names the first fault. So does one that asks for
more connections than the process may open files. An address of which another program is listening cannot be bound. At one that other machines
may reach the server warns before it says that it listens. A reader that fails is a folder or a socket, a writer that fails is /dev/full.
Standard input, output and error are closed, too, one and all: then a session fails, and no socket of a server has the place of one.
Prints what differs; the status is 1 if anything does.
"""

import os
import resource
import socket
import subprocess
import sys
import time

from lib.resp import spelled
from lib.servers import HOST, free_port

SECONDS = 60
KEEPS_ALL = b"note: all records are kept, so memory grows with each request; --keep N lets go of them\n"
WARNING = b"warning: there is no access control: any client that reaches this address can read, add and delete every entry\n"
PING, XLEN = spelled("PING"), spelled("XLEN", "s")

REFUSED = [
    "sr_server",
    "sr_server --other",
    "sr_server --help",
    "sr_server --version",
    "sr_server word",
    "sr_server --stdio word",
    "sr_server --stdio --stdio",
    "sr_server --stdio --listen 127.0.0.1:6379",
    "sr_server --stdio --policy",
    "sr_server --stdio --policy -x",
    "sr_server --policy p.toml",
    "sr_server --stdio --policy p.toml --policy q.toml",
    "sr_server --stdio --workers 0",
    "sr_server --stdio --workers 65",
    "sr_server --workers 8",
    "sr_server --listen 127.0.0.1",
    "sr_server --listen localhost:6379",
    "sr_server --listen 127.0.0.1:6379 --workers many",
    "sr_server --stdio --keep 1",
    "sr_server --stdio --keep 0",
    "sr_server --keep 1",
    "sr_server --listen 127.0.0.1:6379 --keep 0",
    "sr_server --listen 127.0.0.1:6379 --keep 1000000001",
    "sr_server --listen 127.0.0.1:6379 --keep 1 --keep 2",
    "sr_server --connections 10",
    "sr_server --listen 127.0.0.1:6379 --connections 0",
    "sr_server --listen 127.0.0.1:6379 --connections 10001",
    "sr_server --listen 127.0.0.1:6379 --connections all",
    "sr_server --listen 127.0.0.1:6379 --connections 5 --connections 6",
]

# What does not go together and which of two faults is reported: the text of the first.
WORKERS, KEEP = b"--workers takes a number from 1 to 64", b"--keep takes a number from 1 to 1000000000"
CONNECTIONS, IDLE = b"--connections takes a number from 1 to 10000", b"--idle takes a number from 0 to 86400"
UNFINISHED = b"--unfinished takes a number from 1 to 1000000000000"
KEEP_BYTES, IDLE_WAITING = b"--keep-bytes takes a number from 1 to 1000000000000", b"--idle-waiting takes a number from 0 to 86400"
KEEP_BYTES_ALONE, IDLE_WAITING_ALONE = b"--keep-bytes needs --keep", b"--idle-waiting needs --connections"
FIRST = [
    ("--stdio --keep 0 --workers 0", WORKERS),
    ("--stdio --connections 0 --keep 0", KEEP),
    ("--stdio --idle x --connections 0", CONNECTIONS),
    ("--listen here --unfinished 0 --connections 1 --idle 86401", IDLE),
    ("--listen here --unfinished 0", UNFINISHED),
    ("--listen here --connections 1 --unfinished 1000000000001", UNFINISHED),
    ("--stdio --keep-bytes 0 --unfinished 0", UNFINISHED),
    ("--stdio --idle-waiting x --keep-bytes 0", KEEP_BYTES),
    ("--listen here --connections 1 --keep 1 --keep-bytes 1000000000001", KEEP_BYTES),
    ("--listen here --idle-waiting 86401 --connections 1", IDLE_WAITING),
    ("--idle-waiting soon", IDLE_WAITING),
    ("--listen here --workers 1 --connections 1", b"--listen takes an address and a port, as 127.0.0.1:6379 or [::1]:6379"),
    ("--stdio --listen 127.0.0.1:6379 --keep 1", b"exactly one of --stdio and --listen is needed"),
    ("--stdio --connections 1 --keep 1", b"--keep needs --listen"),
    ("--stdio --idle 1 --connections 1", b"--connections needs --listen"),
    ("--stdio --workers 1 --connections 1", b"--connections needs --listen"),
    ("--listen 127.0.0.1:6379 --workers 1 --connections 1 --idle 1", b"--connections and --workers exclude each other"),
    ("--listen 127.0.0.1:6379 --unfinished 1 --idle 0", b"--idle needs --connections"),
    ("--stdio --idle 1", b"--idle needs --connections"),
    ("--listen 127.0.0.1:6379 --workers 1 --unfinished 1", b"--unfinished needs --connections"),
    ("--listen 127.0.0.1:6379 --keep-bytes 1 --unfinished 1", b"--unfinished needs --connections"),
    ("--listen 127.0.0.1:6379 --connections 1 --workers 1 --keep-bytes 1", b"--connections and --workers exclude each other"),
    ("--stdio --keep-bytes 1 --keep 1", b"--keep needs --listen"),
    ("--stdio --keep-bytes 1", KEEP_BYTES_ALONE),
    ("--listen 127.0.0.1:6379 --workers 1 --keep-bytes 1", KEEP_BYTES_ALONE),
    ("--listen 127.0.0.1:6379 --connections 1 --keep-bytes 1 --idle-waiting 1", KEEP_BYTES_ALONE),
    ("--listen 127.0.0.1:6379 --idle-waiting 0 --keep-bytes 1", KEEP_BYTES_ALONE),
    ("--listen 127.0.0.1:6379 --keep 1 --keep-bytes 1 --idle-waiting 0", IDLE_WAITING_ALONE),
    ("--stdio --idle-waiting 1", IDLE_WAITING_ALONE),
]

# What is closed of standard input, output and error.
CLOSED = [(0,), (1,), (2,), (0, 1, 2)]

# How many files a process has that may not open as many as a loop needs, how many connections are asked for, and whether they are too many.
FILES = [(64, 48, False), (64, 49, True), (1024, 10000, True)]


def run(program, line, **pipes):
    """The status, the replies and the text on standard error of the program with these words. What is not captured is none."""
    pipes = {"stdout": subprocess.PIPE, "stderr": subprocess.PIPE, **pipes}
    ended = subprocess.run([program, *line.split()[1:]], timeout=SECONDS, check=False, **pipes)
    return ended.returncode, ended.stdout, ended.stderr


def usage(text):
    """What is said of a command line with this fault."""
    return b"error: " + text + b"\n\nFor more information, try '--help'.\n"


def with_files(program, most, connections):
    """What a server says that is to serve this many connections by a loop in a process that may open `most` files."""
    line = f"sr_server --listen {HOST}:{free_port()} --policy / --connections {connections}"
    return run(program, line, stdin=subprocess.DEVNULL, preexec_fn=lambda: resource.setrlimit(resource.RLIMIT_NOFILE, (most, most)))


def refused(program, line):
    status, replies, text = run(program, line, input=PING)
    return status, replies, text != b""


def from_folder(program):
    """A session whose first read fails."""
    folder = os.open("/", os.O_RDONLY)
    try:
        return run(program, "sr_server --stdio", stdin=folder)
    finally:
        os.close(folder)


def from_reset(program):
    """A session whose read fails after a request: the other end of its socket was closed before all that it got was read."""
    client, server = socket.socketpair()
    with server:
        with client:
            client.sendall(XLEN)
            server.sendall(b"unread")
        return run(program, "sr_server --stdio", stdin=server)


def to_full(program, line, name, sent):
    """A program of which what it writes at this name is refused."""
    with open("/dev/full", "wb") as full:
        return run(program, line, input=sent, **{name: full})


def to_taken(program, options=""):
    """A server that is told an address at which another one listens."""
    with socket.socket() as other:
        other.bind((HOST, 0))
        other.listen()
        return run(program, f"sr_server --listen {HOST}:{other.getsockname()[1]}{options}", stdin=subprocess.DEVNULL)


def begun(program, line):
    """What a server says once it listens, and the text on standard error until then."""
    pipes = {"stdin": subprocess.DEVNULL, "stdout": subprocess.PIPE, "stderr": subprocess.PIPE}
    with subprocess.Popen([program, *line.split()[1:]], **pipes) as process:
        said = process.stdout.readline()
        process.kill()
        return said, process.communicate(timeout=SECONDS)[1]


def addresses(program):
    """What is tried of addresses, what is wanted of it and what came of it. The text of an address is said as it was given."""
    yield "an address that is taken", (1, b"", b"listen: cannot bind\n"), to_taken(program)
    local = f"{HOST}:{free_port()}"
    yield local, (f"listening on {local}\n".encode(), b""), begun(program, f"sr_server --listen {local} --workers 3 --keep 1000000000 --keep-bytes 1")
    local = f"{HOST}:{free_port()}"
    line = f"sr_server --listen {local} --connections 100 --idle 86400 --unfinished 1000000000000 --keep 1"
    line += " --keep-bytes 1000000000000 --idle-waiting 86400"
    yield f"{local}, by one loop", (f"listening on {local}\n".encode(), b""), begun(program, line)
    yield "an address that is taken, by one loop", (1, b"", b"listen: cannot bind\n"), to_taken(program, " --connections 5")
    every = f"0.0.0.0:0{free_port()}"
    yield every, (f"listening on {every}\n".encode(), WARNING + KEEPS_ALL), begun(program, f"sr_server --policy=/dev/null --listen={every}")


def closing(closed):
    """Has a program begin without these descriptors."""
    return lambda: [os.close(descriptor) for descriptor in closed]


def pinged(port):
    """What a server sends that is pinged, and then told that no more comes."""
    until = time.monotonic() + SECONDS
    while time.monotonic() < until:
        try:
            with socket.create_connection((HOST, port), timeout=SECONDS) as client:
                client.sendall(PING)
                client.shutdown(socket.SHUT_WR)
                return b"".join(iter(lambda: client.recv(64), b""))
        except ConnectionRefusedError:
            time.sleep(0.02)
        except OSError as fault:
            return fault
    return b"nobody listens"


def served(program, options, closed):
    """What a server sends that began without these descriptors, what has their places, whether it says where it listens, and the rest."""
    port = free_port()
    words = [program, "--listen", f"{HOST}:{port}", *options.split()]
    with subprocess.Popen(words, stdin=subprocess.DEVNULL, stdout=subprocess.PIPE, stderr=subprocess.PIPE, preexec_fn=closing(closed)) as server:
        try:
            said = b"" if 1 in closed else server.stdout.readline()
            sent = pinged(port)
            places = [os.readlink(f"/proc/{server.pid}/fd/{descriptor}") for descriptor in closed]
        finally:
            server.kill()
        return sent, places, said == f"listening on {HOST}:{port}\n".encode(), *server.communicate(timeout=SECONDS)


def without(program):
    """Sessions and servers that begin without standard input, output or error."""
    sessions = [(0, b"", b"session: read fault\n"), (1, b"", b"session: write fault\n"), (2, b"+PONG\r\n", b"")]
    for closed, replies, text in sessions:
        found = run(program, "sr_server --stdio", input=PING, preexec_fn=closing([closed]))
        yield f"--stdio without {closed}", (0 if closed == 2 else 1, replies, text), found
    for closed in CLOSED:
        for options in ("--workers 2 --keep 1000", "--connections 5 --keep 1000"):
            wanted = b"+PONG\r\n", ["/dev/null"] * len(closed), 1 not in closed, b"", b""
            yield f"{options} without {closed}", wanted, served(program, options, closed)


def rows(program):
    """What is tried, what is wanted of it and what came of it."""
    for line in REFUSED:
        yield line, (2, b"", True), refused(program, line)
    for options, text in FIRST:
        line = f"sr_server {options}"
        yield line, (2, b"", usage(text)), run(program, line, input=PING)
    for most, connections, too_many in FILES:
        # The folder is no policy: where the files suffice, that is the first fault.
        text = f"error: --connections: this process may open {most} files, of which 16 are its own\n"
        wanted = (2, b"", text.encode()) if too_many else (1, b"", b"policy: cannot read\n")
        yield f"{connections} connections with {most} files", wanted, with_files(program, most, connections)
    yield "a read that fails", (1, b"", b"session: read fault\n"), from_folder(program)
    yield "a read that fails after a request", (1, b":0\r\n", b"session: read fault\n"), from_reset(program)
    stdio = "sr_server --stdio"
    yield "a write that fails", (1, None, b"session: write fault\n"), to_full(program, stdio, "stdout", XLEN)
    error = b"-ERR Protocol error\r\n"
    yield "a line that cannot be written", (1, error, None), to_full(program, stdio, "stderr", b"$1\r\n")
    yield "a refusal that cannot be written", (2, b"", None), to_full(program, "sr_server", "stderr", PING)
    text = b"error: the command line is not UTF-8\n"
    yield "words that are not UTF-8", (2, b"", text), run(program, "sr_server --stdio \udcff", input=PING)
    yield from addresses(program)
    yield from without(program)


def main():
    if len(sys.argv) != 2:
        sys.exit(__doc__.split("\n\n")[1])
    count, wrong = 0, 0
    for what, wanted, found in rows(os.path.abspath(sys.argv[1])):
        count += 1
        if found != wanted:
            wrong += 1
            print(f"{what}\nexpected: {wanted}\ngiven:    {found}")
    print(f"program: {count} runs, {wrong} wrong")
    sys.exit(1 if wrong else 0)


main()
