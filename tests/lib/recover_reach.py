"""sr_recover at a Redis that is named by a URL, by REDIS_URL, by the path of a socket, or by a Sentinel."""

import contextlib
import os
import socket
import subprocess
import tempfile
import threading
import time

from .live import all_replies
from .live_rows import TWO, TWO_LIVE, lines
from .recover import PROGRAM, Proxy, Sent, ended, policy_text
from .recover_rows import GROUP, PLAN
from .resp import Fault
from .servers import HOST, Process, Redis, free_port

SECONDS = 20
SECRET = "s3cret word"
SPELLED = "s3cret%20word"  # in a URL
PLANNED = 0, PLAN, b""

FORM = "it has to be HOST:PORT, redis://USER@HOST:PORT/DB or unix:PATH"
NO_HOST = "the host is missing: a host and a port, as 127.0.0.1:6379"
NO_PORT = "the port is missing: a host and a port, as 127.0.0.1:6379"
PORT = "the port has to be a number from 1 to 65535"
DATABASE = "the database has to be a number, as redis://localhost:6379/3"
QUERY = "a URL has no ? and no # here: the database is its path, as redis://localhost:6379/3"
TLS = "there is no TLS: put stunnel before Redis (docs/OPERATIONS.md)"
PATH = "a path alone comes after unix:, as unix:/run/redis.sock"
LENGTH = "the path after unix: has to have 1 to 107 bytes"

# What is wrong as a value of --redis and of REDIS_URL alike. PORT stands for one at which somebody listens.
WRONG = [
    ("", NO_PORT),
    ("redis://", NO_HOST),
    ("redis://:PORT", NO_HOST),
    ("redis:///3", NO_HOST),
    ("redis://u@/3", NO_HOST),
    (f"redis://{HOST}:", NO_PORT),
    (f"redis://{HOST}:0", PORT),
    (f"redis://{HOST}:65536/1", PORT),
    (f"redis://{HOST}:x", PORT),
    ("redis://::1/3", "an IPv6 address and a port, as [::1]:6379"),
    (f"redis://{HOST}:PORT/x", DATABASE),
    (f"redis://{HOST}:PORT/-1", DATABASE),
    (f"redis://{HOST}:PORT/1000000001", DATABASE),
    (f"redis://{HOST}:PORT/0/", DATABASE),
    (f"redis://{HOST}:PORT?db=3", QUERY),
    (f"redis://{HOST}:PORT/3#x", QUERY),
    (f"redis://%ff@{HOST}:PORT", "an escape in it is not UTF-8"),
    (f"rediss://u:{SPELLED}@{HOST}:PORT", TLS),
    (f"http://u:{SPELLED}@{HOST}:PORT", FORM),
    (f"u:{SPELLED}@{HOST}:PORT", FORM),
    ("/run/redis.sock", FORM),
    ("unix:", LENGTH),
    ("unix:/" + 107 * "x", LENGTH),
    (f"unix://u:{SPELLED}@/run/redis.sock", PATH),
    (f"unix:/run/redis.sock?password={SPELLED}", PATH),
]

SEEN = "error: --redis: all users of this machine can see a password there: it has --password-file, REDISCLI_AUTH or REDIS_URL"
SENTINEL = ["--sentinel", f"{HOST}:PORT"]
MASTER = ["--master", "jobs"]
# Other options that are wrong, and the environment.
OPTIONS = [
    (["--redis", f"redis://u:{SPELLED}@{HOST}:PORT"], {}, SEEN),
    (["--redis", f"redis://:{SPELLED}@{HOST}:PORT/3"], {}, SEEN),
    (["--redis", f"redis://:%20@{HOST}:PORT/3"], {"REDISCLI_AUTH": SECRET}, SEEN),
    (["--redis", f"redis://u@{HOST}:PORT", "--user", "u"], {}, "error: --user: the URL of --redis names a user as well"),
    (["--redis", f"redis://{HOST}:PORT/3", "--db", "3"], {}, "error: --db: the URL of --redis names a database as well"),
    (["--redis", f"redis://u@{HOST}:PORT"], {}, "error: a user needs a password, from --password-file or REDISCLI_AUTH"),
    ([*SENTINEL], {}, "error: --sentinel: it needs --master, the name of the primary"),
    ([*MASTER], {}, "error: --master: it needs --sentinel, where a Sentinel is"),
    ([*SENTINEL, *MASTER, "--redis", f"{HOST}:PORT"], {}, "error: --sentinel: it says where Redis is, so there is no --redis beside it"),
    (["--sentinel", HOST, *MASTER], {}, "error: --sentinel: " + NO_PORT),
    (["--sentinel", f"redis://{HOST}:PORT", *MASTER], {}, "error: --sentinel: it has to be HOST:PORT"),
]


class Sentinel(Process):
    """A Sentinel that knows where the primaries of some names are."""

    def __init__(self, primaries):
        self.port = free_port()
        self.folder = tempfile.TemporaryDirectory()
        path = os.path.join(self.folder.name, "sentinel.conf")
        with open(path, "w", encoding="utf-8") as file:
            file.write(f"port {self.port}\nbind {HOST}\ndir {self.folder.name}\n")
            file.writelines(f"sentinel monitor {name} {HOST} {port} 1\n" for name, port in primaries.items())
        self.process = subprocess.Popen(["redis-server", path, "--sentinel"], stdout=subprocess.DEVNULL)
        until = time.monotonic() + SECONDS
        while not self.answers():
            if not self.alive() or time.monotonic() > until:
                self.stop()
                raise Fault("the Sentinel did not begin")
            time.sleep(0.02)

    def answers(self):
        with contextlib.suppress(OSError), self.connect() as connection:
            return connection.call("PING") == b"PONG"
        return False

    def stop(self):
        super().stop()
        self.folder.cleanup()


def asked(options, env=None, action="plan"):
    """What the program does with these options in place of --redis, and with this environment."""
    with tempfile.NamedTemporaryFile("w", suffix=".toml") as file:
        file.write(policy_text(TWO_LIVE))
        file.flush()
        found = ended([PROGRAM, action, "--policy", file.name, *options, *GROUP], env)[:3]
        return ("a password is printed", *found) if is_told(found) else found


def begun(connection, *more):
    all_replies(connection, [["FLUSHALL"], *TWO, *more])


def is_told(found):
    """Whether a password is in what is printed, spelled as in a URL or not."""
    return any(text.encode() in found[1] + found[2] for text in (SECRET, SPELLED))


def wrong(tally):
    """Values that are refused, without being repeated, and before any connection is opened."""
    with socket.create_server((HOST, 0)) as listener:
        listener.setblocking(False)
        port = str(listener.getsockname()[1])
        for text, told in WRONG:
            place = text.replace("PORT", port)
            for source, options, env in (("--redis", ["--redis", place], {}), ("REDIS_URL", [], {"REDIS_URL": place})):
                found = asked(options, env)
                tally.check(f"{source} {text}", (2, b"", f"error: {source}: {told}\n".encode()), found)
        for options, env, told in OPTIONS:
            found = asked([word.replace("PORT", port) for word in options], env)
            tally.check(f"{options} {env}", (2, b"", told.encode() + b"\n"), found)
        try:
            listener.accept()
            tally.check("connections that were opened", 0, 1)
        except BlockingIOError:
            tally.check("connections that were opened", 0, 0)


def urls(tally, server, connection):
    """URLs of --redis and of REDIS_URL, and which of them counts."""
    place, other = f"{HOST}:{server.port}", "redis://nobody.invalid:1/9"
    begun(connection)
    for text in (place, f"redis://{place}", f"redis://{place}/", f"redis://{place}/0", f"redis://localhost:{server.port}"):
        tally.check(f"--redis {text}", PLANNED, asked(["--redis", text]))
        tally.check(f"REDIS_URL={text}", PLANNED, asked([], {"REDIS_URL": text}))
    tally.check("--redis beside REDIS_URL", PLANNED, asked(["--redis", place], {"REDIS_URL": other}))
    begun(connection, ["MOVE", "s", 3])
    for what, options, env in (
        ("a database", ["--redis", f"redis://{place}/3"], {}),
        ("a database of REDIS_URL", [], {"REDIS_URL": f"redis://{place}/3"}),
        ("--db beside REDIS_URL", ["--db", "3"], {"REDIS_URL": f"redis://{place}/2"}),
    ):
        tally.check(what, PLANNED, asked(options, env))
    free = "127.0.0.99:6379"  # of the loopback interface, at which hardly anybody listens
    with contextlib.suppress(OSError):
        socket.create_connection(("127.0.0.99", 6379), timeout=1).close()
        free = None
    if free:
        found = asked(["--redis", "redis://127.0.0.99"])
        told = b"redis: cannot connect to 127.0.0.99:6379: Connection refused (os error 111). Is Redis running there, and is this its port?\n"
        tally.check("a URL without a port", (1, b"", told), found)


def passwords(tally, server, connection):
    """Whose password it is: that of the file, of REDIS_URL, or of REDISCLI_AUTH."""
    place, word = f"{HOST}:{server.port}", {"REDISCLI_AUTH": "other"}
    begun(connection)
    connection.call("CONFIG", "SET", "requirepass", SECRET)
    connection.call("ACL", "SETUSER", "plan@ner", "reset", "on", f">{SECRET}2", "allkeys", "allcommands")
    with tempfile.NamedTemporaryFile("w") as file:
        file.write(SECRET + "2\n")
        file.flush()
        of_file, user = ["--password-file", file.name], f"plan%40ner@{place}"
        for what, options, env in (
            ("REDIS_URL has it", [], {"REDIS_URL": f"redis://:{SPELLED}@{place}"}),
            ("REDIS_URL has it, and REDISCLI_AUTH another", [], word | {"REDIS_URL": f"redis://default:{SPELLED}@{place}"}),
            ("REDIS_URL has it with a user", [], {"REDIS_URL": f"redis://plan%40ner:{SPELLED}2@{place}/0"}),
            ("a file beside a user of --redis", ["--redis", f"redis://{user}", *of_file], word),
            ("REDISCLI_AUTH beside a user of --redis", ["--redis", f"redis://{user}"], {"REDISCLI_AUTH": SECRET + "2"}),
            ("REDISCLI_AUTH beside a user of REDIS_URL", [], {"REDIS_URL": f"redis://{user}", "REDISCLI_AUTH": SECRET + "2"}),
            ("a file beside REDIS_URL", of_file, {"REDIS_URL": f"redis://plan%40ner:x@{place}"}),
            ("--user beside REDIS_URL", ["--user", "plan@ner"], {"REDIS_URL": f"redis://u:x@{place}", "REDISCLI_AUTH": SECRET + "2"}),
        ):
            tally.check(what, PLANNED, asked(options, env))
        for what, options, env in (
            ("a wrong one in REDIS_URL", [], {"REDIS_URL": f"redis://:{SPELLED}3@{place}"}),
            ("one of REDIS_URL for another user", ["--user", "plan@ner"], word | {"REDIS_URL": f"redis://:{SPELLED}@{place}"}),
        ):
            found = asked(options, env)
            told = b"redis: the user's name or the password is refused: WRONGPASS invalid username-password pair or user is disabled.\n"
            tally.check(what, (1, b"", told), found)
    connection.call("CONFIG", "SET", "requirepass", "")
    connection.call("ACL", "DELUSER", "plan@ner")


def replying(path, text):
    """Listens at a socket, and sends this text to the first client once it has asked."""
    listener = socket.socket(socket.AF_UNIX)
    listener.bind(path)
    listener.listen()

    def serve():
        client, _ = listener.accept()
        with client:
            client.recv(65536)
            client.sendall(text)
            client.recv(65536)

    threading.Thread(target=serve, daemon=True).start()
    return listener


def sockets(tally, server, connection, folder):
    """The socket of a Redis, and others."""
    path = os.path.join(folder, "redis.sock")
    begun(connection)
    for options, env in ((["--redis", f"unix:{path}"], {}), ([], {"REDIS_URL": f"unix:{path}"}), (["--redis", f"unix://{path}"], {})):
        tally.check(f"{options} {env}", PLANNED, asked(options, env))
    found = asked(["--redis", f"unix:{path}"], action="run")
    tally.check("a run by a socket", (0, PLAN + b"done, claimed 2, gap 0\n", b""), found)
    path = os.path.join(folder, "none.sock")
    told = f"redis: cannot connect to unix:{path}: No such file or directory (os error 2). Is Redis running there, and is this its unixsocket?\n"
    tally.check("no socket", (1, b"", told.encode()), asked(["--redis", f"unix:{path}"]))
    begun(connection)
    for name, text, wanted in (
        ("silent.sock", b"", (1, b"", b"redis: no answer in time (--timeout)\n")),
        ("moved.sock", b"-MOVED 1 :%d\r\n" % server.port, PLANNED),
    ):
        path = os.path.join(folder, name)
        with replying(path, text):
            tally.check(name, wanted, asked(["--redis", f"unix:{path}", "--timeout", "500"]))


def sentinels(tally, server, connection):
    """A Sentinel with two names, and others that are of no help. None is given a password."""
    begun(connection)
    wrongly, none = b"redis: SENTINEL is answered with a reply of another shape\n", b"it knows no primary of this name (see SENTINEL MASTERS)"
    word, names = {"REDISCLI_AUTH": SECRET}, {"jobs": server.port}
    connection.call("CONFIG", "SET", "requirepass", SECRET)
    with Redis() as empty, Sentinel(names | {"none": empty.port}) as sentinel, Proxy(sentinel.port) as proxy:
        place = ["--sentinel", f"{HOST}:{proxy.port}", "--master"]
        tally.check("a primary", PLANNED, asked([*place, "jobs"], word | {"REDIS_URL": "redis://nobody.invalid:1"}))
        asking = [[b"SENTINEL", b"GET-MASTER-ADDR-BY-NAME", b"jobs"]]
        tally.check("what a Sentinel is sent", asking, proxy.calls)
        told = b"redis: XPENDING is answered with an error: NOGROUP No such key 's' or consumer group 'g'"
        found = asked([*place, "none"])
        tally.check("another primary", (1, b"", told), (*found[:2], found[2][: len(told)]))
        where = b"sentinel %s:%d: " % (HOST.encode(), proxy.port)
        tally.check("no such primary", (1, b"", where + none + b"\n"), asked([*place, "other"]))
        for text, wanted in (
            (b"*-1\r\n", where + none + b"\n"),
            (b"$-1\r\n", where + none + b"\n"),
            (b"-NOAUTH Authentication required.\r\n", where + b"NOAUTH Authentication required.\n"),
            (b"+OK\r\n", wrongly),
            (b"*2\r\n$9\r\n127.0.0.1\r\n$1\r\n0\r\n", wrongly),
            (b"*2\r\n$9\r\n127.0.0.1\r\n$5\r\n65536\r\n", wrongly),
            (b"*2\r\n$0\r\n\r\n$4\r\n6379\r\n", wrongly),
            (b"*2\r\n$9\r\n127.0.0.1\r\n:6379\r\n", wrongly),
            (b"*3\r\n$9\r\n127.0.0.1\r\n$1\r\n1\r\n$1\r\n1\r\n", wrongly),
        ):
            proxy.begin(lambda _, text=text: Sent(text))
            tally.check(f"a Sentinel replies {text}", (1, b"", wanted), asked([*place, "jobs"]))
        proxy.begin(lambda _: Sent(b"", "close"))
        tally.check("a Sentinel hangs up", (1, b"", where + b"it closed the connection\n"), asked([*place, "jobs"]))
        proxy.begin(lambda _: Sent(b"", "hang"))
        found = asked([*place, "jobs", "--timeout", "300"])
        tally.check("a Sentinel is silent", (1, b"", where + b"no answer in time (--timeout)\n"), found)
    connection.call("CONFIG", "SET", "requirepass", "")
    found = asked(["--sentinel", f"{HOST}:1", "--master", "jobs"])
    tally.check("no Sentinel", (1, b"", b"sentinel 127.0.0.1:1: Connection refused (os error 111)\n"), found)
    found = asked(["--sentinel", "nobody.invalid:1", "--master", "jobs"])
    told = b"sentinel nobody.invalid:1: failed to lookup address information"
    tally.check("no host of a Sentinel", (1, b"", told), (*found[:2], found[2][: len(told)]))


def compare(tally):
    """Compares all of it."""
    wrong(tally)
    with tempfile.TemporaryDirectory() as folder:
        with Redis("--unixsocket", os.path.join(folder, "redis.sock")) as server, server.connect() as connection:
            for part in (urls, passwords, sentinels):
                part(tally, server, connection)
            sockets(tally, server, connection, folder)
