"""Prints what memory a client can make the server hold by a request that is not whole yet.

usage: claims.py SR_SERVER

Each request is sent but for its last byte, and then the resident memory of the server is read, less that of a server that
got nothing. Then the last byte is sent, and the greatest resident memory until the reply is read.
"""

import os
import subprocess
import sys
import time

MEBIBYTE = 1 << 20


def words(lengths, header="${}\r\n"):
    """A request of words of these lengths."""
    parts = ["*{}\r\n".format(len(lengths)).encode()]
    for length in lengths:
        parts.append(header.format(length).encode() + b"v" * length + b"\r\n")
    return b"".join(parts)


# What is sent, and in pieces of how many bytes.
REQUESTS = [
    ("one word of 1 MiB", words([MEBIBYTE]), 4096),
    ("16 words of 1 MiB and an empty one", words([MEBIBYTE] * 16 + [0]), 4096),
    ("4,096 empty words", words([0] * 4096), 4096),
    ("the same, byte by byte", words([0] * 4096), 1),
    ("4,096 empty words with the longest headers, byte by byte", words([0] * 4096, "${:010d}\r\n"), 1),
]


def kibibytes(process, line):
    """A line of what the system says of a process's memory."""
    with open(f"/proc/{process.pid}/status") as status:
        return next(int(text.split()[1]) for text in status if text.startswith(line + ":"))


def waits(process):
    """Whether the server waits for input."""
    with open(f"/proc/{process.pid}/stat") as stat:
        return stat.read().rpartition(")")[2].split()[0] == "S"


def settle(process):
    """Waits until the server has read all that was sent."""
    quiet = 0
    while quiet < 5:
        time.sleep(0.01)
        quiet = quiet + 1 if waits(process) else 0


def claim(server, request, piece):
    """What a server holds, in KiB, after the request but for its last byte, and at most until its reply."""
    process = subprocess.Popen([server, "--stdio"], stdin=subprocess.PIPE, stdout=subprocess.PIPE, bufsize=0)
    for start in range(0, len(request) - 1, piece):
        process.stdin.write(request[start:min(start + piece, len(request) - 1)])
    settle(process)
    held = kibibytes(process, "VmRSS")
    if request:
        process.stdin.write(request[-1:])
        assert os.read(process.stdout.fileno(), 1) == b"-"
    settle(process)
    after, most = kibibytes(process, "VmRSS"), kibibytes(process, "VmHWM")
    process.stdin.close()
    process.wait()
    return held, after, most


def main():
    server = sys.argv[1]
    empty = claim(server, b"", 1)[0]
    print("| Request | Bytes | KiB before its last byte | KiB at most | KiB after its reply |")
    print("|---|---|---|---|---|")
    for name, request, piece in REQUESTS:
        held, after, most = claim(server, request, piece)
        print(f"| {name} | {len(request):,} | {held - empty:,} | {most - empty:,} | {after - empty:,} |")


main()
