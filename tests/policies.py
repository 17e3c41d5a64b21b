#!/usr/bin/env python3
"""Gives sr_server policy files whose faults were named beforehand, and compares what it says with what is written here.

usage: tests/policies.py PROGRAM

Under a policy it has to answer a PING and to end with status 0. Of another file it has to tell the fault and to end with status 1.
Prints what differs; the status is 1 if anything does.
"""

import os
import subprocess
import sys
import tempfile

from lib.resp import spelled

SECONDS = 60
PING, PONG = spelled("PING"), b"+PONG\r\n"

LEVELS = 80  # of a key, and of arrays and inline tables


def deep(levels):
    """A key of this many parts in three forms, and a value that is as deep in two."""
    key = ".".join("a" * levels)
    return [f"{key} = 1\n", f"[{key}]\n", f"[[{key}]]\n", f"a = {'[' * levels}{']' * levels}\n", f"a = {'{a=' * levels}1{'}' * levels}\n"]


NOT_TOML = [
    "[limits",
    "limits",
    "limits = ",
    "limits = [1",
    'class_field = "c',
    "version = 1\nversion = 1\n",
    "[limits]\nA = 1\nA = 2\n",
    "[limits]\nA = 9223372036854775808\n",
    "[limits]\nA = -9223372036854775809\n",
    "[limits]\nA = 1 B = 2\n",
    "version = 01\n",
    "top = 1\n[limits\n",
    *deep(LEVELS + 1),
]

WRONG_SHAPE = [
    "limits = 3",
    "[rates.x]\nA = 1\n",
    "top = 1\n",
    "version = 2\ntop = 1\n",
    "[limits]\nA = -1\n[rates.x]\nB = 1\n",
    "version = 1.0\n",
    'version = "1"\n',
    "version = true\n",
    "version = 1979-05-27\n",
    "class_field = 1\n",
    'class_field = ["c"]\n',
    '[limits]\nA = "1"\n',
    "[limits]\nA = 1.5\n",
    "[limits.A]\nB = 1\n",
    "[rates]\nA = 1\n",
    "[limits]\nA = 1\n[rates.x]\nA = true\n",
    "[limits]\nA = 1\n[rates.x.y]\nA = 1\n",
    "[[limits]]\nA = 1\n",
    "[soft]\n",
    "Version = 1\n",
    "[limits]\nA = 1\n[rates.x]\na = 1\n",
    # Soft limits and fees stand in a file of version 2 alone, also empty ones.
    "[fees]\n",
    "version = 1\n[soft]\n",
    "version = 1\n[fees]\n",
    "version = 1\n[soft]\n[fees]\n",
    "[limits]\nA = 2\n[soft]\nA = 1\n[fees]\nA = 1\n",
    "version = 1\n[limits]\nA = 2\n[soft]\nA = 1\n[fees]\nA = 1\n",
    "version = 3\n[limits]\nA = 2\n[soft]\nA = 1\n[fees]\nA = 1\n",
    "version = 0\n[soft]\n[fees]\n",
    # A consumer in one of them alone, and one without a limit.
    "version = 2\n[limits]\nA = 2\n[soft]\nA = 1\n",
    "version = 2\n[limits]\nA = 2\n[fees]\nA = 1\n",
    "version = 2\n[limits]\nA = 2\nB = 2\n[soft]\nA = 1\n[fees]\nA = 1\nB = 1\n",
    "version = 2\n[limits]\nA = 2\nB = 2\n[soft]\nA = 1\nB = 1\n[fees]\nA = 1\n",
    "version = 2\n[limits]\nA = 2\nB = 2\n[soft]\nA = 1\n[fees]\nB = 1\n",
    "version = 2\n[soft]\nA = 0\n[fees]\nA = 0\n",
    "version = 2\n[limits]\nB = 1\n[soft]\nA = 0\n[fees]\nA = 0\n",
    # Another kind, and a shape that is judged before the range.
    "version = 2\nsoft = 1\nfees = 1\n",
    "version = 2\n[limits]\nA = 2\n[soft]\nA = 1.0\n[fees]\nA = 1\n",
    "version = 2\n[limits]\nA = 2\n[soft]\nA = 1\n[fees]\nA = true\n",
    "version = 2\n[limits]\nA = 2\n[soft.x]\nA = 1\n[fees]\nx = 1\n",
    "version = 2\n[limits]\nA = 2\n[soft]\nA = 3\n[fees]\nB = 1\n",
    "version = 2\n[limits]\nA = -1\n[soft]\nA = 0\n",
    "version = 07:32\n",
    *deep(LEVELS),
]


def file_of(consumers, classes):
    """A file with this many consumers, and this many classes."""
    limits = "".join(f"w{number} = 1\n" for number in range(consumers))
    return "[limits]\n" + limits + "".join(f"[rates.c{number}]\n" for number in range(classes))


OUT_OF_RANGE = [
    "version = 3\n",
    "version = 0\n",
    "version = -1\n",
    "[limits]\nA = -1\n",
    "[limits]\nA = 1000000001\n",
    "[limits]\nA = 9223372036854775807\n",
    "[limits]\nA = 1\n[rates.x]\nA = -1\n",
    "[limits]\nA = 1\n[rates.x]\nA = 1048577\n",
    "version = 2\n[limits]\nA = 2\n[soft]\nA = 3\n[fees]\nA = 1\n",
    "version = 2\n[limits]\nA = 2\n[soft]\nA = -1\n[fees]\nA = 1\n",
    "version = 2\n[limits]\nA = 2\n[soft]\nA = 2\n[fees]\nA = -1\n",
    "version = 2\n[limits]\nA = 2\n[soft]\nA = 2\n[fees]\nA = 1099511627777\n",
    "version = 2\n[limits]\nA = 2\nB = 9\n[soft]\nA = 3\nB = 3\n[fees]\nA = 1\nB = 1\n",
    "version = 2\n[limits]\nA = 1000000001\n[soft]\nA = 1\n[fees]\nA = 1\n",
    "version = 2\n[limits]\nA = -1\n[soft]\nA = 0\n[fees]\nA = 0\n",
    file_of(65, 0),
    file_of(0, 1025),
]

POLICIES = [
    "",
    "version = 1\n",
    "version = 2\n",
    "version = 2\n[soft]\n[fees]\n",
    "version = 2\n[soft]\n",
    "version = 2\n[fees]\n",
    "version = 2\n[limits]\nA = 2\n[rates.x]\nA = 1\n[soft]\n",
    "version = 2\n[limits]\nA = 2\nB = 1\n[soft]\nA = 2\n[fees]\nA = 1099511627776\n",
    "version = 2\n[limits]\nA = 2\n[soft]\nA = 0\n[fees]\nA = 0\n",
    'class_field = ""\n',
    "[limits]\n",
    "[rates.x]\n",
    "[limits]\nA = 0\nB = 1000000000\n[rates.x]\nA = 0\nB = 1048576\n",
    "limits = { \"a b\" = 1, 'c\"d' = 2, \"\u00e9\" = 3 }\nrates.\"\u00e9\".\"\u00e9\" = 1\n",
    'class_field = "c"\n[limits]\nA = 1\nB = 1\n[rates.x]\nA = 1\nB = 2\n[rates.y]\nA = 1\nB = 100\n',
    file_of(64, 1024),
    # What is read beyond TOML 1.0.
    'limits = { A = 1,\n  # in between\n  "\u00e9" = 2, }\n[rates.x]\n"\\x41" = 1\n"\\xe9" = 1\n',
    'limits = { "\\e" = 1 }\nrates.x."\\u001b" = 1\n',
    '\ufeffclass_field = "c"\n',
]


def rows():
    """Each file with the status, the replies and the line that it leads to."""
    for text in POLICIES:
        yield text, (0, PONG, "")
    for fault, texts in [("not TOML", NOT_TOML), ("wrong shape", WRONG_SHAPE), ("value out of range", OUT_OF_RANGE)]:
        for text in texts:
            yield text, (1, b"", f"policy: {fault}\n")


def found(program, path):
    """The status, the replies and the line of the program with a policy file."""
    ran = subprocess.run([program, "--stdio", "--policy", path], input=PING, capture_output=True, timeout=SECONDS)
    return ran.returncode, ran.stdout, ran.stderr.decode(errors="replace")


def main():
    if len(sys.argv) != 2:
        sys.exit(__doc__.split("\n\n")[1])
    count, wrong = 0, 0
    with tempfile.TemporaryDirectory() as folder:
        path = os.path.join(folder, "policy.toml")
        for text, wanted in rows():
            with open(path, "wb") as file:
                file.write(text.encode())
            given = found(sys.argv[1], path)
            count += 1
            if given != wanted:
                wrong += 1
                print(f"{text!r}\nexpected: {wanted}\ngiven:    {given}")
    print(f"policies: {count} files, {wrong} wrong")
    sys.exit(1 if wrong else 0)


main()
