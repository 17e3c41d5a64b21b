"""Refuses allocations of a program, as a full memory would (refuse.c). It needs cc and glibc."""

import mmap
import os
import struct
import subprocess
import sys

SOURCE = os.path.join(os.path.dirname(os.path.abspath(__file__)), "refuse.c")


def library_in(folder):
    """The library that refuses, built into a folder. Without a C compiler the program ends with a line that says so."""
    path = os.path.join(folder, "refuse.so")
    try:
        subprocess.run(["cc", "-O2", "-shared", "-fPIC", "-o", path, SOURCE], check=True)
    except FileNotFoundError:
        sys.exit(f"{sys.argv[0]}: FAILED, since there is no C compiler, cc, to build {os.path.relpath(SOURCE)} with")
    return path


def environment(library, number):
    """What a program is started with whose allocation of this number is refused."""
    return {"LD_PRELOAD": library, "REFUSE": str(number)}


class Shared:
    """What is shared with a program that is started with REFUSE_BY=PATH: which allocation is refused, and how many bytes the program holds."""

    NUMBERS = struct.Struct("=qqq")

    def __init__(self, path):
        with open(path, "w+b") as file:
            file.truncate(self.NUMBERS.size)
            self.map = mmap.mmap(file.fileno(), self.NUMBERS.size)

    def refuse(self, size, turn):
        """Refuses, of the allocations of this size, the one of this number from now on; none if it is 0."""
        self.map[:16] = struct.pack("=qq", size, turn)

    def held(self):
        return self.NUMBERS.unpack(self.map[:])[2]
