"""book_driver: a line is asked, and its answer is a line."""

import os
import subprocess


def spelled(words):
    """Words as book_driver takes them: bytes or texts."""
    return " ".join((word if isinstance(word, bytes) else word.encode()).hex() or "-" for word in words)


class Driver:
    """A book_driver. If a library is named, it is loaded first, and refuses the allocation of this number (refuse.c)."""

    def __init__(self, program, library=None, number=0):
        env = {"LD_PRELOAD": library, "REFUSE": str(number)} if library else {}
        pipes = {"stdin": subprocess.PIPE, "stdout": subprocess.PIPE, "stderr": subprocess.PIPE}
        self.run = subprocess.Popen([os.path.abspath(program)], env=env, text=True, bufsize=1, **pipes)

    def ask(self, line):
        """The answer to a line, or None once the program has ended."""
        try:
            self.run.stdin.write(line + "\n")
            self.run.stdin.flush()
        except BrokenPipeError:
            return None
        return self.run.stdout.readline().rstrip("\n") or None

    def standing(self, joins):
        """The records, and the letter and status of each session."""
        return [self.ask("records")] + [self.ask(f"{word} {number}") for number in range(1, joins + 1) for word in ("collect", "status")]

    def last_moment(self):
        """The moment of the last record and of any event since: an event at 0 has it. The book goes on with one more session."""
        index = (self.ask("join 0") or "").split(" ")[1:2]
        records = (self.ask("records") or "").removeprefix("records ").split(";")
        return next((record.split(" ")[1] for record in records if record.split(" ")[:1] == index), None)

    def end(self):
        """The status, whether an allocation was refused, and whether blocks of memory were left."""
        try:
            self.run.stdin.close()
        except BrokenPipeError:
            pass
        self.run.stdout.read()
        lines = self.run.stderr.read().splitlines()
        return self.run.wait(), "refused" in lines, "blocks left" in lines
