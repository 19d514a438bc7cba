"""Runs of the program, each with a limit of time, and a record of them for the page."""

import os
import shlex
import subprocess
import sys
import tempfile
import time


class Ran:
    """The whole lines that a run printed, its exit code, and whether it was stopped for taking too long."""

    def __init__(self, lines, code, told, stopped):
        self.lines, self.code, self.told, self.stopped = lines, code, told, stopped

    @property
    def last(self):
        return self.lines[-1] if self.lines else ""


class Runs:
    def __init__(self, program, path, switches, seconds):
        self.program, self.path, self.switches, self.seconds = program, path, list(switches), seconds
        self.commands, self.changed_runs = [], 0
        self.folder = tempfile.TemporaryDirectory(prefix="euler_align_page_")

    def close(self):
        self.folder.cleanup()

    def run(self, words, seconds):
        put = os.path.join(self.folder.name, "put")
        with open(put, "wb") as out:
            process = subprocess.Popen([self.program, *words], stdout=out, stderr=subprocess.PIPE, stdin=subprocess.DEVNULL)
            try:
                told, stopped = process.communicate(timeout=seconds)[1], False
            except subprocess.TimeoutExpired:
                process.kill()
                told, stopped = process.communicate()[1], True
        with open(put, encoding="utf-8") as file:
            lines = file.read().split("\n")
        # what stands behind the last line end is a line that was not finished
        return Ran(lines[:-1], process.returncode, told.decode("utf-8", "replace"), stopped)

    def tell(self, says):
        """What is going on, for whoever waits at a terminal."""
        if sys.stderr.isatty():
            print(f"page: {says}", file=sys.stderr)

    def ask(self, command, *words):
        """A run on the problem as it is, which the page tells of."""
        self.tell(f"{command} ..")
        own = [word.replace("FILE", os.path.join(self.folder.name, "token")) if word.startswith("token=") else word for word in words]
        ran = self.run([command, f"in={self.path}", *own, *self.switches], self.seconds)
        self.commands.append((" ".join(shlex.quote(word) for word in ["euler_align", command, f"in={self.path}", *words, *self.switches]), ran.stopped))
        return ran

    def try_out(self, text, command, *words, switches=None, seconds=None):
        """A run on a changed copy of the problem, or with other switches."""
        path = os.path.join(self.folder.name, "changed.txt")
        with open(path, "w", encoding="utf-8", newline="\n") as file:
            file.write(text)
        self.changed_runs += 1
        given = self.switches if switches is None else switches
        return self.run([command, f"in={path}", *words, *given], seconds or self.seconds)

    def worlds_of(self, text, most, seconds, switches=None):
        """How many worlds a changed copy has, counted up to a limit, and whether these are all; None where the time was over. Where the
        listing takes too long, `conflict` may still tell whether there is one at least: it lists none."""
        token = os.path.join(self.folder.name, "tried_token")
        ran = self.try_out(text, "align", f"worlds={most}", f"token={token}", switches=switches, seconds=seconds)
        if ran.stopped:
            first = self.try_out(text, "conflict", switches=switches, seconds=seconds).lines[:1]
            return (1, False) if first == ["consistent"] else (0, True) if first and first[0].startswith("conflict ") else None
        if ran.code not in (0, 5, 6):
            return None
        return int(ran.last.split(" ")[1]), ran.last.startswith("complete")


class Clock:
    """Time for what is good to have."""

    def __init__(self, seconds):
        self.whole, self.end = max(1, seconds), time.monotonic() + seconds

    def share(self):
        """For one run of several: one that takes long must not use up the time of all others."""
        return max(1, self.whole / 5)

    def over(self):
        return time.monotonic() > self.end
