#!/usr/bin/env python3
"""Runs that are killed at any moment (SIGKILL), of every command that writes a file: what is left is never taken for whole, and the same
words again give the same bytes.

    tests/killed_runs.py [--program PATH] [--count N] [--seed N]

What was put must be a first part of what is right, and so must each file that may be written, unless it holds what it held. `check` may
accept a certificate, and `align` go on from a token, only where it is whole. It ends with status 1 at the first run that is not so, and
shows it.
"""

import contextlib
import random
import subprocess
import sys
import time

import harness
from small_runs import made

OLD = b"what it held\n"
REFUSED_TOKEN = 7
# the words of the problem, those of the run, and what may be written: certificates and tokens
KINDS = [
    ("flat 3 5", "align in=p cert=c", ["c"], []),
    ("flat 3 5", "align in=p cert=c worlds=4000 token=t", ["c"], ["t"]),
    ("flat 4 4", "align in=p worlds=9000 token=t", [], ["t"]),
    ("flat 3 5", "part in=p cert=c resume=from until=to", ["c"], []),
    ("roots 100 100", "parts in=p count=1000 token=t", [], [f"t{number}" for number in range(1, 1251)]),
    ("generated 7 96", "mir in=p cert=c", ["c"], []),
]


class Kind(harness.Folder):
    """A run in a folder of its own, and what is right."""

    def __init__(self, program, problem, words, certificates, tokens):
        super().__init__()
        self.program, self.words = program, words.split()
        self.certificates, self.tokens = certificates, tokens
        self.hold("p", made(*problem.split()))
        if "until=to" in self.words:
            self.run("align", "in=p", "worlds=2000", "token=from")
            self.run("align", "in=p", "worlds=9000", "resume=from", "token=to")
        begun = time.monotonic()
        self.code, self.put = self.run(*self.words)
        self.seconds = time.monotonic() - begun
        self.right = {name: self.held(name) for name in certificates + tokens}

    def run(self, *words):
        """The exit code of a run and what it puts."""
        return harness.run([self.program, *words], self.path)[:2]

    def kill(self, seconds):
        """Kills a run after so many seconds: what it put, and whether it was killed before it ended."""
        for name in self.right:
            self.hold(name, OLD)
        with open(self.at("out"), "wb") as file:
            ran = subprocess.Popen([self.program, *self.words], cwd=self.path, stdout=file, stderr=subprocess.DEVNULL)
        try:
            ran.wait(seconds)
        except subprocess.TimeoutExpired:
            ran.kill()
        return self.held("out"), ran.wait() < 0

    def faults(self, put):
        """What is wrong after a run was killed that had put this."""
        if not self.put.startswith(put):
            yield "what was put is no first part of what is right"
        for name, right in self.right.items():
            left = self.held(name)
            if left in (right, OLD):
                continue
            if right is None or left is None or not right.startswith(left):
                yield f"{name} holds neither what it held nor a first part of what is right"
        for name in self.certificates:
            code, _ = self.run("check", "in=p", f"cert={name}")
            if code == 0 and self.held(name) != self.right[name]:
                yield f"{name} is accepted, and isn't whole"
        for name in random.sample(self.tokens, min(3, len(self.tokens))):
            whole = self.held(name) == self.right[name]
            if not whole and self.run("align", "in=p", f"resume={name}", "worlds=1", "token=next")[0] != REFUSED_TOKEN:
                yield f"{name} is taken, and isn't whole"

    def again(self):
        """What is wrong with the same run once more."""
        if self.run(*self.words) != (self.code, self.put):
            yield "the same words put something else"
        for name, right in self.right.items():
            left = self.held(name)
            if left != right and not (right is None and left == OLD):
                yield f"the same words write something else to {name}"


def main():
    given = harness.arguments(__doc__, "program", count=60, seed=1)
    random.seed(given.seed)
    killed = 0
    with contextlib.ExitStack() as folders:
        kinds = [folders.enter_context(Kind(given.program, *kind)) for kind in KINDS]
        for number in range(given.count):
            kind = kinds[number % len(kinds)]
            seconds = random.uniform(0, kind.seconds)
            put, early = kind.kill(seconds)
            killed += early
            wrong = list(kind.faults(put)) + list(kind.again())
            if wrong:
                print(f"killed_runs: {' '.join(kind.words)}, after {seconds:.3f} s: {wrong[0]}")
                return 1
    print(f"killed_runs: {given.count} runs, {killed} of them killed before they ended; nothing was taken for whole that wasn't")
    return 0


if __name__ == "__main__":
    sys.exit(main())
