#!/usr/bin/env python3
"""Shows that differential.py and desk_differential.py find mistakes: each of those in mistakes.py, planted in the oracle, one at a time.

    tests/oracle_mutants.py [--program PATH] [--desk PATH] [--count N] [--seed N] [--command NAME] [--only TEXT]

For each it is told after how many cases there was a difference in a run of the command whose answers have the mistake; and for each command
how many were found, and after how many cases the last. What the program answers is kept, so that it runs once for the same words and files.
With --command only the mistakes of one are planted (`desk` and `words` are others than commands), with --only those whose name has this
text. It ends with status 1 if one was not found within N cases (5,000 if not given).
"""

import functools
import hashlib
import importlib
import os
import shutil
import sys
import time

import harness
from mistakes import MISTAKES
from oracle.commands import files_read, files_written


def planted(folder, file, old, new):
    """What tries the oracle as new modules, from a copy of these files in which one has a change: the scripts and what they raise."""
    shutil.copytree(harness.TESTS, folder, ignore=shutil.ignore_patterns("edits", "__pycache__"))
    path = os.path.join(folder, "oracle", file + ".py")
    with open(path, encoding="utf-8") as text:
        source = text.read()
    if source.count(old) != 1:
        raise SystemExit(f"oracle_mutants: {old!r} stands {source.count(old)} times in oracle/{file}.py")
    with open(path, "w", encoding="utf-8") as text:
        text.write(source.replace(old, new))
    before = sys.path[0] + os.sep
    for name in [name for name, module in sys.modules.items() if (getattr(module, "__file__", None) or "").startswith(before)]:
        if name != "__main__":
            del sys.modules[name]
    sys.path[0] = folder
    return importlib.import_module("desk_differential" if file == "desk" else "differential")


def remembering(base, program, known, command):
    """A runner whose files are in memory, and which runs the program once for the same words and files. Differences of other commands than
    the one are passed over; `by` is the one that was run last, but for a check, which is mostly of what another run wrote."""

    class Remembering(base):
        def __init__(self):
            super().__init__(program)
            self.files, self.by = {}, ""

        def compare(self, words, wanted, got):
            if command == "words" or words[:1] == [command]:
                self.by = command
                super().compare(words, wanted, got)

        def hold(self, name, data):
            self.files[name] = data.encode() if isinstance(data, str) else data

        def held(self, name):
            return self.files.get(name)

        def drop(self, name):
            self.files.pop(name, None)

        def clear(self):
            self.files.clear()

        def compare(self, words, wanted, got):
            if got != wanted:
                self.by = words[0] if words else None
            super().compare(words, wanted, got)

        def run(self, words):
            self.by = self.by if words[:1] == ["check"] else "".join(words[:1])
            read, written = files_read(words), files_written(words)
            asked = hashlib.sha256(repr((words, [self.files.get(name) for name in read])).encode()).digest()
            if asked not in known:
                base.clear(self)
                for name in read:
                    if name in self.files:
                        base.hold(self, name, self.files[name])
                known[asked] = base.run(self, words), {name: base.held(self, name) for name in written if name}
            answer, left = known[asked]
            self.files.update({name: data for name, data in left.items() if data is not None})
            return answer

    return Remembering()


def found_after(case, runner, command, given):
    """After how many cases there was a difference in a run of the command; 0 if there was none."""
    came = sys.modules["comparisons.runner"].came
    for number in range(given.count):
        difference = came(runner, case, given.seed, number).difference
        if difference and (command == "words" or getattr(runner, "by", command) == command):
            return number + 1
    return 0


def tried(command, mistakes, folder, known, given):
    """After how many cases each mistake of a command was found."""
    for number, (name, file, old, new) in enumerate(mistakes):
        place = folder.at(f"{command}{number}")
        tester = planted(place, file, old, new)
        if command == "desk":
            # what it answers is not kept: its scripts are never the same
            case, made = tester.case, tester.DeskRunner(given.desk)
        else:
            about = "words" if file == "usage" else command
            case, made = functools.partial(tester.case, command=about), remembering(tester.Runner, given.program, known, command)
        with made as runner:
            after = found_after(case, runner, command, given)
        shutil.rmtree(place)
        print(f"{command}, {name}: {f'found after {after}' if after else 'not found'}", flush=True)
        yield after


def main():
    given = harness.arguments(__doc__, "program desk?", count=5000, seed=1, command="", only="")
    begun, known, told = time.monotonic(), {}, {}
    with harness.Folder() as folder:
        for command, mistakes in MISTAKES.items():
            chosen = [mistake for mistake in mistakes if given.only in mistake[0]]
            if given.command in ("", command) and chosen and (given.desk or command != "desk"):
                told[command] = list(tried(command, chosen, folder, known, given))
    for command, found in told.items():
        print(f"{command}: {len(found)} planted, {len(found) - found.count(0)} found, the last after {max(found)} cases")
    every = [after for found in told.values() for after in found]
    print(f"oracle_mutants: {len(every)} planted, {every.count(0)} not found, {time.monotonic() - begun:.0f} s{harness.without(given.desk)}")
    return 1 if 0 in every or not every else 0


if __name__ == "__main__":
    sys.exit(main())
