"""Runs that are compared with what the oracle says, and the cases that make them."""

import collections
import random

import harness
from oracle import model


class Difference(Exception):
    """The program answered something else than the oracle."""


class Runner(harness.Runs):
    """Runs of the program, of which `answers` counts the last lines that were compared, without their numbers and positions."""

    def __init__(self, program, within=None):
        super().__init__(program, within)
        self.answers = collections.Counter()

    def same(self, words, code, text):
        got = self.run(words)
        last = text.split("\n")[-2]
        if last.endswith("]"):
            last = text.split("\n")[0]
        self.answers[" ".join(word for word in last.split(" ") if set(word) - set("0123456789." + model.LETTERS))] += 1
        self.compare(words, (code, text), got)

    def compare(self, words, wanted, got):
        if got != wanted:
            raise Difference(f"words: {' '.join(words)}\nwanted: {wanted[0]}\n{wanted[1]}\ngot: {got[0]}\n{got[1]}")


class NoRunner(Runner):
    """No program is run, so nothing is compared with it."""

    def same(self, words, code, text):
        self.answers[text.split("\n")[-2].split(" ")[0]] += 1


# What several comparisons say.


def switch_words(switches):
    names = ("nonempty", "sibling", "coverage")
    return [f"{n}=off" for n, s in zip(names, switches) if not s]


def rows_text(rows):
    return "".join(row + "\n" for row in rows)


def lines(worlds, last):
    return rows_text(worlds) + last + "\n"


def status_of(worlds, start=""):
    """The exit code of a run that lists all worlds from a position on."""
    return 6 if not worlds and start == "" else 0


# Cases.

# what a case came to: how many runs, whether it has too many nodes for the oracle, which answers were compared, and a difference or None
Came = collections.namedtuple("Came", "runs is_left_out answers difference")


def came(runner, case, seed, number):
    """What a case comes to; all that is drawn in it follows from its number and the seed."""
    runner.count, is_left_out, difference = 0, False, None
    runner.answers.clear()
    runner.clear()
    try:
        case(runner, random.Random(f"{seed} {number}"))
    except model.TooMany:
        is_left_out = True
    except Difference as fault:
        held = "".join(f"\n{name}:\n{(runner.held(name) or b'')[:4000].decode('utf-8', 'replace')}" for name in ("p", "s") if runner.held(name))
        difference = f"case {number} of seed {seed}: {fault}{held}"
    return Came(runner.count, is_left_out, dict(runner.answers), difference)


def try_cases(given, make, case):
    """Tries cases; `make` makes a runner within a folder. It ends at the first difference, which is shown; the answers and what is told."""
    answers, runs, left_out = collections.Counter(), 0, 0
    with harness.Folder() as folder:

        def tester():
            runner = make(folder)
            return lambda number: came(runner, case, given.seed, number)

        for one in harness.in_order(tester, given.count, given.jobs):
            if one.difference:
                print(one.difference)
                return answers, None
            answers.update(one.answers)
            runs, left_out = runs + one.runs, left_out + one.is_left_out
    return answers, f"{given.count - left_out} cases, {runs} runs: no difference ({left_out} left out, with too many nodes)"


def tell(given, answers, told, more=""):
    """Prints how often each answer was compared, if that is asked for, and what was told; the exit code."""
    for answer, times in sorted(answers.items()) if given.tally and told else []:
        print(f"{times} {answer}")
    if told:
        print(f"{harness.NAME}: {more}{told}")
    return 0 if told else 1
