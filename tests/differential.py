#!/usr/bin/env python3
"""Sets the built program beside the oracle, on random problems, texts, words, tokens and certificates.

    tests/differential.py [--program PATH] [--count N] [--seed N] [--jobs N] [--command NAME] [--alone] [--tally]

Each case makes a small problem (two to four taxonomies, sums, all switches), and compares what the program puts and its exit code with
what the oracle says: listings whole, cut and resumed, their tokens, listings in parts and what joins of the parts, what follows and why,
what conflicts, all that conflicts (of more statements too), reports, trials, damaged texts, tokens and certificates, and words that are no
request. Certificates that the program writes must be accepted by the oracle too, and its own checker must answer what the oracle does of
any bytes, also where several are joined. What is accepted must be so by the oracle's worlds. With --jobs several processes share the cases,
which are the same for any number of them; with --command that alone is
compared which has to do with one; with --tally it is told how often each last line was compared. With --alone no program is run,
and the parts of the oracle are set beside each other. It ends with status 1 at the first difference, and shows it.
"""

import functools
import random
import sys

import harness
import random_cases
from comparisons import answers, certificates, listings, parts, refusals
from comparisons.runner import Difference, NoRunner, Runner, switch_words, tell, try_cases
from oracle import texts


# what is compared, and the commands that it is about; certificates are checked in most of it
STEPS = [
    ("align", listings.check_listing),
    ("check", certificates.check_other_certificates),
    ("align", listings.check_cuts),
    ("align", listings.check_tokens),
    ("parts part join", parts.check_parts),
    ("part", parts.check_tokens_of_part),
    ("report", answers.check_reports),
    ("mir", answers.check_possible),
    ("conflict", answers.check_conflict),
    ("lattice", answers.check_lattice),
    ("explain", answers.check_explanation),
    ("conflict lattice explain", answers.check_crowded),
    ("lattice", answers.check_many),
    ("align", refusals.check_damaged),
    ("align", refusals.check_limits),
    ("words", refusals.check_words),
    ("trial", answers.check_trial),
]


def is_about(command, names):
    """Whether a step has to do with a command; any words may be those of one."""
    return command in ("", "check") or command in names.split() or names == "words"


def case(runner, rng, command=""):
    """A problem, and all that is compared of it, or what has to do with one command: it is the same then."""
    text, switches, base = random_cases.random_problem(rng), random_cases.random_switches(rng), rng.random()
    problem = texts.read_problem(text.encode(), switches).finish()
    problem.text = text
    if len(problem.points) <= 10 and len(problem.pairs) <= 6 and problem.worlds() != problem.families_by_sets_of_points():
        raise Difference("the oracle's walk and the sets of points differ")
    for number, (names, check) in enumerate(STEPS):
        if is_about(command, names):
            runner.hold("p", text)
            check(runner, problem, switch_words(switches), random.Random(f"{base} {number}"))


def case_alone(runner, rng):
    """What of a case needs no program: the parts of the oracle beside each other."""
    problem = texts.read_problem(random_cases.random_problem(rng).encode(), random_cases.random_switches(rng)).finish()
    certificates.check_other_certificates(runner, problem, [], rng)


def main():
    given = harness.arguments(__doc__, "program?", count=500, seed=1, jobs=1, command="", alone=False, tally=False)
    if given.alone:
        return tell(given, *try_cases(given, lambda folder: NoRunner(None, folder), case_alone))
    if not given.program:
        harness.absent("crates/euler_align/out/euler_align")
    return tell(given, *try_cases(given, lambda folder: Runner(given.program, folder), functools.partial(case, command=given.command)))


if __name__ == "__main__":
    sys.exit(main())
