#!/usr/bin/env python3
"""Every allocation of a run is refused once, and then it and all after it, for each command over small problems, and for the desk.

    tests/alloc_faults.py [--program PATH] [--desk PATH] [--every N]

The N-th call of malloc or realloc answers NULL, by refuse.c, which gcc builds here. A run must then end as without a refusal, or with
exit code 9 and `no memory` behind a first part of what is right (nothing at all where it has no words yet); the certificate and tokens
hold what they held or a first part of what is right, and other files what they held. With --every N only each N-th call is refused. It
ends with status 1 at the first run that is not so, and shows it.

The desk may reply NoMemory too, and go on. Then the other replies must be those to the script without these requests: by oracle/desk.py, or,
where the problem is too great for that, by the desk itself without a refusal. Where the desk isn't built, it is left out.
"""

import sys

import harness
import oracle.desk
from oracle import texts
from oracle.commands import files_written
from small_runs import DESK_REFUSED, MANY_POINTS, REFUSED_MEMORY

OLD = {"c": b"old c\n", "t": b"old t\n", "z": b"other\n"}


class Bench(harness.Refusals):
    def __init__(self, program):
        super().__init__()
        self.program = program

    def outcome(self, files, words, at, rest=0):
        """The exit code, what is put, what the files hold, and how many calls there were. One call is refused, and each so many-th after it."""
        for name, data in files.items():
            self.hold(name, data)
        answer, calls = self.run([self.program, *words.split(" ")], at, rest)
        return answer.code, answer.out, {name: self.held(name) for name in files}, calls


def fault_in(words, files, right, run):
    """What is wrong with a run of which an allocation was refused, or None."""
    code, put, held, _ = run
    if (code, put, held) == right[:3]:
        return None
    if code != 9:
        return f"exit code {code}"
    if put and not (put.endswith(b"no memory\n") and right[1].startswith(put[: -len(b"no memory\n")])):
        return "what is put is not a first part of what is right, and then `no memory`"
    for name, data in held.items():
        is_written = name in files_written(words.split(" "))
        if data != files[name] and not (is_written and right[2][name].startswith(data)):
            return f"{name} holds something else"
    return None


def check_case(bench, case, every):
    problem, given, words = case
    files = {**OLD, "p": problem.encode(), **{name: text.encode() for name, text in given.items()}}
    right = bench.outcome(files, words, 0)
    runs = refused = 0
    for at in range(1, right[3] + 1, every):
        for rest in (0, 1):
            run = bench.outcome(files, words, at, rest)
            runs, refused = runs + 1, refused + (run[0] == 9)
            why = fault_in(words, files, right, run)
            if why:
                sys.exit(f"{words}: allocation {at}{' and all after it' if rest else ''} refused: {why}\n{run[:3]}\nand right is\n{right[:3]}")
    return runs, refused


# The desk.

DESK_WORDS = "in=p script=s"


class Script:
    """The requests of a script over a problem, and what is put of others."""

    def __init__(self, bench, problem, script):
        self.bench, self.problem, self.requests, self.known = bench, problem, script.splitlines(), {}
        self.files = {**OLD, "p": problem.encode(), "s": script.encode()}

    def served(self, requests):
        script = "".join(request + "\n" for request in requests).encode()
        if script not in self.known:
            self.known[script] = self.served_again(script)
        return self.known[script]

    def served_again(self, script):
        if self.problem == MANY_POINTS:
            return self.bench.outcome({**self.files, "s": script}, DESK_WORDS, 0)[1].decode()
        problem = texts.read_problem(self.problem.encode(), (True, True, True)).finish()
        return oracle.desk.answer_to(problem, script)[1]

    def fault_in(self, run):
        """What is wrong with a run of which an allocation was refused, or None. Without its words it puts nothing."""
        code, put, held, _ = run
        if held != self.files:
            return "a file is changed"
        if code == 9 and not put:
            return None
        return oracle.desk.starved_fault(self.requests, code, put.decode(), self.served)


def places_of(count, every):
    """The calls that are refused, by their number: of very many a few from everywhere, and the last ones, with which worlds are found."""
    if count < 10_000:
        return range(1, count + 1, every)
    return [*range(1, count - 2_500, count // 12), *range(count - 2_500, count + 1, 16 * every)]


def check_script(bench, problem, text, every):
    """How many runs there were, how many of them ended without memory, and how many replied so to a request."""
    script = Script(bench, problem, text)
    right = bench.outcome(script.files, DESK_WORDS, 0)
    if (right[0], right[1].decode()) != (0, script.served(script.requests)):
        sys.exit(f"the desk, with no allocation refused: {right[:2]}")
    runs = refused = starved = 0
    for at in places_of(right[3], every):
        for rest in (0, 1, 100):
            run = bench.outcome(script.files, DESK_WORDS, at, rest)
            runs, refused, starved = runs + 1, refused + (run[0] == 9), starved + (run[0] == 0 and b" NoMemory\n" in run[1])
            why = script.fault_in(run)
            if why:
                sys.exit(f"the desk: allocation {at}{f' and each {rest}-th after it' if rest else ''} refused: {why}\n{run[:3]}\nand right is\n{right[:3]}")
    return runs, refused, starved


def desk_told(desk, every):
    """The sentence of what the scripts came to."""
    if not desk:
        return harness.without(desk)
    with Bench(desk) as bench:
        runs, refused, starved = (sum(numbers) for numbers in zip(*(check_script(bench, *case, every) for case in DESK_REFUSED)))
    return f"; of the desk {runs} runs, {refused} of them out of memory, {starved} with a request for which it was wanting, the others right"


def main():
    given = harness.arguments(__doc__, "program desk?", every=1)
    with Bench(given.program) as bench:
        told = [check_case(bench, case, given.every) for case in REFUSED_MEMORY]
    runs, refused = sum(t[0] for t in told), sum(t[1] for t in told)
    print(f"alloc_faults: {runs} runs, {refused} of them out of memory, the others right{desk_told(given.desk, given.every)}")


if __name__ == "__main__":
    main()
