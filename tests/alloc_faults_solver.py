#!/usr/bin/env python3
"""Allocations of the solver are refused, one in each run, over a formula that takes several thousand conflicts.

    tests/alloc_faults_solver.py --formula FILE [--measure PATH] [--every N] [--first N]

The program of crates/measure makes a call of the solver once more where it finds no memory, so the answer must be that of a run
without a refusal; the number of conflicts may be another, since the search goes on from where it was. Where memory is refused elsewhere, as
while the file is read, the run must say so and end. A formula is a file of bench/solving.py. It ends with status 1 at the first run that is
not so, and shows it.
"""

import os
import sys

import harness


def main():
    given = harness.arguments(__doc__, "measure", formula="", every=61, first=1)
    command = [given.measure, "solve", os.path.abspath(given.formula), "4"]
    alike = other = 0
    with harness.Refusals() as refusals:
        right, most = refusals.run(command, 0)
        for at in range(given.first, most + 1, given.every):
            got, _ = refusals.run(command, at)
            if got.code == right.code and got.out.split(b" ")[0] == right.out.split(b" ")[0]:
                alike += 1
            elif got.code >= 0 and b"bits" not in got.out and b"none" not in got.out:
                other += 1
            else:
                sys.exit(f"allocation {at} of {most} refused: {got}\nand right is {right}")
    print(f"alloc_faults_solver: {alike + other} runs of {most} allocations, {alike} with the same answer, {other} that say that there was no memory")


if __name__ == "__main__":
    main()
