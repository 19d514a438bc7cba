#!/usr/bin/env python3
"""How many questions a run of the program asks: the calls of the solver's `solve`, and of what makes a solver or its clauses anew, counted by
valgrind's callgrind (some fifty times slower than the run itself). usage: questions.py PROGRAM WORD .."""
import os
import re
import subprocess
import sys
import tempfile

COUNTED = {
    "learn_solver::solver::Solver::solve": "questions to a solver",
    "learn_solver::solver::Solver::new": "solvers made",
    "point_query::asker::Asker::new": "askers made",
    "family_solver::kept::solver::KeptSolver::ask": "questions on kept statements",
    "point_ladder::bounds::bound": "pairs tested along a ladder",
}


def calls_in(path):
    """The calls of each function by name, of a file that callgrind wrote."""
    names, counts, called = {}, {}, None
    for line in open(path, encoding="utf-8", errors="replace"):
        found = re.match(r"c?fn=\((\d+)\)(?: (.*))?", line)
        if found:
            if found.group(2):
                names[found.group(1)] = found.group(2).strip()
            called = names.get(found.group(1)) if line.startswith("c") else called
        found = re.match(r"calls=(\d+)", line)
        if found and called:
            counts[called] = counts.get(called, 0) + int(found.group(1))
    return counts


def main():
    if len(sys.argv) < 3:
        sys.exit(__doc__)
    with tempfile.TemporaryDirectory() as folder:
        path = os.path.join(folder, "calls")
        subprocess.run(["valgrind", "-q", "--tool=callgrind", f"--callgrind-out-file={path}", *sys.argv[1:]],
                       stdout=subprocess.DEVNULL, stderr=subprocess.DEVNULL, check=False)
        counts = calls_in(path)
    for name, meaning in COUNTED.items():
        number = sum(count for known, count in counts.items() if known == name or known.startswith(name + "'"))
        print(f"{number:9,} {meaning}")


if __name__ == "__main__":
    main()
