#!/usr/bin/env bash
# Unit propagation by watch_arena beside a plain C++ program with the same chains of watches on the same input: a
# chain of 1,000,000 implications, ten times, and random clauses of three literals, three times as many
# as variables, until a clause is false, twenty times. Prints how many literals each marked, and its
# processor time less that of making the clauses, the least of five runs.
set -eu
cd "$(git rev-parse --show-toplevel)/crates/measure"
[ -x out/measure ] || rt run >/dev/null
plain=$(mktemp)
trap 'rm -f "$plain"' EXIT
g++ -O2 -o "$plain" ../../bench/propagation.cc
python3 - "$plain" <<'PYTHON'
import resource, subprocess, sys

def used():
    usage = resource.getrusage(resource.RUSAGE_CHILDREN)
    return usage.ru_utime + usage.ru_stime

def run(*words):
    before = used()
    text = subprocess.run(words, capture_output=True, text=True, check=True).stdout
    return used() - before, int(text.split()[1])

def best(program, kind, rounds, variables):
    made, _ = min(run(program, kind, "0", str(variables)) for _ in range(5))
    whole, implied = min(run(program, kind, str(rounds), str(variables)) for _ in range(5))
    return implied, whole - made

for kind, rounds, variables in (("chain", 10, 1000000), ("random", 20, 100000)):
    for name, program in (("proved", "out/measure"), ("plain", sys.argv[1])):
        implied, seconds = best(program, kind, rounds, variables)
        print(f"{kind} {name}: {implied} literals in {seconds:.3f} s, {implied / seconds / 1e6:.2f} million a second")
PYTHON
