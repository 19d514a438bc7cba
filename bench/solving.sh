#!/usr/bin/env bash
# Solves random clauses of three literals at 4.26 clauses a variable, with 100 variables (20 seeds) and
# with 200 (3 seeds), and seven pigeons in six holes, by the proved solver and, where it is installed, by
# MiniSat. The proved solver does so twice: at once, and in sixteen questions with the first four variables
# assumed, between which it forgets its idle clauses where they are more than 2,048. Prints the answers,
# the conflicts and the processor time of each, the least of three runs, with the start of the program
# and the reading of the file.
set -eu
cd "$(git rev-parse --show-toplevel)/crates/measure"
[ -x out/measure ] || rt run >/dev/null
folder=$(mktemp -d)
trap 'rm -r "$folder"' EXIT
python3 ../../bench/solving.py "$folder"
python3 - "$folder" <<'PYTHON'
import glob, os, re, resource, shutil, subprocess, sys

def used():
    usage = resource.getrusage(resource.RUSAGE_CHILDREN)
    return usage.ru_utime + usage.ru_stime

def run(*words):
    before = used()
    text = subprocess.run(words, capture_output=True, text=True).stdout
    return used() - before, text

def least(*words):
    return min(run(*words) for _ in range(3))

def solved(path, splits):
    seconds, text = least("out/measure", "solve", path, splits)
    answer, conflicts = re.match(r"(bits|none) after (\d+)", text).groups()
    return answer, int(conflicts), seconds

def proved(path):
    return solved(path, "0")

def parted(path):
    return solved(path, "4")

def minisat(path):
    seconds, text = least("minisat", path, "/dev/null")
    answer = "none" if "UNSATISFIABLE" in text else "bits"
    return answer, int(re.search(r"conflicts\s*:\s*(\d+)", text).group(1)), seconds

solvers = {"proved": proved, "proved, in sixteen questions": parted}
if shutil.which("minisat"):
    solvers["minisat"] = minisat
for kind in ("random_100", "random_200", "pigeons"):
    paths = sorted(glob.glob(f"{sys.argv[1]}/{kind}_*.cnf"))
    runs = {name: [solver(path) for path in paths] for name, solver in solvers.items()}
    for name, found in runs.items():
        assert [run[0] for run in found] == [run[0] for run in runs["proved"]], kind
        conflicts, seconds = sum(run[1] for run in found), sum(run[2] for run in found)
        longest = max(run[2] for run in found)
        print(f"{kind} {name}: {len(found)} formulas, {conflicts} conflicts in {seconds:.3f} s,"
              f" {conflicts / seconds:.0f} a second, {longest:.3f} s at most")
PYTHON
