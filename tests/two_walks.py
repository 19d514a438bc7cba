#!/usr/bin/env python3
"""Revisions of small taxonomies, in which many statements leave relations open, so that a listing has to retreat: each problem's
first worlds by the walk along alive paths beside those by the search that counts its nodes, and `mir` beside the letters of all worlds, where
these are not too many. The points of each such problem stand in a table. Then, one for each twenty of these, problems with `sibling=off`
that have too many points for it, so that the walk goes on by questions: their first hundred worlds in the same two ways.

    tests/two_walks.py [--program PATH] [--count N] [--seed N]

It ends with status 1 at the first difference, and shows it. Problems of which a walk takes over five seconds are left out and counted.
"""

import random
import subprocess
import sys

import harness
from small_runs import bench, made

WORDS = ["", "coverage=off", "nonempty=off", "sibling=off"]
# families of bench/problems.py with far more than 65,536 points where siblings may overlap
WIDE = [("generated", 48), ("unclear", 40), ("subjects", 20)]


def run(program, folder, *words, seconds=5):
    """The lines that a run prints and its exit code, or none where it takes too long."""
    try:
        done = harness.run([program, *words], folder.path, seconds=seconds)
    except subprocess.TimeoutExpired:
        return None
    return done.out.decode().splitlines(), done.code


def sets_of(worlds, count):
    """The relations that some world has, for each of the first pairs, in their order."""
    found = [set() for _ in range(count)]
    for world in worlds:
        for pair in range(count):
            found[pair].add(world[pair])
    return ["".join(letter for letter in "=><x!" if letter in letters) for letters in found]


def listed_so_far(counted, first):
    """What a search lists that counts its nodes: where their limit was reached first, what it lists until then begins the same list."""
    if counted is None or counted[0][-1] == first[0][-1] or counted[0][-1].startswith("complete"):
        return counted
    return first if counted[0][:-1] == first[0][: len(counted[0]) - 1] else counted


def walk_wide(program, folder, kind, seed, size):
    """Whether both walks list the same first worlds of a problem without a table; none where one takes too long."""
    folder.hold("p", made(kind, seed, size))
    limit = ["worlds=100", "token=t", "sibling=off"]
    first = run(program, folder, "align", "in=p", *limit, seconds=40)
    counted = run(program, folder, "align", "in=p", *limit, "nodes=300000", seconds=40)
    if first is None or counted is None or counted[0][-1] != first[0][-1]:
        return None if listed_so_far(counted, first) in (None, first) else False
    return counted == first


def main():
    given = harness.arguments(__doc__, "program", count=60, seed=1)
    rng = random.Random(given.seed)
    listed = walked = whole = left_out = 0
    with harness.Folder() as folder:
        for _ in range(given.count):
            size = rng.choice([8, 10, 12, 16, 20])
            lines = bench.revision(rng.randrange(10**6), size, rng.randint(1, 8), rng.uniform(0.6, 1.0), rng.uniform(0.2, 0.9))
            folder.hold("p", "\n".join(lines) + "\n")
            switch = [word for word in [rng.choice(WORDS)] if word]
            limit = ["worlds=2000", "token=t"]
            first = run(given.program, folder, "align", "in=p", *switch, *limit)
            if first is None:
                left_out += 1
                continue
            listed += 1
            counted = run(given.program, folder, "align", "in=p", *switch, *limit, "nodes=300000")
            walked += counted is not None and counted[0][-1] == first[0][-1]
            told = same = None
            if first[0][-1].startswith("complete"):
                told = run(given.program, folder, "mir", "in=p", *switch)
                told = told and [line.split(" ")[2].replace(".", "") for line in told[0][:-1]]
                same = told and sets_of(first[0][:-1], len(told))
                whole += 1
            if told != same or listed_so_far(counted, first) not in (None, first):
                print("\n".join(lines), switch, first[0][-1], counted and counted[0][-1], told, same, sep="\n")
                return 1
        wide = 0
        for number in range(given.count // 20):
            kind, size = WIDE[number % len(WIDE)]
            seed = rng.randrange(1, 1000)
            same = walk_wide(given.program, folder, kind, seed, size)
            if same is False:
                print("the walks differ:", kind, seed, size, "sibling=off")
                return 1
            wide += same is True
    told = f"{walked} of them by both walks to the same end, {whole} with the sets of mir, {left_out} left out"
    print(f"two_walks: {listed} problems, {told}, {wide} of {given.count // 20} without a table by both walks; no difference")
    return 0 if listed and wide or given.count < 20 else 1


if __name__ == "__main__":
    sys.exit(main())
