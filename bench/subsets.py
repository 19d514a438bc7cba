"""Prints a problem as an answer-set program whose statements are kept or not by externals, with a script that asks clingo in one
process: for the conflict whose list of flags is the least, or for all minimal conflicts and all maximal consistent sets.
usage: subsets.py FILE conflict|lattice [nonempty=off] [sibling=off] [coverage=off]
The points are those that the problem has where no statement is kept."""
import re
import sys

import asp

# What both scripts begin with: whether some statements hold together, by their places.
HEAD = """
def main(prg):
    prg.ground([("base", [])])
    count = COUNT
    asked = [0]
    def holds(kept):
        asked[0] += 1
        return prg.solve(assumptions=[(clingo.Function("kept", [clingo.Number(i)]), i in kept) for i in range(count)]).satisfiable
"""

CONFLICT = """
    kept = set(range(count))
    if holds(kept):
        print("consistent", asked[0])
        return
    for i in range(count):
        if not holds(kept - {i}):
            kept = kept - {i}
    print("conflict", len(kept), [i + 1 for i in sorted(kept)], "questions", asked[0])
"""

LATTICE = """
    seeds = clingo.Control(["--heuristic=Domain"])
    seeds.add("base", [], "{ in(0..%d) }. #heuristic in(X) : X = 0..%d. [1,true]" % (count - 1, count - 1) if count else "")
    seeds.ground([("base", [])])
    conflicts, sets = [], []
    everything = set(range(count))
    number = 0
    while True:
        seed = None
        with seeds.solve(yield_=True) as handle:
            for model in handle:
                seed = {a.arguments[0].number for a in model.symbols(atoms=True) if a.name == "in"}
                break
        if seed is None:
            break
        number += 1
        if holds(seed):
            for i in range(count):
                if i not in seed and not any(c <= seed | {i} for c in conflicts) and holds(seed | {i}):
                    seed = seed | {i}
            sets.append(seed)
            rule = ":- " + ", ".join("not in(%d)" % i for i in sorted(everything - seed)) + "." if everything - seed else ":- #true."
        else:
            for i in range(count):
                if i in seed and not holds(seed - {i}):
                    seed = seed - {i}
            conflicts.append(seed)
            rule = ":- " + ", ".join("in(%d)" % i for i in sorted(seed)) + "." if seed else ":- #true."
        seeds.add("r%d" % number, [], rule)
        seeds.ground([("r%d" % number, [])])
    print("lattice", len(conflicts), len(sets), "questions", asked[0])
"""


def statements(text):
    """The entries, in order."""
    return [words for line in text.split("\n") for words in [re.findall(r"[()\[\]{}]|[^\s()\[\]{}]+", line.split("#")[0])] if words and words[0] == "["]


def program(text, mode, switches):
    problem = asp.Problem(text)
    problem.sets, problem.sums = {}, []
    lines = []
    for number, point in enumerate(asp.points(problem, switches["sibling"], switches["coverage"])):
        lines.append(f"point({number}). " + " ".join(f"has({number},{c})." for c in point))
    lines.append("{ in(P) : point(P) }.")
    if switches["nonempty"]:
        lines += [f"concept(0..{len(problem.owner) - 1}).", "some(C) :- in(P), has(P,C).", ":- concept(C), not some(C)."]
    entries = statements(text)
    used = set()
    for index, words in enumerate(entries):
        lines.append("{ kept(%d) }." % index)
        one = asp.Problem(text)
        one.sets, one.sums = {}, []
        one.entry(words[1:-1])
        for (x, y), letters in one.sets.items():
            used.add((x, y))
            lines += [f":- kept({index}), rel({x},{y},{'=><x!'.index(r)})." for r in "=><x!" if r not in letters]
        for whole, parts in one.sums:
            tests = ", ".join(f"not has(P,{c})" for c in parts)
            lines.append(f":- kept({index}), in(P), has(P,{whole}), {tests}.")
            lines += [f":- kept({index}), in(P), has(P,{c}), not has(P,{whole})." for c in parts]
    lines += [f"pair({x},{y})." for x, y in sorted(used)]
    lines += asp.RELATIONS
    script = (HEAD.rstrip("\n") + (CONFLICT if mode == "conflict" else LATTICE)).replace("COUNT", str(len(entries)))
    return lines + ["#script (python)", "import clingo", script, "#end."]


if __name__ == "__main__":
    chosen = {"nonempty": True, "sibling": True, "coverage": True}
    for word in sys.argv[3:]:
        if word.endswith("=off"):
            chosen[word[:-4]] = False
    print("\n".join(program(open(sys.argv[1]).read(), sys.argv[2], chosen)))
