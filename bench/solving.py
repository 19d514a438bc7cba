"""Writes the formulas that bench/solving.sh solves: random clauses of three literals at 4.26 clauses a
variable, and pigeons that don't fit into their holes."""
import random, sys

def write(name, variables, clauses):
    with open(name, "w") as out:
        out.write(f"p cnf {variables} {len(clauses)}\n")
        for clause in clauses:
            out.write(" ".join(map(str, clause)) + " 0\n")

def random_clauses(seed, variables):
    dice = random.Random(seed)
    clauses = []
    for _ in range(round(4.26 * variables)):
        chosen = dice.sample(range(1, variables + 1), 3)
        clauses.append([v if dice.random() < 0.5 else -v for v in chosen])
    return clauses

def pigeons(count, holes):
    at = lambda pigeon, hole: pigeon * holes + hole + 1
    clauses = [[at(p, h) for h in range(holes)] for p in range(count)]
    clauses += [[-at(p, h), -at(q, h)] for h in range(holes) for p in range(count) for q in range(p)]
    return count * holes, clauses

folder = sys.argv[1]
for variables, seeds in ((100, 20), (200, 3)):
    for seed in range(1, seeds + 1):
        write(f"{folder}/random_{variables}_{seed:02}.cnf", variables, random_clauses(seed, variables))
write(f"{folder}/pigeons_7_6.cnf", *pigeons(7, 6))
