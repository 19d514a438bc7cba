"""Reports, possible relations, conflicts, explanations and trials."""

import json

import random_cases
from comparisons.certificates import check_written
from comparisons.runner import Difference, rows_text, status_of
from oracle import model, reports, statements, texts, trials
from oracle.commands import KINDS


def check_reports(runner, problem, words, rng):
    worlds, kinds = problem.worlds(), rng.sample(KINDS, rng.randint(1, 5))
    code, text = runner.run(["report", "in=p", "kinds=" + ",".join(kinds)] + words)
    wanted = []
    for kind in kinds:
        wanted += [f"report {kind}"] + reports.report(problem, kind, worlds)
    wanted.append(f"complete {len(worlds)}")
    # a line of JSON is compared by what it says, and by its having no spaces and its keys in order
    wanted = [json.dumps(x, separators=(",", ":"), ensure_ascii=False) if isinstance(x, dict) else x for x in wanted]
    if text.split("\n")[:-1] != wanted or code != status_of(worlds):
        raise Difference(f"report {kinds}: {code}\n{text}\nwanted {wanted}")


def check_possible(runner, problem, words, rng):
    worlds = problem.worlds()
    sets = reports.possible(problem, worlds)
    text = "".join(row + "\n" for row in reports.possible_lines(problem, sets))
    runner.same(["mir", "in=p"] + words, status_of(worlds), text)
    runner.drop("c")
    runner.same(["mir", "in=p", "cert=c"] + words, status_of(worlds), text)
    wanted = [
        f"{'some' if r in letters else 'none'} m {k} {r}"
        for k, letters in enumerate(sets)
        for r in model.LETTERS
        if r in problem.allowed[k]
    ]
    claims = check_written(runner, problem, words, rng)
    if claims[: len(wanted)] != wanted or (problem.cross and claims != wanted):
        raise Difference(f"mir claims {claims}\nwanted {wanted}")


def check_conflict(runner, problem, words, rng):
    count = len(problem.articulations)
    if count > 10:
        return
    bits = statements.least_conflict(problem)
    text = "".join(row + "\n" for row in statements.conflict_lines(problem, bits))
    code = 10 if bits is None else 0
    runner.same(["conflict", "in=p"] + words, code, text)
    runner.drop("c")
    runner.same(["conflict", "in=p", "cert=c"] + words, code, text)
    claims = check_written(runner, problem, words, rng)
    if bits is None:
        wanted = [f"some a {'1' * count or '.'}"]
        if claims != wanted:
            raise Difference(f"conflict claims {claims}\nwanted {wanted}")
        return
    losses = [bits[:k] + "0" + bits[k + 1 :] for k in range(count) if bits[k] == "1"]
    wanted = [f"none a {bits}"] + [f"some a {loss}" for loss in losses]
    if not set(wanted) <= set(claims):
        raise Difference(f"conflict claims {claims}\nwanted {wanted}")


def check_lattice(runner, problem, words, rng):
    conflicts, sets = statements.lattice(problem)
    text = "".join(row + "\n" for row in statements.lattice_lines(conflicts, sets))
    runner.same(["lattice", "in=p"] + words, 0, text)
    runner.drop("c")
    runner.same(["lattice", "in=p", "cert=c"] + words, 0, text)
    claims = check_written(runner, problem, words, rng)
    wanted = [f"none a {bits}" for bits in conflicts] + [f"some a {bits or '.'}" for bits in sets]
    if claims != wanted:
        raise Difference(f"lattice claims {claims}\nwanted {wanted}")


def check_explanation(runner, problem, words, rng):
    """Why two concepts have one of some relations: mostly those that are possible, and now and then names that are none of a concept."""
    names = [problem.text_name(c) for c in range(len(problem.names))]
    left, right = rng.sample(names, 2) if len(names) > 1 and rng.random() < 0.9 else rng.choices(names + ["1.X", "A0", ".", "1.", ""], k=2)
    pair, _ = statements.pair_named(problem, left, right)
    letters = {r for r in model.LETTERS if rng.random() < 0.3}
    if pair and rng.random() < 0.7:
        letters |= {world_relation(problem, world, *pair) for world in problem.worlds()}
    letters = letters or {rng.choice(model.LETTERS)}
    code, rows = statements.explanation(problem, left, right, letters)
    shown = "".join(rng.sample(sorted(letters), len(letters)) + rng.choices(sorted(letters), k=rng.choice([0, 0, 1])))
    runner.same(["explain", "in=p", f"left={left}", f"right={right}", f"set={shown}"] + words, code, rows_text(rows))
    if pair and (code == 14) != any(world_relation(problem, world, *pair) not in letters for world in problem.worlds()):
        raise Difference(f"what follows for {left} and {right} is not what all worlds have: {rows}")


def world_relation(problem, world, x, y):
    letter = world[problem.pairs.index((min(x, y), max(x, y)))]
    return letter if x < y else model.CONVERSE[letter]


def check_crowded(runner, problem, words, rng):
    """Conflicts of a problem with more statements, and why something follows there."""
    text = problem.text + random_cases.more_statements(rng, problem, 10 if rng.random() < 0.02 else 7)
    runner.hold("p", text)
    crowded = texts.read_problem(text.encode(), problem.switches).finish()
    check_conflict(runner, crowded, words, rng)
    check_lattice(runner, crowded, words, rng)
    check_explanation(runner, crowded, words, rng)


def check_many(runner, problem, words, rng):
    """Now and then as many statements as all conflicts are looked for among, and one more: those of the problem again and again."""
    said = [f"{problem.articulation_text(a)}\n" for a in problem.articulations]
    if rng.random() > 0.05 or not said or not problem.worlds():
        return
    for count, code, rows in ((128, 0, statements.lattice_lines([], ["1" * 128])), (129, 13, ["too many"])):
        runner.hold("p", problem.text + "".join(rng.choice(said) for _ in range(count - len(said))))
        runner.same(["lattice", "in=p"] + words, code, rows_text(rows))


def check_trial(runner, _problem, _words, rng):
    """Now and then a trial."""
    if rng.random() < 0.1:
        seed, size = rng.choice([0, 7, *(rng.randrange(2**64) for _ in range(4))]), rng.choice([14, 16, 18])
        runner.same(["trial", f"seed={seed}", f"size={size}"], 0, rows_text(trials.answer(seed, size)))
