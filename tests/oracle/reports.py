"""What follows from all worlds of a problem, by docs/FORMATS.md: the possible relations of each pair, and the reports."""

from oracle.model import CONVERSE, LETTERS


def possible(problem, worlds):
    """For each pair across taxonomies the letters of the relations that it has in some world."""
    return ["".join(r for r in LETTERS if any(w[k] == r for w in worlds)) for k in range(len(problem.cross))]


def possible_lines(problem, sets):
    rows = [f"{problem.text_name(x)} {problem.text_name(y)} {letters or '.'}" for (x, y), letters in zip(problem.cross, sets)]
    return rows + [f"mir {len(rows)}"]


# Reports.


def between(problem, table, x, y):
    if x == y:
        return "="
    if x < y:
        return table[problem.pairs.index((x, y))]
    return CONVERSE[table[problem.pairs.index((y, x))]]


def merged(problem, table):
    concepts = range(len(problem.names))
    leader = [min(d for d in concepts if between(problem, table, d, c) == "=") for c in concepts]
    heads = sorted(set(leader))
    classes = [[c for c in concepts if leader[c] == h] for h in heads]
    below = lambda a, b: between(problem, table, heads[a], heads[b]) == "<"
    places = range(len(heads))
    under = [
        (a + 1, b + 1)
        for a in places
        for b in places
        if below(a, b) and not any(below(a, m) and below(m, b) for m in places)
    ]
    splits = [pair for pair in problem.cross if table[problem.pairs.index(pair)] == "x"]
    return classes, under, splits


def part_names(problem, pair):
    x, y = (problem.text_name(c) for c in pair)
    return [f"{x}*{y}", f"{x}\\{y}", f"{y}\\{x}"]


def merged_text(problem, table):
    classes, under, splits = merged(problem, table)
    out = [f"class {k} {' = '.join(problem.text_name(c) for c in names)}" for k, names in enumerate(classes, 1)]
    out += [f"under {a} {b}" for a, b in under]
    out += [
        f"split {problem.text_name(p[0])} {problem.text_name(p[1])} {' '.join(part_names(problem, p))}" for p in splits
    ]
    return "".join(line + "\n" for line in out)


def merged_json(problem, table):
    classes, under, splits = merged(problem, table)
    value = {
        "classes": [[problem.text_name(c) for c in names] for names in classes],
        "splits": [part_names(problem, p) for p in splits],
        "under": [list(u) for u in under],
    }
    return value


def report(problem, kind, worlds):
    """The lines of a report; those of `json` as values."""
    names = lambda pair: f"{problem.text_name(pair[0])} {problem.text_name(pair[1])}"
    if kind == "count":
        return [str(len(worlds))]
    if kind == "tally":
        return [
            f"{names(pair)} " + " ".join(str(sum(w[k] == r for w in worlds)) for r in LETTERS)
            for k, pair in enumerate(problem.cross)
        ]
    if kind == "seen":
        return [
            f"{names(pair)} " + ("".join(r for r in LETTERS if any(w[k] == r for w in worlds)) or ".")
            for k, pair in enumerate(problem.cross)
        ]
    if kind == "merge":
        out = []
        for w in worlds:
            out += [f"world {w}"] + merged_text(problem, w).split("\n")[:-1]
        return out
    return [merged_json(problem, w) for w in worlds]
