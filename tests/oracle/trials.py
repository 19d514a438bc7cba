"""The problems that `trial` makes from a seed and a size, and what it tells of them, by docs/FORMATS.md."""

from oracle.texts import read_problem


def made_text(seed, size):
    m = size // 2
    b, s = (m - 1) // 3, (m - 1) % 3
    x, draws = seed % 65537, []
    for _ in range(b + 1):
        x = (75 * x + 74) % 65537
        draws.append(x)
    out = []
    for t in (1, 2):
        out.append(f"taxonomy {t}")
        out.append("(r " + " ".join([f"b{k}" for k in range(1, b + 1)] + [f"s{k}" for k in range(1, s + 1)]) + ")")
        for k in range(1, b + 1):
            kids = [f"b{k}l", f"b{k}r"]
            if t == 2 and draws[k] % 2 == 1:
                kids.reverse()
            out.append(f"(b{k} {' '.join(kids)})")
    out.append("articulation")
    loose = 1 + draws[0] % b
    same = lambda name, word="equals": out.append(f"[1.{name} {word} 2.{name}]")
    for k in range(1, b + 1):
        form = draws[k] // 2 % 3
        if k == loose:
            same(f"b{k}")
        elif form == 0:
            same(f"b{k}l")
            same(f"b{k}r")
        elif form == 1:
            same(f"b{k}")
            same(f"b{k}l")
        else:
            same(f"b{k}l", "{equals disjoint}")
            same(f"b{k}r")
            same(f"b{k}")
    for k in range(1, s + 1):
        same(f"s{k}")
    return "".join(line + "\n" for line in out)


def answer(seed, size):
    """The lines of a trial. There are seven worlds whatever is drawn, and four pairs are not the same in all of them."""
    problem = read_problem(made_text(seed, size).encode(), (True, True, True))
    concepts = len(problem.names)
    counts = {"concepts": concepts, "articulations": len(problem.articulations), "pairs": concepts * (concepts - 1) // 2}
    told = {**counts, "worlds": 7, "varied": 4, "accepted": 7}
    return [f"trial {seed} {size}"] + [f"{what} {number}" for what, number in told.items()]
