"""Prints a problem as an answer-set program whose answer sets, projected on what is shown, are the possible worlds: each point
that the rules on concepts allow is a fact and is in or out, and shown are the relations of all pairs.
usage: asp.py FILE [nonempty=off] [sibling=off] [coverage=off] [pairs|table]
With `pairs` it prints the concepts of each pair in the order of a world's letters instead, and with `table` what bench/walk.cc
reads: the points and, for each pair, the letters that it allows."""
import itertools
import re
import sys

WORDS = {"equals": "=", "==": "=", "includes": ">", ">": ">", "is_included_in": "<", "<": "<", "overlaps": "x", "><": "x", "disjoint": "!", "!": "!"}
EMPTY = {"=": "lr", ">": "r", "<": "l", "x": "", "!": "b"}
FULL = {"=": "", ">": "l", "<": "r", "x": "lbr", "!": "lr"}
# The relation of a pair, by the regions that have a point.
RELATIONS = ["left(X,Y) :- pair(X,Y), in(P), has(P,X), not has(P,Y).",
             "both(X,Y) :- pair(X,Y), in(P), has(P,X), has(P,Y).",
             "right(X,Y) :- pair(X,Y), in(P), has(P,Y), not has(P,X).",
             "rel(X,Y,0) :- pair(X,Y), not left(X,Y), not right(X,Y).",
             "rel(X,Y,1) :- pair(X,Y), left(X,Y), not right(X,Y).",
             "rel(X,Y,2) :- pair(X,Y), not left(X,Y), right(X,Y).",
             "rel(X,Y,3) :- pair(X,Y), left(X,Y), right(X,Y), both(X,Y).",
             "rel(X,Y,4) :- pair(X,Y), left(X,Y), right(X,Y), not both(X,Y)."]
CONVERSE = {"=": "=", ">": "<", "<": ">", "x": "x", "!": "!"}


class Problem:
    """The concepts by number, their parents and children, and what is said of them."""

    def __init__(self, text):
        self.owner, self.parent, self.children, self.number = [], [], [], {}
        self.sets, self.sums = {}, []
        taxonomies = []
        for line in text.split("\n"):
            words = re.findall(r"[()\[\]{}]|[^\s()\[\]{}]+", line.split("#")[0])
            if not words:
                continue
            if words[0] == "taxonomy":
                taxonomies.append(words[1])
            elif words[0] == "(":
                self.row(len(taxonomies) - 1, taxonomies[-1], words[1:-1])
            elif words[0] == "[":
                self.entry(words[1:-1])

    def concept(self, taxonomy, owner, name):
        key = f"{taxonomy}.{name}"
        if key not in self.number:
            self.number[key] = len(self.owner)
            self.owner.append(owner), self.parent.append(None), self.children.append([])
        return self.number[key]

    def row(self, owner, taxonomy, names):
        numbers = [self.concept(taxonomy, owner, name) for name in names]
        for child in numbers[1:]:
            self.parent[child] = numbers[0]
            self.children[numbers[0]].append(child)

    def entry(self, words):
        if words[1] == "sums":
            self.sums.append((self.number[words[0]], [self.number[w] for w in words[2:]]))
            return
        left, right = self.number[words[0]], self.number[words[-1]]
        letters = {WORDS[w] for w in words[1:-1] if w not in "{}"}
        if left > right:
            left, right, letters = right, left, {CONVERSE[x] for x in letters}
        self.sets[left, right] = self.sets.get((left, right), set("=><x!")) & letters

    def pairs(self):
        every = list(itertools.combinations(range(len(self.owner)), 2))
        return [p for p in every if self.owner[p[0]] != self.owner[p[1]]] + [p for p in every if self.owner[p[0]] == self.owner[p[1]]]


def points(problem, sibling, coverage):
    """The sets of concepts that one element may be in, by depth: a concept after those before it."""
    count = len(problem.owner)
    barred = {}
    for (left, right), letters in problem.sets.items():
        for region in "lbr":
            if letters and all(region in EMPTY[x] for x in letters):
                barred.setdefault(right, []).append((left, region))

    def fits(bits, c):
        for left, region in barred.get(c, []):
            if (region == "l" and bits[left] and not bits[c]) or (region == "b" and bits[left] and bits[c]) or (region == "r" and not bits[left] and bits[c]):
                return False
        for other in range(c):
            if problem.parent[c] == other and bits[c] and not bits[other]:
                return False
            if problem.parent[other] == c and bits[other] and not bits[c]:
                return False
            if sibling and bits[c] and bits[other] and problem.parent[c] is not None and problem.parent[c] == problem.parent[other]:
                return False
        for top in [c] + ([problem.parent[c]] if problem.parent[c] is not None else []):
            below = problem.children[top]
            if coverage and below and max(below + [top]) == c and bits[top] and not any(bits[k] for k in below):
                return False
        for whole, parts in problem.sums:
            if max(parts + [whole]) == c and bits[whole] != any(bits[k] for k in parts):
                return False
        return True

    found, bits = [], [False] * count

    def go(c):
        if c == count:
            found.append([k for k in range(count) if bits[k]])
            return
        for bit in (False, True):
            bits[c] = bit
            if fits(bits, c):
                go(c + 1)
        bits[c] = False

    sys.setrecursionlimit(10000)
    go(0)
    return [p for p in found if p]


def program(problem, switches):
    lines = []
    for number, point in enumerate(points(problem, switches["sibling"], switches["coverage"])):
        lines.append(f"point({number}). " + " ".join(f"has({number},{c})." for c in point))
    lines.append("{ in(P) : point(P) }.")
    if switches["nonempty"]:
        lines += [f"concept(0..{len(problem.owner) - 1}).", "some(C) :- in(P), has(P,C).", ":- concept(C), not some(C)."]
    lines += [f"pair({x},{y})." for x, y in problem.pairs()]
    lines += [f"no({x},{y},{'=><x!'.index(r)})." for (x, y), letters in problem.sets.items() for r in "=><x!" if r not in letters]
    lines += RELATIONS + [":- no(X,Y,R), rel(X,Y,R).", "#show rel/3."]
    return lines


if __name__ == "__main__":
    switches = {"nonempty": True, "sibling": True, "coverage": True}
    for word in sys.argv[2:]:
        if word.endswith("=off"):
            switches[word[:-4]] = False
    problem = Problem(open(sys.argv[1]).read())
    if "table" in sys.argv[2:]:
        list_of = points(problem, switches["sibling"], switches["coverage"])
        print(len(problem.owner), len(list_of), int(switches["nonempty"]))
        print("\n".join(" ".join(map(str, [len(p)] + p)) for p in list_of))
        print("\n".join(f"{x} {y} {''.join(sorted(problem.sets.get((x, y), '=><x!'), key='=><x!'.index)) or '-'}" for x, y in problem.pairs()))
    elif "pairs" in sys.argv[2:]:
        print("\n".join(f"{x} {y}" for x, y in problem.pairs()))
    else:
        print("\n".join(program(problem, switches)))
