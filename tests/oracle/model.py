"""What a problem is and which worlds it has, by docs/DEFINITIONS.md: worlds are listed by trying sets of points."""

import bisect
import functools
import hashlib
import itertools

LETTERS = "=><x!"
ORDER = str.maketrans(LETTERS, "01234")
NAMES = {"=": "equals", ">": "includes", "<": "is_included_in", "x": "overlaps", "!": "disjoint"}
CONVERSE = {"=": "=", ">": "<", "<": ">", "x": "x", "!": "!"}
# what a relation says of the regions: the left one alone, both, the right one alone (0 empty, 1 occupied, None free)
ROWS = {"=": (0, None, 0), ">": (1, None, 0), "<": (0, None, 1), "x": (1, 1, 1), "!": (1, 0, 1)}
MOST_PREFIXES = 1500


class TooMany(Exception):
    """A problem has more nodes than are walked here."""


class Problem:
    """Taxonomies with their concepts, statements and switches; `finish` makes the pairs, and the points that the rules allow."""

    def __init__(self, switches):
        self.taxonomies = []  # names
        self.names = []  # of concepts
        self.owners = []
        self.parents = []
        self.children = []
        self.articulations = []  # ("pair", left, right, letters) or ("sum", whole, parts)
        self.switches = switches

    def finish(self, points=None):
        """Makes the rest; points that are given are those of a problem that differs in no sum."""
        concepts = range(len(self.names))
        pairs = [(i, j) for i in concepts for j in concepts if i < j]
        self.cross = [p for p in pairs if self.owners[p[0]] != self.owners[p[1]]]
        self.pairs = self.cross + [p for p in pairs if self.owners[p[0]] == self.owners[p[1]]]
        allowed = {pair: frozenset(LETTERS) for pair in self.pairs}
        for a in self.articulations:
            if a[0] == "pair":
                allowed[a[1], a[2]] &= set(a[3])
        self.allowed = [allowed[pair] for pair in self.pairs]
        self.points = points or [b for b in itertools.product((0, 1), repeat=len(self.names)) if self.is_point(b)]
        # which points lie in each concept, and in each region of each pair, as the bits of a number
        self.in_concept = [sum(1 << k for k, p in enumerate(self.points) if p[c]) for c in concepts]
        both = [(self.in_concept[i], self.in_concept[j]) for i, j in self.pairs]
        self.in_region = [(x & ~y, x & y, y & ~x) for x, y in both]
        return self

    def is_point(self, bits):
        nonempty, sibling, coverage = self.switches
        for c, kids in enumerate(self.children):
            if any(bits[k] and not bits[c] for k in kids):
                return False
            if sibling and sum(bits[k] for k in kids) > 1:
                return False
            if coverage and kids and bits[c] and not any(bits[k] for k in kids):
                return False
        return all(
            bits[a[1]] == int(any(bits[part] for part in a[2])) for a in self.articulations if a[0] == "sum"
        )

    def text_name(self, concept):
        return f"{self.taxonomies[self.owners[concept]]}.{self.names[concept]}"

    def canonical(self):
        out = []
        for t, name in enumerate(self.taxonomies):
            out.append(f"taxonomy {name}")
            mine = [c for c in range(len(self.names)) if self.owners[c] == t]
            out += [f"({self.names[c]})" for c in mine]
            for c in mine:
                if self.children[c]:
                    out.append("(" + " ".join([self.names[c]] + [self.names[k] for k in self.children[c]]) + ")")
        out.append("articulation")
        for a in self.articulations:
            out.append(self.articulation_text(a))
        return "".join(line + "\n" for line in out)

    def articulation_text(self, a):
        if a[0] == "sum":
            return f"[{self.text_name(a[1])} sums {' '.join(self.text_name(p) for p in a[2])}]"
        words = [NAMES[r] for r in LETTERS if r in a[3]]
        word = words[0] if len(words) == 1 else "{" + " ".join(words) + "}"
        return f"[{self.text_name(a[1])} {word} {self.text_name(a[2])}]"

    def digest(self):
        on = " ".join("on" if s else "off" for s in self.switches)
        return hashlib.sha256((self.canonical() + f"switches {on}\n").encode()).hexdigest()

    # Aliveness of a prefix, by points.
    def is_alive(self, prefix):
        sets = [self.allowed[k] & {r} for k, r in enumerate(prefix)] + self.allowed[len(prefix) :]
        if not all(sets):
            return False
        empty, needs = 0, list(self.in_concept) if self.switches[0] else []
        for regions, letters in zip(self.in_region, sets):
            for points, word in zip(regions, forced_words(letters)):
                if word == 0:
                    empty |= points
                if word == 1:
                    needs.append(points)
        return all(need & ~empty for need in needs)

    def walk(self):
        """The nodes in order, each with whether it is a world, looked for as far as they are asked for."""
        if not hasattr(self, "alive"):
            self.alive = {}

        def is_alive(prefix):
            if prefix not in self.alive:
                if len(self.alive) > MOST_PREFIXES:
                    raise TooMany()
                self.alive[prefix] = self.is_alive(prefix)
            return self.alive[prefix]

        def go(prefix):
            alive = is_alive(prefix)
            yield prefix, alive and len(prefix) == len(self.pairs)
            if alive and len(prefix) < len(self.pairs):
                for r in LETTERS:
                    if r in self.allowed[len(prefix)]:
                        yield from go(prefix + r)

        yield from go("")

    def nodes_from(self, start):
        """The nodes from a position on, each with whether it is a world."""
        if not hasattr(self, "nodes"):
            self.nodes = list(self.walk())
            self.ranks = [rank(node) for node, _ in self.nodes]
        return self.nodes[bisect.bisect_left(self.ranks, rank(start)) :]

    def listing(self, start, nodes=None, worlds=None):
        """The worlds from a position on, and the node before which a limit stops, or None."""
        found, seen = [], 0
        for node, is_world in self.nodes_from(start):
            if (nodes is not None and seen >= nodes) or (worlds is not None and len(found) >= worlds):
                return found, node
            seen += 1
            if is_world:
                found.append(node)
        return found, None

    def worlds(self):
        if not hasattr(self, "listed"):
            self.listed = self.listing("")[0]
        return self.listed

    def families_by_sets_of_points(self):
        """All tables of families, by trying every set of points: for very small problems alone."""
        tables = set()
        for size in range(len(self.points) + 1):
            for chosen in itertools.combinations(self.points, size):
                sets = [frozenset(k for k, p in enumerate(chosen) if p[c]) for c in range(len(self.names))]
                if self.switches[0] and not all(sets):
                    continue
                table = "".join(relation(sets[i], sets[j]) for i, j in self.pairs)
                if all(r in letters for r, letters in zip(table, self.allowed)):
                    tables.add(table)
        return sorted(tables, key=rank)


def rank(position):
    """What positions are ordered by: a prefix first, then by the order of the relations."""
    return position.translate(ORDER)


def lies(bits, region):
    i, j, place = region
    return ((bits[i] and not bits[j]), (bits[i] and bits[j]), (not bits[i] and bits[j]))[place]


@functools.cache
def forced_words(letters):
    """What a set of relations says of the three regions together: 0 empty, 1 occupied, None nothing."""
    words = [{ROWS[r][region] for r in letters} for region in range(3)]
    return [said.pop() if len(said) == 1 else None for said in words]


def relation(x, y):
    if x == y:
        return "="
    if x <= y:
        return "<"
    if y <= x:
        return ">"
    return "x" if x & y else "!"
