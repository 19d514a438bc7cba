"""A plain checker of certificates, written from docs/FORMATS.md, for problems of a few concepts.

`check(problem, data)` is the exit code and the standard output that `euler_align check` has for these bytes, whatever they are. It keeps
each rule of the page as one short definition, in the page's order; it is not fast. It knows nothing of the solver, and shares with
model.py only what a problem and a relation are. The forms of lines are in certificate_lines.py.
"""

import functools

from oracle import model
from oracle.certificate_lines import Text, TextFault, read_line
from oracle.model import LETTERS


class Rejected(Exception):
    """A line is rejected: the kind."""


# Clauses.


def given_clauses(problem):
    """The given clauses, in order, as sets of literals."""
    _, sibling, coverage = problem.switches
    n = len(problem.names)
    concept = lambda c: c + 1
    clauses = [{-concept(c), concept(p)} for c, p in enumerate(problem.parents) if p is not None]
    if sibling:
        for kids in problem.children:
            clauses += [{-concept(x), -concept(y)} for k, x in enumerate(kids) for y in kids[k + 1 :]]
    if coverage:
        clauses += [{-concept(c)} | {concept(k) for k in kids} for c, kids in enumerate(problem.children) if kids]
    for k, (x, y) in enumerate(problem.pairs):
        for region in range(3):
            clauses.append({-region_selector(n, k, region)} | {-lit for lit in region_literals(x, y, region)})
    for j, (whole, parts) in enumerate(sums_of(problem)):
        selector = sum_selector(problem, j)
        clauses += [{-selector, -concept(part), concept(whole)} for part in parts]
        clauses.append({-selector, -concept(whole)} | {concept(part) for part in parts})
    return clauses


def region_selector(n, pair, region):
    return n + 3 * pair + region + 1


def sum_selector(problem, j):
    return len(problem.names) + 3 * len(problem.pairs) + j + 1


def region_literals(x, y, region):
    """What says that a point is in the first of two concepts alone, in both, in the second alone."""
    return [[x + 1, -(y + 1)], [x + 1, y + 1], [-(x + 1), y + 1]][region]


def sums_of(problem):
    return [(a[1], a[2]) for a in problem.articulations if a[0] == "sum"]


class Book:
    """The clauses that a derivation may use, by their ids."""

    def __init__(self, problem):
        self.clauses = {k: frozenset(c) for k, c in enumerate(given_clauses(problem), 1)}
        self.given = len(self.clauses)

    def add(self, number, literals, hints):
        if number in self.clauses:
            raise Rejected("IdUsed")
        false = set(literals)
        for hint in hints:
            if hint not in self.clauses:
                raise Rejected("UnknownHint")
            left = self.clauses[hint] - false
            if not left:
                self.clauses[number] = frozenset(literals)
                return
            if len(left) > 1:
                raise Rejected("HintNotUnit")
            false |= {-literal for literal in left}
        raise Rejected("NoConflict")

    def drop(self, numbers):
        for number in numbers:
            if number not in self.clauses or number <= self.given:
                raise Rejected("UnknownHint")
            del self.clauses[number]

    def line(self, kind, said):
        if kind == "d":
            self.add(*said)
        else:
            self.drop(said)


# What a tree is about.


class Subject:
    """The problem with some articulations kept, or with one pair narrowed to one relation."""

    def __init__(self, problem, said=None):
        self.problem = problem
        bits = "1" * len(problem.articulations)
        if said is not None and said[0] == "m" and said[1] >= len(problem.pairs):
            raise Rejected("WrongSubject")
        if said is not None and said[0] == "a":
            bits = said[1]
            if len(bits) != len(problem.articulations):
                raise Rejected("WrongSubject")
        self.allowed = [frozenset(LETTERS) for _ in problem.pairs]
        self.sums, seen = [], 0  # those that are kept, by their numbers among all
        for a, bit in zip(problem.articulations, bits):
            if a[0] == "sum":
                if bit == "1":
                    self.sums.append(seen)
                seen += 1
            elif bit == "1":
                self.allowed[problem.pairs.index((a[1], a[2]))] &= set(a[3])
        if said is not None and said[0] == "m":
            self.allowed[said[1]] &= {said[2]}

    def meets(self, universe, sets):
        """Whether sets of numbers, as lists, are a family that meets the subject."""
        p = self.problem
        nonempty, sibling, coverage = p.switches
        if len(sets) != len(p.names):
            return False
        for members in sets:
            if members != sorted(set(members)) or any(x >= universe for x in members):
                return False
        sets = [set(members) for members in sets]
        for c, kids in enumerate(p.children):
            if any(not sets[k] <= sets[c] for k in kids):
                return False
            if sibling and any(sets[x] & sets[y] for k, x in enumerate(kids) for y in kids[k + 1 :]):
                return False
            if coverage and kids and sets[c] != set().union(*(sets[k] for k in kids)):
                return False
        if nonempty and not all(sets):
            return False
        if any(r not in letters for r, letters in zip(self.table(sets), self.allowed)):
            return False
        every = sums_of(p)
        return all(sets[every[j][0]] == set().union(*(sets[part] for part in every[j][1])) for j in self.sums)

    def table(self, sets):
        return "".join(model.relation(set(sets[x]), set(sets[y])) for x, y in self.problem.pairs)


@functools.cache
def forced(letters, region):
    """0 where the letters force a region empty, 1 where they force it occupied, else None."""
    words = {model.ROWS[r][region] for r in letters}
    return words.pop() if len(words) == 1 else None


def is_whole(letters):
    return letters == {
        r for r in LETTERS if all(forced(letters, g) in (None, model.ROWS[r][g]) for g in range(3))
    }


# Trees.


class Tree:
    """The nodes of a listing, or of the refutation of a claim. `at` is the node that is expected, or None."""

    def __init__(self, subject, order, start, book):
        self.subject, self.order, self.start, self.book = subject, order, start, book
        self.at = ""

    def sets(self, node):
        """What each pair allows at a node."""
        sets = list(self.subject.allowed)
        for k, letter in zip(self.order, node):
            sets[k] = sets[k] & {letter}
        return sets

    def is_shown(self, node):
        return not self.start or self.start.startswith(node) or model.rank(node) >= model.rank(self.start)

    def below(self, node):
        """The nodes that come right below a node."""
        if len(node) == len(self.order):
            return []
        return [node + r for r in LETTERS if r in self.subject.allowed[self.order[len(node)]] and self.is_shown(node + r)]

    def beside(self, node):
        """The first node behind a node and all that is below it."""
        while node:
            up = node[:-1]
            for other in self.below(up):
                if model.rank(other) > model.rank(node):
                    return other
            node = up
        return None

    def line(self, kind, said):
        if self.at is None:
            raise Rejected("ExtraBranch")
        depth, letter = said if kind == "b" else said[0]
        if (depth, letter) != (len(self.at), self.at[-1:]):
            raise Rejected("MissingBranch")
        if kind == "b":
            if depth == len(self.order):
                raise Rejected("BranchTooDeep")
            self.at = (self.below(self.at) + [self.beside(self.at)])[0]
            return
        if kind == "x":
            self.no_point(said[1], said[2])
        elif kind == "e":
            if said[1] >= len(self.subject.allowed) or self.sets(self.at)[said[1]]:
                raise Rejected("PairNotEmpty")
        else:
            universe, sets = said[1]
            if not self.subject.meets(universe, sets):
                raise Rejected("FamilyDoesNotMeet")
            if self.subject.table(sets) != self.at:
                raise Rejected("FamilyHasOtherTable")
        self.at = self.beside(self.at)

    def no_point(self, need, number):
        problem, sets = self.subject.problem, self.sets(self.at)
        n, count = len(problem.names), len(problem.pairs)
        if need < 3 * count:
            pair, region = divmod(need, 3)
            if forced(sets[pair], region) != 1:
                raise Rejected("NeedNotForced")
            literals = region_literals(*problem.pairs[pair], region)
        else:
            concept = need - 3 * count
            if concept >= n or not problem.switches[0]:
                raise Rejected("NeedNotForced")
            literals = [concept + 1]
        if number not in self.book.clauses:
            raise Rejected("UnknownClause")
        true = set(literals)
        true |= {region_selector(n, k, g) for k, letters in enumerate(sets) for g in range(3) if forced(letters, g) == 0}
        true |= {sum_selector(problem, j) for j in self.subject.sums}
        if any(-literal not in true for literal in self.book.clauses[number]):
            raise Rejected("LiteralNotForced")

    def end(self, position):
        """The end before a position, or, where it is None, behind all."""
        if self.at is None and position is not None:
            raise Rejected("ExtraBranch")
        if self.at != position:
            raise Rejected("MissingBranch")


# Whole certificates.


def listing(problem, text, start):
    if len(start) > len(problem.pairs):
        raise Rejected("WrongHeader")
    book = Book(problem)
    tree = Tree(Subject(problem), list(range(len(problem.pairs))), start, book)
    worlds = []
    while True:
        kind, said = read_line(text.next_line(), ["d", "k", "b", "x", "e", "w", "end"])
        if kind in ("d", "k"):
            book.line(kind, said)
        elif kind == "end":
            tree.end(said)
            text.finish()
            last = "-" if said is None else said or "."
            return [f"from {start or '.'}"] + worlds + [f"to {last}", f"accepted {len(worlds)}"]
        else:
            node = tree.at
            tree.line(kind, said)
            if kind == "w":
                worlds.append(node)


def claims(problem, text):
    book, told = Book(problem), []
    while True:
        kind, said = read_line(text.next_line(), ["d", "k", "some", "none", "done"])
        if kind in ("d", "k"):
            book.line(kind, said)
        elif kind == "some":
            if not Subject(problem, said[0]).meets(*said[1]):
                raise Rejected("FamilyDoesNotMeet")
            told.append(f"some {subject_text(said[0])}")
        elif kind == "none":
            if refuted(Subject(problem, said), text, book):
                told.append(f"none {subject_text(said)}")
        else:
            text.finish()
            return told + [f"accepted {len(told)}"]


def refuted(subject, text, book):
    """Reads the tree of a claim: whether it is whole."""
    split = [k for k, letters in enumerate(subject.allowed) if letters and not is_whole(letters)]
    tree = Tree(subject, split, "", book)
    while True:
        kind, said = read_line(text.next_line(), ["d", "k", "b", "x", "e", "end", "quit"])
        if kind in ("d", "k"):
            book.line(kind, said)
        elif kind == "quit":
            return False
        elif kind == "end":
            tree.end(None)
            return True
        else:
            tree.line(kind, said)


def subject_text(said):
    return f"m {said[1]} {said[2]}" if said[0] == "m" else f"a {said[1] or '.'}"


def check(problem, data):
    """The exit code and the standard output of a check of these bytes for a problem."""
    text = Text(data)
    try:
        kind, (switches, start) = read_line(text.next_line(), ["certificate", "claims"])
        if switches != problem.switches:
            raise Rejected("WrongHeader")
        lines = listing(problem, text, start) if kind == "certificate" else claims(problem, text)
    except TextFault as fault:
        return 7, f"certificate {text.number} {fault}\n"
    except Rejected as fault:
        return 8, f"rejected {text.number} {fault}\n"
    return 0, "".join(line + "\n" for line in lines)
