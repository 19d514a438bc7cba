"""Certificates that no solver wrote: of listings and of claims, for problems of a few concepts.

A dead need is refuted by trying both values of each concept in turn, so that the derivation's lines are resolvents of given clauses. What
a certificate leaves free is drawn: ids, the order of literals, hints behind a contradiction, clauses that are dropped, nodes at which a
reason or a branch would do, where a listing ends, and trees that are left unfinished.
"""

from oracle import model, statements
from oracle.certificates import forced, given_clauses, is_whole, region_literals, region_selector, sum_selector
from oracle.model import LETTERS

MOST_LINES = 1500


class NotShown(Exception):
    """These literals have a model of the given clauses."""


class Writer:
    def __init__(self, problem, rng):
        self.problem, self.rng = problem, rng
        self.given = given_clauses(problem)
        self.used = set()
        self.wild = rng.random() < 0.5  # whether ids are drawn, or counted
        self.lines = []

    def put(self, *words):
        self.lines.append(" ".join(map(str, words)))
        if len(self.lines) > MOST_LINES:
            raise model.TooMany()

    def text(self):
        return "".join(line + "\n" for line in self.lines).encode()

    def header(self, kind, *words):
        self.put(kind, 1, *["on" if s else "off" for s in self.problem.switches], *words)

    # Derivations.

    def new_id(self):
        number = len(self.given) + len(self.used) + 1
        while self.wild or number in self.used:
            number = self.rng.choice([self.rng.randint(len(self.given) + 1, len(self.given) + 9999), self.rng.randint(2**63, 2**64 - 1)])
            if number not in self.used:
                break
        self.used.add(number)
        return number

    def derive(self, clause, hints):
        number, literals = self.new_id(), list(clause)
        self.rng.shuffle(literals)
        if literals and self.rng.random() < 0.05:
            literals.append(literals[0])
        if self.rng.random() < 0.05:
            hints = hints + [2**64 - 1]  # it is not looked at
        self.put("d", number, *literals, 0, *hints, 0)
        return number

    def refute(self, true, assumed):
        """A clause with only negations of these literals, and its id. Between them they leave no point."""
        held = true | assumed
        for number, clause in enumerate(self.given, 1):
            if all(-literal in held for literal in clause):
                return number, frozenset(clause)
        variable = next((c for c in range(1, len(self.problem.names) + 1) if c not in held and -c not in held), None)
        if variable is None:
            raise NotShown(sorted(held))
        parts = []
        for literal in (variable, -variable):
            number, clause = self.refute(true, assumed | {literal})
            if -literal not in clause:
                return number, clause
            parts.append((number, clause - {-literal}))
        clause = parts[0][1] | parts[1][1]
        return self.derive(clause, [parts[0][0], parts[1][0]]), clause

    def forget(self):
        if self.used and self.rng.random() < 0.1:
            dropped = self.rng.sample(sorted(self.used), self.rng.randint(0, len(self.used)))
            self.put("k", *dropped, 0)
            self.used -= set(dropped)

    # Trees. A subject is a problem whose allowed sets are narrowed, with the numbers of its sums among all.

    def subject(self, bits=None, pair=None, letter=None):
        whole = "1" * len(self.problem.articulations)
        subject = statements.restricted(self.problem, whole if bits is None else bits)
        kinds = [(a[0], bit) for a, bit in zip(self.problem.articulations, whole if bits is None else bits)]
        sums = [bit for kind, bit in kinds if kind == "sum"]
        subject.sums = [j for j, bit in enumerate(sums) if bit == "1"]
        if pair is not None:
            subject.allowed[pair] = subject.allowed[pair] & {letter}
        return subject

    def reasons(self, subject, order, node):
        """Why a node is dead: the last words of lines, by functions that derive what they need."""
        sets = list(subject.allowed)
        for k, letter in zip(order, node):
            sets[k] = sets[k] & {letter}
        found = [("e", k, None) for k, letters in enumerate(sets) if not letters]
        n, count = len(subject.names), len(sets)
        empty = [(k, g) for k in range(count) for g in range(3) if forced(sets[k], g) == 0]
        points = [p for p in subject.points if not any(model.lies(p, (*subject.pairs[k], g)) for k, g in empty)]
        needs = [(3 * k + g, region_literals(*subject.pairs[k], g)) for k in range(count) for g in range(3) if forced(sets[k], g) == 1]
        if subject.switches[0]:
            needs += [(3 * count + c, [c + 1]) for c in range(n)]
        selectors = {region_selector(n, k, g) for k, g in empty} | {sum_selector(self.problem, j) for j in subject.sums}
        for need, literals in needs:
            if not any(all(p[abs(l) - 1] == (l > 0) for l in literals) for p in points):
                found.append(("x", need, selectors | set(literals)))
        return found

    def node(self, subject, order, node):
        """Puts the line of a node, and answers whether it branches."""
        where = (len(node), node[-1:] or ".")
        reasons = self.reasons(subject, order, node)
        may_branch = len(node) < len(order)
        if reasons and not (may_branch and self.rng.random() < 0.05):
            kind, number, true = self.rng.choice(reasons)
            if kind == "e":
                self.put("e", *where, number)
            else:
                clause = self.refute(true, frozenset())[0]
                self.put("x", *where, number, clause)
            return False
        if may_branch:
            self.put("b", *where)
            return True
        self.put("w", *where, *self.family(subject, node))
        return False

    def family(self, subject, table):
        """The words of a family with a table, made of the points that it leaves."""
        empty = [(*pair, g) for pair, r in zip(subject.pairs, table) for g in range(3) if model.ROWS[r][g] == 0]
        points = [p for p in subject.points if not any(model.lies(p, e) for e in empty)]
        spread = self.rng.choice([1, 1, 3])
        sets = [[str(spread * k) for k, p in enumerate(points) if p[c]] for c in range(len(subject.names))]
        return [spread * len(points)] + [",".join(members) or "-" for members in sets]

    def tree(self, subject, order, start, node=""):
        """Puts the lines of a tree from a node on; yields each node before its line."""
        if not start.startswith(node) and model.rank(node) < model.rank(start):
            return
        yield node
        self.forget()
        if self.node(subject, order, node):
            for r in LETTERS:
                if r in subject.allowed[order[len(node)]]:
                    yield from self.tree(subject, order, start, node + r)

    # Whole certificates.

    def listing(self):
        """A listing from some position on, to its end or not."""
        problem, rng = self.problem, self.rng
        start = "".join(rng.choice(LETTERS) for _ in range(rng.randint(0, len(problem.pairs)))) if rng.random() < 0.4 else ""
        left = rng.choice([0, 1, 3, 10, MOST_LINES, MOST_LINES])
        self.header("certificate", start or ".")
        for node in self.tree(self.subject(), range(len(problem.pairs)), start):
            if left == 0:
                self.put("end", node or ".")
                return self.text()
            left -= 1
        self.put("end", "-")
        return self.text()

    def claims(self):
        self.header("claims")
        for _ in range(self.rng.randint(0, 4)):
            self.claim()
        self.put("done")
        return self.text()

    def claim(self):
        problem, rng = self.problem, self.rng
        if problem.pairs and rng.random() < 0.5:
            pair, letter = rng.randrange(len(problem.pairs)), rng.choice(LETTERS)
            words, subject = ("m", pair, letter), self.subject(None, pair, letter)
        else:
            bits = "".join(rng.choice("011") for _ in problem.articulations)
            words, subject = ("a", bits or "."), self.subject(bits)
        world = next((node for node, is_world in subject.walk() if is_world), None)
        if world is not None and rng.random() < 0.9:
            self.put("some", *words, *self.family(subject, world))
            return
        left = rng.randint(0, 5) if world is not None or rng.random() < 0.2 else MOST_LINES
        split = [k for k, letters in enumerate(subject.allowed) if letters and not is_whole(letters)]
        self.put("none", *words)
        for _ in self.unfinished(subject, split):
            if left == 0:
                self.put("quit")
                return
            left -= 1
        self.put("quit" if world is not None else "end", *([] if world is not None else ["-"]))

    def unfinished(self, subject, split, node=""):
        """As `tree`, but at the leaf of a subject that some family meets nothing can be said, so it stops there."""
        for at in self.tree(subject, split, "", node):
            yield at
            if len(at) == len(split) and not self.reasons(subject, split, at):
                return
