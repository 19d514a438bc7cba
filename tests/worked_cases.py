#!/usr/bin/env python3
"""Worked cases that a transcript of crates/run_scenes can't show: texts with their first faults and at each limit, canonical texts,
listings that stop at each number of nodes and of worlds, chains of runs, parts of listings and what joins of them, all conflicts and
explanations of many small problems, tokens that are cut off, and that a problem is judged first.

    tests/worked_cases.py [--program PATH]

What must come out is written down here, or counted by the oracle where there are too many cases. It ends with status 1 at the first other
answer, and shows it.
"""

import hashlib
import sys

import harness
from oracle import model, texts
from worked import parts, statements
from worked.runs import ON, Runs, lines

# Texts, whose lines end in bars, and their first faults.
FAULTS = [
    ("taxonomy 1|(A B C)|(D B)|", "3 TwoParents"),
    ("taxonomy 1|(A B C)|(B A)|", "3 Cycle"),
    ("taxonomy 1|(A B C)|(A B)|", "3 ChildTwice"),
    ("taxonomy 1|(A)|taxonomy 2|(B)|articulation|[1.A resembles 2.Z]|oops|", "6 UnknownRelation"),
    ("taxonomy 1|(A)|taxonomy 2|(B)|articulation|[1.A equals 2.Z]|", "6 UnknownConcept"),
    ("taxonomy 1|(A)|taxonomy 2|(B)|articulation|[1.A equals 1.A]|", "6 SameTaxonomy"),
    ("taxonomy 1|(A)|taxonomy 2|(B)|articulation|[1.A {} 2.B]|", "6 EmptyBraces"),
    ("taxonomy 1|(A)|taxonomy 2|(B)|articulation|[1.A equals B]|", "6 BadName"),
    ("taxonomy 1|(A)|taxonomy 2|(B)|(C)|articulation|[1.A sums 2.B]|", "7 BadLine"),
    ("taxonomy 1|(A)|taxonomy 2|(B)|(C)|articulation|[1.A sums 2.B 2.B]|", "7 PartTwice"),
    ("taxonomy 1|(A)|taxonomy 2|(B)|(C)|articulation|[1.A sums 2.B 1.A]|", "7 SameTaxonomy"),
    ("taxonomy 1|taxonomy 2|[1.A equals 2.B]|", "3 ArticulationOutside"),
    ("(A)|", "1 RowOutsideTaxonomy"),
    ("taxonomy 1|taxonomy 1|", "2 TaxonomyTwice"),
    ("taxonomy 1|", "0 TaxonomyCount"),
    ("".join(f"taxonomy {n}|" for n in range(1, 10)), "9 TaxonomyCount"),
    ("taxonomy 1\r# c|", "1 BadName"),
    ("taxonomy 1.2|", "1 BadName"),
    ("oops|||||||||\udcff|", "10 NotUtf8"),
    ("oops||\udcff", "3 NotUtf8"),
    # the rows of a taxonomy: a child of two parents, a loop over two rows, and what a refused row leaves
    ("taxonomy 1|(A B C)|(D E D)|", "3 Cycle"),
    ("taxonomy 1|(A B C)|(A D B)|", "3 ChildTwice"),
    ("taxonomy 1|(A B)|(B C)|(C A)|", "4 Cycle"),
    ("taxonomy 1|(A B)|(A A)|", "3 Cycle"),
]
ONE, TWO = "taxonomy 1\n(", "taxonomy 1\n(A)\ntaxonomy 2\n(B)\narticulation\n"
MANY = "taxonomy 1\n" + "".join(f"(c{n})\n" for n in range(1, 1025))
NOTE = "taxonomy 1\ntaxonomy 2\n#"
ENTRY = "[1.A ! 2.B]\n"

# Texts at a limit and past it.
LIMITS = [
    (MANY + "taxonomy 2\n", None),
    (MANY + "(c1025)\n", "1026 TooManyConcepts"),
    (ONE + "n" * 128 + ")\ntaxonomy 2\n", None),
    (ONE + "n" * 129 + ")\ntaxonomy 2\n", "2 BadName"),
    ("taxonomy 1\ntaxonomy " + "é" * 64, None),
    ("taxonomy 1\ntaxonomy x" + "é" * 64, "2 BadName"),
    (NOTE + "-" * (1_048_576 - len(NOTE)), None),
    (NOTE + "-" * (1_048_577 - len(NOTE)), "0 TooLong"),
    (TWO + ENTRY * 4096, None),
    (TWO + ENTRY * 4097, "4102 TooManyArticulations"),
    (TWO + ENTRY * 4096 + "[1.A ! 2.C]\n", "4102 UnknownConcept"),
]

# Texts and the canonical texts of their problems.
CANONICAL = [
    (
        "\ufeff# note\r\ntaxonomy 1 old list\r\n(A B)\r\n(A\tC) # again\r\n\r\ntaxonomy 2\r\n(D E F)\r\narticulations both\r\n[2.D == 1.A]\r\n"
        "[2.E {equals includes == >} 1.B]\r\n[1.A sums 2.E 2.F]\r",
        "taxonomy 1\n(A)\n(B)\n(C)\n(A B C)\ntaxonomy 2\n(D)\n(E)\n(F)\n(D E F)\narticulation\n[1.A equals 2.D]\n"
        "[1.B {equals is_included_in} 2.E]\n[1.A sums 2.E 2.F]\n",
    ),
    (
        "\ufeff# note\r\ntaxonomy 1 old list\r\n(A B)\r\n(A C) # again\r\n\r\ntaxonomy 2\r\n(D E F)\r\narticulations both\r\n[2.D == 1.A]\r\n"
        "[1.B {equals overlaps} 2.E]\r\n[1.B == 2.E]\r\n",
        "taxonomy 1\n(A)\n(B)\n(C)\n(A B C)\ntaxonomy 2\n(D)\n(E)\n(F)\n(D E F)\narticulation\n[1.A equals 2.D]\n"
        "[1.B {equals overlaps} 2.E]\n[1.B equals 2.E]\n",
    ),
    ("taxonomy 1\n(A.b é)\ntaxonomy 2\n", "taxonomy 1\n(A.b)\n(é)\n(A.b é)\ntaxonomy 2\narticulation\n"),
    ("taxonomy 1\n(A)\ntaxonomy 2\n(B)\narticulation\n[2.B > 1.A]", "taxonomy 1\n(A)\ntaxonomy 2\n(B)\narticulation\n[1.A is_included_in 2.B]\n"),
    (
        "taxonomy 2 x\n(R P)\n(P a b)\ntaxonomy 1\n(R P)\narticulation\n[1.P {! >< < > ==} 2.a]\n[1.P {<} 2.b]\n",
        "taxonomy 2\n(R)\n(P)\n(a)\n(b)\n(R P)\n(P a b)\ntaxonomy 1\n(R)\n(P)\n(R P)\narticulation\n"
        "[2.a {equals includes is_included_in overlaps disjoint} 1.P]\n[2.b includes 1.P]\n",
    ),
]

# Problems of which each cut and each chain is tried.
CUT = {
    "two alone": "taxonomy 1\n(A)\ntaxonomy 2\n(B)\n",
    "two partings": "taxonomy 1\n(A B C)\ntaxonomy 2\n(D E F)\narticulation\n[1.A equals 2.D]\n",
    "one child": "taxonomy 1\n(A B)\ntaxonomy 2\n(D)\narticulation\n[1.A equals 2.D]\n",
    "a sum": "taxonomy 1\n(A)\ntaxonomy 2\n(B)\n(C)\narticulation\n[1.A sums 2.B 2.C]\n",
}


def check_texts(runs):
    for text, fault in [(text.replace("|", "\n"), fault) for text, fault in FAULTS] + LIMITS:
        runs.hold("p", text.encode("utf-8", "surrogateescape"))
        if fault:
            runs.same("align in=p", 1, f"refused {fault}\n")
            continue
        # a certificate of no bytes is looked at once the problem is read
        runs.hold("c", b"")
        runs.same("check in=p cert=c", 7, "certificate 1 EndsEarly\n")


def check_canonical(runs):
    for text, canonical in CANONICAL:
        wanted = hashlib.sha256((canonical + "switches on on on\n").encode()).hexdigest()
        for written in (text, canonical):
            runs.hold("p", written.encode())
            runs.run(["align", "in=p", "nodes=1", "token=t"])
            got = runs.held("t").decode().split(" ")[4]
            if got != wanted:
                sys.exit(f"another digest: {got}\nand not {wanted}\nof {written}")


class Walked:
    """A problem with its nodes from the empty position on, each with whether it is a world."""

    def __init__(self, problem):
        self.problem, self.nodes = problem, list(problem.walk())

    def listing(self, start, nodes, worlds):
        """What the oracle says of a listing, from these nodes."""
        found, seen = [], 0
        for node, is_world in self.nodes:
            if model.rank(node) < model.rank(start):
                continue
            if (nodes is not None and seen >= nodes) or (worlds is not None and len(found) >= worlds):
                return found, node
            seen += 1
            found += [node] * is_world
        return found, None


def check_cut(runs, walked, words, nodes=None, worlds=None, start="", name="t"):
    """A run with limits stops where the oracle stops; the cut, or None."""
    problem = walked.problem
    found, cut = walked.listing(start, nodes, worlds)
    given = [f"{key}={value}" for key, value in (("nodes", nodes), ("worlds", worlds)) if value]
    runs.same(f"align in=p token={name} {' '.join(given)}{words}", 0 if cut is None else 5, lines(found, "complete" if cut is None else "cut"))
    if cut is not None and runs.held(name).decode() != texts.print_token(problem, cut):
        sys.exit(f"another token: {runs.held(name)}")
    return found, cut


def check_chain(runs, walked, **limits):
    """Runs of which each goes on from the token of the one before list what one run lists."""
    found, cut = check_cut(runs, walked, "", **limits)
    listed = list(found)
    while cut is not None:
        runs.hold("r", runs.held("t"))
        found, cut = check_cut(runs, walked, " resume=r", start=cut, **limits)
        listed += found
    if listed != walked.problem.worlds():
        sys.exit(f"a chain with {limits} lists {listed}")


def check_cuts(runs):
    for text in CUT.values():
        runs.hold("p", text.encode())
        problem = texts.read_problem(text.encode(), ON).finish()
        walked = Walked(problem)
        nodes, worlds = len(walked.nodes), len(problem.worlds())
        if any(walked.listing("", count, None) != problem.listing("", count) for count in (1, nodes // 2, nodes, nodes + 1)):
            sys.exit("the oracle says something else of its own nodes")
        for count in range(1, nodes + 2):
            check_cut(runs, walked, "", nodes=count)
        for count in range(1, worlds + 2):
            check_cut(runs, walked, "", worlds=count)
        for count in range(1, nodes + 1, 1 if nodes < 40 else 45):
            for other in range(1, worlds + 1):
                check_cut(runs, walked, "", nodes=count, worlds=other)
        for count in (1, 2, 3, 5, 50):
            check_chain(runs, walked, nodes=count)
            check_chain(runs, walked, worlds=count)


def check_tokens(runs):
    text = CUT["two alone"]
    runs.hold("p", text.encode())
    problem = texts.read_problem(text.encode(), ON).finish()
    old, new = f"token 1 {problem.digest()} <\n", texts.print_token(problem, "<")
    if (len(old), len(new)) != (75, 79):
        sys.exit(f"tokens of other sizes: {len(old)} and {len(new)}")
    for token in (old, new):
        for size in range(len(token)):
            runs.hold("r", token[:size].encode())
            runs.same("align in=p resume=r", 7, "token BadToken\n")
        runs.hold("r", token.encode())
        runs.same("align in=p resume=r", 0, "<\nx\n!\ncomplete 3\n")


def check_order(runs):
    """A problem is judged before a token or a certificate is read."""
    problems = (b"taxonomy 1\n(A)\n", 1, "refused 0 TaxonomyCount\n"), (b"taxonomy 1\n(A)\ntaxonomy 2\n(B)\n", 3, "read fault\n")
    for text, code, last in problems:
        runs.hold("p", text)
        for words in ("align in=p resume=absent", "check in=p cert=absent", "part in=p cert=c until=absent", "join in=p certs=absent,absent"):
            runs.same(words, code, last)


def main():
    given = harness.arguments(__doc__, "program")
    with Runs(given.program) as runs:
        check_texts(runs)
        check_canonical(runs)
        check_cuts(runs)
        parts.check_parts(runs)
        statements.check_lattices(runs)
        statements.check_too_many(runs)
        statements.check_explanations(runs)
        check_tokens(runs)
        check_order(runs)
    print(f"worked_cases: {runs.count} runs, no other answer")


if __name__ == "__main__":
    main()
