"""All conflicts and explanations of many small problems."""

import itertools
import sys

from oracle import model
from worked.runs import LAST, PAIR, PARTED, TREES, TWO_EQUAL, as_text

PARTS = "taxonomy 1|(A)|taxonomy 2|(B)|(C)|articulation|"
AGREED = TREES + "[1.A equals 2.D]|[1.B equals 2.E]|"
EVERY = "".join(f"[1.A {word} 2.B]|" for word in model.NAMES.values())


def ones(count, *places):
    return "".join("1" if k in places else "0" for k in range(count))


# Texts whose lines end in bars, switches, their minimal conflicts and their maximal consistent sets.
LATTICES = [
    (TREES + "[1.A equals 2.D]|[1.B equals 2.E]|[1.C equals 2.F]|[1.B disjoint 2.E]|", "", ["0101", "1011"], ["0011", "1001", "1110"]),
    (AGREED, "", [], ["11"]),
    (TREES, "", [], ["."]),
    ("taxonomy 1|taxonomy 2|", "", [], ["."]),
    (PARTED, "", ["11"], ["01", "10"]),
    # a statement that stands there twice, and statements that exclude each other
    (PAIR + "[1.A equals 2.B]|[1.A equals 2.B]|[1.A disjoint 2.B]|", "", ["011", "101"], ["001", "110"]),
    (PAIR + EVERY, "", [ones(5, k, j) for k in range(3, -1, -1) for j in range(4, k, -1)], [ones(5, k) for k in range(4, -1, -1)]),
    # two of three statements hold together, and all three don't
    (PAIR + "[1.A {equals includes} 2.B]|[1.A {includes is_included_in} 2.B]|[1.A {equals is_included_in} 2.B]|", "", ["111"], ["011", "101", "110"]),
    # a sum is kept or not as other statements are
    (PARTS + "[1.A sums 2.B 2.C]|[1.A includes 2.C]|[1.A {overlaps disjoint} 2.B]|", "", ["101"], ["011", "110"]),
    (PARTS + "[1.A sums 2.B 2.C]|[1.A disjoint 2.B]|", "", ["11"], ["01", "10"]),
    # what a switch rules out
    (TWO_EQUAL, "", ["11"], ["01", "10"]),
    (TWO_EQUAL, " nonempty=off", [], ["11"]),
    (TWO_EQUAL, " sibling=off", [], ["11"]),
    (AGREED + "[1.C disjoint 2.F]|", "", ["111"], ["011", "101", "110"]),
    (AGREED + "[1.C disjoint 2.F]|", " coverage=off", [], ["111"]),
    # as many as are looked at
    (PAIR + "[1.A equals 2.B]|" * 128, "", [], ["1" * 128]),
    (PAIR + "[1.A equals 2.B]|" * 127 + "[1.A overlaps 2.B]|", "", [ones(128, k, 127) for k in range(126, -1, -1)], [ones(128, 127), "1" * 127 + "0"]),
]

# Texts, switches, what is to be explained, and the numbers of the statements that explain it, or the last line.
EXPLANATIONS = [
    (AGREED, "", "1.C 2.F =", [1, 2]),
    (AGREED, " coverage=off", "1.C 2.F =", "not entailed"),
    (AGREED, "", "1.C 2.F =<x", [1, 2]),
    (AGREED, "", "1.C 2.F ==", [1, 2]),
    (AGREED, "", "1.C 2.F =><x!", []),
    # two statements, each of which would do: the one that is told is the last
    (AGREED, "", "1.A 2.E >", [2]),
    (AGREED, "", "2.E 1.A <", [2]),
    (AGREED, "", "2.E 1.A >", "not entailed"),
    (AGREED, "", "1.A 2.F >", [1]),
    # of one taxonomy
    (AGREED, "", "1.A 1.B >", []),
    (AGREED, "", "1.C 1.A <", []),
    (AGREED, "", "2.E 2.F !", []),
    (AGREED, " sibling=off", "2.E 2.F !", "not entailed"),
    (TREES + "[1.A equals 2.D]|", "", "1.C 2.F =", "not entailed"),
    (TREES, "", "1.A 2.D =><x", "not entailed"),
    # where nothing holds together everything follows, from a conflict or from less
    (PARTED, "", "1.A 2.B x", [1, 2]),
    (PARTED, "", "1.A 2.B =", [1]),
    (PARTED, "", "1.A 2.B =!", [2]),
    (PARTED, "", "2.B 1.A !", [2]),
    (PARTS + "[1.A sums 2.B 2.C]|", "", "1.A 2.C =>", [1]),
    (PARTS + "[1.A sums 2.B 2.C]|[1.A overlaps 2.B]|", "", "1.A 2.C <", [1, 2]),
    # names
    (AGREED, "", "1.Z 2.F =", "pair UnknownConcept"),
    (AGREED, "", "1.C 2.C =", "pair UnknownConcept"),
    (AGREED, "", "1.Z 1.Z =", "pair UnknownConcept"),
    (AGREED, "", "1.C 1.C =", "pair SameConcept"),
    (AGREED, "", "C 2.F =", "pair UnknownConcept"),
    (AGREED, "", "1.C  =", "pair UnknownConcept"),
    (AGREED, "", "1.C 2.F. =", "pair UnknownConcept"),
    ("taxonomy 1|(A.b)|taxonomy 2|(b)|articulation|[1.A.b equals 2.b]|", "", "1.A.b 2.b =", [1]),
    (TREES + "[1.A likes 2.D]|", "", "1.Z 1.Z =", "refused 6 UnknownRelation"),
]


def check_lattice(runs, text, words, conflicts, sets):
    """All conflicts and all sets, alone and with a certificate, whose claims are just these."""
    runs.hold("p", text.replace("|", "\n").encode())
    rows = [f"conflicts {len(conflicts)}", *conflicts, f"consistent {len(sets)}", *sets, f"lattice {len(conflicts)} {len(sets)}"]
    for cert in ("", " cert=c"):
        runs.same(f"lattice in=p{cert}{words}", 0, as_text(rows))
    claims = [f"none a {bits}" for bits in conflicts] + [f"some a {bits}" for bits in sets] + [f"accepted {len(conflicts) + len(sets)}"]
    runs.same(f"check in=p cert=c{words}", 0, as_text(claims))


def check_lattices(runs):
    for case in LATTICES:
        check_lattice(runs, *case)
    # more points than a table has: as many concepts that nothing relates
    loose = "".join(f"(C{k})|" for k in range(1, 13))
    text = f"taxonomy 1|(A1)|(A2)|(A3)|{loose}taxonomy 2|(B1)|(B2)|(B3)|articulation|" + "".join(f"[1.A{k} equals 2.B{k}]|[1.A{k} disjoint 2.B{k}]|" for k in (1, 2, 3))
    chosen = sorted("".join(sides) for sides in itertools.product(("01", "10"), repeat=3))
    check_lattice(runs, text, "", [ones(6, 2 * k, 2 * k + 1) for k in (2, 1, 0)], chosen)
    # pairs, each with two statements that exclude each other
    for count in range(1, 8):
        text = "taxonomy 1|(R " + " ".join(f"a{k}" for k in range(count)) + ")|taxonomy 2|(S " + " ".join(f"b{k}" for k in range(count)) + ")|articulation|"
        text += "".join(f"[1.a{k} equals 2.b{k}]|[1.a{k} disjoint 2.b{k}]|" for k in range(count))
        chosen = sorted("".join(sides) for sides in itertools.product(("01", "10"), repeat=count))
        check_lattice(runs, text, "", [ones(2 * count, 2 * k, 2 * k + 1) for k in range(count - 1, -1, -1)], chosen)
    # one pair with as many statements of each of two kinds
    for count in (5, 10, 20):
        text = PAIR + "[1.A equals 2.B]|" * count + "[1.A disjoint 2.B]|" * count
        conflicts = sorted(ones(2 * count, k, count + j) for k in range(count) for j in range(count))
        check_lattice(runs, text, "", conflicts, ["0" * count + "1" * count, "1" * count + "0" * count])


def check_too_many(runs):
    """More statements than all conflicts are looked for among: nothing is written."""
    runs.hold("p", (PAIR + "[1.A equals 2.B]|" * 129).replace("|", "\n").encode())
    runs.hold("c", b"what it held\n")
    runs.same("lattice in=p cert=c", 13, "too many\n")
    if runs.held("c") != b"what it held\n":
        sys.exit(f"too many, and the certificate is {runs.held('c')}")
    runs.same("lattice in=p cert=new", 13, "too many\n")
    if runs.held("new") is not None:
        sys.exit("too many, and a certificate is there")
    runs.same("conflict in=p", 10, "consistent\n")


def check_explanations(runs):
    for text, words, asked, answer in EXPLANATIONS:
        runs.hold("p", text.replace("|", "\n").encode())
        left, right, letters = asked.split(" ")
        said = text.split("articulation|")[1].split("|")
        code, rows = (LAST[answer.split()[0]], [answer]) if isinstance(answer, str) else (0, [f"explain {len(answer)}"] + [f"{k} {said[k - 1]}" for k in answer])
        runs.same(f"explain in=p left={left} right={right} set={letters}{words}", code, as_text(rows))
