"""Small problems and files, and runs of each command over them, which the tests share; and the problems of bench/."""

import importlib.util
import os

from harness import ROOT
from oracle.commands import KINDS

# by its file, since the tools have a module of this name too
SPEC = importlib.util.spec_from_file_location("bench_problems", os.path.join(ROOT, "bench/problems.py"))
bench = importlib.util.module_from_spec(SPEC)
SPEC.loader.exec_module(bench)


def made(family, one, other):
    """A problem of a family of bench/problems.py."""
    return "\n".join(bench.FAMILIES[family](int(one), int(other))) + "\n"


# small problems, a certificate of the first one's listing, and a token of it
ALONE = "taxonomy 1\n(A)\ntaxonomy 2\n(B)\n"
PARTINGS = "taxonomy 1\n(A B C)\ntaxonomy 2\n(D E F)\narticulation\n[1.A equals 2.D]\n"
EQUAL = "taxonomy 1\n(A B C)\ntaxonomy 2\n(D)\narticulation\n[1.B equals 2.D]\n[1.C equals 2.D]\n"
SPLIT = (
    "taxonomy 1\n(A)\ntaxonomy 2\n(B)\ntaxonomy 3\n(C)\narticulation\n"
    "[1.A {equals disjoint} 2.B]\n[2.B {equals disjoint} 3.C]\n[1.A overlaps 3.C]\n"
)
TORN = SPLIT + "[1.A equals 2.B]\n"
PARTED = ALONE + "articulation\n[1.A equals 2.B]\n[1.A disjoint 2.B]\n"
CROWD = ALONE + "articulation\n" + "[1.A equals 2.B]\n" * 129
LISTING = "certificate 1 on on on .\nb 0 .\nw 1 = 1 0 0\nw 1 > 2 0,1 0\nw 1 < 2 0 0,1\nw 1 x 3 0,1 0,2\nw 1 ! 2 0 1\nend -\n"
TOKEN = "token 2 2 1 0e840ad3c362ef009568403e4c4fb237f9a9b4416ef7c8fbc4f86c79753f6d10 <\n"
BEHIND = TOKEN.replace("<", ">")
# the certificates of three parts of the same listing
FIRST = "certificate 1 on on on .\nb 0 .\nw 1 = 1 0 0\nend >\n"
SECOND = "certificate 1 on on on >\nb 0 .\nw 1 > 2 0,1 0\nend <\n"
THIRD = "certificate 1 on on on <\nb 0 .\nw 1 < 2 0 0,1\nw 1 x 3 0,1 0,2\nw 1 ! 2 0 1\nend -\n"
# what the names of the tokens of parts hold before, and one name more
TOKENS = {f"t{number}": f"old t{number}\n" for number in range(1, 7)}
ALL_KINDS = "kinds=" + ",".join(KINDS)

# runs whose calls of the store and of the sink fail, each in its turn: a problem, files, and words
FAILING_CALLS = [
    (ALONE, {}, "align in=p"),
    (PARTINGS, {}, "align in=p worlds=2 token=t"),
    (ALONE, {}, "align in=p nodes=3 token=t cert=c"),
    (ALONE, {"r": TOKEN}, "align in=p resume=r nodes=1 token=t cert=c"),
    (PARTINGS, {}, "align in=p cert=c"),
    (EQUAL, {}, "align in=p cert=c"),
    (ALONE, {"c": LISTING}, "check in=p cert=c"),
    (ALONE, {"c": LISTING.replace("w 1 x 3 0,1 0,2\n", "")}, "check in=p cert=c"),
    (ALONE, {"c": LISTING.replace("end -\n", "")}, "check in=p cert=c"),
    (ALONE, {"r": TOKEN.replace("<", "?")}, "align in=p resume=r"),
    (PARTINGS, {}, "mir in=p"),
    (SPLIT, {}, "mir in=p cert=c"),
    (TORN, {}, "mir in=p cert=c"),
    (TORN, {}, "conflict in=p"),
    (TORN, {}, "conflict in=p cert=c"),
    (SPLIT, {}, "conflict in=p cert=c"),
    (TORN, {}, "lattice in=p"),
    (TORN, {}, "lattice in=p cert=c"),
    (EQUAL, {}, "lattice in=p cert=c"),
    (PARTINGS, {}, "lattice in=p cert=c"),
    (CROWD, {}, "lattice in=p cert=c"),
    (SPLIT, {}, "explain in=p left=2.B right=1.A set=!"),
    (TORN, {}, "explain in=p left=1.A right=3.C set==!"),
    (PARTINGS, {}, "explain in=p left=1.B right=2.E set=x"),
    (PARTINGS, {}, "explain in=p left=1.B right=1.B set=x"),
    (PARTINGS, {}, f"report in=p {ALL_KINDS}"),
    (TORN, {}, "report in=p kinds=merge"),
    (ALONE, TOKENS, "parts in=p count=3 token=t"),
    (EQUAL, {"t1": "old t1\n"}, "parts in=p count=3 token=t"),
    (ALONE, {"r": BEHIND, "u": TOKEN}, "part in=p cert=c resume=r until=u"),
    (PARTINGS, {}, "part in=p cert=c"),
    (EQUAL, {}, "part in=p cert=c"),
    (ALONE, {"r": TOKEN, "u": BEHIND}, "part in=p cert=c resume=r until=u"),
    (ALONE, {"r": BEHIND, "u": TOKEN.replace("token", "tokens")}, "part in=p cert=c resume=r until=u"),
    (ALONE, {"r": TOKEN.replace("<", "?"), "u": TOKEN}, "part in=p cert=c resume=r until=u"),
    (ALONE, {"k": THIRD, "l": FIRST, "m": SECOND}, "join in=p certs=k,l,l,m"),
    (PARTED, {"k": "certificate 1 on on on .\ne 0 . 0\nend -\n"}, "join in=p certs=k"),
    (ALONE, {"k": THIRD, "l": FIRST}, "join in=p certs=k,l"),
    (ALONE, {"k": THIRD, "l": FIRST[:-1], "m": SECOND}, "join in=p certs=k,l,m"),
    (ALONE, {}, "trial seed=1 size=14"),
    ("taxonomy 1\n", {}, "align in=p"),
    (ALONE, {}, "align in=p nodes=3"),
]

# the same at the desk
DESK_CALLS = [
    (PARTINGS, {"s": "1 open\n2 open\n1 next\n2 keep 0\n2 narrow 2.D 1.A =\n1 next\n2 next\n1 open\n3 next\n1 close\n"}, "in=p script=s"),
    (SPLIT, {"s": "16 open\n\n16 next\n16 narrow 1.A 3.C x\n16 next\n16 next\n1 keep 000\n16 keep 110\n16 next\n"}, "coverage=off script=s in=p"),
    (ALONE, {"s": ""}, "in=p script=s"),
    (ALONE, {"s": "1 open\n" + "\n" * 4096 + "1 next\n"}, "in=p script=s"),
    (ALONE, {"s": "1 open\n17 open\n"}, "in=p script=s"),
    (ALONE + "articulation\n[1.A equals 2.C]\n", {"s": "1 open\n"}, "in=p script=s"),
    (ALONE, {}, "in=p"),
]

# runs whose allocations are refused, each in its turn
REFUSED_MEMORY = [
    (PARTINGS, {}, "align in=p"),
    (PARTINGS, {}, "align in=p sibling=off nodes=40 token=t"),
    (ALONE, {"r": TOKEN}, "align in=p resume=r nodes=1 token=t cert=c"),
    (PARTINGS, {}, "align in=p cert=c"),
    (EQUAL, {}, "align in=p cert=c nonempty=off"),
    (ALONE, {"k": LISTING}, "check in=p cert=k"),
    (SPLIT, {}, "mir in=p cert=c"),
    (TORN, {}, "conflict in=p cert=c"),
    (TORN, {}, "lattice in=p cert=c"),
    (EQUAL, {}, "lattice in=p"),
    (SPLIT, {}, "explain in=p left=2.B right=1.A set=!"),
    (PARTINGS, {}, "explain in=p left=1.B right=2.E set=x"),
    (PARTINGS, {}, f"report in=p {ALL_KINDS}"),
    (ALONE, TOKENS, "parts in=p count=3 token=t"),
    (ALONE, {"r": BEHIND, "u": TOKEN}, "part in=p cert=c resume=r until=u"),
    (SPLIT, {}, "part in=p cert=c"),
    (ALONE, {"k": THIRD, "l": FIRST, "m": SECOND}, "join in=p certs=k,l,l,m"),
    (ALONE, {}, "trial seed=1 size=14"),
    (ALONE, {"r": TOKEN, "u": BEHIND}, "part in=p cert=c resume=r until=u"),
    (ALONE, {"r": BEHIND, "u": TOKEN[:-3]}, "part in=p cert=c resume=r until=u"),
    (ALONE, {"k": THIRD, "l": FIRST}, "join in=p certs=k,l"),
    (ALONE, {"k": THIRD, "l": FIRST[:-3]}, "join in=p certs=k,l"),
    (ALONE, {"t1": ALONE}, "parts in=t1 count=3 token=t"),
    ("taxonomy 1\n(A B)\n(B A)\n", {}, "align in=p"),
    (ALONE, {}, "explain in=p left=1.A right=2.C set=x"),
    (CROWD, {}, "lattice in=p cert=c"),
    (ALONE, {"r": TOKEN[:-3]}, "align in=p resume=r"),
    (ALONE, {}, "align in=p nodes=0"),
]

# at the desk: problems with their scripts, in which nearly each request shows in later replies. The last problem has too many points for a
# table, so its worlds are found by questions
CROSSING = "taxonomy 1\n(A)\n(B)\ntaxonomy 2\n(C)\narticulation\n[1.A {equals includes} 2.C]\n[1.B overlaps 2.C]\n"
MANY_POINTS = "".join(f"taxonomy {t}\n" + "".join(f"({c}{k})\n" for k in range(9)) for t, c in ((1, "A"), (2, "B"))) + "articulation\n[1.A0 overlaps 2.B0]\n"
DESK_REFUSED = [
    (
        CROSSING,
        "1 open\n2 open\n1 next\n2 next\n1 next\n2 keep 01\n2 next\n1 next\n2 next\n2 narrow 2.C 1.A <!\n2 next\n1 open\n3 next\n2 next\n"
        "1 narrow 1.A 1.B <x\n1 next\n1 next\n2 keep 10\n2 next\n2 next\n1 close\n1 next\n1 open\n1 next\n1 next\n2 narrow 1.A 2.C <\n2 next\n",
    ),
    (PARTINGS, "1 open\n1 next\n1 next\n2 open\n2 narrow 1.B 2.E <!\n2 next\n1 next\n2 next\n1 narrow 2.E 1.B >x\n1 next\n2 close\n"),
    (MANY_POINTS, "1 open\n1 next\n1 next\n"),
    (MANY_POINTS, "1 open\n2 open\n2 keep 0\n1 next\n2 next\n1 next\n2 next\n1 narrow 2.B0 1.A0 x\n2 close\n"),
]

# a run of each command on devices, with the most files that it can have: p is a problem, q one in conflict, k a certificate of its listing,
# r and u two tokens, m and l certificates of the parts until u and from r on
ON_DEVICES = {
    "align": "align in=p worlds=2 resume=r token=t cert=c",
    "check": "check in=p cert=k",
    "mir": "mir in=p cert=c",
    "conflict": "conflict in=q cert=c",
    "lattice": "lattice in=q cert=c",
    "explain": "explain in=p left=1.s1 right=2.r set=<",
    "report": f"report in=p {ALL_KINDS}",
    "parts": "parts in=p count=2 token=t",
    "part": "part in=p cert=c resume=r until=u",
    "join": "join in=p certs=l,m",
    "trial": "trial seed=7 size=14",
}
