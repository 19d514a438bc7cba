"""Where parts of listings begin, each part, and what joins of them."""

import itertools
import sys

from oracle import model, parts, texts, trials
from worked.runs import ON, PAIR, PARTED, TREES, TWO_EQUAL, as_text, code_of, lines

# Texts, how many parts are asked for, and where they begin, or how many there are and how long the beginnings of all but the first.
BEGINNINGS = [
    (PAIR, 1, "."),
    (PAIR, 2, ". > < x !"),
    (PAIR, 5, ". > < x !"),
    (PAIR, 6, ". > < x !"),
    (PAIR, 1000, ". > < x !"),
    (PAIR + "[1.A {equals overlaps disjoint} 2.B]|", 3, ". x !"),
    # no pairs, and so one world without letters
    ("taxonomy 1|taxonomy 2|(A)|", 1000, "."),
    ("taxonomy 1|taxonomy 2|", 1, "."),
    # nothing holds together: the front is dead, by itself or since the first pair allows nothing
    (PARTED, 1, "."),
    (PARTED, 1000, "."),
    (TWO_EQUAL, 3, "."),
    # the first pair is decided, and all worlds are in one part
    (TREES + "[1.A equals 2.D]|", 2, ". => =< =x =!"),
    (TREES + "[1.A equals 2.D]|", 6, (25, 6)),
    (TREES + "[1.A equals 2.D]|", 1000, (35, 15)),
    # no beginning is longer, though the last length has too few
    (trials.made_text(7, 14), 6, (5, 16)),
]

# Certificates by hand of the first problem, besides those of its parts, c1 to c5.
BY_HAND = {
    "empty": "",
    "back": "certificate 1 on on on >|end .|",
    "none": "certificate 1 on on on .|end .|",
    "root": "certificate 1 on on on .|b 0 .|end =|",
    "other": "certificate 1 on on off .|end .|",
    "long": "certificate 1 on on on ==|end .|",
    "claims": "claims 1 on on on|done|",
    "late": "certificate 1 on on on .|b 0 .|w 1 = 1 0 0|w 1 < 2 0 0,1|end -|",
}

# What is joined, and the last line.
JOINS = [
    ("c5,c2,c2,c1,c4,c3", "joined 5"),
    ("c5,c1,c4,c3", "gap > <"),
    ("c1,c2,c3,c4", "gap ! -"),
    ("c2,c1,empty,c3", "refused part 3 1 EndsEarly"),
    ("whole", "joined 5"),
    ("whole,whole,c3,whole", "joined 5"),
    ("front,rest", "joined 5"),
    ("rest,front", "joined 5"),
    ("front", "gap x -"),
    ("rest", "gap . >"),
    ("c2", "gap . >"),
    ("root,c2", "gap = >"),
    ("root,c1", "gap > -"),
    # what lists nothing covers nothing, but begins somewhere
    ("back", "gap . >"),
    ("none", "gap . -"),
    ("c1,back,c3", "gap > <"),
    ("c1,back", "gap > -"),
    ("root,back", "gap = >"),
    ("back,none,whole,back", "joined 5"),
    ("c2,c1,claims", "refused part 3 1 BadLine"),
    ("claims,c1,empty", "refused part 1 1 BadLine"),
    ("other,whole", "refused part 1 1 WrongHeader"),
    ("whole,other", "refused part 2 1 WrongHeader"),
    ("whole,long", "refused part 2 1 WrongHeader"),
    ("whole,c1,late", "refused part 3 4 MissingBranch"),
    # they are read one by one, and the first that is refused ends it
    ("empty,absent", "refused part 1 1 EndsEarly"),
    ("absent,empty", "read fault"),
    ("c1,absent", "read fault"),
    ("c1,other,absent", "refused part 2 1 WrongHeader"),
]

# Texts of the problem, of the token of the beginning and of that of the end, or None where there is no file, and the last line of a part.
ORDERS = [
    ("taxonomy 1|(A)|", None, None, "refused 0 TaxonomyCount"),
    (PAIR, None, "", "read fault"),
    (PAIR, "", None, "token BadToken"),
    (PAIR, "<", None, "read fault"),
    (PAIR, "?", None, "token BadPosition"),
    (PAIR, "<", "?", "token BadPosition"),
    (PAIR, "", "?", "token BadToken"),
    (PAIR, "?", "", "token BadPosition"),
    (PAIR, "<", "", "token BadToken"),
    (PAIR, "<", "<", "empty part"),
    (PAIR, "<", ">", "empty part"),
    (PAIR, ".", ".", "empty part"),
    (PAIR, "<", "x", "part 1"),
]


def check_beginnings(runs, text, count, wanted):
    """Where the parts begin and their tokens; each part; and all of them joined in reverse order, which is what one run lists."""
    runs.clear()
    runs.hold("p", text.replace("|", "\n").encode())
    problem = texts.read_problem(runs.held("p"), ON).finish()
    positions = parts.beginnings(problem, count)
    shown = " ".join(position or "." for position in positions)
    if wanted not in (shown, (len(positions), len(positions[-1]))):
        sys.exit(f"{count} parts begin at {shown}, and not at {wanted}")
    runs.same(f"parts in=p count={count} token=t", 0, as_text(parts.parts_lines(positions)))
    tokens = {f"t{number}": texts.print_token(problem, position).encode() for number, position in enumerate(positions, 1)}
    if runs.all_held() != {"p": runs.held("p"), **tokens}:
        sys.exit(f"other tokens: {runs.all_held()}")
    code, told = runs.run(["align", "in=p"])
    worlds = told.split("\n")[:-2]
    for number, (start, end) in enumerate(zip(positions, positions[1:] + [None]), 1):
        found = [world for world in worlds if not parts.is_below(world, start) and parts.is_below(world, end)]
        until = "" if end is None else f" until=t{number + 1}"
        runs.same(f"part in=p cert=c{number} resume=t{number}{until}", 0, lines(found, "part"))
    certs = ",".join(f"c{number}" for number in range(len(positions), 0, -1))
    runs.same(f"join in=p certs={certs}", code, lines(worlds, "joined"))


def hold_parts(runs):
    """The first problem, the tokens and the certificates of its parts, and others."""
    runs.clear()
    runs.hold("p", PAIR.replace("|", "\n").encode())
    runs.same("parts in=p count=3 token=t", 0, "part 1 .\npart 2 >\npart 3 <\npart 4 x\npart 5 !\nparts 5\n")
    for number, world in enumerate(model.LETTERS, 1):
        until = f" until=t{number + 1}" if number < 5 else ""
        runs.same(f"part in=p cert=c{number} resume=t{number}{until}", 0, f"{world}\npart 1\n")
    runs.same("align in=p cert=whole", 0, lines(model.LETTERS, "complete"))
    runs.same("part in=p cert=front until=t4", 0, lines("=><", "part"))
    runs.same("part in=p cert=rest resume=t2", 0, lines("><x!", "part"))
    for name, text in BY_HAND.items():
        runs.hold(name, text.replace("|", "\n").encode())


def check_joins(runs):
    hold_parts(runs)
    runs.same("check in=p cert=c2", 0, "from >\n>\nto <\naccepted 1\n")
    for certs, last in JOINS:
        runs.same_and_kept(f"join in=p certs={certs}", code_of(last), ("=\n>\n<\nx\n!\n" if last == "joined 5" else "") + last + "\n")
    runs.same_and_kept("join in=p certs=whole coverage=off", 16, "refused part 1 1 WrongHeader\n")
    # all orders of all parts, and each choice of them
    for order in itertools.permutations(range(1, 6)):
        runs.same("join in=p certs=" + ",".join(f"c{number}" for number in order), 0, lines(model.LETTERS, "joined"))
    ends = ["", *model.LETTERS[1:], None]
    for chosen in itertools.product((False, True), repeat=5):
        numbers = [number for number in (4, 1, 3, 5, 2) if chosen[number - 1]]
        gap = parts.first_gap([parts.Part(ends[number - 1], ends[number], []) for number in numbers])
        if numbers and gap:
            runs.same("join in=p certs=" + ",".join(f"c{number}" for number in numbers), 17, f"gap {gap[0] or '.'} {gap[1] or '-'}\n")


def check_ends_of_parts(runs):
    """Each two positions as the beginning and the end of a part; a part without worlds writes nothing."""
    hold_parts(runs)
    problem = texts.read_problem(runs.held("p"), ON).finish()
    for start, end in itertools.product([None, "", *model.LETTERS], repeat=2):
        given = ""
        for key, position in (("resume", start), ("until", end)):
            if position is not None:
                runs.hold(key, texts.print_token(problem, position).encode())
                given += f" {key}={key}"
        code, rows = parts.part_answer(problem, start or "", end)
        if code != 0:
            runs.same_and_kept(f"part in=p cert=c{given}", code, "empty part\n")
            continue
        runs.same(f"part in=p cert=c{given}", 0, as_text(rows))
        accepted = [f"from {start or '.'}", *rows[:-1], f"to {end or '-'}", f"accepted {len(rows) - 1}"]
        runs.same("check in=p cert=c", 0, as_text(accepted))
    runs.same_and_kept("part in=p cert=absent/c resume=t2 until=t2", 2, "usage SameName\n")
    runs.hold("u", runs.held("t2"))
    runs.same_and_kept("part in=p cert=absent/c resume=t2 until=u", 15, "empty part\n")


def check_order_of_tokens(runs):
    """The problem is judged first, then the token of the beginning, then that of the end, and all before the certificate is there."""
    digest = texts.read_problem(PAIR.replace("|", "\n").encode(), ON).finish().digest()
    for text, start, end, last in ORDERS:
        runs.clear()
        runs.hold("p", text.replace("|", "\n").encode())
        for name, position in (("r", start), ("u", end)):
            if position is not None:
                runs.hold(name, f"token 2 2 1 {digest} {position}\n".encode() if position else b"")
        words = "part in=p cert=c until=u resume=r"
        if last == "part 1":
            runs.same(words, 0, "<\npart 1\n")
        else:
            runs.same_and_kept(words, code_of(last), last + "\n")


def check_parts(runs):
    for case in BEGINNINGS:
        check_beginnings(runs, *case)
    check_joins(runs)
    check_ends_of_parts(runs)
    check_order_of_tokens(runs)
