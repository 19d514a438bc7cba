"""What differential.py tries at random: problems, and texts, tokens and certificates with some damage."""

import re

from oracle import model, statements, texts
from oracle.commands import KEYS

SWITCHES = [(a, b, c) for a in (True, False) for b in (True, False) for c in (True, False)]
# words from which random ones are made
REQUESTS = [
    "align in=p", "align in=p cert=c", "align in=p nodes=3 token=t", "align in=p worlds=2 token=t resume=r cert=c sibling=off", "check in=p cert=c",
    "mir in=p cert=c coverage=off", "conflict in=p nonempty=off", "lattice in=p cert=c sibling=off", "explain in=p left=1.A0 right=2.B0 set==<",
    "report in=p kinds=count,seen", "parts in=p count=3 token=t", "part in=p cert=c resume=r until=u coverage=off", "join in=p certs=c,d",
    "trial seed=3 size=14",
]
OTHER_WORDS = [
    "align", "check", "report", "trial", "mir", "conflict", "lattice", "explain", "parts", "part", "join", "solve", "in=p", "in=", "in=c", "cert=c",
    "cert=p", "cert=", "token=t", "token=p", "token=c", "resume=r", "resume=t", "resume=p", "nodes=1", "nodes=0", "nodes=01", "worlds=2", "worlds=-1",
    "worlds=18446744073709551616", "nonempty=on", "nonempty=On", "sibling=off", "coverage=1", "kinds=count", "kinds=", "kinds=count,seen",
    "kinds=count,count", "kinds=seen,x", "kinds=seen,", "seed=3", "seed=+3", "size=14", "size=15", "size=300", "left=1.A0", "left=", "left=p",
    "right=2.B0", "right=1.A0", "set==", "set=", "set=x!x", "set=o", "set==,<", "set=x ", "count=1", "count=0", "count=1000", "count=1001",
    "count=01", "count=", "until=u", "until=r", "until=p", "until=c", "until=", "certs=c", "certs=c,c", "certs=d,p", "certs=", "certs=c,,d",
    "certs=c,", "script=s", "in=t1", "in=t5000", "in=t5001", "in=t0", "in=t01", "in=tt", "in=1", "token=t1", "token=u", "x", "=x", "y=z", "", "In=p", "--help",
]
OTHER_VALUES = ["", "", "=", "<x", "o", "on", "7", "count", "1.A0"]
# names of files in random words, for a key that has one and for a key that has several
NAMES = {"file": ["p", "c", "t", "r", "u"], "files": ["c", "d", "p", "c,d", "d,c,c", "c,p", "c,", ",c"]}


def random_words(rng):
    """The words of a request with a few changes."""
    if rng.random() < 0.04:
        return words_with_number(rng)
    words = rng.choice(REQUESTS).split(" ")
    for _ in range(rng.choice([1, 1, 2, 3])):
        place, draw = rng.randrange(len(words) + 1), rng.random()
        if draw < 0.3:
            words.insert(max(place, rng.choice([0, 1, 1, 1])), rng.choice(OTHER_WORDS))
        elif draw < 0.45:
            words[place : place + 1] = [rng.choice(OTHER_WORDS)]
        elif draw < 0.55:
            del words[place : place + 1]
        elif draw < 0.65:
            words[place:place] = words[place : place + 1]
        elif place < len(words) and "=" in words[place]:
            key = words[place].split("=")[0]
            words[place] = f"{key}={rng.choice(NAMES.get(KEYS.get(key), OTHER_VALUES) if draw < 0.85 else OTHER_VALUES)}"
    return words


def words_with_number(rng):
    """Words for parts, whose problem has a name that the token of a part may have."""
    number = rng.choice(["", "0", "1", "01", "5000", "5001", "05000", "+1", "1.", "x", str(rng.randint(2, 6000))])
    words = [f"in=t{number}", "count=2", "token=t"]
    rng.shuffle(words)
    return ["parts", *words]


def random_switches(rng):
    return (True, True, True) if rng.random() < 0.5 else rng.choice(SWITCHES)


def random_problem(rng):
    """A problem text with few concepts, and now and then a sum."""
    count = rng.choice([2, 2, 2, 3, 3, 4])
    left = rng.randint(count, 6)
    lines, all_names = [], []
    for t in range(1, count + 1):
        size = min(left - (count - t), rng.choice([1, 2, 3, 3, 4])) if t < count else rng.randint(0, min(4, left))
        left -= size
        names = [f"{chr(64 + t)}{k}" for k in range(size)]
        lines.append(f"taxonomy {t}")
        free = names[:]
        if free and rng.random() < 0.3:
            rng.shuffle(free)
        while free:
            row = free[: rng.choice([len(free), rng.randint(1, len(free))])]
            lines.append("(" + " ".join(row) + ")")
            free = free[len(row):]
            if free and rng.random() < 0.4 and len(row) > 1:
                lines.append(f"({row[rng.randrange(len(row))]} {free.pop()})")
        all_names.append([f"{t}.{n}" for n in names])
    lines.append("articulation")
    if can_be_related(all_names):
        lines += [random_statement(rng, all_names) for _ in range(rng.randint(0, 4))]
    return "".join(line + "\n" for line in lines)


def can_be_related(names):
    return sum(map(bool, names)) >= 2


def random_statement(rng, names):
    """A statement on concepts, of which there are the names, taxonomy by taxonomy."""
    words, places = list(texts.WORDS), [t for t in range(len(names)) if names[t]]
    a, b = rng.sample(places, 2)
    x, y = rng.choice(names[a]), rng.choice(names[b])
    others = [n for t in places if t != a for n in names[t]]
    if rng.random() < 0.2 and len(others) >= 2:
        return f"[{x} sums {' '.join(rng.sample(others, rng.randint(2, min(3, len(others)))))}]"
    if rng.random() < 0.5:
        return f"[{x} {rng.choice(words)} {y}]"
    return f"[{x} {{{' '.join(rng.sample(words, rng.randint(1, 4)))}}} {y}]"


def more_statements(rng, problem, most):
    """Further statements on the concepts of a problem, so that there are more conflicts: some are there already, some are on the same pair,
    some on a sibling."""
    names = [[problem.text_name(c) for c in range(len(problem.names)) if problem.owners[c] == t] for t in range(len(problem.taxonomies))]
    said = [problem.articulation_text(a) for a in problem.articulations]
    if not can_be_related(names):
        return ""
    more = []
    for _ in range(rng.randint(1, max(1, most - len(said)))):
        draw, old = rng.random(), rng.choice(said + more) if said + more else ""
        if old and draw < 0.15:
            more.append(old)
        elif old and " sums " not in old and draw < 0.55:
            more.append(f"{old.split(' ')[0]} {rng.choice(list(texts.WORDS))} {old.split(' ')[-1]}")
        elif old and " sums " not in old and draw < 0.75:
            more.append(of_sibling(rng, problem, old))
        else:
            more.append(random_statement(rng, names))
    return "".join(line + "\n" for line in more)


def of_sibling(rng, problem, said):
    """The same said of another child of the same parent, if there is one: then it often can't hold unless a concept is empty."""
    name, rest = said[1:].split(" ", 1)
    names = [problem.text_name(c) for c in range(len(problem.names))]
    parent = problem.parents[names.index(name)]
    others = [other for c, other in enumerate(names) if parent is not None and problem.parents[c] == parent and other != name]
    return f"[{rng.choice(others)} {rest}" if others else said


def text_at_limit(rng):
    """A problem text at one of the limits, or one past it."""
    more = rng.choice([0, 1])
    two = b"taxonomy 1\n(A)\ntaxonomy 2\n(B)\narticulation\n"
    return [
        # past the limit of concepts alone: as many as are allowed are more than can be walked
        lambda: b"taxonomy 1\n" + b"".join(b"(c%d)\n" % k for k in range(1025 - rng.randint(0, 2))) + b"taxonomy 2\n(A B)\n(C)\n",
        lambda: two + b"[1.A {== >} 2.B]\n" * (4096 + more),
        lambda: two + b"[1.A ! 2.B]\n" * 4096 + rng.choice([b"[1.A ! 2.C]\n", b"[1.A sums 2.B 2.B]\n", b"[2.B is 1.A]\n"]),
        lambda: b"".join(b"taxonomy %d\n" % k for k in range(8 + more)) + rng.choice([b"", b"(A)\n", b"(A B)\n"]),
        lambda: rng.choice([b"", b"taxonomy 1\n", b"taxonomy 1\n(A)\n", b"taxonomy 1\n(A)\narticulation\n[1.A ! 2.B]\n"]),
        lambda: two + b"#" * (1048576 - len(two) + more),
        lambda: two.replace(b"A", b"A" * (128 + more)),
        lambda: two.replace(b"A", "\u00e9".encode() * 64 + b"A" * more),
    ][rng.randrange(8)]()


TEXT_PIECES = [
    b"", b" ", b"(", b")", b"[", b"]", b"{", b"}", b"#", b"\n", b"\r\n", b".", b"\xff", b"\xef\xbb\xbf", b"taxonomy 9\n", b"articulations x\n",
    b"(A0 A0)\n", b"[1.A0 == 2.B0]\n", b"\x01", b"x" * 130, "é".encode(), b"[1.A0 sums 2.B0 2.B0]\n", b" # a # b\n", b"\r# a\n",
    b"(A0 A1)\n", b"(A1 A0)\n", b"(A0 A2 A1)\n", b"(B1 A0 B0)\n", b"(B0 B1 B1)\n", b"[1.A0 == 1.A1]\n", b"[1.A0 {} 2.B0]\n", b"[1.A0 {sums} 2.B0]\n",
    b"taxonomy 1\n", b"taxonomy a.b\n", b"taxonomy (\n", b"[2.B0 sums 1.A0 2.B0]\n", b"[2.B0 sums 1.A0]\n", b"[1.A0 like 2.B0]\n", b"[A0 == 2.B0]\n",
    b"[2.B0 {> ><} 1.A0]\n", b"[1.A0 sums 3.C0 2.B0]\n",
]
WORD_PIECES = [b"", b" ", b"\n", b".", b"-", b"0", b"1", b",", b"=", b"x", b"!", b"\r", b"\xff", b"\0", b"18446744073709551615", b"4294967296"]


def damaged(rng, data, pieces):
    """A few bytes changed, or pieces put in; a line mostly where a line begins."""
    data = bytearray(data)
    for _ in range(rng.choice([1, 1, 2, 3])):
        place = rng.randrange(len(data) + 1)
        piece = rng.choice(pieces)
        drop = rng.choice([0, 0, 1, 1, 2, 5])
        if len(piece) > 1 and piece.endswith(b"\n") and rng.random() < 0.8:
            place, drop = data.rfind(b"\n", 0, place) + 1, 0
        data[place : place + drop] = piece
    return bytes(data)


def random_position(rng, most):
    return "".join(rng.choice(model.LETTERS) for _ in range(rng.randint(0, most)))


def random_token(rng, problem):
    """A token of the problem, or nearly one."""
    position = random_position(rng, len(problem.pairs) + 1) or "."
    if rng.random() < 0.3:
        token = f"token 1 {problem.digest()} {position}\n"
    else:
        token = texts.print_token(problem, "" if position == "." else position)
    draw = rng.random()
    if draw < 0.4:
        return token.encode()
    if draw < 0.7:
        return damaged(rng, token.encode(), WORD_PIECES)
    words = token[:-1].split(" ")
    place = rng.randrange(len(words))
    if draw < 0.8:
        words[place] = changed_word(rng, words[place])
    elif draw < 0.9:
        del words[place]
    else:
        # the digest under other switches
        other = statements.restricted(problem, "1" * len(problem.articulations))
        other.switches = rng.choice(SWITCHES)
        words[-2] = other.digest()
    return (" ".join(words) + "\n").encode()


def changed_word(rng, word):
    """A word with a number, a letter or a bit changed."""
    numbers = list(re.finditer("[0-9]+", word))
    if numbers and rng.random() < 0.8:
        found = rng.choice(numbers)
        value = int(found.group())
        value = rng.choice([value + 1, value + 1, abs(value - 1), abs(value - 1), 0, 2**31, 2**31 + 1, 2**32 - 1, 2**32, 2**64 - 1, 2**64])
        return word[: found.start()] + str(value) + word[found.end() :]
    if word.startswith("-") and len(word) > 1:
        return word[1:]
    if word in ("on", "off"):
        return "off" if word == "on" else "on"
    if word and rng.random() < 0.8:
        place = rng.randrange(len(word))
        return word[:place] + rng.choice("=><x!.-01,") + word[place + 1 :]
    return "-" + word


def damaged_certificate(rng, data):
    """A certificate with one or two changes: most of them keep the form of its lines."""
    lines = data.decode().split("\n")[:-1]
    for _ in range(rng.choice([1, 1, 1, 2])):
        if lines:
            change_lines(rng, lines)
    data = "".join(line + "\n" for line in lines).encode()
    draw = rng.random()
    if draw < 0.06:
        data = damaged(rng, data, WORD_PIECES)
    elif draw < 0.08:
        data = data[: rng.randrange(len(data) + 1)]
    elif draw < 0.1:
        data += rng.choice([b"\n", b"x", b"done\n", b"\0"])
    return data


def change_lines(rng, lines):
    # the lines of a tree and claims are rarer than the derivation's, and are to be changed as often; the first line is not
    kinds = {line.split(" ")[0] for line in lines[1:]} or {lines[0].split(" ")[0]}
    kind = lines[0].split(" ")[0] if rng.random() < 0.06 else rng.choice(sorted(kinds))
    place = rng.choice([k for k, line in enumerate(lines) if line.split(" ")[0] == kind])
    draw = rng.random()
    if draw < 0.06:
        del lines[place]
    elif draw < 0.12:
        lines.insert(place, lines[place])
    elif draw < 0.18:
        other = rng.choice([max(place - 1, 0), rng.randrange(len(lines))])
        lines[place], lines[other] = lines[other], lines[place]
    elif draw < 0.22:
        lines.insert(place, rng.choice(["quit", "done", "end -", "end .", "end =", "k 0", "k 1 0", "b 0 .", "d 1 0 0", ""]))
    else:
        words = lines[place].split(" ")
        if draw < 0.4:
            change_words(rng, words, lines)
        else:
            change_meaning(rng, words, lines)
        lines[place] = " ".join(words)


def change_words(rng, words, lines):
    """A word changed, dropped, doubled, or put in from elsewhere."""
    place = rng.randrange(len(words)) if rng.random() < 0.1 or len(words) == 1 else rng.randrange(1, len(words))
    draw = rng.random()
    if draw < 0.5:
        words[place] = changed_word(rng, words[place])
    elif draw < 0.65:
        del words[place]
    elif draw < 0.75:
        words.insert(place, words[place])
    elif draw < 0.8:
        words.insert(place, "")
    else:
        words[place] = rng.choice(rng.choice(lines).split(" "))


def change_meaning(rng, words, lines):
    """Another line of the same form, or nearly."""
    kind = words[0]
    if len(words) < 3 and kind not in ("end", "quit", "done", "k"):
        # an earlier change took its words
        change_words(rng, words, lines)
        return
    letter = lambda: rng.choice(model.LETTERS)
    ids = [line.split(" ")[1] for line in lines if line.startswith("d ")] + [str(rng.choice([0, rng.randint(1, 30)]))]
    if kind in ("certificate", "claims"):
        place = rng.randrange(2, len(words))
        words[place] = rng.choice(["on", "off"]) if place < 5 else random_position(rng, 4) or "."
    elif kind in ("b", "x", "e", "w") and rng.random() < 0.3:
        draw = rng.random()
        if draw < 0.4 and kind != "b":
            words[:] = ["b"] + words[1:3]
        elif draw < 0.6:
            words[:] = ["x"] + words[1:3] + [str(rng.randrange(30)), rng.choice(ids)]
        elif draw < 0.8:
            words[2] = letter()
        else:
            words[:] = ["e"] + words[1:3] + [str(rng.randrange(6))]
    elif kind == "x" and len(words) == 5:
        if rng.random() < 0.5:
            words[3] = str(rng.randrange(30))
        else:
            words[4] = rng.choice(ids)
    elif kind == "e":
        words[-1] = str(rng.randrange(8))
    elif kind in ("w", "some"):
        if kind == "some" and rng.random() < 0.4:
            change_subject(rng, words)
        else:
            change_family(rng, words, 3 if kind == "w" or words[1] == "a" else 4)
    elif kind == "none":
        change_subject(rng, words)
    elif kind == "end":
        words[-1] = rng.choice(["-", ".", words[-1] + letter(), words[-1][:-1] + letter(), random_position(rng, 4) or "."])
    elif kind == "d":
        change_derivation(rng, words, ids)
    elif kind == "k":
        words.insert(rng.randint(1, max(1, len(words) - 1)), rng.choice(ids))
    else:
        words[:] = [rng.choice(["quit", "done", "end -"])]


def change_subject(rng, words):
    if words[1] == "m" and len(words) > 3:
        words[2:4] = [str(rng.randrange(8)), rng.choice(model.LETTERS)]
    elif len(words) > 2:
        words[2] = "".join(rng.choice("01") for _ in range(len(words[2]) + rng.choice([0, 0, 0, 1, -1]))) or "."


def change_family(rng, words, at):
    """The universe stands at the place `at`, and the sets behind it."""
    if len(words) <= at + 1:
        return
    place = rng.randrange(at + 1, len(words))
    members = [] if words[place] == "-" else words[place].split(",")
    draw = rng.random()
    if draw < 0.2:
        words[at] = changed_word(rng, words[at])
    elif draw < 0.4:
        other = rng.randrange(at + 1, len(words))
        words[place], words[other] = words[other], words[place]
    elif draw < 0.6:
        words[place] = words[rng.randrange(at + 1, len(words))]
    elif draw < 0.8:
        if members:
            del members[rng.randrange(len(members))]
        words[place] = ",".join(members) or "-"
    else:
        members = sorted(set(members) | {str(rng.randrange(8))}, key=lambda x: (len(x), x)) if rng.random() < 0.8 else members[::-1]
        words[place] = ",".join(members) or "-"


def change_derivation(rng, words, ids):
    """An id in use, or a literal or a hint more, less, or in place of another, so that the line may still be right."""
    cut = words.index("0") if "0" in words else len(words)
    draw = rng.random()
    if draw < 0.1:
        words[1] = rng.choice(ids)
    elif draw < 0.35:
        words.insert(rng.randint(min(2, cut), cut), rng.choice(["", "-"]) + str(rng.randint(1, 30)))
    elif draw < 0.5 and cut > 2:
        del words[rng.randrange(2, cut)]
    elif draw < 0.6 and cut > 2:
        place = rng.randrange(2, cut)
        words[place] = words[place][1:] if words[place].startswith("-") else "-" + words[place]
    elif cut + 2 < len(words):
        place = rng.randrange(cut + 1, len(words) - 1)
        if draw < 0.75:
            del words[place]
        elif draw < 0.9:
            words[place] = rng.choice(ids)
        else:
            words.insert(place, rng.choice(ids))
