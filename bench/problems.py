"""Prints a problem to list, of one of these families:

generated SEED SIZE   two trees of SIZE/2 concepts, a root over blocks of three concepts each, of which one block is loose and
                      the others are fixed by their articulations in one of three forms; seven possible worlds
flat A B              a root over A children on one side and over B on the other, with equal roots
loose L F             L loose blocks beside F fixed ones, a block being a parent with two children on both sides; 7^L worlds
chain T K             T taxonomies, a root over K children each, whose roots are equal and whose first children are in a row
sums A B              flat, where each child of the second root but the last is the union of two of the first root's (A at least 2B - 1)
split A B             flat, with {equals disjoint} or {includes overlaps} between the first children
roots N M             N and M concepts without parents; each of the first lies in or apart from one of the second
planted SEED SIZE     generated, with an equals first and a disjoint last on one pair of a fixed block
doubtful SIZE K       two trees of SIZE/2 concepts, K children to a concept, each concept equal to the one in its place in the other tree, but
                      for each third, which may overlap it too
vague SIZE COUNT      two trees of SIZE/2 concepts, three children to a concept, with COUNT statements between drawn ones: disjoint, or a set
                      that has disjoint besides
revised SEED SIZE     two trees of SIZE/2 concepts, the second a revision of the first in which eight things were put elsewhere, and what is so of
                      most concepts beside their counterparts, three in ten of these statements with other relations that might hold
unclear SEED SIZE     the same with twenty things put elsewhere, half of the statements left out, and half of the others not sure
copied A B            a root over A children with B children each, beside its copy: each concept is equal to its counterpart, but for every
                      fourth, the root first, of which it is only said that they aren't disjoint
pigeons A B           A children of one root beside B of the other, the roots equal, and each two children equal or disjoint
hidden SEED LEAVES    two trees over the same things, a third more than LEAVES: each cuts them into so many parts and puts two to four together at
                      a time, up to one root; two true statements for each leaf of the first, half of them with one relation more
subjects SEED SIZE    two schemes of SIZE concepts over the same things, a root over groups over groups, with two statements for five concepts,
                      each true, a fifth of them sums and a third of the others with a relation more
several TREES LEAVES  trees over the same things, as hidden has two: between each two in a row two true statements for each leaf, two in five of
                      them with one relation more
combs SEED DEPTH      two trees of DEPTH concepts one under another, each with a leaf beside it, and a true statement for each between two of
                      these rows, if each concept equals its counterpart; two in five with one relation more
sorting A B           a root over A children beside one over B, the roots equal, each of the A in one of the B, and two statements for each of
                      the A, which say that it is in one of the B or that it isn't, three in ten of them with one relation more
repeated SIZE COUNT   flat, SIZE/2 concepts a side, with COUNT statements, each pair's equals again and again, and a disjoint last
clashing SIZE K       flat, SIZE/2 concepts a side, with 60 statements: K pairs of children that are said to be equal and to be disjoint, which
                      makes K conflicts that have nothing in common, and others that take part in none
opposed A B           two concepts, which A statements say to be equal and B to be disjoint: A times B conflicts
largest COUNT LENGTH  eight copies of a tree of 128 concepts, whose names have LENGTH bytes, with COUNT statements: that concepts equal their
                      counterparts, and then that each includes a child of its counterpart; one world"""
import random
import sys


def draws_of(seed, count):
    number = seed % 65537
    draws = [number]
    for _ in range(count):
        number = (75 * number + 74) % 65537
        draws.append(number)
    return draws


def generated(seed, size):
    half = size // 2
    blocks, singles = (half - 1) // 3, (half - 1) % 3
    draws = draws_of(seed, blocks + 1)
    loose = 1 + draws[1] % blocks
    lines = []
    for taxonomy in (1, 2):
        tops = [f"b{t}" for t in range(1, blocks + 1)] + [f"s{k}" for k in range(1, singles + 1)]
        lines += [f"taxonomy {taxonomy}", "(r " + " ".join(tops) + ")"]
        for t in range(1, blocks + 1):
            children = [f"b{t}l", f"b{t}r"]
            if taxonomy == 2 and draws[t + 1] % 2 == 1:
                children.reverse()
            lines.append(f"(b{t} {children[0]} {children[1]})")
    lines.append("articulation")
    said = lambda name, relation: lines.append(f"[1.{name} {relation} 2.{name}]")
    for t in range(1, blocks + 1):
        form = draws[t + 1] // 2 % 3
        if t == loose:
            said(f"b{t}", "equals")
        elif form == 0:
            said(f"b{t}l", "equals"), said(f"b{t}r", "equals")
        elif form == 1:
            said(f"b{t}", "equals"), said(f"b{t}l", "equals")
        else:
            said(f"b{t}l", "{equals disjoint}"), said(f"b{t}r", "equals"), said(f"b{t}", "equals")
    for k in range(1, singles + 1):
        said(f"s{k}", "equals")
    return lines


def two_roots(left, right):
    return ["taxonomy 1", "(A " + " ".join(f"a{i}" for i in range(left)) + ")",
            "taxonomy 2", "(B " + " ".join(f"b{i}" for i in range(right)) + ")",
            "articulation", "[1.A equals 2.B]"]


def loose(free, fixed):
    blocks = [f"l{t}" for t in range(free)] + [f"f{t}" for t in range(fixed)]
    lines = []
    for taxonomy in (1, 2):
        lines += [f"taxonomy {taxonomy}", "(r " + " ".join(blocks) + ")"]
        lines += [f"({block} {block}x {block}y)" for block in blocks]
    lines.append("articulation")
    for block in blocks:
        lines.append(f"[1.{block} equals 2.{block}]")
        if block.startswith("f"):
            lines.append(f"[1.{block}x equals 2.{block}x]")
    return lines


def chain(taxonomies, children):
    lines = []
    for t in range(1, taxonomies + 1):
        lines += [f"taxonomy {t}", "(r " + " ".join(f"c{k}" for k in range(children)) + ")"]
    lines.append("articulation")
    for t in range(1, taxonomies):
        lines.append(f"[{t}.r equals {t + 1}.r]")
        lines.append(f"[{t}.c0 {{equals includes}} {t + 1}.c0]")
        lines += [f"[{t}.c{k} equals {t + 1}.c{k}]" for k in range(2, children)]
    return lines


def sums(left, right):
    lines = two_roots(left, right)
    for k in range(right - 1):
        lines.append(f"[2.b{k} sums 1.a{2 * k % left} 1.a{(2 * k + 1) % left}]")
    return lines


def split(left, right):
    lines = two_roots(left, right)
    for k in range(min(left, right)):
        lines.append(f"[1.a{k} {'{equals disjoint}' if k % 2 == 0 else '{includes overlaps}'} 2.b{k}]")
    return lines


def roots(left, right):
    lines = ["taxonomy 1"] + [f"(a{i})" for i in range(left)] + ["taxonomy 2"] + [f"(b{i})" for i in range(right)] + ["articulation"]
    for k in range(left):
        lines.append(f"[1.a{k} {{is_included_in disjoint}} 2.b{k % right}]")
    return lines


def planted(seed, size):
    lines = generated(seed, size)
    loose_block = 1 + draws_of(seed, 1)[1] % ((size // 2 - 1) // 3)
    block = 2 if loose_block == 1 else 1
    place = lines.index("articulation") + 1
    lines.insert(place, f"[1.b{block} equals 2.b{block}]")
    return lines + [f"[1.b{block} disjoint 2.b{block}]"]


def doubtful(size, children):
    half = size // 2
    rows = []
    for parent, first in enumerate(range(1, half, children)):
        rows.append("(" + " ".join(f"c{k}" for k in [parent, *range(first, min(first + children, half))]) + ")")
    said = [f"[1.c{k} {'equals' if k % 3 else '{equals overlaps}'} 2.c{k}]" for k in range(half)]
    return ["taxonomy 1", *rows, "taxonomy 2", *rows, "articulation", *said]


def repeated(size, count):
    half = size // 2 - 1
    lines = two_roots(half, half)
    lines += [f"[1.a{k % half} equals 2.b{k % half}]" for k in range(count - 2)]
    return lines + ["[1.a0 disjoint 2.b0]"]


def clashing(size, count):
    children = size // 2 - 1
    lines = two_roots(children, children)
    # two children a side are left out, since the last one would be equal to the last one by the others
    lines += [f"[1.a{k} {word} 2.b{k}]" for k in range(count) for word in ("equals", "disjoint")]
    lines += [f"[1.a{k} equals 2.b{k}]" for k in range(count, min(59 - count, children - 2))]
    said = len(lines) - lines.index("articulation") - 1
    return lines + [f"[1.A includes 2.b{k}]" for k in range(60 - said)]


def opposed(equal, disjoint):
    return ["taxonomy 1", "(A)", "taxonomy 2", "(B)", "articulation"] + ["[1.A equals 2.B]"] * equal + ["[1.A disjoint 2.B]"] * disjoint


def vague(size, count):
    half = size // 2
    rows = ["(" + " ".join(f"c{k}" for k in [parent, *range(first, min(first + 3, half))]) + ")" for parent, first in enumerate(range(1, half, 3))]
    words = ["disjoint", "{overlaps disjoint}", "{includes is_included_in disjoint}", "{equals disjoint}"]
    draws = draws_of(size + count, 3 * count)
    said = [f"[1.c{draws[3 * k + 1] % half} {words[draws[3 * k + 2] % 4]} 2.c{draws[3 * k + 3] % half}]" for k in range(count)]
    return ["taxonomy 1", *rows, "taxonomy 2", *rows, "articulation", *said]


def hierarchy(rng, things, count):
    """Nested groups of things: each its parent's number, and its things."""
    groups, leaves = [(None, frozenset(range(things)))], [0]
    while len(groups) < count:
        at = max((leaf for leaf in leaves if len(groups[leaf][1]) > 1), key=lambda leaf: len(groups[leaf][1]) * rng.random())
        members = sorted(groups[at][1])
        rng.shuffle(members)
        parts = min(rng.randint(2, 4), len(members))
        cuts = [0, *sorted(rng.sample(range(1, len(members)), parts - 1)), len(members)]
        leaves.remove(at)
        for low, high in zip(cuts, cuts[1:]):
            leaves.append(len(groups))
            groups.append((at, frozenset(members[low:high])))
    return groups


def moved(rng, groups, moves):
    """The same groups where some things were put from one leaf into another."""
    kids = {at: [k for k, group in enumerate(groups) if group[0] == at] for at in range(len(groups))}
    held = {at: set(groups[at][1]) for at in kids if not kids[at]}
    for _ in range(moves):
        source, target = rng.sample(sorted(held), 2)
        if len(held[source]) > 1:
            thing = rng.choice(sorted(held[source]))
            held[source].discard(thing), held[target].add(thing)
    of = lambda at: set(held[at]) if not kids[at] else set().union(*[of(k) for k in kids[at]])
    return [(groups[at][0], frozenset(of(at))) for at in range(len(groups))]


def relation(one, other):
    if one == other:
        return "equals"
    if one < other:
        return "is_included_in"
    if one > other:
        return "includes"
    return "overlaps" if one & other else "disjoint"


def revision(seed, size, moves, said, doubt):
    rng = random.Random(seed)
    left = hierarchy(rng, 3 * size // 2, size // 2)
    right = moved(rng, left, moves)
    words = ["equals", "includes", "is_included_in", "overlaps", "disjoint"]
    lines = []
    for taxonomy, groups in ((1, left), (2, right)):
        lines.append(f"taxonomy {taxonomy}")
        for at in range(len(groups)):
            kids = [f"c{k}" for k in range(len(groups)) if groups[k][0] == at]
            if kids:
                lines.append("(" + " ".join([f"c{at}", *kids]) + ")")
    lines.append("articulation")
    for at, (_, members) in enumerate(left):
        if rng.random() < said:
            best = max(range(len(right)), key=lambda k: len(members & right[k][1]) / len(members | right[k][1]))
            true = relation(members, right[best][1])
            rels = [word for word in words if word == true or rng.random() < 0.3] if rng.random() < doubt else [true]
            lines.append(f"[1.c{at} {rels[0] if len(rels) == 1 else '{' + ' '.join(rels) + '}'} 2.c{best}]")
    return lines


def copied(children, grandchildren):
    rows = ["(r " + " ".join(f"c{k}" for k in range(children)) + ")"]
    rows += [f"(c{k} " + " ".join(f"c{k}g{g}" for g in range(grandchildren)) + ")" for k in range(children)]
    names = ["r"]
    for k in range(children):
        names += [f"c{k}"] + [f"c{k}g{g}" for g in range(grandchildren)]
    said = [f"[1.{name} {'equals' if at % 4 else '{equals includes is_included_in overlaps}'} 2.{name}]" for at, name in enumerate(names)]
    return ["taxonomy 1", *rows, "taxonomy 2", *rows, "articulation", *said]


def pigeons(left, right):
    lines = two_roots(left, right)
    return lines + [f"[1.a{i} {{equals disjoint}} 2.b{k}]" for i in range(left) for k in range(right)]


def joined(rng, things, leaves):
    """The groups of a tree over things, from a root down: each group's parent and its things."""
    things = list(things)
    rng.shuffle(things)
    cuts = [0, *sorted(rng.sample(range(1, len(things)), leaves - 1)), len(things)]
    tops = [(frozenset(things[low:high]), []) for low, high in zip(cuts, cuts[1:])]
    while len(tops) > 1:
        rng.shuffle(tops)
        taken = min(rng.randint(2, 4), len(tops))
        parts, tops = tops[:taken], tops[taken:]
        tops.append((frozenset().union(*(members for members, _ in parts)), parts))
    groups = []

    def number(group, parent):
        at = len(groups)
        groups.append((parent, group[0]))
        for part in group[1]:
            number(part, at)

    number(tops[0], None)
    return groups


def rows_of(taxonomy, groups):
    lines = [f"taxonomy {taxonomy}"]
    for at in range(len(groups)):
        kids = [f"c{k}" for k in range(len(groups)) if groups[k][0] == at]
        if kids:
            lines.append("(" + " ".join([f"c{at}", *kids]) + ")")
    return lines


RELATIONS = ["equals", "includes", "is_included_in", "overlaps", "disjoint"]


def unsure(rng, true, doubt):
    """A relation, perhaps with another one."""
    if rng.random() >= doubt:
        return true
    both = {true, rng.choice([word for word in RELATIONS if word != true])}
    return "{" + " ".join(word for word in RELATIONS if word in both) + "}"


def hidden(seed, leaves):
    rng = random.Random(seed)
    left, right = (joined(rng, range(4 * leaves // 3), leaves) for _ in range(2))
    lines = rows_of(1, left) + rows_of(2, right) + ["articulation"]
    for _ in range(2 * leaves):
        one, other = rng.randrange(len(left)), rng.randrange(len(right))
        lines.append(f"[1.c{one} {unsure(rng, relation(left[one][1], right[other][1]), 0.5)} 2.c{other}]")
    return lines


def several(trees, leaves):
    rng = random.Random(100 * trees + leaves)
    made = [joined(rng, range(4 * leaves // 3), leaves) for _ in range(trees)]
    lines = [line for at, groups in enumerate(made) for line in rows_of(at + 1, groups)] + ["articulation"]
    for at, (left, right) in enumerate(zip(made, made[1:])):
        for _ in range(2 * leaves):
            one, other = rng.randrange(len(left)), rng.randrange(len(right))
            lines.append(f"[{at + 1}.c{one} {unsure(rng, relation(left[one][1], right[other][1]), 0.4)} {at + 2}.c{other}]")
    return lines


def combs(seed, depth):
    rng = random.Random(seed)
    rows = [f"(n{at} n{at + 1} s{at})" for at in range(depth)]
    lines = ["taxonomy 1", *rows, "taxonomy 2", *rows, "articulation"]
    for _ in range(depth):
        one, other = rng.randrange(depth + 1), rng.randrange(depth + 1)
        true = "equals" if one == other else "includes" if one < other else "is_included_in"
        lines.append(f"[1.n{one} {unsure(rng, true, 0.4)} 2.n{other}]")
    return lines


def sorting(left, right):
    rng = random.Random(1000 * left + right)
    lines, within = two_roots(left, right), [rng.randrange(right) for _ in range(left)]
    for _ in range(2 * left):
        one, other = rng.randrange(left), rng.randrange(right)
        lines.append(f"[1.a{one} {unsure(rng, 'is_included_in' if within[one] == other else 'disjoint', 0.3)} 2.b{other}]")
    return lines


def subjects(seed, size):
    rng = random.Random(seed)
    left = hierarchy(rng, 2 * size, size)
    right = moved(rng, left, size // 8)
    lines = rows_of(1, left) + rows_of(2, right) + ["articulation"]
    for count in range(2 * size // 5):
        if count % 5 == 4:
            whole, parts = sum_of(rng, left, right)
            lines.append(f"[1.c{whole} sums {' '.join(f'2.c{part}' for part in parts)}]")
            continue
        one = rng.randrange(len(left))
        near = sorted(range(len(right)), key=lambda k: -len(left[one][1] & right[k][1]) / len(left[one][1] | right[k][1]))[:4]
        other = rng.choice(near)
        lines.append(f"[1.c{one} {unsure(rng, relation(left[one][1], right[other][1]), 0.33)} 2.c{other}]")
    return lines


def sum_of(rng, left, right):
    """A group of the first tree that two or more of the second make up, and these."""
    for one in rng.sample(range(len(left)), len(left)):
        inside = [k for k in range(len(right)) if right[k][1] and right[k][1] <= left[one][1]]
        largest = [k for k in inside if right[k][0] not in inside]
        if len(largest) > 1 and frozenset().union(*(right[k][1] for k in largest)) == left[one][1]:
            return one, largest
    return 0, [k for k in range(len(right)) if right[k][0] == 0]


def largest(count, length):
    parents = [None] + [0] * 8 + [1 + k % 8 for k in range(119)]
    names = [f"c{k}".ljust(length, "_") for k in range(128)]
    lines, said = [], []
    for taxonomy in range(1, 9):
        lines.append(f"taxonomy {taxonomy}")
        for parent in range(9):
            children = [names[k] for k in range(128) if parents[k] == parent]
            lines.append(f"({names[parent]} {' '.join(children)})")
    both = [(left, right) for left in range(1, 9) for right in range(left + 1, 9)]
    said += [f"[{left}.{names[k]} equals {right}.{names[k]}]" for left, right in both for k in range(128)]
    said += [f"[{left}.{names[parents[k]]} includes {right}.{names[k]}]" for left, right in both for k in range(1, 128)]
    return lines + ["articulation"] + said[:count]


def revised(seed, size):
    return revision(seed, size, 8, 0.7, 0.3)


def unclear(seed, size):
    return revision(seed, size, 20, 0.5, 0.5)


FAMILIES = {"generated": generated, "flat": two_roots, "loose": loose, "chain": chain, "sums": sums, "split": split, "roots": roots, "planted": planted,
            "doubtful": doubtful, "repeated": repeated, "clashing": clashing, "opposed": opposed, "vague": vague, "revised": revised, "unclear": unclear,
            "copied": copied, "pigeons": pigeons, "hidden": hidden, "several": several, "combs": combs, "sorting": sorting, "subjects": subjects,
            "largest": largest}

if __name__ == "__main__":
    kind, one, other = sys.argv[1], int(sys.argv[2]), int(sys.argv[3])
    print("\n".join(FAMILIES[kind](one, other)))
