"""Which statements hold together, by trying every set of them, as docs/FORMATS.md tells of it: the least conflict, all minimal conflicts with
all maximal consistent sets, and explanations."""

import itertools

from oracle import model


def restricted(problem, bits):
    """The problem with the articulations kept whose bit is 1."""
    q = model.Problem(problem.switches)
    q.taxonomies, q.names, q.owners = problem.taxonomies, problem.names, problem.owners
    q.parents, q.children = problem.parents, problem.children
    q.articulations = [a for a, bit in zip(problem.articulations, bits) if bit == "1"]
    keeps_sums = all(bit == "1" for a, bit in zip(problem.articulations, bits) if a[0] == "sum")
    return q.finish(problem.points if keeps_sums else None)


def has_world(problem):
    """Whether there is a world. The pairs of which something is said are walked first, which makes no difference to that."""
    order = sorted(range(len(problem.pairs)), key=lambda k: len(problem.allowed[k]) == len(model.LETTERS))
    for rows in (problem.pairs, problem.allowed, problem.in_region):
        rows[:] = [rows[k] for k in order]
    return any(is_world for _, is_world in problem.walk())


def is_consistent(problem, bits):
    known = problem.__dict__.setdefault("consistent", {})
    if bits not in known:
        known[bits] = has_world(restricted(problem, bits))
    return known[bits]


def all_bits(problem):
    """The lists of bits of all subsets of the articulations, ascending."""
    return map("".join, itertools.product("01", repeat=len(problem.articulations)))


# The least conflict.


def least_conflict(problem):
    """The least list of bits among the subsets that are in conflict, by trying all of them; None where all hold together."""
    if is_consistent(problem, "1" * len(problem.articulations)):
        return None
    return next(bits for bits in all_bits(problem) if not is_consistent(problem, bits))


def numbered(problem, bits):
    """A line for each articulation that has a bit."""
    return [f"{k} {problem.articulation_text(a)}" for k, (a, bit) in enumerate(zip(problem.articulations, bits), 1) if bit == "1"]


def conflict_lines(problem, bits):
    if bits is None:
        return ["consistent"]
    rows = numbered(problem, bits)
    return [f"conflict {len(rows)}"] + rows


# All conflicts, and explanations.


def is_proper_part(few, more):
    return few != more and all(x <= y for x, y in zip(few, more))


def lattice(problem):
    """All minimal conflicts and all maximal consistent sets, by trying all subsets."""
    every = list(all_bits(problem))
    good = [bits for bits in every if is_consistent(problem, bits)]
    bad = [bits for bits in every if not is_consistent(problem, bits)]
    conflicts = [bits for bits in bad if not any(is_proper_part(other, bits) for other in bad)]
    return conflicts, [bits for bits in good if not any(is_proper_part(bits, other) for other in good)]


def lattice_lines(conflicts, sets):
    listed = lambda word, lists: [f"{word} {len(lists)}"] + [bits or "." for bits in lists]
    return listed("conflicts", conflicts) + listed("consistent", sets) + [f"lattice {len(conflicts)} {len(sets)}"]


def entails(problem, bits, pair, letters):
    """Whether a pair has one of these relations in each world of some articulations."""
    q = restricted(problem, bits)
    q.allowed[pair] = q.allowed[pair] - set(letters)
    return not has_world(q)


def pair_named(problem, left, right):
    """The concepts of two names, or the kind of fault."""
    every = [problem.text_name(c) for c in range(len(problem.names))]
    if left not in every or right not in every:
        return None, "UnknownConcept"
    if left == right:
        return None, "SameConcept"
    return (every.index(left), every.index(right)), None


def explanation(problem, left, right, letters):
    """The exit code and the lines of an explanation: of the least list of bits that entails it, by trying all subsets."""
    pair, kind = pair_named(problem, left, right)
    if kind:
        return 12, [f"pair {kind}"]
    if pair[0] > pair[1]:
        pair, letters = pair[::-1], {model.CONVERSE[r] for r in letters}
    number = problem.pairs.index(pair)
    bits = next((bits for bits in all_bits(problem) if entails(problem, bits, number, letters)), None)
    if bits is None:
        return 14, ["not entailed"]
    rows = numbered(problem, bits)
    return 0, [f"explain {len(rows)}"] + rows
