"""What a list of worlds has in common: where they differ, which of these places depend on each other, and what tells them apart.

A world is a string with a letter for each pair of concepts.
"""

import re


class Pairs:
    """The pairs in the order of a world's letters: those across taxonomies first, then those inside one."""

    def __init__(self, problem):
        self.concepts = problem.concepts
        owner = [concept.taxonomy for concept in self.concepts]
        count = len(self.concepts)
        every = [(i, j) for i in range(count) for j in range(i + 1, count)]
        self.list = [(i, j) for i, j in every if owner[i] is not owner[j]]
        self.across = len(self.list)
        self.list += [(i, j) for i, j in every if owner[i] is owner[j]]
        self.number = {concept.full: k for k, concept in enumerate(self.concepts)}
        self.starts = {}  # for each concept the place of its pair with the first concept of a later taxonomy
        for place in range(self.across - 1, -1, -1):
            self.starts[self.list[place][0]] = place, self.list[place][1]

    def place(self, one, other):
        """Where the pair of two concepts of different taxonomies stands; None where they aren't such."""
        i, j = sorted((self.number.get(one, -1), self.number.get(other, -1)))
        if i < 0 or self.concepts[i].taxonomy is self.concepts[j].taxonomy:
            return None
        start, first = self.starts[i]
        return start + j - first

    def names(self, place):
        i, j = self.list[place]
        return self.concepts[i], self.concepts[j]


def varied_places(worlds):
    """The places in which not all worlds have one letter. Whole worlds are compared as long numbers, which is quick."""
    first, seen = int.from_bytes(worlds[0].encode(), "big"), 0
    for world in worlds[1:]:
        seen |= int.from_bytes(world.encode(), "big") ^ first
    return [found.start() for found in re.finditer(rb"[^\0]", seen.to_bytes(len(worlds[0]), "big"), re.S)] if len(worlds) > 1 else []


def pattern(column):
    """The same for two columns that tell the same worlds apart."""
    labels = {}
    return "".join(labels.setdefault(letter, chr(48 + len(labels))) for letter in column)


def columns_of(worlds):
    """The varied places by what they tell apart: for each pattern its places."""
    found = {}
    for place in varied_places(worlds):
        found.setdefault(pattern([world[place] for world in worlds]), []).append(place)
    return found


def numbered(rows):
    """Each row as the number of its first like."""
    seen = {}
    return [seen.setdefault(row, len(seen)) for row in rows]


def distinct(column):
    return len(set(column))


def factors(patterns):
    """The finest groups of patterns such that each answer to one group goes with each answer to the others.

    Patterns are taken one by one. A group that was independent so far stays so if the number of all answers is that of its own answers
    times that of the others'; the groups for which it isn't become one with the new pattern.
    """
    groups = []  # each a list of patterns, and for each world the number of its answer
    for new in patterns:
        whole = groups + [([new], numbered(new))]
        total = distinct(zip(*(answers for _, answers in whole)))
        kept, merged, rows = [], [new], [list(new)]
        for group in groups:
            others = [answers for other, answers in whole if other is not group[0]]
            if distinct(group[1]) * distinct(zip(*others)) == total:
                kept.append(group)
            else:
                merged, rows = group[0] + merged, rows + [group[1]]
        groups = kept + [(merged, numbered(zip(*rows)))]
    return groups


class Group:
    """Places that depend on each other and on no others: what they can be together is the answers, numbered as they come first."""

    def __init__(self, places, patterns, answers, worlds):
        self.places, self.patterns, self.answer_of = places, patterns, answers
        self.examples = [answers.index(k) for k in range(max(answers) + 1)]  # a world for each answer
        self.worlds = worlds

    @property
    def size(self):
        return len(self.examples)

    def letter(self, answer, place):
        return self.worlds[self.examples[answer]][place]

    def parts(self, place, among=None):
        """The answers by the letter that they have in this place."""
        out = {}
        for answer in range(self.size) if among is None else among:
            out.setdefault(self.letter(answer, place), []).append(answer)
        return out

    def left(self, place):
        """How many answers are left on average once this place is settled, each answer being as likely as the others."""
        return sum(len(part) ** 2 for part in self.parts(place).values()) / self.size

    def keys(self, rank, inside=lambda place: False):
        """A few places that tell all answers apart, each the one that tells most of what those before it leave; `rank` breaks ties. Pairs
        inside one taxonomy come last, since nobody can state their relation."""
        chosen, classes = [], [list(range(self.size))]
        best = [min(places, key=rank) for places in self.patterns.values()]
        while any(len(answers) > 1 for answers in classes):
            left = lambda place: sum(len(part) ** 2 for answers in classes for part in self.parts(place, answers).values())
            now = sum(len(answers) ** 2 for answers in classes)
            place = min(best, key=lambda place: (left(place) == now or inside(place), left(place) == now, left(place), rank(place)))
            chosen.append(place)
            classes = [part for answers in classes for part in self.parts(place, answers).values()]
        return chosen


def groups_of(worlds):
    columns = columns_of(worlds)
    out = []
    for patterns, answers in factors(list(columns)):
        own = {text: columns[text] for text in patterns}
        out.append(Group(sorted(place for places in own.values() for place in places), own, answers, worlds))
    return sorted(out, key=lambda group: (-group.size, group.places))


def merged(pairs, world):
    """The merged taxonomy of a world in the form that `report kinds=json` has, for a listing that was not finished."""
    count = len(pairs.concepts)
    leader, above, crossing = list(range(count)), [0] * count, []
    for (i, j), letter in zip(pairs.list, world):
        if letter == "=":
            leader[j] = min(leader[j], i)
        elif letter == "<":
            above[i] |= 1 << j
        elif letter == ">":
            above[j] |= 1 << i
        elif letter == "x":
            crossing.append((i, j))
    owner = [concept.taxonomy for concept in pairs.concepts]
    name = [concept.full for concept in pairs.concepts]
    leaders = [k for k in range(count) if leader[k] == k]
    number = {k: place for place, k in enumerate(leaders, 1)}
    mask = sum(1 << k for k in leaders)
    under = [[number[k], number[up]] for k in leaders for up in directly(above, k, mask)]
    splits = [[f"{name[i]}*{name[j]}", f"{name[i]}\\{name[j]}", f"{name[j]}\\{name[i]}"] for i, j in sorted(crossing) if owner[i] is not owner[j]]
    classes = [[name[k] for k in range(count) if leader[k] == lead] for lead in leaders]
    return {"classes": classes, "splits": splits, "under": under}


def bits(mask):
    while mask:
        low = mask & -mask
        yield low.bit_length() - 1
        mask ^= low


def directly(above, k, leaders):
    """Of the leaders that include this one those with none between."""
    over = above[k] & leaders
    further = 0
    for up in bits(over):
        further |= above[up]
    return list(bits(over & ~further))
