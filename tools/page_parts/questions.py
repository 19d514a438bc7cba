"""Open pairs as questions that a person can answer."""

from taxa import LETTERS, entry

# Of pairs with two relations left; {a} and {b} are the two concepts. Others are asked how they relate.
ASKED = {
    "=>": "Does {a} include more than {b}?",
    "=<": "Does {b} include more than {a}?",
    "=x": "Are {a} and {b} the same, or do they only overlap?",
    "=!": "Are {a} and {b} the same, or apart?",
    "><": "Which of {a} and {b} includes the other?",
    ">x": "Does {a} include all of {b}, or only a part of it?",
    ">!": "Is {b} a part of {a}, or apart from it?",
    "<x": "Does {b} include all of {a}, or only a part of it?",
    "<!": "Is {a} a part of {b}, or apart from it?",
    "x!": "Do {a} and {b} have anything in common?",
}
HOW = "How do {a} and {b} relate?"
ANSWERED = {"=": "{a} equals {b}", ">": "{a} includes {b}", "<": "{a} is included in {b}", "x": "{a} and {b} overlap", "!": "{a} is disjoint from {b}"}


def ordered(letters):
    return "".join(letter for letter in LETTERS if letter in letters)


def asked(letters):
    return ASKED.get(ordered(letters), HOW)


def ranker(pairs, possible, stated=()):
    """Which of two pairs that tell the same is asked: one across taxonomies, with few relations, of which somebody spoke already, of
    concepts with one name, high up in the trees, where people know their way."""
    depth = {id(concept): len(concept.line_of_parents()) for concept in pairs.concepts}

    def rank(place):
        one, other = pairs.names(place)
        letters = len(possible[place]) if place < pairs.across else 5
        return (place >= pairs.across, letters, place not in stated, one.name != other.name, depth[id(one)] + depth[id(other)], place)

    return rank


class Question:
    """An open pair, with what is left on average once it is settled: worlds where all are known, else relations of other pairs."""

    def __init__(self, place, letters, left, counts=None):
        self.place, self.letters, self.left, self.counts = place, ordered(letters), left, counts or {}


def of_groups(groups, total):
    """For each varied place its question, by the list of all worlds."""
    found = {}
    for group in groups:
        for place in group.places:
            parts = group.parts(place)
            counts = {letter: len(part) * total // group.size for letter, part in parts.items()}
            found[place] = Question(place, parts, group.left(place) * total / group.size, counts)
    return found


class Tried:
    """What was found by giving open pairs each of their relations in turn and asking `mir` what is left: where the worlds are too many
    to list. `groups` are lists of open places of which some settle others, as far as they were tried."""

    def __init__(self):
        self.questions, self.groups, self.untried, self.below = {}, [], [], {}


def beneath(pairs, places):
    """For each open pair how many further open pairs lie below its two concepts: all of these are settled if the two are disjoint."""
    number = {id(concept): k for k, concept in enumerate(pairs.concepts)}
    above = []
    for concept in pairs.concepts:
        above.append([number[id(up)] for up in concept.line_of_parents()])
    place_of = {pairs.list[place]: place for place in places}
    out = dict.fromkeys(places, -1)
    for i, j in place_of:
        for up in above[i]:
            for over in above[j]:
                if (up, over) in place_of:
                    out[place_of[up, over]] += 1
    return out


def open_relations(possible):
    return sum(len(letters) - 1 for letters in possible if len(letters) > 1)


def left_of(runs, problem, pairs, place, letters, clock):
    """What `mir` says with each of these relations stated of a pair, in turn; fewer where the time was over."""
    one, other = pairs.names(place)
    out = []
    for letter in letters:
        told = None
        if not clock.over():
            told = letters_told(runs.try_out(problem.beside((), [entry(one.full, letter, other.full)]), "mir"), pairs)
        if told is None:
            break
        out.append(told)
    return out


def try_answers(runs, problem, pairs, possible, clock, rank):
    out = Tried()
    places = [place for place in range(pairs.across) if len(possible[place]) > 1]
    below = beneath(pairs, places)
    # what settles much if the two are disjoint comes first: there may be no time for the others
    places.sort(key=lambda place: (-below[place] if "!" in possible[place] else 0, rank(place)))
    joined = {place: place for place in places}

    def leader(place):
        while joined[place] != place:
            place = joined[place]
        return place

    for at, place in enumerate(places):
        answers = left_of(runs, problem, pairs, place, possible[place], clock)
        if len(answers) < len(possible[place]):
            out.untried = places[at:]
            break
        for told in answers:
            for changed in places:
                if told[changed] != possible[changed]:
                    joined[leader(changed)] = leader(place)
        out.questions[place] = Question(place, possible[place], sum(open_relations(told) for told in answers) / len(answers))
    out.below, groups = below, {}
    for place in places:
        groups.setdefault(leader(place), []).append(place)
    out.groups = sorted(groups.values(), key=lambda group: (-len(group), group))
    return out


def letters_told(ran, pairs):
    """What `mir` says of each pair across taxonomies; None where it did not come to its end."""
    if not ran.last.startswith("mir ") or len(ran.lines) != pairs.across + 1:
        return None
    return [line.rsplit(" ", 1)[1].replace(".", "") for line in ran.lines[:-1]]

