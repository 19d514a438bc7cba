"""Why a pair has no other relation than those that are left: the statements that the conflict needs if it had."""

from taxa import LETTERS, entry

from .conflicts import named

TURN = str.maketrans("><", "<>")


def stated(problem, pairs):
    """What statements on two concepts say of a pair across taxonomies, taken together, and the numbers of these statements."""
    out = {}
    for statement in problem.statements:
        if not statement.is_sum:
            place, letters = pairs.place(*statement.pair()), statement.letters
            if pairs.names(place)[0].full != statement.left:
                letters = letters.translate(TURN)
            before, numbers = out.get(place, (LETTERS, []))
            out[place] = ("".join(letter for letter in before if letter in letters), numbers + [statement.number])
    return out


def spoken_of(problem, pairs):
    """For each pair the numbers of the statements that speak of it; a sum speaks of its whole and each of its parts."""
    out = {}
    for statement in problem.statements:
        for right in statement.rights:
            out.setdefault(pairs.place(statement.left, right), []).append(statement.number)
    return out


def interest(letters):
    """What people ask about first: what is open, then what two lists share, and last that two things are apart."""
    return 0 if len(letters) > 1 else "=x><!".index(letters) + 1


def reason(runs, problem, pairs, place, letters, seconds):
    """The numbers of the statements from which it follows that a pair has one of these relations; None where that was not found."""
    one, other = pairs.names(place)
    rest = "".join(letter for letter in LETTERS if letter not in letters)
    ran = runs.try_out(problem.beside((), [entry(one.full, rest, other.full)]), "conflict", seconds=seconds)
    found = named(ran, problem)
    return None if found is None else [statement.number for statement in found]


def find(runs, problem, pairs, possible, chosen, clock, most=4000):
    """Reasons by place: those of chosen pairs first, then of others as long as there is time. Nothing is looked for where a pair may
    have any relation, or where a statement of its own says it all."""
    said = stated(problem, pairs)
    needs = [place for place in range(pairs.across) if possible[place] and len(possible[place]) < 5]
    needs = [place for place in needs if place in chosen or said.get(place, ("",))[0] != possible[place]]
    out = {}
    for place in sorted(needs, key=lambda place: (place not in chosen, interest(possible[place]), place))[:most]:
        if clock.over() and place not in chosen:
            break
        found = reason(runs, problem, pairs, place, possible[place], clock.whole if place in chosen else clock.share())
        if found is not None:
            out[place] = found
    return out, len(needs)
