"""Where there is no world: which statements can't stand together, and what would end that, found by running the program again."""

import itertools

from taxa import LETTERS, SWITCHES, entry

MOST = 100  # worlds are counted no further where a change brings some


class Weaker:
    """What could be said in place of a statement, as lines of the file, and how many worlds there are then: a number and whether it is
    all of them."""

    def __init__(self, lines, worlds, letters=""):
        self.lines, self.worlds, self.letters = lines, worlds, letters


class Conflict:
    """Statements of which each is needed for the conflict; `dropped` are the worlds without a statement, `weaker` what would do in its
    place, both by its number."""

    def __init__(self, statements):
        self.statements, self.dropped, self.weaker = statements, {}, {}


def some(worlds):
    return worlds is not None and worlds[0] > 0


def named(ran, problem):
    """The statements that `conflict` names; None where it did not come to its end."""
    if not ran.lines or not ran.lines[0].startswith("conflict ") or ran.stopped:
        return None
    return [problem.statements[int(line.split(" ", 1)[0]) - 1] for line in ran.lines[1:] if int(line.split(" ", 1)[0]) <= len(problem.statements)]


def find(runs, problem, most=5):
    """Conflicts that have no statement in common: the first is the one that the program names, the next what it names without these."""
    found = named(runs.ask("conflict"), problem)
    out, gone = [], set()
    while found and len(out) < most:
        out.append(Conflict(found))
        gone |= {statement.number for statement in found}
        kept = [statement for statement in problem.statements if statement.number not in gone]
        ran = runs.try_out(problem.beside(gone), "conflict")
        if not ran.lines or not ran.lines[0].startswith("conflict "):
            break
        found = [kept[int(line.split(" ", 1)[0]) - 1] for line in ran.lines[1:]]
    return out


def switches_that_help(runs, problem, clock):
    """For each rule that is on the worlds that there are without it."""
    off = {word.split("=")[0] for word in runs.switches if word.endswith("=off")}
    rest = [name for name in SWITCHES if name not in off]
    kept = [word for word in runs.switches if word.endswith("=off")]
    return {name: runs.worlds_of(problem.text, MOST, clock.share(), kept + [f"{name}=off"]) for name in rest}


def wider(letters):
    """The sets of relations that allow more, the nearest first; all five is no statement."""
    others = [letter for letter in LETTERS if letter not in letters]
    for count in range(1, len(others)):
        for more in itertools.combinations(others, count):
            yield "".join(letter for letter in LETTERS if letter in letters or letter in more)


def try_changes(runs, problem, conflicts, clock):
    """What ends a conflict, statement by statement. The statements of the other conflicts are left out meanwhile: they would hide it."""
    for conflict in conflicts:
        others = {s.number for other in conflicts if other is not conflict for s in other.statements}
        for statement in conflict.statements:
            if clock.over():
                return
            gone = others | {statement.number}
            conflict.dropped[statement.number] = runs.worlds_of(problem.beside(gone), MOST, clock.share())
            if some(conflict.dropped[statement.number]):
                conflict.weaker[statement.number] = list(weaker(runs, problem, statement, gone, clock))


def weaker(runs, problem, statement, gone, clock):
    if statement.is_sum:
        yield from weaker_sums(runs, problem, statement, gone, clock)
        return
    enough = []
    for letters in wider(statement.letters):
        if clock.over():
            return
        if any(set(less) <= set(letters) for less in enough):
            continue
        line = entry(statement.left, letters, statement.rights[0])
        worlds = runs.worlds_of(problem.beside(gone, [line]), MOST, clock.share())
        if some(worlds):
            enough.append(letters)
            yield Weaker([line], worlds, letters)


def weaker_sums(runs, problem, statement, gone, clock):
    """Of a sum: that the whole may have more than its parts; or that it has something of each."""
    for letters in ("=>", "=><x"):
        lines = [entry(statement.left, letters, part) for part in statement.rights]
        worlds = runs.worlds_of(problem.beside(gone, lines), MOST, clock.share())
        if some(worlds):
            yield Weaker(lines, worlds, letters)
            return
