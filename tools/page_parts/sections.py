"""The sections of the page, each a function of the answer."""

from taxa import SAID, SWITCHES, counted, entry, in_words, joined, shown

from .html import Markup, answer, badge, code, folded, question, rows, section, sentence, shown_of, tag, words_of
from .questions import ordered
from .reasons import TURN

MOST_ANSWERS, MOST_FURTHER, MOST_OPEN, MOST_QUESTIONS = 40, 60, 600, 12


def pair_names(a, namer, place):
    one, other = a.pairs.names(place)
    return namer.concept(one), namer.concept(other)


def linked(a, letters, place):
    """The letters of a pair, leading to the matrix if it is there: it has no pairs inside one taxonomy."""
    return badge(letters, place if place < a.pairs.across else None)


def average(number):
    return f"{number:,.0f}" if abs(number - round(number)) < 0.05 else f"{number:,.1f}"


# What to settle next


def questions(a, namer):
    if not a.answered:
        return None
    if a.complete and len(a.worlds) == 1:
        return section("questions", "Open questions", tag("p", "None. The statements leave one possible world, so every pair is settled."))
    body = [group_card(a, namer, k, group) for k, group in enumerate(a.groups)] if a.complete else tried_cards(a, namer)
    return section("questions", "Open questions", tag("p", intro(a)), *body)


ADD = "To settle it, add the line of the right answer to the file."


def intro(a):
    if not a.complete and not a.questions:
        return stopped(a) + (". Which relations each pair may have is known all the same." if a.known else ".")
    if not a.complete:
        return (
            f"{stopped(a)}, so the questions below were found by giving a pair each of its relations in turn "
            "and asking which other pairs that settles. The first question of each group is the one that settles most. "
            + ADD
        )
    if len(a.groups) == 1:
        steps = len(a.keys(a.groups[0]))
        more = "" if steps == 1 else f" It takes up to {steps} steps; the first is the one that settles most."
        return f"The {len(a.worlds):,} possible worlds are the answers to one question.{more} {ADD}"
    return (
        f"The {len(a.worlds):,} possible worlds are {sizes_of(a.groups)}, which don't depend on each other: any answer to one goes with any answer "
        "to the others. So they can be settled one by one, by different people; the first is the one that settles most. " + ADD
    )


def stopped(a):
    return f"The listing was stopped at {counted(len(a.worlds), 'possible world')}" if a.worlds else "The listing was stopped before the first world"


def sizes_of(groups):
    """`3 questions with 2, 7 and 12 answers`."""
    sizes = sorted(group.size for group in groups)
    if sizes[0] == sizes[-1]:
        return f"{len(groups)} questions with {sizes[0]:,} answers each"
    said = joined([f"{size:,}" for size in sizes], "and") if len(sizes) < 6 else f"{sizes[0]:,} to {sizes[-1]:,}"
    return f"{len(groups)} questions with {said} answers"


def group_card(a, namer, k, group):
    keys = a.keys(group)
    first = a.questions[keys[0]]
    title = f"Question {k + 1}: " if len(a.groups) > 1 else ""
    head = tag("h3", title, question(first.letters, *pair_names(a, namer, keys[0])), " ", linked(a, first.letters, keys[0]))
    inside = [head, options(a, namer, first, len(a.worlds))]
    if len(keys) > 1:
        inside += [then_ask(a, namer, group, keys), answers_table(a, namer, group, keys)]
    inside.append(further(a, namer, group, keys))
    return tag("article", *[part for part in inside if part], class_="card")


def options(a, namer, asked, total):
    """The answers to a question, each with what it leaves."""
    names = pair_names(a, namer, asked.place)
    one, other = a.pairs.names(asked.place)
    items = []
    for letter in asked.letters:
        left = f"leaves {counted(asked.counts[letter], 'world')} of {total:,}" if asked.counts else None
        # what to add to the file; two concepts of one taxonomy have no statements
        line = code(entry(one.full, letter, other.full)) if asked.place < a.pairs.across else None
        more = [Markup(" " + tag("span", part, class_="small")) for part in (left, line) if part]
        items.append(tag("li", badge(letter), " ", answer(letter, *names), *more))
    return tag("ul", *items, class_="options")


def then_ask(a, namer, group, keys):
    items = []
    for place in keys:
        asked = a.questions[place]
        says = f"alone it leaves {average(asked.left)} of {counted(len(a.worlds), 'world')} on average"
        says += "" if place < a.pairs.across else "; of two in one taxonomy the rows and rules tell, and no statement can"
        items.append(tag("li", question(asked.letters, *pair_names(a, namer, place)), " ", tag("span", says, class_="small")))
    return Markup(tag("p", f"In this order {counted(len(keys), 'step')} tell its {group.size:,} answers apart, often fewer:") + tag("ol", *items))


def answers_table(a, namer, group, keys):
    head = ["answer"] + [sentence("{a} : {b}", a=x, b=y) for x, y in (pair_names(a, namer, place) for place in keys)]
    shown = range(min(group.size, MOST_ANSWERS))
    body = [[f"{answer + 1}"] + [badge(group.letter(answer, place)) for place in keys] for answer in shown]
    table = rows(head, body, "answers", "the answers and what tells them apart")
    return folded(f"The {group.size:,} answers", table, shown_of(len(shown), group.size, "answer") or "")


def further(a, namer, group, keys):
    """The pairs that are settled along with the questions."""
    others = sorted((place for place in group.places if place not in keys), key=a.rank)
    if not others:
        return None
    items = []
    for place in others[:MOST_FURTHER]:
        letters = a.questions[place].letters
        items.append(tag("li", linked(a, letters, place), " ", words_of(letters, *pair_names(a, namer, place))))
    more = shown_of(len(items), len(others), "pair") or ""
    return folded(f"{counted(len(others), 'further open pair hangs', 'further open pairs hang')} on this", tag("ul", *items, class_="plain"), more)


def tried_cards(a, namer):
    if a.tried is None:
        return [tag("p", "`mir` did not end in its time, so nothing was tried.")]
    out, tried = [], a.tried
    for group in tried.groups:
        asked = sorted((tried.questions[place] for place in group if place in tried.questions), key=lambda q: (q.left, q.place))
        if asked and len(out) < MOST_QUESTIONS:
            out.append(tried_card(a, namer, group, asked, len(out)))
    rest = len(tried.groups) - len(out)
    if tried.untried:
        out.append(untried_card(a, namer))
    elif rest:
        out.append(tag("p", f"{counted(rest, 'further group')} of open pairs are in the list below the matrix.", class_="small"))
    return out


def untried_card(a, namer):
    """Where there was no time to try: by the trees alone, what settles many pairs if two concepts have nothing in common."""
    below = a.tried.below
    chosen = []
    for place in sorted((p for p in a.tried.untried if "!" in a.possible[p] and below[p] > 0), key=lambda p: (-below[p], p)):
        if len(chosen) < MOST_QUESTIONS and not any(covers(a, other, place) for other in chosen):
            chosen.append(place)
    untried = counted(len(a.tried.untried), "further open pair" if a.tried.questions else "open pair")
    says = f"There was no time to try {untried}; more is given by --extra SECONDS. All are in the list below the matrix."
    if not chosen:
        return tag("p", says, class_="small")
    items = []
    for place in chosen:
        settled = tag("span", f"if not, {counted(below[place], 'open pair below is', 'open pairs below are')} settled too", class_="small")
        items.append(tag("li", linked(a, a.possible[place], place), " ", question("x!", *pair_names(a, namer, place)), " ", settled))
    head = tag("h3", "Questions that may settle much")
    return tag("article", head, tag("p", says + " By the trees alone:", class_="small"), tag("ul", *items, class_="plain"), class_="card")


def covers(a, place, other):
    """Whether the concepts of a pair are those of another one, or above them."""
    return all(low is high or low in high.below() for low, high in zip(a.pairs.names(other), a.pairs.names(place)))


def tried_card(a, namer, group, asked, k):
    first = asked[0]
    names = pair_names(a, namer, first.place)
    head = tag("h3", f"Question {k + 1}: ", question(first.letters, *names), " ", linked(a, first.letters, first.place))
    before = sum(len(a.possible[place]) - 1 for place in a.open_places)
    says = f"Of {before:,} further relations that the open pairs might have, {average(first.left)} are left on average once this is settled."
    others = asked[1:][:MOST_FURTHER]
    left = lambda q: tag("span", f"leaves {average(q.left)}", class_="small")
    items = [tag("li", linked(a, q.letters, q.place), " ", question(q.letters, *pair_names(a, namer, q.place)), " ", left(q)) for q in others]
    alone = "No other pair was seen to depend on it."
    if len(group) > 1:
        alone = f"{counted(len(group) - 1, 'other open pair depends', 'other open pairs depend')} on it or on one that does."
    inside = [head, options(a, namer, first, 0), tag("p", says + " " + alone, class_="small")]
    if items:
        inside.append(folded(f"{counted(len(others), 'further question')} of this group", tag("ul", *items, class_="plain")))
    return tag("article", *inside, class_="card")


# The matrix


def matrix(a, namer):
    empty = "There is no possible world, so the matrix shows what is stated; pairs of the conflict have a red frame."
    if not a.complete:
        empty = "There was no answer in the time given, which --seconds sets, so the matrix shows what is stated."
    text = tag("p", matrix_words(a) if a.answered else empty)
    only, following = ("open", "Next open pair") if a.answered else ("in conflict", "Next in conflict")
    stage = Markup(
        '<div id="tools" class="script">'
        '<label>Rows <select id="rows"></select></label> <label>Columns <select id="columns"></select></label> '
        '<label>Name <input id="name" type="search" size="14" placeholder="part of a name"></label> '
        '<label><input id="only" type="checkbox"> only where something is ' + only + '</label> '
        '<span class="buttons"><button type="button" id="fold">Fold all</button> <button type="button" id="level">One level more</button> '
        '<button type="button" id="unfold">Unfold all</button> <button type="button" id="next">' + following + '</button></span></div>\n'
        '<div class="board"><div id="stage" class="script" tabindex="0" role="application" aria-label="matrix of two taxonomies; arrow keys move" aria-describedby="keys">'
        '<canvas id="cells" width="10" height="10"></canvas><div id="room"></div></div>\n'
        '<div id="told" class="script" role="status" aria-live="polite"></div></div>\n'
    )
    without = tag("noscript", tag("p", "The matrix is drawn by a script, and scripts are turned off here; the lists on this page need none."))
    return section("matrix", "Matrix", text, legend(a), without, stage, keys(), open_list(a, namer))


def matrix_words(a):
    many = len(a.open_places)
    said = f"Each cell is the relation of its row to its column. Of {counted(a.pairs.across, 'pair')} {many:,} {'is' if many == 1 else 'are'} open"
    beside = sought_beside(a, a.open_places)
    if not a.known:
        said += ", by the worlds that were listed; `mir` did not end in its time, and more may be possible"
    if len(a.problem.taxonomies) < 3 or not beside:
        return said + "."
    first = [f"{count:,} between {shown(one.name)} and {shown(other.name)}" for (one, other), count in beside[:5]]
    return f"{said}: {', '.join(first)}{', and more between others' if len(beside) > 5 else ''}."


def sought_beside(a, places):
    """For each two taxonomies how many of these pairs they have, most first."""
    count = {}
    for place in places:
        both = tuple(concept.taxonomy for concept in a.pairs.names(place))
        count[both] = count.get(both, 0) + 1
    return sorted(count.items(), key=lambda item: -item[1])


def legend(a):
    items = [tag("span", badge(letter), " ", f"row {SAID[letter]} column", class_="key") for letter in "=><x!"]
    if a.open_places:
        items.append(tag("span", tag("b", "=>", class_="r open"), " open: several are possible", class_="key"))
    elif not a.answered:
        items.append(tag("span", tag("b", "=>", class_="r open"), " stated as a choice", class_="key"))
    return tag("p", *items, class_="legend")


def keys():
    says = (
        "Point at a cell, or click it to hold it; a click on a name with a triangle folds it. Arrow keys move; N and P go to the next and the "
        "previous pair to look at, F folds or unfolds the row, C the column, Enter holds. A corner marks a folded cell that hides such pairs."
    )
    return tag("p", says, id="keys", class_="small script")


def open_list(a, namer):
    places = sorted(a.open_places, key=a.rank)
    if not places:
        return None
    body = []
    for place in places[:MOST_OPEN]:
        asked = a.questions.get(place)
        left = ""
        if asked:
            left = f"{average(asked.left)} of {len(a.worlds):,} worlds" if a.complete else f"{average(asked.left)} relations"
        body.append([badge(a.possible[place], place), words_of(a.possible[place], *pair_names(a, namer, place)), ("num", left)])
    table = rows(["", "open pair", "left once settled, on average"], body, "pairs", "open pairs")
    return folded(f"{counted(len(places), 'open pair')} as a list", table, shown_of(len(body), len(places), "open pair") or "", open_=len(places) <= 12)


# Statements


def stays(a, statement):
    """What became of a statement's relations; nothing where it is a sum or where there is no world."""
    if statement.is_sum or not a.answered or not a.known:
        return None
    place = a.pairs.place(*statement.pair())
    letters = a.possible[place]
    if a.pairs.names(place)[0].full != statement.left:
        letters = ordered(letters.translate(TURN))
    if letters == statement.letters:
        return "as stated" if len(letters) == 1 else Markup(badge(letters) + " open")
    return Markup(badge(letters) + " " + ("follows: " if len(letters) == 1 else "left: ") + in_words(letters))


def line_link(a, statement):
    """The line of a statement in the file, leading to its pair in the matrix; of a sum to the first of its pairs."""
    return tag("a", f"{statement.line}", href="#matrix", data_place=a.pairs.place(statement.left, statement.rights[0]), title="show it in the matrix")


def remark(statement):
    """What stands behind a statement: its table, row and author where a tool wrote them there."""
    return tag("bdi", statement.remark) if statement.remark else ""


def statements(a):
    if not a.problem.statements:
        return section("statements", "Statements", tag("p", "There are none."))
    remarks = any(statement.remark for statement in a.problem.statements)
    wrong = {s.number for conflict in a.conflicts for s in conflict.statements}
    body = []
    for s in a.problem.statements:
        row = [("num", line_link(a, s)), (("stated wrong" if s.number in wrong else "stated"), code(s.text))]
        row += [stays(a, s) or ("in the conflict" if s.number in wrong else "")] if a.answered or wrong else []
        body.append(row + ([remark(s)] if remarks else []))
    head = ["line", "statement"] + (["in the answer"] if a.answered or wrong else []) + (["remark"] if remarks else [])
    return section("statements", "Statements", rows(head, body, "statements", "statements"))


def notes(a):
    """What tools/lint says of the file."""
    if not a.notes:
        return None
    items = [tag("li", f"line {note.line}: ", tag("bdi", note.says, dir="ltr")) for note in a.notes[:40]]
    said = tag("p", "What is often a slip, and often meant (", tag("code", f"tools/lint {a.problem.path}"), " tells it too):")
    return section("notes", "To look over", said, tag("ul", *items, class_="plain"), shown_of(len(items), len(a.notes), "note"))


# How it was made


def made(a):
    off = [word.split("=")[0] for word in a.runs.switches if word.endswith("=off")]
    rules = [tag("li", f"{SWITCHES[name]}: ", tag("b", "off" if name in off else "on")) for name in SWITCHES]
    commands = [tag("li", tag("code", words), " stopped, since its time was over" if stopped else "") for words, stopped in a.runs.commands]
    if a.runs.changed_runs:
        commands.append(tag("li", f"and {counted(a.runs.changed_runs, 'run')} of changed copies of the file, to see what follows from what"))
    budget = "The listing came to its end, so these are all possible worlds." if a.worlds else "The search came to its end, and there is no possible world."
    if not a.complete:
        cause = "its time was over" if a.stopped else f"the budget of {a.most_worlds:,} worlds was used up"
        rest = "; what is said of the pairs is so all the same, since `mir` doesn't list worlds." if a.known else "."
        budget = f"The listing was stopped after {counted(len(a.worlds), 'world')}, since {cause}{rest}"
    reason = None
    if a.reasons:
        many = f"{len(a.reasons):,} of {counted(a.reasons_needed, 'pair')}"
        says = "whose relation follows from others it was found from which. Each of the statements named is needed there; others may do as well."
        reason = tag("p", f"For {many} {says}")
    parts = [tag("p", "The rules of each taxonomy:"), tag("ul", *rules, class_="plain"), tag("p", "The commands:"), tag("ul", *commands, class_="plain")]
    return section("made", "How this was made", tag("p", budget), reason, *parts)
