"""The section on statements that can't stand together."""

from taxa import WORD_OF, counted

from .conflicts import MOST, some
from .html import Markup, code, rows, section, tag
from .sections import line_link, remark

WITHOUT = {
    "nonempty": "concepts may be empty",
    "sibling": "children of one parent may have something in common",
    "coverage": "a parent may have something beside its children",
}


def how_many(worlds):
    if worlds is None:
        return "not known: it took too long"
    count, whole = worlds
    return counted(count, "world") if whole else f"{counted(count, 'world')} or more"


def conflict(a):
    if a.worlds or not a.complete:
        return None
    body = []
    if not a.conflicts:
        body.append(tag("p", "The program did not name the statements in its time, or the rows alone can't be."))
    if len(a.conflicts) > 1:
        says = (
            f"There are at least {len(a.conflicts)} conflicts that have no statement in common. Each has to be ended; what follows of one is so "
            "once the others are ended."
        )
        body.append(tag("p", says))
    for k, one in enumerate(a.conflicts):
        body.append(card(a, one, f"Conflict {k + 1}: " if len(a.conflicts) > 1 else ""))
    return section("conflict", "What can't stand together", *body, switches(a))


def card(a, one, title):
    count = len(one.statements)
    head = tag("h3", title, "This statement can't be true" if count == 1 else f"These {count} statements can't all be true")
    said = tag("p", "Each of them is needed for the conflict. One of them is wrong, or a row is, or a rule is not meant.")
    remarks = any(statement.remark for statement in one.statements)
    names = ["line", "statement"] + (["remark"] if remarks else []) + ["without it", "what weaker one would do"]
    body = []
    for s in one.statements:
        row = [("num", line_link(a, s)), ("stated", code(s.text))] + ([remark(s)] if remarks else [])
        body.append(row + [without(one, s), weaker(one, s)])
    return tag("article", head, said, rows(names, body, "conflicts", "statements in conflict"), class_="card bad")


def without(one, statement):
    if statement.number not in one.dropped:
        return "not tried"
    worlds = one.dropped[statement.number]
    if worlds is not None and not some(worlds):
        return "still none: there is another conflict"
    return how_many(worlds)


def weaker(one, statement):
    if not some(one.dropped.get(statement.number)):
        return ""
    found = one.weaker.get(statement.number) or []
    if not found:
        return "nothing short of leaving it out"
    items = []
    for change in found[:4]:
        # of a statement on two concepts the relations are enough; a sum becomes several statements
        said = change.lines if statement.is_sum else [braces(change.letters)]
        text = Markup("<br>".join(map(code, said)))
        items.append(tag("li", text, " ", tag("span", how_many(change.worlds), class_="small")))
    return tag("ul", *items, class_="plain")


def braces(letters):
    return "{" + " ".join(WORD_OF[letter] for letter in letters) + "}"


def switches(a):
    items = []
    for name, worlds in a.switches_tried.items():
        ends = some(worlds)
        says = f"would end it: {how_many(worlds)}" if ends else "would not end it" if worlds is not None else "took too long to try"
        items.append(tag("li", tag("code", f"{name}=off"), f" ({WITHOUT[name]}) ", tag("b", says) if ends else says))
    if not items:
        return None
    inside = [tag("p", "Each of the rules holds in all taxonomies. Turn one off only if it isn't meant."), tag("ul", *items, class_="plain")]
    more = tag("p", f"Worlds are counted up to {MOST} here.", class_="small")
    return Markup(tag("h3", "Would it be ended by turning off a rule?") + "".join(inside) + more)
