"""The page as a whole: its head, its sections, and what its script draws from."""

import json
import os

from taxa import LETTERS, counted, joined, shown

from . import conflict_section, sections, views
from .html import Markup, Namer, colour_rules, esc, lines, tag

HERE = os.path.dirname(os.path.abspath(__file__))
DIGITS = "0123456789abcdefghijklmnopqrstuv"


NAVIGATION = [
    ("conflict", "Conflict"),
    ("questions", "Open questions"),
    ("matrix", "Matrix"),
    ("merged", "Merged"),
    ("statements", "Statements"),
    ("notes", "To look over"),
    ("made", "How it was made"),
]


def part(name):
    with open(os.path.join(HERE, name), encoding="utf-8") as file:
        return file.read()


def bits(letters):
    return DIGITS[sum(1 << LETTERS.index(letter) for letter in letters)]


def data(a):
    """What the matrix is drawn from: for each pair one digit, and the rest by the numbers of pairs and statements."""
    number = {id(concept): k for k, concept in enumerate(a.pairs.concepts)}
    stated = {place: letters for place, (letters, _) in a.stated.items()}
    may = a.possible if a.answered else [stated.get(place, "") for place in range(a.pairs.across)]
    wrong = {statement.number for conflict in a.conflicts for statement in conflict.statements}
    counts = {place: q.counts for place, q in a.questions.items() if q.counts and place < a.pairs.across}
    wrong_places = [place for place, numbers in a.spoken.items() if wrong & set(numbers)]
    beside = sections.sought_beside(a, a.open_places if a.answered else wrong_places)
    start = [a.problem.taxonomies.index(taxonomy) for taxonomy in beside[0][0]] if beside else [0, 1]
    return {
        "start": start,
        "tax": [{"name": shown(t.name), "title": t.title, "count": len(t.concepts)} for t in a.problem.taxonomies],
        "names": [shown(concept.name) for concept in a.pairs.concepts],
        "parent": [-1 if concept.parent is None else number[id(concept.parent)] for concept in a.pairs.concepts],
        "may": "".join(bits(letters) for letters in may),
        "stated": not a.answered,
        "known": a.known,
        "total": len(a.worlds) if a.complete else None,
        "counts": counts,
        "said": a.spoken,
        "why": a.reasons,
        "wrong": wrong_places,
        "statements": [[s.line, s.text] for s in a.problem.statements],
    }


def embedded(value):
    """JSON as it may stand within a script: no text in it can end the element."""
    text = json.dumps(value, ensure_ascii=False, separators=(",", ":"))
    text = text.replace("&", "\\u0026").replace("<", "\\u003c").replace(">", "\\u003e")
    return Markup(text.replace("\u2028", "\\u2028").replace("\u2029", "\\u2029"))


def headline(a):
    if not a.worlds:
        if not a.complete:
            return "No world was listed in the time given"
        count = len(a.conflicts[0].statements) if a.conflicts else 0
        return f"No merged classification: {counted(count, 'statement')} can't stand together" if count else "No merged classification"
    if not a.complete:
        return f"At least {len(a.worlds):,} possible worlds"
    if len(a.worlds) == 1:
        return "One possible world: everything is settled"
    what = f"{len(a.worlds):,} possible worlds"
    if len(a.groups) > 1:
        return f"{what}: {sections.sizes_of(a.groups)}"
    return f"{what}, one open question"


def facts(a):
    opened = len(a.open_places)
    own = [("concepts", "+".join(f"{len(t.concepts):,}" for t in a.problem.taxonomies)), ("statements", f"{len(a.problem.statements):,}")]
    if a.answered:
        own.append(("possible worlds", f"{len(a.worlds):,}" if a.complete else f"at least {max(1, len(a.worlds)):,}"))
        if a.known:
            own += [("pairs settled", f"{a.pairs.across - opened:,} of {a.pairs.across:,}"), ("open pairs", f"{opened:,}")]
    off = [word.split("=")[0] for word in a.runs.switches if word.endswith("=off")]
    own.append(("rules", "all on" if not off else f"{joined(off, 'and')} off"))
    return tag("ul", *[tag("li", tag("span", name), tag("b", value)) for name, value in own], class_="facts")


def subtitle(a, namer):
    whole = [Markup(namer.taxonomy(t.name) + (" " + tag("bdi", t.title) if t.title else "")) for t in a.problem.taxonomies]
    return tag("p", Markup(", ".join(whole)), class_="sides")


def navigation(body):
    """Links to the sections that there are."""
    links = [tag("a", title, href=f"#{anchor}") for anchor, title in NAVIGATION if f'<section id="{anchor}">' in body]
    return tag("nav", *links, aria_label="sections")


def page(a):
    namer = Namer(a.problem)
    title = os.path.basename(a.problem.path)
    body = lines(
        conflict_section.conflict(a),
        sections.questions(a, namer),
        sections.matrix(a, namer),
        views.merged(a, namer),
        sections.statements(a),
        sections.notes(a),
        sections.made(a),
    )
    style = part("page.css") + colour_rules()
    script = part("matrix.js") + part("talk.js").replace('"use strict";\n', "", 1)
    head = lines(
        Markup('<meta charset="utf-8">'),
        Markup('<meta name="viewport" content="width=device-width, initial-scale=1">'),
        tag("title", f"{title}: {headline(a)}"),
        Markup(f"<style>\n{style}\n</style>"),
    )
    top = tag("header", tag("p", tag("bdi", title), class_="file"), tag("h1", headline(a)), subtitle(a, namer), facts(a), navigation(body))
    scripts = Markup(f'<script type="application/json" id="data">{embedded(data(a))}</script>\n<script>\n{script}</script>')
    return f'<!DOCTYPE html>\n<html lang="en">\n<head>\n{head}\n</head>\n<body>\n{esc(top)}\n<main>\n{body}\n</main>\n{scripts}\n</body>\n</html>\n'
