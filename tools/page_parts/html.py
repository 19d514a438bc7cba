"""Small pieces of the page: names, letters and tables, with everything that comes from files escaped."""

from html import escape

from drawing import OWN
from taxa import SAID, counted, in_words, shown

from .questions import ANSWERED, asked

CLASS_OF = {"=": "eq", ">": "in", "<": "by", "x": "ov", "!": "di"}
COLOURS = {"eq": "#26346f", "in": "#6cc3ae", "by": "#b99be6", "ov": "#c9502f", "di": "#f3f3f1", "open": "#ffe85c"}
SIGNS = {"=": "=", ">": "&gt;", "<": "&lt;", "x": "x", "!": "!"}


class Markup(str):
    """Text that is HTML already."""


def esc(text):
    return text if isinstance(text, Markup) else Markup(escape(str(text), quote=True))


def tag(name, *inside, **attributes):
    """An element. `class_` is its class; attributes that are None are left out."""
    words = "".join(f' {key.rstrip("_").replace("_", "-")}="{escape(str(value), quote=True)}"' for key, value in attributes.items() if value is not None)
    return Markup(f"<{name}{words}>{''.join(esc(part) for part in inside)}</{name}>")


def code(text):
    """A line of a problem file, which runs from left to right whatever names it has."""
    return tag("code", tag("bdi", text, dir="ltr"))


def lines(*parts):
    return Markup("\n".join(esc(part) for part in parts if part))


def sentence(text, **parts):
    """A text in which each {name} stands for a piece of HTML, and the rest is escaped."""
    return Markup(escape(text, quote=False).format(**{key: esc(value) for key, value in parts.items()}))


class Namer:
    """Names as the page shows them: the concept, and its taxonomy on that taxonomy's colour."""

    def __init__(self, problem):
        self.number = {taxonomy.name: k % len(OWN) for k, taxonomy in enumerate(problem.taxonomies)}
        self.problem = problem

    def taxonomy(self, name):
        return tag("span", tag("bdi", shown(name)), class_=f"tax t{self.number.get(name, 0)}")

    def concept(self, concept):
        return tag("span", tag("bdi", shown(concept.name), class_="cn"), " ", self.taxonomy(concept.taxonomy.name), class_="c")

    def full(self, full):
        concept = self.problem.find(full)
        return self.concept(concept) if concept else tag("bdi", full)


def badge(letters, place=None):
    """The letters of a pair, each with its colour; more than one is an open pair. With a place it leads to the pair in the matrix."""
    inside = [tag("b", Markup(SIGNS[letter]), class_=f"r {CLASS_OF[letter]}", title=SAID[letter]) for letter in letters]
    kind = "badge open" if len(letters) > 1 else "badge"
    if place is None:
        return tag("span", *inside, class_=kind)
    return tag("a", *inside, class_=kind, href="#matrix", data_place=place, title="show it in the matrix")


def words_of(letters, one, other):
    """`A equals or includes B`, with the names as HTML."""
    if letters == "x":
        return sentence("{one} and {other} overlap", one=one, other=other)
    return sentence("{one} {said} {other}", one=one, said=in_words(letters), other=other)


def question(letters, one, other):
    return sentence(asked(letters), a=one, b=other)


def answer(letter, one, other):
    return sentence(ANSWERED[letter], a=one, b=other)


def rows(head, body, class_=None, label=None):
    """A table; a cell of the body may be a pair of a class and what stands in it."""
    top = tag("thead", tag("tr", *[tag("th", cell, scope="col") for cell in head]))
    cell = lambda value: tag("td", value[1], class_=value[0]) if isinstance(value, tuple) else tag("td", value)
    inner = Markup("\n".join(tag("tr", *[cell(value) for value in row]) for row in body))
    return tag("div", tag("table", top, tag("tbody", inner), class_=class_, aria_label=label), class_="wide")


def folded(summary, *inside, open_=False):
    start = "<details open>" if open_ else "<details>"
    return Markup(f"{start}{tag('summary', summary)}{''.join(esc(part) for part in inside)}</details>")


def section(anchor, title, *inside):
    return Markup(f'<section id="{anchor}">\n{tag("h2", title)}\n{lines(*inside)}\n</section>')


def shown_of(shown, whole, what):
    """A line under a list that was cut; nothing where it is whole."""
    return tag("p", f"Shown are the first {shown:,} of {counted(whole, what)}.", class_="small") if shown < whole else None


def colour_rules():
    """The colours as rules of CSS. Letters on dark colours are white."""
    out = [f".t{k}{{background:{colour}}}" for k, colour in enumerate(OWN)]
    for name, colour in COLOURS.items():
        out.append(f".r.{name}{{background:{colour};color:{'#fff' if name in ('eq', 'ov') else '#111'}}}")
    return "\n".join(out)
