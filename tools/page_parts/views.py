"""The merged classifications: pictures where Graphviz is installed, and nested lists."""

import time

import drawing
from taxa import SAID, counted, shown_full

from .html import Markup, answer, folded, section, sentence, tag
from .sections import pair_names

MOST_BOXES, MOST_BYTES, SECONDS, MOST_DIFFERENCES, LONG = 160, 2_500_000, 30, 14, 60


class Pictures:
    """Pictures as long as there is room and time for them."""

    def __init__(self):
        self.there, self.end, self.bytes, self.missed = drawing.has_dot(), time.monotonic() + SECONDS, 0, 0

    def of(self, world, marked, label):
        left = self.end - time.monotonic()
        if not self.there or len(world["classes"]) > MOST_BOXES or left < 1 or self.bytes > MOST_BYTES:
            self.missed += self.there
            return None
        svg = drawing.picture(drawing.graph([world], 1, marked, shown_full), left)
        if svg is None:
            self.missed += 1
            return None
        svg = drawing.within_page(svg, label)
        self.bytes += len(svg)
        return tag("div", Markup(svg), class_="picture", tabindex="0")


class Nested:
    """The classes as a list within lists. A class under several others is written out under the first of them. In a long list what is
    under a class is folded, but for the way to what differs from the first world."""

    def __init__(self, world, namer, marked):
        self.world, self.namer, self.written = world, namer, set()
        self.children, self.above = {}, {}
        for low, high in world["under"]:
            self.children.setdefault(high, []).append(low)
            self.above.setdefault(low, []).append(high)
        self.marked = {k for k, names in enumerate(world["classes"], 1) if marked & set(names)}
        self.opened = set(self.marked)
        for k in list(self.opened):
            self.open_above(k)
        self.crossing = self.overlapping()

    def open_above(self, k):
        for up in self.above.get(k, []):
            if up not in self.opened:
                self.opened.add(up)
                self.open_above(up)

    def overlapping(self):
        place, out = drawing.places(self.world), {}
        for parts in self.world["splits"]:
            one, other = drawing.halves(parts, place)
            out.setdefault(place[one], []).append(other)
            out.setdefault(place[other], []).append(one)
        return out

    def item(self, k, depth):
        names = Markup(' <span class="same">=</span> '.join(self.namer.full(name) for name in self.world["classes"][k - 1]))
        names = tag("span", names, class_="differs") if k in self.marked else names
        over = Markup(", ".join(self.namer.full(name) for name in dict.fromkeys(self.crossing.get(k, []))))
        note = tag("span", " overlaps ", over, class_="small") if over else ""
        children = self.children.get(k, [])
        if k in self.written and children:
            return tag("li", names, note, tag("span", " (written out above)", class_="small"))
        self.written.add(k)
        below = tag("ul", *[self.item(child, depth + 1) for child in children]) if children else ""
        if below and depth and len(self.world["classes"]) > LONG:
            return tag("li", folded(Markup(names + note), below, open_=k in self.opened))
        return tag("li", names, note, below)

    def html(self):
        roots = [k for k in range(1, len(self.world["classes"]) + 1) if k not in self.above]
        return tag("ul", *[self.item(k, 0) for k in roots], class_="tree")


def differences(a, namer, view):
    """In words what a world has that the first has not."""
    places = sorted(view.differs, key=a.rank)
    first, world = a.worlds[0], a.worlds[view.number]
    items = []
    for place in places[:MOST_DIFFERENCES]:
        was = tag("span", f" (world 1: {SAID[first[place]]})", class_="small")
        items.append(tag("li", answer(world[place], *pair_names(a, namer, place)), was))
    more = len(places) - len(items)
    if more > 0:
        items.append(tag("li", f"and {counted(more, 'more pair')}"))
    return tag("p", f"Differs from world 1 in {counted(len(places), 'pair')}:") + tag("ul", *items, class_="plain")


def one_view(a, namer, view, pictures):
    marked = set()
    if 0 < len(view.differs) <= MOST_DIFFERENCES:
        marked = {concept.full for place in view.differs for concept in a.pairs.names(place)}
    picture = pictures.of(view.world, marked, f"merged classification of {view.title}")
    listed = Nested(view.world, namer, marked).html()
    inside = [tag("h3", view.title), Markup(differences(a, namer, view)) if view.differs else None]
    inside += [picture, folded("The same as a list", listed)] if picture else [listed]
    title = view.title
    return tag("div", *[part for part in inside if part], class_="view", data_title=title)


def introduction(a):
    framed = "; what differs from the first has a red frame"
    if len(a.views) == 1:
        return "There is one possible world." if a.complete and len(a.worlds) == 1 else "The first possible world."
    if len(a.groups) > 1:
        return f"For each question each of its answers, while the other questions have their first answer{framed}."
    if a.complete:
        return f"One world at a time{framed}."
    return f"Some of the worlds that were listed{framed}."


def merged(a, namer):
    if not a.views:
        return None
    pictures = Pictures()
    views = [one_view(a, namer, view, pictures) for view in a.views]
    choice = Markup(
        '<p class="script choice"><button type="button" id="before" aria-label="previous world">‹</button> '
        '<select id="world" aria-label="world"></select> <button type="button" id="after" aria-label="next world">›</button></p>'
    )
    keys = [tag("span", namer.taxonomy(t.name), " only here", class_="key") for t in a.problem.taxonomies]
    keys.append(tag("span", "thick frame: in several taxonomies", class_="key"))
    keys.append(tag("span", "dashed line: the two overlap", class_="key"))
    notes = [tag("p", introduction(a))]
    if pictures.bytes:
        notes.append(tag("p", *keys, class_="legend"))
    if not pictures.there:
        notes.append(tag("p", "Graphviz isn't installed (its program `dot`), so there are lists in place of pictures.", class_="small"))
    if pictures.missed:
        notes.append(tag("p", f"No picture was made of {counted(pictures.missed, 'world')}, which would be too large or take too long.", class_="small"))
    if len(a.views) < a.all_views:
        notes.append(tag("p", sentence("Shown are {n} of {m}.", n=len(a.views), m=f"{a.all_views:,}"), class_="small"))
    return section("merged", "Merged classification", *notes, choice if len(views) > 1 else None, *views)
