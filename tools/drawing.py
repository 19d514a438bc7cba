"""A merged classification as a graph for Graphviz, shared by tools/draw and tools/page."""

import re
import shutil
import subprocess

from taxa import Fault

# Of what one taxonomy alone names: any two differ for each kind of colour-blindness (tools/test_page.py measures it), the first ones most,
# and black letters are read on all of them.
OWN = ["#f6c667", "#9fd0f5", "#e87088", "#a088e8", "#e8e8d0", "#b88840", "#40a0b8", "#a0b8b8"]
SHARED, DIFFERENT, DASHED = "#ffffff", "#b3001e", "#c4400a"
TALL = 30  # boxes beside each other get too wide for a screen beyond this many, so a picture is drawn from left to right then


def halves(parts, place):
    """The two names of a split, from the names of its parts: X*Y, X\\Y and Y\\X."""
    both, left, right = parts
    for at, letter in enumerate(both):
        x, y = both[:at], both[at + 1 :]
        if letter == "*" and x in place and y in place and left == f"{x}\\{y}" and right == f"{y}\\{x}":
            return x, y
    raise Fault(f"the split {both} is of no two names of the world")


def places(world):
    return {name: k for k, names in enumerate(world["classes"], 1) for name in names}


def overlaps(world):
    """The classes that overlap, as pairs of numbers, each pair once."""
    place, joined = places(world), []
    for parts in world["splits"]:
        ends = sorted(place[name] for name in halves(parts, place))
        if ends not in joined:
            joined.append(ends)
    return joined


def taxonomies_of(worlds):
    """The taxonomies that the names have, in their order; a name is cut at its first full stop."""
    names = [name.split(".", 1)[0] for world in worlds for names in world["classes"] for name in names]
    return list(dict.fromkeys(names))


def quoted(text):
    return '"' + text.replace("\\", "\\\\").replace('"', '\\"') + '"'


def box(names, taxonomies, marked, said):
    # in a label, a backslash and the letter n begin a new line, and what stands behind an ampersand may be the name of a letter
    label = "\\n".join(name.replace("&", "&amp;").replace("\\", "\\\\").replace('"', '\\"') for name in map(said, names))
    owners = list(dict.fromkeys(name.split(".", 1)[0] for name in names))
    shared = len(owners) > 1
    fill = SHARED if shared else OWN[taxonomies.index(owners[0]) % len(OWN)]
    more = ", penwidth=2" if shared else ""
    if marked:
        more = f', color="{DIFFERENT}", penwidth=3'
    return f'label="{label}", fillcolor="{fill}"{more}'


def world_lines(world, number, indent, taxonomies, marked=(), said=str):
    """The boxes, arrows and dashed lines of a world; `marked` are the names whose boxes stand out, `said` is how a name is written."""
    node = lambda k: f"w{number}c{k}"
    out = [
        f"{indent}{node(k)} [{box(names, taxonomies, any(name in marked for name in names), said)}];"
        for k, names in enumerate(world["classes"], 1)
    ]
    out += [f"{indent}{node(a)} -> {node(b)};" for a, b in world["under"]]
    style = f'[style=dashed, dir=none, constraint=false, color="{DASHED}", penwidth=1.5]'
    return out + [f"{indent}{node(a)} -> {node(b)} {style};" for a, b in overlaps(world)]


def is_tall(worlds):
    return any(len(world["classes"]) > TALL for world in worlds)


def head(tall):
    """The first lines of a graph. Lines are drawn after boxes, so that a dashed one is seen where it crosses a box."""
    return [
        "digraph merged {",
        f"  rankdir={'RL' if tall else 'BT'}; outputorder=nodesfirst; nodesep={'0.08' if tall else '0.25'}; ranksep=0.5;",
        f'  node [shape=box, style=filled, fontname="Helvetica", fontsize=12, height={"0.3" if tall else "0.4"}, margin="0.12,0.05"];',
        '  edge [color="#555555", arrowsize=0.7];',
    ]


def graph(worlds, only=None, marked=(), said=str):
    """All of these worlds, each in a frame, or one of them alone."""
    if not worlds:
        raise Fault("no world to draw: give the output of `report in=FILE kinds=json`")
    if only is not None and not 1 <= only <= len(worlds):
        raise Fault(f"there is no world {only}: there are {len(worlds)}")
    drawn = worlds if only is None else [worlds[only - 1]]
    taxonomies, out = taxonomies_of(drawn), head(is_tall(drawn))
    frame = f'labelloc={"t" if is_tall(drawn) else "b"}; fontname="Helvetica";'
    for number, world in enumerate(worlds, 1):
        if only == number:
            out += world_lines(world, number, "  ", taxonomies, marked, said)
        elif only is None:
            out += [f"  subgraph cluster_{number} {{", f"    label={quoted(f'world {number}')}; {frame}"]
            out += world_lines(world, number, "    ", taxonomies, marked, said) + ["  }"]
    return "".join(line + "\n" for line in out + ["}"])


def has_dot():
    return shutil.which("dot") is not None


def picture(text, seconds=60):
    """The SVG of a graph, as `dot` writes it; None where it takes too long."""
    try:
        done = subprocess.run(["dot", "-Tsvg"], input=text.encode(), capture_output=True, check=False, timeout=seconds)
    except subprocess.TimeoutExpired:
        return None
    if done.returncode != 0:
        raise Fault(f"`dot` ended with status {done.returncode}: {done.stderr.decode(errors='replace').strip()}")
    return done.stdout.decode()


def within_page(svg, label):
    """An SVG as it may stand within HTML: without its own head, and without the ids and titles that only name boxes of the graph."""
    svg = svg[svg.index("<svg") :]
    svg = re.sub(r"<!--.*?-->|<title>.*?</title>", "", svg, flags=re.S)
    svg = re.sub(r' (id|class)="[^"]*"', "", svg)
    svg = re.sub(r'(width|height)="(\d+)pt"', r'\1="\2"', svg, count=2)
    svg = re.sub(r"\n+", "\n", svg)
    return svg.replace("<svg", f'<svg role="img" aria-label="{label}"', 1)
