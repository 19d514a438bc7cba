"""Parts of a listing and their join, by the definitions: what docs/FORMATS.md says of `parts`, `part` and `join`, for a problem of a few
concepts."""

import collections

from oracle import certificates, model
from oracle.texts import read_token

MOST_RELATIONS = 16

# what a certificate lists: the worlds from a position on and below another, or to the end of all where that is None
Part = collections.namedtuple("Part", "start end worlds")


def is_below(position, end):
    """Whether a position comes before an end; None is the end of all."""
    return end is None or model.rank(position) < model.rank(end)


# Where parts begin.


def levels(problem):
    """The nodes of each length, ascending: the empty position, and what is an alive node and a relation that its next pair allows."""
    nodes = [""]
    yield nodes
    for letters in problem.allowed[:MOST_RELATIONS]:
        nodes = [node + r for node in nodes if problem.is_alive(node) for r in model.LETTERS if r in letters]
        yield nodes


def beginnings(problem, count):
    """The empty position, and but for the first the nodes of the least length of which there are so many, or else of the last."""
    for nodes in levels(problem):
        if len(nodes) >= count:
            break
    return [""] + nodes[1:]


def parts_lines(positions):
    return [f"part {number} {position or '.'}" for number, position in enumerate(positions, 1)] + [f"parts {len(positions)}"]


# One part.


def listing(problem, start, end):
    """The worlds from a position on and below an end."""
    return [world for world in problem.worlds() if not is_below(world, start) and is_below(world, end)]


def node_at(problem, end):
    """The least node that isn't below an end, which the certificate of a part names; None where there is none."""
    return None if end is None else next((node for node, _ in problem.nodes_from(end)), None)


def part_answer(problem, start, end):
    """The exit code and the lines of a part."""
    if end is not None and not is_below(start, end):
        return 15, ["empty part"]
    worlds = listing(problem, start, end)
    return 0, worlds + [f"part {len(worlds)}"]


def part_by_tokens(problem, beginning, ending):
    """The same of a part whose ends are told by the bytes of tokens, of which that of the beginning is judged first."""
    (start, kind), (end, other) = (read_token(problem, token) for token in (beginning, ending))
    return (7, [f"token {kind or other}"]) if kind or other else part_answer(problem, start, end)


# The join.


def checked(problem, data):
    """What certificates.py says of bytes, looked at once."""
    known = problem.__dict__.setdefault("checked", {})
    if data not in known:
        known[data] = certificates.check(problem, data)
    return known[data]


def part_of(problem, data):
    """The part that bytes are a certificate of, or else the line and the kind of their fault."""
    code, text = checked(problem, data)
    first, *rows = text.split("\n")[:-1]
    if code != 0:
        return None, first.split(" ", 1)[1]
    if not first.startswith("from "):
        return None, "1 BadLine"
    *worlds, last, _ = rows
    start, end = first[len("from ") :].replace(".", ""), last[len("to ") :].replace(".", "")
    return Part(start, None if end == "-" else end, worlds), None


def covers(part, position):
    return not is_below(position, part.start) and is_below(position, part.end)


def first_gap(parts):
    """The first position that no part covers, which is the front or the end of a part, and the least beginning behind it, or None; None
    where all is covered."""
    ends = [""] + [part.end for part in parts if part.end is not None]
    start = min((end for end in ends if not any(covers(part, end) for part in parts)), key=model.rank, default=None)
    if start is None:
        return None
    return start, min((part.start for part in parts if is_below(start, part.start)), key=model.rank, default=None)


def join_answer(problem, files):
    """The exit code and the lines of a join of files."""
    parts = []
    for number, data in enumerate(files, 1):
        part, fault = part_of(problem, data)
        if fault:
            return 16, [f"refused part {number} {fault}"]
        parts.append(part)
    gap = first_gap(parts)
    if gap:
        start, end = gap
        return 17, [f"gap {start or '.'} {end or '-'}"]
    worlds = problem.worlds()
    return 0 if worlds else 6, worlds + [f"joined {len(worlds)}"]
