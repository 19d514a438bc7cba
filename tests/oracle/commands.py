"""The commands, as docs/FORMATS.md has them: a row for each. A command is added here and nowhere else."""

import re

SWITCHES = ["nonempty", "sibling", "coverage"]
KINDS = ["count", "tally", "seen", "merge", "json"]

# what the value of a key is: a switch, the name of a file, names of files, names of reports, any text, letters of relations, a limit, or a
# number from the least to the most by steps
LIMIT = (0, 2**64 - 1, 1)
MOST_PARTS = 5000
KEYS = {
    **{key: "switch" for key in SWITCHES},
    **{key: "file" for key in ("in", "cert", "token", "resume", "until", "script")},
    "certs": "files",
    "kinds": "reports",
    "left": "text",
    "right": "text",
    "set": "letters",
    "nodes": "limit",
    "worlds": "limit",
    "seed": LIMIT,
    "size": (14, 256, 2),
    "count": (1, 1000, 1),
}


class Row:
    """A command: the keys that must be given, those that may be, and of these the ones whose file it reads and writes."""

    def __init__(self, required, optional, reads, writes):
        self.required, self.optional = required.split(), optional.split()
        self.reads, self.writes = reads.split(), writes.split()


ROWS = {
    "align": Row("in", "cert nonempty sibling coverage nodes worlds token resume", "in resume", "cert token"),
    "check": Row("in cert", "nonempty sibling coverage", "in cert", ""),
    "mir": Row("in", "cert nonempty sibling coverage", "in", "cert"),
    "conflict": Row("in", "cert nonempty sibling coverage", "in", "cert"),
    "lattice": Row("in", "cert nonempty sibling coverage", "in", "cert"),
    "explain": Row("in left right set", "nonempty sibling coverage", "in", ""),
    "report": Row("in kinds", "nonempty sibling coverage", "in", ""),
    "parts": Row("in count token", "nonempty sibling coverage", "in", ""),
    "part": Row("in cert", "nonempty sibling coverage resume until", "in resume until", "cert"),
    "join": Row("in certs", "nonempty sibling coverage", "in certs", ""),
    "trial": Row("seed size", "", "", ""),
}

# the program of the desk has no commands: all its words are operands
DESK = Row("in script", "nonempty sibling coverage", "in script", "")
NONE = Row("", "", "", "")


def row_of(words):
    """The row of the command of words; an empty one where the first is none."""
    return ROWS.get(words[0], NONE) if words else NONE


def values_of(words):
    """The values of the keys of words."""
    return dict(word.split("=", 1) for word in words[1:] if "=" in word)


def names_in(key, value):
    """The names of files that the value of a key gives."""
    return {"file": [value], "files": value.split(",")}.get(KEYS.get(key), [])


def files_read(words):
    """The names of the files that a request reads."""
    values = values_of(words)
    return [name for key in row_of(words).reads if key in values for name in names_in(key, values[key])]


def files_written(words):
    """The names of the files that it may write. Those of the tokens of parts are numbered, at most five times as many as are asked for."""
    values = values_of(words)
    if words[:1] == ["parts"]:
        count = values.get("count", "")
        most = 5 * int(count) if re.fullmatch("[1-9][0-9]{0,3}", count) else 0
        return [f"{values.get('token', '')}{number}" for number in range(1, min(most, MOST_PARTS) + 1)]
    return [values[key] for key in row_of(words).writes if key in values]
