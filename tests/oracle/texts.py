"""The texts of problems and tokens, by docs/FORMATS.md: what they say, and their first faults."""

from oracle.model import CONVERSE, LETTERS, Problem

WORDS = {
    "equals": "=", "==": "=", "includes": ">", ">": ">", "is_included_in": "<", "<": "<",
    "overlaps": "x", "><": "x", "disjoint": "!", "!": "!",
}


class Fault(Exception):
    """The first fault of a text: its line and its kind."""


def is_number(word, low, high):
    # Python makes no numbers of thousands of digits
    is_decimal = word.isascii() and word.isdigit() and (word == "0" or word[0] != "0")
    return is_decimal and len(word) <= len(str(high)) and low <= int(word) <= high


# The problem text.


def tokens_of(line):
    out, word = [], ""
    for c in line + " ":
        if c in " \t()[]{}":
            if word:
                out.append(word)
            word = ""
            if c not in " \t":
                out.append(c)
        else:
            word += c
    return out


def is_word(token):
    return token not in ("(", ")", "[", "]", "{", "}")


def is_name(text):
    return 1 <= len(text.encode()) <= 128 and not any(ord(c) < 32 or ord(c) == 127 for c in text)


def cut_reference(word):
    if "." not in word:
        return None
    taxonomy, name = word.split(".", 1)
    return (taxonomy, name) if is_name(taxonomy) and is_name(name) else None


class Reader:
    """Reads a problem text line by line."""

    def __init__(self, switches):
        self.problem = Problem(switches)
        self.in_rows = False
        self.in_entries = False
        self.numbers = {}  # (taxonomy, name) -> place among that taxonomy's names
        self.rows = []  # for each taxonomy: names, parents, children, by place

    def taxonomy(self, tokens):
        if len(tokens) < 2 or not is_word(tokens[1]):
            return "BadLine"
        name = tokens[1]
        if not is_name(name) or "." in name:
            return "BadName"
        if name in self.problem.taxonomies:
            return "TaxonomyTwice"
        if len(self.problem.taxonomies) == 8:
            return "TaxonomyCount"
        self.problem.taxonomies.append(name)
        self.rows.append(([], [], []))
        self.in_rows, self.in_entries = True, False
        return None

    def row(self, tokens):
        if len(tokens) < 3 or tokens[-1] != ")" or not all(is_word(t) for t in tokens[1:-1]):
            return "BadLine"
        if not self.in_rows:
            return "RowOutsideTaxonomy"
        words = tokens[1:-1]
        if not all(is_name(w) for w in words):
            return "BadName"
        names, parents, children = self.rows[-1]
        limit = 1024 - sum(len(r[0]) for r in self.rows[:-1])
        top = None
        for k, word in enumerate(words):
            if word not in names and len(names) >= limit:
                return "TooManyConcepts"
            at = names.index(word) if word in names else None
            if k > 0 and at is not None:
                if parents[at] is not None and parents[at] != top:
                    return "TwoParents"
                if at in children[top]:
                    return "ChildTwice"
                up = top
                while up is not None:
                    if up == at:
                        return "Cycle"
                    up = parents[up]
            if at is None:
                names.append(word)
                parents.append(None)
                children.append([])
                at = len(names) - 1
            if k == 0:
                top = at
            else:
                parents[at] = top
                children[top].append(at)
        return None

    def find(self, reference):
        taxonomy, name = reference
        if taxonomy not in self.problem.taxonomies:
            return None
        t = self.problem.taxonomies.index(taxonomy)
        return (t, self.rows[t][0].index(name)) if name in self.rows[t][0] else None

    def entry(self, tokens):
        if len(tokens) >= 3 and is_word(tokens[1]) and tokens[2] == "sums":
            return self.sum_entry(tokens)
        if len(tokens) < 5 or tokens[-1] != "]" or not is_word(tokens[1]) or not is_word(tokens[-2]):
            return "BadLine"
        middle = tokens[2:-2]
        if len(middle) == 1 and is_word(middle[0]):
            words = middle
        elif len(middle) >= 2 and middle[0] == "{" and middle[-1] == "}" and all(is_word(t) for t in middle[1:-1]):
            words = middle[1:-1]
        else:
            return "BadLine"
        if not self.in_entries:
            return "ArticulationOutside"
        references = [cut_reference(tokens[1]), cut_reference(tokens[-2])]
        if None in references:
            return "BadName"
        if not words:
            return "EmptyBraces"
        if not all(w in WORDS for w in words):
            return "UnknownRelation"
        places = [self.find(r) for r in references]
        if None in places:
            return "UnknownConcept"
        if places[0][0] == places[1][0]:
            return "SameTaxonomy"
        if len(self.problem.articulations) == 4096:
            return "TooManyArticulations"
        letters = {WORDS[w] for w in words}
        left, right = places
        if left > right:
            left, right, letters = right, left, {CONVERSE[r] for r in letters}
        self.problem.articulations.append(["pair", left, right, letters])
        return None

    def sum_entry(self, tokens):
        parts = tokens[3:-1]
        if tokens[-1] != "]" or len(parts) < 2 or not all(is_word(t) for t in parts):
            return "BadLine"
        if not self.in_entries:
            return "ArticulationOutside"
        references = [cut_reference(w) for w in [tokens[1]] + parts]
        if None in references:
            return "BadName"
        places = [self.find(r) for r in references]
        if None in places:
            return "UnknownConcept"
        if any(p[0] == places[0][0] for p in places[1:]):
            return "SameTaxonomy"
        if len(set(places[1:])) < len(places) - 1:
            return "PartTwice"
        if len(self.problem.articulations) == 4096:
            return "TooManyArticulations"
        self.problem.articulations.append(["sum", places[0], places[1:]])
        return None

    def line(self, text):
        if text.endswith("\r"):
            text = text[:-1]
        tokens = tokens_of(text.split("#", 1)[0])
        if not tokens:
            return None
        if tokens[0] == "taxonomy":
            return self.taxonomy(tokens)
        if tokens[0] in ("articulation", "articulations"):
            self.in_rows, self.in_entries = False, True
            return None
        if tokens[0] == "(":
            return self.row(tokens)
        if tokens[0] == "[":
            return self.entry(tokens)
        return "BadLine"

    def whole(self):
        p = self.problem
        base = []
        for t, (names, parents, children) in enumerate(self.rows):
            start = len(p.names)
            base.append(start)
            p.names += names
            p.owners += [t] * len(names)
            p.parents += [None if x is None else start + x for x in parents]
            p.children += [[start + x for x in kids] for kids in children]
        number = lambda place: base[place[0]] + place[1]
        p.articulations = [
            ("pair", number(a[1]), number(a[2]), a[3]) if a[0] == "pair" else ("sum", number(a[1]), [number(x) for x in a[2]])
            for a in p.articulations
        ]
        return p


def read_problem(data, switches):
    if len(data) > 1048576:
        raise Fault(0, "TooLong")
    try:
        data.decode("utf-8")
    except UnicodeDecodeError as error:
        raise Fault(data[: error.start].count(b"\n") + 1, "NotUtf8")
    if data.startswith(b"\xef\xbb\xbf"):
        data = data[3:]
    reader = Reader(switches)
    lines = data.decode("utf-8").split("\n")
    if lines[-1] == "":
        lines.pop()
    for number, text in enumerate(lines, 1):
        kind = reader.line(text)
        if kind:
            raise Fault(number, kind)
    if len(reader.problem.taxonomies) < 2:
        raise Fault(0, "TaxonomyCount")
    return reader.whole()


# Tokens.


def print_token(problem, position):
    return f"token 2 {len(problem.taxonomies)} {len(problem.pairs)} {problem.digest()} {position or '.'}\n"


def read_token(problem, data):
    """A position, or the kind of fault."""
    if len(data) > 1048576 or not data.endswith(b"\n"):
        return None, "BadToken"
    words = data[:-1].decode("latin-1").split(" ")
    old = len(words) == 4 and words[:2] == ["token", "1"]
    new = (
        len(words) == 6
        and words[:2] == ["token", "2"]
        and is_number(words[2], 2, 8)
        and is_number(words[3], 0, 523776)
    )
    if not (old or new) or "\n" in data[:-1].decode("latin-1"):
        return None, "BadToken"
    digest, position = words[-2], words[-1]
    if len(digest) != 64 or any(c not in "0123456789abcdef" for c in digest) or not position:
        return None, "BadToken"
    if digest != problem.digest():
        return None, "OtherProblem"
    if new and (int(words[2]) != len(problem.taxonomies) or int(words[3]) != len(problem.pairs)):
        return None, "OtherProblem"
    if old and len(problem.taxonomies) > 2:
        return None, "OtherProblem"
    if position == ".":
        return "", None
    if len(position) > len(problem.pairs) or any(c not in LETTERS for c in position):
        return None, "BadPosition"
    return position, None
