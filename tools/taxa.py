"""What the tools have in common: problem files as they are written, relations in words.

A file is read leniently here, line by line: what the program would refuse is kept with what is wrong with it, so that a tool can tell of
all of it at once.
"""

import difflib
import re
import sys

import names
from tables import Fault

LETTERS = "=><x!"
WORD_OF = {"=": "equals", ">": "includes", "<": "is_included_in", "x": "overlaps", "!": "disjoint"}
SAID = {"=": "equals", ">": "includes", "<": "is included in", "x": "overlaps", "!": "is disjoint from"}
CONVERSE = {"=": "=", ">": "<", "<": ">", "x": "x", "!": "!"}
LETTER_OF = {word: letter for letter, word in WORD_OF.items()}
LETTER_OF.update({"==": "=", ">": ">", "<": "<", "><": "x", "!": "!"})
SWITCHES = {
    "nonempty": "no concept is empty",
    "sibling": "two children of one parent have nothing in common",
    "coverage": "everything in a parent is in one of its children",
}


class Concept:
    def __init__(self, taxonomy, name, line):
        self.taxonomy, self.name, self.line = taxonomy, name, line
        self.parent, self.children = None, []

    @property
    def full(self):
        return f"{self.taxonomy.name}.{self.name}"

    def line_of_parents(self):
        """It and all that it stands under."""
        out = [self]
        while out[-1].parent is not None:
            out.append(out[-1].parent)
        return out

    def below(self):
        """All that stands under it, nearest first."""
        out = list(self.children)
        for concept in out:
            out += concept.children
        return out


class Taxonomy:
    def __init__(self, name, title, line):
        self.name, self.title, self.line, self.concepts = name, title, line, {}

    def concept(self, name, line):
        if name not in self.concepts:
            self.concepts[name] = Concept(self, name, line)
        return self.concepts[name]

    @property
    def roots(self):
        return [concept for concept in self.concepts.values() if concept.parent is None]


class Statement:
    """A line of the statements: `left` and `rights` are names as written, `letters` the relations, or None where it is a sum."""

    def __init__(self, number, line, text, remark, words):
        self.number, self.line, self.text, self.remark = number, line, text, remark
        self.left, self.is_sum = words[0], words[1] == "sums"
        self.rights = words[2:] if self.is_sum else words[-1:]
        chosen = [LETTER_OF[word] for word in words[1:-1] if word not in "{}"] if not self.is_sum else []
        self.letters = None if self.is_sum else "".join(letter for letter in LETTERS if letter in chosen)

    @property
    def names(self):
        return [self.left] + self.rights

    def pair(self):
        return None if self.is_sum else (self.left, self.rights[0])


class Problem:
    def __init__(self, path):
        self.path, self.taxonomies, self.statements, self.articulations_line = path, [], [], None
        self.faults = []  # a line and what is wrong with it, where the program would refuse it
        try:
            with open(path, "rb") as file:
                data = file.read()
        except OSError as error:
            raise Fault(f"{path}: {error.strerror}")
        try:
            self.text = data.decode("utf-8-sig")
        except UnicodeDecodeError as error:
            raise Fault(f"{path}:{data[: error.start].count(10) + 1}: these bytes are not UTF-8; save the file as UTF-8")
        for number, line in enumerate(self.text.split("\n"), 1):
            said, mark, remark = line.partition("#")
            self.read_line(number, said.strip(" \t\r"), remark.strip() if mark else "")

    def read_line(self, number, said, remark):
        words = re.findall(r"[()\[\]{}]|[^ \t\r()\[\]{}]+", said)
        if not words:
            return
        if words[0] == "taxonomy" and len(words) > 1 and self.taxonomy(words[1]) is None:
            self.taxonomies.append(Taxonomy(words[1], said.split(None, 2)[2] if len(said.split(None, 2)) > 2 else "", number))
        elif words[0] in ("articulation", "articulations"):
            self.articulations_line = number
        elif words[0] == "(" and words[-1] == ")" and len(words) > 2 and self.taxonomies:
            self.read_row(number, words[1:-1])
        elif words[0] == "[" and words[-1] == "]" and is_entry(words[1:-1]):
            self.statements.append(Statement(len(self.statements) + 1, number, said, remark, words[1:-1]))
        else:
            self.faults.append((number, f"this line has no form that I know: {said[:60]}"))

    def read_row(self, number, names):
        taxonomy = self.taxonomies[-1]
        above, *below = [taxonomy.concept(name, number) for name in names]
        for child in below:
            if child.parent is not None:
                twice = "stands here twice" if child.parent is above else f"has another parent already, {child.parent.name}"
                self.faults.append((number, f"{child.full} {twice} (a space ends a name)"))
            elif child in above.line_of_parents():
                self.faults.append((number, f"{child.full} would stand under itself"))
            else:
                child.parent = above
                above.children.append(child)

    def taxonomy(self, name):
        return next((taxonomy for taxonomy in self.taxonomies if taxonomy.name == name), None)

    @property
    def concepts(self):
        """In the order in which the program counts them."""
        return [concept for taxonomy in self.taxonomies for concept in taxonomy.concepts.values()]

    def find(self, full):
        owner, dot, name = full.partition(".")
        taxonomy = self.taxonomy(owner)
        return taxonomy.concepts.get(name) if taxonomy and dot else None

    def beside(self, dropped, added=()):
        """The text without the statements of these numbers, and with others behind it."""
        gone = {statement.line for statement in self.statements if statement.number in dropped}
        lines = ["" if number in gone else line for number, line in enumerate(self.text.split("\n"), 1)]
        begin = [] if self.articulations_line else ["articulation"]
        return "\n".join(lines + begin + list(added)) + "\n"


def is_entry(words):
    if len(words) < 3:
        return False
    if words[1] == "sums":
        return len(words) > 3 and not set("{}()[]") & set(words)
    middle = words[1:-1]
    if len(middle) > 2 and middle[0] == "{" and middle[-1] == "}":
        middle = middle[1:-1]
    elif len(middle) != 1:
        return False
    return all(word in LETTER_OF for word in middle)


def entry(left, letters, right):
    """The statement that a pair has one of these relations."""
    words = [WORD_OF[letter] for letter in LETTERS if letter in letters]
    return f"[{left} {words[0] if len(words) == 1 else '{' + ' '.join(words) + '}'} {right}]"


def nearest(name, names):
    """The names that it may be meant for; letters' case, and what parts words, count little."""
    plain = {}
    for other in names:
        plain.setdefault(other.casefold().replace("-", "_"), other)
    found = difflib.get_close_matches(name.casefold().replace("-", "_").rstrip(",;"), plain, n=3, cutoff=0.7)
    return [plain[key] for key in found]


def unknown_name(problem, full):
    """What to say of a name that no row has."""
    owner, dot, name = full.partition(".")
    if not dot:
        homes = [t.name for t in problem.taxonomies if full in t.concepts]
        return f"{full} names no taxonomy; write {joined([f'{home}.{full}' for home in homes]) if homes else 'TAXONOMY.' + full}"
    taxonomy = problem.taxonomy(owner)
    if taxonomy is None:
        names = [t.name for t in problem.taxonomies]
        near = [t.name for t in problem.taxonomies if name in t.concepts] or nearest(owner, names) or names
        return f"there is no taxonomy {owner}, in {full}" + (f"; is it {joined(near)}?" if near else "")
    near = [f"{owner}.{other}" for other in nearest(name, taxonomy.concepts)]
    near += [f"{t.name}.{name}" for t in problem.taxonomies if name in t.concepts]
    return f"no row has {full}" + (f"; is it {joined(near)}?" if near else f", and {owner} has no name like it")


def joined(words, last="or"):
    words = list(words)
    return words[0] if len(words) == 1 else f"{', '.join(words[:-1])} {last} {words[-1]}"


def in_words(letters):
    """Relations as a sentence has them: `equals or includes`."""
    if len(letters) == len(LETTERS):
        return "may have any relation to"
    return joined([SAID[letter] for letter in LETTERS if letter in letters]) if letters else "can have no relation to"


def shown(name):
    """A name as people read it, where that can be shown."""
    text = names.undone(name)
    return text if text.isprintable() and text.strip() else name


def shown_full(full):
    owner, _, name = full.partition(".")
    return f"{shown(owner)}.{shown(name)}"


def counted(number, word, plural=None):
    return f"{number:,} {word if number == 1 else plural or word + 's'}"


def complain(tool, fault):
    print(f"{tool}: {fault}", file=sys.stderr)
    return 1
