"""Problem files: made from taxonomies and statements, and read where the program has accepted them."""

import os
import re
import sys

import meanings
import statements as said
from tables import Fault, Layout, counted

MOST_TAXONOMIES, MOST_CONCEPTS, MOST_STATEMENTS, MOST_BYTES = 8, 1024, 4096, 1048576


class Options:
    """What the caller says, and what is to be told beside the problem."""

    def __init__(self, tool, words, taxonomies):
        self.tool, self.notes, self.left_out = tool, [], {}
        given = lambda name, usual: getattr(words, name, usual)
        self.layout, self.separators = Layout(), separators_of(given("path_separator", None) or [], taxonomies)
        self.apart, self.loose, self.remarks = given("apart", False), given("loose", False), not given("no_comments", False)
        self.meanings = meanings.meanings_with(given("predicate", None) or [])
        # for a taxonomy the concepts that are taken, with what is below them
        self.under = of_taxonomies(given("under", None), "--under", "NAME:CONCEPT", taxonomies)

    def separator(self, taxonomy):
        """What stands between the names of a path in the table of a taxonomy, and whether the caller said so."""
        said = self.separators.get(taxonomy, self.separators.get(None))
        return said or ">", said is not None

    def tell(self, note):
        self.notes.append(note)

    def leave_out(self, predicate):
        self.left_out[predicate] = self.left_out.get(predicate, 0) + 1

    def print_notes(self):
        for predicate, count in sorted(self.left_out.items()):
            self.tell(f"{counted(count, 'statement')} left out for {predicate}" + ("" if predicate == said.NO_TERM else "; --predicate gives it a meaning"))
        for note in self.notes:
            print(f"{self.tool}: note: {note}", file=sys.stderr)


def of_taxonomies(words, key, form, taxonomies):
    """For each taxonomy what stands behind its name and a colon in the words of a key."""
    out = {}
    for word in words or []:
        name, _, rest = word.partition(":")
        if name not in taxonomies or not rest:
            raise Fault(f"{key}: {word!r} is not {form} with one of the taxonomies {', '.join(taxonomies)}")
        out.setdefault(name, []).append(rest)
    return out


def separators_of(words, taxonomies):
    """What --path-separator says: TEXT for all tables, or NAME:TEXT for that of one taxonomy."""
    out = {}
    for word in words:
        name, _, text = word.partition(":")
        if name in taxonomies and text:
            out[name] = text
        else:
            out[None] = word
    if "" in out.values():
        raise Fault("--path-separator: something must stand between the names of a path")
    return out


def add_words(parser):
    """The words that tools which make problems have in common."""
    meaning = "what a predicate of mappings says; with nothing behind =, such mappings are left out"
    parser.add_argument("--predicate", action="append", metavar="X=RELATIONS", help=meaning)
    parser.add_argument("--under", action="append", metavar="NAME:CONCEPT", help="of this taxonomy take only this concept and what is below it")
    parser.add_argument("--unstated", choices=["disjoint"], help="take for disjoint what nothing is said of, above and below included")
    parser.add_argument("--names", metavar="FILE", help="write a table of the names here: as they are written, as they were, and their ids")
    parser.add_argument("--no-comments", action="store_true", help="leave out the comments that say where a statement comes from")


def text_of(taxonomies, statements, unstated, options):
    """The text of a problem, within the program's limits."""
    for k, taxonomy in enumerate(taxonomies):
        for earlier in taxonomies[:k]:
            if taxonomy.name == earlier.name:
                raise Fault(f"there are two tables for the taxonomy {taxonomy.text}")
    count = sum(len(taxonomy.children) for taxonomy in taxonomies)
    if count > MOST_CONCEPTS:
        raise Fault(f"there are {count} concepts; a problem has at most {MOST_CONCEPTS}; --under NAME:CONCEPT takes a part of a taxonomy")
    added = []
    if unstated:
        added, pairs = said.unstated(taxonomies, statements)
        why = f"{pairs} pairs are put apart by that" if pairs else "something is said of each pair, or of what is above or below it, as of the roots"
        options.tell(f"{counted(len(added), 'statement')} added for what nothing is said of; {why}")
    if len(statements) + len(added) > MOST_STATEMENTS:
        more = f" and {len(added)} for what is unstated" if added else ""
        raise Fault(f"there are {len(statements)} statements{more}; a problem has at most {MOST_STATEMENTS}")
    lines = [line for taxonomy in taxonomies for line in taxonomy.lines()] + ["articulation"]
    lines += [statement.line() for statement in statements + added]
    text = "".join(line + "\n" for line in lines)
    if len(text.encode()) > MOST_BYTES:
        raise Fault(f"the problem file would have more than {MOST_BYTES} bytes; --no-comments makes it shorter")
    return text


def put(text):
    """Puts the text on standard output; whoever reads it may have enough before its end."""
    try:
        sys.stdout.buffer.write(text.encode())
        sys.stdout.flush()
    except BrokenPipeError:
        os.dup2(os.open(os.devnull, os.O_WRONLY), sys.stdout.fileno())


def taxonomy_words(words, parser):
    """What stands as NAME=FILE, and the files of statements, which are called mappings too; the parser tells what is wrong."""
    tables, files = [], []
    for word in words:
        name, equals, file = word.partition("=")
        if not equals or not file or not name:
            parser.error(f"{word!r} is not NAME=FILE; write the name of the taxonomy and = before the file")
        if name not in ("statements", "mappings"):
            tables.append((name, file))
        else:
            files.append(file)
    if not 2 <= len(tables) <= MOST_TAXONOMIES:
        parser.error(f"a problem has two to eight taxonomies; these are {len(tables)}")
    return tables, files


class Problem:
    """The names of the taxonomies, and the statements on two concepts: from both names to their relations."""

    def __init__(self, taxonomies, stated):
        self.taxonomies, self.stated = taxonomies, stated


def read_problem(file):
    """A problem that the program accepts; of one that it refuses this tells little."""
    try:
        with open(file, encoding="utf-8-sig", newline="\n") as opened:
            lines = opened.read().split("\n")
    except (OSError, UnicodeDecodeError) as error:
        raise Fault(f"{file}: this problem can't be read: {getattr(error, 'strerror', None) or error}")
    taxonomies, stated = [], {}
    for line in lines:
        words = re.findall(r"[\[\]{}()]|[^\s\[\]{}()]+", line.split("#", 1)[0])
        if words[:1] == ["taxonomy"] and len(words) > 1:
            taxonomies.append(words[1])
        elif words[:1] == ["["] and len(words) > 4 and words[2] != "sums":
            relations = [meanings.WORDS.get(word) for word in words[2:-2] if word not in "{}"]
            if None not in relations:
                add_stated(stated, words[1], set(relations), words[-2])
    return Problem(taxonomies, stated)


def add_stated(stated, left, relations, right):
    """All statements on a pair hold, so what they say together is what they have in common."""
    turned = {"includes": "is_included_in", "is_included_in": "includes"}
    stated[left, right] = stated.get((left, right), set(meanings.ALL)) & relations
    other = {turned.get(relation, relation) for relation in relations}
    stated[right, left] = stated.get((right, left), set(meanings.ALL)) & other
