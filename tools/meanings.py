"""What words say of two concepts: the program's own words, and the predicates of mappings (SKOS, OWL, SSSOM)."""

import re

from tables import Fault

ALL = ["equals", "includes", "is_included_in", "overlaps", "disjoint"]
LETTERS = dict(zip("=><x!", ALL))
# as people and other programs say it
PHRASES = [
    ("is properly included in", "is_included_in"),
    ("is included in", "is_included_in"),
    ("included in", "is_included_in"),
    ("properly includes", "includes"),
    ("is congruent with", "equals"),
    ("is congruent to", "equals"),
    ("congruent", "equals"),
    ("is equal to", "equals"),
    ("is disjoint from", "disjoint"),
    ("excludes", "disjoint"),
    ("overlaps with", "overlaps"),
]
MORE_WORDS = {"=": "equals", "x": "overlaps"}
WORDS = {**{word: word for word in ALL}, "==": "equals", ">": "includes", "<": "is_included_in", "><": "overlaps", "!": "disjoint"}
PREFIXES = {
    "http://www.w3.org/2004/02/skos/core#": "skos:",
    "http://www.w3.org/2002/07/owl#": "owl:",
    "http://www.w3.org/2000/01/rdf-schema#": "rdfs:",
    "https://w3id.org/sssom/": "sssom:",
    "http://w3id.org/sssom/": "sssom:",
}
# an empty list: statements with this predicate are left out, since it says too little
MEANINGS = {
    "owl:equivalentClass": ["equals"],
    "skos:exactMatch": ["equals"],
    "rdfs:subClassOf": ["equals", "is_included_in"],
    "sssom:superClassOf": ["equals", "includes"],
    "skos:broadMatch": ["is_included_in"],
    "skos:narrowMatch": ["includes"],
    "owl:disjointWith": ["disjoint"],
    "skos:closeMatch": [],
    "skos:relatedMatch": [],
}
# by which predicate a mapping is written that has just this relation; not disjointness, of which there would be a row for most pairs
PREDICATES = {"equals": "skos:exactMatch", "includes": "skos:narrowMatch", "is_included_in": "skos:broadMatch"}


def short(predicate):
    """A predicate as prefix and name, also where it is written as an address."""
    bare = predicate.strip().strip("<>")
    for address, prefix in PREFIXES.items():
        if bare.startswith(address):
            return prefix + bare[len(address) :]
    return bare


def relations_of(text):
    """The relations that words stand for, each once and as they come; a word that is none is a fault."""
    marks = " ".join(text.replace("{", " ").replace("}", " ").replace(",", " ").split()).lower()
    for phrase, word in PHRASES:
        marks = re.sub(rf"\b{phrase}\b", word, marks)
    words = [word for word in marks.split() if word != "or"]
    known = {**WORDS, **MORE_WORDS}
    for word in words:
        if word not in known:
            raise Fault(f"{word!r} is no relation; write equals, includes, is_included_in, overlaps, disjoint or sums")
    return list(dict.fromkeys(known[word] for word in words))


def meanings_with(changes):
    """The table of meanings with what the caller says, each as `PREDICATE=RELATIONS`."""
    table = dict(MEANINGS)
    for change in changes:
        predicate, relations = change_of(change)
        table[short(predicate)] = relations
    return table


def change_of(change):
    """The two sides of `PREDICATE=RELATIONS`; the predicate may be words of somebody's own that have a `=` too, like `= or <`."""
    fault = Fault(f"{change!r} is not PREDICATE=RELATIONS")
    for at in [at for at, letter in enumerate(change) if letter == "=" and change[:at].strip()]:
        try:
            return change[:at], relations_of(change[at + 1 :])
        except Fault as found:
            fault = found
    raise fault


def in_words(relations):
    return " or ".join(word.replace("_", " ") for word in relations)
