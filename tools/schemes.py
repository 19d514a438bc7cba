"""SKOS concept schemes: their concepts, how these are called, and what each stands under."""

import unicodedata

import rdf_files
import taxonomies as trees
from tables import Fault

SKOS = "http://www.w3.org/2004/02/skos/core#"


def tag_of(label):
    return (getattr(label, "language", None) or "").lower()


def end_of(address):
    return str(address).rstrip("/#").replace("#", "/").rsplit("/", 1)[-1]


class Scheme:
    """The concepts of a scheme, each with its label and what it stands under."""

    def __init__(self, name, source, only, language):
        self.name, self.source, self.file, self.graph = name, source, source.file, source.graph
        self.concepts = self.found_concepts(only)
        self.parents, self.all = {}, set(self.concepts)
        self.language, self.is_asked = (language or self.usual_language()).lower(), language is not None

    def of(self, concept, word):
        return sorted(self.graph.objects(concept, rdf_files.term(SKOS + word)), key=str)

    def found_concepts(self, only):
        kind, scheme = rdf_files.term(rdf_files.TYPE), rdf_files.term(SKOS + "ConceptScheme")
        schemes = {str(one) for one in self.graph.subjects(kind, scheme)} | {str(one) for one in self.graph.objects(None, rdf_files.term(SKOS + "inScheme"))}
        schemes = sorted(schemes)
        concepts = set(self.graph.subjects(kind, rdf_files.term(SKOS + "Concept")))
        if only is not None and only not in schemes:
            raise Fault(f"{self.file}: there is no scheme {only}; there are {', '.join(schemes) or 'none'}")
        if only is None and len(schemes) > 1:
            raise Fault(f"{self.file}: there are several schemes; choose one by --scheme {self.name}=ADDRESS: {', '.join(schemes)}")
        if only is not None:
            within = rdf_files.term(only)
            top = set(self.graph.subjects(rdf_files.term(SKOS + "topConceptOf"), within))
            top |= set(self.graph.objects(within, rdf_files.term(SKOS + "hasTopConcept")))
            concepts = {one for one in concepts if within in self.of(one, "inScheme")} | top
        if not concepts:
            raise Fault(f"{self.file}: there is no skos:Concept{' in the scheme ' + only if only else '; concepts are those with this type'}")
        return sorted(concepts, key=str)

    def languages(self):
        """In how many concepts' labels each language stands, that of most first."""
        count = {}
        for concept in self.concepts:
            for tag in {tag_of(label) for label in self.of(concept, "prefLabel")} - {""}:
                count[tag] = count.get(tag, 0) + 1
        return dict(sorted(count.items(), key=lambda item: (-item[1], item[0])))

    def usual_language(self):
        """That of most labels, so that the labels are not of several languages where none was asked for."""
        return next(iter(self.languages()), "")

    def in_language(self, concept):
        """The label in the language that was asked for, or in one of its kind, as en-GB is; nothing where there is none."""
        by_language = {tag_of(label): str(label) for label in reversed(self.of(concept, "prefLabel"))}
        near = sorted(tag for tag in by_language if self.language and tag.split("-")[0] == self.language.split("-")[0])
        return by_language.get(self.language) or by_language.get(near[0] if near else None) or ""

    def label(self, concept):
        """The label in the language that was asked for, else one without a language, else the first there is, else the address's end."""
        labels = self.of(concept, "prefLabel")
        plain = next((str(label) for label in labels if not tag_of(label)), str(labels[0]) if labels else "")
        return unicodedata.normalize("NFC", " ".join((self.in_language(concept) or plain).split())) or end_of(concept)

    def tell_languages(self, options):
        """What somebody who reads other languages wants to know of the labels."""
        languages = self.languages()
        without = sum(not self.in_language(concept) and bool(self.of(concept, "prefLabel")) for concept in self.concepts)
        unnamed = sum(not self.of(concept, "prefLabel") for concept in self.concepts)
        if unnamed:
            have = "concept has" if unnamed == 1 else "concepts have"
            options.tell(f"{self.name}: {unnamed} {have} no skos:prefLabel, so the end of the address was taken")
        there = ", ".join(languages)
        if self.is_asked and without and languages:
            have = "concept has" if without == 1 else "concepts have"
            options.tell(f"{self.name}: {without} {have} no label in {self.language}, so another one was taken; there are labels in {there}")
        elif not self.is_asked and len(languages) > 1:
            options.tell(f"{self.name}: the labels in {self.language} were taken; --language takes others, of {there}")

    def keep_below(self, texts):
        """Keeps only the concepts of these labels or addresses and what is below them."""
        kids, kept = {}, []
        for concept in self.concepts:
            for other in self.of(concept, "broader"):
                kids.setdefault(other, []).append(concept)
            kids.setdefault(concept, []).extend(other for other in self.of(concept, "narrower") if other in self.all)
        for text in texts:
            tops = [concept for concept in self.concepts if text in (str(concept), self.label(concept))]
            if len(tops) != 1:
                near = "" if tops else trees.nearest(text, [self.label(concept) for concept in self.concepts])
                raise Fault(f"{self.file}: there are {len(tops) or 'no'} concepts {text!r}; give the address of one{near}")
            kept += tops
        seen = set(kept)
        for concept in kept:
            new = [kid for kid in kids.get(concept, []) if kid not in seen]
            seen.update(new)
            kept += list(dict.fromkeys(new))
        self.concepts = sorted(seen, key=str)

    def read_parents(self, kept):
        """What each concept stands directly under; two such are a fault, unless `kept` says for the concept which one is taken."""
        known, loose = set(self.concepts), 0
        above = {concept: set() for concept in self.concepts}
        for concept in self.concepts:
            for other in self.of(concept, "broader"):
                if other in known:
                    above[concept].add(other)
                loose += other not in self.all
            for other in self.of(concept, "narrower"):
                if other in known:
                    above[other].add(concept)
        drop_far(above)
        left_out = sum(self.keep_one(above, text) for text in kept)
        self.refuse_two(above)
        self.parents = {concept: next(iter(parents)) for concept, parents in above.items() if parents}
        return loose, left_out

    def keep_one(self, above, text):
        """Takes one broader concept of those that a concept has, by CONCEPT=PARENT; how many others it had."""
        called = lambda concept: (str(concept), self.label(concept))
        cuts = [at for at, letter in enumerate(text) if letter == "="]
        found = [(concept, text[at + 1 :]) for at in cuts for concept in above if text[:at] in called(concept)]
        if len(found) != 1:
            raise Fault(f"{self.file}: --broader {self.name}:{text} names {'no concept' if not found else 'several concepts'}; write {self.name}:CONCEPT=PARENT")
        concept, parent = found[0]
        parents = [other for other in above[concept] if parent in called(other)]
        if len(parents) != 1:
            has = " and ".join(sorted(map(self.label, above[concept]))) or "none"
            raise Fault(f"{self.source.place(concept)}: {self.label(concept)} has no broader concept {parent!r} to keep; it has {has}")
        others = len(above[concept]) - 1
        above[concept] = {parents[0]}
        return others

    def refuse_two(self, above):
        """Names the concepts with two broader ones, as a thesaurus has them and a problem can't."""
        many = [(concept, sorted(parents, key=str)) for concept, parents in above.items() if len(parents) > 1]
        if many:
            lines = [f"{self.source.place(one)}: {self.label(one)} stands under {' and under '.join(map(self.label, parents))}" for one, parents in many[:10]]
            lines += [f"{self.file}: and {len(many) - 10} others stand under several"] if len(many) > 10 else []
            example = f"{self.name}:{self.label(many[0][0])}={self.label(many[0][1][0])}"
            raise Fault("\n".join(lines + [f"a concept stands under one other at the most; say which one by --broader '{example}', for each, or take the others out"]))


def drop_far(above):
    """Leaves out broader concepts that stand above another one of the same concept too: these say nothing more."""

    def reached(concept):
        out = list(above.get(concept, ()))
        for one in out:
            out += [other for other in above.get(one, ()) if other not in out]
        return set(out)

    for parents in above.values():
        if len(parents) > 1:
            over = {parent: reached(parent) for parent in parents}
            parents -= {far for far in over for near in over if far in over[near] and near not in over[far]}


class Place:
    """Where a fault of a concept is told."""

    def __init__(self, scheme, concept):
        self.scheme, self.concept = scheme, concept

    def place(self):
        return self.scheme.source.place(self.concept)

    def fault(self, says):
        return Fault(f"{self.place()}: {says}")


def order(scheme):
    """The concepts from the top, those beside one another by their labels."""
    kids = {}
    for concept in sorted(scheme.concepts, key=lambda one: (scheme.label(one), str(one))):
        kids.setdefault(scheme.parents.get(concept), []).append(concept)
    out = list(kids.get(None, []))
    for concept in out:
        out += kids.get(concept, [])
    if len(out) < len(scheme.concepts):
        raise in_circle(scheme, next(concept for concept in scheme.concepts if concept not in set(out)))
    return out


def in_circle(scheme, concept):
    """The fault of concepts that stand under themselves, found by going up from one that never comes to a top."""
    way = [concept]
    while scheme.parents[way[-1]] not in way:
        way.append(scheme.parents[way[-1]])
    circle = way[way.index(scheme.parents[way[-1]]) :]
    names = " under ".join(map(scheme.label, [*circle, circle[0]]))
    return Fault(f"{scheme.source.place(circle[0])}: these stand in a circle: {names}; take one skos:broader (or skos:narrower) of them out")
