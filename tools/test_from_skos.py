#!/usr/bin/env python3
"""Tests of tools/from_skos. Where this Python has no rdflib, and neither has Debian's, only what it says then is tried.

    python3 tools/test_from_skos.py
"""

import importlib.util
import os
import subprocess
import sys
import unittest

HERE = os.path.dirname(os.path.abspath(__file__))
DEBIAN = "/usr/bin/python3"
if __name__ == "__main__" and importlib.util.find_spec("rdflib") is None and sys.executable != DEBIAN and os.path.exists(DEBIAN):
    if subprocess.run([DEBIAN, "-c", "import rdflib"], capture_output=True, check=False).returncode == 0:
        os.execv(DEBIAN, [DEBIAN, os.path.abspath(__file__), *sys.argv[1:]])
sys.path.insert(0, os.path.join(HERE, "../tests"))
from oracle import texts  # noqa: E402
import tool_runs  # noqa: E402

THERE = importlib.util.find_spec("rdflib") is not None
SUBJECTS = os.path.join(HERE, "../examples/tables/subjects")
HEAD = "@prefix skos: <http://www.w3.org/2004/02/skos/core#> .\n@prefix e: <https://e.org/> .\n"
ONE = HEAD + 'e:a a skos:Concept ; skos:prefLabel "A" .\n'


class FromSkos(unittest.TestCase):
    def setUp(self):
        self.folder = tool_runs.Folder(self)

    def make(self, *words, **files):
        self.folder.write({name.replace("__", "."): text for name, text in files.items()})
        return self.folder.run("from_skos", *words)

    def refused(self, says, *words, **files):
        code, out, err = self.make(*words, **files)
        self.assertEqual((code, out), (1, ""))
        self.assertIn(f"from_skos: {says}", err)

    def test_what_is_missing_is_said(self):
        import rdf_files

        there, rdf_files.rdflib = rdf_files.rdflib, None
        self.addCleanup(setattr, rdf_files, "rdflib", there)
        self.refused("the module rdflib is not there for this Python; install it (Debian: apt install python3-rdflib", "x=x.ttl", "y=y.ttl")

    @unittest.skipUnless(THERE, "rdflib is not there")
    def test_the_subjects(self):
        words = [f"library={SUBJECTS}/library.ttl", f"school={SUBJECTS}/school.rdf", f"mappings={SUBJECTS}/mappings.nt", "--names", "names"]
        code, out, err = self.make(*words, "--language", "de")
        self.assertEqual(code, 0, err)
        self.assertIn("(Physik Mechanik Optik Wärme_und_Übriges)\n", out)
        self.assertIn("(Science Forces_and_light Living_things Substances_and_heat)\n", out)
        self.assertIn("[library.Mechanik is_included_in school.Forces_and_light]  # mappings.nt, skos:broadMatch\n", out)
        self.assertIn("1 statement was left out for skos:relatedMatch", err)
        self.assertIn("library\tOptik\tOptik\thttps://example.org/library/optics\n", self.folder.read("names"))
        texts.read_problem(out.encode(), (True, True, True))
        with open(f"{SUBJECTS}/problem.txt", encoding="utf-8") as file:
            self.assertEqual(self.make(*words, "--language", "en")[1], file.read())
        more = self.make(*words, "--predicate", "skos:relatedMatch=overlaps", "--language", "en")[1]
        self.assertIn("[library.Heat,_electricity,_and_the_rest overlaps school.Substances_and_heat]", more)

    @unittest.skipUnless(THERE and tool_runs.program(), "rdflib or the program is not there")
    def test_back_from_mappings(self):
        words = [f"library={SUBJECTS}/library.ttl", f"school={SUBJECTS}/school.rdf", "--language", "en"]
        self.folder.write({"p.txt": self.make(*words, f"mappings={SUBJECTS}/mappings.nt", "--names", "names")[1]})
        first = self.folder.run("to_table", "p.txt")[1]
        self.folder.write({"back.tsv": self.folder.run("to_table", "p.txt", "--form", "sssom", "--names", "names")[1]})
        self.assertIn("\tskos:broadMatch\tschool:forces\t", self.folder.read("back.tsv"))
        self.folder.write({"p.txt": self.make(*words, "mappings=back.tsv")[1]})
        relations = lambda text: [line.rsplit(",", 1)[0] for line in text.split("\n")]
        self.assertEqual(relations(self.folder.run("to_table", "p.txt")[1]), relations(first))

    @unittest.skipUnless(THERE, "rdflib is not there")
    def test_schemes_that_are_none(self):
        two = HEAD + "e:a a skos:Concept .\ne:b a skos:Concept .\ne:c a skos:Concept ; skos:broader e:a, e:b .\n"
        says = "x.ttl:5:1: c stands under a and under b\nfrom_skos: a concept stands under one other at the most; say which one by --broader 'x:c=a', for each"
        self.refused(says, "x=x.ttl", "y=y.ttl", x__ttl=two, y__ttl=ONE)
        for kept in ("x:c=b", "x:https://e.org/c=https://e.org/b"):
            code, out, err = self.make("x=x.ttl", "y=y.ttl", "--broader", kept, x__ttl=two, y__ttl=ONE.replace("e:a", "e:z"))
            self.assertIn("taxonomy x\n(a)\n(b c)\n", out)
            self.assertIn("x: 1 broader concept was left out, as --broader says", err)
        self.refused("x.ttl:5:1: c has no broader concept 'd' to keep; it has a and b", "x=x.ttl", "y=y.ttl", "--broader", "x:c=d")
        self.refused("x.ttl: --broader x:d=a names no concept; write x:CONCEPT=PARENT", "x=x.ttl", "y=y.ttl", "--broader", "x:d=a")
        self.refused("--broader: 'c=a' is not NAME:CONCEPT=PARENT with one of the taxonomies x, y", "x=x.ttl", "y=y.ttl", "--broader", "c=a")
        # a broader concept of a broader one says nothing more
        far = HEAD + "e:a a skos:Concept .\ne:b a skos:Concept ; skos:broader e:a .\ne:c a skos:Concept ; skos:broader e:a, e:b .\n"
        self.assertIn("taxonomy x\n(a b)\n(b c)\n", self.make("x=x.ttl", "y=y.ttl", x__ttl=far, y__ttl=ONE.replace("e:a", "e:z"))[1])
        part = two + "e:d a skos:Concept ; skos:broader e:c .\ne:d skos:exactMatch e:z .\ne:a skos:exactMatch e:z .\n"
        code, out, err = self.make("x=x.ttl", "y=y.ttl", "--under", "x:c", "--no-comments", x__ttl=part, y__ttl=ONE.replace("e:a", "e:z"))
        self.assertEqual((code, out), (0, "taxonomy x\n(c d)\ntaxonomy y\n(A)\narticulation\n[x.d equals y.A]\n"), err)
        self.assertIn("1 mapping was left out, with concepts of none of the taxonomies", err)
        around = HEAD + "e:a a skos:Concept ; skos:broader e:b .\ne:b a skos:Concept ; skos:broader e:a .\n"
        says = "x.ttl:3:1: these stand in a circle: a under b under a; take one skos:broader (or skos:narrower) of them out"
        self.refused(says, "x=x.ttl", "y=y.ttl", x__ttl=around, y__ttl=ONE)
        same = HEAD + 'e:a a skos:Concept ; skos:prefLabel "A" .\ne:b a skos:Concept ; skos:prefLabel "A" .\n'
        other = ONE.replace("e:a", "e:z")
        says = "x.ttl:4:1: 'A' is the label of <https://e.org/a> and <https://e.org/b>; give --apart"
        self.refused(says, "x=x.ttl", "y=y.ttl", x__ttl=same, y__ttl=other)
        out = self.make("x=x.ttl", "y=y.ttl", "--apart", x__ttl=same, y__ttl=other)[1]
        self.assertIn("(A_%5Ba%5D)\n(A_%5Bb%5D)\n", out)
        self.refused("y.ttl: <https://e.org/a> is a concept of x and y", "x=x.ttl", "y=y.ttl", x__ttl=ONE, y__ttl=ONE)
        self.refused("x.ttl: there is no skos:Concept; concepts are those with this type\n", "x=x.ttl", "y=y.ttl", x__ttl=HEAD, y__ttl=ONE)

    @unittest.skipUnless(THERE, "rdflib is not there")
    def test_mappings_to_what_is_not_there(self):
        links = "e:a skos:exactMatch e:y1 .\ne:a skos:exactMatch e:y2 .\ne:a skos:exactMatch <http://www.wikidata.org/entity/Q1> .\n"
        one, other = ONE, ONE.replace("e:a", "e:y1")
        code, out, err = self.make("x=x.ttl", "y=y.ttl", "mappings=m.ttl", x__ttl=one, y__ttl=other, m__ttl=HEAD + links)
        self.assertTrue(out.endswith("articulation\n[x.A equals y.A]  # m.ttl, skos:exactMatch\n"), out + err)
        self.assertIn("note: m.ttl:4:21: no scheme has the concept <https://e.org/y2>; the nearest is 'https://e.org/y1'\n", err)
        self.assertIn("note: 2 mappings were left out, with concepts of none of the taxonomies\n", err)
        self.assertEqual(err.count("no scheme has"), 1)
        rdf = '<?xml version="1.0"?>\n<rdf:RDF xmlns:rdf="http://www.w3.org/1999/02/22-rdf-syntax-ns#" xmlns:s="http://www.w3.org/2004/02/skos/core#">\n'
        rdf += ' <rdf:Description rdf:about="https://e.org/a"><s:exactMatch rdf:resource="https://e.org/y3"/></rdf:Description></rdf:RDF>'
        # of several files, and of a table, all are read
        table = "subject_id,predicate_id,object_id\nhttps://e.org/a,skos:broadMatch,y:A\n"
        words = ["x=x.ttl", "y=y.ttl", "mappings=m.ttl", "mappings=m.rdf", "mappings=m.csv", "--no-comments"]
        code, out, err = self.make(*words, m__rdf=rdf, m__csv=table)
        self.assertIn("note: m.rdf:3:74: no scheme has the concept <https://e.org/y3>", err)
        self.assertTrue(out.endswith("articulation\n[x.A equals y.A]\n[x.A is_included_in y.A]\n"), out + err)
        # what the prefixes of a table stand for, where it doesn't say so itself, the schemes say
        table = "subject_id,predicate_id,object_id\ne:a,skos:broadMatch,e:y1\n"
        code, out, err = self.make("x=x.ttl", "y=y.ttl", "statements=m.csv", "--no-comments", m__csv=table)
        self.assertTrue(out.endswith("articulation\n[x.A is_included_in y.A]\n"), out + err)
        says = "m.csv:2:21: no taxonomy has a concept with the id or name 'e:y2'; the nearest is 'https://e.org/y1'"
        self.refused(says, "x=x.ttl", "y=y.ttl", "mappings=m.csv", m__csv=table.replace("e:y1", "e:y2"))

    @unittest.skipUnless(THERE, "rdflib is not there")
    def test_languages(self):
        label = lambda *labels: "skos:prefLabel " + ", ".join(f'"{text}"@{tag}' for text, tag in labels)
        one = HEAD + "".join(f"e:{k} a skos:Concept ; {label((f'B{k}', 'de'), (f'A{k}', 'en'))} .\n" for k in "ab")
        one += f"e:c a skos:Concept ; {label(('Cc', 'de-AT'))} .\n"
        other = ONE.replace("e:a", "e:z").replace('"A"', '"Aa"@en')
        for words, concepts, says in [
            ([], "(Ba)\n(Bb)\n(Cc)\n", "note: x: the labels in de were taken; --language takes others, of de, en, de-at\n"),
            (["--language", "de"], "(Ba)\n(Bb)\n(Cc)\n", "note: y: 1 concept has no label in de, so another one was taken; there are labels in en\n"),
            (["--language", "en"], "(Aa)\n(Ab)\n(Cc)\n", "note: x: 1 concept has no label in en, so another one was taken; there are labels in de, en, de-at\n"),
        ]:
            code, out, err = self.make("x=x.ttl", "y=y.ttl", *words, x__ttl=one, y__ttl=other)
            self.assertTrue(out.startswith(f"taxonomy x\n{concepts}taxonomy y\n(Aa)\n"), out + err)
            self.assertIn(says, err)
        err = self.make("x=x.ttl", "y=y.ttl", x__ttl=HEAD + "e:a a skos:Concept .\n", y__ttl=other)[2]
        self.assertIn("note: x: 1 concept has no skos:prefLabel, so the end of the address was taken\n", err)

    @unittest.skipUnless(THERE, "rdflib is not there")
    def test_two_schemes_in_one_file(self):
        both = HEAD + "e:a a skos:Concept ; skos:inScheme e:1 ; skos:exactMatch e:b .\ne:b a skos:Concept ; skos:inScheme e:2 ; skos:exactMatch e:a .\n"
        self.refused("f.ttl: there are several schemes; choose one by --scheme x=ADDRESS: https://e.org/1, https://e.org/2", "x=f.ttl", "y=f.ttl", f__ttl=both)
        code, out, err = self.make("x=f.ttl", "y=f.ttl", "--scheme", "x=https://e.org/1", "--scheme", "y=https://e.org/2", f__ttl=both)
        self.assertEqual((code, out), (0, "taxonomy x\n(a)\ntaxonomy y\n(b)\narticulation\n[x.a equals y.b]  # f.ttl, skos:exactMatch\n"), err)

    @unittest.skipUnless(THERE, "rdflib is not there")
    def test_files_that_are_damaged(self):
        for name, text, says in [
            ("x.ttl", ONE + 'e:b a "c .\n', "x.ttl:4:11: this is not Turtle: newline found in string literal"),
            ("x.nt", "<u:a> <u:b> <u:c> .\n<u:a> <u:b> .\n", "x.nt:2:13: this is no triple: <u:a> <u:b> ."),
            ("x.rdf", '<?xml version="1.0"?>\n<rdf:RDF xmlns:rdf="http://www.w3.org/1999/02/22-rdf-syntax-ns#">\n <a>', "x.rdf:3:5: this is not RDF/XML"),
            ("x.jsonld", '{"@context": {}}', "x.jsonld: this is JSON-LD; Turtle, RDF/XML or N-Triples is wanted\n"),
            ("x.rdf", "<!DOCTYPE html>\n<html>", "x.rdf: this is a web page; Turtle, RDF/XML or N-Triples is wanted\n"),
            ("x.ttl", b"# \xff\n", "x.ttl:1:3: these bytes are not UTF-8; save it as UTF-8\n"),
        ]:
            self.folder.write({name: text})
            self.refused(says, f"x={name}", "y=y.ttl", y__ttl=ONE)
        self.refused("none.ttl: this file can't be read: No such file or directory", "x=none.ttl", "y=y.ttl", y__ttl=ONE)

    @unittest.skipUnless(THERE, "rdflib is not there")
    def test_a_thousand_concepts(self):
        above = lambda t, k: f" ; skos:broader e:{t}{(k - 1) // 4}" if k else ""
        concept = lambda t, k: f'e:{t}{k} a skos:Concept ; skos:prefLabel "Subject {k} (old)"@en{above(t, k)} .\n'
        scheme = lambda t: HEAD + "".join(concept(t, k) for k in range(512))
        links = HEAD + "".join(f"e:a{k} skos:exactMatch e:b{k} .\n" for k in range(512))
        code, out, err = self.make("x=x.ttl", "y=y.ttl", "mappings=m.ttl", x__ttl=scheme("a"), y__ttl=scheme("b"), m__ttl=links)
        self.assertEqual(code, 0, err)
        problem = texts.read_problem(out.encode(), (True, True, True))
        self.assertEqual((len(problem.names), len(problem.articulations)), (1024, 512))


if __name__ == "__main__":
    unittest.main()
