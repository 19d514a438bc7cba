#!/usr/bin/env python3
"""Tests of tools/to_table, with answers of `mir` that are given, and, where the program is found, with its own.

    python3 tools/test_to_table.py
"""

import csv
import io
import os
import random
import sys
import unittest

HERE = os.path.dirname(os.path.abspath(__file__))
sys.path.insert(0, os.path.join(HERE, "../tests"))
import tool_runs  # noqa: E402
import test_damaged  # noqa: E402

PROGRAM = tool_runs.program()
TABLES = os.path.join(HERE, "../examples/tables")
PROBLEM = "taxonomy x\n(A_%28L.%29 b)\ntaxonomy y\n(C d)\narticulation\n[x.A_%28L.%29 {equals includes} y.C]\n[y.d > x.b]\n[x.b ! y.C]\n"
MIR = "x.A_%28L.%29 y.C =>\nx.A_%28L.%29 y.d >\nx.b y.C =><x!\nx.b y.d <\nmir 4\n"


class ToTable(unittest.TestCase):
    def setUp(self):
        self.folder = tool_runs.Folder(self)

    def table(self, *words, mir=MIR, problem=PROBLEM):
        self.folder.write({"p.txt": problem})
        return self.folder.run("to_table", "p.txt", "--mir", "-", *words, given=mir if isinstance(mir, bytes) else mir.encode())

    def test_rows(self):
        code, out, err = self.table()
        self.assertEqual((code, err), (0, ""))
        self.assertEqual(
            out,
            "left,relation,right,status\nx.A (L.),equals or includes,y.C,stated\nx.A (L.),includes,y.d,follows\n"
            "x.b,equals or includes or is included in or overlaps or disjoint,y.C,open\nx.b,is included in,y.d,stated\n",
        )
        rows = self.table("--form", "tsv", "--without", "includes")[1].split("\n")
        self.assertEqual(rows[1], "x.A (L.)\tequals or includes\ty.C\tstated")
        self.assertEqual(rows[2], "x.b\tequals or includes or is included in or overlaps or disjoint\ty.C\topen")
        self.assertIn("1 of 4 pairs were left out", self.table("--without", "includes")[2])

    def test_names_and_ids(self):
        self.folder.write({"names": "taxonomy\tname\ttext\tid\nx\tA_%28L.%29\tA (L.), whole\t17\nx\tb\tb\t18\n"})
        _, out, _ = self.table("--names", "names")
        self.assertEqual(out.split("\n")[:2], ["left,relation,right,status,left_id,right_id", '"x.A (L.), whole",equals or includes,y.C,stated,17,'])

    def test_mappings(self):
        code, out, err = self.table("--form", "sssom", "--prefix", "x=https://e.org/x/")
        self.assertEqual(code, 0)
        rows = out.split("\n")
        self.assertIn('#   "x": "https://e.org/x/"', rows)
        self.assertEqual(rows[6:8], ["subject_id\tsubject_label\tpredicate_id\tobject_id\tobject_label\tmapping_justification",
                                     "x:A_%28L.%29\tA (L.)\tskos:narrowMatch\ty:d\td\tsemapv:LogicalReasoning"])
        self.assertIn("x:b\tb\tskos:broadMatch\ty:d\td\tsemapv:ManualMappingCuration", rows)
        self.assertIn("2 of 4 pairs were written; 2 have several possible relations\n", err)
        code, out, err = self.table("--form", "sssom", "--predicate", "owl:disjointWith=disjoint", mir="x.b y.C !\nx.b y.d x\nmir 2\n")
        self.assertIn("x:b\tb\towl:disjointWith\ty:C\tC\tsemapv:ManualMappingCuration", out)
        self.assertIn("no predicate: 1 overlaps; --predicate gives one", err)

    def test_answers_that_are_damaged(self):
        for mir, says in [
            ("", "standard input:1:1: this is no line of `mir`, which has two names and letters"),
            ("x.b y.C =\n", "standard input:2:1: this is no line of `mir`, which has two names and letters"),
            ("x.b y.C =", "standard input:1:1: the answer is cut off: its last line is `mir` and the number of pairs"),
            ("x.b y.C =?\nmir 1\n", "standard input:1:10: this is none of the letters = > < x !"),
            ("x.b y.C .\nmir 1\n", "standard input:1:9: no relation is possible here: the statements can't all be true; ask `euler_align conflict`"),
            ("x.b y.C =\nmir 2\n", "standard input:2:1: 1 pairs stand above, and this line says 2, or more stands below"),
            (b"x.b y.C =\n\xff", "standard input:2:1: these bytes are not UTF-8"),
        ]:
            self.assertEqual(self.table(mir=mir), (1, "", f"to_table: {says}\n"))
        self.assertEqual(self.folder.run("to_table", "none.txt", "--mir", "-")[0], 1)
        self.assertEqual(self.folder.run("to_table", "p.txt", "sibling=of")[0], 2)
        self.folder.write({"names": "taxonomy\tname\n"})
        self.assertIn("names:1:1: the first row has no column `text`", self.table("--names", "names")[2])

    def test_answers_that_are_damaged_by_chance(self):
        draw = random.Random(58)
        names = "taxonomy\tname\ttext\tid\nx\tA_%28L.%29\tA (L.), whole\t17\nx\tb\tb\t18\n"
        for number in range(150):
            files = {"p.txt": PROBLEM.encode(), "mir": MIR.encode(), "names": names.encode()}
            name = draw.choice(sorted(files))
            files[name] = test_damaged.damaged(draw, files[name])
            self.folder.write(files)
            code, out, err = self.folder.run("to_table", "p.txt", "--mir", "mir", "--names", "names", "--form", draw.choice(["csv", "sssom"]))
            self.assertIn(code, (0, 1), number)
            if code == 1:
                self.assertEqual(out, "")
                self.assertRegex(err, r"^to_table: ((mir|names):\d+:\d+: |p.txt: this problem can't be read)", number)

    @unittest.skipUnless(PROGRAM, "the program is not found")
    def test_round_trips(self):
        willows = [f"1988={TABLES}/willows/flora1988.txt", f"2019={TABLES}/willows/flora2019"]
        columns = "alt:child=Kategorie,alt:parent=Übergeordnet,neu:path=Pfad"
        office = [f"alt={TABLES}/office/katalog2023.csv", f"neu={TABLES}/office/katalog2024.csv", "--columns", columns, "--root", "Sortiment"]
        garden = [f"garden={TABLES}/garden.csv", f"shop={TABLES}/shop.csv"]
        for tables, said, more, forms in [
            (willows, "willows/mappings.sssom.tsv", [], ["csv", "tsv", "sssom"]),
            (office, "office/zuordnung.csv", ["--columns", "left=Alt,relation=Beziehung,right=Neu", "--sides", "alt,neu"], ["csv", "tsv"]),
            (garden, "statements.csv", [], ["csv", "tsv"]),
        ]:
            self.assertEqual(self.folder.run("from_csv", *tables, f"statements={TABLES}/{said}", *more, "--names", "names")[0], 0)
            self.folder.write({"p.txt": self.folder.run("from_csv", *tables, f"statements={TABLES}/{said}", *more)[1]})
            first = self.folder.run("to_table", "p.txt")[1]
            for form in forms:
                self.folder.write({"back": self.folder.run("to_table", "p.txt", "--form", form, "--names", "names")[1]})
                code, again, err = self.folder.run("from_csv", *tables, "statements=back")
                self.assertEqual(code, 0, err)
                self.folder.write({"again.txt": again})
                rows = lambda text: [row[:3] for row in csv.reader(io.StringIO(text))]
                self.assertEqual(rows(self.folder.run("to_table", "again.txt")[1]), rows(first))

    @unittest.skipUnless(PROGRAM, "the program is not found")
    def test_a_thousand_concepts(self):
        rows = "child,parent\n" + "".join(f"Group {k} (old),{'' if not k else f'Group {(k - 1) // 8} (old)'}\n" for k in range(500))
        self.folder.write({"t": rows, "s": "left,relation,right\n" + "".join(f"x.Group {k} (old),equals,y.Group {k} (old)\n" for k in range(500))})
        self.folder.write({"p.txt": self.folder.run("from_csv", "x=t", "y=t", "statements=s")[1]})
        code, out, err = self.folder.run("to_table", "p.txt", "--without", "disjoint")
        self.assertEqual(code, 0, err)
        self.assertIn("x.Group 499 (old),equals,y.Group 499 (old),stated\n", out)


if __name__ == "__main__":
    unittest.main()
