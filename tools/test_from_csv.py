#!/usr/bin/env python3
"""Tests of tools/from_csv. What it puts is read back by the oracle of tests/.

    python3 tools/test_from_csv.py
"""

import os
import sys
import unittest

HERE = os.path.dirname(os.path.abspath(__file__))
sys.path.insert(0, os.path.join(HERE, "../tests"))
from oracle import texts  # noqa: E402
import tool_runs  # noqa: E402

OLD = "child,parent,note\nSeating,Furniture,\nChair,Seating,\"with, a comma\"\n\nSofa,Seating\nFurniture,,\nMirror,,alone\n"
NEW = "\ufeffparent,child\r\n,Goods\r\nGoods,Seats\r\n"
LINKS = "left,relation,right\n1.Furniture,equals,2.Goods\n1.Chair,< ==,2.Seats\n2.Seats,sums,1.Chair 1.Sofa\n"


class FromCsv(unittest.TestCase):
    def setUp(self):
        self.folder = tool_runs.Folder(self)

    def make(self, *words, **files):
        self.folder.write(files)
        return self.folder.run("from_csv", *words)

    def refused(self, says, *words, **files):
        code, out, err = self.make(*words, **files)
        self.assertEqual((code, out, err), (1, "", f"from_csv: {says}\n"))

    def test_tables_become_a_problem(self):
        code, out, err = self.make("1=old", "2=new", "statements=links", old=OLD, new=NEW, links=LINKS)
        self.assertEqual((code, err), (0, ""))
        self.assertEqual(
            out,
            "taxonomy 1\n(Furniture Seating)\n(Seating Chair Sofa)\n(Mirror)\ntaxonomy 2\n(Goods Seats)\narticulation\n"
            "[1.Furniture equals 2.Goods]  # links row 2\n[1.Chair {is_included_in equals} 2.Seats]  # links row 3\n"
            "[2.Seats sums 1.Chair 1.Sofa]  # links row 4\n",
        )
        problem = texts.read_problem(out.encode(), (True, True, True))
        self.assertEqual(len(problem.names), 7)
        self.assertEqual(len(problem.articulations), 3)

    def test_other_delimiters_blanks_and_quotes(self):
        code, out, err = self.make(
            "1=old", "2=new", "statements=links", "--delimiter", ";", "--blanks", "_",
            old='child;parent\n"Arm ""chair""";Seat\nSeat;\n', new="child;parent\nDining chair;\nEasy chair;\n",
            links='left;relation;right\n1.Seat;sums;2.Dining chair, 2.Easy chair\n',
        )
        self.assertEqual((code, err), (0, ""))
        self.assertIn('(Seat Arm_"chair")\n', out)
        self.assertIn("[1.Seat sums 2.Dining_chair 2.Easy_chair]  # links row 2\n", out)
        texts.read_problem(out.encode(), (True, True, True))
        code, out, _ = self.make("1=old", "2=new", "--delimiter", "tab", old="child\tparent\na\tb\nb\t\n", new="child\tparent\nc\t\n")
        self.assertEqual((code, out), (0, "taxonomy 1\n(b a)\ntaxonomy 2\n(c)\narticulation\n"))

    def test_a_value_that_is_cut_off_at_the_end(self):
        code, out, err = self.make("1=old", "2=new", old="child,parent\na,b\nb,", new="child,parent\r\nc,\r")
        self.assertEqual((code, err), (0, "from_csv: note: there are no statements; give their table as statements=FILE\n"))
        self.assertEqual(out, "taxonomy 1\n(b a)\ntaxonomy 2\n(c)\narticulation\n")

    def test_names_that_cannot_be_taken(self):
        table = lambda name: f"child,parent\nA,\n{name},A\n"
        for name, says in [
            ("A#1", "the name 'A#1' has `#`, which no name may have; leave it out"),
            ("A(1)", "the name 'A(1)' has `(`, which no name may have; leave it out"),
            ("a\x01", "the name 'a\\x01' has a control character; leave it out"),
            ("x" * 129, f"the name '{'x' * 129}' has more than 128 bytes; shorten it"),
        ]:
            self.refused(f"old:3:1: {says}", "1=old", "2=new", "--blanks", "_", old=table(name), new=NEW)
        says = f"old:3:1: the name '{'x' * 129}' has more than 128 bytes as it is written; shorten it, or give --names FILE"
        self.refused(says, "1=old", "2=new", old=table("x" * 129), new=NEW)
        self.refused(
            "old:4:1: 'a_b' becomes 'a_b', as 'a b' does at old:3:1",
            "1=old", "2=new", "--blanks", "_", old="child,parent\nr,\na b,r\na_b,r\n", new=NEW,
        )
        self.refused("the name '1.a' of a taxonomy has a full stop; leave it out", "1.a=old", "2=new", "--blanks", "_", old=OLD, new=NEW)
        self.refused("there are two tables for the taxonomy 1", "1=old", "1=new", old=OLD, new=NEW)

    def test_rows_that_are_no_forest(self):
        for rows, says in [
            ("b,a\nb,c\n", "old:3:3: 'b' has another parent, 'a', at old:2:3; a name is one concept, so call two concepts by two names (or give their paths, or ids)"),
            ("a,\nb,A\n", "old:3:3: the parent 'A' has no row of its own; correct its spelling, or add a row in which it is the child and no parent stands"),
            ("a,\nb,a\nb,\n", "old:4:1: 'b' has a parent already, 'a', at old:3:3"),
            ("a,\nb,\nb,a\n", "old:4:3: 'b' has a row without a parent already, at old:3:1"),
            ("b,a\na,b\n", "old:3:3: these would stand in a circle: a under b under a; give one of them another parent, or none"),
            ("a,a\n", "old:2:3: these would stand in a circle: a under a; give one of them another parent, or none"),
            (",a\n", "old:2:1: a name is missing here"),
            ("b\n,a\n", "old:3:1: a name is missing here"),
        ]:
            self.refused(says, "1=old", "2=new", old="child,parent\n" + rows, new=NEW)
        # what an export says of each article, it says several times
        code, out, err = self.make("1=old", "2=new", old="child,parent\na,\nb,a\nb,a\na,\n", new=NEW)
        self.assertIn("taxonomy 1\n(a b)\n", out)
        self.assertIn("note: 1: 2 rows were left out, of concepts that have the same row already\n", err)

    def test_tables_that_cannot_be_read(self):
        for text, says in [
            ("", "old:1:1: the table is empty; its first row names the columns"),
            ("child\na\n", "old:1:1: the first row has no column `parent`; it has child; if it is not commas that separate the values, give --delimiter"),
            (
                "Name,Parent\na,\n",
                "old:1:1: the first row has no column `child`; it has Name, Parent; with other names of columns, "
                "give --columns child=NAME,parent=NAME (or path=NAME, or id=NAME,parent_id=NAME,name=NAME)",
            ),
            ("child,parent,parent\na,,\n", "old:1:1: the first row names the column `parent` 2 times"),
            ('child,parent\n"a,b\n', "old:2:1: this quote is not closed; a quote within a value is written twice, or give --quote none if no value is quoted"),
            ('child,parent\n"a"b,c\n', "old:2:4: a quoted value ends here; a quote within one is written twice, or give --quote none if no value is quoted"),
            (b"child,parent\nab\xff,c\n", "old:2:3: these bytes are not UTF-8; save the table as UTF-8, or give --encoding, cp1252 say for tables of Windows"),
        ]:
            self.refused(says, "1=old", "2=new", old=text, new=NEW)

    def test_statements_that_cannot_be_taken(self):
        for row, says in [
            (
                "1.Chair,equal,2.Seats",
                "links:2:9: 'equal' is no relation; write equals, includes, is_included_in, overlaps, disjoint or sums; other words get a meaning by "
                "--predicate 'equal=RELATIONS'",
            ),
            ("1.Chair,,2.Seats", "links:2:9: a relation is missing here"),
            ("Chair,equals,2.Seats", "links:2:1: 'Chair' is not TAXONOMY.CONCEPT; if the taxonomy is always the same, give --sides LEFT,RIGHT"),
            ("1.Chair,equals,3.Seats", "links:2:16: there is no taxonomy '3'; there are 1, 2"),
            ("1.Chair,equals,2.Seat", "links:2:16: the taxonomy 2 has no concept 'Seat'; the nearest is 'Seats'"),
            ("1.Chair,equals,1.Sofa", "links:2:16: a statement is on concepts of two taxonomies; both are of 1"),
            ("2.Seats,sums,1.Chair", "links:2:14: a sum has two or more parts"),
            ("2.Seats,sums,1.Chair 1.Chair", "links:2:22: 1.Chair stands in this sum twice"),
            ("2.Seats,sums,1.Chair 2.Goods", "links:2:22: a part is of another taxonomy than the whole"),
        ]:
            self.refused(says, "1=old", "2=new", "statements=links", old=OLD, new=NEW, links=f"left,relation,right\n{row}\n")
        says = "links:1:1: the first row has no column `child`; it has left, relation, right; give a table of statements as statements=FILE"
        self.refused(says, "1=old", "2=new", "statement=links", old=OLD, new=NEW, links=LINKS)
        says = "links:2:14: the taxonomy 1 has no concept 'Arm'; the parts of a sum are separated by commas"
        row = "2.Seats,sums,1.Arm chair 1.Sofa"
        self.refused(says, "1=old", "2=new", "statements=links", old=OLD + "Arm chair,Seating\n", new=NEW, links=f"left,relation,right\n{row}\n")

    def test_limits(self):
        rows = "child,parent\n" + "".join(f"c{k},\n" for k in range(1024))
        self.refused("there are 1026 concepts; a problem has at most 1024; --under NAME:CONCEPT takes a part of a taxonomy", "1=old", "2=new", old=rows, new=NEW)
        links = "left,relation,right\n" + "1.Chair,disjoint,2.Goods\n" * 4097
        self.refused("there are 4097 statements; a problem has at most 4096", "1=old", "2=new", "statements=links", old=OLD, new=NEW, links=links)

    def test_words(self):
        for words, says in [
            (["1=old"], "a problem has two to eight taxonomies; these are 1"),
            (["1=old", "new"], "'new' is not NAME=FILE"),
            (["1=old", "2=new", "--delimiter", ";;"], "the delimiter is one character"),
            (["1=old", "2=new", "--blanks", "#"], "--blanks takes one character"),
        ]:
            code, out, err = self.make(*words, old=OLD, new=NEW)
            self.assertEqual((code, out), (2, ""))
            self.assertIn(says, err)
        code, out, err = self.make("1=old", "2=none", old=OLD)
        self.assertEqual((code, out), (1, ""))
        self.assertIn("No such file", err)


if __name__ == "__main__":
    unittest.main()
