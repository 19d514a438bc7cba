#!/usr/bin/env python3
"""Tests of tools/lint, by what it says of small files.

    python3 tools/test_lint.py
"""

import os
import subprocess
import sys
import tempfile
import unittest

HERE = os.path.dirname(os.path.abspath(__file__))
ROWS = """taxonomy old Old list
(Things Chairs Tables Lamps)
taxonomy new New list
(Goods Seats Tables Lights)
articulation
"""
FINE = """[old.Things equals new.Goods]
[old.Chairs equals new.Seats]
[old.Tables equals new.Tables]
[old.Lamps equals new.Lights]
"""


def lint(text, *words):
    with tempfile.TemporaryDirectory() as folder:
        path = os.path.join(folder, "p.txt")
        with open(path, "wb") as file:
            file.write(text if isinstance(text, bytes) else text.encode())
        done = subprocess.run([sys.executable, os.path.join(HERE, "lint"), path, *words], capture_output=True, check=False)
        return done.returncode, done.stdout.decode().replace(path, "p.txt").splitlines(), done.stderr.decode().replace(path, "p.txt")


class Lint(unittest.TestCase):
    def says(self, text, *wanted, code=0):
        got, lines, err = lint(text)
        self.assertEqual((got, err), (code, ""))
        self.assertEqual(lines[:-1], list(wanted))

    def test_a_file_of_which_there_is_nothing_to_say(self):
        self.assertEqual(lint(ROWS + FINE), (0, ["nothing to note"], ""))
        self.assertEqual(lint(("\ufeff" + ROWS + FINE).replace("\n", "\r\n")), (0, ["nothing to note"], ""))

    def test_a_name_that_no_row_has(self):
        self.says(
            ROWS + FINE + "[old.Chair equals new.Seats]\n",
            "p.txt:10: fault: no row has old.Chair; is it old.Chairs?",
            code=1,
        )
        self.says(ROWS + FINE + "[old.Seats < new.Goods]\n", "p.txt:10: fault: no row has old.Seats; is it new.Seats?", code=1)
        self.says(ROWS + FINE + "[odl.Lamps < new.Goods]\n", "p.txt:10: fault: there is no taxonomy odl, in odl.Lamps; is it old?", code=1)
        self.says(ROWS + FINE + "[Lamps < new.Goods]\n", "p.txt:10: fault: Lamps names no taxonomy; write old.Lamps", code=1)
        self.says(ROWS + FINE + "[old.Xylophone < new.Goods]\n", "p.txt:10: fault: no row has old.Xylophone, and old has no name like it", code=1)
        # both names of one statement, and a part of a sum
        code, lines, _ = lint(ROWS + FINE + "[old.Chiars sums new.Seats new.Lihgts]\n")
        self.assertEqual((code, len(lines)), (1, 3))
        self.assertEqual(lines[-1], "2 faults")

    def test_a_line_of_no_form(self):
        self.says(ROWS + FINE + "[old.Lamps same_as new.Lights]\n", "p.txt:10: fault: this line has no form that I know: [old.Lamps same_as new.Lights]", code=1)

    def test_rows_that_are_refused(self):
        code, lines, _ = lint(ROWS.replace("taxonomy new", "(Chairs Tables)\n(Lamps Things)\ntaxonomy new") + FINE)
        self.assertEqual(code, 1)
        self.assertEqual(lines[0], "p.txt:3: fault: old.Tables has another parent already, Things (a space ends a name)")
        self.assertEqual(lines[1], "p.txt:4: fault: old.Things would stand under itself")
        code, lines, _ = lint(ROWS.replace("(Things", "(Things Eagle owl Horned owl") + FINE)
        self.assertEqual((code, lines[0]), (1, "p.txt:2: fault: old.owl stands here twice (a space ends a name)"))
        self.assertEqual(lint(ROWS.replace("(Things", "(Things Things") + FINE)[1][0], "p.txt:2: fault: old.Things would stand under itself")

    def test_a_name_that_ends_in_a_comma(self):
        text = ROWS.replace("Chairs Tables Lamps", "Chairs, Tables, Lamps")
        code, lines, _ = lint(text + FINE)
        self.assertEqual(code, 1)
        self.assertIn("p.txt:2: note: the name old.Chairs, ends in `,`, which becomes a part of it; spaces alone separate names", lines)
        self.assertIn("p.txt:7: fault: no row has old.Chairs; is it old.Chairs,?", lines)

    def test_statements_that_are_there_twice(self):
        self.says(ROWS + FINE + "[new.Seats equals old.Chairs]\n", "p.txt:10: note: this says what line 7 says: [new.Seats equals old.Chairs]")
        self.says(ROWS + FINE + "[old.Chairs > new.Seats]\n", "p.txt:10: note: this and line 7 can't both be true: [old.Chairs > new.Seats]")
        self.says(
            ROWS + FINE.replace("Chairs equals", "Chairs {equals includes}") + "[new.Seats {is_included_in overlaps} old.Chairs]\n",
            "p.txt:10: note: line 7 speaks of this pair too, and both together leave includes: [new.Seats {is_included_in overlaps} old.Chairs]",
        )

    def test_a_word_that_was_forgotten(self):
        text = ROWS + FINE.replace("Chairs equals", "Chairs {equals <}").replace("Tables equals", "Tables {equals <}").replace("Lamps equals", "Lamps <")
        self.says(text, "p.txt:9: note: `is_included_in` without `equals`, which each of the 2 other such statements has beside it: [old.Lamps < new.Lights]")
        # where two are strict, that is no slip
        self.says(text.replace("Tables {equals <}", "Tables <"))

    def test_a_further_root(self):
        self.says(
            ROWS.replace("taxonomy new", "(Chair Stool)\ntaxonomy new") + FINE,
            "p.txt:3: note: old.Chair is a root beside Things, and no statement speaks of it; is Chairs meant?",
        )
        self.says(ROWS.replace("taxonomy new", "(Rugs)\ntaxonomy new") + FINE, "p.txt:3: note: old.Rugs is a root beside Things, and no statement speaks of it; does it belong under Things?")
        self.says(ROWS.replace("taxonomy new", "(Rugs)\ntaxonomy new") + FINE + "[old.Rugs disjoint new.Goods]\n")

    def test_one_name_on_both_sides(self):
        wanted = "p.txt:2: note: old.Tables and new.Tables have one name, and no statement is about the two"
        self.says(ROWS + FINE.replace("[old.Tables equals new.Tables]", "[old.Tables disjoint new.Seats]\n[new.Tables disjoint old.Chairs]"), wanted)

    def test_what_no_statement_speaks_of(self):
        rows = ROWS.replace("taxonomy new", "(Lamps Table_lamps Candles)\ntaxonomy new")
        self.says(rows + FINE.replace("[old.Lamps equals new.Lights]\n", ""), "p.txt:2: note: no statement speaks of old.Lamps, nor of any of the 2 under it", "p.txt:5: note: no statement speaks of new.Lights")
        # what is under a concept that is apart from all of the other side needs no statement
        self.says(rows + FINE.replace("[old.Lamps equals new.Lights]", "[old.Lamps disjoint new.Goods]\n[new.Lights disjoint old.Things]"))
        # nor does what is within a concept that has nothing under it
        for word in ("equals", "is_included_in", "{equals is_included_in}"):
            self.says(rows + FINE.replace("[old.Lamps equals new.Lights]", f"[old.Lamps {word} new.Lights]"))
        self.says(rows + FINE.replace("[old.Lamps equals new.Lights]", "[new.Lights {equals includes} old.Lamps]"))
        wanted = [f"p.txt:3: note: no statement speaks of old.{name}" for name in ("Table_lamps", "Candles")]
        self.says(rows + FINE.replace("[old.Lamps equals new.Lights]", "[old.Lamps {equals overlaps} new.Lights]"), *wanted)
        self.says(ROWS, "p.txt:2: note: old.Tables and new.Tables have one name, and no statement is about the two", "p.txt:5: note: there are no statements: any two concepts may have any relation that the rows allow")

    def test_many_notes_of_one_kind(self):
        text = ROWS.replace("Chairs", "Chairs " + " ".join(f"c{k}" for k in range(15))) + FINE
        self.assertEqual(lint(text)[1][10:], ["p.txt: note: and 5 more like these; --all shows them", "15 notes"])
        self.assertEqual(len(lint(text, "--all")[1]), 16)

    def test_what_can_not_be_read(self):
        self.assertEqual(lint(b"taxonomy a\n(\xff)\n"), (1, [], "lint: p.txt:2: these bytes are not UTF-8; save the file as UTF-8\n"))
        done = subprocess.run([sys.executable, os.path.join(HERE, "lint"), "no_such_file"], capture_output=True, check=False)
        self.assertEqual((done.returncode, done.stderr.decode()), (1, "lint: no_such_file: No such file or directory\n"))


if __name__ == "__main__":
    unittest.main()
