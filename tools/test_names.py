#!/usr/bin/env python3
"""Tests of tools/names.py: each text is written as one name, which is one of a problem file, and can be undone.

    python3 tools/test_names.py
"""

import os
import random
import sys
import unittest

sys.path.insert(0, os.path.join(os.path.dirname(os.path.abspath(__file__)), "../tests"))
import tool_runs  # noqa: E402,F401
import names  # noqa: E402

ALPHABET = "ab _%()[]{}#\t\n.,\"'→é×0F5C🌿\x7f\u200f"


class Names(unittest.TestCase):
    def test_known_names(self):
        for text, name in [
            ("Salix alba (L.)", "Salix_alba_%28L.%29"),
            ("Salix ×fragilis", "Salix_×fragilis"),
            ("100% wool", "100%25_wool"),
            ("a_b", "a%5Fb"),
            ("C#", "C%23"),
            ("Büro > Stühle", "Büro_>_Stühle"),
            ("two\nlines", "two%0Alines"),
        ]:
            self.assertEqual((names.written(text), names.undone(name)), (name, text))
        self.assertEqual(names.written("v1.2", also="."), "v1%2E2")
        self.assertEqual(names.undone("v1%2E2"), "v1.2")

    def test_drawn_texts_are_undone_and_differ(self):
        draw, seen = random.Random(58), {}
        for _ in range(5000):
            text = "".join(draw.choice(ALPHABET) for _ in range(draw.randint(1, 12)))
            name = names.written(text)
            self.assertIsNone(names.fault_of(name))
            self.assertEqual(names.undone(name), text)
            self.assertEqual(seen.setdefault(name, text), text)

    def test_names_by_hand_stay(self):
        self.assertEqual(names.undone("100%"), "100%")
        self.assertEqual(names.undone("50%_off"), "50% off")
        self.assertEqual(names.undone("%FF"), "%FF")

    def test_long_names_are_cut_in_one_piece(self):
        for text in ["x" * 200, "é" * 100, "(" * 60, "🌿" * 40, " " + "y" * 130]:
            short = names.shortened(text)
            self.assertLessEqual(len(short.encode()), 128)
            self.assertIsNone(names.fault_of(short))
            self.assertNotEqual(short, names.shortened(text + "z"))


if __name__ == "__main__":
    unittest.main()
