#!/usr/bin/env python3
"""Tests of what tools/page is made of, without the program: questions that don't depend on each other, words, and colours.

    python3 tools/test_page.py
"""

import itertools
import math
import os
import random
import sys
import tempfile
import unittest

HERE = os.path.dirname(os.path.abspath(__file__))
sys.dont_write_bytecode = True
sys.path.insert(0, HERE)
import drawing  # noqa: E402
import taxa  # noqa: E402
from page_parts import conflicts, html, questions, reasons, worlds  # noqa: E402


def partitions(places):
    if not places:
        yield []
        return
    for rest in partitions(places[1:]):
        yield [[places[0]]] + rest
        for k in range(len(rest)):
            yield rest[:k] + [[places[0]] + rest[k]] + rest[k + 1 :]


def finest(every):
    """Of all ways to group the places that vary, the one with the most groups of which each answer goes with each."""
    varied = [place for place in range(len(every[0])) if len({world[place] for world in every}) > 1]
    answers = lambda group: len({tuple(world[place] for place in group) for world in every})
    fits = [p for p in partitions(varied) if math.prod(answers(group) for group in p) == len(set(every))]
    return sorted(sorted(group) for group in max(fits, key=len))


class Worlds(unittest.TestCase):
    def sizes(self, *parts):
        """The groups of all combinations of these answers."""
        every = ["".join(words) for words in itertools.product(*parts)]
        return sorted(group.size for group in worlds.groups_of(every))

    def test_questions_that_do_not_depend_on_each_other(self):
        self.assertEqual(self.sizes(["=>", ">=", "!!"], ["x", "!"]), [2, 3])
        self.assertEqual(self.sizes(["==", "=>", ">="], ["=="], ["x!", "!x"], ["<", "=", ">", "x", "!"]), [2, 3, 5])
        self.assertEqual(self.sizes(["=="]), [])

    def test_three_places_of_which_any_two_are_independent(self):
        # the third is equal where the first two are alike
        self.assertEqual(self.sizes(["===", "=>>", ">=>", ">>="], ["x", "!"]), [2, 4])

    def test_groups_are_the_finest(self):
        """Beside a plain search through all ways of grouping five places."""
        draw = random.Random(1)
        for _ in range(300):
            parts = [draw.sample([a + b for a in "=>" for b in "x!"], draw.randint(1, 4)), draw.sample("<x!", draw.randint(1, 3)), ["==", ">>", "=>", ">="][: draw.randint(1, 4)]]
            every = sorted({"".join(words) for words in itertools.product(*parts)})
            every = draw.sample(every, max(1, len(every) - draw.choice([0, 0, 0, 1, 2])))
            got = sorted(sorted(group.places) for group in worlds.groups_of(every))
            self.assertEqual(got, finest(every), every)

    def test_keys_tell_the_answers_apart(self):
        every = ["==x", "=>x", ">=!", ">>!"]
        groups = worlds.groups_of(every)
        self.assertEqual([(group.size, group.places) for group in groups], [(2, [0, 2]), (2, [1])])
        self.assertEqual([group.keys(lambda place: place) for group in groups], [[0], [1]])
        self.assertEqual(groups[0].left(0), 1)


class Colours(unittest.TestCase):
    # what red, green and blue light becomes for people who lack a kind of cone (Machado, Oliveira and Fernandes 2009)
    SEEN = [
        [[1, 0, 0], [0, 1, 0], [0, 0, 1]],
        [[0.152286, 1.052583, -0.204868], [0.114503, 0.786281, 0.099216], [-0.003882, -0.048116, 1.051998]],
        [[0.367322, 0.860646, -0.227968], [0.280085, 0.672501, 0.047413], [-0.011820, 0.042940, 0.968881]],
        [[1.255528, -0.076749, -0.178779], [-0.078411, 0.930809, 0.147602], [0.004733, 0.691367, 0.303900]],
    ]

    def lab(self, colour, seen):
        parts = [int(colour[k : k + 2], 16) / 255 for k in (1, 3, 5)]
        parts = [c / 12.92 if c <= 0.04045 else ((c + 0.055) / 1.055) ** 2.4 for c in parts]
        r, g, b = [min(1, max(0, sum(x * y for x, y in zip(row, parts)))) for row in seen]
        x, y, z = (0.4124 * r + 0.3576 * g + 0.1805 * b) / 0.9505, 0.2126 * r + 0.7152 * g + 0.0722 * b, (0.0193 * r + 0.1192 * g + 0.9505 * b) / 1.0888
        f = lambda t: t ** (1 / 3) if t > 0.008856 else 7.787 * t + 16 / 116
        return 116 * f(y) - 16, 500 * (f(x) - f(y)), 200 * (f(y) - f(z))

    def nearest(self, colours):
        return min(math.dist(self.lab(a, seen), self.lab(b, seen)) for a, b in itertools.combinations(colours, 2) for seen in self.SEEN)

    def test_colours_are_told_apart(self):
        # 2.3 is what can just be seen
        self.assertGreater(self.nearest(list(html.COLOURS.values())), 15)
        self.assertGreater(self.nearest(drawing.OWN), 15)
        self.assertGreater(self.nearest(drawing.OWN[:3]), 30)

    def test_the_script_has_the_same_colours(self):
        with open(os.path.join(HERE, "page_parts/matrix.js"), encoding="utf-8") as file:
            script = file.read()
        for colour in html.COLOURS.values():
            self.assertIn(colour, script)


class Words(unittest.TestCase):
    def test_each_two_relations_have_a_question(self):
        for letters in itertools.combinations(taxa.LETTERS, 2):
            self.assertNotEqual(questions.asked("".join(letters)), questions.HOW)
        self.assertEqual(questions.asked("!=>"), questions.HOW)
        self.assertEqual(questions.asked(">="), "Does {a} include more than {b}?")

    def test_relations_in_words(self):
        self.assertEqual(taxa.in_words("><x"), "includes, is included in or overlaps")
        self.assertEqual(taxa.entry("1.A", ">=", "2.B"), "[1.A {equals includes} 2.B]")
        self.assertEqual(taxa.entry("1.A", "x", "2.B"), "[1.A overlaps 2.B]")

    def test_names_as_people_read_them(self):
        read = {"Salix_alba_%28L.%29": "Salix alba (L.)", "100%": "100%", "a%0Ab": "a%0Ab", "%FF": "%FF", "_": "_", "%d7%a9": "ש"}
        for name, text in read.items():
            self.assertEqual(taxa.shown(name), text)

    def test_text_becomes_html_once(self):
        self.assertEqual(html.tag("b", "<", html.tag("i", "&"), class_='"'), '<b class="&quot;">&lt;<i>&amp;</i></b>')
        self.assertEqual(html.sentence("a < {b}", b=html.tag("i", "x")), "a &lt; <i>x</i>")

    def test_weaker_sets_come_by_their_size(self):
        self.assertEqual(list(conflicts.wider("=>")), ["=><", "=>x", "=>!", "=><x", "=><!", "=>x!"])
        self.assertEqual(list(conflicts.wider("=><x")), [])


class Files(unittest.TestCase):
    def problem(self, text):
        with tempfile.TemporaryDirectory() as folder:
            path = os.path.join(folder, "p.txt")
            with open(path, "w", encoding="utf-8") as file:
                file.write(text)
            return taxa.Problem(path)

    TEXT = "taxonomy b\n(x y)\n(r x)\ntaxonomy a The title\n(A B.c)\narticulation\n[b.r == a.A] # why\n[a.B.c {> ==} b.x]\n[b.x sums a.B.c a.A]\n"

    def test_what_is_read(self):
        problem = self.problem(self.TEXT)
        self.assertEqual([c.full for c in problem.concepts], ["b.x", "b.y", "b.r", "a.A", "a.B.c"])
        self.assertEqual([c.full for t in problem.taxonomies for c in t.roots], ["b.r", "a.A"])
        self.assertEqual([(s.number, s.line, s.letters, s.remark) for s in problem.statements], [(1, 7, "=", "why"), (2, 8, "=>", ""), (3, 9, None, "")])
        self.assertEqual([t.title for t in problem.taxonomies], ["", "The title"])

    def test_a_copy_without_statements_and_with_others(self):
        copy = self.problem(self.problem(self.TEXT).beside({1, 3}, ["[b.y ! a.A]"]))
        self.assertEqual([s.text for s in copy.statements], ["[a.B.c {> ==} b.x]", "[b.y ! a.A]"])

    def test_what_is_stated_of_a_pair(self):
        problem = self.problem(self.TEXT)
        # the second statement says of x and B.c what it says of B.c and x, turned
        pairs = worlds.Pairs(problem)
        self.assertEqual(reasons.stated(problem, pairs), {4: ("=", [1]), 1: ("=<", [2])})
        self.assertEqual(reasons.spoken_of(problem, pairs), {4: [1], 1: [2, 3], 0: [3]})

    def test_where_a_pair_stands(self):
        pairs = worlds.Pairs(self.problem(self.TEXT.replace("articulation", "taxonomy none\ntaxonomy c\n(D E)\narticulation")))
        for place in range(pairs.across):
            one, other = pairs.names(place)
            self.assertEqual((pairs.place(one.full, other.full), pairs.place(other.full, one.full)), (place, place))
        self.assertEqual([pairs.place(*names) for names in (("b.x", "b.y"), ("b.x", "a.nothing"), ("b.x", "b.x"))], [None] * 3)


if __name__ == "__main__":
    unittest.main()
