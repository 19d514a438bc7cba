#!/usr/bin/env python3
"""Tests of tools/draw, by what it puts for lines of `report kinds=json`.

    python3 tools/test_draw.py
"""

import os
import shutil
import subprocess
import sys
import tempfile
import unittest

HERE = os.path.dirname(os.path.abspath(__file__))
TWO_WORLDS = r"""report count
2
report json
{"classes":[["1.A","2.A"],["1.B"],["2.B"]],"splits":[["1.B*2.B","1.B\\2.B","2.B\\1.B"]],"under":[[2,1],[3,1]]}
{"classes":[["1.A","2.A"],["1.B","2.B"]],"splits":[],"under":[[2,1]]}
complete 2
"""


def draw(text, *words):
    data = text if isinstance(text, bytes) else text.encode()
    done = subprocess.run([sys.executable, os.path.join(HERE, "draw"), *words], input=data, capture_output=True, check=False)
    return done.returncode, done.stdout.decode(), done.stderr.decode()


class Draw(unittest.TestCase):
    def test_each_world_is_a_frame(self):
        code, out, err = draw(TWO_WORLDS)
        self.assertEqual((code, err), (0, ""))
        self.assertEqual(
            out,
            r"""digraph merged {
  rankdir=BT; outputorder=nodesfirst; nodesep=0.25; ranksep=0.5;
  node [shape=box, style=filled, fontname="Helvetica", fontsize=12, height=0.4, margin="0.12,0.05"];
  edge [color="#555555", arrowsize=0.7];
  subgraph cluster_1 {
    label="world 1"; labelloc=b; fontname="Helvetica";
    w1c1 [label="1.A\n2.A", fillcolor="#ffffff", penwidth=2];
    w1c2 [label="1.B", fillcolor="#f6c667"];
    w1c3 [label="2.B", fillcolor="#9fd0f5"];
    w1c2 -> w1c1;
    w1c3 -> w1c1;
    w1c2 -> w1c3 [style=dashed, dir=none, constraint=false, color="#c4400a", penwidth=1.5];
  }
  subgraph cluster_2 {
    label="world 2"; labelloc=b; fontname="Helvetica";
    w2c1 [label="1.A\n2.A", fillcolor="#ffffff", penwidth=2];
    w2c2 [label="1.B\n2.B", fillcolor="#ffffff", penwidth=2];
    w2c2 -> w2c1;
  }
}
""",
        )

    def test_one_world_alone(self):
        code, out, _ = draw(TWO_WORLDS, "--world", "2")
        self.assertEqual(code, 0)
        self.assertNotIn("cluster", out)
        self.assertIn('  w2c2 [label="1.B\\n2.B", fillcolor="#ffffff", penwidth=2];\n', out)
        self.assertNotIn("w1c1", out)

    def test_a_large_world_is_drawn_from_left_to_right(self):
        many = lambda count: '{"classes":[["1.r"]' + "".join(f',["2.c{k}"]' for k in range(count - 1)) + '],"splits":[],"under":[]}\n'
        self.assertIn("rankdir=BT;", draw(many(30))[1])
        self.assertIn("rankdir=RL;", draw(many(31))[1])

    def test_of_many_worlds_the_first(self):
        worlds = '{"classes":[["1.A"]],"splits":[],"under":[]}\n' * 11
        code, out, err = draw(worlds)
        self.assertEqual((code, "cluster" in out), (0, False))
        self.assertEqual(err, "draw: note: the first of 11 worlds; --world N draws another one, and --all draws all\n")
        code, out, err = draw(worlds, "--all")
        self.assertEqual((code, out.count("cluster"), err), (0, 11, ""))
        code, out, err = draw(worlds, "--world", "11")
        self.assertEqual((code, "w11c1" in out, err), (0, True, ""))
        self.assertEqual(draw(worlds[: worlds.index("\n") + 1] * 10)[1].count("cluster"), 10)

    def test_splits_of_one_pair_of_classes_are_one_line(self):
        line = (
            r'{"classes":[["1.A"],["2.B","3.B"]],"splits":[["1.A*2.B","1.A\\2.B","2.B\\1.A"],'
            r'["1.A*3.B","1.A\\3.B","3.B\\1.A"]],"under":[]}'
        )
        code, out, _ = draw(line + "\n")
        self.assertEqual((code, out.count("dashed")), (0, 1))

    def test_quotes_backslashes_and_stars_in_names(self):
        line = (
            r'{"classes":[["1.a\"b"],["2.x*y"],["1.c\\d"]],"splits":[["1.c\\d*2.x*y","1.c\\d\\2.x*y","2.x*y\\1.c\\d"]],"under":[]}'
        )
        code, out, err = draw(line + "\n")
        self.assertEqual((code, err), (0, ""))
        self.assertIn(r'[label="1.a\"b", ', out)
        self.assertIn(r'[label="1.c\\d", ', out)
        self.assertIn("w1c2 -> w1c3 [style=dashed", out)

    def test_names_are_drawn_as_people_write_them(self):
        out = draw('{"classes":[["1.Salix_alba_%28L.%29","2.a&b"]],"splits":[],"under":[]}\n')[1]
        self.assertIn('[label="1.Salix alba (L.)\\n2.a&amp;b", ', out)

    def test_worlds_that_align_listed(self):
        with tempfile.TemporaryDirectory() as folder:
            path = os.path.join(folder, "p.txt")
            with open(path, "w", encoding="utf-8") as file:
                file.write("taxonomy 1\n(A B)\ntaxonomy 2\n(A B)\narticulation\n")
            # the pairs are 1.A 2.A, 1.A 2.B, 1.B 2.A, 1.B 2.B, then 1.A 1.B and 2.A 2.B; the first world is the first of TWO_WORLDS
            code, out, err = draw("=><x>>\n=><=>>\ncut 2\n", "--problem", path)
            self.assertEqual((code, out, err), (0, draw(TWO_WORLDS)[1], ""))
            code, out, err = draw("=><x>>\n=><\ncut 2\n", "--problem", path)
            self.assertEqual((code, out), (1, ""))
            self.assertEqual(err, f"draw: line 2: this is no world of {path}, which has 6 pairs of concepts; give what `align in={path}` prints\n")
            self.assertIn("there is no world to draw", draw("complete 0\n", "--problem", path)[2])

    def test_what_it_refuses(self):
        for text, says in [
            ("report json\ncomplete 0\n", "there is no world to draw; where none is possible, `euler_align conflict` names statements"),
            ("report json\n", "no world to draw: give the output of"),
            ("report json\n{\n", "line 2: not JSON"),
            ('{"classes":[["1.A"]],"splits":[]}\n', "line 1: not a merged taxonomy"),
            ('{"classes":[["1.A"]],"splits":[],"under":[[1,2]]}\n', "line 1: not a merged taxonomy"),
            ('{"classes":[["1.A"]],"splits":[["a","b","c"]],"under":[]}\n', "of no two names"),
            (b"\xff\n", "can't decode"),
        ]:
            code, out, err = draw(text)
            self.assertEqual((code, out), (1, ""), text)
            self.assertIn(says, err)
        code, _, err = draw("", "no_such_file")
        self.assertEqual((code, err), (1, "draw: no_such_file: No such file or directory\n"))
        code, _, err = draw(TWO_WORLDS, "--world", "3")
        self.assertEqual(code, 1)
        self.assertIn("there is no world 3: there are 2", err)

    @unittest.skipUnless(shutil.which("dot"), "dot is not installed")
    def test_dot_takes_the_graph(self):
        with tempfile.TemporaryDirectory() as folder:
            path = os.path.join(folder, "picture.svg")
            code, out, err = draw(TWO_WORLDS, "--svg", path)
            self.assertEqual((code, out, err), (0, "", ""))
            with open(path, encoding="utf-8") as file:
                self.assertIn("</svg>", file.read())


if __name__ == "__main__":
    unittest.main()
