"""The problems of which tests/page.py makes pages."""

import os
import tempfile

from harness import ROOT
from small_runs import made

FOLDER = tempfile.mkdtemp(prefix="euler_align_page_test_")
ODD = """taxonomy a<b Left & "right"
(R&D <script> "x" שלום 'y')
taxonomy 2 </title>
(Root <b>bold</b> &amp; עולם z)
articulation
[a<b.R&D equals 2.Root]   # said by <i>Ana</i> & "Ben"
[a<b.<script> {equals includes} 2.<b>bold</b>]
[a<b.שלום {equals includes} 2.עולם]
"""

LONG = "taxonomy {1}\n({0}a {0}b {0}c)\ntaxonomy z\n(Z{0} x{0} w{0})\narticulation\n[{1}.{0}a equals z.Z{0}]\n".format("N" * 120, "t" * 120)

# two names with one front, as paths of categories have, and one whose front no other has
PATHS = "taxonomy a\n(Goods Tools_>_Accessories_>_Drills_>_Wood Tools_>_Accessories_>_Drills_>_Steel Garden_furniture_and_all_that_goes_with_it)\n"
PATHS += "taxonomy b\n(Stock All)\narticulation\n[a.Goods equals b.Stock]\n"


def example(name):
    return os.path.join(ROOT, "examples", name)


def written(name, text):
    path = os.path.join(FOLDER, name)
    with open(path, "w", encoding="utf-8") as file:
        file.write(text)
    return path


def wrong():
    with open(example("furniture.txt"), encoding="utf-8") as file:
        return written("wrong.txt", file.read() + "[2023.Bench disjoint 2024.Wooden]\n")


def large():
    return written("large.txt", made("generated", 7, 512))


def pages():
    return {
        "furniture": (example("furniture.txt"),),
        "genus": (example("genus.txt"),),
        "catalogue": (example("catalogue.txt"),),
        "conflict": (wrong(),),
        "odd names": (written("odd.txt", ODD),),
        "no statements": (example("five_answers.txt"),),
        "a sum": (example("sum.txt"),),
        "one world, a rule off": (example("one_world.txt"), "coverage=off"),
        "too many worlds": (written("loose.txt", made("loose", 3, 1)), "--worlds", "20"),
        "256 beside 256": (large(),),
        "a taxonomy without concepts": (written("with blank.txt", "taxonomy a\ntaxonomy z\n(Z y x)\n"),),
        "long names": (written("long.txt", LONG),),
        "paths": (written("paths.txt", PATHS),),
    }
