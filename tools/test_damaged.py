#!/usr/bin/env python3
"""Damages the example tables by chance and hands them to the tools: each run ends with a problem or with a fault that names its place.

    python3 tools/test_damaged.py [SEED [COUNT]]
"""

import io
import os
import random
import re
import sys
import unittest
import zipfile

HERE = os.path.dirname(os.path.abspath(__file__))
sys.path.insert(0, os.path.join(HERE, "../tests"))
from oracle import texts  # noqa: E402
import tool_runs  # noqa: E402
import rdf_files  # noqa: E402

TABLES = os.path.join(HERE, "../examples/tables")
NUMBERS = [int(word) for word in sys.argv[1:] if word.isdecimal()]
SEED, COUNT = (NUMBERS + [58, 400][len(NUMBERS) :])[:2]
OFFICE = ["alt=katalog2023.csv", "neu=katalog2024.csv", "statements=zuordnung.csv", "--root", "Sortiment", "--sides", "alt,neu"]
OFFICE += ["--columns", "child=Kategorie,parent=Übergeordnet,path=Pfad,left=Alt,relation=Beziehung,right=Neu,author=Wer"]
CASES = [
    ("from_csv", "office", OFFICE),
    ("from_csv", "willows", ["1988=flora1988.txt", "2019=flora2019.zip", "statements=mappings.sssom.tsv", "--names", "n"]),
    ("from_csv", "willows", ["1988=flora1988.txt", "2019=flora1988.txt", "--unstated", "disjoint", "--apart", "--loose"]),
    ("from_skos", "subjects", ["library=library.ttl", "school=school.rdf", "mappings=mappings.nt"]),
]
PIECES = [b'"', b",", b";", b"\t", b"\n", b"\r", b"\xff", b"\x00", b" > ", b"sep=|\n", b"#", b"(", b"=", b"<", b".", b":", b"\xef\xbb\xbf", b"x" * 200]
PLACED = re.compile(r"^from_\w+: (\S+:\d+:\d+: |\S+\.zip(/\S+)?: |\S+\.(ttl|rdf|nt)|--|there are )")


def files_of(folder):
    out = {}
    for top, _, names in os.walk(os.path.join(TABLES, folder)):
        for name in names:
            with open(os.path.join(top, name), "rb") as file:
                out[os.path.relpath(os.path.join(top, name), os.path.join(TABLES, folder))] = file.read()
    return out


def zipped(files):
    out = io.BytesIO()
    with zipfile.ZipFile(out, "w") as archive:
        for name, data in files.items():
            archive.writestr(os.path.basename(name), data)
    return out.getvalue()


def damaged(draw, data):
    """The bytes with one to three pieces cut out, doubled, put in or changed."""
    for _ in range(draw.randint(1, 3)):
        at = draw.randrange(len(data) + 1)
        end = min(len(data), at + draw.choice([1, 1, 2, 5, 40]))
        kind = draw.randrange(5)
        if kind == 0:
            data = data[:at] + data[end:]
        elif kind == 1:
            data = data[:at] + data[at:end] * 2 + data[end:]
        elif kind == 2:
            data = data[:at] + draw.choice(PIECES) + data[at:]
        elif kind == 3:
            data = data[:at] + bytes([draw.randrange(256)]) + data[at + 1 :]
        else:
            data = data[:at]
    return data


class Damaged(unittest.TestCase):
    def test_each_run_ends_well_or_names_a_place(self):
        draw, ends = random.Random(SEED), {0: 0, 1: 0}
        for number in range(COUNT):
            tool, folder, words = CASES[number % len(CASES)]
            if tool == "from_skos" and rdf_files.rdflib is None:
                continue
            files = files_of(folder)
            name = draw.choice(sorted(files))
            files[name] = damaged(draw, files[name])
            files["flora2019.zip"] = zipped({one: data for one, data in files.items() if one.startswith("flora2019/")})
            if draw.random() < 0.1:
                files["flora2019.zip"] = damaged(draw, files["flora2019.zip"])
            there = tool_runs.Folder(self)
            there.write(files)
            code, out, err = there.run(tool, *words)
            self.assertIn(code, ends, f"{SEED} {number}")
            ends[code] += 1
            if code == 0:
                texts.read_problem(out.encode(), (True, True, True))
            else:
                self.assertEqual(out, "")
                self.assertRegex(err, PLACED, f"{SEED} {number}")
        self.assertTrue(min(ends.values()) > COUNT // 10, ends)


if __name__ == "__main__":
    rdf_files.take_debians_python()
    unittest.main(argv=sys.argv[:1])
