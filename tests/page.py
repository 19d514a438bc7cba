#!/usr/bin/env python3
"""Tests of tools/page: what its pages say, that `tidy` finds no fault in them, and that they work in a browser.

    tests/page.py [--program PATH] [--pictures FOLDER] [--only TEXT]

Without Debian's `tidy`, `chromium` or Graphviz the parts that need them are left out, and the last line says so. With --pictures the
screenshots are kept, for people to look at; with --only the tests alone whose names have this text.
"""

import json
import os
import re
import shutil
import sys
import unittest
from html import unescape

import browser
import harness
from page_problems import FOLDER, example, pages, wrong, written
from small_runs import made

sys.dont_write_bytecode = True
sys.path.insert(0, os.path.join(harness.ROOT, "tools"))
import taxa  # noqa: E402
from page_parts import worlds  # noqa: E402

TOOL = os.path.join(harness.ROOT, "tools/page")
PROGRAM = PICTURES = None
MADE = {}


def run_page(path, *words, code=0):
    environment = dict(os.environ, EULER_ALIGN=PROGRAM)
    done = harness.run([sys.executable, TOOL, path, *words], env=environment)
    assert done.code == code, done
    return done.out.decode() if code == 0 else done.err.decode()


def page_of(path, *words):
    """The file of a page, made once."""
    key = (path, *words)
    if key not in MADE:
        MADE[key] = written(f"page{len(MADE)}.html", run_page(path, "--extra", "3", *words))
    return MADE[key]


def text_of(path, *words):
    with open(page_of(path, *words), encoding="utf-8") as file:
        return file.read()


def plain(text):
    """What is read on a page: without its script, style and tags."""
    text = re.sub(r"<(script|style)\b.*?</\1>", " ", text, flags=re.S)
    text = re.sub(r"<[^>]*>", " ", text)
    return re.sub(r"\s+", " ", unescape(text))


class Pages(unittest.TestCase):
    def says(self, name, *wanted):
        read = plain(text_of(*pages()[name]))
        for words in wanted:
            self.assertTrue(words in read, f"{name}: `{words}` is not on it")

    def test_merged_as_the_program_merges(self):
        for name in ("furniture", "genus", "catalogue", "several_worlds", "sum", "five_answers"):
            path = example(name + ".txt")
            put = lambda *words: harness.run([PROGRAM, *words, f"in={path}"]).out.decode().splitlines()
            told = [json.loads(line) for line in put("report", "kinds=json") if line.startswith("{")]
            pairs = worlds.Pairs(taxa.Problem(path))
            self.assertEqual([worlds.merged(pairs, world) for world in put("align")[:-1]], told, name)

    def test_what_they_say(self):
        self.says(
            "furniture", "2 possible worlds, one open question", "Does Sofa 2023 include more than Upholstered 2024 ?", "141 of 144",
            "Sofa 2023 overlaps or is disjoint from Wooden 2024", "leaves 1 world of 2", "Differs from world 1 in 3 pairs", "euler_align mir in=",
        )
        self.says("catalogue", "2 possible worlds, one open question", "Does Pens 2023 include more than Pens 2025 ?")
        self.says("one world, a rule off", "5 possible worlds", "coverage off", "coverage=off")
        # the relation of Mechanics and Optics would tell all, but can't be stated
        self.says("a sum", "Does Physics library include more than Mechanics school ?", "How do Mechanics school and Optics school relate?")
        self.says("no statements", "5 possible worlds, one open question", "How do Cats 1 and Felines 2 relate?")
        self.says("a taxonomy without concepts", "One possible world", "euler_align mir 'in=")
        self.says("256 beside 256", "7 possible worlds", "65,532 of 65,536")

    def test_what_a_conflict_says(self):
        self.says(
            "conflict", "No merged classification: 3 statements can't stand together", "[2023.Bench disjoint 2024.Wooden]", "{equals includes overlaps}",
            "still none: there is another conflict", "coverage=off (a parent may have something beside its children) would end it: 8 worlds",
            "nonempty=off (concepts may be empty) would not end it",
        )
        # the line in the file, and not the number of the statement
        self.assertTrue(re.search(r'<td class="num"><a [^>]*>18</a></td><td class="stated"><code><bdi dir="ltr">\[2023\.Sofa \{equals includes\}', text_of(wrong())))

    def test_independent_questions(self):
        path = written("three.txt", made("loose", 3, 1))
        read = plain(text_of(path))
        self.assertTrue("343 possible worlds: 3 questions with 7 answers each" in read)
        self.assertTrue("alone it leaves 77 of 343 worlds on average" in read)
        self.says("too many worlds", "At least 20 possible worlds", "the budget of 20 worlds was used up", "Question 3:")

    def test_why_a_pair_is_settled(self):
        data = json.loads(re.search(r'id="data">(.*?)</script>', text_of(example("one_world.txt")), re.S)[1])
        # Perennials and ManyYears: both other pairs are needed
        self.assertEqual(data["why"]["8"], [1, 2])
        self.assertEqual(data["total"], 1)

    def test_names_are_escaped(self):
        text = text_of(*pages()["odd names"])
        for words in ("<b>bold", "<i>Ana", "</title> Root"):
            self.assertFalse(words in text, words)
        self.assertEqual(text.count("<script"), 2)
        for words in ("&lt;b&gt;bold&lt;/b&gt;", '<bdi class="cn">שלום</bdi>', "&amp;amp;", "said by &lt;i&gt;Ana&lt;/i&gt;", '<code><bdi dir="ltr">[a&lt;b.שלום {equals'):
            self.assertTrue(words in text, words)

    def test_they_need_nothing_else(self):
        for name, words in pages().items():
            text = text_of(*words)
            self.assertEqual(re.findall(r'(?:src|href)="(?!#)[^"]*"|url\(|@import', text), [], name)
            self.assertLess(len(text.encode()), 8_000_000, name)

    @unittest.skipUnless(shutil.which("tidy"), "tidy is not installed")
    def test_tidy_finds_no_fault(self):
        for name, words in pages().items():
            done = harness.run(["tidy", "-q", "-e", page_of(*words)])
            self.assertEqual((done.code, done.err.decode()), (0, ""), name)

    @unittest.skipUnless(shutil.which("dot"), "Graphviz is not installed")
    def test_pictures_and_lists(self):
        self.assertEqual(text_of(example("furniture.txt")).count("<svg"), 2)
        here = {name: os.path.dirname(shutil.which(name)) for name in ("dot", "python3")}
        if here["dot"] != here["python3"]:
            environment = dict(os.environ, EULER_ALIGN=PROGRAM, PATH=here["python3"])
            done = harness.run([sys.executable, TOOL, example("genus.txt")], env=environment)
            self.assertTrue("Graphviz isn't installed" in plain(done.out.decode()), done.err.decode())
            self.assertFalse("<svg" in done.out.decode())

    def slow(self, command, *words, switch="", problem=example("genus.txt")):
        """A page by a program that takes very long for one command, or for this one with a switch."""
        is_slow = f"sys.argv[1] == {command!r} and {switch!r} in [*sys.argv, '']"
        text = f"import os, sys, time\nif {is_slow}:\n    time.sleep(60)\nos.execv({PROGRAM!r}, [{PROGRAM!r}, *sys.argv[1:]])\n"
        path = written(f"slow_{command}", f"#!{sys.executable}\n{text}")
        os.chmod(path, 0o755)
        environment = dict(os.environ, EULER_ALIGN=path)
        tool = [sys.executable, TOOL, problem, "--seconds", "3", "--extra", "1", *words]
        done = harness.run(tool, env=environment)
        self.assertEqual((done.code, done.err.decode()), (0, ""))
        return plain(done.out.decode())

    def test_where_the_time_was_over(self):
        read = self.slow("align")
        self.assertTrue("No world was listed in the time given" in read and "33 of 36" in read and "Does montana 1988 include more than alpina 2021 ?" in read)
        read = self.slow("mir")
        # all worlds are listed, so their letters tell all
        self.assertTrue("2 possible worlds, one open question" in read and "33 of 36" in read)
        read = self.slow("mir", "--worlds", "1")
        self.assertTrue("more may be possible" in read and "33 of 36" not in read)
        self.assertTrue("2 possible worlds" in self.slow("report"))

    def test_without_time_to_try(self):
        read = plain(run_page(pages()["too many worlds"][0], "--worlds", "20", "--extra", "0"))
        self.assertRegex(read, r"There was no time to try [\d,]+ open pairs; more is given by --extra SECONDS")

    def test_a_switch_whose_worlds_are_slow_to_list(self):
        read = self.slow("align", "--extra", "5", switch="coverage=off", problem=wrong())
        self.assertTrue("coverage=off (a parent may have something beside its children) would end it: 1 world or more" in read, read)
        read = self.slow("align", "--extra", "5", switch="nonempty=off", problem=wrong())
        self.assertTrue("nonempty=off (concepts may be empty) would not end it" in read, read)

    def test_what_is_refused(self):
        with open(example("furniture.txt"), encoding="utf-8") as file:
            path = written("typo.txt", file.read().replace("2024.Single]", "2024.Singel]"))
        said = run_page(path, code=1)
        self.assertIn("the program refuses the file: refused 17 UnknownConcept", said)
        self.assertIn("page: no_such_file: No such file or directory", run_page("no_such_file", code=1))
        self.assertIn("'speed=off' is no switch", run_page(path, "speed=off", code=2))
        self.assertIn("are no concepts of two taxonomies", run_page(example("genus.txt"), "--explain", "1988.alba", "2021.nothing", code=1))


@unittest.skipUnless(browser.installed(), "chromium is not installed")
class InABrowser(unittest.TestCase):
    @classmethod
    def setUpClass(cls):
        cls.page = browser.Browser()

    @classmethod
    def tearDownClass(cls):
        cls.page.close()

    def open(self, name, width=1280, height=900):
        self.page.size(width, height)
        self.page.open(page_of(*pages()[name]))
        self.page.value("new Promise(done => requestAnimationFrame(() => setTimeout(done, 30)))")

    def told(self):
        return re.sub(r"\s+", " ", self.page.value("document.getElementById('told').innerText"))

    def keep(self, name, whole=True):
        if PICTURES:
            self.page.picture(os.path.join(PICTURES, name + ".png"), whole)

    def middle(self, row, column):
        """Where the middle of a cell is on the screen."""
        find = f"(() => {{ const box = canvas.getBoundingClientRect(); return [box.left + headWidth + {column + 0.5} * size, box.top + headHeight + {row + 0.5} * size]; }})()"
        self.page.value("document.getElementById('stage').scrollIntoView({block: 'center'})")
        return self.page.value(find)

    def test_no_script_fails(self):
        for name in pages():
            self.open(name)
            self.assertEqual(self.page.faults(), [], name)
            self.keep(name)

    def test_keys(self):
        self.open("furniture")
        self.assertIn("Sofa 2023 equals or includes Upholstered 2024", self.told())
        self.assertIn("Of 2 possible worlds: = in 1 > in 1", self.told())
        self.page.value("document.getElementById('stage').focus()")
        self.page.key("n", "n")
        self.assertIn("overlaps or is disjoint from Wooden", self.told())
        self.page.key("p", "p")
        self.page.key("ArrowUp")
        self.assertIn("Chair 2023 is disjoint from Upholstered 2024", self.told())
        self.assertIn("line 26: [2023.Chair disjoint 2024.Upholstered]", self.told())
        self.page.key("End")
        self.assertIn("Chair 2023 is disjoint from Closed 2024", self.told())
        self.assertIn("Follows from", self.told())

    def test_folding(self):
        self.open("furniture")
        self.page.value("document.getElementById('stage').focus()")
        for _ in range(2):
            self.page.key("ArrowUp")
        self.assertIn("Seating", self.told())
        self.page.key("f", "f")
        self.assertEqual(self.page.value("rows.shown.length"), 9)
        self.assertIn("Folded: open pairs are below these two", self.told())
        self.page.value("document.getElementById('fold').click()")
        self.assertEqual(self.page.value("[rows.shown.length, columns.shown.length]"), [1, 1])
        self.page.value("document.getElementById('level').click()")
        self.assertEqual(self.page.value("[rows.shown.length, columns.shown.length]"), [4, 4])
        self.page.value("document.getElementById('next').click()")
        self.assertIn("equals or includes", self.told())

    def test_names_that_are_cut(self):
        self.open("paths")
        cut = lambda name, most: self.page.value(f"(() => {{ pen.font = `13px ${{FONT}}`; return clip({name!r}, {most}, rows.all); }})()")
        one, other = (cut(f"Tools > Accessories > Drills > {end}", 130) for end in ("Wood", "Steel"))
        self.assertTrue(one.startswith("Tools") and "…" in one and one.endswith("Wood"), one)
        self.assertTrue(other.startswith("Tools") and "…" in other and other.endswith("Steel"), other)
        self.assertRegex(cut("Garden furniture and all that goes with it", 130), "^Garden fur.*…$")
        self.assertEqual(cut("Goods", 130), "Goods")

    def test_mouse(self):
        self.open("furniture")
        self.page.mouse("mouseMoved", *self.middle(0, 1))
        self.assertIn("Furniture 2023 includes Seats 2024", self.told())
        self.page.click(*self.middle(5, 6))
        self.page.mouse("mouseMoved", *self.middle(0, 1))
        self.assertIn("Tables 2023 equals Surfaces 2024", self.told())

    def test_links_to_the_matrix(self):
        self.open("catalogue")
        self.page.value("document.querySelectorAll('.pairs [data-place]')[2].click()")
        self.assertIn("Pens 2023 is included in or overlaps Stationery 2025", self.told())
        self.assertEqual(self.page.value("[...Array(data.may.length).keys()].every(k => placeOf(...pairAt(k)) === k)"), True)

    def test_filters(self):
        self.open("furniture")
        self.page.value("document.getElementById('only').click()")
        shown = "[...rows.shown, ...columns.shown].map(item => data.names[item.concept]).join(' ')"
        self.assertEqual(self.page.value(shown), "Furniture Seating Sofa Bench Goods Seats Shared Upholstered Wooden")
        self.page.value("document.getElementById('only').click()")
        typed = "const name = document.getElementById('name'); name.value = '{}'; name.dispatchEvent(new Event('input'));"
        self.page.value(f"(() => {{ {typed.format('deSK')} }})()")
        self.assertEqual(self.page.value(shown), "Furniture Tables Desk Goods Surfaces Work")
        self.page.value(f"(() => {{ {typed.format('nowhere')} }})()")
        self.assertIn("No name has this in it", self.told())

    def test_a_choice_of_two_taxonomies(self):
        self.open("catalogue")
        # the two with the most open pairs come first
        self.assertEqual(self.page.value("[rows.tax, columns.tax]"), [0, 2])
        self.page.value("(() => { const c = document.getElementById('columns'); c.value = '1'; c.dispatchEvent(new Event('change')); moveTo(0, 0, true); })()")
        self.assertIn("Goods 2023 equals Goods 2024", self.told())
        self.page.value("(() => { const c = document.getElementById('columns'); c.value = '2'; c.dispatchEvent(new Event('change')); })()")
        self.page.value("moveTo(0, 0, true)")
        self.assertIn("Goods 2023 overlaps Goods 2025", self.told())
        self.page.value("(() => { const r = document.getElementById('rows'); r.value = '2'; r.dispatchEvent(new Event('change')); })()")
        # the other one changed, since both were the same
        self.assertEqual(self.page.value("[rows.tax, columns.tax]"), [2, 0])
        self.page.value("moveTo(0, 1, true)")
        self.assertIn("Goods 2025 overlaps Goods 2023" if self.page.value("columns.shown[1].concept") == 0 else "Goods 2025", self.told())
        self.assertEqual(self.page.value("mayBe(columns.all[0].concept, rows.all[1].concept) + mayBe(rows.all[1].concept, columns.all[0].concept)"), "><")

    def test_one_world_at_a_time(self):
        self.open("furniture")
        seen = "[...document.querySelectorAll('.view')].filter(view => view.offsetHeight > 0).length"
        self.assertEqual(self.page.value(seen), 1)
        self.page.value("document.getElementById('after').click()")
        self.assertEqual(self.page.value(seen), 1)
        self.assertIn("Differs from world 1", self.page.value("document.querySelector('.view:not(.away)').innerText"))

    def test_a_narrow_window(self):
        for name in ("furniture", "conflict", "odd names", "256 beside 256", "long names"):
            self.open(name, 360, 740)
            self.assertLessEqual(self.page.value("document.documentElement.scrollWidth"), 360, name)
            self.keep(f"narrow {name}")

    def test_print(self):
        self.open("furniture")
        path = os.path.join(PICTURES or FOLDER, "furniture.pdf")
        self.page.print(path)
        with open(path, "rb") as file:
            self.assertEqual(file.read(5), b"%PDF-")
        self.assertEqual(self.page.value("printing"), False)

    def test_a_large_page_opens_quickly(self):
        # the processor's time, so that other programs don't count; on a page of its own, so that nothing is left of others
        self.page.send("Performance.enable", timeDomain="threadTicks")
        used = lambda: {m["name"]: m["value"] for m in self.page.send("Performance.getMetrics")["metrics"]}["ThreadTime"]
        before = used()
        self.open("256 beside 256")
        after = used()
        # a new page may have a new process, whose time begins anew
        self.assertLess(after - before if after > before else after, 2)
        self.assertEqual(self.page.value("data.names.length"), 512)
        begun = used()
        self.page.value("(() => { document.getElementById('unfold').click(); for (let k = 0; k < 20; k++) { stage.scrollTop = 90 * k; stage.scrollLeft = 70 * k; draw(); } })()")
        self.assertLess((used() - begun) / 20, 0.1)


def main():
    global PROGRAM, PICTURES
    given = harness.arguments(__doc__, "program", pictures="", only="")
    PROGRAM, PICTURES = given.program, given.pictures
    if PICTURES:
        os.makedirs(PICTURES, exist_ok=True)
    try:
        ran = unittest.main(argv=[sys.argv[0], *(["-k", given.only] if given.only else [])], exit=False).result
    finally:
        shutil.rmtree(FOLDER, ignore_errors=True)
    missing = [name for name in ("tidy", "dot", "chromium") if not (shutil.which(name) or (name == "chromium" and browser.installed()))]
    left_out = f"; not installed, so left out: {', '.join(missing)}" if missing else ""
    print(f"page: {ran.testsRun} tests, {len(ran.failures) + len(ran.errors)} failed{left_out}")
    return 0 if ran.wasSuccessful() else 1


if __name__ == "__main__":
    sys.exit(main())
