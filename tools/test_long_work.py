#!/usr/bin/env python3
"""Tests of tools/list and tools/watch, and of the shares that they tell. Most need the program.

    python3 tools/test_long_work.py
"""

import os
import pty
import random
import signal
import subprocess
import sys
import time
import unittest

HERE = os.path.dirname(os.path.abspath(__file__))
sys.path.insert(0, os.path.join(HERE, "../tests"))
import tool_runs  # noqa: E402
import shares  # noqa: E402

PROGRAM = tool_runs.program()
SEVERAL = "taxonomy a\n(A B C)\ntaxonomy b\n(P Q R)\narticulation\n[a.A equals b.P]\n"
NONE = "taxonomy a\n(A B C)\ntaxonomy b\n(P)\narticulation\n[a.B equals b.P]\n[a.C equals b.P]\n"
FLAT = "taxonomy a\n(A B C D E F)\ntaxonomy b\n(P Q R S T U V)\narticulation\n[a.A equals b.P]\n"
BEHIND = r"(about ([\d.]+ %|less than 0.1 %)( or less)?|unknown) behind"


class Shares(unittest.TestCase):
    def test_all_worlds_of_free_pairs(self):
        # where each relation has as many worlds below it, the share is right from the start
        measure = shares.Measure(["=<", ">", "=><x!", "x!"])
        worlds = [a + ">" + b + c for a in "=<" for b in "=><x!" for c in "x!"]
        self.assertEqual([round(20 * measure.share(measure.key(world))) for world in worlds], list(range(20)))

    def test_weights_are_learnt(self):
        # pairs that are = once in ten times, and ! otherwise
        draw, lines = random.Random(3), []
        lines = sorted(("".join("=" if draw.random() < 0.1 else "!" for _ in range(8)) for _ in range(4000)), key=lambda line: [shares.ORDER.index(x) for x in line])
        measure = shares.Measure(["=!"] * 8)
        sample = shares.Sample(measure)
        for line in lines[:2000]:
            sample.add(line)
        forecast = shares.Forecast(measure, sample)
        self.assertTrue(0.2 < forecast.behind < 0.8, forecast.behind)
        low, high = forecast.left
        self.assertTrue(low < 2000 and (high is None or 2000 < high), forecast.left)

    def test_unknown(self):
        self.assertEqual(shares.report(shares.Forecast(None, shares.Sample(None)), shares.Pace(), 3), "3 worlds, unknown behind, rate unknown, time left unknown")
        measure = shares.Measure(["=!"])
        few = shares.Sample(measure)
        few.add("=")
        self.assertIsNone(shares.Forecast(measure, few).behind)


@unittest.skipUnless(PROGRAM, "the program is not found")
class Ranges(unittest.TestCase):
    """Looks at listings of the problems of bench/problems.py, whose length is known: most ranges hold what is left."""

    def looks(self, words, *switches):
        folder = tool_runs.Folder(self)
        problem = subprocess.run([sys.executable, os.path.join(HERE, "../bench/problems.py"), *words], capture_output=True, check=True).stdout
        folder.write({"p.txt": problem})
        words = [PROGRAM, "align", f"in={folder.at('p.txt')}", *switches]
        worlds = subprocess.run(words, capture_output=True, text=True, check=True).stdout.split("\n")[:-2]
        measure = shares.measure_of(folder.at("p.txt"), switches, 60)
        sample, at = shares.Sample(measure), {len(worlds) * part // 100 for part in (2, 5, 10, 25, 50, 75, 90, 97)}
        for number, world in enumerate(worlds, 1):
            sample.add(world)
            if number in at:
                yield len(worlds) - number, shares.Forecast(measure, sample).left

    def test_most_hold(self):
        held = missed = 0
        for words in [("flat", "3", "5"), ("split", "4", "4"), ("flat", "3", "4", "coverage=off"), ("flat", "2", "3", "sibling=off")]:
            for left, told in self.looks(words[:3], *words[3:]):
                if told:
                    holds = told[0] <= left and (told[1] is None or left <= told[1])
                    held, missed = held + holds, missed + (not holds)
        self.assertTrue(held >= 24 and missed <= 4, (held, missed))


@unittest.skipUnless(PROGRAM, "the program is not found")
class List(unittest.TestCase):
    def setUp(self):
        self.folder = tool_runs.Folder(self)
        self.folder.write({"several.txt": SEVERAL, "none.txt": NONE, "flat.txt": FLAT})

    def whole(self, problem, *switches):
        return subprocess.run([PROGRAM, "align", f"in={self.folder.at(problem)}", *switches], capture_output=True, text=True, check=False).stdout

    def test_to_the_end(self):
        self.assertEqual(self.folder.run("list", "several.txt"), (0, self.whole("several.txt"), ""))
        self.assertEqual(self.folder.run("list", "several.txt", "coverage=off"), (0, self.whole("several.txt", "coverage=off"), ""))
        self.assertFalse(os.path.exists(self.folder.at("several.txt.token")))

    def test_no_world(self):
        code, out, err = self.folder.run("list", "none.txt")
        self.assertEqual((code, out), (6, "complete 0\n"))
        self.assertIn("no merged classification meets all statements", err)

    def test_parts_are_the_whole(self):
        parts, runs = [], 0
        while runs < 40:
            code, out, _ = self.folder.run("list", "flat.txt", "--seconds", "0.4", "--token", "place")
            lines = out.split("\n")
            self.assertEqual(lines[-2:], [f"{'cut' if code == 5 else 'complete'} {len(lines) - 2}", ""])
            parts += lines[:-2]
            runs += 1
            if code != 5 or len(parts) > 20000:
                break
        self.assertEqual(parts, self.first(len(parts)))
        self.assertTrue(parts)
        self.assertEqual(os.path.exists(self.folder.at("place")), code == 5)

    def first(self, count):
        words = [PROGRAM, "align", f"in={self.folder.at('flat.txt')}", f"worlds={count}", f"token={self.folder.at('t')}"]
        return subprocess.run(words, capture_output=True, text=True, check=False).stdout.split("\n")[:-2]

    def test_ctrl_c_leaves_whole_lines_and_a_token(self):
        for which in (signal.SIGINT, signal.SIGTERM):
            # what runs in the background may ignore Ctrl-C, and so may this test
            heeds = lambda: signal.signal(signal.SIGINT, signal.SIG_DFL)
            words = [sys.executable, os.path.join(HERE, "list"), "flat.txt", "--token", "place"]
            with open(self.folder.at("out"), "w", encoding="utf-8") as out:
                child = subprocess.Popen(words, cwd=self.folder.path, stdout=out, preexec_fn=heeds)
            self.addCleanup(child.kill)
            while os.path.getsize(self.folder.at("out")) == 0:
                time.sleep(0.02)
            child.send_signal(which)
            self.assertEqual(child.wait(timeout=120), 5)
            lines = self.folder.read("out").split("\n")
            self.assertEqual(lines[-2:], [f"cut {len(lines) - 2}", ""])
            self.assertEqual(lines[:-2], self.first(len(lines) - 2))
            self.assertTrue(self.folder.read("place").startswith("token 2 "))
            os.unlink(self.folder.at("place"))

    def test_progress_on_a_terminal(self):
        ours, theirs = pty.openpty()
        words = [sys.executable, os.path.join(HERE, "list"), "flat.txt", "--seconds", "6"]
        done = subprocess.run(words, cwd=self.folder.path, stdout=subprocess.DEVNULL, stderr=theirs, timeout=120, check=False)
        os.close(theirs)
        shown = os.read(ours, 1 << 16).decode()
        os.close(ours)
        self.assertEqual(done.returncode, 5)
        self.assertRegex(shown, r"[\d,]+ worlds, " + BEHIND + r", .*, time left ")

    def test_faults(self):
        self.folder.write({"wrong.txt": "taxonomy a\n(A B\n", "other.token": "token 1 x y\n"})
        code, out, err = self.folder.run("list", "wrong.txt")
        self.assertEqual((code, out), (1, "refused 2 BadLine\n"))
        self.assertIn("wrong.txt:2:", err)
        code, out, _ = self.folder.run("list", "flat.txt", "--token", "other.token")
        self.assertEqual((code, out), (7, "token BadToken\n"))
        self.assertEqual(self.folder.run("list", "flat.txt", "worlds=3")[0], 2)
        self.assertEqual(self.folder.run("list", "flat.txt", "--seconds", "0")[0], 2)
        code, out, _ = self.folder.run("list", "nowhere.txt")
        self.assertEqual((code, out), (3, "read fault\n"))


@unittest.skipUnless(PROGRAM, "the program is not found")
class Watch(unittest.TestCase):
    def setUp(self):
        self.folder = tool_runs.Folder(self)
        self.folder.write({"several.txt": SEVERAL, "flat.txt": FLAT})

    def made(self, problem, *words):
        return subprocess.run([PROGRAM, "align", f"in={self.folder.at(problem)}", *words], capture_output=True, check=False).stdout

    def growing(self, name, data, *words):
        """What watch puts while a file grows to twice its length."""
        half = data.rfind(b"\n", 0, len(data) // 2) + 1
        self.folder.write({name: data[:half]})
        run = [sys.executable, os.path.join(HERE, "watch"), name, "--every", "1", *words]
        child = subprocess.Popen(run, cwd=self.folder.path, stdout=subprocess.PIPE, text=True)
        self.addCleanup(child.kill)
        lines = [child.stdout.readline()]
        for k in range(1, 4):
            with open(self.folder.at(name), "ab") as file:
                file.write(data[half + (k - 1) * (len(data) - half) // 4 : half + k * (len(data) - half) // 4])
            lines.append(child.stdout.readline())
        with open(self.folder.at(name), "ab") as file:
            file.write(data[half + 3 * (len(data) - half) // 4 :])
        return lines, child.communicate(timeout=60)[0]

    def test_a_listing(self):
        data = self.made("flat.txt", "worlds=20000", f"token={self.folder.at('t')}")
        lines, last = self.growing("worlds", data, "--problem", "flat.txt")
        self.assertRegex(lines[0], r"^[\d,]+ worlds, " + BEHIND + r", rate unknown, time left unknown\n$")
        self.assertRegex(lines[-1], r" worlds, " + BEHIND + r", [\d,.]+ a second, time left (unknown|[\d,]+ \w+ (or more|to [\d,]+ \w+))\n$")
        self.assertTrue(last.endswith("ended: cut 20000\n"), last)

    def test_without_the_problem(self):
        self.folder.write({"worlds": self.made("several.txt").split(b"complete")[0]})
        code, out, _ = self.folder.run("watch", "worlds", "--once", "--every", "0.1")
        self.assertEqual((code, out), (0, "7 worlds, unknown behind, rate unknown, time left unknown\n"))

    def test_a_part_by_its_tokens(self):
        self.folder.write({"four.txt": FLAT.replace(" F)", ")").replace(" U V)", ")")})  # 26,000 worlds, of which this looks at a third
        self.made("four.txt", "worlds=2000", f"token={self.folder.at('begin')}")
        self.made("four.txt", "worlds=8000", f"resume={self.folder.at('begin')}", f"token={self.folder.at('end')}")
        data = self.made("four.txt", f"resume={self.folder.at('begin')}", "worlds=4000", f"token={self.folder.at('t')}")
        self.folder.write({"worlds": data.split(b"cut")[0]})
        _, out, _ = self.folder.run("watch", "worlds", "--once", "--every", "0.1", "--problem", "four.txt", "--resume", "begin", "--until", "end")
        self.assertRegex(out, r"^4,000 worlds, " + BEHIND)
        if "about" in out and "or less" not in out:
            share = float(out.split(", ")[1].split(" ")[1])
            self.assertTrue(20 < share < 80, out)

    def test_certificates(self):
        self.made("several.txt", "sibling=off", f"cert={self.folder.at('whole')}")
        with open(self.folder.at("whole"), "rb") as file:
            data = file.read()
        self.folder.write({"cert": data[: len(data) // 2]})
        _, out, _ = self.folder.run("watch", "cert", "--once", "--every", "0.1", "--problem", "several.txt", "sibling=off")
        self.assertRegex(out, r"^[\d,]+ worlds, [\d,]+ lines of the tree, " + BEHIND + r", rate unknown, time left unknown\n$")
        self.assertEqual(self.folder.run("watch", "whole")[:2], (0, "ended: end -\n"))
        subprocess.run([PROGRAM, "mir", f"in={self.folder.at('flat.txt')}", f"cert={self.folder.at('claims')}"], capture_output=True, check=False)
        self.assertEqual(self.folder.run("watch", "claims")[:2], (0, "ended: done\n"))
        with open(self.folder.at("claims"), "rb") as file:
            data = file.read()
        self.folder.write({"claims": data[: len(data) // 2]})
        _, out, _ = self.folder.run("watch", "claims", "--once", "--every", "0.1", "--problem", "flat.txt")
        self.assertRegex(out, r"^\d+ claims, [\d.]+ % of the pairs behind, time left unknown\n$")

    def test_nodes_of_a_certificate(self):
        # the node that is found from the end of each piece is the one that all lines lead to
        self.made("several.txt", "sibling=off", "coverage=off", f"cert={self.folder.at('whole')}")
        certificate = tool_runs.loaded("watch").Certificate(self.folder.at("whole"), None)
        with open(self.folder.at("whole"), "rb") as file:
            lines, node, tree = file.read().split(b"\n")[:-1], [], 0
        for at in range(0, len(lines), 37):
            for line in lines[at : at + 37]:
                words = line.decode().split(" ")
                if words[0] in "bxew":
                    node[max(0, int(words[1]) - 1) :] = [] if words[2] == "." else [words[2]]
                    tree += 1
            certificate.take(b"\n" + b"\n".join(lines[at : at + 37]) + b"\n")
            self.assertEqual((certificate.node, certificate.count), ("".join(node), tree))
            certificate.read += 1
        self.assertEqual(certificate.end, "end -")

    def test_faults(self):
        self.folder.write({"empty": ""})
        self.assertEqual(self.folder.run("watch", "empty", "--once", "--every", "0.1"), (0, "nothing yet\n", ""))
        self.folder.write({"text": "what is this\nand this\nand that\n", "t": "no token?\n"})
        self.assertEqual(self.folder.run("watch", "text", "--once"), (1, "", "watch: text:1:1: this is no line of a listing: 'what is this'\n"))
        self.assertEqual(self.folder.run("watch", "nowhere", "--once")[:2], (1, ""))
        self.folder.write({"worlds": self.made("several.txt").split(b"complete")[0]})
        self.assertEqual(self.folder.run("watch", "worlds", "--once", "--until", "t")[2], "watch: t: this is no token\n")


if __name__ == "__main__":
    unittest.main()
