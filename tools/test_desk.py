#!/usr/bin/env python3
"""Tests of tools/desk, by a pseudo-terminal.

    python3 tools/test_desk.py

The desk's program is the one that the variable EULER_DESK names, or that was built or is on the path; where there is none,
tests/desk_stand_in.py stands in for it.
"""

import os
import pty
import re
import select
import signal
import subprocess
import sys
import termios
import time
import unittest

HERE = os.path.dirname(os.path.abspath(__file__))
sys.path.insert(0, os.path.join(HERE, "../tests"))
import tool_runs  # noqa: E402
from tables import Fault  # noqa: E402

PROGRAM = tool_runs.program("euler_desk") or os.path.join(HERE, "../tests/desk_stand_in.py")
DESK = tool_runs.loaded("desk")
SEVERAL = "# two divisions of the same\ntaxonomy old Old\n(Chairs Wooden Padded)\ntaxonomy new New\n(Seats Single Shared)\narticulation\n"
SEVERAL += "[old.Chairs equals new.Seats]  # agreed\n[old.Wooden {equals includes overlaps} new.Single]\n"
BARE = "taxonomy a\n(A)\ntaxonomy b\n(B)\n"
WHOLE = """  old.Chairs equals new.Seats
  new.Single is included in old.Chairs
  new.Shared is included in old.Chairs
  old.Wooden is included in new.Seats
  old.Wooden equals new.Single
  old.Padded is included in new.Seats
  old.Padded equals new.Shared
"""
SECOND = """  new.Single is included in old.Wooden, was: equals
  old.Wooden overlaps new.Shared, was: disjoint
  old.Padded is included in new.Shared, was: equals
"""


class Terminal:
    """A dialogue at a terminal."""

    def __init__(self, test, folder, *words):
        ours, theirs = pty.openpty()
        termios.tcsetwinsize(ours, (50, 500))
        environment = {**os.environ, "TERM": "dumb", "LC_ALL": "C.UTF-8", "INPUTRC": os.devnull}
        start = lambda: signal.signal(signal.SIGINT, signal.SIG_DFL)
        command = [sys.executable, os.path.join(HERE, "desk"), *words, "--program", PROGRAM]
        self.child = subprocess.Popen(
            command, cwd=folder, env=environment, stdin=theirs, stdout=theirs, stderr=theirs, start_new_session=True, preexec_fn=start
        )
        os.close(theirs)
        self.file = ours
        test.addCleanup(self.close)
        self.begin = self.read()

    def close(self):
        if self.child.poll() is None:
            self.child.kill()
        self.child.wait()
        os.close(self.file)

    def read(self, until=r"(?:^|\n)slot \d+> $"):
        """What is put up to the next prompt, or the end of the dialogue."""
        text, deadline = "", time.monotonic() + 60
        while not re.search(until, text):
            if not select.select([self.file], [], [], max(0, deadline - time.monotonic()))[0]:
                raise AssertionError(f"nothing further is put; so far {text!r}")
            try:
                piece = os.read(self.file, 1 << 16).decode()
            except OSError:
                break
            if not piece:
                break
            text = re.sub(r"\x1b\[\?\d+[hl]", "", text + piece.replace("\r\n", "\n"))
        return text

    def say(self, line):
        """What is put for a line, without the line itself and the next prompt, which is kept."""
        os.write(self.file, line.encode() + b"\n")
        text = self.read()
        self.prompt = text.rpartition("\n")[2]
        said = text.partition("\n")[2].rpartition("\n")
        return said[0] + said[1]


class Dialogues(unittest.TestCase):
    def setUp(self):
        self.folder = tool_runs.Folder(self)
        self.folder.write({"several.txt": SEVERAL, "bare.txt": BARE})

    def terminal(self, *words):
        return Terminal(self, self.folder.path, *(words or ["several.txt"]))

    def test_worlds(self):
        at = self.terminal()
        self.assertEqual(at.begin, "several.txt: 6 concepts, 2 statements. Slot 1 is open; `help` lists what you can write.\nslot 1> ")
        self.assertEqual(at.say("world"), "no world was shown yet; `next` shows one\n")
        self.assertEqual(at.say("next"), "world 1\n" + WHOLE)
        self.assertEqual(at.say("next"), "world 2, beside the one before\n" + SECOND)
        self.assertIn("  old.Wooden overlaps new.Shared\n", at.say("world"))
        self.assertEqual(at.say("undo"), "taken back: 1 next\n")
        self.assertEqual(at.say("world"), WHOLE)
        self.assertEqual(at.say("  next  "), "world 2, beside the one before\n" + SECOND)
        for number in (3, 4):
            self.assertTrue(at.say("next").startswith(f"world {number}, beside the one before\n"))
        self.assertEqual(at.say("next"), "no further world\n")
        self.assertEqual(at.say("next"), "no further world\n")
        self.assertEqual(at.say("keep all"), "nothing changes; kept: all 2 statements\n")

    def test_narrowing(self):
        at = self.terminal()
        self.assertEqual(at.say("narrow new.Single old.Wooden is included in"), "narrowed: new.Single is included in old.Wooden\n")
        self.assertTrue(at.say("next").startswith("world 1\n"))
        self.assertEqual(at.say("next"), "no further world\n")
        self.assertEqual(at.say("narrow old.Padded equals new.Shared"), "narrowed: old.Padded equals new.Shared\n")
        self.assertEqual(at.say("next"), "no world is possible with these statements and narrowings; take one back, by `undo` say\n")
        for _ in range(2):
            at.say("undo")
        self.assertEqual(at.say("narrow new.Single old.Wooden <x"), "narrowed: new.Single is included in or overlaps old.Wooden\n")
        self.assertEqual(at.say("next"), "world 1, the same as the last one shown\n")
        self.assertEqual(
            at.say("statements"),
            "   1 kept    [old.Chairs equals new.Seats]\n   2 kept    [old.Wooden {equals includes overlaps} new.Single]\n"
            "     narrowed new.Single is included in old.Wooden\n     narrowed new.Single is included in or overlaps old.Wooden\n",
        )
        self.assertEqual(at.say("slots"), "slot 1: all 2 statements, 2 narrowings, 1 world shown\n")

    def test_keeping(self):
        at = self.terminal()
        at.say("next")
        self.assertEqual(at.say("drop 2"), "kept: 1 of 2 statements, without 2\n")
        self.assertEqual(at.say("next"), "world 1, the same as the last one shown\n")
        self.assertEqual(at.say("drop 2"), "nothing changes; kept: 1 of 2 statements, without 2\n")
        self.assertEqual(at.say("with 1-2"), "kept: all 2 statements\n")
        self.assertEqual(at.say("keep 2"), "kept: 1 of 2 statements, without 1\n")
        self.assertEqual(at.say("drop all"), "kept: no statement\n")
        self.assertTrue(at.say("statements").startswith("   1 dropped [old.Chairs equals new.Seats]\n   2 dropped "))
        self.assertEqual(at.say("script"), "  1 open\n  1 next\n  1 keep 10\n  1 next\n  1 keep 11\n  1 keep 01\n  1 keep 00\n")
        self.assertEqual(at.say("drop 3"), "there is no statement 3; their numbers are 1 to 2\n")
        self.assertEqual(at.say("drop 0-1"), "there is no statement 0-1; their numbers are 1 to 2\n")
        self.assertEqual(at.say("drop two"), "'two' is no number of a statement; `statements` lists them\n")
        self.assertEqual(at.say("keep"), "write the numbers of statements, or all; `statements` lists them\n")

    def test_slots(self):
        at = self.terminal()
        at.say("next")
        self.assertEqual(at.say("slot 2"), "slot 2 is opened\n")
        self.assertEqual(at.prompt, "slot 2> ")
        self.assertEqual(at.say("next"), "world 1\n" + WHOLE)
        self.assertEqual(at.say("slot 1"), "slot 1: all 2 statements, 1 world shown\n")
        self.assertEqual(at.say("next"), "world 2, beside the one before\n" + SECOND)
        at.say("slot 2")
        self.assertEqual(at.say("close"), "slot 2 is closed\n")
        self.assertEqual(at.say("slots"), "slot 1: all 2 statements, 2 worlds shown\nslot 2, in which you are, is closed\n")
        for line in ("next", "close", "narrow old.Wooden new.Single =", "keep all", "drop 1", "statements", "world"):
            self.assertEqual(at.say(line), "slot 2 is closed; `open` opens it\n")
        self.assertEqual(at.say("open"), "slot 2 is opened\n")
        self.assertEqual(at.say("open"), "slot 2 is open; `close` closes it, and `slot N` goes to another\n")
        self.assertEqual(at.say("slot 16"), "slot 16 is opened\n")
        self.assertEqual(at.say("undo"), "taken back: 16 open\n")
        self.assertEqual(at.prompt, "slot 2> ")
        for line in ("slot 17", "slot 0", "slot 01", "slot", "slot one"):
            self.assertEqual(at.say(line), "write slot and a number from 1 to 16\n")

    def test_nothing_to_take_back(self):
        at = self.terminal()
        at.say("next")
        self.assertEqual(at.say("undo"), "taken back: 1 next\n")
        self.assertEqual(at.say("undo"), "there is nothing to take back\n")

    def test_a_script_is_written(self):
        at = self.terminal("several.txt", "sibling=off")
        at.say("narrow new.Single old.Wooden x")
        at.say("next")
        self.assertEqual(at.say("script if.txt"), "written: 3 requests; euler_desk in=several.txt script=if.txt sibling=off replies the same\n")
        self.assertEqual(self.folder.read("if.txt"), "1 open\n1 narrow new.Single old.Wooden x\n1 next\n")
        at.say("next")
        self.assertTrue(at.say("script if.txt").startswith("written: 4 requests; "))
        self.assertEqual(at.say("script several.txt"), "several.txt is there already; name another file\n")
        self.assertEqual(at.say("script no/where.txt"), "no/where.txt: No such file or directory\n")
        done = subprocess.run([PROGRAM, "in=several.txt", "script=if.txt", "sibling=off"], cwd=self.folder.path, capture_output=True, text=True, check=True)
        self.assertTrue(done.stdout.startswith("1 opened\n1 narrowed\n1 world ") and done.stdout.endswith("\nserved 4\n"), done.stdout)

    def test_wrong_input(self):
        at = self.terminal()
        self.assertEqual(at.say(""), "")
        self.assertEqual(at.say("nxt"), "nxt: there is no such command; is it next?\n")
        self.assertEqual(at.say("1 next"), "1: there is no such command; `help` lists them\n")
        self.assertEqual(at.say("narrow new.Singel old.Wooden <"), "no row has new.Singel; is it new.Single?\n")
        self.assertEqual(at.say("narrow new.Single old.Woden <"), "no row has old.Woden; is it old.Wooden?\n")
        self.assertEqual(at.say("narrow new.Single equals Wooden"), "Wooden names no taxonomy; write old.Wooden\n")
        self.assertEqual(at.say("narrow nwe.Single old.Wooden <"), "there is no taxonomy nwe, in nwe.Single; is it new?\n")
        self.assertEqual(at.say("narrow new.Single new.Single <"), "new.Single stands there twice; name two concepts\n")
        self.assertEqual(at.say("narrow new.Single"), "write narrow, two concepts and relations: narrow A B includes or overlaps\n")
        self.assertTrue(at.say("narrow new.Single old.Wooden likes").startswith("'likes' is no relation; write equals, "))
        self.assertTrue(at.say("narrow new.Single old.Wooden ><").startswith("`><` may mean overlaps, or "))
        self.assertEqual(at.say("narrow new.Single old.Wooden or"), "a relation is missing; write it behind the two concepts\n")
        self.assertEqual(at.say("script"), "  1 open\n")

    def test_without_statements(self):
        at = self.terminal("bare.txt")
        self.assertEqual(at.begin.split(". ")[0], "bare.txt: 2 concepts, 0 statements")
        self.assertEqual(at.say("next"), "world 1\n  a.A equals b.B\n")
        self.assertEqual(at.say("keep all"), "the problem has no statements\n")
        self.assertEqual(at.say("statements"), "there are no statements, and nothing is narrowed\n")
        at.say("narrow b.B a.A < or !")
        self.assertEqual(at.say("next"), "world 1, beside the last one shown\n  b.B is included in a.A, was: equals\n")
        self.assertEqual(at.say("next"), "world 2, beside the one before\n  a.A is disjoint from b.B, was: includes\n")
        self.assertEqual(at.say("slots"), "slot 1: no statements, 1 narrowing, 2 worlds shown\n")

    def test_the_problem_is_read_once(self):
        at = self.terminal()
        self.folder.write({"several.txt": BARE})
        self.assertEqual(at.say("next"), "world 1\n" + WHOLE)

    def test_help(self):
        told = self.terminal().say("help")
        for name, _ in DESK.HELP:
            self.assertIn(name, told)
        done = subprocess.run([sys.executable, os.path.join(HERE, "desk"), "--help"], capture_output=True, text=True, check=True)
        self.assertIn("tools/desk PROBLEM", done.stdout)

    def test_the_end(self):
        for line in ("quit", "exit", "EOF"):
            at = self.terminal()
            os.write(at.file, line.encode() + b"\n")
            at.read("never")
            self.assertEqual(at.child.wait(timeout=60), 0)
        at = self.terminal()
        os.write(at.file, b"\x04")
        at.read("never")
        self.assertEqual(at.child.wait(timeout=60), 0)

    def test_ctrl_c_leaves_the_dialogue(self):
        at = self.terminal()
        os.write(at.file, b"narrow new")
        time.sleep(0.2)
        at.child.send_signal(signal.SIGINT)
        self.assertIn("`quit` ends the dialogue", at.read())
        self.assertEqual(at.say("next"), "world 1\n" + WHOLE)

    @unittest.skipUnless(DESK.readline, "Python has no readline here")
    def test_the_tab_key(self):
        at = self.terminal()
        self.assertTrue(at.say("narr\told.Woo\tnew.Sing\toverl\t").endswith("narrowed: old.Wooden overlaps new.Single\n"))


class WithoutTerminal(unittest.TestCase):
    def setUp(self):
        self.folder = tool_runs.Folder(self)
        self.folder.write({"several.txt": SEVERAL})

    def run_desk(self, given, *words, program=PROGRAM):
        return self.folder.run("desk", "several.txt", *words, "--program", program, given=given)

    def fake(self, text, first="printf '1 opened\\nserved 1\\n'"):
        """A program that opens a slot, and answers a longer script by what a shell puts."""
        self.folder.write({"fake": f"#!/bin/sh\ncd {self.folder.path}\nif [ $(wc -l) = 1 ]; then {first}; exit $?; fi\n{text}\n"})
        os.chmod(self.folder.at("fake"), 0o755)
        return self.folder.at("fake")

    def test_by_a_pipe(self):
        code, out, err = self.run_desk(b"next\nnext\n")
        self.assertEqual((code, err), (0, ""))
        self.assertEqual(out.partition("\n")[2], "world 1\n" + WHOLE + "world 2, beside the one before\n" + SECOND)
        self.assertEqual(self.run_desk(b"next\nquit\nnext\n")[1].partition("\n")[2], "world 1\n" + WHOLE)
        self.assertEqual(self.run_desk(b"\xffnext\n")[1].partition("\n")[2], "\ufffdnext: there is no such command; is it next?\n")
        code, out, _ = self.run_desk(b"narrow new.Single < old.Wooden\nnext", "nonempty=off", "coverage=off")
        self.assertTrue(out.partition("\n")[2].startswith("narrowed: new.Single is included in old.Wooden\nworld 1\n"), out)

    def test_a_reader_that_wants_no_more(self):
        words = [sys.executable, os.path.join(HERE, "desk"), "several.txt", "--program", PROGRAM]
        child = subprocess.Popen(words, cwd=self.folder.path, stdin=subprocess.PIPE, stdout=subprocess.PIPE, stderr=subprocess.PIPE)
        child.stdout.close()
        child.stdin.write(b"next\n")
        child.stdin.close()
        self.assertEqual((child.wait(timeout=60), child.stderr.read()), (0, b""))
        child.stderr.close()

    def test_many_lines(self):
        names = " ".join(f"c{k}" for k in range(45))
        self.folder.write({"several.txt": f"taxonomy a\n(r {names})\ntaxonomy b\n(s)\n", "letters": ">" * 46 + "!" * 1035})
        program = self.fake("printf '1 opened\\n1 world '; cat letters; printf '\\nserved 2\\n'")
        lines = self.run_desk(b"next\nworld\n", program=program)[1].split("\n")
        self.assertEqual((lines[2], lines[42]), ("  b.s is included in a.r", "  and 6 more; `world` shows the world as a whole"))
        self.assertEqual(len(lines), 43 + 46 + 1)

    def test_what_the_program_may_answer(self):
        for text, told in [
            ("printf '1 opened\\n1 NoMemory\\nserved 2\\n'", "there was no memory for this; close slots that you don't need"),
            ("printf '1 NoMemory\\n1 SlotClosed\\nserved 2\\n'", "euler_desk replies otherwise to earlier requests than before; memory may be short"),
            ("printf '1 opened\\n1 wor'", "euler_desk gave no whole answer; it ends with '1 opened\\n1 wor'"),
            ("echo no memory; exit 9", "no memory"),
            ("echo script 2 BadLine; echo 'standard input:2: no form' >&2; exit 7", "standard input:2: no form"),
            ("kill -9 $$", "the program ended with -9"),
        ]:
            code, out, err = self.run_desk(b"next\nscript\n", program=self.fake(text))
            self.assertEqual((code, out.partition("\n")[2], err), (0, told + "\n  1 open\n", ""))

    def test_what_can_not_begin(self):
        self.assertEqual(self.run_desk(b"", "worlds=2")[0], 2)
        self.assertEqual(self.run_desk(b"", program="nowhere"), (1, "", "desk: --program names nowhere, which is no program\n"))
        self.assertEqual(self.folder.run("desk", "nowhere.txt", "--program", PROGRAM), (1, "", "desk: nowhere.txt: No such file or directory\n"))
        self.folder.write({"several.txt": "taxonomy a\n(A\n"})
        code, out, err = self.run_desk(b"next\n")
        self.assertEqual((code, out), (1, ""))
        self.assertRegex(err, "^desk: (refused 2 BadLine|several.txt:2: )")
        code, out, err = self.run_desk(b"", program=self.fake("", first="echo read fault; exit 3"))
        self.assertEqual((code, out, err), (1, "", "desk: read fault\n"))


class Words(unittest.TestCase):
    def test_relations(self):
        for text, letters in [
            ("=", "="), ("x", "x"), (">", ">"), ("<", "<"), ("!", "!"), ("x=", "=x"), ("=><x!", "=><x!"), ("==", "="), ("!!", "!"),
            ("is included in", "<"), ("is_included_in", "<"), ("includes or equals", "=>"), ("excludes", "!"), ("is disjoint from", "!"),
            ("overlaps, disjoint", "x!"), ("= or x", "=x"), ("Includes", ">"), ("{equals includes}", "=>"),
        ]:
            self.assertEqual(DESK.letters_of(text), letters, text)
        for text in ("", "or", "likes", "><", "sums", "=o"):
            with self.assertRaises(Fault):
                DESK.letters_of(text)

    def test_numbers(self):
        self.assertEqual(DESK.numbers_of("1, 3-5 9", 9), {1, 3, 4, 5, 9})
        self.assertEqual(DESK.numbers_of("all", 3), {1, 2, 3})
        for text in ("0", "10", "5-3", "1-10", "-1", "x", "", "1.5", "1" * 10):
            with self.assertRaises(Fault):
                DESK.numbers_of(text, 9)


if __name__ == "__main__":
    unittest.main()
