"""Runs whose answers are known beforehand."""

import sys

import harness

ON = (True, True, True)
# problems, whose lines end in bars
TREES = "taxonomy 1|(A B C)|taxonomy 2|(D E F)|articulation|"
PAIR = "taxonomy 1|(A)|taxonomy 2|(B)|articulation|"
TWO_EQUAL = "taxonomy 1|(A B C)|taxonomy 2|(D)|articulation|[1.B equals 2.D]|[1.C equals 2.D]|"
PARTED = PAIR + "[1.A equals 2.B]|[1.A disjoint 2.B]|"
# the exit codes that go with last lines, by their first words
LAST = {"refused": 1, "read": 3, "token": 7, "pair": 12, "not": 14, "empty": 15, "refused part": 16, "gap": 17}


class Runs(harness.Runs):
    """It ends the script at the first answer that is another one."""

    def same(self, words, code, text):
        got = self.run(words.split(" "))
        if got != (code, text):
            problem = self.held("p")[:2000].decode("utf-8", "replace")
            sys.exit(f"{words}\nwanted: {code}\n{text}\ngot: {got[0]}\n{got[1]}\nof the problem\n{problem}")

    def same_and_kept(self, words, code, text):
        """A run that writes no file."""
        before = self.all_held()
        self.same(words, code, text)
        if self.all_held() != before:
            sys.exit(f"{words}: the files are others after it")


def as_text(rows):
    return "".join(row + "\n" for row in rows)


def lines(worlds, last):
    return as_text([*worlds, f"{last} {len(worlds)}"])


def code_of(last):
    """The exit code that goes with a last line."""
    words = last.split(" ")
    return LAST.get(" ".join(words[:2]), LAST.get(words[0], 0))
