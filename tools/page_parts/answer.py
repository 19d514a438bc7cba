"""All that the page tells of: what the program answered, and what is made of it."""

import json

from taxa import Fault

from . import conflicts, questions, reasons, worlds
from .runs import Clock

MOST_LETTERS = 30_000_000  # of all worlds together: more of them would take long to compare
MOST_VIEWS = 24
ENDS = {1: "refuses the file", 2: "refuses a word of the command", 3: "can't read the file", 9: "ran out of memory"}


def round_down(number):
    """To one digit and zeros, and to 20 at least."""
    size = 10 ** (len(str(number)) - 1)
    return max(20, number // size * size)


class View:
    """A world that is shown, with the places in which it differs from the first."""

    def __init__(self, number, title, world, differs):
        self.number, self.title, self.world, self.differs = number, title, world, differs


class Answer:
    def __init__(self, problem, runs, most_worlds, extra_seconds, chosen, notes):
        self.problem, self.runs, self.notes = problem, runs, notes
        self.pairs = worlds.Pairs(problem)
        self.most_worlds = min(most_worlds, round_down(MOST_LETTERS // max(1, len(self.pairs.list))))
        self.groups, self.questions, self.tried, self.views = [], {}, None, []
        self.conflicts, self.switches_tried, self.reasons, self.reasons_needed = [], {}, {}, 0
        self.list_worlds()
        self.stated, self.spoken = reasons.stated(problem, self.pairs), reasons.spoken_of(problem, self.pairs)
        self.ask_for_relations()
        self.rank = questions.ranker(self.pairs, self.possible, self.stated)
        clock = Clock(extra_seconds)
        runs.tell(f"runs of changed copies, for {extra_seconds:g} seconds at most ..")
        if self.answered:
            self.find_questions(Clock(extra_seconds / 2))
            if self.worlds:
                self.find_views()
            places = [self.place_of(*names) for names in chosen]
            if self.known:
                self.reasons, self.reasons_needed = reasons.find(runs, problem, self.pairs, self.possible, places, clock)
        elif self.complete:
            self.conflicts = conflicts.find(runs, problem)
            conflicts.try_changes(runs, problem, self.conflicts, clock)
            self.switches_tried = conflicts.switches_that_help(runs, problem, clock)

    def list_worlds(self):
        ran = self.runs.ask("align", f"worlds={self.most_worlds}", "token=FILE")
        if ran.code in ENDS:
            said = ran.told.strip() or ran.last
            raise Fault(f"the program {ENDS[ran.code]}: {ran.last}\n{said}\n`tools/lint {self.problem.path}` may tell of more")
        self.complete, self.stopped = ran.last.startswith("complete "), ran.stopped
        ended = self.complete or ran.last.startswith("cut ")
        self.worlds = [line for line in (ran.lines[:-1] if ended else ran.lines) if len(line) == len(self.pairs.list)]
        if not ended and not ran.stopped:
            raise Fault(f"the program ended with {ran.code}: {ran.told.strip() or ran.last}")

    def ask_for_relations(self):
        """The relations that each pair across taxonomies may have. Where `mir` took too long these are the ones that listed worlds have,
        which are all of them if all worlds are listed."""
        told = questions.letters_told(self.runs.ask("mir"), self.pairs)
        self.known = told is not None or self.complete
        if told is None:
            seen = [set(letters) for letters in zip(*(world[: self.pairs.across] for world in self.worlds))]
            told = [questions.ordered(letters) for letters in seen] or [""] * self.pairs.across
        self.possible = told
        if self.known and not self.worlds and self.pairs.across and not any(told):
            self.complete = True

    @property
    def answered(self):
        """Whether there is something to say of the pairs: there is a world, or `mir` had its time and the listing had not."""
        return bool(self.worlds) or (self.known and not self.complete)

    def find_questions(self, clock):
        if self.complete:
            self.groups = worlds.groups_of(self.worlds)
            self.questions = questions.of_groups(self.groups, len(self.worlds))
            self.groups.sort(key=lambda group: (self.questions[self.keys(group)[0]].left, group.places))
        elif self.known:
            self.tried = questions.try_answers(self.runs, self.problem, self.pairs, self.possible, clock, self.rank)
            self.questions = self.tried.questions

    def find_views(self):
        """The first world; and of each group each further answer, while the other groups have their first ones. Where the list is not
        whole, some worlds of it."""
        chosen = [(0, "World 1")]
        if self.groups:
            index = {answers: k for k, answers in reversed(list(enumerate(zip(*(group.answer_of for group in self.groups)))))}
            for g, group in enumerate(self.groups):
                for answer in range(1, group.size):
                    k = index[tuple(answer if g == h else 0 for h in range(len(self.groups)))]
                    named = f", answer {answer + 1} to question {g + 1}" if len(self.groups) > 1 else ""
                    chosen.append((k, f"World {k + 1:,}{named}"))
        elif len(self.worlds) > 1:
            step = max(1, len(self.worlds) // 6)
            chosen += [(k, f"World {k + 1:,}") for k in range(step, len(self.worlds), step)]
        self.all_views = len(chosen)
        told = self.merged_by_report()
        first = self.worlds[0]
        for k, title in chosen[:MOST_VIEWS]:
            differs = [place for place in worlds.varied_places([first, self.worlds[k]])]
            self.views.append(View(k, title, told[k] if told else worlds.merged(self.pairs, self.worlds[k]), differs))

    def merged_by_report(self):
        """`report` has no limit, so it is asked only where the list is whole and not long."""
        if not self.complete or len(self.worlds) * len(self.pairs.concepts) > 50_000:
            return None
        ran = self.runs.ask("report", "kinds=json")
        told = [json.loads(line) for line in ran.lines if line.startswith("{")]
        return told if len(told) == len(self.worlds) else None

    def place_of(self, one, other):
        place = self.pairs.place(one, other)
        if place is None:
            raise Fault(f"{one} and {other} are no concepts of two taxonomies of {self.problem.path}; write TAXONOMY.CONCEPT")
        return place

    def keys(self, group):
        return group.keys(self.rank, lambda place: place >= self.pairs.across)

    @property
    def open_places(self):
        return [place for place in range(self.pairs.across) if len(self.possible[place]) > 1]
