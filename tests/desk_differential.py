#!/usr/bin/env python3
"""Sets the built desk beside the oracle's (oracle/desk.py): random problems with random scripts, and scripts that nobody would write.

    tests/desk_differential.py [--desk PATH] [--count N] [--seed N] [--jobs N] [--tally]

Each case makes a small problem, and compares what the program puts and its exit code with what the oracle says: of a script of up to 16
slots, of the same requests dealt in another order (where besides each slot must have the same replies), of two slots' three requests each
in all 20 orders, of damaged scripts and texts, and of random words. With --jobs several processes share the cases, which are the same for
any number of them; with --tally it is told how often each reply and last line was compared. It ends with status 1 at the first difference,
and shows it.
"""

import itertools
import os
import sys

import harness
import random_cases
from comparisons.runner import Difference, Runner, switch_words, tell, try_cases
from oracle import desk, model, texts

WORDS = ["in=p", "script=s"]
OTHER_WORDS = [
    "in=p", "in=s", "in=", "in=q", "in=d", "in==", "script=s", "script=p", "script=", "script=q", "script=d", "nonempty=off", "nonempty=on", "sibling=off",
    "sibling=On", "coverage=off", "coverage=", "cert=c", "token=t", "worlds=2", "align", "", "=", "=x", "Script=s", "script", "--help", "in=p ", "scripts=s",
]
PIECES = [
    b"", b" ", b"\t", b"\n", b"\r", b"\r\n", b"#", b".", b"0", b"1", b"2", b"16", b"17", b"01", b"x", b"=", b"!", b"?", b"\0", b"\x0b", b"\x0c", b"\xa0", b"\xff",
    "é".encode(), b"\xef\xbb\xbf", b"open", b" next", b"keep ", b"narrow", b"1 open\n", b"2 next\n", b"3 close\n", b"1 keep .\n", b"# what if\n", b"\n\n", b"served 1\n",
]


class DeskRunner(Runner):
    """It tells of all lines that were compared how often each kind came. One name is that of a folder."""

    def __init__(self, program, within=None):
        super().__init__(program, within)
        os.mkdir(self.at("d"))

    def compared(self, words):
        """The lines that the program puts before the last; they must be what the oracle says."""
        code, text = desk.answer(words, self.held)
        got = self.run(words)
        for line in text.split("\n")[:-1]:
            self.answers[" ".join([word for word in line.split(" ") if not word.isdigit()][:2 if code else 1])] += 1
        self.compare(words, (code, text), got)
        return text.split("\n")[:-2]

    def script(self, words, data):
        self.hold("s", data)
        return self.compared(WORDS + words)


# Requests, without the slot that stands before each.


def random_narrowing(rng, problem):
    left, right = (problem.text_name(c) for c in rng.sample(range(len(problem.names)), 2))
    letters = rng.choices(model.LETTERS, k=rng.choice([1, 1, 2, 3, 4, 5]))
    return f"narrow {left} {right} {''.join(letters)}"


def random_act(rng, problem):
    draw = rng.random()
    if draw < 0.45:
        return "next"
    if draw < 0.6:
        return "keep " + ("".join(rng.choice("0111") for _ in problem.articulations) or ".")
    if draw < 0.85 and len(problem.names) > 1:
        return random_narrowing(rng, problem)
    return rng.choice(["open", "close", "close", "next"])


def acts_of_slot(rng, problem, count):
    """What is asked of one slot: mostly it is opened first."""
    acts = [random_act(rng, problem) for _ in range(count)]
    if acts and rng.random() < 0.85:
        acts[0] = "open"
    return acts


def dealt(rng, acts):
    """The requests of all slots in a random order in which each slot's own stay in theirs."""
    turns = [slot for slot in acts for _ in acts[slot]]
    rng.shuffle(turns)
    return in_turns(acts, turns)


def in_turns(acts, turns):
    left = {slot: iter(own) for slot, own in acts.items()}
    return [f"{slot} {next(left[slot])}" for slot in turns]


def written(requests):
    return "".join(request + "\n" for request in requests).encode()


def spaced(rng, requests):
    """The same script with other blanks, with lines without words, and maybe without its last line end."""
    blank = lambda least: "".join(rng.choice(" \t") for _ in range(rng.choice([least, least, least, 2, 3])))
    lines = []
    for request in requests:
        lines += [blank(0)] * rng.choice([0, 0, 0, 1, 2])
        lines.append(blank(0) + "".join(word + blank(1) for word in request.split(" ")[:-1]) + request.split(" ")[-1] + blank(0))
    return "\n".join(lines).encode() + rng.choice([b"", b"\n", b"\n \n"])


def by_slot(rows):
    """The replies to each slot."""
    replies = {}
    for line in rows:
        slot, _, said = line.partition(" ")
        replies.setdefault(slot, []).append(said)
    return replies


def odd_lines(rng, problem):
    """Lines that may be wrong in the one way or the other."""
    names = [problem.text_name(c) for c in range(len(problem.names))] or ["1.A"]
    bits = "1" * len(problem.articulations)
    name = lambda: rng.choice(names if rng.random() < 0.8 else ["1.Z", "A0", "9.A0", "1.", ".A0", "1"])
    letters = lambda: rng.choice(["=", "<x", "=><x!", "o", "=<?", "==.", "equals", "= <"])
    return [
        f"{rng.choice(['0', '17', '01', '+1', '-1', '1.', 'x', '999999999999999999999', '١', '²'])} {random_act(rng, problem)}",
        rng.choice(["1", "open", "1 open now", "1 Open", "1 reopen", "1 next 2", "1 close 1", "17 reopen", "open 1", "1 keep", "1 narrow", "1openx", "17"]),
        f"{rng.choice(['1', '0'])} keep {rng.choice([bits + '0', bits[1:], bits[1:] + '2', '.', '..', bits + ' 1', bits + chr(13), bits or '1', bits or '0'])}",
        f"{rng.choice(['1', '17'])} narrow {name()} {name()} {letters()}",
        f"1 narrow {names[0]} {rng.choice(names[:2])} {letters()}",
        f"1 narrow {name()} {name()}",
        rng.choice(["# what if", "1 next # and more", "1 next\r", "\ufeff1 open", "1\xa0open", "1\x0bopen", "1\0open", "\0", "\r"]),
    ]


# Cases.


def check_orders(runner, problem, words, rng):
    """A script, and its requests in another order."""
    slots = rng.sample(range(1, desk.MOST_SLOTS + 1), rng.choice([0, 1, 1, 2, 2, 3, 3, 4, 7, 16]))
    acts = {slot: acts_of_slot(rng, problem, rng.randint(1, 9)) for slot in slots}
    first = runner.script(words, written(dealt(rng, acts)))
    other = dealt(rng, acts)
    second = runner.script(words, written(other) if rng.random() < 0.5 else spaced(rng, other))
    if by_slot(first) != by_slot(second):
        raise Difference(f"a slot's replies are others in another order: {first}, and {second}")
    return other


def check_interleavings(runner, problem, words, rng):
    """Three requests of each of two slots, in all orders, one after the other in one script; both slots are closed behind each."""
    one, other = rng.sample(range(1, desk.MOST_SLOTS + 1), 2)
    acts, requests = {slot: [*acts_of_slot(rng, problem, 3), "close"] for slot in (one, other)}, []
    for places in itertools.combinations(range(6), 3):
        requests += in_turns(acts, [one if place in places else other for place in range(6)] + [one, other])
    rows = runner.script(words, written(requests))
    replies = [by_slot(rows[begin : begin + 8]) for begin in range(0, len(rows), 8)]
    if any(given != replies[0] for given in replies):
        raise Difference(f"a slot's replies are others in another order: {replies}")


def check_damaged(runner, problem, words, requests, rng):
    data = written(requests)
    runner.script(words, random_cases.damaged(rng, data, PIECES))
    for _ in range(4):
        lines = list(requests)
        for _ in range(rng.choice([1, 1, 2])):
            lines.insert(rng.randrange(len(lines) + 1), rng.choice(odd_lines(rng, problem)))
        runner.script(words, written(lines) if rng.random() < 0.6 else spaced(rng, lines))


def check_words(runner, rng):
    words = list(WORDS)
    for _ in range(rng.choice([1, 1, 2, 3])):
        place, draw = rng.randrange(len(words) + 1), rng.random()
        if draw < 0.5:
            words.insert(place, rng.choice(OTHER_WORDS))
        elif draw < 0.8:
            words[place : place + 1] = [rng.choice(OTHER_WORDS)]
        else:
            words[place : place + 1] = []
    rng.shuffle(words)
    runner.compared(words)


def check_text(runner, text, rng):
    """A damaged problem, where it has not become too great to list."""
    data = random_cases.damaged(rng, text.encode(), random_cases.TEXT_PIECES)
    try:
        if len(texts.read_problem(data, (True, True, True)).names) > 6:
            return
    except texts.Fault:
        pass
    runner.hold("p", data)
    # the problem is judged before the script is read
    runner.compared(WORDS if rng.random() < 0.7 else ["in=p", "script=q"])


def case(runner, rng):
    text = random_cases.random_problem(rng)
    switches = random_cases.random_switches(rng)
    words = switch_words(switches)
    runner.hold("p", text.encode())
    problem = texts.read_problem(text.encode(), switches).finish()
    requests = check_orders(runner, problem, words, rng)
    check_interleavings(runner, problem, words, rng)
    check_damaged(runner, problem, words, requests, rng)
    check_words(runner, rng)
    check_text(runner, text, rng)


# Scripts that nobody would write.

HOSTILE_PROBLEM = b"taxonomy 1\n(A B)\ntaxonomy 2\n(C)\narticulation\n[1.A {equals includes} 2.C]\n"
LOOKED_AT = b"1 open\n1 narrow 2.C 1.B <x\n1 next\n1 next\n"


def filled_to(size, line, last=b""):
    """A line again and again, and then blanks, so that there are so many bytes."""
    data = line * ((size - len(last)) // len(line))
    return data + b" " * (size - len(last) - len(data)) + last


# what each is called, and its bytes
HOSTILE = [
    ("nothing", b""),
    ("blanks", b" \t \n\t\n   \n"),
    ("as many blanks as may be", filled_to(desk.MOST_BYTES, b"\n")),
    ("a blank more", filled_to(desk.MOST_BYTES + 1, b"\n")),
    ("a last request that just fits", filled_to(desk.MOST_BYTES, b" \t\n", LOOKED_AT)),
    ("a last request that doesn't fit", filled_to(desk.MOST_BYTES + 1, b" \t\n", LOOKED_AT)),
    ("too long, and no script besides", b"x" * (desk.MOST_BYTES + 1)),
    ("a word as long as may be", b"x" * desk.MOST_BYTES),
    ("a slot of many digits", b"1" * 1_000_000 + b" open\n"),
    ("a slot of many zeros", b"0" * 1_000_000 + b"1 open\n"),
    ("very many words", b"1 " * 500_000 + b"\n"),
    ("very many bits", b"1 keep " + b"1" * 1_000_000),
    ("very many letters", b"1 open\n1 narrow 1.A 2.C " + b"=>" * 500_000 + b"\n1 next\n"),
    ("a bad letter behind very many", b"1 open\n1 narrow 1.A 2.C " + b"=>" * 500_000 + b"?\n1 next\n"),
    ("a long name", b"1 narrow 1." + b"A" * 1_000_000 + b" 2.C =\n"),
    ("an open slot that is opened again and again", b"1 open\n" * 149_796),
    ("a closed slot that is asked again and again", b"16 next\n" * 131_072),
    ("opened and closed again and again", b"1 open\n1 next\n1 close\n" * 40_000),
    ("asked again and again past the last world", b"1 open\n" + b"1 next\n" * 100_000),
    ("all statements dropped and kept again and again", b"1 open\n" + b"1 keep 0\n1 next\n1 keep 1\n1 next\n" * 5_000),
    ("narrowed again and again to what is so", b"1 open\n" + b"1 narrow 1.A 2.C =>\n" * 2_000 + b"1 next\n"),
    ("narrowed to nothing", b"1 open\n1 narrow 1.A 2.C <\n1 next\n1 next\n"),
    ("a fault on the last line", b"1 open\n" * 100_000 + b"1 opens"),
    ("a fault far down, and another behind it", b"\n" * 1_000_000 + b"1 keep 2\n0 open\n"),
    ("returns before the line ends", b"1 open\r\n1 next\r\n"),
    ("a return behind bits", b"1 keep 1\r\n"),
    ("a return behind letters", b"1 narrow 1.A 2.C =\r\n"),
    ("a return behind a name", b"1 narrow 1.A 2.C\r =\n"),
    ("lines that end in returns", b"1 open\r1 next\r"),
    ("a return on a line of its own", b"1 open\n\r\n1 next\n"),
    ("a mark before the text", b"\xef\xbb\xbf1 open\n"),
    ("a mark on a line without words", b"\xef\xbb\xbf\n1 open\n"),
    ("a comment", b"# what if\n1 open\n"),
    ("a comment behind a request", b"1 open # what if\n"),
    ("a comment without blanks", b"1 open#\n"),
    ("bytes that are no text", b"1 open\n\xff\xfe\n"),
    ("a name that is no text", b"1 narrow 1.\xff 2.C =\n"),
    ("a letter cut in half", b"1 narrow 1.A 2.C =\xc3\n"),
    ("a slot in other digits", "\u0661 open\n".encode()),
    ("UTF-16", "1 open\n".encode("utf-16")),
    ("zero bytes", b"\0" * 1000),
    ("a zero byte behind a request", b"1 open\0\n"),
    ("other blanks", b"1\x0bopen\n1\x0copen\n"),
    ("a blank of other scripts", "1\u00a0open\n".encode()),
]


def check_hostile(desk_program):
    """The difference of the first of these scripts that is answered otherwise, or None."""
    with DeskRunner(desk_program) as runner:
        runner.hold("p", HOSTILE_PROBLEM)
        for name, data in HOSTILE:
            try:
                runner.script([], data)
            except Difference as difference:
                return f"{name}: {str(difference)[:2000]}"
    return None


def main():
    given = harness.arguments(__doc__, "desk", count=500, seed=1, jobs=1, tally=False)
    difference = check_hostile(given.desk)
    if difference:
        print(difference)
        return 1
    answers, told = try_cases(given, lambda folder: DeskRunner(given.desk, folder), case)
    return tell(given, answers, told, f"{len(HOSTILE)} hostile scripts, ")


if __name__ == "__main__":
    sys.exit(main())
