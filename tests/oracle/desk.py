"""The desk: what `euler_desk` puts, and its exit code, by docs/FORMATS.md, for problems of a few concepts.

The worlds of a slot are taken from the listing of model.py: those of the problem with the slot's statements kept in which each narrowed pair
has one of its relations.
"""

import re

from oracle import model, statements, usage
from oracle.commands import SWITCHES
from oracle.texts import Fault, is_number, read_problem

MOST_BYTES = 1048576
MOST_SLOTS = 16
WORD = re.compile("[^ \t]+")
# the words of a request and how many stand behind each
FORMS = {"open": 0, "keep": 1, "narrow": 3, "next": 0, "close": 0}


class Listing:
    """The worlds of a problem in order, looked for as far as they are asked for."""

    def __init__(self, problem):
        self.found, self.rest = [], (node for node, is_world in problem.walk() if is_world)

    def __iter__(self):
        at = 0
        while True:
            if at == len(self.found):
                world = next(self.rest, None)
                if world is None:
                    return
                self.found.append(world)
            yield self.found[at]
            at += 1


class Slot:
    """An open slot: the bits of the statements that it keeps, its narrowings as pairs with letters, and the last world that it showed."""

    def __init__(self, bits):
        self.bits, self.narrowings, self.last = bits, [], None


class Desk:
    def __init__(self, problem):
        self.problem, self.slots, self.listings = problem, {}, {}

    def worlds(self, slot):
        """The worlds of a slot's problem, in order."""
        if slot.bits not in self.listings:
            self.listings[slot.bits] = Listing(statements.restricted(self.problem, slot.bits))
        for world in self.listings[slot.bits]:
            if all(world[pair] in letters for pair, letters in slot.narrowings):
                yield world

    def next_world(self, slot):
        """The least world above the last one, or None."""
        above = lambda world: slot.last is None or model.rank(world) > model.rank(slot.last)
        return next((world for world in self.worlds(slot) if above(world)), None)

    def reply(self, number, act, *given):
        """Handles a request; the words that are replied."""
        slot = self.slots.get(number)
        if act == "open":
            if slot:
                return "SlotOpen"
            self.slots[number] = Slot("1" * len(self.problem.articulations))
            return "opened"
        if slot is None:
            return "SlotClosed"
        if act == "close":
            del self.slots[number]
            return "closed"
        if act == "next":
            world = self.next_world(slot)
            slot.last = slot.last if world is None else world
            return "none" if world is None else f"world {world}"
        slot.last = None
        if act == "keep":
            slot.bits = given[0]
            return "kept"
        slot.narrowings.append(given)
        return "narrowed"


# The script.


class Concepts:
    """The numbers of a problem's concepts by their names, and those of its pairs. Names are the letters that their bytes are by Latin-1."""

    def __init__(self, problem):
        self.numbers = {problem.text_name(c).encode().decode("latin-1"): c for c in range(len(problem.names))}
        self.pairs = {pair: k for k, pair in enumerate(problem.pairs)}
        self.statements = len(problem.articulations)


def read_bits(concepts, word, line):
    if concepts.statements == 0 and word == ".":
        return ""
    if len(word) != concepts.statements or set(word) - set("01"):
        raise Fault(line, "BadBits")
    return word


def read_narrowing(concepts, left, right, letters, line):
    """The number of a pair, and letters for the concept that comes first among the two."""
    if left not in concepts.numbers or right not in concepts.numbers:
        raise Fault(line, "UnknownConcept")
    if left == right:
        raise Fault(line, "SameConcept")
    if set(letters) - set(model.LETTERS):
        raise Fault(line, "BadLetters")
    pair, letters = (concepts.numbers[left], concepts.numbers[right]), set(letters)
    if pair not in concepts.pairs:
        pair, letters = pair[::-1], {model.CONVERSE[letter] for letter in letters}
    return concepts.pairs[pair], letters


def read_request(concepts, words, line):
    """A request as the slot, the act, and what belongs to it."""
    slot, *rest = words
    if not rest or FORMS.get(rest[0]) != len(rest) - 1:
        raise Fault(line, "BadLine")
    if not is_number(slot, 1, MOST_SLOTS):
        raise Fault(line, "BadSlot")
    act, *given = rest
    if act == "keep":
        given = [read_bits(concepts, *given, line)]
    elif act == "narrow":
        given = read_narrowing(concepts, *given, line)
    return int(slot), act, *given


def read_script(problem, data):
    """The requests of a script; its first fault is raised."""
    if len(data) > MOST_BYTES:
        raise Fault(0, "TooLong")
    concepts, requests = Concepts(problem), []
    for number, line in enumerate(data.decode("latin-1").split("\n"), 1):
        words = WORD.findall(line)
        if words:
            requests.append(read_request(concepts, words, number))
    return requests


# A run.


def served(problem, requests):
    desk = Desk(problem)
    return "".join(f"{request[0]} {desk.reply(*request)}\n" for request in requests) + f"served {len(requests)}\n"


def answer_to(problem, script):
    """The exit code and the text for the bytes of a script."""
    try:
        return 0, served(problem, read_script(problem, script))
    except Fault as fault:
        line, kind = fault.args
        return 7, f"script {line} {kind}\n"


def answer(words, bytes_of):
    """The exit code and the text of a run; `bytes_of` gives what a file holds, or None where it can't be read."""
    kind = usage.desk_fault_of(words)
    if kind:
        return 2, f"usage {kind}\n"
    given = dict(word.split("=", 1) for word in words)
    data = bytes_of(given["in"])
    if data is None:
        return 3, "read fault\n"
    try:
        problem = read_problem(data, tuple(given.get(name) != "off" for name in SWITCHES)).finish()
    except Fault as fault:
        line, kind = fault.args
        return 1, f"refused {line} {kind}\n"
    script = bytes_of(given["script"])
    return (3, "read fault\n") if script is None else answer_to(problem, script)


# Where memory was wanting.


def not_starved(requests, replies):
    """The requests, as lines, and the lines of the replies to them, without those for which memory was wanting."""
    return [(request, reply) for request, reply in zip(requests, replies) if reply != f"{request.split(' ')[0]} NoMemory"]


def starved_fault(requests, code, text, served):
    """What is wrong with a run over a script that may have wanted memory, or None. `served` gives the text of a run over such lines that did
    not. The replies must be those to the requests for which memory was not wanting, and, where the run ended early, the first of them."""
    *replies, last = text.split("\n")[:-1] or [""]
    if (code, last) not in ((0, f"served {len(requests)}"), (9, "no memory")):
        return f"exit code {code}, and the last line is {last!r}"
    if len(replies) > len(requests) or (code == 0 and len(replies) < len(requests)):
        return "there are more or fewer replies than requests"
    asked = requests[: len(replies)]
    kept = not_starved(asked, replies)
    if [reply for _, reply in kept] != served([request for request, _ in kept]).split("\n")[:-2]:
        return "the replies are not those to the requests for which memory was not wanting"
    return None
