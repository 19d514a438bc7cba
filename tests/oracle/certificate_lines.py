"""The text of certificates, line by line, as docs/FORMATS.md has it: its forms and its faults. See certificates.py."""

from oracle.model import LETTERS
from oracle.texts import is_number

MOST_BYTES = 68719476736
SMALL, LARGE, MOST_LITERAL = 2**32 - 1, 2**64 - 1, 2**31


class TextFault(Exception):
    """A line has a fault of its text: the kind."""


class Text:
    """The bytes of a certificate, line by line. `number` is that of the line that was read last."""

    def __init__(self, data):
        self.data, self.at, self.number = data, 0, 0

    def next_line(self):
        self.number += 1
        end = self.data.find(b"\n", self.at)
        until = len(self.data) if end < 0 else end + 1
        if until > MOST_BYTES:
            raise TextFault("TooLong")
        if end < 0:
            raise TextFault("EndsEarly")
        line = self.data[self.at : end].decode("latin-1")
        self.at = until
        return line

    def finish(self):
        """Nothing may follow the last line."""
        if self.at < len(self.data):
            self.number += 1
            raise TextFault("BadLine")


class Words:
    """The words of a line, taken from the left."""

    def __init__(self, line):
        self.words, self.at = line.split(" "), 0

    def take(self):
        if self.at == len(self.words) or self.words[self.at] == "":
            raise TextFault("BadLine")
        self.at += 1
        return self.words[self.at - 1]

    def take_one_of(self, words):
        word = self.take()
        if word not in words:
            raise TextFault("BadLine")
        return word

    def finish(self):
        if self.at < len(self.words):
            raise TextFault("BadLine")

    def number(self, low, high):
        return number_in(self.take(), low, high)

    def numbers(self, read):
        """Numbers until a 0."""
        found = []
        while True:
            word = self.take()
            if word == "0":
                return found
            found.append(read(word))

    def switches(self):
        self.take_one_of(["1"])
        return tuple(self.take_one_of(["on", "off"]) == "on" for _ in range(3))

    def position(self):
        word = self.take()
        if word == ".":
            return ""
        if any(c not in LETTERS for c in word):
            raise TextFault("BadLine")
        return word

    def end(self, may_have_position):
        """Where a tree ends: a position, or None, which is written as `-`."""
        if self.words[self.at : self.at + 1] == ["-"] or not may_have_position:
            return self.take_one_of(["-"]) and None
        return self.position()

    def node(self):
        """The depth and the last letter of a node; the root's is empty."""
        depth = self.number(0, SMALL)
        letter = self.take_one_of(["."] + list(LETTERS))
        return depth, "" if letter == "." else letter

    def family(self):
        universe, sets = self.number(0, SMALL), []
        while self.at < len(self.words):
            word = self.take()
            sets.append([] if word == "-" else [number_in(x, 0, SMALL) for x in word.split(",")])
        return universe, sets

    def subject(self):
        if self.take_one_of(["m", "a"]) == "m":
            return "m", self.number(0, SMALL), self.take_one_of(list(LETTERS))
        bits = self.take()
        if bits != "." and any(c not in "01" for c in bits):
            raise TextFault("BadLine")
        return "a", "" if bits == "." else bits


def number_in(word, low, high):
    # the length is looked at first, since Python refuses to read numbers of many thousand digits
    if not word.isascii() or len(word) > 20 or not is_number(word, low, high):
        raise TextFault("BadNumber")
    return int(word)


def literal_in(word):
    if word.startswith("-"):
        return -number_in(word[1:], 1, MOST_LITERAL)
    return number_in(word, 1, MOST_LITERAL)


def id_in(word):
    return number_in(word, 1, LARGE)


def read_line(line, kinds):
    """The kind of a line and what it says. `kinds` are those that may stand where it stands."""
    words = Words(line)
    kind = words.take_one_of(kinds)
    if kind == "certificate":
        said = words.switches(), words.position()
    elif kind == "claims":
        said = words.switches(), None
    elif kind == "d":
        said = id_in(words.take()), words.numbers(literal_in), words.numbers(id_in)
    elif kind == "k":
        said = words.numbers(id_in)
    elif kind == "b":
        said = words.node()
    elif kind == "x":
        said = words.node(), words.number(0, LARGE), id_in(words.take())
    elif kind == "e":
        said = words.node(), words.number(0, SMALL)
    elif kind == "w":
        said = words.node(), words.family()
    elif kind == "some":
        said = words.subject(), words.family()
    elif kind == "none":
        said = words.subject()
    elif kind == "end":
        said = words.end("w" in kinds)  # `w` lines stand in listings alone, and there alone a tree ends before a position
    else:
        said = None
    words.finish()
    return kind, said
