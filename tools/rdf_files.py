"""Files of RDF, read by `rdflib`, with the line and column of what can't be read."""

import logging
import os
import re
import subprocess
import sys
from xml.sax.saxutils import escape

import meanings
from tables import Fault, read_bytes, text_of

try:
    import rdflib

    logging.getLogger("rdflib").setLevel(logging.ERROR)  # it tells of addresses that are none, without a place
except ImportError:
    rdflib = None

TYPE = "http://www.w3.org/1999/02/22-rdf-syntax-ns#type"
FORMS = {"ttl": "turtle", "turtle": "turtle", "nt": "nt", "rdf": "xml", "xml": "xml", "owl": "xml", "n3": "n3"}


def need():
    if rdflib is None:
        raise Fault("the module rdflib is not there for this Python; install it (Debian: apt install python3-rdflib)")


def take_debians_python():
    """Runs this again by Debian's Python where that one has rdflib and this one, another on the path, has not."""
    other = "/usr/bin/python3"
    if rdflib is None and os.path.realpath(sys.executable) != os.path.realpath(other) and os.path.exists(other):
        if subprocess.run([other, "-c", "import rdflib"], capture_output=True, check=False).returncode == 0:
            os.execv(other, [other, *sys.argv])


def term(address):
    return rdflib.URIRef(address)


def predicate(short):
    """The address of a predicate that is written with a prefix."""
    for address, prefix in meanings.PREFIXES.items():
        if short.startswith(prefix):
            return rdflib.URIRef(address + short[len(prefix) :])
    return rdflib.URIRef(short)


def form_of(file, data):
    """The form by the end of the name, else by what the file begins with."""
    end, begin = file.rsplit(".", 1)[-1].lower(), data[:200].lstrip().lower()
    # JSON-LD may name a context in the network, which this doesn't ask
    other = "JSON-LD" if end == "jsonld" or begin.startswith(b"{") else "a web page" if begin.startswith((b"<!doctype html", b"<html")) else None
    if other:
        raise Fault(f"{file}: this is {other}; Turtle, RDF/XML or N-Triples is wanted")
    if end in FORMS:
        return FORMS[end]
    return "xml" if data.lstrip().startswith(b"<?xml") or b"<rdf:RDF" in data[:4096] else "turtle"


class Source:
    """A file with its graph. Where an address stands in the file is looked up in its text: a graph has no lines."""

    def __init__(self, file):
        data = read_bytes(file)
        self.file, self.graph = file, rdflib.Graph()
        self.form = form_of(file, data)
        self.text = text_of(data, file, "utf-8", "; save it as UTF-8" if self.form != "xml" else "; save it as UTF-8, and say so in its first line")
        try:
            self.graph.parse(data=self.text if self.form != "xml" else data, format=self.form, publicID="urn:file")
        except Exception as error:  # each of rdflib's parsers has errors of its own
            raise Fault(f"{file}{place_of(error, self.text, self.form)}")
        self.prefixes = re.findall(r"(?im)^\s*@?prefix\s+([\w.-]*:)\s*<([^>]*)>", self.text) if self.form in ("turtle", "n3") else []

    def written(self, address):
        """The ways in which an address may be written in the file."""
        address = str(address)
        if self.form == "xml":
            return [f'"{escape(address)}"']
        return [f"<{address}>"] + [prefix + address[len(space) :] for prefix, space in self.prefixes if space and address.startswith(space)]

    def place(self, address, as_subject=True):
        """File, line and column of the first place at which something is said of an address, or else at which it stands; the file alone
        where that wasn't found."""
        some = "|".join(map(re.escape, self.written(address)))
        front = r"\babout\s*=\s*" if self.form == "xml" else r"(?m)^"
        found = re.search(f"{front}({some})(?![\\w-])", self.text) if as_subject else None
        found = found or re.search(f"(?<![\\w-])({some})(?![\\w-])", self.text)
        if not found:
            return self.file
        at = found.start(1)
        return f"{self.file}:{self.text.count(chr(10), 0, at) + 1}:{at - self.text.rfind(chr(10), 0, at)}"


def place_of(error, text, form):
    """Where a parser of rdflib stopped, and what it said."""
    if form == "nt":
        return line_of_triples(text, error)
    if hasattr(error, "getLineNumber"):
        return f":{error.getLineNumber()}:{(error.getColumnNumber() or 0) + 1}: this is not RDF/XML: {error.getMessage()}"
    at, read = getattr(error, "_i", None), getattr(error, "_str", None)
    if at is not None and read is not None:
        before = read[:at] if isinstance(read, str) else read[:at].decode(errors="replace")
        column = len(before) - (before.rfind("\n") + 1) + 1
        return f":{before.count(chr(10)) + 1}:{column}: this is not Turtle: {getattr(error, '_why', error)}"
    found = re.search(r"line (\d+)", str(error))
    return f":{found.group(1)}:1: {error}" if found else f":1:1: this can't be read: {error}"


def line_of_triples(text, error):
    """The first line that is no triple by itself: that parser doesn't say at which line it stopped."""
    for number, line in enumerate(text.split("\n"), 1):
        try:
            rdflib.Graph().parse(data=line + "\n", format="nt")
        except Exception:
            return f":{number}:{column_in(line)}: this is no triple: {line.strip()[:80]}"
    return f":1:1: this can't be read: {error}"


def column_in(line):
    """Where the longest front of the line that is made of terms ends."""
    address, blank = r"<[^<>\"{}|^`\\\s]*>", r"_:[^\s.]+"
    text = r'"(?:[^"\\]|\\.)*"(?:@[\w-]+|\^\^' + address + ")?"
    return re.match(rf"\s*(?:{address}|{blank})?\s*(?:{address})?\s*(?:{address}|{blank}|{text})?\s*", line).end() + 1
