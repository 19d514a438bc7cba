#!/usr/bin/env python3
"""Every change of a single byte of small certificates, of listings and of claims: what `check` answers is what the oracle says.

    tests/certificate_bytes.py [--program PATH]

Each place is given five other bytes, left out, and doubled; and each certificate is cut off at each place. It ends with status 1 at the
first other answer, and shows it.
"""

import random
import sys

import harness
from oracle import certificate_writer, certificates, texts
from small_runs import ALONE, EQUAL, LISTING

PROBLEM = b"taxonomy 1\n(A B)\ntaxonomy 2\n(C)\narticulation\n[1.A equals 2.C]\n"
REFUTED = b"certificate 1 on on on .\nd 23 -2 -8 -13 0 8 13 3 0\nx 0 . 19 23\nend -\n"
CLAIMED = b"taxonomy 1\n(A)\ntaxonomy 2\n(B)\narticulation\n[1.A {equals disjoint} 2.B]\n[1.A {equals includes} 2.B]\n"


def changes(data):
    """The bytes with one changed: to the next, to another letter, digit or sign of such a text, left out, or twice."""
    for place in range(len(data)):
        was = data[place]
        others = [was ^ 1, *b"0 =\n-1x"]
        for byte in [b for b in dict.fromkeys(others) if b != was][:5]:
            yield data[:place] + bytes([byte]) + data[place + 1 :]
        yield data[:place] + data[place + 1 :]
        yield data[: place + 1] + data[place:]
        yield data[:place]


def cases():
    """Problems and their certificates: two that are written down here, and two by the oracle."""
    for text, data in ((ALONE.encode(), LISTING.encode()), (EQUAL.encode(), REFUTED)):
        yield text, texts.read_problem(text, (True, True, True)).finish(), data
    for text, kind, seed in ((PROBLEM, "listing", 10), (CLAIMED, "claims", 3)):
        problem = texts.read_problem(text, (True, True, True)).finish()
        yield text, problem, getattr(certificate_writer.Writer(problem, random.Random(seed)), kind)()


def main():
    given = harness.arguments(__doc__, "program")
    accepted = 0
    with harness.Runs(given.program) as runs:
        for text, problem, whole in cases():
            runs.hold("p", text)
            for data in [whole, *changes(whole)]:
                runs.hold("c", data)
                got, wanted = runs.run(["check", "in=p", "cert=c"]), certificates.check(problem, data)
                accepted += got[0] == 0
                if got != wanted:
                    print(f"another answer:\n{data!r}\n{got}\nand not\n{wanted}")
                    return 1
    print(f"certificate_bytes: {runs.count} certificates, {accepted} accepted, no other answer")
    return 0


if __name__ == "__main__":
    sys.exit(main())
