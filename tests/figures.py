#!/usr/bin/env python3
"""Whether README.md counts the wrong bodies that are there.

    tests/figures.py

A row names a sentence of README, with # in place of the number, and the files that it counts.
"""

import glob
import os
import re
import sys

from harness import ROOT, arguments

COUNTS = [("refuses each of # wrong bodies", "crates/*/must-fail/*.edit"), ("# further wrong bodies stand in `tests/edits/`", "tests/edits/*/*.edit")]


def told(text, pattern):
    """The figure that stands in a sentence in place of #."""
    found = re.search(re.escape(pattern).replace(r"\#", r"(\d[\d.,]*\d|\d)"), text)
    return found.group(1) if found else None


def main():
    arguments(__doc__)
    with open(os.path.join(ROOT, "README.md"), encoding="utf-8") as file:
        readme = file.read()
    faults = []
    for pattern, files in COUNTS:
        shown, counted = told(readme, pattern), len(glob.glob(os.path.join(ROOT, files)))
        if shown != str(counted):
            faults.append(f"README.md has {shown or 'no number'} in {pattern!r}; there are {counted}")
    for fault in faults:
        print(fault)
    print(f"figures: {len(COUNTS)} of README; {len(faults)} wrong")
    return 1 if faults else 0


if __name__ == "__main__":
    sys.exit(main())
