#!/usr/bin/env python3
"""The oracle's desk as a program, which stands in for `euler_desk` where that isn't built.

    tests/desk_stand_in.py in=PROBLEM script=SCRIPT [nonempty=on|off] [sibling=on|off] [coverage=on|off]
"""

import os
import sys

from oracle import desk, model


def bytes_of(name):
    try:
        with open(name, "rb") as file:
            return file.read()
    except (OSError, ValueError):
        return None


def main():
    model.MOST_PREFIXES = sys.maxsize
    try:
        words = [os.fsencode(word).decode() for word in sys.argv[1:]]
    except UnicodeDecodeError:
        return 2
    code, text = desk.answer(words, bytes_of)
    sys.stdout.buffer.write(text.encode())
    return code


if __name__ == "__main__":
    sys.exit(main())
