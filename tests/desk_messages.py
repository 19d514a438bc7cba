#!/usr/bin/env python3
"""What the desk tells people on standard error, of words, texts and scripts.

    tests/desk_messages.py [--desk PATH]

Each case looks at the exit code, the last line of standard output and the lines of standard error. It ends with status 1 if a case failed,
and shows what was told.
"""

import sys

import harness
from messages import EQUAL, NAMES, NO_LIKE, NO_NAME, ROWS, UNREAD, run, show
from small_runs import ALONE

DESK_USAGE = "usage: euler_desk in=FILE script=FILE [nonempty=on|off] [sibling=on|off] [coverage=on|off]"
DESK_HELP = (
    "euler_desk answers what would be: a script asks up to sixteen slots over one problem, each with its own statements, for possible worlds",
    DESK_USAGE,
    "the manual is `man euler_desk`, where it is installed; in the repository docs/GUIDE.md shows how to use the program, and docs/FORMATS.md has "
    "every word and line",
)
NO_OPERAND = "a word is not KEY=VALUE; write a key, an equals sign and a value, with no space between them"
# words, the fault of them, and the last line of what is told
DESK_WORDS = [
    ("", "MissingKey", "in=FILE: a required key is missing; add it"),
    ("sibling=off in=p", "MissingKey", "script=FILE: a required key is missing; add it"),
    ("script=s", "MissingKey", "in=FILE: a required key is missing; add it"),
    ("align in=p script=s", "NotOperand", f"align: {NO_OPERAND}"),
    ("in=p script=s --help", "NotOperand", f"--help: {NO_OPERAND}"),
    ("in=p scrip=s", "UnknownKey", "scrip=s: the command has no such key; is it script?"),
    ("in=p script=s cert=c", "UnknownKey", "cert=c: the command has no such key; take one of those above"),
    ("in=p script=s in=q", "KeyTwice", "in=q: a key is given twice; give it once"),
    ("in=p coverage=no script=s", "BadSwitch", "coverage=no: a switch is neither on nor off; write on or off"),
    ("in=p script=", "EmptyName", "script=: a file name is empty; write the file's name behind the equals sign"),
    ("script=p in=p", "SameName", "in=p: two keys name the same file; give each a name of its own"),
]
NO_FORM = (
    "this line has none of the forms; write `SLOT open`, `SLOT keep BITS`, `SLOT narrow TAXONOMY.CONCEPT TAXONOMY.CONCEPT LETTERS`, `SLOT next` or "
    "`SLOT close`; there are no comments"
)
NO_SLOT = "the first word is no slot; write a number from 1 to 16, without a leading zero"
NO_BITS = "write a 0 or 1 for each statement of the problem, in their order and with no space between, or `.` where there is none"
NO_CONCEPT = "a concept here is not one of the problem; write TAXONOMY.CONCEPT as the problem spells it"
ONE_CONCEPT = "both words name one concept; name two"
NO_LETTERS = "the last word is no set of relations; write one or more of = > < x !, with no space between"
RETURN = "this line ends with a carriage return, which no form has; save the script with plain line feeds"
# scripts over the rows above with a statement, the line and the fault, what is told, and whether the line is shown
DESK_SCRIPTS = [
    ("1 opn", 1, "BadLine", NO_FORM, True),
    ("1 open\n\n \t\n  # what if\n0 open", 4, "BadLine", NO_FORM, True),
    ("1 open\n17 next\n", 2, "BadSlot", NO_SLOT, True),
    ("01 keep 2\n", 1, "BadSlot", NO_SLOT, True),
    ("1 keep 11\n", 1, "BadBits", NO_BITS, True),
    ("1 keep .\n", 1, "BadBits", NO_BITS, True),
    ("1 narrow old.Eagle_wol new.Bubo =\n", 1, "UnknownConcept", "no row has old.Eagle_wol; is it old.Eagle_owl?", True),
    ("1 narrow old.Owls new.eagle-owl ?\n", 1, "UnknownConcept", f"no row has new.eagle-owl, and new {NO_LIKE}", True),
    ("1 narrow old.Bubo new.Bubu =\n", 1, "UnknownConcept", "no row has old.Bubo; is it new.Bubo?", True),
    ("1 narrow new.Bubo odl.Owls =\n", 1, "UnknownConcept", "there is no taxonomy odl, in odl.Owls; is it old?", True),
    ("1 narrow Owls Owls =\n", 1, "UnknownConcept", NO_NAME, True),
    ("1 narrow old.Owls new.Tyto\u009b =\n", 1, "UnknownConcept", NO_CONCEPT, False),
    ("1 narrow old.Owls old.Owls ?\n", 1, "SameConcept", ONE_CONCEPT, True),
    ("1 narrow old.Owls new.Bubo equals\n", 1, "BadLetters", NO_LETTERS, True),
    ("1 open\r\n1 next\r\n", 1, "BadLine", RETURN, True),
    ("1 open\n1 keep 1\r\n", 2, "BadBits", RETURN, True),
    ("1 narrow old.Owls new.Bubo =\r", 1, "BadLetters", RETURN, True),
    ("1 narrow old.Owl new.Bubo =\r\n", 1, "UnknownConcept", "no row has old.Owl; is it old.Owls?", True),
    ("1 nxt\r next\n", 1, "BadLine", NO_FORM, False),
    ("1 openx\u001b[31m\n", 1, "BadLine", NO_FORM, False),
    ("1 open " + "1" * 194, 1, "BadLine", NO_FORM, False),
    ("1 open " + "1" * 193, 1, "BadLine", NO_FORM, True),
    ("\n" * 1048577, 0, "TooLong", "the script has more than 1,048,576 bytes; cut it, and let each part open its slots anew", False),
]
# words with files of which one is at fault, the exit code, the last line, and the lines that are told; None stands for any
DESK_ENDS = [
    ("in=none script=bits", 7, "script 1 BadBits", [f"bits:1: {NO_BITS}", "  1 keep 1"]),
    ("in=none script=dot", 0, "served 1", []),
    ("in=none script=absent", 3, "read fault", [f"absent: {UNREAD}"]),
    ("in=absent script=gone", 3, "read fault", [f"absent: {UNREAD}"]),
    ("in=none script=.", 3, "read fault", [f".: {UNREAD}"]),
    ("in=torn script=absent", 1, "refused 6 UnknownConcept", ["torn:6: no row above has old.Eagle_wol; is it old.Eagle_owl?", "  [old.Eagle_wol equals new.Bubo]"]),
    ("in=bits script=dot", 1, "refused 1 BadLine", None),
    ("in=dot script=/dev/null", 1, "refused 1 BadLine", None),
    # a pipe can't be read once more
    ("in=none script=/dev/stdin", 7, "script 2 UnknownConcept", [f"/dev/stdin:2: {NO_CONCEPT}"]),
]
DESK_FILES = {"none": ALONE, "bits": "1 keep 1\n", "dot": "1 keep .\n", "torn": NAMES[0][0].replace("|", "\n")}


def desk_faults(desk, folder):
    for word in ("--help", "-h", "help"):
        code, out, told = run(desk, word, folder)
        if (code, out, told) != (2, "usage NotOperand\n", [*DESK_HELP]):
            yield word, code, out, told
    for words, kind, last in DESK_WORDS:
        code, out, told = run(desk, words, folder)
        if (code, out, told) != (2, f"usage {kind}\n", [DESK_USAGE, last]):
            yield words, code, out, told
    for name, text in {**DESK_FILES, "p": (ROWS + EQUAL).replace("|", "\n")}.items():
        folder.hold(name, text)
    for text, number, kind, said, is_shown in DESK_SCRIPTS:
        folder.hold("s", text)
        code, out, told = run(desk, "in=p script=s", folder)
        place = f"s:{number}" if number else "s"
        if (code, out, told) != (7, f"script {number} {kind}\n", [f"{place}: {said}"] + [f"  {text.split(chr(10))[number - 1].strip()}"] * is_shown):
            yield text[:200], code, out, told
    for words, code, last, lines in DESK_ENDS:
        got, out, told = run(desk, words, folder, given=b"1 open\n1 narrow 1.A 2.C =\n")
        if (got, out.split("\n")[-2]) != (code, last) or (told != lines if lines is not None else not told):
            yield words, got, out, told


def main():
    given = harness.arguments(__doc__, "desk")
    with harness.Folder() as folder:
        wrong = show(list(desk_faults(given.desk, folder)))
    print(f"desk_messages: {len(DESK_WORDS)} faults of words, {len(DESK_SCRIPTS)} of scripts, {len(DESK_ENDS)} ends; {wrong} wrong")
    return 1 if wrong else 0


if __name__ == "__main__":
    sys.exit(main())
