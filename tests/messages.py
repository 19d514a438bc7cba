#!/usr/bin/env python3
"""What people are told on standard error: of wrong words, of names that no row has, where no world is possible, where a question has no
answer, and of parts of a listing that are empty, refused or missing. A command that they are told to run is run.

    tests/messages.py [--program PATH]

Each case looks at the exit code, the last line of standard output and the lines of standard error. It ends with status 1 if a case failed,
and shows what was told.
"""

import re
import sys

import harness
from small_runs import ALONE, CROWD, LISTING, PARTINGS, TOKEN

NUMBER = "without a leading zero"
NUMBERED = "the tokens have this name with a number behind it; give one with which in= does not begin"

# words, the fault of them, and the last line of what is told
WORDS = [
    ("", "NoCommand", "there is no command; begin with one of these"),
    ("alig in=p", "UnknownCommand", "alig: the first word is no command; is it align?"),
    ("solve in=p", "UnknownCommand", "solve: the first word is no command; begin with one of these"),
    ("mir p", "NotOperand", "p: a word is not KEY=VALUE; write a key, an equals sign and a value, with no space between them"),
    ("align in=p worls=3", "UnknownKey", "worls=3: the command has no such key; is it worlds?"),
    ("mir in=p worlds=3", "UnknownKey", "worlds=3: the command has no such key; take one of those above"),
    ("conflict in=p in=q", "KeyTwice", "in=q: a key is given twice; give it once"),
    ("mir in=p coverage=no", "BadSwitch", "coverage=no: a switch is neither on nor off; write on or off"),
    (
        "trial seed=7 size=15",
        "BadNumber",
        f"size=15: a number is none, or is not one that may stand there; give an even number from 14 to 256, {NUMBER}",
    ),
    (
        "explain in=p left=1.A right=2.B set=equals",
        "BadSet",
        "set=equals: a set of relations is empty, or has a byte that is no letter of one; give one or more of the letters = > < x !",
    ),
    ("align in=p nodes=0", "ZeroBudget", f"nodes=0: a limit is 0; give a number from 1 to 18446744073709551615, {NUMBER}"),
    ("align cert=", "EmptyName", "cert=: a file name is empty; write the file's name behind the equals sign"),
    (
        "report in=p kinds=cuont",
        "UnknownKind",
        "kinds=cuont: there is no report of this kind; give one or more of count, tally, seen, merge and json, with commas and no spaces between",
    ),
    ("report in=p kinds=count,count", "KindTwice", "kinds=count,count: a kind of report is given twice; name it once"),
    ("check in=p", "MissingKey", "cert=FILE: a required key is missing; add it"),
    ("explain in=p left=1.A right=2.B", "MissingKey", "set=LETTERS: a required key is missing; add it"),
    ("explain in=p left=1.A set==", "MissingKey", "right=TEXT: a required key is missing; add it"),
    ("lattice in=p cert=p", "SameName", "cert=p: two keys name the same file; give each a name of its own"),
    ("parts in=p count=3", "MissingKey", "token=FILE: a required key is missing; add it"),
    ("part in=p until=u", "MissingKey", "cert=FILE: a required key is missing; add it"),
    ("join in=p", "MissingKey", "certs=FILE,..: a required key is missing; add it"),
    ("join in=p cert=c", "UnknownKey", "cert=c: the command has no such key; is it certs?"),
    ("part in=p cert=c untill=u", "UnknownKey", "untill=u: the command has no such key; is it until?"),
    ("joyn in=p", "UnknownCommand", "joyn: the first word is no command; is it join?"),
    (
        "parts in=p count=1001 token=t",
        "BadNumber",
        f"count=1001: a number is none, or is not one that may stand there; give a number from 1 to 1000, {NUMBER}",
    ),
    ("join in=p certs=c,,d", "EmptyName", "certs=c,,d: a file name is empty; write the file's name behind the equals sign"),
    ("join certs=c,p in=p", "SameName", "in=p: two keys name the same file; give each a name of its own"),
    ("part in=p cert=c resume=t until=t", "SameName", "until=t: two keys name the same file; give each a name of its own"),
    ("parts in=t12 count=3 token=t", "SameName", f"token=t: two keys name the same file; {NUMBERED}"),
    ("parts token=p count=3 in=p", "SameName", f"in=p: two keys name the same file; {NUMBERED}"),
    ("align in=p worlds=3", "BudgetWithoutToken", "token=FILE: a limit is given, but no file for the token; add it"),
    ("align in=p cert=p", "SameName", "cert=p: two keys name the same file; give each a name of its own"),
]

ROWS = "taxonomy old|(Owls Eagle_owl Barn_owl)|taxonomy new|(Strigidae Bubo Tyto)|articulation|"
NO_LIKE = "has no name like it; spell it as it stands there, or put it into a row there"
PLAIN = "a concept here stands in no row above; check how its taxonomy and it are spelled, and that all statements stand below the taxonomies"

# texts, whose lines end in bars, with the line of the fault, and what is told of it
NAMES = [
    (ROWS + "[old.Eagle_wol equals new.Bubo]|", 6, ["no row above has old.Eagle_wol; is it old.Eagle_owl?"]),
    (ROWS + "[old.eagle-owl equals new.Bubo]|", 6, ["no row above has old.eagle-owl; is it old.Eagle_owl?"]),
    (ROWS + "[old.Bubo equals new.Strigidae]|", 6, ["no row above has old.Bubo; is it new.Bubo?"]),
    (ROWS + "[old.Owls equals new.Tytonidae]|", 6, [f"no row above has new.Tytonidae, and new {NO_LIKE}"]),
    (ROWS + "[odl.Owls equals new.Strigidae]|", 6, ["there is no taxonomy odl, in odl.Owls; is it old?"]),
    (ROWS + "[2021.Ulula equals new.Bubo]|", 6, ["there is no taxonomy 2021, in 2021.Ulula; there are old, new"]),
    (
        ROWS + "[new.Strigidae sums old.Eagle_owls old.Barn_owls]|",
        6,
        ["no row above has old.Eagle_owls; is it old.Eagle_owl?", "no row above has old.Barn_owls; is it old.Barn_owl?"],
    ),
    (
        "taxonomy old|(Bubo Ulula)|taxonomy new|(Owls Bubu)|articulation|[new.Bubo equals old.Ulula]|",
        6,
        ["no row above has new.Bubo; is it new.Bubu or old.Bubo?"],
    ),
    # a row below the statement is none above it, and one taxonomy is not enough to read what stands above
    (ROWS + "[old.Owls equals third.Owls]|taxonomy third|(Owls)|", 6, ["there is no taxonomy third, in third.Owls; is it old?"]),
    ("taxonomy old|(Owls)|articulation|[old.Owls equals new.Owls]|taxonomy new|(Owls)|", 4, [PLAIN]),
    # what a terminal might take for a command is not shown
    (ROWS + "[old.Owls\u009b equals new.Bubo]|", 6, [PLAIN]),
]
NO_NAME = "this names no concept; write the name of its taxonomy, a full stop and its own"
EQUAL = "[old.Owls equals new.Strigidae]|"

# statements below the rows, words, the exit code, the last line, and what is told, each line up to its first semicolon
QUESTIONS = [
    (EQUAL, "explain in=p left=old.Eagle_wol right=new.Bubo set==", 12, "pair UnknownConcept", ["left=old.Eagle_wol: no row has old.Eagle_wol"]),
    (
        EQUAL,
        "explain in=p left=old.Bubo right=nwe.Bubo set==",
        12,
        "pair UnknownConcept",
        ["left=old.Bubo: no row has old.Bubo", "right=nwe.Bubo: there is no taxonomy nwe, in nwe.Bubo"],
    ),
    (EQUAL, "explain in=p left=old.Owls right=Bubo set==", 12, "pair UnknownConcept", [f"right=Bubo: {NO_NAME}"]),
    (EQUAL, "explain in=p left= right=new.Bubo set==", 12, "pair UnknownConcept", [f"left=: {NO_NAME}"]),
    (EQUAL, "explain in=p left=old.Owls right=old.Owls set=x", 12, "pair SameConcept", ["left and right name one concept, which equals itself; give two concepts"]),
    (
        EQUAL,
        "explain in=p left=old.Barn_owl right=new.Bubo set==",
        14,
        "not entailed",
        ["this doesn't follow: a world is possible in which the relation of old.Barn_owl to new.Bubo is another"],
    ),
    (EQUAL * 129, "lattice in=p cert=c", 13, "too many", ["p: this has more than 128 statements, so their conflicts can't all be listed"]),
    (EQUAL * 128, "lattice in=p cert=c", 0, "lattice 0 1", []),
    (EQUAL, "explain in=p left=old.Owls right=new.Bubo set=>", 0, "1 [old.Owls equals new.Strigidae]", []),
]


def at(position):
    """A token of a position of the first problem below."""
    return TOKEN.replace("<", position)


# files: three problems, and what goes with the first; `off` is a token of it under another switch
FILES = {
    "p": ALONE,
    "many": CROWD,
    "trees": PARTINGS,
    "front": at("."),
    "t2": at(">"),
    "t3": at("<"),
    "t4": at("x"),
    "off": "token 2 2 1 2bf81509e6165649b694a1971a5ad479713b230b164b70fe5ddc332302079439 <\n",
    "bad": at("?"),
    "text": "no token\n",
    "whole": LISTING,
    "cut": LISTING.replace("end -\n", ""),
    "wrong": LISTING.replace("w 1 > 2 0,1 0\n", ""),
    "claims": "claims 1 on on on\ndone\n",
    "first": "certificate 1 on on on .\nb 0 .\nw 1 = 1 0 0\nend >\n",
    "last": "certificate 1 on on on x\nb 0 .\nw 1 x 3 0,1 0,2\nw 1 ! 2 0 1\nend -\n",
}
BAD_TOKEN = "this is no token; give a file that `align` or `parts` wrote under `token=`"
OTHER_PROBLEM = "this token is of another problem; give the problem and the switches that it was made with"
BAD_POSITION = "the place in this token is not one of this problem; list from the front, or to the end, without this token"
NOT_ABOVE = (
    "the position of this token is not above the one at which the part begins, so there is nothing to list; give the earlier token as resume= "
    "and the later one as until="
)
AGAIN = "run the `part` again that writes this file, with the problem and the switches of this run"
UNREAD = "this file can't be read; check that it exists, that it is not a folder, and that you may read it"
OPEN = "this doesn't follow: a world is possible in which the relation of 1.A to 2.B is another"
CROWDED = "many: this has more than 128 statements, so their conflicts can't all be listed"


def unwritten(files):
    return (
        f"standard output or {files} can't be written: whoever read it may have stopped early, as `head` does; or check that the folder exists, that "
        "you may write there and that there is room. What was written is not whole"
    )


def missing(words):
    return (
        "none of these certificates lists what lies from the first of these two positions on and below the second, where . is the front and - the "
        f"end: run `{words}` with tokens of these positions, and name its certificate too; any token of this problem is one of a position that is "
        "written as its last word"
    )


# words, the exit code, the last line, and the line that is told
TOLD = [
    ("part in=p cert=c resume=t3 until=t2", 15, "empty part", f"t2: {NOT_ABOVE}"),
    ("part in=p until=front cert=c", 15, "empty part", f"front: {NOT_ABOVE}"),
    ("part in=p cert=c resume=text until=t3", 7, "token BadToken", f"text: {BAD_TOKEN}"),
    ("part in=p cert=c resume=text until=bad", 7, "token BadToken", f"text: {BAD_TOKEN}"),
    ("part in=p cert=c resume=t2 until=text", 7, "token BadToken", f"text: {BAD_TOKEN}"),
    ("part in=p cert=c until=bad", 7, "token BadPosition", f"bad: {BAD_POSITION}"),
    ("part in=p cert=c resume=bad", 7, "token BadPosition", f"bad: {BAD_POSITION}"),
    ("part in=p cert=c resume=t2 until=t3 coverage=off", 7, "token OtherProblem", f"t2: {OTHER_PROBLEM}"),
    ("part in=p cert=c resume=off until=t3 coverage=off", 7, "token OtherProblem", f"t3: {OTHER_PROBLEM}"),
    ("align in=p resume=text", 7, "token BadToken", f"text: {BAD_TOKEN}"),
    ("align in=p resume=off", 7, "token OtherProblem", f"off: {OTHER_PROBLEM}"),
    (
        "join in=p certs=whole,text",
        16,
        "refused part 2 1 BadLine",
        f"text:1: this line has no form that may stand here; the file was changed, or is no certificate; {AGAIN}",
    ),
    (
        "join in=p certs=first,claims,text",
        16,
        "refused part 2 1 BadLine",
        f"claims:1: this line has no form that may stand here; the file was changed, or is no certificate; {AGAIN}",
    ),
    (
        "join in=p certs=cut",
        16,
        "refused part 1 8 EndsEarly",
        f"cut:8: the certificate ends before its last line; the run that wrote it did not finish; {AGAIN}",
    ),
    (
        "join in=p certs=first,first,wrong",
        16,
        "refused part 3 4 MissingBranch",
        f"wrong:4: another node should be told of here; one is missing, or they are out of order; {AGAIN}",
    ),
    (
        "join in=p certs=whole nonempty=off",
        16,
        "refused part 1 1 WrongHeader",
        f"whole:1: the certificate is for other switches, or for a problem with more pairs; {AGAIN}",
    ),
    ("join in=p certs=last,first", 17, "gap > x", missing("euler_align part in=p resume=.. until=.. cert=..")),
    ("join in=p certs=first sibling=on coverage=on", 17, "gap > -", missing("euler_align part in=p sibling=on coverage=on resume=.. cert=..")),
    ("join coverage=on certs=last in=p", 17, "gap . x", missing("euler_align part in=p coverage=on until=.. cert=..")),
    ("part in=p cert=c resume=absent until=t3", 3, "read fault", f"absent: {UNREAD}"),
    ("part in=p cert=c resume=t2 until=absent", 3, "read fault", f"absent: {UNREAD}"),
    ("join in=p certs=whole,absent,gone", 3, "read fault", f"absent: {UNREAD}"),
    ("parts in=p count=3 token=absent/t", 4, "", unwritten("absent/t1, absent/t2 and so on")),
    ("part in=p cert=absent/c", 4, "", unwritten("absent/c")),
    (
        "part in=p cert=./t2 resume=t2",
        4,
        "",
        "resume=t2 and cert=./t2 name one file, so what it holds was kept and the run ended there; give another name for what is to be written",
    ),
    ("explain in=p left=1.A right=2.B set=x coverage=off", 14, "not entailed", f"{OPEN}; `euler_align mir in=p coverage=off` tells which relations are possible"),
    ("explain set=x in=p left=1.A right=2.B", 14, "not entailed", f"{OPEN}; `euler_align mir in=p` tells which relations are possible"),
    (
        "explain in=trees left=1.A right=1.B set=x",
        14,
        "not entailed",
        f"{OPEN.replace('2.B', '1.B')}; both are of one taxonomy, so `mir` doesn't tell which relations are possible; ask `explain` with more letters, as in "
        "set==>< for all but overlaps and disjoint",
    ),
    ("lattice in=many sibling=off nonempty=on", 13, "too many", f"{CROWDED}; `euler_align conflict in=many sibling=off nonempty=on` names one"),
    ("join in=p certs=last,first,whole", 0, "joined 5", None),
    ("part in=p cert=c resume=t2 until=t4", 0, "part 2", None),
]


def run(program, words, folder, given=b""):
    """The exit code, standard output, and the lines of standard error."""
    done = harness.run([program, *words.split()], folder.path, given)
    return done.code, done.out.decode(), done.err.decode().split("\n")[:-1]


def show(faults):
    """Shows the cases that failed; how many there are."""
    for case, code, out, told in faults:
        print(f"{case!r}: exit code {code}, {out!r}\n  " + "\n  ".join(told))
    return len(faults)


def listed(program, folder):
    """The line of each command in the list that is shown to who asks for help."""
    _, _, told = run(program, "--help", folder)
    return {line.split()[0]: line.strip() for line in told if line.startswith("  ")}


def words_fault(program, folder, usage):
    for words, kind, last in WORDS:
        code, out, told = run(program, words, folder)
        line = usage.get(words.partition(" ")[0])
        shown = [f"usage: euler_align {line}"] if line else told[:1] + [f"  {one}" for one in usage.values()]
        if (code, out, told) != (2, f"usage {kind}\n", shown + [last]):
            yield words, code, out, told


def names_fault(program, folder):
    for text, number, sentences in NAMES:
        folder.hold("p", text.replace("|", "\n"))
        code, out, told = run(program, "align in=p", folder)
        line = text.split("|")[number - 1]
        shown = [f"p:{number}: {sentence}" for sentence in sentences] + ([f"  {line}"] if line.isprintable() else [])
        if (code, out, told) != (1, f"refused {number} UnknownConcept\n", shown):
            yield text, code, out, told
    # a pipe can't be read once more
    text = NAMES[0][0].replace("|", "\n").encode()
    code, out, told = run(program, "align in=/dev/stdin", folder, given=text)
    if (code, out, told) != (1, "refused 6 UnknownConcept\n", [f"/dev/stdin:6: {PLAIN}"]):
        yield "a pipe", code, out, told


def no_world_fault(program, folder):
    """The command that is told of is run: it finds a conflict."""
    text = "taxonomy 1|(A B)|taxonomy 2|(C D)|articulation|[1.B disjoint 2.D]|[1.A equals 2.D]|"
    folder.hold("p", text.replace("|", "\n"))
    for words in ("mir in=p", "align in=p", "report in=p kinds=count", "mir in=p sibling=off nonempty=on cert=c"):
        switches = "".join(f" {word}" for word in words.split() if word.partition("=")[0] in ("nonempty", "sibling", "coverage"))
        asked = f"conflict in=p{switches}"
        code, out, told = run(program, words, folder)
        shown = f"no merged classification meets all statements; `euler_align {asked}` names some that can't stand together, each of them needed for the conflict"
        if (code, told) != (6, [shown]) or run(program, asked, folder)[1].split()[0] != "conflict":
            yield words, code, out, told


def questions_fault(program, folder):
    for statements, words, code, last, sentences in QUESTIONS:
        folder.hold("p", (ROWS + statements).replace("|", "\n"))
        got, out, told = run(program, words, folder)
        begins = len(told) == len(sentences) and all(line == said or line.startswith(said + ";") for line, said in zip(told, sentences))
        if (got, out.split("\n")[-2]) != (code, last) or not begins:
            yield words, got, out, told


def told_fault(program, folder):
    for name, text in FILES.items():
        folder.hold(name, text)
    for words, code, last, said in TOLD:
        got, out, told = run(program, words, folder)
        if (got, out.split("\n")[:-1][-1:], told) != (code, [last] if last else [], [said] if said else []) or not helps(program, folder, words, last, said):
            yield words, got, out, told


def helps(program, folder, words, last, said):
    """Whether a command that is told of answers; and whether the certificate of the one for a gap fills it."""
    for asked in re.findall("`euler_align ([^`]*)`", said or ""):
        if not last.startswith("gap"):
            if run(program, asked, folder)[0] not in (0, 10):
                return False
            continue
        for name, position in zip(("from", "to"), last.split(" ")[1:]):
            folder.hold(name, at(position))
        filled = asked.replace("resume=..", "resume=from").replace("until=..", "until=to").replace("cert=..", "cert=filled")
        certs = re.search("certs=[^ ]*", words).group(0)
        if run(program, filled, folder)[0] != 0 or run(program, words.replace(certs, certs + ",filled"), folder)[0] != 0:
            return False
    return True


def main():
    given = harness.arguments(__doc__, "program")
    with harness.Folder() as folder:
        usage = listed(given.program, folder)
        faults = list(words_fault(given.program, folder, usage))
        for look in (names_fault, no_world_fault, questions_fault, told_fault):
            faults += look(given.program, folder)
    wrong = show(faults)
    print(f"messages: {len(WORDS)} faults of words, {len(NAMES)} of names, {len(QUESTIONS)} questions, {len(TOLD)} other ends; {wrong} wrong")
    return 1 if wrong else 0


if __name__ == "__main__":
    sys.exit(main())
