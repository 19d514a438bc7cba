#!/usr/bin/env python3
"""Certificates that nobody would write in good faith: what `check` answers of them, and `join` of many, and in what time. And scripts for
the desk.

    tests/hostile_inputs.py [--program PATH] [--desk PATH] [--quick]

Each is made of some number of things: bytes of one word, literals, hints, lines, elements, sets, claims. It is tried with a quarter of
them and with all; the answer must be that of the oracle both times, and the processor's time may grow by no more than twice as much
as the bytes do (times below a tenth of a second count as a tenth). There are a million things of each, or ten million bytes of one word;
with `--quick` a tenth of that. So it is with what is joined, by oracle/parts.py: there are as many names as a word may have, and 5,000 that
are all needed, which is as many as `parts` tells of; with `--quick` a tenth. It ends with status 1 if an answer is another one or a time
grows too fast.

The desk's scripts are as long as they may be, with `--quick` a tenth of that, and are tried with a quarter of it too. The answer must be
that of oracle/desk.py, or of the program's listing where very many worlds are shown. What has no end must be refused within seconds. All of
it goes within a limit of memory. Where the desk isn't built, it is left out.
"""

import itertools
import os
import subprocess
import sys

import harness
import oracle.desk
from oracle import certificates, model, texts
from small_runs import ALONE, LISTING as WHOLE_LISTING

PROBLEM, WHOLE = ALONE.encode(), WHOLE_LISTING.encode()
# its given clauses, as the page numbers them: 1 is -3 -1 2, 2 is -4 -1 -2, 3 is -5 1 -2
LAST_ID, LAST_LITERAL = 2**64 - 1, 2**31
LISTING, CLAIMS, ROOT = b"certificate 1 on on on .\n", b"claims 1 on on on\n", b"b 0 .\n"


def words(*parts):
    return " ".join(map(str, parts)).encode() + b"\n"


def listed(*lines):
    return LISTING + b"".join(lines) + b"end .\n"


def derived(count, line):
    return listed(*(line(k) for k in range(count)))


def elements(count):
    return ",".join(map(str, range(count)))


# what each is called, its bytes by the number of things, and by how many its number is multiplied
CASES = [
    ("a line of one word", lambda n: LISTING + b"y" * n + b"\n", 10),
    ("a line of zero bytes", lambda n: LISTING + bytes(n) + b"\n", 10),
    ("a line of spaces", lambda n: LISTING + b"b" + b" " * n + b"\n", 10),
    ("a line without an end", lambda n: LISTING + b"w 1 = " + b"9" * n, 10),
    ("lines without a byte", lambda n: LISTING + b"\n" * n, 10),
    ("a start of many letters", lambda n: b"certificate 1 on on on " + b"=" * n + b"\n", 10),
    ("an end of many letters", lambda n: LISTING + b"end " + b"x" * n + b"\n", 10),
    ("a number of many digits", lambda n: LISTING + b"b " + b"1" * n + b" .\n", 10),
    ("a number with many zeros before it", lambda n: LISTING + b"b " + b"0" * n + b"1 .\n", 10),
    ("a subject of many bits", lambda n: CLAIMS + b"none a " + b"01" * (n // 2) + b"\n", 10),
    ("a clause with one literal again and again", lambda n: listed(words("d", 9, *[-3, -1, 2] * (n // 3), 0, 1, 0)), 1),
    ("a clause of many literals", lambda n: listed(words("d", 9, -3, -1, 2, *range(6, n + 6), 0, 1, 0)), 1),
    ("a clause of the greatest literals", lambda n: listed(words("d", 9, -3, -1, 2, *range(LAST_LITERAL - n, LAST_LITERAL + 1), 0, 1, 0)), 1),
    ("a literal that is too great behind many", lambda n: listed(words("d", 9, *range(1, n), LAST_LITERAL + 1, 0, 1, 0)), 1),
    ("many hints that say the same", lambda n: listed(words("d", 9, -3, -4, -1, 0, *[1] * n, 2, 0)), 1),
    ("many hints behind the contradiction", lambda n: listed(words("d", 9, -3, -4, -1, 0, 1, 2, *[LAST_ID] * n, 0)), 1),
    ("many hints without a contradiction", lambda n: listed(words("d", 9, -3, -1, 0, *[1] * n, 0)), 1),
    ("many clauses with one hint", lambda n: derived(n, lambda k: words("d", 4 + k, -3, -1, 2, 0, 1, 0)), 1),
    ("many clauses with the greatest ids", lambda n: derived(n, lambda k: words("d", LAST_ID - k, -3, -1, 2, 0, 1, 0)), 1),
    ("many clauses with ids that are far apart", lambda n: derived(n, lambda k: words("d", 4 + (k * 0x9E3779B97F4A7C15) % (LAST_ID - 4), -3, -1, 2, 0, 1, 0)), 1),
    ("many clauses with a greatest literal each", lambda n: derived(n, lambda k: words("d", 4 + k, -3, -1, 2, LAST_LITERAL - k, 0, 1, 0)), 1),
    ("an id in use behind many clauses", lambda n: derived(n, lambda k: words("d", 4 + k if k < n - 1 else 4, -3, -1, 2, 0, 1, 0)), 1),
    ("each clause shown by the one before", lambda n: derived(n, lambda k: words("d", 4 + k, -3, -1, 2, 0, 3 + k if k else 1, 0)), 1),
    ("clauses that are dropped at once", lambda n: derived(n // 2, lambda k: words("d", LAST_ID, -3, -1, 2, 0, 1, 0) + words("k", LAST_ID, 0)), 1),
    ("many clauses dropped by one line", lambda n: listed(*(words("d", 4 + k, -3, -1, 2, 0, 1, 0) for k in range(n)), words("k", *range(4, 4 + n), 0)), 1),
    ("a clause dropped again and again", lambda n: listed(words("d", 9, -3, -1, 2, 0, 1, 0), words("k", *[9] * n, 0)), 1),
    ("nothing dropped again and again", lambda n: listed(b"k 0\n" * n), 1),
    ("two sets of many elements", lambda n: LISTING + ROOT + words("w", 1, "=", n, elements(n), elements(n)) + b"end >\n", 1),
    ("a set within one of many elements", lambda n: LISTING + ROOT + words("w", 1, "=", n, elements(n), "0"), 1),
    ("sets with nothing in common", lambda n: CLAIMS + words("some", "m", 0, "!", n, elements(n // 2), ",".join(map(str, range(n // 2, n)))) + b"done\n", 1),
    ("many elements, the last not ascending", lambda n: CLAIMS + words("some", "m", 0, "=", n, elements(n), elements(n) + ",0"), 1),
    ("many elements, the last too great", lambda n: CLAIMS + words("some", "m", 0, "=", n, elements(n), elements(n) + "," + str(n)), 1),
    ("many missing elements", lambda n: CLAIMS + words("some", "m", 0, "=", 1, "," * n), 1),
    ("the greatest universe", lambda n: CLAIMS + words("some", "m", 0, "=", 2**32 - 1, 2**32 - 2, 2**32 - 2) * (n // 10) + b"done\n", 1),
    ("many sets", lambda n: LISTING + ROOT + words("w", 1, "=", 1, *[0] * n), 1),
    ("many empty sets", lambda n: CLAIMS + words("some", "m", 0, "=", 0, *["-"] * n), 1),
    ("many claims", lambda n: CLAIMS + words("some", "m", 0, ">", 2, "0,1", 0) * (n // 10) + b"done\n", 1),
    ("many trees that are left unfinished", lambda n: CLAIMS + (words("none", "a", ".") + b"quit\n") * (n // 10) + b"done\n", 1),
    ("many bytes behind the last line", lambda n: LISTING + b"end .\n" + b"\n" * n, 10),
    ("the greatest depth, need and id", lambda n: LISTING + words("x", 2**32 - 1, "=", LAST_ID, LAST_ID) * n, 1),
    ("the greatest need", lambda n: LISTING + b"k 0\n" * n + words("x", 0, ".", LAST_ID, LAST_ID), 1),
    ("the greatest pair", lambda n: LISTING + b"k 0\n" * n + words("e", 0, ".", 2**32 - 1), 1),
    ("the greatest pair of a subject", lambda n: CLAIMS + b"k 0\n" * n + words("none", "m", 2**32 - 1, "="), 1),
]

NOTHING = b"certificate 1 on on on !\nend .\n"
ALL = (0, "=\n>\n<\nx\n!\njoined 5\n")
# nothing holds together, which only the seventh pair shows
TORN = b"taxonomy 1\n(A)\ntaxonomy 2\n" + b"".join(words(f"(B{k})") for k in range(7)) + b"articulation\n[1.A == 2.B6]\n[1.A ! 2.B6]\n"


def nodes_of(node=""):
    """The nodes of that problem with six letters at the most, ascending, if each is followed by all letters."""
    yield node
    for letter in model.LETTERS if len(node) < 6 else "":
        yield from nodes_of(node + letter)


def chain(count):
    """Certificates of one node each, the last first, so that each goes on where the next one named ends."""
    nodes, files = list(itertools.islice(nodes_of(), count + 1)), {}
    for number, (node, following) in enumerate(zip(nodes, nodes[1:])):
        letters = f".{node}"
        lines = [words("b", depth, letters[depth]) for depth in range(len(node))]
        lines.append(words("e", 6, letters[-1], 6) if len(node) == 6 else words("b", len(node), letters[-1]))
        files[f"{number:x}"] = words("certificate", 1, "on", "on", "on", node or ".") + b"".join(lines) + words("end", following)
    return files, list(files)[::-1], (17, f"gap {nodes[-1]} -\n")


# what each is called, the problem, the files, the names of those that are joined and the answer by the number of names, and that number
JOINS = [
    ("one certificate again and again", PROBLEM, lambda n: ({"c": WHOLE}, ["c"] * n, ALL), 60_000),
    ("one that lists nothing again and again", PROBLEM, lambda n: ({"c": NOTHING}, ["c"] * n, (17, "gap . !\n")), 60_000),
    ("the whole behind many that list nothing", PROBLEM, lambda n: ({"c": NOTHING, "d": WHOLE}, ["c"] * n + ["d"], ALL), 60_000),
    ("many behind one that is refused", PROBLEM, lambda n: ({"c": WHOLE, "d": b""}, ["d"] + ["c"] * n, (16, "refused part 1 1 EndsEarly\n")), 60_000),
    ("one that is refused behind many", PROBLEM, lambda n: ({"c": WHOLE, "d": b""}, ["c"] * n + ["d"], (16, f"refused part {n + 1} 1 EndsEarly\n")), 60_000),
    ("names without a letter", PROBLEM, lambda n: ({}, [""] * n, (2, "usage EmptyName\n")), 120_000),
    ("the problem's name behind many", PROBLEM, lambda n: ({"c": WHOLE}, ["c"] * n + ["p"], (2, "usage SameName\n")), 60_000),
    ("as many parts as there may be, the last first", TORN, chain, 5_000),
    (
        "clauses that are dropped with each certificate",
        PROBLEM,
        lambda n: ({"c": derived(n, lambda k: words("d", 4 + (k * 0x9E3779B97F4A7C15) % (LAST_ID - 4), -3, -1, 2, 0, 1, 0))}, ["c"] * 8, (17, "gap . -\n")),
        200_000,
    ),
]

# lines that are not kept, under a limit of memory in KiB: what each is called, what stands before the zero bytes, how many there are, what
# stands behind them, and the answer
LIMIT, LONG = 1 << 17, 300_000_000
UNKEPT = [
    ("a small certificate", WHOLE, 0, b"", (0, "from .\n=\n>\n<\nx\n!\nto -\naccepted 5\n")),
    ("one line without an end", b"", LONG, b"", (7, "certificate 1 EndsEarly\n")),
    ("one line with its end", b"", LONG, b"\n", (7, "certificate 1 BadLine\n")),
    ("a line in a listing", LISTING + ROOT, LONG, b"\nend .\n", (7, "certificate 3 BadLine\n")),
    ("a line behind the last", WHOLE, LONG, b"", (7, "certificate 9 BadLine\n")),
]


# The desk.

# the limit is for both the scripts and what has no end, in KiB
DESK_LIMIT = 1 << 15
TWO_TREES = b"taxonomy 1\n(A B)\ntaxonomy 2\n(C)\narticulation\n[1.A {equals includes} 2.C]\n"
# more worlds than a script has lines
VERY_MANY = b"".join(words("taxonomy", t) + b"".join(words(f"({c}{k})") for k in range(4)) for t, c in ((1, "A"), (2, "B")))

# what each is called, the problem, and the requests at first and those that come again and again
SCRIPTS = [
    ("a closed slot asked again and again", TWO_TREES, b"", b"1 next\n"),
    ("one world after the other", VERY_MANY, b"1 open\n", b"1 next\n"),
    ("asked again and again past the last world", TWO_TREES, b"1 open\n", b"1 next\n"),
    ("statements dropped and kept again and again", TWO_TREES, b"1 open\n", b"1 keep 0\n1 next\n1 keep 1\n1 next\n"),
    ("narrowed again and again to what is so", TWO_TREES, b"1 open\n", b"1 narrow 2.C 1.A =<\n"),
    ("narrowed and asked again and again", TWO_TREES, b"1 open\n", b"1 narrow 2.C 1.A =<\n1 next\n"),
    ("opened, asked and closed again and again", TWO_TREES, b"", b"16 open\n16 next\n16 close\n"),
]
# what each is called, what is written into standard input without an end, the words, and the answer
WITHOUT_END = [
    ("zero bytes as a script", None, ["in=p", "script=/dev/zero"], (7, "script 0 TooLong\n")),
    ("zero bytes as a problem", None, ["in=/dev/zero", "script=c"], (1, "refused 0 TooLong\n")),
    ("requests from a pipe", "1 next", ["in=p", "script=/dev/stdin"], (7, "script 0 TooLong\n")),
    ("lines without words from a pipe", "", ["in=p", "script=/dev/stdin"], (7, "script 0 TooLong\n")),
    ("a problem from a pipe", "(A)", ["in=/dev/stdin", "script=c"], (1, "refused 0 TooLong\n")),
]


def under_limit(desk, *request):
    return ["sh", "-c", f'ulimit -v {DESK_LIMIT}; exec "$@"', "sh", desk, *request]


def worlds_in_order(program, folder, count):
    """The replies where each request shows a further world: those of the program's listing."""
    _, listed = answered(program, "align", "in=p", f"worlds={count}", "token=t", folder=folder)[0]
    return [f"1 world {world}" for world in listed.split("\n")[:-2]]


def replies_again(problem, front, again, times):
    """The replies to requests that come again and again: when they have come twenty times, nothing changes any more."""
    read = texts.read_problem(problem, (True, True, True)).finish()
    replies = oracle.desk.answer_to(read, front + again * min(times, 20))[1].split("\n")[:-2]
    return replies + replies[len(replies) - again.count(b"\n") :] * max(times - 20, 0)


def served(program, desk, folder, problem, front, again, size):
    """How many bytes a script has, in which time it is served, the last line, and what is wrong with the answer."""
    times = (size - len(front)) // len(again)
    folder.hold("p", problem)
    folder.hold("c", front + again * times)
    got, seconds = answered(*under_limit(desk, "in=p", "script=c"), folder=folder)
    replies = ["1 opened"] + worlds_in_order(program, folder, times) if problem == VERY_MANY else replies_again(problem, front, again, times)
    last = f"served {len(replies)}"
    return len(front) + len(again) * times, seconds, last, fault_of(got, (0, "\n".join([*replies, last, ""])))


def without_end(desk, folder, name, line, request, wanted):
    """Tells of a run over what has no end; whether its answer is as wanted, in time."""
    writer = subprocess.Popen(["yes", line or ""], stdout=subprocess.PIPE, stderr=subprocess.DEVNULL)
    try:
        pipes = {"stdin": writer.stdout, "stdout": subprocess.PIPE, "stderr": subprocess.DEVNULL}
        done = subprocess.run(under_limit(desk, *request), cwd=folder.path, timeout=10, **pipes)
        fault = fault_of((done.returncode, done.stdout.decode()), wanted)
    except subprocess.TimeoutExpired:
        fault = "it has not ended after ten seconds"
    finally:
        writer.stdout.close()
        writer.kill()
        writer.wait()
    print(f"desk, {name}, without an end: {fault or wanted[1].splitlines()[-1]}", flush=True)
    return not fault


def of_desk(program, desk, folder, part):
    """Whether each try of the desk came to what was wanted."""
    size = oracle.desk.MOST_BYTES // part
    for name, *case in SCRIPTS:
        yield judged(f"desk, {name}", *(served(program, desk, folder, *case, number) for number in (size // 4, size)))
    folder.hold("p", TWO_TREES)
    for case in WITHOUT_END:
        yield without_end(desk, folder, *case)


def answered(program, *request, folder):
    """The exit code and standard output of a run, and its processor seconds."""
    with open(os.path.join(folder.aside, "out"), "w+b") as out:
        run = subprocess.Popen([program, *request], cwd=folder.path, stdout=out, stderr=subprocess.DEVNULL)
        _, status, used = os.wait4(run.pid, 0)
        run.returncode = os.waitstatus_to_exitcode(status)
        out.seek(0)
        return (run.returncode, out.read().decode("utf-8", "replace")), used.ru_utime + used.ru_stime


def fault_of(got, wanted):
    return "" if got == wanted else f"wanted {wanted[0]} {wanted[1][-200:]!r}, got {got[0]} {got[1][-200:]!r}"


def checked(program, folder, problem, make, count):
    """How many bytes are checked, in which time, the last line, and what is wrong with the answer."""
    data = make(count)
    folder.hold("c", data)
    got, seconds = answered(program, "check", "in=p", "cert=c", folder=folder)
    wanted = certificates.check(problem, data)
    return len(data), seconds, wanted[1].split("\n")[-2], fault_of(got, wanted)


def joined(program, folder, make, count):
    files, names, wanted = make(count)
    for name, data in files.items():
        folder.hold(name, data)
    got, seconds = answered(program, "join", "in=p", "certs=" + ",".join(names), folder=folder)
    return sum(len(files.get(name, name)) + 1 for name in names), seconds, wanted[1].split("\n")[-2], fault_of(got, wanted)


def limited(program, folder, name, front, zeros, behind, wanted):
    """Tells of a check under the limit; whether its answer is as wanted."""
    path = folder.at("c")
    folder.hold("c", front)
    os.truncate(path, len(front) + zeros)
    with open(path, "ab") as f:
        f.write(behind)
    got, seconds = answered("sh", "-c", f'ulimit -v {LIMIT}; exec "$@"', "sh", program, "check", "in=p", "cert=c", folder=folder)
    fault = fault_of(got, wanted)
    print(f"under a limit, {name}: {os.path.getsize(path) / 1e6:.1f} MB, {seconds:.2f} s: {fault or wanted[1].splitlines()[-1]}", flush=True)
    return not fault


def judged(name, few, many):
    """Tells of a try with a quarter of the things and of one with all; whether both are as wanted."""
    (few_bytes, few_seconds, _, few_fault), (many_bytes, seconds, last, fault) = few, many
    fault = few_fault or fault
    if not fault and max(seconds, 0.1) > 2 * max(few_seconds, 0.1) * many_bytes / few_bytes:
        fault = f"{few_bytes} bytes take {few_seconds:.2f} s, and {many_bytes} bytes {seconds:.2f} s"
    print(f"{name}: {many_bytes / 1e6:.1f} MB, {seconds:.2f} s: {fault or last}", flush=True)
    return not fault


def main():
    given = harness.arguments(__doc__, "program desk?", quick=False)
    part = 10 if given.quick else 1
    problem = texts.read_problem(PROBLEM, (True, True, True)).finish()
    with harness.Folder() as folder:
        folder.hold("p", PROBLEM)
        came = []
        for name, make, times in CASES:
            count = times * 1_000_000 // part
            came.append(judged(name, *(checked(given.program, folder, problem, make, number) for number in (count // 4, count))))
        for case in UNKEPT:
            came.append(limited(given.program, folder, *case))
        for name, text, make, count in JOINS:
            folder.hold("p", text)
            came.append(judged(f"join, {name}", *(joined(given.program, folder, make, number // part) for number in (count // 4, count))))
        came += of_desk(given.program, given.desk, folder, part) if given.desk else []
    print(f"hostile_inputs: {sum(came)} passed, {len(came) - sum(came)} failed{harness.without(given.desk)}")
    return 0 if all(came) else 1


if __name__ == "__main__":
    sys.exit(main())
