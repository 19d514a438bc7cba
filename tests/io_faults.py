#!/usr/bin/env python3
"""Every call of the store and of the sink fails once, for each command and for the desk, over objects in memory.

    tests/io_faults.py [--scenes PATH]

Transcripts for crates/run_scenes are made in which the k-th call fails, for each k until a run ends as the run without a fault does. What
a run with a fault puts must be a first part of what is right, and `read fault` behind it where it read in vain; the certificate and
tokens must hold what they held, or a first part of what is right; other names must hold what they held. It ends with status 1 at the
first run that is not so, and shows it.

The desk puts what oracle/desk.py says; and a line at a time, so that the lines before the one that fails are there, and no more. It reads a
file in pieces of 4,096 bytes, and once more, which finds the end.
"""

import sys

import harness
import oracle.desk
from oracle.commands import files_written
from small_runs import DESK_CALLS, FAILING_CALLS

OLD = {"c": "old c\n", "t": "old t\n", "z": "other\n"}


def file_of(name, text):
    return f"@ {name}\n{text}"


def as_lines(files):
    """Texts whose last line is ended: a transcript has whole lines only."""
    return {name: text if not text or text.endswith("\n") else text + "\n" for name, text in files.items()}


def sign_of(words):
    """The sign of a run: of the desk, or of a command."""
    return ":" if "=" in words.split(" ")[0] else "$"


def block(files, words, failing, put):
    """A transcript of one run in a new store; the lines that show what the names hold end with their names."""
    held = {**OLD, **files}
    shown = "".join(f"= {name}\n" for name in sorted(held))
    return f"% {failing} {put} 0\n" + "".join(file_of(name, text) for name, text in sorted(held.items())) + f"{sign_of(words)} {words}\n" + shown


def parts(out, sign, names):
    """What runs put, their exit codes and what the names hold then, run by run."""
    for run in out.split(f"\n{sign} ")[1:]:
        run = run.split("\n% ")[0].removesuffix("\n") + "\n"
        put, _, rest = run.partition("\n? ")
        put = put.partition("\n")[2]
        code, _, rest = rest.partition("\n")
        held = {}
        for name, following in zip(names, names[1:] + [None]):
            head = f"= {name}\n"
            end = len(rest) if following is None else rest.index(f"= {following}\n", len(head))
            held[name], rest = rest[len(head) : end], rest[end:]
        yield put + "\n" if put else "", int(code), held


def played(program, folder, problem, files, words, kind, most):
    """The runs in which no call fails, and then each call of the store (kind 0) or of the sink (kind 1) up to a number."""
    blocks = "".join(block(files, words, *(number if at == kind else 0 for at in range(2))) for number in range(most + 1))
    folder.hold("t.txt", file_of("p", problem) + blocks)
    done = harness.run([program, "t.txt"], folder.path)
    if done.code != 0:
        sys.exit(f"{words}: the transcript isn't played: {done}")
    return list(parts("\n" + done.out.decode(), sign_of(words), sorted({**OLD, **files})))


def is_first_part(text, whole):
    return whole.startswith(text)


def fault_in(words, files, right, run):
    """What is wrong with a run in which a call failed, or None."""
    put, code, held = run
    if code not in (3, 4):
        return "it ends in another way"
    if code == 3 and not (put.endswith("read fault\n") and is_first_part(put[: -len("read fault\n")], right[0])):
        return "what is put is not a first part of what is right, and then `read fault`"
    if code == 4 and not is_first_part(put, right[0]):
        return "what is put is not a first part of what is right"
    given = {**OLD, **files}
    for name in held:
        is_written = name in files_written(words.split())
        if held[name] != given[name] and not (is_written and is_first_part(held[name], right[2][name])):
            return f"{name} holds something else"
    return None


def until_it_ends_well(program, folder, case, kind):
    """The run in which no call fails, and those in which one does, up to the first call that the run doesn't make."""
    for most in (30, 300, 3000):
        right, *others = played(program, folder, *case, kind, most)
        ends = [run == right for run in others]
        if True in ends:
            if not all(ends[ends.index(True) :]):
                sys.exit(f"{case[2]}: a run ends otherwise though no call of its fails")
            return right, others[: ends.index(True)]
    sys.exit(f"{case[2]}: no run ends well")


def check_case(program, folder, case):
    count = 0
    for kind in (0, 1):
        right, others = until_it_ends_well(program, folder, case, kind)
        for number, run in enumerate(others, 1):
            why = fault_in(case[2], case[1], right, run)
            count += 1
            if why:
                sys.exit(f"{case[2]}: call {number} of the {'sink' if kind else 'store'} fails: {why}\n{run}\nand right is\n{right}")
    return count


def check_desk(program, folder, case):
    """The same for the desk, with what it puts told beforehand."""
    problem, files, words = case
    held = {name: text.encode() for name, text in {"p": problem, **files}.items()}
    code, text = oracle.desk.answer(words.split(), held.get)
    lines, count = text.splitlines(keepends=True), 0
    # none is read where the words are at fault, and the problem alone where it is
    read = [held["p"], held.get("s", b"")][: {2: 0, 1: 1}.get(code, 2)]
    reads = sum(-(-len(data) // 4096) + 1 for data in read)
    wanted = [[("read fault\n", 3)] * reads, [("".join(lines[:number]), 4) for number in range(len(lines))]]
    for kind in (0, 1):
        right, others = until_it_ends_well(program, folder, case, kind)
        got = [run[:2] for run in others]
        if right[:2] != (text, code) or got != wanted[kind]:
            sys.exit(f"{words}: where calls of the {'sink' if kind else 'store'} fail: {right[:2]}, and then {got}\nwanted: {(text, code)}, and then {wanted[kind]}")
        if any(run[2] != {**OLD, **files} for run in [right, *others]):
            sys.exit(f"{words}: a name holds something else: {right[2]}, and then {[run[2] for run in others]}")
        count += len(others)
    return count


def main():
    given = harness.arguments(__doc__, "scenes")
    with harness.Folder() as folder:
        count = sum(check_case(given.scenes, folder, (problem, as_lines(files), words)) for problem, files, words in FAILING_CALLS)
        of_desk = sum(check_desk(given.scenes, folder, (problem, as_lines(files), words)) for problem, files, words in DESK_CALLS)
    print(f"io_faults: {len(FAILING_CALLS)} runs, {count} calls that fail, and of the desk {len(DESK_CALLS)} runs, {of_desk} calls, nothing wrong")


if __name__ == "__main__":
    main()
