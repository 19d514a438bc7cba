#!/usr/bin/env python3
"""Whether completions/keys.txt is the program's table, and the completions and the manual pages are made from it and work.

    tests/completions.py [--program PATH] [--desk PATH]

The table is compared with the usage lines of both programs, or, where the desk isn't built, with what the tests know of it. What
completions/generate would write is compared with what is there. Each shell that is installed (bash, zsh, fish) is asked for the words
that it offers.
"""

import os
import re
import shutil
import sys
from importlib.machinery import SourceFileLoader

import harness
from oracle.commands import DESK, ROWS

COMPLETIONS = os.path.join(harness.ROOT, "completions")
sys.dont_write_bytecode = True
generate = SourceFileLoader("generate", os.path.join(COMPLETIONS, "generate")).load_module()

# what is on the line, and the words that must be among those offered, or all of them where the first is None
CASES = [
    ("euler_align ", [None, *ROWS]),
    ("euler_align al", [None, "align"]),
    ("euler_align trial ", [None, "seed=", "size="]),
    ("euler_align align wor", [None, "worlds="]),
    ("euler_align align in=pro", [None, "problem.txt"]),
    ("euler_align mir in=problem.txt cov", ["coverage="]),
    ("euler_align mir in=problem.txt sibling=o", [None, "on", "off"]),
    ("euler_align report in=problem.txt kinds=me", [None, "merge"]),
    ("euler_align report in=problem.txt kinds=count,ta", [None, "tally"]),
    ("euler_align par", [None, "parts", "part"]),
    ("euler_align part in=problem.txt cert=c unt", [None, "until="]),
    ("euler_align part in=problem.txt until=oth", [None, "other.txt"]),
    ("euler_align join in=problem.txt certs=pro", [None, "problem.txt"]),
    ("euler_align join in=problem.txt certs=problem.txt,oth", [None, "other.txt"]),
    ("euler_desk scr", [None, "script="]),
    ("euler_desk in=problem.txt nonem", ["nonempty="]),
    ("euler_desk in=problem.txt coverage=o", [None, "on", "off"]),
    ("euler_desk in=problem.txt script=oth", [None, "other.txt"]),
]
ZSH = """
emulate -L zsh
offered=()
_describe() { for one in ${(P)2}; do [[ ${one%%:*} == ${PREFIX}* ]] && print -r -- ${one%%:*}; done }
_files() { print -rl -- ${PREFIX}*(N) }
compset() {
  local rest=${PREFIX##${~2}}
  [[ $rest == $PREFIX ]] && return 1
  IPREFIX=${PREFIX%$rest}; PREFIX=$rest
}
compadd() {
  while [[ $1 == -* ]]; do [[ $1 == -- ]] && { shift; break }; [[ $1 == -S ]] && shift; shift; done
  for one in $@; do [[ $one == ${PREFIX}* ]] && print -r -- $one; done
}
words=("${(@s: :)LINE}"); CURRENT=$#words; PREFIX=$words[CURRENT]; IPREFIX=
setopt nullglob
source $COMPLETION
"""
BASH = r"""
source "$COMPLETION"
compopt() { :; }
line=${LINE//=/ = }
read -ra COMP_WORDS <<<"$line"
[[ $LINE == *" " ]] && COMP_WORDS+=("")
COMP_CWORD=$((${#COMP_WORDS[@]} - 1))
"_${COMP_WORDS[0]}"
printf '%s\n' "${COMPREPLY[@]}"
"""


def usage_of(program):
    return harness.run([program, "--help"]).err.decode()


def row_of(usage):
    """The needed keys of a usage line, other keys, and the values that they take."""
    words = re.findall(r"(\[?)(\w+)=([^\s\]]+)", usage)
    return [key for mark, key, _ in words if not mark], [key for mark, key, _ in words if mark], {key: value for _, key, value in words}


def program_table(program):
    """The commands by the program's usage lines."""
    return {name: row_of(rest) for name, rest in re.findall(r"^  (\w+) (.*=.*)$", usage_of(program), re.M)}


def desk_table(desk):
    """What the desk takes, by its usage line where it is built."""
    if not desk:
        return {"euler_desk": (DESK.required, DESK.optional, {})}
    return {"euler_desk": row_of(next((line for line in usage_of(desk).split("\n") if "euler_desk " in line and "=" in line), ""))}


def table_faults(there, rows, keys):
    faults = []
    if [one.name for one in rows] != list(there):
        faults.append(f"the commands are {' '.join(there)}, and keys.txt has {' '.join(one.name for one in rows)}")
    for one in rows:
        needed, other, values = there.get(one.name, ([], [], {}))
        if (one.needed, one.other) != (needed, other):
            faults.append(f"{one.name} needs {needed} and takes {other}; keys.txt has {one.needed} and {one.other}")
        for name, value in values.items():
            if name not in keys or keys[name].kind != value:
                faults.append(f"{name} takes {value}; keys.txt has {keys[name].kind if name in keys else 'no such key'}")
    return faults


def offered(shell, line, folder):
    """The words that a shell offers at the end of a line; what stands before = or a comma is left out."""
    file = os.path.abspath(os.path.join(COMPLETIONS, generate.FILES[shell].format(line.split(" ")[0])))
    if shell == "fish":
        script = f"source {file}; complete -C {generate.fish_quoted(line)}"
        words = ["fish", "--no-config", "-c", script]
    else:
        words = ["bash", "--norc", "-c", BASH] if shell == "bash" else ["zsh", "-f", "-c", ZSH]
    done = harness.run(words, folder.path, env={**os.environ, "LINE": line, "COMPLETION": file, "HOME": folder.path})
    if done.err.strip():
        return [f"(said: {done.err.decode().strip()})"]
    found = [one.split("\t")[0] for one in done.out.decode().split("\n") if one.strip()]
    before = re.search(r"\S*[=,]", line.rsplit(" ", 1)[-1])
    return [one.replace(before.group(0), "", 1) if before and one.startswith(before.group(0)) else one.rsplit(",", 1)[-1] for one in found]


def shell_faults(shell):
    faults = []
    with harness.Folder() as folder:
        for name in ("problem.txt", "other.txt"):
            folder.hold(name, "")
        for line, wanted in CASES:
            got = offered(shell, line, folder)
            # fish offers the two values of a switch at once, as `coverage=on`
            got = got if shell != "fish" else [one.replace("coverage=on", "coverage=") for one in got]
            short = [word for word in wanted if word]
            if any(word not in got for word in short) or (wanted[0] is None and sorted(set(got)) != sorted(short)):
                faults.append(f"{shell}: {line!r} offers {got}, and not {short}")
    return faults


def main():
    given = harness.arguments(__doc__, "program desk?")
    programs, faults, told = generate.read_programs(), [], []
    for one, there in zip(programs, (program_table(given.program), desk_table(given.desk))):
        faults += table_faults(there, one.rows, one.keys)
    done = harness.run([os.path.join(COMPLETIONS, "generate"), "--check"])
    faults += done.out.decode().strip().split("\n") if done.code else []
    for shell in generate.FILES:
        if shutil.which(shell):
            faults += shell_faults(shell)
            told.append(f"{len(CASES)} lines by {shell}")
        else:
            told.append(f"{shell} is not installed")
    for fault in faults:
        print(fault)
    print(f"completions: the table has {len(programs[0].commands)} commands; {', '.join(told)}; {len(faults)} wrong")
    return 1 if faults else 0


if __name__ == "__main__":
    sys.exit(main())
