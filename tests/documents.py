#!/usr/bin/env python3
"""Whether the pages are true: runs the command lines that they show, and looks up what they link to.

    tests/documents.py [--program PATH] [--desk PATH]

Where there is no program, no command line is run.

A command line of README.md, docs/GUIDE.md or examples/README.md stands in a block that is indented by four spaces, behind `$ `; further
lines of the command stand behind `> `. What follows up to the next `$ ` is what it puts, on standard output and standard error. There,
`...` stands for any text: within a line for a part of it, and on a line of its own for lines, or none. The command lines of a page
are run one after the other by bash, in a folder of their own that has the examples and tools, with the programs on the path. A block is
skipped, and the last line says so, where something that it needs is missing: the desk, or, for `tools/from_skos`, `rdflib` in a Python that
the tool would take.

Besides: each relative link of each page leads to a file, and to a heading of it; what stands between backticks is there, where it looks
like a path or, on the pages about the proof, like a name in the code; each crate stands in docs/CODE.md once, and stands on
no crate that the line of its layer rules out; the table of what must be read, in docs/PROOF.md, is what tools/reading_list counts; and
docs/FORMATS.md, the manual pages and the completions have the commands and keys of the program's table.
"""

import collections
import os
import re
import shutil
import sys

import harness
from harness import ROOT
from oracle.commands import DESK, NONE, ROWS

SHOWN = ["README.md", "docs/GUIDE.md", "examples/README.md"]
NAMING = ["docs/PROOF.md", "docs/DEFINITIONS.md"]
MARK = "\x01"
# what stands in a command line, and what that needs besides the program
NEEDED = [("tools/from_skos ", "rdflib"), ("tools/desk ", "euler_desk"), ("euler_desk in=", "euler_desk")]


def lines_of(page):
    with open(os.path.join(ROOT, page), encoding="utf-8") as file:
        return file.read().split("\n")


def commands_of(page):
    """The blocks of command lines of a page: of each line its number, its words, and what the page says that it puts."""
    blocks, current = [[]], None
    for number, line in enumerate(lines_of(page), 1):
        if not line.startswith("    "):
            current = None
            blocks.append([])
        elif line.startswith("    $ "):
            current = [number, line[6:], []]
            blocks[-1].append(current)
        elif current and line.startswith("    > ") and not current[2]:
            current[1] += "\n" + line[6:]
        elif current:
            current[2].append(line[4:])
    return [block for block in blocks if block]


def has_rdflib():
    """Whether tools/from_skos can work: by the Python on the path, or else by Debian's, which it takes then."""
    pythons = [python for python in (shutil.which("python3"), "/usr/bin/python3") if python and os.path.exists(python)]
    return any(harness.run([python, "-c", "import rdflib"]).code == 0 for python in pythons)


def lacking(block, there):
    """What a block of command lines needs that isn't there, or None."""
    return next((thing for text, thing in NEEDED if thing not in there and any(text in words for _, words, _ in block)), None)


def is_line(shown, got):
    return re.fullmatch(".*".join(re.escape(part) for part in shown.split("...")), got) is not None


def first_difference(shown, got):
    """Where what was put is not what is shown: a place in both lists; None where it is."""
    reached = {0}  # the places of `got` up to which the lines so far may reach
    for k, line in enumerate(shown):
        if line.strip() == "...":
            after = set(range(min(reached), len(got) + 1))
        else:
            after = {at + 1 for at in reached if at < len(got) and is_line(line, got[at])}
        if not after:
            return k, max(reached)
        reached = after
    return None if len(got) in reached else (len(shown), max(reached))


def run_page(page, programs, folder, there):
    """How many command lines of a page were run, how many were not for want of what, and what is wrong."""
    for name in ("examples", "tools", "docs", "tests"):
        os.symlink(os.path.join(ROOT, name), folder.at(name))
    path = folder.at(".programs")
    os.mkdir(path)
    for name, program in programs.items():
        os.symlink(program, os.path.join(path, name))
    blocks = [(block, lacking(block, there)) for block in commands_of(page)]
    commands = [command for block, lack in blocks if not lack for command in block]
    script = ["exec 2>&1"]
    for _, words, _ in commands:
        script += [words, f"__code=$?; printf '{MARK}'; (exit $__code)"]
    environment = dict(os.environ, PATH=path + os.pathsep + os.environ["PATH"], LC_ALL="C.UTF-8")
    done = harness.run(["bash"], folder.path, "\n".join(script).encode() + b"\n", seconds=600, env=environment)
    pieces = done.out.decode().split(MARK)
    faults = []
    if len(pieces) != len(commands) + 1:
        faults.append(f"{page}: {len(pieces) - 1} of {len(commands)} command lines came to an end")
    for (number, words, shown), piece in zip(commands, pieces):
        got = piece.split("\n")
        if got[-1] == "":
            got.pop()
        difference = first_difference(shown, got)
        if difference:
            wanted, at = difference
            faults.append(
                f"{page}:{number}: $ {words}\n  shown: {shown[wanted] if wanted < len(shown) else 'nothing more'}"
                f"\n  put:   {got[at] if at < len(got) else 'nothing more'}"
            )
    return len(commands), collections.Counter(lack for block, lack in blocks if lack for _ in block), faults


def pages():
    out = []
    for folder, folders, names in os.walk(ROOT):
        folders[:] = sorted(f for f in folders if f not in (".git", "out", "__pycache__"))
        out += [os.path.relpath(os.path.join(folder, name), ROOT) for name in sorted(names) if name.endswith(".md")]
    return out


def anchors_of(page):
    heads = [line.lstrip("#").strip().lower() for line in lines_of(page) if re.match(r"#+ ", line)]
    return {re.sub(r"[^\w\- ]", "", re.sub(r"\[([^]]*)\]\([^)]*\)", r"\1", head)).replace(" ", "-") for head in heads}


def link_faults():
    count, faults = 0, []
    for page in pages():
        for number, line in enumerate(lines_of(page), 1):
            if line.startswith("    "):
                continue
            for target in re.findall(r"\]\(([^)\s]+)\)", line):
                if re.match(r"[a-z]+:", target):
                    continue
                count += 1
                path, _, anchor = target.partition("#")
                there = os.path.normpath(os.path.join(os.path.dirname(page), path)) if path else page
                if not os.path.exists(os.path.join(ROOT, there)):
                    faults.append(f"{page}:{number}: there is no {there}")
                elif anchor and anchor not in anchors_of(there):
                    faults.append(f"{page}:{number}: {there} has no heading for #{anchor}")
    return count, faults


def quote_faults():
    """Paths and names between backticks that are nowhere."""
    count, faults, text = 0, [], []
    crates = os.listdir(os.path.join(ROOT, "crates"))
    for folder, _, names in os.walk(os.path.join(ROOT, "crates")):
        for name in names:
            if name.endswith((".antt", ".rt")):
                with open(os.path.join(folder, name), encoding="utf-8") as file:
                    text.append(file.read())
    known = set(re.findall(r"\w+", "\n".join(text))) | set(crates)
    for page in [page for page in pages() if page.startswith("docs/") or page == "README.md"]:
        for number, line in enumerate(lines_of(page), 1):
            for quote in [] if line.startswith("    ") else re.findall(r"`([^`]+)`", line):
                first = quote.split("/")[0]
                if re.fullmatch(r"[\w.]+(/[\w.]+)+/?", quote) and (first in crates or os.path.isdir(os.path.join(ROOT, first))):
                    count += 1
                    if not any(os.path.exists(os.path.join(ROOT, top, quote)) for top in ("", "crates")) and "/out/" not in quote:
                        faults.append(f"{page}:{number}: there is no {quote}")
                elif page in NAMING and re.fullmatch(r"[A-Za-z_]\w*((::|\.)[A-Za-z_]\w*)*", quote) and not quote.endswith((".antt", ".md")):
                    count += 1
                    faults += [f"{page}:{number}: {name} is no name in the code" for name in re.split(r"::|\.", quote) if name not in known]
    return count, faults


def below():
    """For each crate of crates.txt all crates that it stands on."""
    out = {}
    for line in lines_of("crates.txt"):
        if line and not line.startswith("#"):
            name, _, others = line.partition(":")
            direct = [other for other in others.split() if other in out]
            out[name] = set(direct).union(*(out[other] for other in direct))
    return out


def layers():
    """The crates of each layer of docs/CODE.md, by the first word of its heading but `The`."""
    out, current = {}, None
    for line in lines_of("docs/CODE.md"):
        if line.startswith("## "):
            current = line[3:].replace("The ", "").split()[0].lower()
        elif line.startswith("| [`") and current:
            out.setdefault(current, []).extend(re.findall(r"`(\w+)`", line.split("|")[1]))
    return out


def crate_faults():
    under, layer = below(), layers()
    names = ["subject", "derivations", "solver", "bridge", "certificates", "search", "outside", "top", "references"]
    faults = [f"docs/CODE.md: there is no layer `{name}`" for name in names if name not in layer]
    if faults:
        return 0, faults
    told = [crate for name in names for crate in layer[name]]
    faults += [f"docs/CODE.md: the crate {crate} is missing" for crate in under if crate not in told]
    faults += [f"docs/CODE.md: there is no crate {crate}" for crate in told if crate not in under]
    faults += [f"docs/CODE.md: the crate {crate} stands there twice" for crate in set(told) if told.count(crate) > 1]
    asks = set(layer["solver"]) | {"point_pool", "point_query"}
    every = set(under)
    ruled_out = {crate: every - set(layer["subject"]) - {"lits_core", "proof_text"} for crate in layer["subject"]}
    ruled_out.update({crate: every - set(layer["derivations"]) for crate in layer["derivations"]})
    ruled_out["proof_text"] -= {"rcc5_core"}
    ruled_out.update({crate: every - set(layer["solver"]) - set(layer["derivations"]) for crate in layer["solver"]})
    ruled_out.update({crate: asks for crate in layer["bridge"] if crate not in asks})
    ruled_out.update({crate: asks | set(layer["search"]) for crate in layer["certificates"] + ["check_run"]})
    ruled_out["euler_align"] = set(layer["references"])
    for crate, others in ruled_out.items():
        faults += [f"docs/CODE.md: {crate} stands on {other}, which its layer rules out" for other in sorted(under[crate] & others)]
    return len(under), faults


def reading_faults():
    done = harness.run([sys.executable, os.path.join(ROOT, "tools/reading_list")])
    rows, told = done.out.decode().strip().split("\n"), set(lines_of("docs/PROOF.md"))
    return len(rows), [f"docs/PROOF.md: the table of what must be read lacks: {row}" for row in rows if row not in told]


def commands_in_code():
    """The commands with their keys, by the table of the specification."""
    text = "\n".join(lines_of("crates/command_line/specs/Table.antt"))
    rows = re.findall(r'name = codes "(\w+)";\s+required = ([^;]*);\s+optional = ([^;]*);\s+reads = ([^;]*);\s+writes = ([^;]*);', text)
    keys = lambda part: [word.lower() for word in re.findall(r"\w+", part)]
    return {name: tuple(map(keys, parts)) for name, *parts in rows}


def bare_page(page):
    """A manual page without its fonts."""
    return re.sub(r"\\f[A-Z]", "", "\n".join(lines_of(page)))


def key_faults(name, keys, manual, synopsis, completion, case):
    """Whether the pages and the completion have just these keys; `synopsis` and `case` find the lines of the name."""
    required, optional = keys
    row = f"| `{name}` | " + " ".join([f"`{key}=`" for key in required] + [f"[`{key}=`]" for key in optional]) + " |"
    if row not in "\n".join(lines_of("docs/FORMATS.md")):
        yield f"docs/FORMATS.md: no row begins {row}"
    found = re.search(synopsis, bare_page(manual), re.M)
    shown = found.group(0).replace("SWITCHES", "nonempty= sibling= coverage=") if found else ""
    if sorted(re.findall(r"(\w+)=", shown)) != sorted(required + optional):
        yield f"{manual}: the synopsis of {name} has other keys than {' '.join(required + optional)}"
    found = re.search(case, "\n".join(lines_of(completion)), re.M)
    if not found or found.group(1).replace("=", "").split() != required + optional:
        yield f"{completion}: {name} has other keys than {' '.join(required + optional)}"


def word_faults():
    table, faults, manual, completion = commands_in_code(), [], "man/euler_align.1", "completions/euler_align.bash"
    # the program of the desk has a row without commands, as soon as it is there
    desk = table.pop("euler_desk", None)
    for name, keys in [*table.items()] + ([("euler_desk", desk)] if desk else []):
        known = DESK if name == "euler_desk" else ROWS.get(name, NONE)
        if (known.required, known.optional, known.reads, known.writes) != keys:
            faults.append(f"tests/oracle/commands.py: {name} has other keys than the program's table")
    for name, keys in table.items():
        synopsis, case = rf"^euler_align {name} .*(?:\n    .*)?", rf"^ +(?:\w+ \| )*{name}(?: \| \w+)*\) keys=\"(.*)\""
        faults += key_faults(name, keys[:2], manual, synopsis, completion, case)
    faults += key_faults(
        "euler_desk", (DESK.required, DESK.optional), "man/euler_desk.1", r"^euler_desk in=.*", "completions/euler_desk.bash", r"^ +keys=\"(.*)\""
    )
    if f'compgen -W "{" ".join(table)}"' not in "\n".join(lines_of(completion)):
        faults.append(f"{completion}: the commands are others")
    return len(table), faults


def main():
    given = harness.arguments(__doc__, "program? desk?")
    programs = {name: path for name, path in (("euler_align", given.program), ("euler_desk", given.desk)) if path}
    faults, told = [], []
    if "euler_align" in programs:
        count, skipped, there = 0, collections.Counter(), [*programs] + ["rdflib"] * has_rdflib()
        for page in SHOWN:
            with harness.Folder() as folder:
                ran, left, wrong = run_page(page, programs, folder, there)
            count, skipped = count + ran, skipped + left
            faults += wrong
        told += [f"{count} command lines run"] + [f"{times} skipped for want of {thing}" for thing, times in sorted(skipped.items())]
    else:
        told.append("the program isn't built, so no command line was run")
    for name, look in [("links", link_faults), ("quotes", quote_faults), ("crates", crate_faults), ("rows of what must be read", reading_faults), ("commands", word_faults)]:
        count, wrong = look()
        told.append(f"{count} {name}")
        faults += wrong
    for fault in faults:
        print(fault)
    print(f"documents: {', '.join(told)}; {len(faults)} wrong")
    return 1 if faults else 0


if __name__ == "__main__":
    sys.exit(main())
