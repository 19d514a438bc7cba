#!/usr/bin/env python3
"""Wrong bodies beside those of the gate: whether each can still be planted, and, with --try, whether the prover refuses it.

    tests/wrong_bodies.py [--try [CRATE...]]

Those that tell most stand in crates/CRATE/must-fail, and the gate tries them; the others stand in tests/edits/CRATE, in the same form.
Without --try each is only applied: its `old:` texts stand once each in the files that it names. That takes no time.

With --try they are tried by the kit, `rt must-fail`, in a copy of the crates where they stand in the place of the gate's; all of them,
or those of some crates. That proves the crates first, as far as no check on this machine has kept them, and takes hours for all.
"""

import glob
import os
import shutil
import subprocess
import sys
import tempfile

from harness import ROOT, arguments

EDITS = os.path.join(ROOT, "tests", "edits")


def read(file):
    with open(file, encoding="utf-8") as text:
        return text.read()


def fault_of(edit, crate):
    """Why an edit can't be applied to the files of a crate, if it can't."""
    path, old, pairs, texts = None, None, 0, {}
    for line in read(edit).split("\n"):
        key, _, value = line.partition(":")
        value = value[1:] if value.startswith(" ") else value
        if key == "file":
            path = os.path.join(crate, value.strip())
            if not os.path.isfile(path):
                return f"there is no file {value.strip()}"
            texts.setdefault(path, read(path))
        elif key == "old":
            old = value
        elif key == "new":
            if path is None or not old:
                return "a 'new:' line stands before any 'file:' or 'old:' line"
            if texts[path].count(old) != 1:
                return f"this stands {texts[path].count(old)} times in {os.path.relpath(path, crate)}: {old.strip()}"
            texts[path] = texts[path].replace(old, value)
            old, pairs = None, pairs + 1
    return None if pairs else "it has no 'old:' and 'new:' pair"


def applied():
    """Says which edits can't be applied; the exit code."""
    edits = sorted(glob.glob(os.path.join(EDITS, "*", "*.edit")))
    wrong = 0
    for edit in edits:
        crate = os.path.basename(os.path.dirname(edit))
        name = os.path.basename(edit)
        fault = fault_of(edit, os.path.join(ROOT, "crates", crate))
        if fault is None and os.path.exists(os.path.join(ROOT, "crates", crate, "must-fail", name)):
            fault = "the gate has one of this name"
        if fault:
            wrong += 1
            print(f"{crate}/{name}: {fault}")
    print(f"wrong_bodies: {len(edits)} can be planted in {len(os.listdir(EDITS))} crates; {wrong} can't")
    return 1 if wrong or not edits else 0


def tried(crates):
    """Tries the edits of some crates, of all if none is named; the exit code of the kit's command."""
    crates = crates or sorted(os.listdir(EDITS))
    with tempfile.TemporaryDirectory() as folder:
        for name in ("crates.txt", "HANDLES"):
            shutil.copy(os.path.join(ROOT, name), folder)
        shutil.copytree(os.path.join(ROOT, "crates"), os.path.join(folder, "crates"), ignore=shutil.ignore_patterns("out"))
        subprocess.run(["git", "init", "-q"], cwd=folder, check=True)
        for crate in crates:
            there = os.path.join(folder, "crates", crate, "must-fail")
            shutil.rmtree(there)
            shutil.copytree(os.path.join(EDITS, crate), there)
        return subprocess.run(["rt", "must-fail", *crates], cwd=folder, check=False).returncode


def main():
    crates = vars(arguments(__doc__, **{"try": ()}))["try"]
    return applied() if crates is None else tried(crates)


if __name__ == "__main__":
    sys.exit(main())
