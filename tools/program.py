"""Finds and runs the program: what the variable EULER_ALIGN names, else what lies beside the tools, else what is on the path. The desk's
program is found so by EULER_DESK."""

import os
import shutil
import subprocess

from tables import Fault

HERE = os.path.dirname(os.path.realpath(__file__))
# beside the tools, and built in the repository; where the tools are installed, in the folder of programs beside PREFIX/share
BESIDE = ["{0}", "../crates/{0}/out/{0}"]
if HERE.endswith("share/euler_align/tools"):
    BESIDE.append("../../../bin/{0}")
CODES = {1: "the problem has a fault", 2: "the words are wrong", 3: "a file can't be read", 4: "a file can't be written", 9: "there was no memory"}


def path(name="euler_align"):
    """The program of a name; a fault where there is none."""
    variable = name.upper()
    named = os.environ.get(variable)
    if named:
        if not os.access(named, os.X_OK):
            raise Fault(f"{variable} names {named}, which is no program")
        return os.path.abspath(named)
    beside = (shutil.which(os.path.normpath(os.path.join(HERE, place.format(name)))) for place in BESIDE)
    found = next((place for place in beside if place), None) or shutil.which(name)
    if not found:
        raise Fault(f"the program {name} is neither on the path nor beside the tools; put it on the path, or name it by the variable {variable}")
    return found


def answer(words, timeout=None):
    """How a run of the program ended, with its output and what it said."""
    done = subprocess.run([path(), *words], capture_output=True, check=False, timeout=timeout, stdin=subprocess.DEVNULL)
    return done.returncode, done.stdout.decode(), done.stderr.decode()


def is_switch(word):
    return word.partition("=")[0] in ("nonempty", "sibling", "coverage") and word.partition("=")[2] in ("on", "off")


def fault_of(code, out, err):
    """What a run that failed said, in one fault."""
    said = err.strip() or (out.strip().split("\n") or [""])[-1]
    return Fault(said or CODES.get(code, f"the program ended with {code}"))
