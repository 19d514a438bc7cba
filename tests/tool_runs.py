"""Runs the tools within the process of a test, in a folder of their own: starting Python for each run would take most of the time."""

import contextlib
import io
import os
import sys
from importlib.machinery import SourceFileLoader
from importlib.util import module_from_spec, spec_from_loader

import harness

TOOLS = os.path.join(harness.ROOT, "tools")
LOADED = {}
sys.path.insert(0, TOOLS)


def loaded(tool):
    if tool not in LOADED:
        loader = SourceFileLoader(f"tool_{tool}", os.path.join(TOOLS, tool))
        LOADED[tool] = module_from_spec(spec_from_loader(loader.name, loader))
        written, sys.dont_write_bytecode = sys.dont_write_bytecode, True
        loader.exec_module(LOADED[tool])
        sys.dont_write_bytecode = written
    return LOADED[tool]


@contextlib.contextmanager
def standing(folder, words, given):
    """The folder, the words and standard input and outputs, while a tool runs."""
    before = os.getcwd(), sys.argv, sys.stdin, sys.stdout, sys.stderr
    streams = [io.TextIOWrapper(io.BytesIO(data), encoding="utf-8", newline="") for data in (given, b"", b"")]
    try:
        os.chdir(folder)
        sys.argv = words
        sys.stdin, sys.stdout, sys.stderr = streams
        yield streams[1], streams[2]
    finally:
        os.chdir(before[0])
        sys.argv, sys.stdin, sys.stdout, sys.stderr = before[1:]


class Folder(harness.Folder):
    """A folder of files for a test, which goes when the test ends."""

    def __init__(self, test):
        super().__init__()
        test.addCleanup(self.__exit__)

    def write(self, files):
        for name, text in files.items():
            os.makedirs(os.path.dirname(self.at(name)), exist_ok=True)
            self.hold(name, text)

    def read(self, name):
        return self.held(name).decode()

    def run(self, tool, *words, given=b""):
        """The exit code of a tool, and what it put on standard output and standard error."""
        module = loaded(tool)
        with standing(self.path, [tool, *words], given) as (out, err):
            try:
                code = module.main()
            except SystemExit as ended:
                code = ended.code
            for stream in (out, err):
                stream.flush()
            texts = [stream.buffer.getvalue().decode() for stream in (out, err)]
        return code, *texts


def program(name="euler_align"):
    """The program of a name that the tools find; None where there is none."""
    import program as finder
    from tables import Fault

    try:
        return finder.path(name)
    except Fault:
        return None
