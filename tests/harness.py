"""What the tests share: how a script is told what to run, folders in memory, runs, and allocations that are refused.

    tests/NAME.py [--program PATH] [--desk PATH] [--scenes PATH] [--count N] [--seed N] [--jobs N] [--quick]

Each script takes of these what its head says. A program that isn't named is the one that was built, in crates/*/out. A script ends with
status 1 where something is wrong, and with 2 where a program that it needs isn't there.
"""

import argparse
import collections
import contextlib
import multiprocessing
import os
import shutil
import signal
import subprocess
import sys
import tempfile

TESTS = os.path.dirname(os.path.realpath(__file__))
ROOT = os.path.dirname(TESTS)
BUILT = {"program": "euler_align", "desk": "euler_desk", "scenes": "run_scenes", "measure": "measure"}
# the name of the script without its ending, with which its last line begins
NAME = os.path.splitext(os.path.basename(sys.argv[0]))[0]

Answer = collections.namedtuple("Answer", "code out err")


def memory():
    """A folder whose files are in memory, if there is one with room for what the tests write, from which programs may be run."""
    place = "/dev/shm"
    if not os.access(place, os.W_OK):
        return None
    about = os.statvfs(place)
    return place if about.f_bavail * about.f_frsize > 1 << 30 and not about.f_flag & os.ST_NOEXEC else None


MEMORY = memory()


# What a script is told.


def arguments(doc, programs="", **options):
    """What the words say. `programs` has the names of those that the script runs, one that it does without where it isn't built with a ?
    behind it, which is None then. Each option has its usual value: False is a flag, and () any number of words."""
    parser = argparse.ArgumentParser(description=doc, formatter_class=argparse.RawDescriptionHelpFormatter)
    wanted = {name.rstrip("?"): name.endswith("?") for name in programs.split()}
    for name in wanted:
        parser.add_argument(f"--{name}", metavar="PATH")
    for name, usual in options.items():
        kind = {"action": "store_true"} if usual is False else {"nargs": "*"} if usual == () else {"type": type(usual), "default": usual}
        parser.add_argument(f"--{name.replace('_', '-')}", **kind)
    given = parser.parse_args()
    for name, may_be_absent in wanted.items():
        setattr(given, name, program_at(getattr(given, name), name, may_be_absent))
    return given


def program_at(path, name, may_be_absent):
    """The path of a program, from the root; that of the built one where none is given."""
    place = os.path.realpath(path or os.path.join(ROOT, f"crates/{BUILT[name]}/out/{BUILT[name]}"))
    if os.access(place, os.X_OK):
        return place
    if may_be_absent and not path:
        return None
    absent(place)


def absent(place):
    """Ends the script, since a program isn't there."""
    print(f"{NAME}: there is no program at {place}")
    sys.exit(2)


def without(desk):
    """What the last line says where there is no desk."""
    return "" if desk else "; the desk was left out, since it isn't built"


# Folders and runs.


class Folder:
    """A folder for the files of runs, in memory if it may be. It is gone when its block ends, or that of the one within which it is. `aside`
    is beside it, for what is no file of the runs."""

    def __init__(self, within=None):
        self.aside = tempfile.mkdtemp(prefix="euler_align_", dir=within.aside if within else MEMORY)
        self.path = os.path.join(self.aside, "files")
        os.mkdir(self.path)

    def __enter__(self):
        return self

    def __exit__(self, *_):
        shutil.rmtree(self.aside, ignore_errors=True)

    def at(self, name):
        return os.path.join(self.path, name)

    def hold(self, name, data):
        with open(self.at(name), "wb") as file:
            file.write(data.encode() if isinstance(data, str) else data)

    def held(self, name):
        """What a file holds; None where it can't be read."""
        try:
            with open(self.at(name), "rb") as file:
                return file.read()
        except (OSError, ValueError):
            return None

    def drop(self, name):
        with contextlib.suppress(FileNotFoundError):
            os.remove(self.at(name))

    def all_held(self):
        return {name: self.held(name) for name in os.listdir(self.path)}

    def clear(self):
        """Drops all files; folders stay."""
        for name in os.listdir(self.path):
            if not os.path.isdir(self.at(name)):
                os.remove(self.at(name))


def run(command, folder=None, given=b"", seconds=120, **more):
    """How a run ended, and the bytes that it put on standard output and standard error."""
    streams = {"stdout": subprocess.PIPE, "stderr": subprocess.PIPE, **({"stdin": more.pop("stdin")} if "stdin" in more else {"input": given})}
    done = subprocess.run(command, cwd=folder, timeout=seconds, check=False, **{**streams, **more})
    return Answer(done.returncode, done.stdout, done.stderr)


class Runs(Folder):
    """A folder in which a program is run very many times, so without the pipes of subprocess, and without an environment, of which it reads
    nothing. `count` is how often it ran."""

    def __init__(self, program, within=None):
        super().__init__(within)
        self.program, self.count = program, 0
        self.out = os.path.join(self.aside, "out")
        how = os.O_WRONLY | os.O_CREAT | os.O_TRUNC
        self.places = [(os.POSIX_SPAWN_OPEN, 1, self.out, how, 0o600), (os.POSIX_SPAWN_OPEN, 2, os.devnull, os.O_WRONLY, 0)]

    def run(self, words, seconds=60):
        """The exit code of a run with these words, and its standard output as text."""
        self.count += 1
        os.chdir(self.path)
        child = os.posix_spawn(self.program, [self.program, *words], {}, file_actions=self.places)
        signal.signal(signal.SIGALRM, lambda *_: os.kill(child, signal.SIGKILL))
        signal.alarm(seconds)
        _, status = os.waitpid(child, 0)
        signal.alarm(0)
        with open(self.out, "rb") as file:
            return os.waitstatus_to_exitcode(status), file.read().decode("utf-8", "replace")


# Allocations that are refused.


class Refusals(Folder):
    """A folder in which a program runs while some of its allocations are refused, by refuse.c, which gcc builds here."""

    def __init__(self):
        super().__init__()
        self.library, self.calls = (os.path.join(self.aside, name) for name in ("refuse.so", "calls"))
        subprocess.run(["gcc", "-O1", "-shared", "-fPIC", "-o", self.library, os.path.join(TESTS, "refuse.c")], check=True)

    def run(self, command, at, rest=0):
        """How a run ended of which one allocation was refused, by its number, and each so many-th after it; and how many calls there were."""
        told = {"LD_PRELOAD": self.library, "REFUSE_AT": str(at), "REFUSE_REST": str(rest), "REFUSE_COUNT": self.calls}
        answer = run(command, self.path, env={**os.environ, **told})
        with open(self.calls, encoding="ascii") as file:
            return answer, int(file.read())


# Cases over several processes.

TESTER = None


def begin_tester(make):
    global TESTER
    TESTER = make()


def try_case(number):
    return TESTER(number)


def in_order(make, count, jobs):
    """What the cases with the numbers below a count come to, in their order. Each process makes a tester of its own, which takes a number."""
    if jobs == 1:
        yield from map(make(), range(count))
        return
    with multiprocessing.get_context("fork").Pool(jobs, begin_tester, [make]) as pool:
        yield from pool.imap(try_case, range(count), chunksize=4)
