"""Folders with the files of a try, and what a try there must come to: for device_faults.py and memory_limits.py."""

import os
import shutil
import stat
import subprocess

import harness
import oracle.desk
from oracle import trials
from oracle.commands import ROWS, files_written, names_in, values_of
from small_runs import ON_DEVICES

NOBODY = 65534
# exit codes whose cause a person is told on standard error
TOLD = {1, 2, 3, 4, 6, 7, 8, 12, 13, 14, 15, 16, 17}
READ_FAULT, WRITE_FAULT = (3, "read fault\n"), (4, "")

# a problem with several worlds, and one statement more that makes it a conflict
SMALL = b"taxonomy 1\n(r b1 s1)\ntaxonomy 2\n(r E F)\narticulation\n[1.r equals 2.r]\n", b"[1.b1 disjoint 2.r]\n"
LARGER = trials.made_text(7, 40).encode(), SMALL[1]
# words that make a file that others read, and its name
MADE = [
    ("align in=p worlds=1 token=r", "r"), ("align in=p worlds=3 token=u", "u"), ("align in=p cert=k", "k"),
    ("part in=p cert=l resume=r", "l"), ("part in=p cert=m until=u", "m"),
]


def named(words, keys):
    """The names that words give some keys, each with its key."""
    values = values_of(words.split())
    return [(key, name) for key in keys for name in names_in(key, values[key])]


# name: words, the files that are read and the files that are written, each with its key
COMMANDS = {name: (words, named(words, ROWS[name].reads), named(words, ROWS[name].writes)) for name, words in ON_DEVICES.items()}
COMMANDS["desk"] = "in=p script=s", [("in", "p"), ("script", "s")], []
SCRIPT = b"1 open\n1 next\n2 open\n2 narrow 2.r 1.s1 >\n2 next\n1 next\n2 keep 0\n2 next\n3 next\n1 narrow 1.b1 2.r <\n1 next\n2 close\n"
# each slot takes some memory for its table of points; when four are closed again, there may be enough for others that had too little
MANY = "".join(f"taxonomy {t}\n" + "".join(f"({c}{k})\n" for k in range(7)) for t, c in ((1, "A"), (2, "B"))) + "articulation\n[1.A0 overlaps 2.B0]\n"
SLOTS = (
    "".join(f"{k} open\n{k} narrow 1.A1 2.B1 {'><x!'[k % 4]}\n{k} next\n" for k in range(1, 9))
    + "".join(f"{k} close\n" for k in range(1, 5))
    + "".join(f"{k} next\n" for k in range(5, 9)) * 2
)


class Failed(Exception):
    pass


class Bench(harness.Folder):
    """A folder with the files of a try, and the program run in it."""

    commands = list(ON_DEVICES)
    problems = {"small": SMALL, "larger": LARGER}

    def __init__(self, program, problem):
        super().__init__()
        os.chmod(self.aside, stat.S_IRWXU | stat.S_IXGRP | stat.S_IXOTH)
        self.program = os.path.join(self.aside, "program")
        shutil.copy(program, self.program)  # so that any user may run it
        os.chmod(self.program, 0o755)
        self.files = self.first_files(problem)
        self.right = {}
        self.tries = self.silent = 0
        self.prepare()

    def first_files(self, problem):
        return {"p": problem[0], "q": b"".join(problem)}

    def prepare(self):
        """What the commands put and write where nothing fails: differential.py looks at whether it is right."""
        for words, name in MADE if self.commands == list(ON_DEVICES) else []:
            self.fresh()
            self.run(words.split())
            self.files[name] = self.state()[name]
        for name in self.commands:
            words, _, written = COMMANDS[name]
            self.fresh()
            code, out, _ = self.run(words.split())
            held = self.state()
            self.right[name] = code, out, {n: held[n] for n in files_written(words.split()) if n in held}
            if code not in (0, 5) or not all(self.right[name][2].values()) or any(n not in held for _, n in written):
                raise SystemExit(f"device_faults: {words} ends with {code}, before anything is tried")

    def fresh(self):
        shutil.rmtree(self.path)
        os.mkdir(self.path)
        os.chmod(self.path, 0o777)
        for name, data in self.files.items():
            self.hold(name, data)

    def hold(self, name, data, mode=0o666):
        super().hold(name, data)
        os.chmod(self.at(name), mode)

    def make_folder(self, name):
        """A folder in place of a file."""
        self.drop(name)
        os.mkdir(self.at(name))

    def state(self):
        """What each name holds: bytes, names in a folder, or a device."""
        found = {}
        for name in sorted(os.listdir(self.path)):
            path = self.at(name)
            found[name] = self.held(name) if os.path.isfile(path) else sorted(os.listdir(path)) if os.path.isdir(path) else "a device"
        return found

    def run(self, words, kilobytes=None, nobody=False, **how):
        """How a run ended. It may be under a limit of memory, or of a user who owns nothing here."""
        self.tries += 1
        command = [self.program, *words]
        if kilobytes:
            command = ["sh", "-c", f'ulimit -v {kilobytes}; exec "$@"', "sh", *command]
        user = {"user": NOBODY, "group": NOBODY, "extra_groups": []} if nobody and os.geteuid() == 0 else {}
        return harness.run(command, self.path, **user, **how)

    def judge(self, name, got, fault, changed=(), before=None):
        """What a try came to: the right answer where `fault` is None, or else one of some faults, as codes and last lines."""
        code, out, told = got
        right_code, right_out, right_files = self.right[name]
        faults = fault if isinstance(fault, list) else [fault]
        ways = [(right_code, right_out) if f is None else (f[0], f[1].encode()) for f in faults]
        way = next((w for w in ways if w[0] == code), None)
        if way is None:
            raise Failed(f"exit code {code}, wanted {' or '.join(str(w[0]) for w in ways)}; {out!r:.200} {told!r:.200}")
        if out is not None and out != way[1]:
            if code == right_code or not out.endswith(way[1]) or not right_out.startswith(out[: len(out) - len(way[1])]):
                raise Failed(f"standard output {out!r}")
        if code in TOLD and not told.strip():
            raise Failed(f"nothing on standard error, exit code {code}")
        self.silent += code not in (0, 5, 10) and not told.strip()
        after = self.state()
        before = self.files if before is None else before
        for file in sorted(set(before) | set(after)):
            if before.get(file) == after.get(file) or file in changed:
                continue
            if file not in right_files:
                raise Failed(f"{file} is changed or left behind: {after.get(file)!r}")
            if not isinstance(after.get(file), bytes) or not right_files[file].startswith(after[file]):
                raise Failed(f"{file} holds {after.get(file)!r}")
        if code == right_code and out is not None and not set(right_files) & set(changed):
            if any(after.get(file) != data for file, data in right_files.items()):
                raise Failed("right, but its files are not")


class DeskBench(Bench):
    """The same for the desk: a script over the problem, in which memory may be wanting for a request."""

    commands = ["desk"]
    problems = {"small": (SMALL[0], SCRIPT), "larger": (MANY.encode(), SLOTS.encode())}

    def first_files(self, problem):
        self.known = {}
        return {"p": problem[0], "s": problem[1]}

    def served(self, requests):
        """What is put of some requests where there is memory."""
        script = "".join(request + "\n" for request in requests).encode()
        if script not in self.known:
            self.known[script] = self.run(["in=p", "script=/dev/stdin"], given=script)[1].decode()
        return self.known[script]

    def judge(self, name, got, fault, changed=(), before=None):
        code, out, told = got
        if out and b" NoMemory\n" in out:
            why = oracle.desk.starved_fault(self.files["s"].decode().splitlines(), code, out.decode(), self.served)
            if why or self.state() != self.files:
                raise Failed(why or "a file is changed")
            return
        super().judge(name, got, fault, changed, before)


def report(title, make, verbose):
    """Makes a try, and tells what it came to; whether it was as wanted."""
    try:
        counts = make()
    except (Failed, subprocess.TimeoutExpired) as fault:
        print(f"{title}: {fault}")
        return False
    if counts:
        print(f"{title}: " + ", ".join(f"{n} {what}" for what, n in counts.items()))
    elif verbose:
        print(f"{title}: as wanted")
    return True


def come_to(given, kinds, tries_of):
    """Makes the tries of the program and of the desk, and tells what they came to; the exit code."""
    benches, came = [], []
    for kind, program in [(Bench, given.program)] + [(DeskBench, given.desk)] * bool(given.desk):
        for size in kinds:
            with kind(program, kind.problems[size]) as bench:
                benches.append(bench)
                for name in bench.commands:
                    came += [report(title, make, given.verbose) for title, make in tries_of(bench, name, size)]
    runs, silent = sum(bench.tries for bench in benches), sum(bench.silent for bench in benches)
    told = f"{sum(came)} passed, {len(came) - sum(came)} failed, {runs} runs; {silent} faults with nothing on standard error"
    print(f"{harness.NAME}: {told}{harness.without(given.desk)}")
    return 0 if all(came) else 1
