#!/usr/bin/env python3
"""What the built program does where a file, a folder, a device or standard output fails it.

    tests/device_faults.py [--program PATH] [--desk PATH] [--verbose]

For each command, and for the desk, each file that it reads or writes, and standard output: an endless device, a full one, a folder, a file
or a folder without permission, an absent name, a name in an absent folder, a closed standard output, a pipe whose reader left, a file that
grows; and for each file that it writes another name of one that it reads (`./`, a path, a link, a hard link): that file keeps its bytes,
and both words are told. Tokens of parts, which have a number behind the word that is given, are links to such devices and files. The desk's
script comes from pipes too.
Each try looks at the exit code; at standard output, which is the right one, or a first part of it and then the last line of the fault; at
what is in the folder, where nothing may change but the files that the command writes, and these hold a first part of what is right, or what
they held; and at standard error, which says something where the fault is one of the words or of a text. It ends with status 1 if a try
failed.
"""

import os
import subprocess
import sys
import threading
import time

import harness
from device_bench import COMMANDS, Failed, come_to
from oracle.commands import values_of

READ_FAULT, WRITE_FAULT = (3, "read fault\n"), (4, "")
# what an endless file comes to, by its key; a certificate is read on, to byte number 68,719,476,737 of it
BAD_TOKEN = (7, "token BadToken\n")
ENDLESS = {"in": (1, "refused 0 TooLong\n"), "resume": BAD_TOKEN, "until": BAD_TOKEN, "script": (7, "script 0 TooLong\n")}


def changed_words(words, key, file, value):
    """The words with another name in place of one under a key."""
    names = lambda word: ",".join(value if name == file else name for name in word[len(key) + 1 :].split(","))
    return [f"{key}={names(word)}" if word.startswith(key + "=") else word for word in words.split()]


def tries_of(bench, name):
    """The tries of one command: what each is called, and a function that makes it."""
    words, read, written = COMMANDS[name]

    def with_name(key, file, value, fault):
        return lambda: bench.judge(name, bench.run(changed_words(words, key, file, value)), fault)

    def read_on(key, file):
        """One line without an end, that no form begins: it is still read after some seconds, in little memory."""
        def make():
            try:
                got = bench.run(changed_words(words, key, file, "/dev/zero"), kilobytes=1 << 17, seconds=5)
            except subprocess.TimeoutExpired:
                return
            raise Failed(f"it ended with {got[0]} and {got[1]!r:.200}")
        return make

    def folder(file, fault):
        def make():
            bench.make_folder(file)
            before = bench.state()
            bench.judge(name, bench.run(words.split()), fault, before=before)
        return make

    def without_permission(file, fault):
        def make():
            bench.hold(file, bench.files.get(file, b"what it held"), 0o000)
            before = bench.state()
            bench.judge(name, bench.run(words.split(), nobody=True), fault, before=before)
            if bench.state()[file] != before[file]:
                raise Failed(f"{file} is changed")
        return make

    def in_closed_folder(key, file, fault):
        def make():
            os.mkdir(bench.at("closed"), 0o555)
            before = bench.state()
            bench.judge(name, bench.run(changed_words(words, key, file, "closed/f"), nobody=True), fault, before=before)
        return make

    def other_names(key, file, fault):
        yield f"{key} in an absent folder", with_name(key, file, "absent/f", fault)
        yield f"{key} below a file", with_name(key, file, "p/f", fault)
        yield f"{key} with a name that is too long", with_name(key, file, "n" * 300, fault)

    for key, file in read:
        title = key if sum(other == key for other, _ in read) == 1 else f"{file} of {key}"
        yield f"{title} endless", with_name(key, file, "/dev/zero", ENDLESS[key]) if key in ENDLESS else read_on(key, file)
        yield f"{title} a folder", folder(file, READ_FAULT)
        yield f"{title} without permission", without_permission(file, READ_FAULT)
        yield f"{title} absent", with_name(key, file, "absent", READ_FAULT)
        yield from other_names(key, file, READ_FAULT)
        yield f"{title} grows", growing(bench, name, key, file)
    for key, file in written:
        yield f"{key} full", with_name(key, file, "/dev/full", WRITE_FAULT)
        yield f"{key} a folder", folder(file, WRITE_FAULT)
        yield f"{key} without permission", without_permission(file, WRITE_FAULT)
        yield f"{key} in a closed folder", in_closed_folder(key, file, WRITE_FAULT)
        yield from other_names(key, file, WRITE_FAULT)
        yield f"{key} held something longer", held_something(bench, name, file)
        for other, kept in read:
            for way, alias in ALIASES.items():
                yield f"{key} is {other} by {way}", one_file(bench, name, (key, file), (other, kept), alias)
    if {"token", "cert"} <= {key for key, _ in written}:
        yield "token is cert by another name", both_written(bench, name)
    if name == "parts":
        token = values_of(words.split())["token"]
        yield "tokens in a closed folder", in_closed_folder("token", token, WRITE_FAULT)
        yield from other_names("token", token, WRITE_FAULT)
        for file in list(bench.right[name][2])[:2]:
            yield f"{file} full", linked(bench, name, file, os.symlink, "/dev/full", None)
            yield f"{file} a folder", folder(file, WRITE_FAULT)
            yield f"{file} without permission", without_permission(file, WRITE_FAULT)
            yield f"{file} held something longer", held_something(bench, name, file)
            yield f"{file} is in by a link", linked(bench, name, file, os.symlink, "p", "in=p")
            yield f"{file} is in by a hard link", linked(bench, name, file, os.link, "p", "in=p")
        yield "a token is another by a link", linked(bench, name, f"{token}2", os.symlink, f"{token}1", f"{token}1")
        yield "a token is another by a hard link", both_tokens(bench, name, f"{token}1", f"{token}2")
    yield "standard output full", output(bench, name, lambda: open("/dev/full", "wb"))
    yield "standard output without a reader", output(bench, name, pipe_without_reader)
    yield "standard output closed", output(bench, name, None)


def linked(bench, name, file, link, to, word):
    """A file that is to be written is a link to another, which isn't written over; where that is a file of this run, both are told."""
    def make():
        link(to if link is os.symlink else bench.at(to), bench.at(file))
        # a link to a file that the run writes before shows that one's bytes then
        before, changed = bench.state(), (file,) if word == to else ()
        got = bench.run(COMMANDS[name][0].split())
        bench.judge(name, got, WRITE_FAULT, changed=changed, before=before)
        if word:
            tells_words(got[2], [word, file])
    return make


def held_something(bench, name, file):
    def make():
        bench.hold(file, b"what it held\n" * 9999)
        bench.judge(name, bench.run(COMMANDS[name][0].split()), None, before=bench.state())
    return make


def with_link(make):
    def alias(place, file):
        make(place, file)
        return "alias"
    return alias


# other names of a file in the folder where the program runs, by what they are
ALIASES = {
    "./": lambda place, file: "./" + file,
    "another folder": lambda place, file: f"../{os.path.basename(place)}/{file}",
    "a path from the root": lambda place, file: os.path.join(place, file),
    "a link": with_link(lambda place, file: os.symlink(file, os.path.join(place, "alias"))),
    "a hard link": with_link(lambda place, file: os.link(os.path.join(place, file), os.path.join(place, "alias"))),
}


def tells_words(told, words):
    for word in words:
        if word.encode() not in told.split():
            raise Failed(f"{word} is not told: {told!r}")


def one_file(bench, name, written, read, alias):
    """What is to be written has another name of a file that is read: nothing of that file is lost, and both words are told."""
    def make():
        (key, file), (other, kept) = written, read
        called = alias(bench.path, kept)
        before = bench.state()
        got = bench.run(changed_words(COMMANDS[name][0], key, file, called))
        bench.judge(name, got, WRITE_FAULT, before=before)
        tells_words(got[2], [f"{other}={kept}", f"{key}={called}"])
    return make


def both_written(bench, name):
    """Two files that are to be written are one: the second is not written over the first."""
    def make():
        code, _, told = bench.run(changed_words(COMMANDS[name][0], "cert", "c", "./t"))
        if code != WRITE_FAULT[0]:
            raise Failed(f"exit code {code}")
        tells_words(told, ["token=t", "cert=./t"])
        if not bench.state()["t"].startswith(b"certificate "):
            raise Failed("the certificate is lost")
    return make


def both_tokens(bench, name, first, second):
    """Two names of one file that was there before: what is written under the first stays."""
    def make():
        bench.hold(first, b"what it held")
        os.link(bench.at(first), bench.at(second))
        before = bench.state()
        got = bench.run(COMMANDS[name][0].split())
        bench.judge(name, got, WRITE_FAULT, changed=(second,), before=before)
        tells_words(got[2], [first, second])
        if bench.state()[first] != bench.right[name][2][first]:
            raise Failed(f"{first} is lost")
    return make


def pipe_without_reader():
    reader, writer = os.pipe()
    os.close(reader)
    return os.fdopen(writer, "wb")


def output(bench, name, opened):
    """Standard output that takes nothing: what was to be put is lost, so it is a write fault."""
    words = COMMANDS[name][0].split()

    def make():
        if opened is None:
            got = bench.run(words, stdout=None, preexec_fn=lambda: os.close(1))
        else:
            with opened() as out:
                got = bench.run(words, stdout=out)
        bench.judge(name, got, WRITE_FAULT)
    return make


def growing(bench, name, key, file):
    """The file grows while it is read: it is read as it was at some moment, or is too long, or is no token or certificate then."""
    words = COMMANDS[name][0].split()
    # lines that change nothing in a problem or a script
    line = {"in": b"# more\n" * 64, "script": b" \t\n" * 64}.get(key, b"more\n")
    lines = bench.files[file].count(b"\n")
    place = [other for own, other in COMMANDS[name][1] if own == key].index(file) + 1
    fault = {
        **ENDLESS,
        "cert": (7, f"certificate {lines + 1} BadLine\n"),
        "certs": (16, f"refused part {place} {lines + 1} BadLine\n"),
    }[key]

    def make():
        for _ in range(8):
            bench.fresh()
            over = threading.Event()

            def grow():
                with open(bench.at(file), "ab", buffering=0) as f:
                    while not over.is_set() and f.tell() < 1 << 23:
                        f.write(line)

            writer = threading.Thread(target=grow)
            writer.start()
            try:
                got = bench.run(words)
            finally:
                over.set()
                writer.join()
            bench.judge(name, got, [None, fault], changed=(file,))
    return make


# The desk's script from standard input and pipes.


def desk_tries(bench):
    script, problem = bench.files["s"], bench.files["p"]
    from_input = ["in=p", "script=/dev/stdin"]

    def given(words, fault=None, **how):
        return lambda: bench.judge("desk", bench.run(words, **how), fault)

    def from_file():
        with open(bench.at("s"), "rb") as file:
            bench.judge("desk", bench.run(from_input, stdin=file), None)

    def here_document():
        command = f"exec \"$0\" in=p script=/dev/stdin << 'END'\n{script.decode()}END\n"
        bench.tries += 1
        bench.judge("desk", harness.run(["sh", "-c", command, bench.program], bench.path), None)

    def in_pieces(key, file, size):
        """A pipe with a name, into which bytes come slowly."""
        def make():
            path = bench.at("pipe")
            os.mkfifo(path)

            def write():
                with open(path, "wb", buffering=0) as pipe:
                    for begin in range(0, len(bench.files[file]), size):
                        pipe.write(bench.files[file][begin : begin + size])
                        time.sleep(0.002)

            writer = threading.Thread(target=write)
            writer.start()
            before = bench.state()
            bench.judge("desk", bench.run(changed_words(COMMANDS["desk"][0], key, file, "pipe")), None, before=before)
            writer.join()
        return make

    def reader_leaves():
        """The reader takes a line of very many, and leaves."""
        bench.hold("s", b"1 open\n" + b"2 close\n" * 100_000)
        before = bench.state()
        run = subprocess.Popen([bench.program, "in=p", "script=s"], cwd=bench.path, stdout=subprocess.PIPE, stderr=subprocess.PIPE)
        bench.tries += 1
        first = run.stdout.readline()
        run.stdout.close()
        told = run.stderr.read()
        run.stderr.close()
        if first != b"1 opened\n" or run.wait(timeout=60) != WRITE_FAULT[0] or not told or bench.state() != before:
            raise Failed(f"exit code {run.returncode}, {first!r} {told!r}")

    yield "script from a pipe", given(from_input, given=script)
    yield "script from a file at standard input", from_file
    yield "script from a here-document", here_document
    yield "script from a pipe with a name, a byte at a time", in_pieces("script", "s", 1)
    yield "script from a pipe with a name, in pieces", in_pieces("script", "s", 50)
    yield "script from an empty pipe", given(from_input, (0, "served 0\n"), given=b"")
    yield "script from no device", given(["in=p", "script=/dev/null"], (0, "served 0\n"))
    # where it is closed, nothing can be read from there: main opens an empty device in its place
    yield "script from a closed standard input", given(from_input, (0, "served 0\n"), stdin=None, preexec_fn=lambda: os.close(0))
    yield "problem from a pipe", given(["in=/dev/stdin", "script=s"], given=problem)
    yield "problem from a pipe with a name, in pieces", in_pieces("in", "p", 7)
    yield "both from standard input", given(["in=/dev/stdin", "script=/dev/stdin"], (2, "usage SameName\n"), given=script)
    yield "a reader that leaves", reader_leaves


def fresh_tries(bench, name, _size):
    for title, make in [*tries_of(bench, name), *(desk_tries(bench) if name == "desk" else [])]:
        bench.fresh()
        yield f"{name}, {title}", make


def main():
    return come_to(harness.arguments(__doc__, "program desk?", verbose=False), ["small"], fresh_tries)


if __name__ == "__main__":
    sys.exit(main())
