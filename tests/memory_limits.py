#!/usr/bin/env python3
"""What the built program does where memory is scarce: each command, and the desk, runs under `ulimit -v` from small to ample.

    tests/memory_limits.py [--program PATH] [--desk PATH] [--verbose]

It answers rightly, or ends with 9 and `no memory`; the desk may also tell so of a request, and go on. Nothing may change but the files that
the command writes, and these hold a first part of what is right, or what they held. A run counts as the program's where the system's loader
handed it control (glibc's LD_DEBUG says so); what fails before that is not the program's. It ends with status 1 if a try failed.
"""

import collections
import functools
import os
import sys
import tempfile

import harness
from device_bench import COMMANDS, Failed, come_to


def loader_handed_over(bench, words, kilobytes):
    """A run under a limit, and whether the loader handed control to the program."""
    bench.tries += 1
    with tempfile.TemporaryDirectory(dir=bench.aside) as logs:
        command = f'ulimit -v {kilobytes}; LD_DEBUG=files LD_DEBUG_OUTPUT={logs}/loader exec "$@"'
        got = harness.run(["sh", "-c", command, "sh", bench.program, *words], bench.path)
        told = b""
        for name in os.listdir(logs):
            with open(os.path.join(logs, name), "rb") as file:
                told += file.read()
    return got, b"transferring control: " + bench.program.encode() in told


def least_limit(bench, words):
    """The least limit, in KiB and by steps of 64, under which the loader comes to its end."""
    kilobytes = 64
    while not loader_handed_over(bench, words, kilobytes)[1]:
        kilobytes += 64
    return kilobytes


def memory_tries(bench, name):
    """Runs a command under limits from small to ample; answers what the runs came to."""
    words, counts = COMMANDS[name][0].split(), collections.Counter({"right": 0, "no memory": 0, "not begun": 0})
    bench.fresh()
    least = least_limit(bench, words)
    counts["not begun"] = least // 64 - 1
    for kilobytes in list(range(least, least + 2048, 16)) + [least + more for more in (4096, 8192, 16384, 65536, 262144, 1048576)]:
        bench.fresh()
        got, began = loader_handed_over(bench, words, kilobytes)
        if not began:
            counts["not begun"] += 1
            continue
        try:
            # where no memory is found for the words themselves, nothing is put
            bench.judge(name, got, [None, (9, "no memory\n" if got[1] else "")])
        except Failed as failed:
            raise Failed(f"under {kilobytes} KiB: {failed}")
        counts["no memory" if got[0] == 9 else "no memory for a request" if b" NoMemory\n" in got[1] else "right"] += 1
    if got[0] == 9 or not began:
        raise Failed("no answer with ample memory")
    return counts


def tries_of(bench, name, size):
    yield f"{name} of a {size} problem", functools.partial(memory_tries, bench, name)


def main():
    return come_to(harness.arguments(__doc__, "program desk?", verbose=False), ["small", "larger"], tries_of)


if __name__ == "__main__":
    sys.exit(main())
