#!/usr/bin/env python3
"""Whether names come through JSON as they were written: quotes, backslashes, control characters that names may have, other scripts.

    tests/json_names.py [--program PATH]

The line of JSON is read by Python, and by `jq` where it is installed.
"""

import json
import shutil
import sys

import harness

# Each is the name of a concept of both taxonomies, and equals itself there.
NAMES = [
    'a"b', '"', '""', "back\\slash", "\\", "\\\\", '\\"', "\\n", "\\u0041", "/", "</script>", "'", "a,b:c",
    "\u0080", "x\u0085y", "\u009f", "\u00a0z", "\u2028", "\u2029", "\ufeffq", "\u200b", "\u00fc", "\u0141\u00f3d\u017a", "\u6f22\u5b57",
    "\u05d0\u05d1", "\u0928\u092e", "\U0001f98b", "\U0010ffff", "\ud7ff", "e\u0301",
]


def problem(names):
    rows = "".join(f"({name})\n" for name in names)
    equal = "".join(f"[1.{name} equals 2.{name}]\n" for name in names)
    apart = "".join(
        f"[1.{one} disjoint 2.{other}]\n" for k, one in enumerate(names) for other in names[k + 1 :]
    )
    return f"taxonomy 1\n{rows}taxonomy 2\n{rows}articulation\n{equal}{apart}"


def reported(program, names):
    with harness.Folder() as folder:
        folder.hold("p", problem(names))
        done = harness.run([program, "report", "in=p", "kinds=json"], folder.path)
    found = [line for line in done.out.split(b"\n") if line.startswith(b"{")]
    if len(found) != 1:
        raise SystemExit(f"json_names: no line of JSON, or several: {done}")
    return found[0]


def main():
    given = harness.arguments(__doc__, "program")
    names = [name for name in NAMES if not any(c in "(){}[]" for c in name)]
    wanted = [[f"1.{name}", f"2.{name}"] for name in names]
    line = reported(given.program, names)
    readers = [("Python", json.loads(line)["classes"])]
    if shutil.which("jq"):
        readers.append(("jq", json.loads(harness.run(["jq", "-c", ".classes"], given=line).out)))
    for reader, got in readers:
        if got != wanted:
            print(f"json_names: {reader} reads other names")
            print(f"wanted {wanted}\ngot    {got}")
            return 1
    print(f"json_names: {len(names)} names, read alike by {' and '.join(reader for reader, _ in readers)}")
    return 0


if __name__ == "__main__":
    sys.exit(main())
