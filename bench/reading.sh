#!/usr/bin/env bash
# Reads a problem text of 1 MiB with 1,024 concepts, 4,096 articulations and comments into a problem,
# and prints the processor time and the peak memory.
set -eu
cd "$(git rev-parse --show-toplevel)/crates/measure"
[ -x out/measure ] || rt run >/dev/null
file=$(mktemp)
trap 'rm -f "$file"' EXIT
python3 - "$file" <<'PYTHON'
import random, sys

random.seed(1)
lines = []
for taxonomy in (1, 2):
    lines.append(f"taxonomy {taxonomy}")
    for parent in range(512):
        children = range(7 * parent + 1, min(7 * parent + 8, 512))
        if children:
            lines.append("(" + " ".join([f"c{parent}"] + [f"c{child}" for child in children]) + ")")
lines.append("articulation")
relations = ["equals", "includes", "is_included_in", "overlaps", "disjoint", "{equals overlaps}", "{includes overlaps disjoint}"]
for _ in range(4096):
    lines.append(f"[1.c{random.randrange(512)} {random.choice(relations)} 2.c{random.randrange(512)}]")
text = "\n".join(lines) + "\n"
comment = "# " + "x" * 77 + "\n"
text += comment * ((1048576 - len(text)) // len(comment))
text += "#" * (1048575 - len(text)) + "\n"
open(sys.argv[1], "w").write(text)
PYTHON
python3 - "$file" <<'PYTHON'
import resource, subprocess, sys

run = subprocess.run(["out/measure", "problem", sys.argv[1], "1"], capture_output=True, text=True)
used = resource.getrusage(resource.RUSAGE_CHILDREN)
print(run.stdout.strip(), "status", run.returncode)
print(f"{used.ru_utime + used.ru_stime:.3f} s, {used.ru_maxrss / 1024:.0f} MiB")
PYTHON
