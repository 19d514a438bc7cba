#!/usr/bin/env bash
# Asks twenty times whether a family of 1,000 elements meets a problem of 256 concepts, two equal trees
# with an articulation a concept, and has its table; prints the processor time of one asking.
set -eu
cd "$(git rev-parse --show-toplevel)/crates/measure"
[ -x out/measure ] || rt run >/dev/null
file=$(mktemp)
trap 'rm -f "$file"' EXIT
python3 - "$file" <<'PYTHON'
import os, subprocess, sys

# A root over 8 concepts, the first 7 of them over 17 leaves each: 128 concepts. Each element is in one leaf, in
# the concept above it and in the root, so the sets have 23 elements on average.
lines = []
for taxonomy in (1, 2):
    lines.append(f"taxonomy {taxonomy}")
    lines.append("(root " + " ".join(f"m{m}" for m in range(8)) + ")")
    for m in range(7):
        lines.append(f"(m{m} " + " ".join(f"l{m}_{leaf}" for leaf in range(17)) + ")")
names = ["root"] + [f"m{m}" for m in range(8)] + [f"l{m}_{leaf}" for m in range(7) for leaf in range(17)]
lines.append("articulation")
lines += [f"[1.{name} equals 2.{name}]" for name in names]
open(sys.argv[1], "w").write("\n".join(lines) + "\n")

def seconds(times):
    before = os.times()
    text = subprocess.run(["out/measure", "family", sys.argv[1], str(times)], capture_output=True, text=True, check=True).stdout.strip()
    after = os.times()
    return text, after.children_user + after.children_system - before.children_user - before.children_system

made = min(seconds(0)[1] for _ in range(3))
text, whole = min((seconds(20) for _ in range(3)), key=lambda run: run[1])
print(f"{len(names)} concepts a tree, {text} of 20: {(whole - made) / 20 * 1000:.2f} ms each")
PYTHON
