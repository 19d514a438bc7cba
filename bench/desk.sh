#!/usr/bin/env bash
# The desk: what the first and a later `next` take, sixteen slots asked in turn beside the same requests slot by slot, narrowings of one
# slot, and the memory of a slot. User seconds and KiB of whole runs, from which the figures are told.
#
#   bench/desk.sh [PROGRAM]
set -eu
top=$(git rev-parse --show-toplevel)
program=$(realpath -m "${1:-$top/crates/euler_desk/out/euler_desk}")
folder=$(mktemp -d)
trap 'rm -r "$folder"' EXIT
# the user seconds and the peak memory of a script over a problem, with words
run() {
  local script=$1
  shift
  /usr/bin/time -q -f "%U %M" -o "$folder/took" "$program" "in=$folder/p" "script=$script" "$@" > "$folder/out" || true
  tail -n 1 "$folder/took"
}
# a script of so many slots with so many requests `next` each, in turn or slot by slot
nexts() {
  python3 - "$@" << 'END'
import sys
slots, count, in_turn = int(sys.argv[1]), int(sys.argv[2]), sys.argv[3] == "turn"
requests = [f"{slot} open" for slot in range(1, slots + 1)]
if in_turn:
    requests += [f"{slot} next" for _ in range(count) for slot in range(1, slots + 1)]
else:
    requests += [f"{slot} next" for slot in range(1, slots + 1) for _ in range(count)]
print("\n".join(requests))
END
}
# a script that narrows pairs of two concepts across the taxonomies so many times, to all relations but one that none of them needs
narrowings() {
  python3 - "$folder/p" "$1" << 'END'
import re
import sys
concepts = {}
taxonomy = None
for line in open(sys.argv[1]):
    if line.startswith("taxonomy "):
        taxonomy = line.split()[1]
    elif line.startswith("("):
        for name in line.strip()[1:-1].split():
            concepts.setdefault(taxonomy, {})[name] = None
    elif line.startswith("articulation"):
        break
left, right = (list(names) for names in concepts.values())
print("1 open")
for number in range(int(sys.argv[2])):
    print(f"1 narrow 1.{left[number % len(left)]} 2.{right[number // len(left) % len(right)]} =><x!")
print("1 next")
END
}
problem() { python3 "$top/bench/problems.py" "$@" > "$folder/p"; }

for size in 64 256 512; do
  problem generated 7 "$size"
  nexts 1 0 alone > "$folder/none"
  nexts 1 1 alone > "$folder/first"
  nexts 16 1 turn > "$folder/slots"
  echo "generated 7 $size: no request but open $(run "$folder/none"), one next $(run "$folder/first"), one next of each of sixteen slots $(run "$folder/slots")"
done
for fixed in 17 37 80; do
  problem loose 5 "$fixed"
  nexts 1 1 alone > "$folder/first"
  nexts 1 1001 alone > "$folder/later"
  nexts 16 100 turn > "$folder/turn"
  nexts 16 100 alone > "$folder/alone"
  echo "loose 5 $fixed: one next $(run "$folder/first"), 1,001 $(run "$folder/later"); sixteen slots, 100 next each: in turn $(run "$folder/turn"), slot by slot $(run "$folder/alone")"
done
for size in 24 48 96; do
  problem generated 7 "$size"
  nexts 16 5 turn > "$folder/turn"
  nexts 16 5 alone > "$folder/alone"
  nexts 1 5 alone > "$folder/one"
  echo "generated 7 $size, sibling=off: sixteen slots, 5 next each: in turn $(run "$folder/turn" sibling=off), slot by slot $(run "$folder/alone" sibling=off), one slot $(run "$folder/one" sibling=off)"
done
problem generated 7 256
for count in 2500 5000 10000 20000; do
  narrowings "$count" > "$folder/narrowings"
  echo "generated 7 256: $count narrowings of one slot and a next: $(run "$folder/narrowings")"
done
