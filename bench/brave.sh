#!/usr/bin/env bash
# What follows, by `mir` and by clingo's brave consequences (Debian's gringo) with the encoding of bench/asp.py. The sets of all pairs
# across taxonomies are compared before the times. Processor seconds; those of making clingo's program are left out.
# Words choose problems, as `flat 3 5` or `flat 3 5 coverage=off`, one word each; without any, a list of them is taken.
# shellcheck source=/dev/null
. "$(git rev-parse --show-toplevel)/bench/built.sh"
[ $# -gt 0 ] || set -- "generated 7 14" "generated 7 96" "generated 7 256" "flat 3 5" "flat 4 5" "loose 4 10" "loose 6 10" "chain 5 3" "chain 8 3" \
  "sums 6 3" "split 4 4" "roots 3 2" "flat 3 4 coverage=off" "flat 3 4 nonempty=off"
seconds() { tail -n 1 "$1" | awk '{ printf "%.2f", $1 + $2 }'; }
for problem in "$@"; do
  # shellcheck disable=SC2086
  set -- $problem
  python3 "$top/bench/problems.py" "$1" "$2" "$3" > "$folder/p.txt"
  shift 3
  /usr/bin/time -q -f "%U %S %M" -o "$folder/a" out/euler_align mir "in=$folder/p.txt" "$@" > "$folder/mir" || true
  python3 "$top/bench/asp.py" "$folder/p.txt" "$@" > "$folder/p.lp"
  python3 "$top/bench/asp.py" "$folder/p.txt" "$@" pairs > "$folder/pairs"
  /usr/bin/time -q -f "%U %S" -o "$folder/c" clingo "$folder/p.lp" --project=show --enum-mode=brave -n 0 > "$folder/clingo" || true
  same=$(python3 - "$folder" <<'PYTHON'
import re, sys
folder = sys.argv[1]
told = [line.split(" ")[2].replace(".", "") for line in open(f"{folder}/mir").read().split("\n")[:-2]]
answers = [line for line in open(f"{folder}/clingo") if line.startswith("rel(")]
found = set(re.findall(r"rel\((\d+),(\d+),(\d)\)", answers[-1] if answers else ""))
pairs = [line.split() for line in open(f"{folder}/pairs")]
brave = ["".join("=><x!"[r] for r in range(5) if (x, y, str(r)) in found) for x, y in pairs[: len(told)]]
print("same sets" if told == brave else "OTHER SETS")
PYTHON
)
  echo "$problem: $(tail -n 1 "$folder/mir"), mir $(seconds "$folder/a") s, $(awk '{ printf "%.1f", $3 / 1024 }' "$folder/a") MiB, clingo $(seconds "$folder/c") s ($same)"
done
