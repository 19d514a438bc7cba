#!/usr/bin/env bash
# The least conflict, by `conflict` and by clingo (Debian's gringo) with the encoding of bench/subsets.py: one process, a statement kept or
# not by an assumption, the same deletion in input order. The numbers of statements are compared before the times. Processor seconds and
# peak memory; those of making clingo's program are left out. Words choose problems, as `pigeons 7 6`; without any, a list is taken.
# shellcheck source=/dev/null
. "$(git rev-parse --show-toplevel)/bench/built.sh"
[ $# -gt 0 ] || set -- "pigeons 5 4" "pigeons 7 6" "pigeons 8 7" "planted 7 48" "planted 7 96" "planted 7 256" "repeated 100 200" "repeated 100 1000" \
  "hidden 1 20" "hidden 2 40" "subjects 2 60" "copied 20 4"
took() { awk '{ printf "%.2f s, %.1f MiB", $1 + $2, $3 / 1024 }' "$1"; }
for problem in "$@"; do
  # shellcheck disable=SC2086
  set -- $problem
  python3 "$top/bench/problems.py" "$1" "$2" "$3" > "$folder/p.txt"
  shift 3
  /usr/bin/time -q -f "%U %S %M" -o "$folder/a" out/euler_align conflict "in=$folder/p.txt" "$@" > "$folder/ours" || true
  python3 "$top/bench/subsets.py" "$folder/p.txt" conflict "$@" > "$folder/p.lp"
  /usr/bin/time -q -f "%U %S %M" -o "$folder/c" timeout "${LIMIT:-120}" clingo "$folder/p.lp" > "$folder/clingo" 2> /dev/null || true
  ours=$(grep -E -o '^(conflict [0-9]+|consistent)' "$folder/ours" | head -n 1)
  theirs=$(grep -E -o '^(conflict [0-9]+|consistent)' "$folder/clingo" | head -n 1)
  [ "$ours" = "$theirs" ] && same="same" || same="OTHER: $theirs"
  echo "$problem: $ours, $(took "$folder/a"); clingo $(took "$folder/c") ($same)"
done
