#!/usr/bin/env bash
# All minimal conflicts and all maximal sets that hold together, by `lattice` and by clingo (Debian's gringo) with the encoding of
# bench/subsets.py: one process, a statement kept or not by an assumption, seeds by a second program that has the finds as rules, shrunk
# and grown statement by statement. How many conflicts and sets there are is compared before the times. Processor seconds and peak memory;
# those of making clingo's program are left out. Words choose problems, as `pigeons 5 4`; without any, a list is taken. LIMIT is the
# processor seconds that each may take (120).
# shellcheck source=/dev/null
. "$(git rev-parse --show-toplevel)/bench/built.sh"
[ $# -gt 0 ] || set -- "planted 7 96" "clashing 100 1" "clashing 100 2" "clashing 100 5" "clashing 100 10" "opposed 5 5" "opposed 10 10" "opposed 20 20" \
  "pigeons 5 4" "pigeons 6 5" "pigeons 7 6" "hidden 1 20" "subjects 2 60"
limited() { (ulimit -t "${LIMIT:-120}" && exec /usr/bin/time -q -f "%U %S %M" -o "$@") || true; }
took() { awk '{ printf "%.2f s, %.1f MiB", $1 + $2, $3 / 1024 }' "$1"; }
for problem in "$@"; do
  # shellcheck disable=SC2086
  set -- $problem
  python3 "$top/bench/problems.py" "$1" "$2" "$3" > "$folder/p.txt"
  shift 3
  limited "$folder/a" out/euler_align lattice "in=$folder/p.txt" "$@" > "$folder/ours"
  python3 "$top/bench/subsets.py" "$folder/p.txt" lattice "$@" > "$folder/p.lp"
  limited "$folder/c" clingo "$folder/p.lp" > "$folder/clingo" 2> /dev/null
  ours=$(grep -E -o '^(lattice [0-9]+ [0-9]+|too many)' "$folder/ours" || echo "no answer")
  theirs=$(grep -E -o '^lattice [0-9]+ [0-9]+' "$folder/clingo" || echo "no answer")
  if [ "$ours" = "no answer" ] || [ "$theirs" = "no answer" ]; then
    same="$theirs"
  else
    [ "$ours" = "$theirs" ] && same="same" || same="OTHER: $theirs"
  fi
  echo "$problem: $ours, $(took "$folder/a"); clingo $(took "$folder/c") ($same)"
done
