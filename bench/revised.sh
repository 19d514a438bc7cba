#!/usr/bin/env bash
# Revisions of a taxonomy (bench/problems.py revised and unclear): processor seconds of the first 500 worlds by `align` and by clingo (Debian's
# gringo, which finds any 500), and of the possible relations by `mir` and by clingo's brave consequences. What takes longer than
# LIMIT seconds (60) is ended. That of making clingo's program is left out.
# Words choose problems, as `revised 1 80`, one word each; without any, a list of them is taken.
# shellcheck source=/dev/null
. "$(git rev-parse --show-toplevel)/bench/built.sh"
[ $# -gt 0 ] || set -- "revised 1 40" "revised 1 80" "revised 1 160" "revised 1 320" "unclear 1 40" "unclear 1 80" "unclear 1 160"
limit=${LIMIT:-60}
timed() { /usr/bin/time -q -f "%U %S" -o "$folder/t" timeout "$limit" "$@" > "$folder/out" 2>&1; seconds=$(tail -n 1 "$folder/t" | awk '{ printf "%.2f", $1 + $2 }'); }
for problem in "$@"; do
  # shellcheck disable=SC2086
  set -- $problem
  python3 "$top/bench/problems.py" "$1" "$2" "$3" > "$folder/p.txt"
  python3 "$top/bench/asp.py" "$folder/p.txt" > "$folder/p.lp"
  timed out/euler_align align "in=$folder/p.txt" worlds=500 "token=$folder/token" || true
  line="align $seconds s ($(tail -n 1 "$folder/out"))"
  timed clingo "$folder/p.lp" --project=show -n 500 -q || true
  line="$line, clingo $seconds s; "
  timed out/euler_align mir "in=$folder/p.txt" || true
  line="$line mir $seconds s"
  timed clingo "$folder/p.lp" --project=show --enum-mode=brave -n 0 -q || true
  echo "$problem: $line, clingo $seconds s"
done
