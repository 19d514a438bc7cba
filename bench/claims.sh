#!/usr/bin/env bash
# What follows and what conflicts, with and without a certificate, and the check of each certificate: processor seconds and peak memory.
# Words choose runs, as `mir generated 7 96`, one word each; without any, a list of them is taken.
# With NOCERT=1 no certificate is written.
# shellcheck source=/dev/null
. "$(git rev-parse --show-toplevel)/bench/built.sh"
[ $# -gt 0 ] || set -- "mir generated 7 96" "mir generated 7 256" "mir generated 7 1024" "mir flat 4 5" "mir split 4 4" "mir sums 6 3" "mir chain 5 3" \
  "conflict planted 7 96" "conflict planted 7 256" "conflict repeated 100 1000" "conflict generated 7 256"
took() { awk '{ printf "%.2f s, %.1f MiB", $1 + $2, $3 / 1024 }' "$1"; }
for wanted in "$@"; do
  # shellcheck disable=SC2086
  set -- $wanted
  python3 "$top/bench/problems.py" "$2" "$3" "$4" > "$folder/p.txt"
  /usr/bin/time -q -f "%U %S %M" -o "$folder/t" out/euler_align "$1" "in=$folder/p.txt" > "$folder/bare" || true
  line="$wanted: $(grep -E '^(mir|conflict|consistent)' "$folder/bare"), $(took "$folder/t")"
  if [ -z "${NOCERT:-}" ]; then
    /usr/bin/time -q -f "%U %S %M" -o "$folder/t" out/euler_align "$1" "in=$folder/p.txt" "cert=$folder/c" > "$folder/told" || true
    cmp -s "$folder/bare" "$folder/told" && same="same lines" || same="OTHER LINES"
    line="$line; with cert $(took "$folder/t"), $(stat -c %s "$folder/c") bytes ($same)"
    /usr/bin/time -q -f "%U %S %M" -o "$folder/t" out/euler_align check "in=$folder/p.txt" "cert=$folder/c" > "$folder/checked" || true
    line="$line; check $(tail -n 1 "$folder/checked"), $(took "$folder/t")"
  fi
  echo "$line"
done
