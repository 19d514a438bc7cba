#!/usr/bin/env bash
# A listing with its certificate in one run, and cut by worlds into as many parts as processes, listed all at once, and joined. For each:
# seconds on the clock, of the processor, those of the longest part, and of the join; then a thousand parts, one after another and joined.
# Words choose problems, as `flat 3 5`; without any, a list is taken.
# shellcheck source=/dev/null
. "$(git rev-parse --show-toplevel)/bench/built.sh"
[ $# -gt 0 ] || set -- "flat 3 5" "generated 7 256"
program=$PWD/out/euler_align
timed() { /usr/bin/time -q -f "%e %U %S" -o "$@"; }
cluster=$top/examples/cluster
export EULER_ALIGN=$program
# What some files of times come to: their sum of the processor, and the longest on the clock.
sum_of() { cat "$@" | awk '{ processor += $2 + $3; if ($1 > longest) longest = $1 } END { printf "%.1f s of the processor, the longest %.1f s", processor, longest }'; }
cut_in() {
  local count=$1 worlds=$2
  rm -rf "$folder/run"
  timed "$folder/scout" "$cluster/scout" "$folder/p.txt" "$folder/run" $(((worlds + count - 1) / count)) > /dev/null
}
for problem in "$@"; do
  # shellcheck disable=SC2086
  set -- $problem
  python3 "$top/bench/problems.py" "$@" > "$folder/p.txt"
  timed "$folder/one" "$program" align "in=$folder/p.txt" "cert=$folder/c" > "$folder/worlds"
  timed "$folder/check" "$program" check "in=$folder/p.txt" "cert=$folder/c" > /dev/null
  worlds=$(tail -n 1 "$folder/worlds" | cut -d' ' -f2)
  echo "$problem: $worlds worlds; one run $(sum_of "$folder/one"), its check $(sum_of "$folder/check")"
  for count in 2 4; do
    cut_in "$count" "$worlds"
    begun=$(date +%s.%N)
    for part in $(seq "$count"); do
      timed "$folder/part$part" "$cluster/one_part" "$folder/p.txt" "$folder/run" "$part" &
    done
    wait
    clock=$(echo "$begun $(date +%s.%N)" | awk '{ printf "%.1f", $2 - $1 }')
    names=$(ls "$folder/run" | grep '^c' | paste -sd, -)
    (cd "$folder/run" && timed "$folder/join" "$program" join "in=$folder/p.txt" "certs=$names" | tail -n 1)
    echo "  $count parts: scout $(sum_of "$folder/scout"); $clock s on the clock, $(sum_of "$folder"/part[1-"$count"]); join $(sum_of "$folder/join")"
  done
done
