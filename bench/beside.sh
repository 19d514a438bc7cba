#!/usr/bin/env bash
# Lists the worlds of problems of several families, by the program, by the plain C++ walk of bench/walk.cc and by clingo (Debian's
# gringo) with the encoding of bench/asp.py. The worlds are compared before the times: the program's and the walk's line by
# line, clingo's by their number. Processor seconds and the peak memory of the program.
# Words choose problems, as `flat 3 5` or `flat 3 5 coverage=off`, one word each; without any, a list that has every family of
# bench/problems.py, those with few worlds or none by themselves and those with many with WORLDS.
# With NOCLINGO=1 clingo is left out. With WORLDS=500 only the first 500 worlds are listed, by the walk too, and any 500 by clingo.
# What takes more than LIMIT seconds (120) is stopped, and has no number then.
# shellcheck source=/dev/null
. "$(git rev-parse --show-toplevel)/bench/built.sh"
g++ -O2 -o "$folder/walk" "$top/bench/walk.cc"
if [ $# -eq 0 ] && [ -n "${WORLDS:-}" ]; then
  set -- "generated 7 1024" "flat 4 5" "loose 6 10" "chain 8 3" "sums 8 4" "split 12 12" "roots 6 5" "doubtful 400 4" "vague 60 40" "revised 1 320" "unclear 1 160" \
    "copied 20 4" "pigeons 9 9" "hidden 2 40" "hidden 2 80" "hidden 2 160" "several 3 20" "several 4 10" "several 8 6" "combs 1 20" "combs 1 60" "sorting 30 20" "sorting 60 60" \
    "subjects 4 50" "subjects 2 100" "generated 7 48 sibling=off" "generated 7 96 sibling=off" "hidden 1 20 sibling=off" "hidden 2 30 sibling=off" "hidden 2 40 sibling=off" \
    "several 3 10 sibling=off" "combs 1 20 sibling=off" "subjects 1 20 sibling=off" "hidden 2 40 coverage=off" "hidden 2 40 nonempty=off"
elif [ $# -eq 0 ]; then
  set -- "generated 7 14" "generated 7 96" "generated 7 256" "generated 7 512" "generated 7 1024" "flat 3 4" "flat 3 5" "flat 3 6" \
    "flat 4 5" "loose 2 4" "loose 4 10" "loose 6 10" "chain 3 4" "chain 5 3" "chain 8 3" "sums 6 3" "split 4 4" "roots 3 2" "planted 7 96" "repeated 100 1000" \
    "clashing 100 10" "opposed 20 20" "pigeons 7 6" "flat 3 3 sibling=off" "flat 3 4 coverage=off" "flat 3 4 nonempty=off"
fi
limit=${LIMIT:-120}
seconds() { if [ -s "$1" ]; then tail -n 1 "$1" | awk '{ printf "%.2f s", $1 + $2 }'; else echo "over $limit s"; fi; }
# What a command takes, in a file, which is empty if it took too long.
timed() {
  local took=$1 status=0
  shift
  /usr/bin/time -q -f "%U %S %M" -o "$took" timeout "$limit" "$@" || status=$?
  [ "$status" -ne 124 ] || : > "$took"
}
few=()
[ -z "${WORLDS:-}" ] || few=("worlds=$WORLDS" "token=$folder/token")
for problem in "$@"; do
  # shellcheck disable=SC2086
  set -- $problem
  python3 "$top/bench/problems.py" "$1" "$2" "$3" > "$folder/p.txt"
  shift 3
  rm -f "$folder/a" "$folder/w" "$folder/c" "$folder/token"
  timed "$folder/a" out/euler_align align "in=$folder/p.txt" "${few[@]}" "$@" > "$folder/align"
  walk="" same=""
  if timeout "$limit" python3 "$top/bench/asp.py" "$folder/p.txt" "$@" table > "$folder/p.tab"; then
    timed "$folder/w" "$folder/walk" < "$folder/p.tab" 2> /dev/null | head -n "${WORLDS:-999999999999}" > "$folder/walked" || true
    lines=$(wc -l < "$folder/walked")
    walk=$(seconds "$folder/w")
    cmp -s <(head -n "$lines" "$folder/align") "$folder/walked" && same="same lines" || same="OTHER LINES"
    [ -z "${WORLDS:-}" ] || walk="$walk ($lines worlds)"
  fi
  clingo=""
  if [ -z "${NOCLINGO:-}" ]; then
    if timeout "$limit" python3 "$top/bench/asp.py" "$folder/p.txt" "$@" > "$folder/p.lp"; then
      timed "$folder/c" clingo "$folder/p.lp" --project=show -n "${WORLDS:-0}" -q > "$folder/clingo"
      models=$(awk '/^Models/ { sub(/[+]/, "", $3); print $3 }' "$folder/clingo")
      listed=$(grep -cv '^complete\|^cut' "$folder/align" || true)
      number=" (OTHER NUMBER)"
      [ "$models" != "$listed" ] || number=" (same number)"
      [ -s "$folder/c" ] || number=""
      clingo=", clingo $(seconds "$folder/c")$number"
    else
      clingo=", clingo: its program was not made in $limit s"
    fi
  fi
  echo "$problem: $(tail -n 1 "$folder/align"), align $(seconds "$folder/a"), $(awk '{ printf "%.1f", $3 / 1024 }' "$folder/a") MiB, walk ${walk:-none} ($same)$clingo"
done
