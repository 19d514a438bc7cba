#!/usr/bin/env bash
# Problems of the greatest size: 1,024 concepts in eight taxonomies with 4,096 statements, and with names of 128 bytes as many statements
# as a text may hold. User seconds, KiB and the exit code of each command.
# shellcheck source=/dev/null
. "$(git rev-parse --show-toplevel)/bench/built.sh"
program=${PROGRAM:-$PWD/out/euler_align}
desk=${DESK:-$top/crates/euler_desk/out/euler_desk}
cd "$folder"
timed() {
  local name=$1 status=0
  shift
  timeout 600 /usr/bin/time -q -f "%U %S %M" -o took "$@" > out 2> told || status=$?
  echo "  $name: $(tail -n 1 took) code $status, $(wc -c < out) bytes: $(tail -n 1 out | cut -c 1-60)"
}
for problem in "4096 96" "3300 128"; do
  # shellcheck disable=SC2086
  python3 "$top/bench/problems.py" largest $problem > p
  echo "largest $problem: $(wc -c < p) bytes"
  left=1.$(grep -o 'c9_*' p | head -n 1)
  right=2.$(grep -o 'c1_*' p | head -n 1)
  timed align "$program" align in=p
  timed "align cert" "$program" align in=p cert=c
  timed check "$program" check in=p cert=c
  timed mir "$program" mir in=p
  timed conflict "$program" conflict in=p
  timed lattice "$program" lattice in=p
  timed explain "$program" explain in=p "left=$left" "right=$right" "set=<"
  timed report "$program" report in=p kinds=count,tally,seen,merge,json
  timed parts "$program" parts in=p count=1000 token=t
  timed part "$program" part in=p cert=c1 resume=t1
  timed join "$program" join in=p certs=c1
  printf '1 open\n1 next\n1 next\n' > s
  timed desk "$desk" in=p script=s
done
