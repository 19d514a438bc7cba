#!/usr/bin/env bash
# Lists the worlds of the furniture example, of generated problems and of flat ones, and prints how many there are, the
# processor time and the peak memory (by Debian's time).
# Words choose among them: sizes to generate (14 24 48 96 160 256, or another one),
# flat ones (2x3 3x4 3x5 3x6 4x5), furniture; without any, all are listed.
# shellcheck source=/dev/null
. "$(git rev-parse --show-toplevel)/bench/built.sh"
[ $# -gt 0 ] || set -- furniture 14 24 48 96 160 256 2x3 3x4 3x5 3x6 4x5
for one in "$@"; do
  case $one in
    furniture) name=furniture; cp ../../examples/furniture.txt "$folder/problem.txt" ;;
    *x*) name=flat_$one; python3 ../../bench/problems.py flat "${one%x*}" "${one#*x}" > "$folder/problem.txt" ;;
    *) name=generated_$one; python3 ../../bench/problems.py generated 7 "$one" > "$folder/problem.txt" ;;
  esac
  last=$(/usr/bin/time -f "%U %S %M" -o "$folder/used" out/euler_align align "in=$folder/problem.txt" | tail -n 1)
  awk -v name="$name" -v last="$last" '{ printf "%s: %s, %.2f s, %.1f MiB\n", name, last, $1 + $2, $3 / 1024 }' "$folder/used"
done
