#!/usr/bin/env bash
# Lists the worlds of the furniture example, of generated problems and of flat ones with a certificate, and checks it: prints how
# many worlds there are, the lines and bytes of the certificate, how many lines are tree lines and how many the derivation's,
# and the processor time and peak memory of the listing and of the check (by Debian's time), and what cat takes for the same bytes and
# lines.c for the same lines, each in one write.
# Words choose among them as in listing.sh; without any, all but 256, some seconds, and 4x5, minutes and more than a gigabyte, are written.
# shellcheck source=/dev/null
. "$(git rev-parse --show-toplevel)/bench/built.sh"
cc -O2 -o "$folder/lines" ../../bench/lines.c
[ $# -gt 0 ] || set -- furniture 14 24 48 96 2x3 3x4 3x5
for one in "$@"; do
  case $one in
    furniture) name=furniture; cp ../../examples/furniture.txt "$folder/p.txt" ;;
    *x*) name=flat_$one; python3 ../../bench/problems.py flat "${one%x*}" "${one#*x}" > "$folder/p.txt" ;;
    *) name=generated_$one; python3 ../../bench/problems.py generated 7 "$one" > "$folder/p.txt" ;;
  esac
  last=$(/usr/bin/time -f "%U %S %M" -o "$folder/used" out/euler_align align "in=$folder/p.txt" "cert=$folder/c" | tail -n 1)
  accepted=$(/usr/bin/time -f "%U %S %M" -o "$folder/checked" out/euler_align check "in=$folder/p.txt" "cert=$folder/c" | tail -n 1)
  /usr/bin/time -f "%U %S" -o "$folder/cat" cat "$folder/c" | cat > /dev/null
  /usr/bin/time -f "%U %S" -o "$folder/floor" "$folder/lines" "$folder/c" "$folder/again"
  rm "$folder/again"
  trees=$(grep -c '^[bxew] ' "$folder/c" || true)
  proofs=$(grep -c '^[dk] ' "$folder/c" || true)
  bytes=$(wc -c < "$folder/c")
  awk -v name="$name" -v last="$last" -v accepted="$accepted" -v trees="$trees" -v proofs="$proofs" -v bytes="$bytes" -v cat="$(awk '{ print $1 + $2 }' "$folder/cat")" -v floor="$(awk '{ print $1 + $2 }' "$folder/floor")" \
    'NR == FNR { wrote = sprintf("%.2f s, %.1f MiB", $1 + $2, $3 / 1024); next }
     { printf "%s: %s, %s; %d tree lines, %d derivation lines, %d bytes; written in %s; checked in %.2f s, %.1f MiB; cat puts it into a pipe in %.2f s; its lines alone are written in %.2f s\n", name, last, accepted, trees, proofs, bytes, wrote, $1 + $2, $3 / 1024, cat, floor }' \
    "$folder/used" "$folder/checked"
done
