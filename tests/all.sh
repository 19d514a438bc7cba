#!/usr/bin/env bash
# Tries the built program from outside, part by part, the quick parts first: a line each, with what it came to and its seconds. What a
# part prints is kept, and shown where it failed.
#
#   tests/all.sh [--quick] [--program PATH] [--desk PATH] [--scenes PATH]
#
# With --quick only what takes under three minutes together on one processor. Where the desk isn't built its part is left out.
set -u
here=$(cd "$(dirname "$0")" && pwd)
built=$(dirname "$here")/crates
quick= program=$built/euler_align/out/euler_align desk=$built/euler_desk/out/euler_desk scenes=$built/run_scenes/out/run_scenes
while [ $# -gt 0 ]; do
  case $1 in
    --quick) quick=1 ;;
    --program | --desk | --scenes)
      [ $# -gt 1 ] || { echo "all: $1 needs a path"; exit 2; }
      printf -v "${1#--}" %s "$(realpath -m "$2")"
      shift ;;
    *) echo "all: $1 is no word of it; see its head"; exit 2 ;;
  esac
  shift
done
for needed in "$program" "$scenes"; do
  [ -x "$needed" ] || { echo "all: there is no program at $needed"; exit 2; }
done
cd "$here" || exit 2
with_program=(--program "$program") with_desk=()
export EULER_ALIGN=$program
if [ -x "$desk" ]; then
  with_desk=(--desk "$desk")
  export EULER_DESK=$desk
fi
told=$(mktemp)
trap 'rm "$told"' EXIT
status=0
part() {
  local name=$1 begun=$SECONDS
  shift
  if "$@" >"$told" 2>&1; then
    echo "$name: passed, $((SECONDS - begun)) s: $(tail -n 1 "$told")"
  else
    echo "$name: failed, $((SECONDS - begun)) s"
    tail -n 40 "$told"
    status=1
  fi
}
# a script by its name, with words
try() {
  part "$*" python3 "$1.py" "${@:2}" "${with_program[@]}"
}
try_both() {
  part "$*" python3 "$1.py" "${@:2}" "${with_program[@]}" "${with_desk[@]}"
}
try_desk() {
  if [ -x "$desk" ]; then
    part "$*" python3 "$1.py" "${@:2}" "${with_desk[@]}"
  else
    echo "$1: left out, there is no program at $desk"
  fi
}
try_both documents
part wrong_bodies python3 wrong_bodies.py
part figures python3 figures.py
for test in ../tools/test_*.py; do
  part "tools/$(basename "$test")" python3 "$test"
done
try page
try_both completions
try messages
try_desk desk_messages
part package ./package.sh "${with_program[@]}" "${with_desk[@]}"
try worked_cases
part io_faults python3 io_faults.py --scenes "$scenes"
try json_names
try_both device_faults
try_both memory_limits
try_both alloc_faults --every 9
try certificate_bytes
try_both hostile_inputs --quick
try two_walks
try killed_runs --count 24
try cluster
try differential --count 500 --jobs "$(nproc)"
try_desk desk_differential --count 200 --jobs "$(nproc)"
if [ -z "$quick" ]; then
  try killed_runs --count 200 --seed 2
  try_both alloc_faults
  try_both hostile_inputs
  try differential --count 5000 --seed 2 --jobs "$(nproc)"
  try_desk desk_differential --count 2000 --seed 2 --jobs "$(nproc)"
  try_both oracle_mutants
fi
exit $status
