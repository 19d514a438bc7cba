#!/usr/bin/env bash
# Reads 64 MiB through the real store in pieces of 64 KiB, beside `cat` into a pipe, and prints both rates.
set -eu
cd "$(git rev-parse --show-toplevel)/crates/measure"
[ -x out/measure ] || rt run >/dev/null
file=$(mktemp)
trap 'rm -f "$file"' EXIT
out/measure write "$file" 1024 >/dev/null
out/measure read "$file" 2000 >/dev/null
best() { # the least of five times, in milliseconds
  local least=
  for _ in 1 2 3 4 5; do
    local from=$(date +%s%N)
    "$@" >/dev/null
    local took=$((($(date +%s%N) - from) / 1000))
    if [ -z "$least" ] || [ "$took" -lt "$least" ]; then least=$took; fi
  done
  echo "$least"
}
store=$(best out/measure read "$file" 2000)
plain=$(best sh -c "cat '$file' | cat")
echo "store: 64 MiB in $store us"
echo "cat:   64 MiB in $plain us"
