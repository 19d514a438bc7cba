#!/usr/bin/env bash
# Checks a derivation of 100,000 lines, each with ten hints of five literals, and prints the time.
set -eu
cd "$(git rev-parse --show-toplevel)/crates/measure"
[ -x out/measure ] || rt run >/dev/null
time out/measure derive lines 100000
