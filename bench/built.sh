# Sourced by the scripts that run the built program: goes to its crate, builds it where it is missing, and makes a folder that is
# removed at the end.
set -eu
top=$(git rev-parse --show-toplevel)
cd "$top/crates/euler_align"
[ -x out/euler_align ] || rt run -- align in=data/p.txt >/dev/null
folder=$(mktemp -d)
trap 'rm -r "$folder"' EXIT
