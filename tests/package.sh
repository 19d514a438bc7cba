#!/usr/bin/env bash
# Whether what is packed works: `make install` and `uninstall`, `make dist`, and `make deb`, whose files are unpacked and run.
#
#   tests/package.sh [--program PATH] [--desk PATH] [--install]
#
# With --install the Debian package is installed on this system and removed again; that needs root. Where the desk isn't built, nothing of
# it is packed.
set -eu
top=$(cd "$(dirname "$0")/.." && pwd)
install= program=$top/crates/euler_align/out/euler_align desk=$top/crates/euler_desk/out/euler_desk
while [ $# -gt 0 ]; do
  case $1 in
    --install) install=1 ;;
    --program | --desk)
      [ $# -gt 1 ] || { echo "package: $1 needs a path"; exit 2; }
      printf -v "${1#--}" %s "$(realpath -m "$2")"
      shift ;;
    *) echo "package: $1 is no word of it; see its head"; exit 2 ;;
  esac
  shift
done
cd "$top"
folder=$(mktemp -d)
trap 'rm -rf "$folder"' EXIT
unset EULER_ALIGN EULER_DESK
files=5 # a program, its manual page and three completions
[ ! -x "$desk" ] || files=10
fail() {
  echo "package: $*"
  exit 1
}
# what an installed program and its tools must do
try() {
  local where=$1
  printf 'child,parent\nA,\nB b,A\n' >"$folder/one.csv"
  printf 'child;parent\nC;\n' >"$folder/two.csv"
  printf 'left,relation,right\nx.A,equals,y.C\n' >"$folder/said.csv"
  PATH=$where:$PATH euler_align-from_csv x="$folder/one.csv" y="$folder/two.csv" statements="$folder/said.csv" >"$folder/p.txt"
  PATH=$where:$PATH euler_align align in="$folder/p.txt" | grep -q '^complete 1$' || fail "the program in $where lists no world"
  PATH=$where:$PATH euler_align-to_table "$folder/p.txt" | grep -q '^x.B b,equals,y.C,follows$' || fail "the tools in $where make no table"
  PATH=$where:$PATH euler_align-list "$folder/p.txt" | grep -q '^complete 1$' || fail "the tools in $where list nothing"
  [ -x "$desk" ] || return 0
  try_desk "$where"
  echo next | PATH=$where:$PATH euler_align-desk "$folder/p.txt" | grep -q '^  x.A equals y.C$' || fail "the desk in $where shows no world"
}
try_desk() {
  printf '1 open\n1 next\n' >"$folder/if.txt"
  "$1/euler_desk" in=examples/sum.txt script="$folder/if.txt" | grep -q '^served 2$' || fail "the desk in $1 serves nothing"
}

make -s install PROGRAM="$program" DESK="$desk" PREFIX="$folder/prefix" >/dev/null
[ "$(find "$folder/prefix" -type f | wc -l)" = $files ] || fail "make install puts other files than $files"
"$folder/prefix/bin/euler_align" align in=examples/sum.txt | grep -q '^complete 5$' || fail "what make install puts doesn't run"
[ ! -x "$desk" ] || try_desk "$folder/prefix/bin"
make -s uninstall PREFIX="$folder/prefix"
[ "$(find "$folder/prefix" -type f | wc -l)" = 0 ] || fail "make uninstall leaves files"
told="install and uninstall"

if git rev-parse --is-inside-work-tree >/dev/null 2>&1; then
  make -s dist >/dev/null
  version=$(cat VERSION)
  tar -xzf "packaging/out/euler_align-$version.tar.gz" -C "$folder"
  for file in README.md Makefile VERSION tools/from_csv crates/euler_align/src/main.rt; do
    [ -e "$folder/euler_align-$version/$file" ] || fail "the tarball has no $file"
  done
  told="$told, dist"
fi

if command -v dpkg-deb >/dev/null; then
  make -s deb PROGRAM="$program" DESK="$desk" >/dev/null
  package=$(ls -t packaging/out/euler-align_*.deb | head -n 1)
  dpkg-deb -x "$package" "$folder/deb"
  try "$folder/deb/usr/bin"
  for tool in "$folder"/deb/usr/bin/euler_align-*; do
    name=${tool##*-}
    grep -q "^\.B $name\$" man/euler_align_tools.1 || fail "man/euler_align_tools.1 says nothing of $name"
  done
  names=(euler_align)
  [ ! -x "$desk" ] || names+=(euler_desk)
  wanted=(man/man1/euler_align_tools.1.gz doc/euler-align/README.md)
  for name in "${names[@]}"; do
    wanted+=("man/man1/$name.1.gz" "bash-completion/completions/$name" "zsh/vendor-completions/_$name" "fish/vendor_completions.d/$name.fish")
  done
  for file in "${wanted[@]}"; do
    [ -e "$folder/deb/usr/share/$file" ] || fail "the package has no $file"
  done
  told="$told, deb"
  if command -v lintian >/dev/null; then
    lintian --fail-on error "$package" >"$folder/lintian" 2>&1 || { cat "$folder/lintian"; fail "lintian has an error"; }
    told="$told, lintian"
  else
    told="$told (lintian is not installed)"
  fi
  if [ -n "$install" ]; then
    dpkg -i "$package" >/dev/null
    try /usr/bin
    dpkg -r euler-align >/dev/null
    [ ! -e /usr/bin/euler_align ] && [ ! -e /usr/bin/euler_desk ] && [ ! -e /usr/share/euler_align ] || fail "files are left behind after the package was removed"
    told="$told, installed and removed"
  fi
else
  told="$told (dpkg-deb is not installed)"
fi
[ -x "$desk" ] || told="$told, without the desk, which isn't built"
echo "package: $told: all well"
