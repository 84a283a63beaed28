#!/bin/sh
# Installs the proved programs and their manual pages: install.sh [PREFIX], where PREFIX is /usr/local if it is not given.
# The programs are proved and built first, where that is not done yet.
set -u

fail() {
    echo "install.sh: $1" >&2
    exit 1
}

[ $# -le 1 ] || fail "usage: install.sh [PREFIX]"
prefix=${1:-/usr/local}
case $prefix in
-*) fail "usage: install.sh [PREFIX]" ;;
esac
root=$(CDPATH= cd -- "$(dirname -- "$0")" && pwd) || fail "the folder of the sources cannot be found"

"$root/prove" || fail "the programs could not be proved and built"
"$root/crates/pqscan/out/pqscan" "$root/crates/pqscan/data/f1.parquet" a:Int32 >/dev/null || fail "pqscan does not run"
"$root/crates/pqinspect/out/pqinspect" "$root/crates/pqinspect/data/f1.parquet" >/dev/null || fail "pqinspect does not run"
"$root/crates/parquet_put/out/parquet_put" "$root/crates/parquet_put/data/empty" x 2 >/dev/null || fail "parquet_put does not run"

# A file is put beside its place first, so that a program that runs is not written over.
place() {
    mkdir -p "$(dirname -- "$2")" || fail "cannot make the folder of $2"
    cp -- "$1" "$2.new" && chmod "$3" "$2.new" && mv -f -- "$2.new" "$2" || fail "cannot write $2"
}

for name in pqscan pqinspect parquet_put; do
    place "$root/crates/$name/out/$name" "$prefix/bin/$name" 755
    place "$root/docs/$name.1" "$prefix/share/man/man1/$name.1" 644
    echo "install.sh: $prefix/bin/$name and $prefix/share/man/man1/$name.1 stand"
done
