#!/bin/sh
# Has pyarrow and DuckDB read files of put_file, three for each type and some more, and of parquet_put, and compares their cells, rows, nulls and what
# bounds leave. The files of put_file are made by a program (put_all.rt.txt) that is built without proofs, with checks.
# Usage: bench/peers/put.sh WORK FOLDER_OF_PROGRAMS, where setup.sh has set up WORK
set -eu
here=$(CDPATH= cd -- "$(dirname -- "$0")" && pwd)
root=$1/root
repo=$1/put_all
rm -rf "$repo"
mkdir -p "$repo"
git -C "$here/../.." archive HEAD crates crates.txt HANDLES | tar -x -C "$repo"
sed -n 's/^put_tests:/put_all:/p' "$repo/crates.txt" >> "$repo/crates.txt"
mkdir -p "$repo/crates/put_all/src" "$root/kit"
cp "$here/put_all.rt.txt" "$repo/crates/put_all/src/main.rt"
python3 "$here/put_cases.py" cases "$repo/cases"
(cd "$repo/crates/put_all" && rt try --cases "$repo/cases") > "$repo/printed"
python3 "$here/put_cases.py" files "$repo/printed" "$root/sets/put_all"
cp "$here/put.py" "$here/put_cases.py" "$2/parquet_put" "$root/kit/"
chroot "$root" python3 /kit/put.py /sets/put_all /kit/parquet_put
