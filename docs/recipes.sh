#!/bin/sh
# Runs the commands of RECIPES.md in a folder of its own, and compares what they print (docs/blocks.py). Needs duckdb, and python3 with pyarrow and pandas.
# Usage: docs/recipes.sh [FOLDER], where pqscan, pqinspect and parquet_put stand
set -eu
here=$(CDPATH= cd -- "$(dirname -- "$0")" && pwd)
place_of() {
    [ -z "$folder" ] && echo "$here/../crates/$1/out/$1" || echo "$folder/$1"
}
folder=${1:+$(CDPATH= cd -- "$1" && pwd)}
for word in duckdb "$(place_of pqscan)" "$(place_of pqinspect)" "$(place_of parquet_put)"; do
    command -v "$word" >/dev/null || {
        echo "recipes.sh: $word is not there" >&2
        exit 1
    }
done
python3 -c 'import pyarrow.parquet, pandas' 2>/dev/null || {
    echo "recipes.sh: python3 has no pyarrow or no pandas" >&2
    exit 1
}
work=$(mktemp -d)
trap 'rm -rf "$work"' EXIT
mkdir "$work/bin" "$work/run"
for name in pqscan pqinspect parquet_put; do
    ln -s "$(place_of "$name")" "$work/bin/$name"
done
export PATH="$work/bin:$PATH"
cd "$work/run"
"$here/blocks.py" "$here/RECIPES.md"
