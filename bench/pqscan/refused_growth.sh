#!/bin/sh
# Runs pqscan with each of its allocations refused in turn, on a file of 5 rows, on one of 45,000 in three groups and on the same with page
# indexes, on keys of 1,000 texts, and on two samples. Each run must end for want of memory and write nothing, or, where a smaller block was enough, write the whole text. Proves and
# builds pqscan first where that is not done yet, unless a program is named. Usage: [PQSCAN=PROGRAM] bench/pqscan/refused_growth.sh [FOLDER]
set -eu
here=$(cd "$(dirname "$0")" && pwd)
top=$(cd "$here/../.." && pwd)
work=${1:-$(mktemp -d)}
mkdir -p "$work"
pqscan=${PQSCAN:-$top/crates/pqscan/out/pqscan}
five=$top/crates/pqscan/data/f1.parquet
python3 "$here/inputs.py" "$work/plain.parquet" 45000
python3 "$here/inputs.py" "$work/indexed.parquet" 45000 indexed
python3 "$here/inputs.py" "$work/named.parquet" 2000 named
${CC:-cc} -O1 -shared -fPIC "$here/refuse.c" -o "$work/refuse.so" -ldl
[ -n "${PQSCAN:-}" ] || "$top/prove"

OUT_OF_MEMORY=10

# refuse_each WORD..: one run of the words for each allocation that they take.
refuse_each() {
    COUNT=$work/count LD_PRELOAD=$work/refuse.so "$pqscan" "$@" >"$work/whole"
    count=$(cat "$work/count")
    ended=0
    went_on=0
    number=1
    while [ "$number" -le "$count" ]; do
        status=0
        REFUSE=$number LD_PRELOAD=$work/refuse.so "$pqscan" "$@" >"$work/written" 2>/dev/null || status=$?
        if [ "$status" -eq "$OUT_OF_MEMORY" ] && [ ! -s "$work/written" ]; then
            ended=$((ended + 1))
        elif [ "$status" -eq 0 ] && cmp -s "$work/written" "$work/whole"; then
            went_on=$((went_on + 1))
        else
            echo "allocation $number of $count refused: status $status, $(wc -c <"$work/written") bytes: $*" >&2
            exit 1
        fi
        number=$((number + 1))
    done
    echo "$count allocations: $ended ended the run with nothing written, $went_on did without: $*"
}

refuse_each "$five" a:Int32 'a>=12' 'a<=18'
refuse_each "$work/plain.parquet" a:Int32
refuse_each "$work/indexed.parquet" a:Int32 'a>=30000' 'a<=33000'
refuse_each "$work/named.parquet" 'a:Dictionary(Int32,Utf8)' --chunk 700
refuse_each @sample:6:0 id:Int64 qty:Int32 name:Utf8 --chunk 4
refuse_each @sample:2000:0 qty:Int32 id:Int64 'id>=1500' --limit 3
