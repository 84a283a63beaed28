#!/bin/sh
# Times whole scans of one column against the number of its rows, beside the plain Rust scan: numbers of 32 bits and texts of 8 letters, with all text written to nowhere.
# Prints a table of processor milliseconds, each the best of so many runs. The program has to be built (./prove), or is named. Inputs are kept in the folder, bench/data
# where none is named.
# Usage: [RUNS=NUMBER] [PQSCAN=PROGRAM] bench/pqscan/rows.sh [FOLDER]
. "$(dirname "$0")/shared.sh"
wants_program

# both FILE ITEM: the processor milliseconds of the best run of each program, which run in turn.
both() {
    for _ in $(seq "${RUNS:-11}"); do
        "$work/timed" "$ours" "$1" "$2" | sed 's/^/ours /'
        "$work/timed" "$work/twin" "$1" "$2" | sed 's/^/twin /'
    done | awk '!($1 in least) || $2 < least[$1] {least[$1] = $2} END {printf "%.2f | %.2f", least["ours"] / 1000, least["twin"] / 1000}'
}

echo "| rows | numbers ms | Rust numbers ms | texts ms | Rust texts ms |"
echo "|---|---|---|---|---|"
for rows in 125000 250000 500000 1000000 2000000; do
    line="| $(echo $rows | sed ':a;s/\([0-9]\)\([0-9]\{3\}\)\($\|,\)/\1,\2\3/;ta') |"
    for kind in numbers:a:Int32 short:a:Utf8; do
        write "rows_${kind%%:*}_$rows" $rows "${kind%%:*}"
        file=$work/rows_${kind%%:*}_$rows.parquet
        line="$line $(both "$file" "${kind#*:}") |"
    done
    echo "$line"
done
