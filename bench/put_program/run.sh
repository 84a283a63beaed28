#!/bin/sh
# Counts and times the putting of one column beside plain Rust: of numbers of 64 bits, every fifth null, and of texts of 8 bytes, none null. Both must
# write the same bytes for columns of some lengths. Instructions are those of the putting alone, which are what is more than where the array is made and
# nothing put; they need valgrind, and are left out without it. Times and memory are those of whole programs that write to nowhere, and of programs that
# make the array alone. Builds both programs in a scratch folder outside the repository, which takes some minutes.
# Usage: [RUNS=NUMBER] bench/put_program/run.sh [FOLDER]
. "$(dirname "$0")/../scratch.sh"
build put_times 'parquet_base columns_core parquet_thrift parquet_encoding compact_write parquet_meta parquet_page parquet_plain parquet_write pq_common put_program' numbers 6 2
${CC:-cc} -O1 "$top/bench/pqscan/timed.c" -o "$work/timed"
page_rows=20000

# same ROWS PAGE_ROWS: both programs write the same bytes of each kind.
same() {
    for kind in numbers texts; do
        [ "$("$ours" $kind "$1" "$2" | sha256sum)" = "$("$twin" $kind "$1" "$2" | sha256sum)" ] || {
            echo "run.sh: the files of $1 $kind in pages of $2 rows differ"
            exit 1
        }
    done
}
same 0 1
same 1 1
# (of the numbers the first page is of nulls alone)
same 2 1
same 6 20000
same 9 8
same 300 1
same 1000 7
same 40001 $page_rows
same 100000 $page_rows

# count PROGRAM WORD..: the instructions of a run.
count() {
    valgrind --tool=callgrind --callgrind-out-file="$work/counted" "$@" 2>&1 >/dev/null | sed -n 's/.*Collected : //p'
}
if command -v valgrind >/dev/null; then
    rows=400000
    printf '%-8s %10s %14s %14s %6s\n' kind rows 'a row' 'Rust, a row' ratio
    for kind in numbers texts; do
        echo "$(count "$ours" $kind $rows $page_rows) $(count "$ours" $kind $rows 0) $(count "$twin" $kind $rows $page_rows) $(count "$twin" $kind $rows 0)" |
            awk -v kind=$kind -v rows=$rows '{ printf "%-8s %10d %14.1f %14.1f %6.2f\n", kind, rows, ($1 - $2) / rows, ($3 - $4) / rows, ($1 - $2) / ($3 - $4) }'
    done
fi

# (least: the MiB of the array and the file)
printf '%-8s %10s %10s %8s %8s %6s %9s %13s %6s %7s %8s %7s\n' kind rows bytes ms 'Rust ms' ratio 'array ms' 'Rust array ms' ratio MiB 'Rust MiB' least
for column in 'numbers 20000000 162500000' 'texts 5000000 60000004'; do
    # shellcheck disable=SC2086
    set -- $column
    for _ in $(seq "${RUNS:-7}"); do
        for rows in $page_rows 0; do
            echo "ours$rows $("$work/timed" "$ours" "$1" "$2" $rows)"
            echo "twin$rows $("$work/timed" "$twin" "$1" "$2" $rows)"
        done
    done | awk -v kind="$1" -v rows="$2" -v array="$3" -v put=$page_rows -v bytes="$("$twin" "$1" "$2" $page_rows | wc -c)" '
        { if (!($1 in best) || $2 < best[$1]) best[$1] = $2; if ($3 > most[$1]) most[$1] = $3 }
        END { ours = best["ours" put]; twin = best["twin" put]
              printf "%-8s %10d %10d %8.1f %8.1f %6.2f %9.1f %13.1f %6.2f %7.1f %8.1f %7.1f\n", kind, rows, bytes, ours / 1000, twin / 1000, ours / twin,
                     best["ours0"] / 1000, best["twin0"] / 1000, (ours - best["ours0"]) / (twin - best["twin0"]),
                     most["ours" put] / 1024, most["twin" put] / 1024, (array + bytes) / 1048576 }'
done
