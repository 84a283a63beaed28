#!/bin/sh
# Times the making of the sample file beside plain Rust: the processor time and the memory of whole programs that write it to nowhere. Both must write
# the same bytes for samples of some lengths and seeds. Builds both programs in a scratch folder outside the repository, which takes some minutes.
# Usage: [RUNS=NUMBER] bench/parquet_sample/run.sh [FOLDER]
. "$(dirname "$0")/../scratch.sh"
build sample_times 'parquet_base columns_core parquet_thrift parquet_encoding compact_write parquet_meta parquet_page parquet_plain parquet_write parquet_sample' 6 0
${CC:-cc} -O1 "$top/bench/pqscan/timed.c" -o "$work/timed"

# same ROWS SEED [SUM]: both programs write the same bytes, and those of the sum where one is given.
same() {
    first=$("$ours" "$1" "$2" | sha256sum)
    second=$("$twin" "$1" "$2" | sha256sum)
    [ "$first" = "$second" ] && [ "${3:-${first%% *}}" = "${first%% *}" ] || {
        echo "run.sh: the samples of $1 rows and seed $2 differ"
        exit 1
    }
}
same 6 0 aa16579986a4de623df4a8a5279c21572a51876e703b56c7c942fba21e4bc915
same 2000 0 34ae99604f3cbabda7ded5fd06ef692259274457f9e2e87a75a71d442902de42
# (the quantities of one row and seed 0 are a page of nulls)
same 0 0
same 1 0
same 40001 7
same 100000 4294967295
same 2000000 7

printf '%-10s %10s %8s %8s %6s %7s %8s\n' rows bytes ms 'Rust ms' ratio MiB 'Rust MiB'
for rows in 100000 500000 2000000; do
    for _ in $(seq "${RUNS:-11}"); do
        echo "ours $("$work/timed" "$ours" $rows 7)"
        echo "twin $("$work/timed" "$twin" $rows 7)"
    done | awk -v rows=$rows -v bytes="$("$twin" $rows 7 | wc -c)" '
        { if (!($1 in best) || $2 < best[$1]) best[$1] = $2; if ($3 > most[$1]) most[$1] = $3 }
        END { printf "%-10d %10d %8.2f %8.2f %6.2f %7.1f %8.1f\n", rows, bytes, best["ours"] / 1000, best["twin"] / 1000,
              best["ours"] / best["twin"], most["ours"] / 1024, most["twin"] / 1024 }'
done
