#!/bin/sh
# Times one request over a folder of files against the number of jobs that run side by side: 24 files of 2,000,000 texts of 8 letters, counted. Prints a table: jobs, seconds
# from the first start to the last end, and rows a second; each line the best of some runs. The program has to be built (./prove), or is named. The jobs are started by GNU
# parallel, or by xargs where that is not there. The files are kept in the folder, bench/data/scale where none is named; they take 580 MB.
# Usage: [RUNS=NUMBER] [JOBS="NUMBER.."] [PQSCAN=PROGRAM] bench/scale/run.sh [FOLDER]
set -eu
top=$(cd "$(dirname "$0")/../.." && pwd)
work=${1:-$top/bench/data/scale}
program=${PQSCAN:-$top/crates/pqscan/out/pqscan}
files=24
rows=2000000
[ -x "$program" ] || {
    echo "run.sh: $program is not built" >&2
    exit 1
}

mkdir -p "$work"
for number in $(seq $files); do
    [ -f "$work/$number.parquet" ] && continue
    if [ "$number" = 1 ]; then
        python3 "$top/bench/pqscan/inputs.py" "$work/1.parquet" $rows short
    else
        cp "$work/1.parquet" "$work/$number.parquet"
    fi
done

# scan_all JOBS: scans all files, so many at a time.
scan_all() {
    if command -v parallel >/dev/null 2>&1; then
        parallel --will-cite -q -j "$1" "$program" {} a:Utf8 --summary ::: "$work"/*.parquet
    else
        printf '%s\n' "$work"/*.parquet | xargs -P "$1" -I FILE "$program" FILE a:Utf8 --summary
    fi
}

# the files are read once, so that each run finds them in memory
found=$(scan_all 4 | awk '$1 == "rows" {sum += $2} END {print sum}')
[ "$found" = $((files * rows)) ] || {
    echo "run.sh: $found rows, and not $((files * rows))" >&2
    exit 1
}
echo "| jobs | seconds | million rows a second |"
echo "|---|---|---|"
for jobs in ${JOBS:-1 2 3 4 8}; do
    best=
    for _ in $(seq "${RUNS:-5}"); do
        begun=$(date +%s%N)
        scan_all "$jobs" >/dev/null
        took=$(($(date +%s%N) - begun))
        if [ -z "$best" ] || [ "$took" -lt "$best" ]; then best=$took; fi
    done
    awk -v jobs="$jobs" -v took="$best" -v rows=$((files * rows)) 'BEGIN {printf "| %s | %.2f | %.1f |\n", jobs, took / 1e9, rows / took * 1000}'
done
