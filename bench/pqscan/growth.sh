#!/bin/sh
# How time, memory and the bytes that are read grow with a file: rows, groups of which one is kept, pages of which one is kept, and columns of which one is
# asked for; beside the plain Rust scan, and the bytes beside the most that the contract of a scan allows. Prints a table. The program has to be built (./prove), or is
# named. Needs strace. Inputs are kept in the folder, bench/data where none is named.
# Usage: [RUNS=NUMBER] [PQSCAN=PROGRAM] bench/pqscan/growth.sh [FOLDER]
. "$(dirname "$0")/shared.sh"
wants_program
command -v strace > /dev/null || {
    echo "growth.sh: there is no strace" >&2
    exit 1
}
for file in numbers_200000 numbers_2000000 numbers_20000000 indexed_2000000 paged_10000000 wide_1000; do
    write "$file" "${file#*_}" "${file%_*}"
done
python3 "$here/growth.py" "$ours" "$work/twin" "$work/timed" "$work" "${RUNS:-11}"
