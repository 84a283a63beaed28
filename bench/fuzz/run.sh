#!/bin/sh
# Runs pqscan on damaged copies of small files of every kind of column: each run must end with a status of its own, in little time and memory, and write
# nothing unless the status is 0 or 9 (see fuzz.c). The runs are cut into portions, of which as many go side by side as there are processors; they are the
# same for the same number of runs. After an interrupt it tells what the portions found that had ended, with a status of 1. Proves and builds pqscan first
# where that is not done yet, unless a program is named. Usage: [PQSCAN=PROGRAM] [RUNS=NUMBER] bench/fuzz/run.sh [FOLDER]
set -eu
here=$(cd "$(dirname "$0")" && pwd)
top=$(cd "$here/../.." && pwd)
work=${1:-$(mktemp -d)}
runs=${RUNS:-100000}
program=${PQSCAN:-$top/crates/pqscan/out/pqscan}
[ -n "${PQSCAN:-}" ] || "$top/prove"
mkdir -p "$work/seeds"
python3 "$here/seeds.py" "$work/seeds"
${CC:-cc} -O1 -Wall "$here/fuzz.c" -o "$work/fuzz"

# at least eight portions, and none of more than 10,000 runs
size=$(((runs + 7) / 8))
[ "$size" -le 10000 ] || size=10000
rm -f "$work"/*.txt
failed=0
trap 'failed=1' INT
seq $(((runs + size - 1) / size)) | xargs -P "$(nproc)" -I NUMBER sh -c \
    'mkdir -p "$1/$2" && "$1/fuzz" "$3" "$1/seeds" "$1/$2" "$4" "$2" >"$1/$2.txt" 2>&1' portion "$work" NUMBER "$program" "$size" || failed=1
awk '
    !/ runs on / {print; next}
    {
        runs += $1; files = $4; bad += $(NF - 3)
        for (i = 5; i < NF; i++) {
            if ($i == "status") count[$(i + 1)] += $(i + 2)
            if ($i == "most" && $(i + 1) > seconds) seconds = $(i + 1)
            if ($i == "s" && substr($(i + 1), 2) > clock) clock = substr($(i + 1), 2)
            if ($i == "KiB," && $(i - 1) > room) room = $(i - 1)
        }
    }
    END {
        printf "%d runs on %d files:", runs, files
        for (code = 0; code <= 10; code++) if (count[code]) printf " status %d %d,", code, count[code]
        printf " at most %.3f s (%.3f by the clock) and %d KiB, %d not as promised\n", seconds, clock, room, bad
    }' "$work"/*.txt
exit "$failed"
