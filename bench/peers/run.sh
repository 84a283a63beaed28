#!/bin/sh
# Compares what pqinspect and pqscan say of files by pyarrow and DuckDB with what pyarrow reads of them; docs/PEERS.md says what is compared and what came of
# it. WORK is the folder of setup.sh, and PROGRAMS has the two programs. It takes some seconds, and prints a table of the sets of files, what else was
# counted, and the first differences; the status is 1 where there is one. With --damage five answers are changed before they are compared, so that one sees
# them found. With --write the tables also take their place in docs/PEERS.md, where there is no difference. It needs root, for chroot.
# Usage: [JOBS=NUMBER] bench/peers/run.sh WORK PROGRAMS [--damage | --write]
set -eu
here=$(CDPATH= cd -- "$(dirname -- "$0")" && pwd)
work=${1:?usage: run.sh WORK PROGRAMS [--damage | --write]}
programs=${2:?usage: run.sh WORK PROGRAMS [--damage | --write]}
page=$here/../../docs/PEERS.md
root=$(CDPATH= cd -- "$work" && pwd)/root
place=$(mktemp -d "$root/peers.XXXXXX")
trap 'rm -rf "$place"' EXIT
inside=/${place##*/}
mkdir -p "$place/sets/duckdb"
cp "$programs/pqinspect" "$programs/pqscan" "$here"/*.py "$here/duck.sql" "$place"
chroot "$root" python3 "$inside/gen.py" "$inside/sets/pyarrow"
chroot "$root" sh -c 'cd "$1/sets/duckdb" && duckdb <"$1/duck.sql"' duck "$inside"
status=0
{
    chroot "$root" python3 -c 'import pyarrow; print("pyarrow %s," % pyarrow.__version__)'
    printf 'DuckDB %s\n\n' "$(chroot "$root" duckdb --version | cut -d ' ' -f 1)"
    chroot "$root" env JOBS="${JOBS:-2}" python3 "$inside/compare.py" "$inside" "$inside/sets" ${3:+"$3"}
} >"$place/told" || status=$?
cat "$place/told"
if [ "${3:-}" = --write ] && [ "$status" = 0 ]; then
    awk -v told="$place/told" '
        /^<!-- end / {while ((getline line <told) > 0) print line; inside = 0}
        !inside {print}
        /^<!-- begin / {inside = 1}' "$page" >"$place/page"
    cat "$place/page" >"$page"
fi
exit "$status"
