# What the scripts of this folder share that time a built program: each sources it, and has then $here, $top, $work (the folder that is named, or bench/data) and
# $ours (the program that is named, or the one that ./prove builds); the plain Rust scan and what times a run are built there.
set -eu
here=$(cd "$(dirname "$0")" && pwd)
top=$(cd "$here/../.." && pwd)
work=${1:-$top/bench/data}
ours=${PQSCAN:-$top/crates/pqscan/out/pqscan}
mkdir -p "$work"

# compile SOURCE PROGRAM: builds a plain Rust program.
compile() {
    rustc --edition 2021 -O -C target-cpu=x86-64-v2 -C codegen-units=1 -C panic=abort "$1" -o "$2"
}
compile "$here/twin.rs" "$work/twin"
${CC:-cc} -O1 "$here/timed.c" -o "$work/timed"

# write NAME ROWS KIND: an input, where there is none yet or an older one.
write() {
    [ "$work/$1.parquet" -nt "$here/inputs.py" ] || python3 "$here/inputs.py" "$work/$1.parquet" "$2" "$3"
}

# wants_program: ends where the program is not built.
wants_program() {
    [ -x "$ours" ] || {
        echo "$(basename "$0"): $ours is not built" >&2
        exit 1
    }
}
