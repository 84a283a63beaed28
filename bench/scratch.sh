# What the benchmarks share. A run.sh sources it, and has then $here, its own folder, and $work, a scratch folder outside the
# repository: its first argument, or a new one.
set -eu
here=$(cd "$(dirname "$0")" && pwd)
top=$(cd "$here/../.." && pwd)
work=${1:-$(mktemp -d)}
mkdir -p "$work/repo/crates"
cp "$top/HANDLES" "$work/repo/"

# build PROGRAM CRATES WORD..: builds reader.rt.txt over copies of the crates, given lowest first, with the proof of its main in
# ghosts.antt.txt if there is one, runs it once on the words, and builds twin.rs. Sets $ours and $twin, the two programs.
build() {
    program=$1
    crates=$2
    shift 2
    : > "$work/repo/crates.txt"
    for crate in $crates; do
        rm -rf "$work/repo/crates/$crate"
        cp -r "$top/crates/$crate" "$work/repo/crates/"
        grep "^$crate:" "$top/crates.txt" >> "$work/repo/crates.txt"
    done
    echo "$program: $crates" >> "$work/repo/crates.txt"
    mkdir -p "$work/repo/crates/$program/src"
    cp "$here/reader.rt.txt" "$work/repo/crates/$program/src/main.rt"
    if [ -f "$here/ghosts.antt.txt" ]; then
        mkdir -p "$work/repo/crates/$program/proofs/main"
        cp "$here/ghosts.antt.txt" "$work/repo/crates/$program/proofs/main/Invariants.antt"
    fi
    (cd "$work/repo/crates/$program" && rt run -- "$@" >/dev/null)
    ours=$work/repo/crates/$program/out/$program
    twin=$work/twin
    rustc --edition 2021 -O -C target-cpu=x86-64-v2 -C codegen-units=1 -C panic=abort "$here/twin.rs" -o "$twin"
}
