#!/bin/sh
# Tries the edits that stand here, as the gate tries those of crates/*/must-fail: the prover has to refuse each. They are of the crates whose edits take longest, and a gate leaves them out:
# run this by hand before a change of one of these crates is landed, where the crate is proved. Usage: bench/edits/run.sh [CRATE..]
set -eu
here=$(cd "$(dirname "$0")" && pwd)
top=$(cd "$here/../.." && pwd)
[ $# -gt 0 ] || set -- $(cd "$here" && ls -d */ | tr -d /)
work=$(mktemp -d)
trap 'rm -rf "$work"' EXIT
cp -r "$top/crates" "$top/crates.txt" "$top/HANDLES" "$work/"
for crate in "$@"; do
    rm -rf "$work/crates/$crate/must-fail"
    cp -r "$here/$crate" "$work/crates/$crate/must-fail"
done
cd "$work" && rt must-fail "$@"
