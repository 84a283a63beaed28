#!/bin/sh
# Makes WORK/root, a Debian of its own with pyarrow and DuckDB, in which run.sh works (1.3 GB, some minutes). What stands already is left. It needs root, for
# chroot, and debootstrap, which it installs where it is not there; the mirror is the first one of the machine's own sources of packages. Nothing here is
# needed to build, prove or run anything else. Usage: bench/peers/setup.sh WORK
set -eu
work=${1:?usage: setup.sh WORK}
mkdir -p "$work"
root=$(CDPATH= cd -- "$work" && pwd)/root
if [ ! -x "$root/usr/bin/apt-get" ]; then
    mirror=$(cat /etc/apt/sources.list /etc/apt/sources.list.d/*.sources /etc/apt/sources.list.d/*.list 2>/dev/null |
        grep -v '^#' | grep -o 'https\?://[^ ]*/debian/\?\( \|$\)' | head -n 1 | tr -d ' ')
    [ -n "$mirror" ] || { echo "setup.sh: no mirror of Debian is among the sources of packages" >&2; exit 1; }
    command -v debootstrap >/dev/null || apt-get install -y --no-install-recommends debootstrap
    debootstrap --variant=minbase forky "$root" "$mirror" /usr/share/debootstrap/scripts/sid
fi
# A mirror may be a picture of some day; signatures are looked at all the same.
echo 'Acquire::Check-Valid-Until "false";' >"$root/etc/apt/apt.conf.d/99valid"
if ! chroot "$root" sh -c 'python3 -c "import pyarrow.parquet" && command -v duckdb' >/dev/null 2>&1; then
    chroot "$root" sh -c 'apt-get update && apt-get install -y --no-install-recommends python3-pyarrow duckdb'
fi
[ -e "$root/dev/null" ] || mknod -m 666 "$root/dev/null" c 1 3
chroot "$root" python3 -c 'import pyarrow; print("pyarrow", pyarrow.__version__)'
echo "DuckDB $(chroot "$root" duckdb --version)"
