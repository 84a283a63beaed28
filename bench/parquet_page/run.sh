#!/bin/sh
# Times the walk over a chunk of 100,000 small pages beside plain Rust. Builds both programs in a scratch folder outside the
# repository, which takes some minutes. Usage: bench/parquet_page/run.sh [FOLDER]
. "$(dirname "$0")/../scratch.sh"
# A header of 17 bytes and a body of one number, a hundred thousand times.
python3 -c 'import sys; sys.stdout.buffer.write(bytes.fromhex("1500150815082c1502150015061506000007000000") * 100000)' > "$work/pages"
build page_times 'parquet_base columns_core parquet_thrift parquet_encoding parquet_meta parquet_page' 100000 "$work/pages"
for program in "$ours" "$twin"; do
    for turn in 1 2 3 4 5; do "$program" 100000 "$work/pages"; done | sort -n | head -n 1 | sed "s|^|$(basename "$program") (picoseconds a page, bytes of bodies): |"
done
