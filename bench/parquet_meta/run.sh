#!/bin/sh
# Times the reading of large footers beside plain Rust, and compares the memory that both take. Builds both programs in a scratch
# folder outside the repository, which takes some minutes. Usage: bench/parquet_meta/run.sh [FOLDER]
. "$(dirname "$0")/../scratch.sh"
mkdir -p "$work/inputs"
python3 "$here/inputs.py" "$work/inputs" > "$work/list"
build footer_times 'parquet_base columns_core parquet_thrift parquet_meta' "$(head -n 1 "$work/list" | cut -d ' ' -f 4)"
python3 - "$ours" "$twin" "$work/list" <<'PY'
import os, sys

ours, twin, inputs = sys.argv[1:]


def run(program, path):
    """What the program prints, and its largest resident set in KiB."""
    read, write = os.pipe()
    child = os.fork()
    if child == 0:
        os.dup2(write, 1)
        os.execv(program, [program, path])
    os.close(write)
    text = os.read(read, 4096).decode()
    os.close(read)
    status, usage = os.wait4(child, 0)[1:]
    assert status == 0, (program, path, status)
    return text.split(), usage.ru_maxrss


print(f"{'footer':12} {'bytes':>10} {'ms':>9} {'Rust ms':>9} {'ratio':>6} {'KiB':>9} {'Rust KiB':>9}")
for line in open(inputs):
    name, columns, groups, path = line.split()
    best, most, said = {}, {}, {}
    for _ in range(5):
        for program in (ours, twin):
            (took, *said[program]), resident = run(program, path)
            best[program] = min(best.get(program, int(took)), int(took))
            most[program] = max(most.get(program, 0), resident)
    assert said[ours] == said[twin] == [str(int(columns) * int(groups)), str(100 * int(groups))], said
    print(f"{name:12} {os.path.getsize(path):10} {best[ours] / 1e6:9.2f} {best[twin] / 1e6:9.2f} "
          f"{best[ours] / best[twin]:6.2f} {most[ours]:9} {most[twin]:9}")
PY
