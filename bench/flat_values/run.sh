#!/bin/sh
# Times the decoders of whole flat pages of numbers beside plain Rust. Builds both programs in a scratch folder outside the
# repository, which takes some minutes. Usage: bench/flat_values/run.sh [FOLDER]
. "$(dirname "$0")/../scratch.sh"
mkdir -p "$work/inputs"
python3 "$here/inputs.py" "$work/inputs" > "$work/list"
build flat_times 'parquet_base columns_core parquet_thrift parquet_encoding parquet_meta parquet_page page_decoding flat_values' plain 0 /dev/null /dev/null
python3 - "$ours" "$twin" "$work/list" <<'PY'
import math, subprocess, sys

ours, twin, inputs = sys.argv[1:]
ratios = []
print(f"{'input':32} {'ns':>8} {'Rust ns':>8} {'ratio':>6}")
for line in open(inputs):
    kind, count, path, dictionary, name = line.split()
    best, sums = {ours: math.inf, twin: math.inf}, set()
    for _ in range(7):
        for program in (ours, twin):
            each, total = subprocess.run([program, kind, count, path, dictionary], capture_output=True, text=True, check=True).stdout.split()
            best[program] = min(best[program], int(each))
            sums.add(total)
    assert len(sums) == 1, name
    ratios.append(max(best[ours], 1) / max(best[twin], 1))
    print(f"{name:32} {best[ours] / 1000:8.3f} {best[twin] / 1000:8.3f} {ratios[-1]:6.2f}")
print(f"geometric mean {math.exp(sum(map(math.log, ratios)) / len(ratios)):.2f}, worst {max(ratios):.2f}")
PY
