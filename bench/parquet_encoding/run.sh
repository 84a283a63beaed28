#!/bin/sh
# Times the six decoders' calls for runs and slices beside plain Rust. Builds both programs in a scratch folder outside
# the repository, which takes some minutes. Usage: bench/parquet_encoding/run.sh [FOLDER]
. "$(dirname "$0")/../scratch.sh"
build decoder_times 'parquet_base parquet_encoding' hybrid 1 0 /dev/null
mkdir -p "$work/inputs"
python3 "$here/inputs.py" "$work/inputs" > "$work/list"
python3 - "$ours" "$twin" "$work/list" <<'PY'
import math, subprocess, sys

ours, twin, inputs = sys.argv[1:]
ratios = {}
print(f"{'input':32} {'ns':>8} {'Rust ns':>8} {'ratio':>6}")
for line in open(inputs):
    kind, width, count, path, name = line.split()
    best = {}
    for _ in range(5):
        for program in (ours, twin):
            each, total = subprocess.run([program, kind, width, count, path], capture_output=True, text=True, check=True).stdout.split()
            best[program] = min(best.get(program, (math.inf,)), (int(each),))
            best[program + " sum"] = total
    assert best[ours + " sum"] == best[twin + " sum"], name
    ratio = max(best[ours][0], 1) / max(best[twin][0], 1)
    ratios.setdefault(kind, []).append(ratio)
    print(f"{name:32} {best[ours][0] / 1000:8.3f} {best[twin][0] / 1000:8.3f} {ratio:6.2f}")
every = [ratio for part in ratios.values() for ratio in part]
for kind, part in [*ratios.items(), ("all", every)]:
    print(f"{kind}: geometric mean {math.exp(sum(map(math.log, part)) / len(part)):.2f}, worst {max(part):.2f}")
PY
