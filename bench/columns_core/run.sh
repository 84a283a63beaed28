#!/bin/sh
# Times the bulk calls of bitmaps and the test of texts beside plain Rust. Builds both programs in a scratch folder outside the
# repository, which takes some minutes. Usage: bench/columns_core/run.sh [FOLDER]
. "$(dirname "$0")/../scratch.sh"
python3 - "$work" <<'PY'
import random, sys
draw = random.Random(3)
open(sys.argv[1] + "/bits", "wb").write(draw.randbytes(1 << 20))
open(sys.argv[1] + "/ascii", "wb").write(bytes(draw.randrange(97, 123) for _ in range(1 << 20)))
open(sys.argv[1] + "/letters", "wb").write("".join(draw.choice(("äöüß", "abcdefgh", "grün123")) for _ in range(1 << 17)).encode())
PY
build mask_times 'parquet_base columns_core' unset "$work/bits"
printf '%-24s %8s %8s %6s\n' call ns 'Rust ns' ratio
for pair in aligned:bits shifted:bits constant:bits unset:bits texts:ascii texts:letters; do
    kind=${pair%:*}
    file=$work/${pair#*:}
    for turn in 1 2 3 4 5; do
        "$ours" "$kind" "$file" | sed 's/^/ours /'
        "$twin" "$kind" "$file" | sed 's/^/twin /'
    done | awk -v name="$pair" '{ if (!($1 in best) || $2 < best[$1]) best[$1] = $2; sum[$1] = $3 }
        END { if (sum["ours"] != sum["twin"]) { print name " differs"; exit 1 }
              printf "%-24s %8.3f %8.3f %6.2f\n", name, best["ours"] / 1000, best["twin"] / 1000, best["ours"] / (best["twin"] > 0 ? best["twin"] : 1) }'
done
