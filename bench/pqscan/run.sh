#!/bin/sh
# Times whole scans beside a plain Rust scan, and compares the memory that both take: of one column of numbers of 32 bits, of times, of texts or of keys of texts, all rows,
# a few of them, in chunks, and counted alone, and of the columns of the sample file, which have other types and pages of other lengths. Both programs must write the same text for each request, and for each of a table of
# requests on small files. What is counted alone is compared with a copy of the file, too. Each time is the best of so many runs. Proves and builds pqscan first where that is not done yet, unless a
# program is named. Inputs are kept in the folder, bench/data where none is named.
# Usage: [RUNS=NUMBER] [PQSCAN=PROGRAM] bench/pqscan/run.sh [FOLDER]
. "$(dirname "$0")/shared.sh"
runs=${RUNS:-21}

for kind in numbers indexed times short named joined half_null; do
    write $kind 2000000 $kind
done
write long 500000 long
for kind in numbers indexed times short long named joined half_null odd odd_named odd_joined; do
    write few_$kind 45000 $kind
done
compile "$here/../parquet_sample/twin.rs" "$work/sample"
for rows in 45000 2000000; do
    sample=$work/sample_$rows.parquet
    [ "$sample" -nt "$here/../parquet_sample/twin.rs" ] || { "$work/sample" $rows 7 > "$sample.new" && mv "$sample.new" "$sample"; }
done
[ -n "${PQSCAN:-}" ] || "$top/prove"
python3 - "$ours" "$work" "$runs" <<'PY'
import hashlib, subprocess, sys

ours, work, runs = sys.argv[1], sys.argv[2], int(sys.argv[3])
twin, timed = f"{work}/twin", f"{work}/timed"
# What is timed: of which file, of which columns where not of all, and the words behind them.
requests = [
    ("numbers", "numbers", []),
    ("numbers, counted", "numbers", ["--summary"]),
    ("numbers, one group", "numbers", ["a>=1000500", "a<=1000505"]),
    ("numbers, one page", "indexed", ["a>=1000500", "a<=1000505"]),
    ("numbers, 1 row in 1000", "indexed", ["a>=1000000", "a<=1001999"]),
    ("numbers, first 10", "numbers", ["--limit", "10"]),
    ("numbers in chunks of 1000", "numbers", ["--chunk", "1000"]),
    ("times", "times", []),
    ("times, counted", "times", ["--summary"]),
    ("texts of 8", "short", []),
    ("texts of 8, counted", "short", ["--summary"]),
    ("texts of 8, first 10", "short", ["--limit", "10"]),
    ("texts of 8 in chunks of 1000", "short", ["--chunk", "1000"]),
    ("texts of 100", "long", []),
    ("texts of 100, counted", "long", ["--summary"]),
    ("named texts", "named", []),
    ("named texts, counted", "named", ["--summary"]),
    ("named texts as keys", "named a:Dictionary(Int32,Utf8)", []),
    ("named texts as keys, counted", "named a:Dictionary(Int32,Utf8)", ["--summary"]),
    ("joined texts of 8", "joined", []),
    ("joined texts of 8, counted", "joined", ["--summary"]),
    ("half null texts of 8", "half_null", []),
    ("half null texts, counted", "half_null", ["--summary"]),
    ("sample", "sample_2000000", []),
    ("sample, counted", "sample_2000000", ["--summary"]),
    ("sample, one page", "sample_2000000", ["id>=1000500", "id<=1000505"]),
    ("sample in chunks of 1000", "sample_2000000", ["--chunk", "1000"]),
    ("sample, its numbers with nulls", "sample_2000000 qty:Int32", []),
    ("sample, its long numbers", "sample_2000000 id:Int64", []),
    ("sample, its names as bytes", "sample_2000000 name:Binary", []),
]
# What is compared alone: each of these on a small file of each kind.
kinds = [f"few_{kind}" for kind in ("numbers", "indexed", "times", "short", "long", "named", "joined", "half_null", "odd", "odd_named", "odd_joined")]
kinds += [f"few_{kind} a:Dictionary(Int32,Utf8)" for kind in ("named", "odd_named")]
kinds += ["sample_45000", "sample_45000 name:Utf8 qty:Int32 qty<=50", "sample_45000 name:Binary qty:Int32"]
small = ["", "--summary", "--limit 0", "--limit 10", "--chunk 7", "--chunk 1000", "--limit 20007 --chunk 999", "--limit 44999 --chunk 30000 --summary"]


def command(program, file, words):
    file, *items = file.split()
    if file.startswith("sample"):
        items = items or ["id:Int64", "qty:Int32", "name:Utf8"]
    else:
        items = items or ["a:" + ("Int32" if file.endswith(("numbers", "indexed")) else "Timestamp(ms)" if file.endswith("times") else "Utf8")]
    return [program, f"{work}/{file}.parquet", *items, *words]


def digest(program, file, words):
    said = subprocess.run(command(program, file, words), capture_output=True, check=True)
    return hashlib.md5(said.stdout).hexdigest()


def compare(file, words):
    assert digest(ours, file, words) == digest(twin, file, words), (file, words)


def run(*command):
    """The processor milliseconds of one run, and the most MiB that it had."""
    said = subprocess.run([timed, *command], capture_output=True, check=True)
    time, most = map(int, said.stdout.split())
    return time / 1e3, most / 1024


for kind in kinds:
    for line in small:
        compare(kind, line.split())
print(f"{'request':30} {'ms':>8} {'Rust ms':>8} {'ratio':>6} {'MiB':>7} {'Rust MiB':>8}", flush=True)
for name, file, words in requests:
    compare(file, words)
    each = [(*run(*command(ours, file, words)), *run(*command(twin, file, words))) for _ in range(runs)]
    mine, its = min(a for a, _, _, _ in each), min(b for _, _, b, _ in each)
    most = [max(it[i] for it in each) for i in (1, 3)]
    print(f"{name:30} {mine:8.2f} {its:8.2f} {mine / max(its, 1e-6):6.2f} {most[0]:7.1f} {most[1]:8.1f}", flush=True)
# What counting takes beside reading the file and keeping a copy of it.
print(f"\n{'counted':30} {'ms':>8} {'copy ms':>8} {'ratio':>6}", flush=True)
for name, file, words in requests:
    if words == ["--summary"]:
        each = [(run(*command(ours, file, words))[0], run(twin, "--copy", f"{work}/{file.split()[0]}.parquet")[0]) for _ in range(runs)]
        mine, its = (min(times) for times in zip(*each))
        print(f"{name:30} {mine:8.2f} {its:8.2f} {mine / max(its, 1e-6):6.2f}", flush=True)
PY
