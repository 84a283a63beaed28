"""How time, memory and the bytes that are read grow with a file, beside the plain Rust scan. Usage: growth.py PQSCAN TWIN TIMED FOLDER RUNS (called by growth.sh)"""
import os
import struct
import subprocess
import sys

ours, twin, timed, work, runs = *sys.argv[1:5], int(sys.argv[5])


class Compact:
    """Values of the compact protocol: a struct as a dict of its fields, a list as a list, numbers and bytes."""

    def __init__(self, data):
        self.data, self.at = data, 0

    def byte(self):
        self.at += 1
        return self.data[self.at - 1]

    def varint(self):
        number = shift = 0
        while True:
            byte = self.byte()
            number |= (byte & 127) << shift
            if byte < 128:
                return number
            shift += 7

    def value(self, kind):
        if kind in (1, 2):
            return kind == 1
        if kind == 3:
            return self.byte()
        if kind in (4, 5, 6):
            number = self.varint()
            return number >> 1 ^ -(number & 1)
        if kind == 8:
            count = self.varint()
            self.at += count
            return self.data[self.at - count : self.at]
        if kind == 9:
            head = self.byte()
            count = head >> 4 if head >> 4 < 15 else self.varint()
            if head & 15 in (1, 2):
                return [self.byte() == 1 for _ in range(count)]
            return [self.value(head & 15) for _ in range(count)]
        assert kind == 12, kind
        fields, field = {}, 0
        while head := self.byte():
            field = field + (head >> 4) if head >> 4 else self.value(4)
            fields[field] = self.value(head & 15)
        return fields


def bound(path, low, high):
    """The most bytes that a scan of the one column takes by its contract, where rows are asked for from `low` to `high`, or all."""
    with open(path, "rb") as file:
        data = file.read()
    (length,) = struct.unpack("<I", data[-8:-4])
    most = length + 8
    groups = Compact(data[-8 - length : -8]).value(12)[4]
    by_pages = low is not None and all(5 in group[1][0] for group in groups)
    for group in groups:
        chunk = group[1][0]
        meta = chunk[3]
        if low is not None:
            least, greatest = (struct.unpack("<i", meta[12][i])[0] for i in (6, 5))
            if greatest < low or high < least:
                continue
        if not by_pages:
            most += meta[7]
            continue
        pages = Compact(data[chunk[4] : chunk[4] + chunk[5]]).value(12)[1]
        index = Compact(data[chunk[6] : chunk[6] + chunk[7]]).value(12)
        ends = [[struct.unpack("<i", end)[0] for end in index[i]] for i in (2, 3)]
        kept = [page for page, least, greatest in zip(pages, *ends) if low <= greatest and least <= high]
        # (what stands before the first page is read, too)
        most += chunk[5] + chunk[7] + sum(page[2] for page in kept) + pages[0][1] - min(meta[9], meta.get(11, meta[9]))
    return most


def taken(path, words):
    """The bytes that the program reads of the file."""
    trace = f"{work}/trace"
    subprocess.run(["strace", "-f", "-y", "-e", "trace=read,pread64,readv,preadv", "-o", trace, ours, path, *words], stdout=subprocess.DEVNULL, check=True)
    with open(trace) as lines:
        return sum(int(line.rsplit("=", 1)[1].split()[0]) for line in lines if f"<{os.path.realpath(path)}>" in line)


def best(program, path, words):
    """The processor milliseconds of the best run, and the most MiB."""
    said = [subprocess.run([timed, program, path, *words], capture_output=True, check=True).stdout for _ in range(runs)]
    each = [tuple(map(int, it.split())) for it in said]
    return min(it[0] for it in each) / 1e3, max(it[1] for it in each) / 1024


def same(path, words):
    first, second = (subprocess.run([program, path, *words], capture_output=True, check=True).stdout for program in (ours, twin))
    assert first == second, (path, words)


requests = [
    ("200,000 rows", "numbers_200000", ["a:Int32"], None),
    ("2,000,000 rows", "numbers_2000000", ["a:Int32"], None),
    ("20,000,000 rows", "numbers_20000000", ["a:Int32"], None),
    ("one group of 1,000", "numbers_20000000", ["a:Int32", "a>=1000500", "a<=1000505"], (1000500, 1000505)),
    ("one page of 10,000", "paged_10000000", ["a:Int32", "a>=1000500", "a<=1000505"], (1000500, 1000505)),
    ("1 row in 1,000 of 2,000,000", "indexed_2000000", ["a:Int32", "a>=1000000", "a<=1001999"], (1000000, 1001999)),
    ("one group of 1,000 with 1,000 columns each", "wide_1000", ["c500:Int32", "c500>=500", "c500<=500"], False),
    ("the same, without a row", "wide_1000", ["c500:Int32", "c500>=5000"], False),
]
print("| request | file | ms | Rust ms | MiB | Rust MiB | read | bound |")
print("|---|---|---|---|---|---|---|---|")
for name, file, words, rows in requests:
    path = f"{work}/{file}.parquet"
    same(path, words)
    mine, its = best(ours, path, words), best(twin, path, words)
    most = "" if rows is False else f"{bound(path, *(rows or (None, None))):,}"
    print(f"| {name} | {os.path.getsize(path):,} | {mine[0]:,.2f} | {its[0]:,.2f} | {mine[1]:.1f} | {its[1]:.1f} | {taken(path, words):,} | {most} |", flush=True)
