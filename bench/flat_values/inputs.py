"""Writes the inputs of the benchmark of the flat decoders into a folder, and their list: KIND COUNT FILE DICTIONARY NAME."""
import os
import random
import sys

sys.dont_write_bytecode = True
sys.path.insert(0, os.path.join(os.path.dirname(os.path.abspath(__file__)), ".."))
from formats import delta, packed_runs

folder = sys.argv[1]
COUNT = 100_000
ENTRIES = 1000


def little(values, size):
    return b"".join(value.to_bytes(size, "little", signed=True) for value in values)


def file(name, data):
    with open(f"{folder}/{name}", "wb") as out:
        out.write(data)
    return f"{folder}/{name}"


def write(name, kind, data):
    print(kind, COUNT, file(kind, data), dictionary, name)


draw = random.Random(7)
dictionary = file("dictionary", little([draw.randrange(-(2**31), 2**31) for _ in range(ENTRIES)], 4))
write("int64_plain_required", "plain", draw.randbytes(8 * COUNT))
levels = [draw.getrandbits(1) for _ in range(COUNT)]
runs = packed_runs(levels, 1)
write("int32_plain_optional_half_null", "optional", len(runs).to_bytes(4, "little") + runs + draw.randbytes(4 * sum(levels)))
write("int32_keys_of_10_bits_required", "keys", bytes([10]) + packed_runs([draw.randrange(ENTRIES) for _ in range(COUNT)], 10))
walk = [0]
while len(walk) < COUNT:
    walk.append(walk[-1] + draw.randrange(-(2**19), 2**19))
write("int64_delta_required", "delta", delta(walk))
