"""Writes the inputs of the benchmark of the decoders into a folder, and their list: KIND WIDTH COUNT FILE NAME."""
import os
import random
import sys

sys.dont_write_bytecode = True
sys.path.insert(0, os.path.join(os.path.dirname(os.path.abspath(__file__)), ".."))
from formats import packed, varint, zigzag

folder = sys.argv[1]
COUNT = 65536


def hybrid(width, run, draw):
    """Runs of one value where they are long, else packed groups of eight: one group where a run has eight values."""
    out = bytearray()
    if run == 1:
        for _ in range(COUNT // 512):
            out += varint(64 << 1 | 1) + packed([draw.getrandbits(width) for _ in range(512)], width)
        return bytes(out)
    at = 0
    while at < COUNT:
        out += varint(run << 1) + draw.getrandbits(width).to_bytes((width + 7) // 8, "little")
        at += run
        if at < COUNT:
            groups = 1 if run == 8 else 8
            out += varint(groups << 1 | 1) + packed([draw.getrandbits(width) for _ in range(8 * groups)], width)
            at += 8 * groups
    return bytes(out)


def delta(width, draw):
    out = varint(128) + varint(4) + varint(COUNT) + zigzag(7)
    for _ in range((COUNT - 1 + 127) // 128):
        out += zigzag(-3) + bytes([width] * 4)
        for _ in range(4):
            out += packed([draw.getrandbits(width) for _ in range(32)], width)
    return out


def write(name, kind, width, data):
    with open(f"{folder}/{name}", "wb") as file:
        file.write(data)
    print(kind, width, COUNT, f"{folder}/{name}", name)


draw = random.Random(7)
for width in (1, 3, 7, 10, 17, 32):
    for run in (1, 8, 1000):
        write(f"hybrid_width_{width}_runs_of_{run}", "hybrid", width, hybrid(width, run, draw))
for width in (0, 5, 20, 61):
    write(f"delta_width_{width}", "delta", width, delta(width, draw) if width else delta(0, draw))
write("plain_64_bits", "plain", 64, draw.randbytes(8 * COUNT))
