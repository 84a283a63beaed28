"""What the inputs of the benchmarks are written with: numbers of several bytes, packed numbers and their runs, deltas, and structs."""
import struct


def varint(n):
    out = bytearray()
    while n >= 128:
        out.append(n & 127 | 128)
        n >>= 7
    out.append(n)
    return bytes(out)


def zigzag(n):
    return varint(n << 1 if n >= 0 else (-n << 1) - 1)


def packed(values, width):
    number = 0
    for i, value in enumerate(values):
        number |= value << (i * width)
    return number.to_bytes((len(values) * width + 7) // 8, "little")


def packed_runs(values, width):
    """Runs of 63 groups, the longest whose header is one byte."""
    out = bytearray()
    for at in range(0, len(values), 504):
        run = values[at : at + 504]
        out += varint((len(run) + 7) // 8 << 1 | 1) + packed(run, width)
    return bytes(out)


def delta(values):
    """Blocks of 128 steps in four parts."""
    steps = [b - a for a, b in zip(values, values[1:])]
    out = bytearray(varint(128) + varint(4) + varint(len(values)) + zigzag(values[0]))
    for at in range(0, len(steps), 128):
        block = steps[at : at + 128]
        least = min(block)
        over = [step - least for step in block] + [0] * (128 - len(block))
        parts = [over[i : i + 32] for i in range(0, 128, 32)]
        widths = [max(part).bit_length() for part in parts]
        out += zigzag(least) + bytes(widths)
        for part, width in zip(parts, widths):
            out += packed(part, width)
    return bytes(out)


class Struct:
    """A struct of the compact protocol, its fields in rising order."""

    def __init__(self):
        self.bytes, self.last = bytearray(), 0

    def head(self, field, kind):
        self.bytes.append(field - self.last << 4 | kind)
        self.last = field

    def truth(self, field, value):
        self.head(field, 1 if value else 2)
        return self

    def i32(self, field, n):
        self.head(field, 5)
        self.bytes += zigzag(n)
        return self

    def i64(self, field, n):
        self.head(field, 6)
        self.bytes += zigzag(n)
        return self

    def binary(self, field, text):
        self.head(field, 8)
        self.bytes += varint(len(text)) + text
        return self

    def struct(self, field, inner):
        self.head(field, 12)
        self.bytes += inner.end()
        return self

    def list(self, field, kind, items):
        self.head(field, 9)
        count = len(items)
        self.bytes += bytes([count << 4 | kind]) if count < 15 else bytes([240 | kind]) + varint(count)
        self.bytes += b"".join(items)
        return self

    def end(self):
        return bytes(self.bytes) + b"\0"


def word(n):
    return struct.pack("<i", n)
