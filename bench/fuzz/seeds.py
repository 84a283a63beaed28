"""Writes small files of every kind of column that is read, each NAME.parquet with the words of a request in NAME.words and the place and length of each
page, header and body, in NAME.pages, a page a line. Usage: seeds.py FOLDER
Each file has two row groups of twelve rows in pages of five, four and three, with statistics and both page indexes, and a column `z` whose pages end at
other rows, so that a request prunes by groups and by pages."""
import os
import struct
import sys

sys.dont_write_bytecode = True
sys.path.insert(0, os.path.join(os.path.dirname(os.path.abspath(__file__)), ".."))
from formats import Struct, delta, packed, varint, word, zigzag

GROUPS, ROWS = 2, 12
BOOLEAN, INT32, INT64, INT96, BYTE_ARRAY, FIXED = 0, 1, 2, 3, 6, 7
PLAIN, DELTA_PACKED, DELTA_LENGTH, DICTIONARY = 0, 5, 6, 8
SIZES = {BOOLEAN: None, INT32: 4, INT64: 8, INT96: 12}


def number(size):
    return lambda n: n.to_bytes(size, "little", signed=True)


def int96(day):
    return struct.pack("<QI", 3_600_000_000_000 * (day % 24), 2_440_588 + day)


class Column:
    """A column that is drawn from the numbers of its rows."""

    def __init__(self, name, physical, value, encoding=PLAIN, optional=False, second=False, length=None, logical=None, borders=(5, 4, 3)):
        self.name, self.physical, self.value, self.encoding = name, physical, value, encoding
        self.optional, self.second, self.length, self.logical, self.borders = optional, second, length, logical, borders

    def stored(self, rows):
        return [None if self.optional and row % 4 == 3 else self.value(row) for row in rows]

    def plain(self, values):
        if self.physical == BOOLEAN:
            return packed([value[0] & 1 for value in values], 1)
        return b"".join((word(len(value)) if self.physical == BYTE_ARRAY else b"") + value for value in values)

    def entries(self):
        return sorted({self.value(row) for row in range(GROUPS * ROWS)})

    def body(self, values):
        if self.encoding == DICTIONARY:
            entries = self.entries()
            width = max(1, (len(entries) - 1).bit_length())
            keys = [entries.index(value) for value in values]
            return bytes([width]) + varint((len(keys) + 7) // 8 << 1 | 1) + packed(keys + [0] * (-len(keys) % 8), width)
        if self.encoding == DELTA_PACKED:
            return delta([int.from_bytes(value, "little", signed=True) for value in values])
        if self.encoding == DELTA_LENGTH:
            return delta([len(value) for value in values]) + b"".join(values)
        return self.plain(values)

    def page(self, rows):
        stored = self.stored(rows)
        levels, present = b"", [value for value in stored if value is not None]
        if self.optional:
            bits = [0 if value is None else 1 for value in stored]
            levels = varint((len(bits) + 7) // 8 << 1 | 1) + packed(bits + [0] * (-len(bits) % 8), 1)
        body = self.body(present) if present else b""
        if self.second:
            nulls = len(stored) - len(present)
            header = Struct().i32(1, len(stored)).i32(2, nulls).i32(3, len(stored)).i32(4, self.encoding).i32(5, len(levels)).i32(6, 0)
            body = levels + body
            return Struct().i32(1, 3).i32(2, len(body)).i32(3, len(body)).struct(8, header).end() + body
        body = (word(len(levels)) + levels if self.optional else b"") + body
        header = Struct().i32(1, len(stored)).i32(2, self.encoding).i32(3, 3).i32(4, 3)
        return Struct().i32(1, 0).i32(2, len(body)).i32(3, len(body)).struct(5, header).end() + body

    def dictionary(self):
        entries = self.entries()
        body = self.plain(entries)
        header = Struct().i32(1, len(entries)).i32(2, PLAIN)
        return Struct().i32(1, 2).i32(2, len(body)).i32(3, len(body)).struct(7, header).end() + body

    def order(self, value):
        return value if self.physical in (BYTE_ARRAY, FIXED, INT96) else int.from_bytes(value, "little", signed=True)

    def ends(self, rows):
        present = sorted((value for value in self.stored(rows) if value is not None), key=self.order)
        return (present[0], present[-1]) if present else (None, None)

    def nulls(self, rows):
        return sum(value is None for value in self.stored(rows))

    def leaf(self):
        leaf = Struct().i32(1, self.physical)
        if self.length:
            leaf.i32(2, self.length)
        leaf.i32(3, int(self.optional)).binary(4, self.name)
        if self.logical:
            unit = Struct().struct(self.logical, Struct())
            leaf.struct(10, Struct().struct(8, Struct().truth(1, True).struct(2, unit)))
        return leaf.end()


def pages_of(column, start):
    first = 0
    for size in column.borders:
        yield first, range(start + first, start + first + size)
        first += size


def indexes_of(column, start, locations):
    pages = [rows for _, rows in pages_of(column, start)]
    ends = [column.ends(rows) for rows in pages]
    side = lambda i: [varint(len(end[i] or b"")) + (end[i] or b"") for end in ends]
    told = Struct().list(1, 1, [b"\2" if end[0] is not None else b"\1" for end in ends]).list(2, 8, side(0)).list(3, 8, side(1)).i32(4, 0)
    told = told.list(5, 6, [zigzag(column.nulls(rows)) for rows in pages]).end()
    placed = [Struct().i64(1, at).i32(2, size).i64(3, first).end() for at, size, first in locations]
    return told, Struct().list(1, 12, placed).end()


def chunk_of(column, start, place, size, locations, behind):
    data = Struct().i32(1, column.physical).list(2, 5, [zigzag(column.encoding)]).list(3, 8, [varint(len(column.name)) + column.name])
    data.i32(4, 0).i64(5, ROWS).i64(6, size).i64(7, size).i64(9, locations[0][0])
    if column.encoding == DICTIONARY:
        data.i64(11, place)
    rows = range(start, start + ROWS)
    low, high = column.ends(rows)
    told = Struct().i64(3, column.nulls(rows))
    if low is not None:
        told.binary(5, high).binary(6, low)
    data.struct(12, told)
    (told_at, told_size), (placed_at, placed_size) = behind
    return Struct().i64(2, place).struct(3, data).i64(4, placed_at).i32(5, placed_size).i64(6, told_at).i32(7, told_size).end()


def write(path, columns):
    """Writes a file, and returns the place and length of each of its pages."""
    out, chunks, pages = bytearray(b"PAR1"), [], []
    for start in range(0, GROUPS * ROWS, ROWS):
        for column in columns:
            place, locations = len(out), []
            if column.encoding == DICTIONARY:
                out += column.dictionary()
                pages.append((place, len(out) - place))
            for first, rows in pages_of(column, start):
                page = column.page(rows)
                locations.append((len(out), len(page), first))
                out += page
            pages += [(at, size) for at, size, _ in locations]
            chunks.append((column, start, place, len(out) - place, locations))
    stored = []
    for column, start, place, size, locations in chunks:
        told, placed = indexes_of(column, start, locations)
        behind = (len(out), len(told)), (len(out) + len(told), len(placed))
        out += told + placed
        stored.append(chunk_of(column, start, place, size, locations, behind))
    count = len(columns)
    groups = []
    for at in range(0, len(stored), count):
        size = sum(chunk[3] for chunk in chunks[at : at + count])
        groups.append(Struct().list(1, 12, stored[at : at + count]).i64(2, size).i64(3, ROWS).end())
    schema = [Struct().binary(4, b"schema").i32(5, count).end()] + [column.leaf() for column in columns]
    footer = Struct().i32(1, 1).list(2, 12, schema).i64(3, GROUPS * ROWS).list(4, 12, groups).end()
    out += footer + struct.pack("<I", len(footer)) + b"PAR1"
    with open(path, "wb") as file:
        file.write(out)
    return pages


def text(row):
    return ["", "x", "zürich", "a" * 40, "kilo"][row % 5].encode() + str(row % 7).encode()


Z = Column(b"z", INT32, number(4), borders=(2, 7, 3))
LATE = ["z:Int32", "z>=15", "z<=21"]

SEEDS = {
    "int32": ([Column(b"a", INT32, number(4)), Z], ["a:Int32", "a>=3", "a<=6", "z:Int32"]),
    "int32_null": ([Column(b"a", INT32, number(4), optional=True), Z], ["a:UInt8", *LATE]),
    "int32_keys": ([Column(b"a", INT32, lambda n: number(4)(n % 5), DICTIONARY, optional=True, second=True), Z], ["a:Int32", "a>=4", *LATE]),
    "int32_delta": ([Column(b"a", INT32, number(4), DELTA_PACKED), Z], ["a:Date64", *LATE, "--chunk", "2"]),
    "int64_times": ([Column(b"a", INT64, number(8), optional=True, logical=1), Z], ["a:Timestamp(us)", *LATE]),
    "int64_delta": ([Column(b"a", INT64, number(8), DELTA_PACKED, second=True), Z], ["a:Decimal(20,2)", *LATE, "--limit", "3"]),
    "int64_keys": ([Column(b"a", INT64, lambda n: number(8)(n % 3), DICTIONARY), Z], ["a:Dictionary(Int8,Int64)", *LATE]),
    "int96": ([Column(b"a", INT96, int96), Z], ["a:Timestamp(ns)", *LATE]),
    "truths": ([Column(b"a", BOOLEAN, lambda n: bytes([n % 3 == 0]), optional=True), Z], ["a:Boolean", *LATE]),
    "texts": ([Column(b"a", BYTE_ARRAY, text), Z], ["a:Utf8", "a>=x", *LATE]),
    "texts_null": ([Column(b"a", BYTE_ARRAY, text, optional=True, second=True), Z], ["a:LargeUtf8", *LATE, "--limit", "4"]),
    "texts_keys": ([Column(b"a", BYTE_ARRAY, text, DICTIONARY, optional=True), Z], ["a:Utf8", *LATE]),
    "texts_dictionary": ([Column(b"a", BYTE_ARRAY, text, DICTIONARY, optional=True), Z], ["a:Dictionary(UInt8,Utf8)", *LATE, "--chunk", "3"]),
    "texts_joined": ([Column(b"a", BYTE_ARRAY, text, DELTA_LENGTH), Z], ["a:Binary", "a<=0x7a", *LATE]),
    "fixed": ([Column(b"a", FIXED, lambda n: bytes([n, 0, 255]), length=3), Z], ["a:FixedSizeBinary(3)", "a>=0x0600ff", *LATE]),
    "fixed_keys": ([Column(b"a", FIXED, lambda n: bytes([n % 4, 7]), DICTIONARY, optional=True, length=2), Z], ["a:FixedSizeBinary(2)", *LATE]),
    "decimals": ([Column(b"a", FIXED, lambda n: (n - 9).to_bytes(5, "big", signed=True), length=5), Z], ["a:Decimal(10,1)", "a>=-3", *LATE]),
    "intervals": ([Column(b"a", FIXED, lambda n: struct.pack("<iii", n, -n, n), length=12), Z], ["a:Interval(DayTime)", *LATE]),
    "nulls": ([Column(b"a", INT64, number(8), optional=True), Z], ["a:Null", *LATE, "--summary"]),
    "all_rows": ([Column(b"a", BYTE_ARRAY, text, DICTIONARY), Column(b"b", INT64, number(8), DELTA_PACKED), Z], ["a:Utf8", "b:UInt32", "z:Int32"]),
}


def write_lines(path, lines):
    with open(path, "w", encoding="utf-8") as file:
        file.writelines(line + "\n" for line in lines)


def main(folder):
    os.makedirs(folder, exist_ok=True)
    for name, (columns, words) in SEEDS.items():
        path = os.path.join(folder, name)
        pages = write(path + ".parquet", columns)
        write_lines(path + ".words", words)
        write_lines(path + ".pages", ("%d %d" % page for page in pages))


main(sys.argv[1])
