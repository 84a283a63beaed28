"""Writes a file of one column `a` in groups of 20,000 rows and pages of 1,000, uncompressed, where nothing else is said. Usage: inputs.py PATH ROWS [KIND]
The kinds, each plain and required where nothing else is said:
    numbers     INT32, the numbers from 0 on, with statistics (the kind where none is given)
    indexed     the same with both page indexes
    paged       the same in one group
    wide        INT32 in 1,000 columns `c0`, `c1` and so on, each row a group of its own, whose number is its value in each column
    short       texts of 8 letters
    long        texts of 100 letters
    named       keys of 10 bits, that name 1,000 texts of 8 to 16 letters
    joined      texts of 8 letters behind their lengths, which are delta-packed
    half_null   texts of 8 letters, optional, half of them null at random places
    times       INT64, microseconds from 2020 on, 1.5 seconds apart, with that unit as logical type
    odd, odd_named, odd_joined
                texts of up to 12 letters of one to four bytes, some of which are written by their numbers, optional
"""
import os
import random
import struct
import sys

sys.dont_write_bytecode = True
sys.path.insert(0, os.path.join(os.path.dirname(os.path.abspath(__file__)), ".."))
from formats import Struct, delta, packed_runs, varint, word, zigzag

GROUP, PAGE, ENTRIES = 20_000, 1_000, 1_000
INT32, INT64, BYTE_ARRAY = 1, 2, 6
REQUIRED, OPTIONAL = 0, 1
PLAIN, DELTA_LENGTH_BYTE_ARRAY, RLE_DICTIONARY = 0, 6, 8
ODD_LETTERS = 'abcdefghijklm \\"\0\t\n\x1f\x7fäöüß€\u0800\uffff\U00010000\U0010ffff'

draw = random.Random(7)


def texts_of(size):
    """Draws texts of so many letters."""

    def texts(count):
        letters = draw.randbytes(count * size // 2).hex().encode()
        return [letters[at : at + size] for at in range(0, count * size, size)]

    return texts


def entries(count):
    return [texts_of(16)(1)[0][: draw.randrange(8, 17)] for _ in range(count)]


def odd_texts(count):
    return ["".join(draw.choices(ODD_LETTERS, k=draw.randrange(13))).encode() for _ in range(count)]


def plain(texts):
    return b"".join(word(len(text)) + text for text in texts)


def joined(texts):
    return delta([len(text) for text in texts]) + b"".join(texts)


def keys(count):
    width = (ENTRIES - 1).bit_length()
    return bytes([width]) + packed_runs([draw.randrange(ENTRIES) for _ in range(count)], width)


class Numbers:
    physical, repetition, dictionary = INT32, REQUIRED, b""

    def page(self, first, rows):
        return data_page(rows, PLAIN, struct.pack(f"<{rows}i", *range(first, first + rows)))


class Times:
    physical, repetition, dictionary = INT64, REQUIRED, b""
    first_time, step = 1_577_836_800_000_000, 1_500_000

    def page(self, first, rows):
        start = self.first_time + first * self.step
        return data_page(rows, PLAIN, struct.pack(f"<{rows}q", *range(start, start + rows * self.step, self.step)))


class Texts:
    """A column of texts that are drawn, stored by an encoding; half of an optional column is null."""

    physical = BYTE_ARRAY

    def __init__(self, repetition, encoding, texts):
        self.repetition, self.encoding, self.texts = repetition, encoding, texts
        self.dictionary = dictionary_page(plain(texts(ENTRIES))) if encoding == RLE_DICTIONARY else b""

    def page(self, _first, rows):
        if self.repetition == REQUIRED:
            return data_page(rows, self.encoding, self.values(rows))
        levels = [draw.getrandbits(1) for _ in range(rows)]
        runs = packed_runs(levels, 1)
        return data_page(rows, self.encoding, word(len(runs)) + runs + self.values(sum(levels)))

    def values(self, count):
        if count == 0:
            return b""
        if self.encoding == RLE_DICTIONARY:
            return keys(count)
        return (joined if self.encoding == DELTA_LENGTH_BYTE_ARRAY else plain)(self.texts(count))


def data_page(rows, encoding, body):
    header = Struct().i32(1, rows).i32(2, encoding).i32(3, 3).i32(4, 3)
    return Struct().i32(1, 0).i32(2, len(body)).i32(3, len(body)).struct(5, header).end() + body


def dictionary_page(body):
    header = Struct().i32(1, ENTRIES).i32(2, PLAIN)
    return Struct().i32(1, 2).i32(2, len(body)).i32(3, len(body)).struct(7, header).end() + body


COLUMNS = {
    "numbers": Numbers,
    "indexed": Numbers,
    "paged": Numbers,
    "short": lambda: Texts(REQUIRED, PLAIN, texts_of(8)),
    "long": lambda: Texts(REQUIRED, PLAIN, texts_of(100)),
    "named": lambda: Texts(REQUIRED, RLE_DICTIONARY, entries),
    "joined": lambda: Texts(REQUIRED, DELTA_LENGTH_BYTE_ARRAY, texts_of(8)),
    "half_null": lambda: Texts(OPTIONAL, PLAIN, texts_of(8)),
    "times": Times,
    "odd": lambda: Texts(OPTIONAL, PLAIN, odd_texts),
    "odd_named": lambda: Texts(OPTIONAL, RLE_DICTIONARY, odd_texts),
    "odd_joined": lambda: Texts(OPTIONAL, DELTA_LENGTH_BYTE_ARRAY, odd_texts),
}


def page_indexes(start, count, locations):
    """The column index and the offset index of numbers from `start` on."""
    lows = [varint(4) + word(start + first) for _, _, first in locations]
    highs = [varint(4) + word(start + min(first + PAGE, count) - 1) for _, _, first in locations]
    column = Struct().list(1, 1, [b"\2"] * len(locations)).list(2, 8, lows).list(3, 8, highs).i32(4, 1)
    column = column.list(5, 6, [zigzag(0)] * len(locations)).end()
    offset = Struct().list(1, 12, [Struct().i64(1, at).i32(2, size).i64(3, first).end() for at, size, first in locations]).end()
    return column, offset


def write(path, rows, kind):
    column = COLUMNS[kind]()
    out = bytearray(b"PAR1")
    groups = []
    group_rows = max(rows, 1) if kind == "paged" else GROUP
    for start in range(0, rows, group_rows):
        count, place, locations = min(group_rows, rows - start), len(out), []
        out += column.dictionary
        for first in range(0, count, PAGE):
            written = column.page(start + first, min(PAGE, count - first))
            locations.append((len(out), len(written), first))
            out += written
        groups.append((start, count, place, len(out) - place, locations))
    indexes = []
    for start, count, _, _, locations in groups if kind in ("indexed", "paged") else []:
        ends, places = page_indexes(start, count, locations)
        indexes.append((len(out), len(ends), len(out) + len(ends), len(places)))
        out += ends + places
    stored = []
    for number, (start, count, place, size, locations) in enumerate(groups):
        encodings = [zigzag(column.encoding if column.physical == BYTE_ARRAY else PLAIN)]
        data = Struct().i32(1, column.physical).list(2, 5, encodings).list(3, 8, [b"\1a"]).i32(4, 0).i64(5, count)
        data.i64(6, size).i64(7, size).i64(9, locations[0][0])
        if column.dictionary:
            data.i64(11, place)
        if column.physical == INT32:
            data.struct(12, Struct().i64(3, 0).binary(5, word(start + count - 1)).binary(6, word(start)))
        chunk = Struct().i64(2, place).struct(3, data)
        if indexes:
            column_at, column_size, offset_at, offset_size = indexes[number]
            chunk.i64(4, offset_at).i32(5, offset_size).i64(6, column_at).i32(7, column_size)
        stored.append(Struct().list(1, 12, [chunk.end()]).i64(2, size).i64(3, count).end())
    leaf = Struct().i32(1, column.physical).i32(3, column.repetition).binary(4, b"a")
    if column.physical == BYTE_ARRAY:
        leaf.i32(6, 0)
    if column.physical == INT64:
        microseconds = Struct().struct(2, Struct())
        leaf.struct(10, Struct().struct(8, Struct().truth(1, True).struct(2, microseconds)))
    schema = [Struct().binary(4, b"schema").i32(5, 1).end(), leaf.end()]
    write_footer(path, out, schema, rows, stored)


def write_wide(path, rows):
    """Each chunk is one page of one number."""
    names = [f"c{i}".encode() for i in range(1_000)]
    out = bytearray(b"PAR1")
    stored = []
    for row in range(rows):
        page = Numbers().page(row, 1)
        ends = Struct().i64(3, 0).binary(5, word(row)).binary(6, word(row))
        chunks = []
        for name in names:
            place = len(out)
            out += page
            data = Struct().i32(1, INT32).list(2, 5, [zigzag(PLAIN)]).list(3, 8, [varint(len(name)) + name]).i32(4, 0).i64(5, 1)
            data.i64(6, len(page)).i64(7, len(page)).i64(9, place).struct(12, ends)
            chunks.append(Struct().i64(2, place).struct(3, data).end())
        stored.append(Struct().list(1, 12, chunks).i64(2, len(page) * len(names)).i64(3, 1).end())
    leaves = [Struct().i32(1, INT32).i32(3, REQUIRED).binary(4, name).end() for name in names]
    write_footer(path, out, [Struct().binary(4, b"schema").i32(5, len(names)).end(), *leaves], rows, stored)


def write_footer(path, out, schema, rows, stored):
    """Writes the file with its footer."""
    footer = Struct().i32(1, 1).list(2, 12, schema).i64(3, rows).list(4, 12, stored).end()
    out += footer + struct.pack("<I", len(footer)) + b"PAR1"
    with open(path, "wb") as file:
        file.write(out)


path, rows, kind = sys.argv[1], int(sys.argv[2]), (sys.argv[3:] or ["numbers"])[0]
if kind == "wide":
    write_wide(path, rows)
else:
    write(path, rows, kind)
