"""How files are written field by field: values, schemas, what is told of chunks and pages, and the whole."""
import os
import struct
import sys

sys.path.insert(0, os.path.join(os.path.dirname(os.path.abspath(__file__)), "..", "..", "..", "bench"))
from formats import Struct, packed, varint, word, zigzag

BOOLEAN, INT32, INT64, INT96, FLOAT, DOUBLE, BYTE_ARRAY, FIXED = range(8)
REQUIRED, OPTIONAL, REPEATED = range(3)
MILLIS, MICROS, NANOS = 1, 2, 3
# the ids of logical types: a text, and a time with its unit
STRING, TIMESTAMP = 1, 8
# the kinds of the elements of lists
TRUTH, I32, I64, BINARY, STRUCT = 1, 5, 6, 8, 12
# the Julian day of the first of January 1970
FIRST_DAY = 2440588

# ---- values as they are stored


def int32(n):
    return struct.pack("<i", n)


def int64(n):
    return struct.pack("<q", n)


def int96(day, nanoseconds):
    """Nanoseconds of a day, which is counted from the first of January 1970."""
    return struct.pack("<qI", nanoseconds, FIRST_DAY + day)


def binaries(texts):
    """The elements of a list of byte strings."""
    return [varint(len(text)) + text for text in texts]


# ---- schemas


def time_in(*units, adjusted=True):
    """The logical type of times in a unit, adjusted to UTC or not; no sound file has more than one unit."""
    union = Struct()
    for unit in units:
        union.struct(unit, Struct())
    return Struct().struct(TIMESTAMP, Struct().truth(1, adjusted).struct(2, union))


class Leaf:
    """A column below its parent: what it stores, of fixed bytes how many, how often, and its logical type."""

    def __init__(self, name, kind, length=None, repetition=REQUIRED, logical=None):
        self.name, self.kind, self.length, self.repetition, self.logical = name.encode(), kind, length, repetition, logical

    def elements(self):
        element = Struct().i32(1, self.kind)
        if self.length is not None:
            element.i32(2, self.length)
        element.i32(3, self.repetition).binary(4, self.name)
        if self.logical:
            element.struct(10, self.logical)
        return [element.end()]

    def leaves(self, path):
        return [(self, path + [self.name])]


class Inner:
    """An element of a schema with others below it."""

    def __init__(self, name, children, repetition=REQUIRED):
        self.name, self.children, self.repetition = name.encode(), children, repetition

    def elements(self):
        element = Struct().i32(3, self.repetition).binary(4, self.name).i32(5, len(self.children))
        return [element.end()] + elements_of(self.children)

    def leaves(self, path):
        return leaves_of(self.children, path + [self.name])


def elements_of(nodes):
    return [element for node in nodes for element in node.elements()]


def leaves_of(nodes, path=[]):
    """Each column with its path."""
    return [leaf for node in nodes for leaf in node.leaves(path)]


def schema_of(nodes):
    """The elements of a schema, the root first."""
    return [Struct().binary(4, b"schema").i32(5, len(nodes)).end()] + elements_of(nodes)


# ---- what is told of chunks and pages


def told(low=None, high=None, nulls=None, distinct=None):
    """Statistics."""
    statistics = Struct()
    for field, count in (3, nulls), (4, distinct):
        if count is not None:
            statistics.i64(field, count)
    for field, end in (5, high), (6, low):
        if end is not None:
            statistics.binary(field, end)
    return statistics


def column_index(null_pages, lows, highs, counts):
    """A column index of these lists, the last of which may be absent."""
    index = Struct().list(1, TRUTH, [b"\1" if is_null else b"\2" for is_null in null_pages])
    index.list(2, BINARY, binaries(lows)).list(3, BINARY, binaries(highs)).i32(4, 0)
    if counts is not None:
        index.list(5, I64, [zigzag(count) for count in counts])
    return index.end()


def ends(*pages):
    """A column index: of each page its least and its greatest value, which a page of nulls does not have, and its number of nulls. Where that is not
    known of the last page it is told of none."""
    lows, highs = [[page[side] or b"" for page in pages] for side in (0, 1)]
    counts = None if pages and pages[-1][2] is None else [page[2] for page in pages]
    return column_index([page[0] is None for page in pages], lows, highs, counts)


def located(*places):
    """An offset index: of each page its place, its size with its header, and its first row."""
    return Struct().list(1, STRUCT, [Struct().i64(1, at).i32(2, size).i64(3, row).end() for at, size, row in places]).end()


def rows_from(*first_rows):
    """An offset index of pages that have no bytes."""
    return located(*[(4, 0, row) for row in first_rows])


# ---- files


def page(rows, body):
    """A plain data page of the first form."""
    header = Struct().i32(1, rows).i32(2, 0).i32(3, 3).i32(4, 3)
    return Struct().i32(1, 0).i32(2, len(body)).i32(3, len(body)).struct(5, header).end() + body


class Chunk:
    """A chunk of a group: its statistics, its column index and its offset index as bytes, and its pages.

    An index stands where the file puts it, or at a place and of a length that are named; the fields of the ids in `without` are left out. A sealed chunk tells only that it is
    encrypted, and where its indexes stand. A type of its own and a number of values of its own are those that no sound file has.
    """

    def __init__(self, statistics=None, index=None, offsets=None, pages=b"", path=None, codec=0, encrypted=False, sealed=False,
                 index_at=None, offsets_at=None, without=(), kind=None, values=None):
        self.statistics, self.index, self.offsets, self.pages = statistics, index, offsets, pages
        self.path, self.codec, self.encrypted, self.sealed = path, codec, encrypted or sealed, sealed
        self.index_at, self.offsets_at, self.without, self.kind, self.values = index_at, offsets_at, without, kind, values
        self.start = 0

    def meta_data(self, leaf, path, rows):
        encodings = [zigzag(0), zigzag(3)] if leaf.repetition == OPTIONAL else [zigzag(0)]
        data = Struct().i32(1, leaf.kind if self.kind is None else self.kind).list(2, I32, encodings).list(3, BINARY, binaries(path))
        data.i32(4, self.codec).i64(5, rows if self.values is None else self.values)
        data.i64(6, len(self.pages)).i64(7, len(self.pages)).i64(9, self.start)
        if self.statistics:
            data.struct(12, self.statistics)
        return data

    def stored(self, leaf, path, rows):
        chunk = Struct()
        if self.path is not None:
            chunk.binary(1, self.path)
        chunk.i64(2, self.start)
        if not self.sealed:
            chunk.struct(3, self.meta_data(leaf, path, rows))
        for field, place in (4, self.offsets_at), (6, self.index_at):
            if place and field not in self.without:
                chunk.i64(field, place[0])
            if place and field + 1 not in self.without:
                chunk.i32(field + 1, place[1])
        if self.encrypted:
            chunk.struct(8, Struct())
        return chunk.end()


def footer_of(schema, groups, rows=None):
    """The last struct of a file of groups, each of which is its number of rows and its chunks, in the order of the columns. The rows of the file are those
    of all groups, or as many as are named."""
    stored = []
    for count, chunks in groups:
        columns = [chunk.stored(leaf, path, count) for (leaf, path), chunk in zip(leaves_of(schema), chunks)]
        size = sum(len(chunk.pages) for chunk in chunks)
        stored.append(Struct().list(1, STRUCT, columns).i64(2, size).i64(3, count).end())
    rows = sum(count for count, _ in groups) if rows is None else rows
    return Struct().i32(1, 1).list(2, STRUCT, schema_of(schema)).i64(3, rows).list(4, STRUCT, stored).end()


def ended(front, footer):
    """A file that ends with a footer."""
    return bytes(front) + footer + word(len(footer)) + b"PAR1"


def placed(out, content, place):
    """The place and length of an index: the named ones, or those of its bytes, which are added."""
    if place or content is None:
        return place
    out += content
    return len(out) - len(content), len(content)


def file_of(schema, groups):
    """A file: the pages of all chunks, then the column indexes, then the offset indexes, then the footer."""
    out = bytearray(b"PAR1")
    chunks = [chunk for _, group in groups for chunk in group]
    for chunk in chunks:
        chunk.start = len(out)
        out += chunk.pages
    for chunk in chunks:
        chunk.index_at = placed(out, chunk.index, chunk.index_at)
    for chunk in chunks:
        chunk.offsets_at = placed(out, chunk.offsets, chunk.offsets_at)
    return ended(out, footer_of(schema, groups))
