"""Rows of pqinspect. It opens no page, so most files have none: a chunk begins where its pages would and has 0 bytes."""
from .fields import *
from .table import FILES, data, each_read, each_write, note, refused, row

# ---- worked files

A = Leaf("a", INT32)

data("f0.parquet", "a required INT32 column a, and no group", file_of([A], []))
INSPECTED_F0 = r"""
column 0 "a" Int32
"""
row("pqinspect f0.parquet", INSPECTED_F0)
row("memory pqinspect f0.parquet", INSPECTED_F0)

F1 = page(5, b"".join(map(int32, (10, 12, 15, 18, 20))))
data("f1.parquet", "the same column, and one group of 5 rows in one page", file_of([A], [(5, [Chunk(told(int32(10), int32(20), 0), pages=F1)])]))
INSPECTED_F1 = r"""
column 0 "a" Int32
group 0 5
stats 0 10 20 0
"""
row("pqinspect f1.parquet", INSPECTED_F1)
row("memory pqinspect f1.parquet", INSPECTED_F1)

# a number, its remainder by 1000 but for multiples of 5, and its name
ID, QTY, NAME = Leaf("id", INT64), Leaf("qty", INT32, repetition=OPTIONAL), Leaf("name", BYTE_ARRAY)
LEVELS = varint(1 << 1 | 1) + packed([0, 1, 1, 1, 1, 0, 0, 0], 1)
SIX = [
    page(6, b"".join(map(int64, range(6)))),
    page(6, word(len(LEVELS)) + LEVELS + b"".join(map(int32, (1, 2, 3, 4)))),
    page(6, b"".join(word(2) + b"r%d" % n for n in range(6))),
]
SIX_ENDS = [(int64(0), int64(5), 0), (int32(1), int32(4), 2), (b"r0", b"r5", 0)]
SIX_STARTS = [4 + sum(map(len, SIX[:column])) for column in range(3)]


def six(column):
    pages, of_all = SIX[column], SIX_ENDS[column]
    return Chunk(told(*of_all), ends(of_all), located((SIX_STARTS[column], len(pages), 0)), pages)


data("six.parquet", "the sample of 6 rows from 0 on: three columns in one page each, with page indexes", file_of([ID, QTY, NAME], [(6, [six(0), six(1), six(2)])]))
INSPECTED_SIX = r"""
column 0 "id" Int64
column 1 "qty" Int32
column 2 "name" Binary
group 0 6
stats 0 0 5 0
page 0 0+6 0 5 0
stats 1 1 4 2
page 1 0+6 1 4 2
stats 2 0x7230 0x7235 0
page 2 0+6 0x7230 0x7235 0
"""
row("pqinspect six.parquet", INSPECTED_SIX)
row("memory pqinspect six.parquet", INSPECTED_SIX)
row("bytewise pqinspect six.parquet", INSPECTED_SIX)
each_read("pqinspect six.parquet", 6, INSPECTED_SIX)
each_write("pqinspect six.parquet", INSPECTED_SIX)

FRONT = footer_of([A], [(5, [Chunk(told(int32(10), int32(20), 0))])])[:-1]
WRITER = b"\x28" + varint(6) + b"writer"
data("front.parquet", "other first bytes, a field of the footer that is passed over, and stray bytes behind its end", ended(b"FRONT", FRONT + WRITER + b"\0\xff"))
row("pqinspect front.parquet", INSPECTED_F1)

# ---- types

# a column, how its type is written, a least and a greatest value, and how these are written
DAY = 86400000000000
TYPES = [
    (Leaf("truth", BOOLEAN), "Boolean", b"\0", b"\1", "false", "true"),
    (Leaf("int", INT32), "Int32", int32(-2147483648), int32(2147483647), "-2147483648", "2147483647"),
    (Leaf("long", INT64), "Int64", int64(-(1 << 63)), int64((1 << 63) - 1), "-9223372036854775808", "9223372036854775807"),
    (Leaf("ms", INT64, logical=time_in(MILLIS)), "Timestamp(ms)", int64(-1), int64(1700000000000), "-1", "1700000000000"),
    (Leaf("us", INT64, logical=time_in(MICROS, adjusted=False)), "Timestamp(us)", int64(-1000), int64(0), "-1000", "0"),
    (Leaf("ns", INT64, logical=time_in(NANOS)), "Timestamp(ns)", int64(1), int64(1000000007), "1", "1000000007"),
    (Leaf("int96", INT96), "Timestamp(ns)", int96(-1, DAY - 1), int96(1, 0), "-1", "86400000000000"),
    (Leaf("float", FLOAT), None, b"\0\0\x80\xbf", b"\0\0\x80\x3f", None, None),
    (Leaf("double", DOUBLE), None, b"\0\0\0\0\0\0\xf0\xbf", b"\0\0\0\0\0\0\xf0\x3f", None, None),
    (Leaf("bytes", BYTE_ARRAY), "Binary", b"", b"\xff\0a", "0x", "0xff0061"),
    (Leaf("fixed", FIXED, 3), "FixedSizeBinary(3)", b"\0\0\0", b"\x7f\x80\xfe", "0x000000", "0x7f80fe"),
]
# which of the least value, the greatest value and the 3 nulls the statistics of each group tell; the last has none
KNOWN = [(True, True, True), (False, True, True), (True, False, True), (True, True, False), (False, False, False), None]


def typed_chunk(low, high, known):
    """Both ends in the first of two pages, and the greatest value and nulls in the second."""
    statistics = known and told(*[value if is_known else None for value, is_known in zip((low, high, 3), known)])
    return Chunk(statistics, ends((low, high, 0), (high, high, 3)), rows_from(0, 2))


def typed_text(known):
    text = ""
    for number, (leaf, type_text, _, _, low, high) in enumerate(TYPES):
        if not type_text:
            continue
        shown = [value if known and known[side] else "?" for side, value in enumerate((low, high, "3"))]
        text += "stats %d %s\n" % (number, " ".join(shown))
        if leaf.kind != FIXED:
            text += "page %d 0+2 %s %s 0\npage %d 2+3 %s %s 3\n" % (number, low, high, number, high, high)
    return text


data(
    "types.parquet",
    "a column of each type, with page indexes; in each group other ends and nulls are known, in the first all, and the last has no statistics",
    file_of([leaf for leaf, *_ in TYPES], [(5, [typed_chunk(low, high, known) for _, _, low, high, *_ in TYPES]) for known in KNOWN]),
)
TYPED = "".join('column %d "%s" %s\n' % (i, leaf.name.decode(), type_text or "-") for i, (leaf, type_text, *_) in enumerate(TYPES))
TYPED += "".join("group %d 5\n" % i + typed_text(known) for i, known in enumerate(KNOWN))
row("pqinspect types.parquet", TYPED)
row("memory pqinspect types.parquet", TYPED)

LEAST_TIME, GREATEST_TIME = int96(-106752, 763145224192), int96(106751, 85636854775807)
VALUES = [
    (Leaf("truth", BOOLEAN), told(b"\2", b"\xff", 0)),
    (Leaf("int96", INT96), told(LEAST_TIME, GREATEST_TIME, 0)),
    (Leaf("beside", INT96), told(int96(0, -5), int96(-1, DAY + 5), 1 << 40)),
    (Leaf("bytes", BYTE_ARRAY), told(b"", b"", (1 << 63) - 1)),
    (Leaf("text", BYTE_ARRAY, logical=Struct().struct(STRING, Struct())), told(b"a", b"\xc3\xa9", 0)),
    (Leaf("number", INT32, logical=time_in(MILLIS)), told(int32(-1), int32(0), 0)),
    (Leaf("time", INT96, logical=time_in(MILLIS)), told(int96(0, 1), int96(0, 2), 0)),
    (Leaf("one", FIXED, 1), told(b"\x0a", b"\xf0", 0)),
    (Leaf("old", INT32), Struct().binary(1, int32(8)).binary(2, int32(7)).i64(3, 0)),
]
data(
    "values.parquet",
    "truth values of other bytes than 0 and 1; the first and the last time whose nanoseconds have 64 bits, and nanoseconds outside their day; strings of no byte; logical types that decide nothing; ends in the fields of old",
    file_of([leaf for leaf, _ in VALUES], [(2, [Chunk(statistics) for _, statistics in VALUES])]),
)
row("pqinspect values.parquet", r"""
column 0 "truth" Boolean
column 1 "int96" Timestamp(ns)
column 2 "beside" Timestamp(ns)
column 3 "bytes" Binary
column 4 "text" Binary
column 5 "number" Int32
column 6 "time" Timestamp(ns)
column 7 "one" FixedSizeBinary(1)
column 8 "old" Int32
group 0 2
stats 0 true true 0
stats 1 -9223372036854775808 9223372036854775807 0
stats 2 -5 5 1099511627776
stats 3 0x 0x 9223372036854775807
stats 4 0x61 0xc3a9 0
stats 5 -1 0 0
stats 6 1 2 0
stats 7 0x0a 0xf0 0
stats 8 ? ? 0
""")

# ---- names and nesting

ONE_TO_TWO = (int32(1), int32(2), 0)


def number():
    """A chunk of two rows in one page, from 1 to 2."""
    return Chunk(told(*ONE_TO_TWO), ends(ONE_TO_TWO), rows_from(0))


def numbers(name, repetition=REQUIRED):
    return Leaf(name, INT32, repetition=repetition)


def numbers_file(name, what, schema, columns_text, told_columns):
    """A file of one group of such chunks, and its row: the lines of its columns, and which of them are told of."""
    data(name, what, file_of(schema, [(2, [number() for _ in leaves_of(schema)])]))
    told_text = "".join("stats %d 1 2 0\npage %d 0+2 1 2 0\n" % (column, column) for column in told_columns)
    row("pqinspect " + name, columns_text + "group 0 2\n" + told_text)


numbers_file(
    "nested.parquet",
    "nested and repeated columns between flat ones",
    [
        numbers("first"),
        Inner("outer", [numbers("x"), Inner("inner", [numbers("x", OPTIONAL)], OPTIONAL)]),
        numbers("again", REPEATED),
        numbers("maybe", OPTIONAL),
        Inner("list", [Inner("list", [numbers("element", OPTIONAL)], REPEATED)], OPTIONAL),
        Inner("nothing", []),
        numbers("x"),
    ],
    r"""
column 0 "first" Int32
column 1 "outer.x" -
column 2 "outer.inner.x" -
column 3 "again" -
column 4 "maybe" Int32
column 5 "list.list.element" -
column 6 "x" Int32
""",
    [0, 4, 6],
)
numbers_file(
    "shared.parquet",
    "columns that begin with one name: one alone and one in a group, two alone, a repeated one and one alone; and such as nearly do",
    [
        numbers("a"),
        Inner("a", [numbers("b")]),
        numbers("twice"),
        numbers("b"),
        numbers("twice", OPTIONAL),
        numbers("c", REPEATED),
        numbers("ab"),
        numbers("c"),
        numbers("A"),
    ],
    r"""
column 0 "a" -
column 1 "a.b" -
column 2 "twice" -
column 3 "b" Int32
column 4 "twice" -
column 5 "c" -
column 6 "ab" Int32
column 7 "c" -
column 8 "A" Int32
""",
    [3, 6, 8],
)
numbers_file(
    "names.parquet",
    "names with dots, quotes, backslashes, control characters and letters beyond ASCII, and an empty one",
    [
        numbers("p.q"),
        Inner("p", [numbers("q")]),
        numbers('"'),
        numbers("a\\b"),
        numbers(""),
        numbers("\0\t\n\x1f \x7f"),
        numbers("größe"),
        Inner('o"', [numbers("."), numbers("")]),
        numbers("?"),
    ],
    r"""
column 0 "p.q" Int32
column 1 "p.q" -
column 2 "\x22" Int32
column 3 "a\x5cb" Int32
column 4 "" Int32
column 5 "\x00\x09\x0a\x1f \x7f" Int32
column 6 "größe" Int32
column 7 "o\x22.." -
column 8 "o\x22." -
column 9 "?" Int32
""",
    [0, 2, 3, 4, 5, 6, 9],
)


def deep(groups):
    """A column below so many groups, each of which has its depth below the root as its name."""
    node = numbers("leaf")
    for depth in range(groups, 0, -1):
        node = Inner(str(depth), [node])
    return [node]


numbers_file(
    "deep.parquet",
    "a column below 30 groups below the root, so that the tree is 32 deep",
    deep(30),
    'column 0 "%s.leaf" -\n' % ".".join(str(depth) for depth in range(1, 31)),
    [],
)
data("bare.parquet", "no column, and a group of 3 rows", file_of([], [(3, [])]))
row("pqinspect bare.parquet", "group 0 3")

# ---- groups

NO_PAGES = {"index": ends(), "offsets": rows_from()}
SEVENS = (int32(-7), int32(7), 0)
data(
    "groups.parquet",
    "groups of 2 rows, of none, of 4 rows of whose pages nothing is told, and of none in a page",
    file_of([A, Leaf("b", BYTE_ARRAY)], [
        (2, [Chunk(told(*SEVENS), ends(SEVENS), rows_from(0)), Chunk(told(b"b", b"bb", 1))]),
        (0, [Chunk(told(nulls=0), **NO_PAGES), Chunk(**NO_PAGES)]),
        (4, [Chunk(**NO_PAGES), Chunk(told(b"\0", None, 4), ends((b"\0", b"\1", 4)), rows_from(0))]),
        (0, [Chunk(), Chunk(None, ends((None, None, 0)), rows_from(0))]),
    ]),
)
row("pqinspect groups.parquet", r"""
column 0 "a" Int32
column 1 "b" Binary
group 0 2
stats 0 -7 7 0
page 0 0+2 -7 7 0
stats 1 0x62 0x6262 1
group 1 0
stats 0 ? ? 0
stats 1 ? ? ?
group 2 4
stats 0 ? ? ?
stats 1 0x00 ? 4
page 1 0+4 0x00 0x01 4
group 3 0
stats 0 ? ? ?
stats 1 ? ? ?
page 1 0+0 ? ? 0
""")

# the value in row r of column c in group g is 100 * c + 10 * g + r
MANY = range(16)


def many_chunk(c, g):
    values = [100 * c + 10 * g + r for r in MANY]
    pages = {"index": ends(*[(int32(value), int32(value), 0) for value in values]), "offsets": rows_from(*MANY)} if c == g else {}
    return Chunk(told(int32(values[0]), int32(values[-1]), g), **pages)


def many_text(c, g):
    text = "stats %d %d %d %d\n" % (c, 100 * c + 10 * g, 100 * c + 10 * g + 15, g)
    if c == g:
        text += "".join("page %d %d+1 %d %d 0\n" % (c, r, 110 * c + r, 110 * c + r) for r in MANY)
    return text


data(
    "many.parquet",
    "16 columns in 16 groups of 16 rows, and 16 pages of each column in the group of its number, so that the heads of all lists are long",
    file_of([numbers("c%d" % c) for c in MANY], [(16, [many_chunk(c, g) for c in MANY]) for g in MANY]),
)
row(
    "pqinspect many.parquet",
    "".join('column %d "c%d" Int32\n' % (c, c) for c in MANY) + "".join("group %d 16\n" % g + "".join(many_text(c, g) for c in MANY) for g in MANY),
)

# ---- chunks

BOTH = {"index": ends(ONE_TO_TWO), "offsets": rows_from(0)}
KNOWN_NUMBERS = told(*ONE_TO_TWO)
CHUNKS = [
    ("plain", Chunk(KNOWN_NUMBERS, **BOTH)),
    ("foreign", Chunk(KNOWN_NUMBERS, path=b"other.parquet", **BOTH)),
    ("here", Chunk(KNOWN_NUMBERS, path=b"", **BOTH)),
    ("compressed", Chunk(KNOWN_NUMBERS, codec=1, **BOTH)),
    ("sealed", Chunk(sealed=True, **BOTH)),
    ("encrypted", Chunk(KNOWN_NUMBERS, encrypted=True, **BOTH)),
    ("no_offsets", Chunk(KNOWN_NUMBERS, index=BOTH["index"])),
    ("no_ends", Chunk(KNOWN_NUMBERS, offsets=BOTH["offsets"])),
    ("offsets_without_place", Chunk(KNOWN_NUMBERS, without=[4], **BOTH)),
    ("offsets_without_length", Chunk(KNOWN_NUMBERS, without=[5], **BOTH)),
    ("ends_without_place", Chunk(KNOWN_NUMBERS, without=[6], **BOTH)),
    ("ends_without_length", Chunk(KNOWN_NUMBERS, without=[7], **BOTH)),
    ("other_count", Chunk(KNOWN_NUMBERS, values=9, **BOTH)),
]
data(
    "chunks.parquet",
    "chunks in another file, in one of no name, compressed, encrypted without and with statistics, with one of both indexes, with a part of what names them, and of 9 values in 2 rows",
    file_of([numbers(name) for name, _ in CHUNKS], [(2, [chunk for _, chunk in CHUNKS])]),
)
row("pqinspect chunks.parquet", r"""
column 0 "plain" Int32
column 1 "foreign" Int32
column 2 "here" Int32
column 3 "compressed" Int32
column 4 "sealed" Int32
column 5 "encrypted" Int32
column 6 "no_offsets" Int32
column 7 "no_ends" Int32
column 8 "offsets_without_place" Int32
column 9 "offsets_without_length" Int32
column 10 "ends_without_place" Int32
column 11 "ends_without_length" Int32
column 12 "other_count" Int32
group 0 2
stats 0 1 2 0
page 0 0+2 1 2 0
stats 1 1 2 0
stats 2 1 2 0
page 2 0+2 1 2 0
stats 3 1 2 0
page 3 0+2 1 2 0
stats 4 ? ? ?
stats 5 1 2 0
stats 6 1 2 0
stats 7 1 2 0
stats 8 1 2 0
stats 9 1 2 0
stats 10 1 2 0
stats 11 1 2 0
stats 12 1 2 0
page 12 0+2 1 2 0
""")

# ---- pages


def one(chunk, leaf=A):
    """A file of one chunk of 5 rows."""
    return file_of([leaf], [(5, [chunk])])


def of_own_size(make):
    """The file that is made of its own size."""
    size = 1000
    while len(content := make(size)) != size:
        size = len(content)
    return content


def pair(low, high, nulls=0):
    return int32(low), int32(high), nulls


TWO = ends(pair(1, 2), pair(3, 4))
PAGES = [
    ("three", ends(pair(1, 3, 1), pair(-9, -9), pair(0, 8)), rows_from(0, 2, 5)),
    ("behind", ends(pair(1, 2), pair(3, 4, 1)), rows_from(2, 4)),
    ("empty", ends(pair(1, 2), pair(3, 4), pair(5, 6)), rows_from(0, 3, 3)),
    ("last", TWO, rows_from(0, 6)),
    ("uncounted", ends(pair(1, 2), (None, None, None)), rows_from(0, 1)),
    ("nulls", ends((None, None, 4), pair(5, 5, 1)), rows_from(0, 4)),
    ("all_nulls", ends((None, None, 3), (None, None, 0)), rows_from(0, 3)),
    ("stray", column_index([True, False], [b"\1", int32(7)], [b"stray", int32(8)], [99, 1]), rows_from(0, 3)),
    ("placed", TWO, located((-4, -1, 0), (1 << 40, 1 << 30, 1))),
    ("none", ends(), rows_from()),
    ("counted", ends(pair(1, 2, (1 << 63) - 1)), rows_from(0)),
]
data(
    "pages.parquet",
    "pages from another row than 0 on, of no row, of nulls alone, without numbers of nulls, with stray ends of a page of nulls, and at places that no file has; and no pages",
    file_of([numbers(name, OPTIONAL) for name, *_ in PAGES], [(6, [Chunk(None, index, offsets) for _, index, offsets in PAGES])]),
)
INSPECTED_PAGES = r"""
column 0 "three" Int32
column 1 "behind" Int32
column 2 "empty" Int32
column 3 "last" Int32
column 4 "uncounted" Int32
column 5 "nulls" Int32
column 6 "all_nulls" Int32
column 7 "stray" Int32
column 8 "placed" Int32
column 9 "none" Int32
column 10 "counted" Int32
group 0 6
stats 0 ? ? ?
page 0 0+2 1 3 1
page 0 2+3 -9 -9 0
page 0 5+1 0 8 0
stats 1 ? ? ?
page 1 2+2 1 2 0
page 1 4+2 3 4 1
stats 2 ? ? ?
page 2 0+3 1 2 0
page 2 3+0 3 4 0
page 2 3+3 5 6 0
stats 3 ? ? ?
page 3 0+6 1 2 0
page 3 6+0 3 4 0
stats 4 ? ? ?
page 4 0+1 1 2 ?
page 4 1+5 ? ? ?
stats 5 ? ? ?
page 5 0+4 ? ? 4
page 5 4+2 5 5 1
stats 6 ? ? ?
page 6 0+3 ? ? 3
page 6 3+3 ? ? 0
stats 7 ? ? ?
page 7 0+3 ? ? 99
page 7 3+3 7 8 1
stats 8 ? ? ?
page 8 0+1 1 2 0
page 8 1+5 3 4 0
stats 9 ? ? ?
stats 10 ? ? ?
page 10 0+6 1 2 9223372036854775807
"""
row("pqinspect pages.parquet", INSPECTED_PAGES)
row("memory pqinspect pages.parquet", INSPECTED_PAGES)
row("bytewise pqinspect pages.parquet", INSPECTED_PAGES)

TAILED = TWO + rows_from(0, 2)
data(
    "tails.parquet",
    "indexes whose places reach to the end of the file: what stands behind their structs is passed over",
    of_own_size(lambda size: one(Chunk(pages=TAILED, index_at=(4, size - 4), offsets_at=(4 + len(TWO), size - 4 - len(TWO))))),
)
row("pqinspect tails.parquet", r"""
column 0 "a" Int32
group 0 5
stats 0 ? ? ?
page 0 0+2 1 2 0
page 0 2+3 3 4 0
""")

# ---- what is not looked at

BROKEN = {"index": b"\xff", "offsets": b"\xff"}
WRONG = told(b"\1", b"\1\2\3\4\5", -1, -1)
SPARED = [
    (Leaf("float", FLOAT), Chunk(WRONG, **BROKEN)),
    (Leaf("double", DOUBLE), Chunk(WRONG, **BROKEN)),
    (numbers("again", REPEATED), Chunk(WRONG, **BROKEN)),
    (Inner("outer", [numbers("inner")]), Chunk(WRONG, **BROKEN)),
    (numbers("twice"), Chunk(WRONG, **BROKEN)),
    (numbers("twice"), Chunk(WRONG, **BROKEN)),
    (Leaf("fixed", FIXED, 2), Chunk(told(b"ab", b"cd", 0), **BROKEN)),
    (numbers("foreign"), Chunk(KNOWN_NUMBERS, path=b"x", index_at=(1 << 40, 9), offsets_at=(1 << 40, 9))),
    (numbers("sealed"), Chunk(sealed=True, **BROKEN)),
    (numbers("encrypted"), Chunk(KNOWN_NUMBERS, encrypted=True, **BROKEN)),
    (numbers("no_offsets"), Chunk(KNOWN_NUMBERS, index=b"\xff")),
    (numbers("no_ends"), Chunk(KNOWN_NUMBERS, offsets=b"\xff")),
]
data(
    "spared.parquet",
    "damage that is not looked at: in statistics of columns without a guess, and in indexes of chunks that tell no pages",
    file_of([node for node, _ in SPARED], [(2, [chunk for _, chunk in SPARED])]),
)
row("pqinspect spared.parquet", r"""
column 0 "float" -
column 1 "double" -
column 2 "again" -
column 3 "outer.inner" -
column 4 "twice" -
column 5 "twice" -
column 6 "fixed" FixedSizeBinary(2)
column 7 "foreign" Int32
column 8 "sealed" Int32
column 9 "encrypted" Int32
column 10 "no_offsets" Int32
column 11 "no_ends" Int32
group 0 2
stats 6 0x6162 0x6364 0
stats 7 1 2 0
stats 8 ? ? ?
stats 9 1 2 0
stats 10 1 2 0
stats 11 1 2 0
""")

# ---- damage, each in a file of its own


def damaged(name, what, content):
    data(name + ".parquet", what, content)
    refused("pqinspect %s.parquet" % name, 5)


SOUND = FRONT + b"\0"

damaged("nothing", "no byte", b"")
damaged("short", "the last 11 bytes of a file", FILES["f0.parquet"][-11:])
damaged("magic", "a file that ends with PAR2", ended(b"PAR1", SOUND)[:-1] + b"2")
damaged("long_footer", "a footer that begins a byte before the file", b"PAR1" + SOUND + word(len(SOUND) + 5) + b"PAR1")
damaged("empty_footer", "a footer of no bytes", ended(b"PAR1    ", b""))
damaged("broken_footer", "a footer whose first field is of a kind that there is not", ended(b"PAR1", b"\x1f" + SOUND[1:]))
damaged("cut_footer", "a footer that ends early", ended(b"PAR1", SOUND[:-1]))
damaged("no_groups", "a footer without a list of groups", ended(b"PAR1", Struct().list(2, STRUCT, schema_of([A])).i64(3, 0).end()))
damaged("no_root", "a schema of no elements", ended(b"PAR1", Struct().list(2, STRUCT, []).i64(3, 0).list(4, STRUCT, []).end()))
damaged("no_text", "a column whose name is no text", ended(b"PAR1", SOUND.replace(b"\1a", b"\1\xff", 1)))
damaged("no_chunk", "a group without the chunk of its column", file_of([A], [(5, [])]))
damaged("other_type", "a chunk of another type than its column", one(Chunk(kind=INT64)))
damaged("no_length", "a column of fixed bytes without their number", file_of([Leaf("a", FIXED)], []))
damaged("too_deep", "a column below 31 groups below the root", file_of(deep(31), []))
damaged("two_units", "times in two units", file_of([Leaf("a", INT64, logical=time_in(MILLIS, MICROS))], []))
damaged("too_many_rows", "two groups that together have 2 to the 63 rows", ended(b"PAR1", footer_of([A], [(1 << 62, [Chunk()]), (1 << 62, [Chunk()])], 0)))

damaged("wide_end", "a least INT32 of 5 bytes", one(Chunk(told(b"\1\0\0\0\0", int32(2), 0))))
damaged("narrow_end", "a greatest INT32 of 3 bytes", one(Chunk(told(int32(1), b"\2\0\0", 0))))
damaged("empty_end", "a least INT64 of no bytes", one(Chunk(told(b"", int64(2), 0)), Leaf("a", INT64)))
damaged("truth_end", "a greatest BOOLEAN of 2 bytes", one(Chunk(told(b"\0", b"\1\0", 0)), Leaf("a", BOOLEAN)))
damaged("int96_end", "a least INT96 of 8 bytes", one(Chunk(told(int64(0), int96(0, 0), 0)), Leaf("a", INT96)))
damaged("fixed_end", "a greatest value of 2 bytes in a column of 3 bytes each", one(Chunk(told(b"aaa", b"bb", 0)), Leaf("a", FIXED, 3)))
damaged("null_count", "a negative number of nulls", one(Chunk(told(int32(1), int32(2), -1))))
damaged("distinct_count", "a negative number of distinct values", one(Chunk(told(int32(1), int32(2), 0, -1))))
damaged("bytes_count", "the least number of nulls that 64 bits have, beside byte strings", one(Chunk(told(b"a", b"b", -(1 << 63))), Leaf("a", BYTE_ARRAY)))

damaged("page_end", "a page whose greatest INT32 has 3 bytes", one(Chunk(None, ends(pair(1, 2), (int32(3), b"\4\0\0", 0)), rows_from(0, 2))))
damaged("page_truth", "a page whose least BOOLEAN has no byte", one(Chunk(None, ends((b"", b"\1", 0)), rows_from(0)), Leaf("a", BOOLEAN)))
damaged("page_nulls", "a page of a negative number of nulls", one(Chunk(None, ends(pair(1, 2), pair(3, 4, -1)), rows_from(0, 2))))
damaged("null_page", "a page of nulls alone, of a negative number", one(Chunk(None, ends((None, None, -1)), rows_from(0))))
damaged("fewer_ends", "two pages with places, and one with ends", one(Chunk(None, ends(pair(1, 2)), rows_from(0, 2))))
damaged("fewer_places", "two pages with ends, and one with a place", one(Chunk(None, TWO, rows_from(0))))
damaged("no_ends", "a page with a place, and none with ends", one(Chunk(None, ends(), rows_from(0))))
damaged("no_places", "a page with ends, and none with a place", one(Chunk(None, ends(pair(1, 2)), rows_from())))
damaged("falling_rows", "a second page that begins before the first", one(Chunk(None, TWO, rows_from(3, 2))))
damaged("negative_row", "a page that begins before row 0", one(Chunk(None, TWO, rows_from(-1, 2))))
damaged("far_row", "a page that begins a row behind the last of its group", one(Chunk(None, TWO, rows_from(0, 6))))
damaged("far_ends", "a column index that ends a byte behind the file", of_own_size(lambda size: one(Chunk(index_at=(size, 1), offsets=rows_from(0, 2)))))
damaged("far_places", "an offset index of no bytes that begins a byte behind the file", of_own_size(lambda size: one(Chunk(index=TWO, offsets_at=(size + 1, 0)))))
damaged("broken_ends", "a column index whose first field is of a kind that there is not", one(Chunk(None, b"\xff", rows_from(0, 2))))
damaged("cut_ends", "a column index that ends early", one(Chunk(None, TWO[:-1], rows_from(0, 2))))
UNEVEN = [False, False], [int32(1), int32(3)]
damaged("uneven_ends", "a column index of two pages with one greatest value", one(Chunk(None, column_index(*UNEVEN, [int32(2)], [0, 0]), rows_from(0, 2))))
damaged("uneven_nulls", "one of two pages with one number of nulls", one(Chunk(None, column_index(*UNEVEN, [int32(2), int32(4)], [0]), rows_from(0, 2))))
damaged("broken_places", "an offset index whose first field is of a kind that there is not", one(Chunk(None, TWO, b"\xff")))
damaged("cut_places", "an offset index that ends early", one(Chunk(None, TWO, rows_from(0, 2)[:-1])))
NO_FIRST_ROW = Struct().list(1, STRUCT, [Struct().i64(1, 4).i32(2, 0).end()]).end()
damaged("no_first_row", "a page whose first row is not told", one(Chunk(None, ends(pair(1, 2)), NO_FIRST_ROW)))

damaged(
    "last_column",
    "a negative number of nulls in the last column of the last group alone",
    file_of([A, numbers("b"), numbers("c")], [(2, [number(), number(), number()]), (2, [number(), number(), Chunk(told(nulls=-1))])]),
)
damaged(
    "last_page",
    "a negative number of nulls in the last page of the last column of the last group alone",
    file_of([A, numbers("b")], [(2, [number(), number()]), (2, [number(), Chunk(None, ends(pair(1, 2), pair(1, 2, -1)), rows_from(0, 1))])]),
)
refused("memory pqinspect last_page.parquet", 5)
refused("bytewise pqinspect last_page.parquet", 5)
each_read("pqinspect last_page.parquet", 8, status=5)

# ---- times that leave 64 bits


def out_of_range(name, what, chunk):
    data(name + ".parquet", what, one(chunk, Leaf("t", INT96)))
    refused("pqinspect %s.parquet" % name, 7)


LATE_TIME, EARLY_TIME = int96(106751, 85636854775808), int96(-106752, 763145224191)
BETWEEN = (LEAST_TIME, GREATEST_TIME, 0)
out_of_range("late_end", "a greatest time a nanosecond behind the last that 64 bits have", Chunk(told(LEAST_TIME, LATE_TIME, 0)))
out_of_range("early_end", "a least time a nanosecond before the first that 64 bits have", Chunk(told(EARLY_TIME, GREATEST_TIME, 0)))
out_of_range("late_page", "a page with such a late time", Chunk(told(*BETWEEN), ends(BETWEEN, (LEAST_TIME, LATE_TIME, 0)), rows_from(0, 3)))
out_of_range("early_page", "a page with such an early time", Chunk(told(*BETWEEN), ends((EARLY_TIME, GREATEST_TIME, 0)), rows_from(0)))

# ---- words

note("faulty words, and a file that is not there")
refused("pqinspect", 2)
refused("memory pqinspect", 2)
refused("pqinspect f1.parquet f1.parquet", 2)
refused("pqinspect nowhere.parquet nowhere.parquet", 2)
refused("pqinspect nowhere.parquet", 8)
