"""Files by pyarrow, all uncompressed: every type that pqscan reads, all levels, page forms, encodings, indexes and statistics that it writes.
They are the same at each run. Usage, inside the chroot of setup.sh: gen.py FOLDER"""
import decimal, os, random, struct, sys
import pyarrow as pa, pyarrow.parquet as pq

OUT = sys.argv[1]
R = random.Random(7)
ROWS = 300
D = decimal.Decimal
WIDE = decimal.Context(prec=60)
WORDS = ["", "a", "ab", 'x"y\\z', "\u00e9", "longer text of some length", "tab\there", "\u20ac euro", "zz"]


def ints(low, high, rows=ROWS):
    return [R.randint(low, high) for _ in range(rows)]


def holes(values, part):
    return [None if R.random() < part else value for value in values]


def texts(few=False):
    return [R.choice(WORDS) if few else R.choice(WORDS) + str(R.randint(0, 10**6)) for _ in range(ROWS)]


def some_bytes(least, most):
    return [bytes(R.randrange(256) for _ in range(R.randint(least, most))) for _ in range(ROWS)]


def scaled(digits, scale):
    return [D(x).scaleb(-scale, WIDE) for x in ints(1 - 10**digits, 10**digits - 1)]


def halves():
    return [struct.unpack("<e", struct.pack("<e", x / 8))[0] for x in ints(-4000, 4000)]


# the type of a column and what makes its cells
TYPES = {
    "b": (pa.bool_(), lambda: [R.random() < .5 for _ in range(ROWS)]),
    "i8": (pa.int8(), lambda: ints(-128, 127)),
    "i16": (pa.int16(), lambda: ints(-2**15, 2**15 - 1)),
    "i32": (pa.int32(), lambda: ints(-2**31, 2**31 - 1)),
    "i64": (pa.int64(), lambda: ints(-2**63, 2**63 - 1)),
    "u8": (pa.uint8(), lambda: ints(0, 255)),
    "u16": (pa.uint16(), lambda: ints(0, 65535)),
    "u32": (pa.uint32(), lambda: ints(0, 2**32 - 1)),
    "u64": (pa.uint64(), lambda: ints(0, 2**64 - 1)),
    "sorted": (pa.int32(), lambda: sorted(ints(0, 5000))),
    "d32": (pa.date32(), lambda: ints(-10**5, 10**5)),
    "d64": (pa.date64(), lambda: [86400000 * day for day in ints(-10**5, 10**5)]),
    "t32": (pa.time32("ms"), lambda: ints(0, 86399999)),
    "t64u": (pa.time64("us"), lambda: ints(0, 86399999999)),
    "t64n": (pa.time64("ns"), lambda: ints(0, 86399999999999)),
    "tsms": (pa.timestamp("ms"), lambda: ints(-10**12, 10**13)),
    "tsus": (pa.timestamp("us"), lambda: ints(-10**15, 10**16)),
    "tsns": (pa.timestamp("ns"), lambda: ints(-10**18, 2 * 10**18)),
    "tsz": (pa.timestamp("us", tz="UTC"), lambda: ints(-10**15, 10**16)),
    "dur": (pa.duration("us"), lambda: ints(-10**15, 10**15)),
    "dec5": (pa.decimal128(5, 2), lambda: scaled(5, 2)),
    "dec15": (pa.decimal128(15, 3), lambda: scaled(15, 3)),
    "dec30": (pa.decimal128(30, 4), lambda: scaled(30, 4)),
    "dec38": (pa.decimal128(38, 0), lambda: scaled(38, 0)),
    "half": (pa.float16(), halves),
    "str": (pa.utf8(), lambda: texts()),
    "few": (pa.utf8(), lambda: texts(few=True)),
    "lstr": (pa.large_utf8(), lambda: texts()),
    "bin": (pa.binary(), lambda: some_bytes(0, 9)),
    "lbin": (pa.large_binary(), lambda: some_bytes(0, 9)),
    "fix": (pa.binary(5), lambda: some_bytes(5, 5)),
    "nothing": (pa.null(), lambda: [None] * ROWS),
}
ALL = list(TYPES)
NUMBERS = ["i32", "i64", "sorted", "d32", "t32", "t64u", "tsms", "tsus", "dur"]
BYTES = ["str", "few", "lstr", "bin", "lbin"]
SMALL = dict(data_page_size=256, write_batch_size=16)


def table(names, part, required=False):
    arrays, fields = [], []
    for name in names:
        kind, make = TYPES[name]
        required_here = required and name != "nothing"
        arrays.append(pa.array(holes(make(), part) if part else make(), type=kind))
        fields.append(pa.field(name, kind, nullable=not required_here))
    return pa.table(arrays, schema=pa.schema(fields))


def put(place, rows, **options):
    path = os.path.join(OUT, place + ".parquet")
    os.makedirs(os.path.dirname(path), exist_ok=True)
    options = dict(dict(compression="none", write_page_index=True), **options)
    try:
        pq.write_table(rows, path, **options)
    except Exception as error:
        sys.exit("gen.py: %s: %s: %s" % (place, type(error).__name__, error))


for form in ("1.0", "2.0"):
    v = "_v" + form[0]
    both = dict(data_page_version=form)
    for part, word in ((0, "none"), (.02, "rare"), (.3, "some"), (.95, "most"), (1.0, "all")):
        for coded in (True, False):
            name = "levels/%s_null%s_%s" % (word, v, "dict" if coded else "plain")
            put(name, table(ALL, part), use_dictionary=coded, store_decimal_as_integer=True, row_group_size=120, **both, **SMALL)
    put("levels/required%s_dict" % v, table(ALL, 0, True), use_dictionary=True, **both, **SMALL)
    put("levels/required%s_plain" % v, table(ALL, 0, True), use_dictionary=False, row_group_size=77, **both, **SMALL)

    for part in (0, .2):
        for coding, names in (("DELTA_BINARY_PACKED", NUMBERS), ("DELTA_LENGTH_BYTE_ARRAY", BYTES), ("DELTA_BYTE_ARRAY", ["str", "fix"]),
                              ("BYTE_STREAM_SPLIT", ["i32", "i64", "fix"]), ("RLE", ["b"]), ("PLAIN", ["b", "i32", "str", "fix"])):
            name = "encodings/%s%s_%d" % (coding.lower(), v, part * 10)
            put(name, table(names, part), use_dictionary=False, column_encoding={it: coding for it in names}, **both, **SMALL)
    put("encodings/dictionary_then_plain" + v, table(["str", "i64", "fix"], .1), dictionary_pagesize_limit=400, **both, **SMALL)
    put("encodings/wide_keys" + v, pa.table({"n": ints(0, 3000, 20000), "s": ["k%d" % x for x in ints(0, 999, 20000)]}), data_page_size=4096, **both)

    put("indexes/none" + v, table(ALL, .1), write_page_index=False, **both, **SMALL)
    put("indexes/no_statistics" + v, table(ALL, .1), write_statistics=False, **both, **SMALL)
    put("indexes/some_statistics" + v, table(ALL, .1), write_statistics=["i32", "str", "fix"], **both, **SMALL)
    put("indexes/sorted" + v, table(["sorted", "str"], 0).sort_by("sorted"), sorting_columns=[pq.SortingColumn(0)], row_group_size=100, **both, **SMALL)
    put("indexes/falling" + v, table(["sorted", "str"], 0).sort_by([("sorted", "descending")]), row_group_size=100, **both, **SMALL)
    runs = [[i, None if i // 40 % 3 == 1 else i, "w%04d" % i if i // 50 % 2 else None] for i in range(600)]
    put("indexes/pages_of_nulls" + v, pa.table({"n": [r[0] for r in runs], "m": [r[1] for r in runs], "s": [r[2] for r in runs]}), **both, **SMALL)
    long = pa.table({"s": ["x" * n for n in (10, 3000, 5000, 20)], "b": [b"\xff" * n for n in (70, 4096, 4097, 0)], "n": [1, 2, 3, 4]})
    put("indexes/long_texts" + v, long, row_group_size=2, **both)
    put("indexes/bloom" + v, table(["i32", "str"], .1), bloom_filter_options={"i32": True, "str": True}, **both, **SMALL)

    put("forms/one_page" + v, table(ALL, .1), **both)
    put("forms/checksums" + v, table(ALL, .1), write_page_checksum=True, **both, **SMALL)
    put("forms/no_arrow_schema" + v, table(ALL, .1), store_schema=False, **both, **SMALL)
    put("forms/int96" + v, table(["tsns", "i32"], .1), use_deprecated_int96_timestamps=True, **both, **SMALL)
    put("forms/empty" + v, table(ALL, .1).slice(0, 0), **both)
    put("forms/one_row" + v, table(ALL, 0).slice(0, 1), **both)
    put("forms/one_row_groups" + v, table(ALL, .3).slice(0, 9), row_group_size=1, **both)
    for rows in (7, 8, 9, 63, 64, 65):
        put("forms/pages_of_%d%s" % (rows, v), table(["b", "i32", "few"], .4), data_page_size=1, write_batch_size=rows, **both)

for version in ("1.0", "2.4", "2.6"):
    put("forms/format_" + version.replace(".", "_"), table(["i32", "u32", "tsus", "str", "dec5"], .1), version=version, **SMALL)
values = [1, None, 3]
put("names/odd", pa.table([pa.array(values)] * 8, names=["a.b", "a", 'q"\\', "\u00e9 \u20ac", "x:Int32", "-n", " ", "c>d"]))
put("names/twice", pa.table([pa.array(values)] * 3, names=["a", "b", "a"]))
nested = {
    "s": pa.array([{"x": 1, "y": "a"}, None, {"x": None, "y": "b"}]), "l": pa.array([[1], [], None]),
    "m": pa.array([[("k", 1)], [], None], type=pa.map_(pa.utf8(), pa.int64())), "f": pa.array([1.5, None, float("nan")]),
    "g": pa.array([1.5, None, -0.0], type=pa.float32()), "i": pa.array(values), "t": pa.array(["p", None, "q"]).dictionary_encode(),
}
put("names/nested", pa.table(nested))
