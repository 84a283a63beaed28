"""Writes files that are a footer alone: FOLDER. Prints a line `NAME COLUMNS GROUPS PATH` for each."""
import sys


def varint(number):
    out = bytearray()
    while number >= 128:
        out.append(number % 128 + 128)
        number //= 128
    out.append(number)
    return bytes(out)


def signed(number):
    return varint(2 * number if number >= 0 else -2 * number - 1)


def text(value):
    return varint(len(value)) + value


def items(kind, values):
    head = bytes([len(values) * 16 + kind]) if len(values) < 15 else bytes([240 + kind]) + varint(len(values))
    return head + b"".join(values)


def struct(*fields):
    """Fields in rising order of their ids: id, kind, bytes."""
    out, before = bytearray(), 0
    for ident, kind, value in fields:
        out += bytes([(ident - before) * 16 + kind]) + value
        before = ident
    return bytes(out) + b"\0"


I32, I64, BINARY, LIST, STRUCT = 5, 6, 8, 9, 12


def footer(columns, groups):
    names = [b"column%d" % i for i in range(columns)]
    root = struct((4, BINARY, text(b"schema")), (5, I32, signed(columns)))
    leaves = [struct((1, I32, signed(1)), (3, I32, signed(0)), (4, BINARY, text(name))) for name in names]
    word = (7).to_bytes(4, "little")
    ends = struct((3, I64, signed(0)), (5, BINARY, text(word)), (6, BINARY, text(word)))

    def chunk(name, place):
        meta = struct(
            (1, I32, signed(1)), (2, LIST, items(I32, [signed(0)])), (3, LIST, items(BINARY, [text(name)])),
            (4, I32, signed(0)), (5, I64, signed(100)), (6, I64, signed(400)), (7, I64, signed(400)),
            (9, I64, signed(place)), (12, STRUCT, ends),
        )
        return struct((2, I64, signed(place)), (3, STRUCT, meta))

    row_groups = []
    for group in range(groups):
        chunks = [chunk(name, 4 + 400 * (group * columns + i)) for i, name in enumerate(names)]
        row_groups.append(struct((1, LIST, items(STRUCT, chunks)), (2, I64, signed(400 * columns)), (3, I64, signed(100))))
    return struct(
        (1, I32, signed(1)), (2, LIST, items(STRUCT, [root] + leaves)), (3, I64, signed(100 * groups)),
        (4, LIST, items(STRUCT, row_groups)),
    )


folder = sys.argv[1]
for columns, groups in [(1000, 125), (1000, 250), (1000, 500), (1000, 1000)]:
    body = footer(columns, groups)
    path = f"{folder}/{columns}_{groups}.parquet"
    with open(path, "wb") as out:
        out.write(b"PAR1" + body + len(body).to_bytes(4, "little") + b"PAR1")
    print(f"{columns}x{groups}", columns, groups, path)
