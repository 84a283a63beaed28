#!/usr/bin/env python3
"""The files of put_file that other readers are run over: one for each type, with nulls and without.

    put_cases.py cases FOLDER        writes the arguments of put_all (put_all.rt.txt), a file for each case
    put_cases.py files FILE FOLDER   takes the files from what rt try --cases printed
"""
import os
import sys

# A type, and cells of it, as in crates/put_tests/src/types.rt.
TYPES = [
    ("Boolean", ["false", "true", "true", "null", "false"]),
    ("Int8", ["1", "null", "-128", "127", "-1"]),
    ("Int16", ["-32768", "32767", "null", "null", "5"]),
    ("Int32", ["-2147483648", "-1", "null", "2147483647", "-2"]),
    ("Int64", ["9223372036854775807", "-9223372036854775808", "-1", "null", "0"]),
    ("UInt8", ["0", "255", "null", "7", "128"]),
    ("UInt16", ["65535", "0", "null", "7", "32768"]),
    ("UInt32", ["1", "4294967295", "null", "2147483647", "2147483648"]),
    ("UInt64", ["18446744073709551615", "1", "9223372036854775807", "null", "9223372036854775808"]),
    ("Date32", ["-1", "null", "19723", "0", "2147483647"]),
    ("Date64", ["86400000", "-86400000", "null", "null", "0"]),
    ("Time32(s)", ["0", "null", "86399", "1", "2"]),
    ("Time32(ms)", ["0", "null", "86399999", "1", "2"]),
    ("Time64(us)", ["0", "null", "86399999999", "1", "2"]),
    ("Time64(ns)", ["0", "null", "86399999999999", "1", "2"]),
    ("Duration(s)", ["-1", "null", "-2", "1", "-3"]),
    ("Duration(ms)", ["-1", "null", "-2", "1", "-3"]),
    ("Duration(us)", ["-1", "null", "-2", "1", "-3"]),
    ("Duration(ns)", ["-1", "null", "-2", "1", "-3"]),
    ("Timestamp(s)", ["-1", "null", "-2", "1704067200", "-3"]),
    ("Timestamp(ms)", ["-1", "null", "-2", "1704067200000", "-3"]),
    ("Timestamp(us)", ["-1", "null", "-2", "1", "-3"]),
    ("Timestamp(ns)", ["-1", "null", "-2", "1", "-3"]),
    ("Timestamp(s) Europe/Rome", ["-1", "null", "-2", "1704067200", "-3"]),
    ("Timestamp(ms) UTC", ["-1", "null", "-2", "1704067200000", "-3"]),
    ("Timestamp(us) +01:00", ["-1", "null", "-2", "1", "-3"]),
    ("Timestamp(ns) Asia/Tokyo", ["-1", "null", "-2", "1704067200000000001", "0"]),
    # (the ends of 64 bits, which some readers keep for other ends)
    ("Timestamp(ms)", ["9223372036854775807", "null", "-9223372036854775808", "-1", "0"]),
    ("Timestamp(us)", ["9223372036854775807", "null", "-9223372036854775808", "-1", "0"]),
    ("Timestamp(ns)", ["9223372036854775807", "null", "-9223372036854775808", "-1", "0"]),
    ("Decimal(9,2)", ["-1", "1", "-2", "null", "0"]),
    ("Decimal(38,0)", ["-170141183460469231731687303715884105728", "-1", "null", "170141183460469231731687303715884105727", "255"]),
    ("FixedSizeBinary(3)", ["0x000000", "0xffffff", "null", "0x7fffff", "0x800000"]),
    ("Binary", ["0x", "0x00", "null", "0x80", "0x7fff"]),
    ("LargeBinary", ["0xff", "0x01", "null", "null", "0x01ff"]),
    ("Utf8", ["a", "ab", "null", "abc", "b"]),
    ("LargeUtf8", ["\u00e9", "", "null", "e", "z"]),
]


def stored(of, cell):
    """What a cell is stored as: a truth value, a number with a sign, or bytes."""
    if cell == "null":
        return None
    if of == "Boolean":
        return cell == "true"
    if of.startswith("Decimal"):
        return int(cell).to_bytes(16, "big", signed=True)
    if of.endswith("Utf8"):
        return cell.encode()
    if "Binary" in of:
        return bytes.fromhex(cell[2:])
    number = int(cell)
    for word, bits in (("UInt32", 32), ("UInt64", 64)):
        if of == word and number >= 1 << (bits - 1):
            number -= 1 << bits
    return number


def cases():
    """Names, rows of a page, and columns of a name, a type, whether they may have nulls, and cells by groups."""
    for i, (of, cells) in enumerate(TYPES):
        there = [it for it in cells if it != "null"]
        # Pages of 3 rows: a page of two nulls alone would need more, and stands in the next case.
        yield f"{i:02}n", 3, [("a", of, True, [cells + cells[::-1], []])]
        yield f"{i:02}r", 3, [("a", of, False, [[], there + there[::-1]])]
        yield f"{i:02}p", 1, [("a", of, True, [cells, ["null", "null"], cells[:1]])]
    # All in one file, under names of all kinds.
    yield "all", 2, [(f"{i} {of} \u00e9\"'", of, True, [cells, [], cells[::-1]]) for i, (of, cells) in enumerate(TYPES)]
    yield "none", 3, [("a", "Int64", True, [[]]), ("b", "Utf8", False, [[]])]
    rows = [str(i * 7919 % 1000) for i in range(1000)]
    yield "many", 7, [("a", "Int32", True, [rows, rows[:13]]), ("b", "Utf8", False, [[f"t{it}" for it in rows], [f"u{it}" for it in rows[:13]]])]


def main():
    if sys.argv[1] == "cases":
        folder = sys.argv[2]
        os.makedirs(folder, exist_ok=True)
        for name, page_rows, columns in cases():
            words = [str(page_rows)]
            for column, of, is_nullable, groups in columns:
                words += ["+", column, of, "yes" if is_nullable else "no"]
                for i, group in enumerate(groups):
                    words += (["/"] if i else []) + group
            with open(f"{folder}/{name}", "w"):
                pass
            with open(f"{folder}/{name}.args", "w", encoding="utf-8") as it:
                it.write("".join(word + "\n" for word in words))
    else:
        name = None
        os.makedirs(sys.argv[3], exist_ok=True)
        made = set()
        with open(sys.argv[2], encoding="utf-8", errors="replace") as it:
            for line in it:
                line = line.rstrip("\n")
                if line.startswith("== "):
                    name = line.split()[1]
                elif line.startswith("50415231") and name:
                    with open(f"{sys.argv[3]}/{name}.parquet", "wb") as out:
                        out.write(bytes.fromhex(line))
                    made.add(name)
        lacking = [name for name, _, _ in cases() if name not in made]
        print(f"{len(made)} files" + (f", lacking: {' '.join(lacking)}" if lacking else ""))
        sys.exit(1 if lacking else 0)


if __name__ == "__main__":
    main()
