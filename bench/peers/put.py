#!/usr/bin/env python3
"""Has pyarrow and DuckDB read files of put_file (put_cases.py) and of parquet_put, and compares cells, rows, nulls and what bounds leave.

    put.py FOLDER PARQUET_PUT        FOLDER has the files of put_cases.py; needs python3 with pyarrow, and duckdb
"""
import collections
import json
import os
import subprocess
import sys
import tempfile

import pyarrow as pa
import pyarrow.parquet as pq

from put_cases import cases, stored

told = collections.Counter()
shown = {}


def wrong(what):
    told["differs"] += 1
    print("differs:", what)


def quoted(text):
    return '"' + text.replace('"', '""') + '"'


def duck(query):
    """The rows of a query, or what DuckDB says against it."""
    found = subprocess.run(["duckdb", "-json", "-c", query], capture_output=True, text=True)
    if found.returncode:
        return found.stderr.strip().split("\n")[0]
    return json.loads(found.stdout or "[]")


def pyarrow_cells(column):
    if pa.types.is_timestamp(column.type):
        column = column.cast(pa.int64())
    return column.to_pylist()


def duck_form(kind, name, unit):
    if kind == "BLOB":
        return f"hex({name})"
    if kind.startswith("TIMESTAMP"):
        return f"epoch_{unit}({name})"
    return name


def bounds(path, name, kind, cells):
    """What bounds leave, where cells are numbers or bytes."""
    there = sorted({it for it in cells if it is not None})
    for cell in there:
        for op, test in ((">=", lambda it: it >= cell), ("<=", lambda it: it <= cell), ("=", lambda it: it == cell)):
            wanted = sum(1 for it in cells if it is not None and test(it))
            spelled = "'" + "".join(f"\\x{byte:02X}" for byte in cell) + "'::blob" if kind == "BLOB" else str(cell)
            yield wanted, op, cell, f"select count(*) n from '{path}' where {quoted(name)} {op} {spelled}"


def check(path, columns, all_types):
    file = pq.ParquetFile(path)
    rows = [len(group) for group in columns[0][3]] if columns else []
    if [file.metadata.row_group(i).num_rows for i in range(file.metadata.num_row_groups)] != rows:
        wrong(f"{path}: rows of groups in pyarrow")
    count = duck(f"select count(*) n from '{path}'")
    if count != [{"n": sum(rows)}]:
        wrong(f"{path}: rows in DuckDB: {count}")
    metadata = duck(f"select * from parquet_metadata('{path}') order by row_group_id, column_id")
    if isinstance(metadata, str):
        print(f"DuckDB's parquet_metadata of {os.path.basename(path)}: {metadata}")
        told["DuckDB's parquet_metadata fails"] += 1
    table = file.read()
    for at, (name, of, _, groups) in enumerate(columns):
        cells = [stored(of, cell) for group in groups for cell in group]
        if pyarrow_cells(table.column(at)) != cells:
            wrong(f"{path}: {name}: cells in pyarrow")
        told["columns read by pyarrow"] += 1
        told["cells read by pyarrow"] += len(cells)
        for i, group in enumerate(groups):
            statistics = file.metadata.row_group(i).column(at).statistics
            nulls = sum(1 for cell in group if cell == "null")
            if statistics is None or statistics.null_count != nulls:
                wrong(f"{path}: {name}: nulls in pyarrow: {statistics}")
            elif statistics.has_min_max:
                told["columns of groups whose ends pyarrow tells"] += 1
            else:
                told["columns of groups whose ends pyarrow does not tell"] += 1
        if not isinstance(metadata, str):
            mine = [it for it in metadata if it["column_id"] == at]
            if [it["stats_null_count"] for it in mine] != [sum(1 for cell in group if cell == "null") for group in groups]:
                wrong(f"{path}: {name}: nulls in DuckDB")
            told["columns of groups whose ends DuckDB tells"] += sum(1 for it in mine if it["stats_min_value"] is not None)
        kind = [it for it in duck(f"describe select * from '{path}'")][at]["column_type"]
        logical = str(file.schema_arrow.types[at])
        unit = next((it for it in ("ns", "us", "ms") if f"[{it}" in logical), "us")
        found = duck(f"select {duck_form(kind, quoted(name), unit)} c from '{path}'")
        if isinstance(found, str):
            print(f"DuckDB refuses {os.path.basename(path)}, {of}: {found}")
            told["columns refused by DuckDB"] += 1
        else:
            found = [it["c"] for it in found]
            if kind == "BLOB":
                found = [None if it is None else bytes.fromhex(it) for it in found]
            told["columns read by DuckDB"] += 1
            told["cells read by DuckDB"] += len(cells)
            # (the greatest number of 64 bits is DuckDB's infinity: it is not null, and its number is)
            if kind.startswith("TIMESTAMP"):
                ends = [it["c"] for it in duck(f"select {quoted(name)} is not null and {duck_form(kind, quoted(name), unit)} is null c from '{path}'")]
                told["times that are infinity in DuckDB"] += sum(ends)
                found = [(1 << 63) - 1 if end else it for it, end in zip(found, ends)]
            if found != cells:
                wrong(f"{path}: {name} {of}: cells in DuckDB: {found[:6]}, not {cells[:6]}")
        shown[of] = (logical, kind)
        if all_types and kind in ("INTEGER", "BIGINT", "BLOB"):
            asked = list(bounds(path, name, kind, cells))
            counts = duck(" union all ".join(f"select {i} i, n from ({it[3]})" for i, it in enumerate(asked)) + " order by i")
            for i, (wanted, op, cell, _) in enumerate(asked):
                told["bounds asked"] += 1
                if counts[i]["n"] != wanted:
                    told["bounds that leave other rows in DuckDB"] += 1
                    shown.setdefault("bounds", {}).setdefault(of, []).append(f"{os.path.basename(path)} {op} {cell!r}: {counts[i]['n']} of {wanted}")
                left = pq.read_table(path, filters=[(name, "==" if op == "=" else op, cell)]).num_rows
                if left != wanted:
                    wrong(f"{path}: pyarrow: {op} {cell!r}: {left} of {wanted}")


def put_lines(program, folder):
    """Texts of lines, as parquet_put puts them."""
    ends = ["9223372036854775807", "-9223372036854775808", "null", "0", "-1", "-0", "0000000000000000007"]
    texts = [[], ["null"], ["null"] * 20, ends, ends * 3, [str(i * 7919 % 1009 - 500) if i % 5 else "null" for i in range(3000)]]
    names = ["x", 'a "b" \'c\'', "\u00e9\u4e2d\U0001f600", "a.b", "a b"]
    for i, lines in enumerate(texts):
        for j, page_rows in enumerate(("1", "7", "1000", "18446744073709551615")):
            name = names[(i + j) % len(names)]
            with open(f"{folder}/lines", "w") as it:
                it.write("".join(line + "\n" for line in lines))
            path = f"{folder}/lines{i}_{j}.parquet"
            with open(path, "wb") as out:
                subprocess.run([program, f"{folder}/lines", name, page_rows], stdout=out, check=True)
            numbers = ["null" if line == "null" else str(int(line)) for line in lines]
            told["files of parquet_put"] += 1
            if lines:
                check(path, [(name, "Int64", True, [numbers])], len(lines) < 100)
            else:
                file = pq.ParquetFile(path)
                if file.metadata.num_rows or file.metadata.num_row_groups or file.read().column_names != [name]:
                    wrong(f"{path}: the empty file in pyarrow")
                found = duck(f"select * from '{path}'")
                if found not in ([], [{}]):
                    print(f"DuckDB of the file without groups: {found}")
                    told["files without groups refused by DuckDB"] += 1


for case, _, columns in cases():
    told["files of put_file"] += 1
    check(f"{sys.argv[1]}/{case}.parquet", columns, case != "many" and case != "all")
with tempfile.TemporaryDirectory() as work:
    put_lines(sys.argv[2], work)
for of, found in shown.items():
    if of != "bounds":
        print(f"| {of} | {found[0]} | {found[1]} |")
for of, lines in shown.get("bounds", {}).items():
    print(f"DuckDB's bounds leave fewer rows: {of}: {len(lines)}; {lines[0]}")
for what, count in told.items():
    print(f"{count:7} {what}")
