"""Compares what pqinspect and pqscan say of files with what pyarrow reads of them, inside the chroot of setup.sh. Prints a line for each set of files,
the counts, and the first differences, and ends with 1 where there is one. Usage: compare.py PROGRAMS SETS [--damage]

PROGRAMS is the folder of both programs, SETS one whose folders are the sets. Each file is read by pyarrow group by group, and its cells are brought back to
the numbers and bytes that are stored. With --damage five answers about one file are changed before they are compared: an end of a group and the nulls
of a page that pqinspect told, a cell that pqscan printed, a row that it printed of a whole column, which is left out, and one that meets a bound, which is
left out of the runs as well.

  pqinspect: the paths and types of columns, the rows of groups, the ends and nulls of chunks as pyarrow has them, and ends and nulls of chunks and pages
             as the cells have them: no cell lies outside, and the nulls are as many.
  pqscan:    each flat column whole, in the type that pqinspect names and in the one that pyarrow has for it; and bounded by its median from below and from
             above, where the order of the type is that of its writer: what is printed are the rows of the runs, and each row that meets the bound is one.
"""
import decimal, json, os, struct, subprocess, sys, tempfile
import pyarrow as pa, pyarrow.parquet as pq

T = pa.types
WIDE = decimal.Context(prec=90)
PROGRAMS, SETS = sys.argv[1:3]
DAMAGE = "--damage" in sys.argv[3:]
DAMAGED = "pyarrow/indexes/sorted_v1.parquet"
JOBS = int(os.environ.get("JOBS", "2"))
SHOWN = 20


def plain(arr):
    """One array of values without dictionaries and extension types."""
    if isinstance(arr, pa.ChunkedArray):
        parts = [plain(part) for part in arr.chunks]
        return pa.concat_arrays(parts) if parts else plain(pa.array([], type=arr.type))
    while True:
        if isinstance(arr.type, pa.BaseExtensionType):
            arr = arr.storage
        elif T.is_dictionary(arr.type):
            arr = arr.dictionary_decode()
        else:
            return arr


# ---- cells as they are stored

def numbers(arr):
    t = arr.type
    if T.is_date32(t) or T.is_time32(t):
        arr = arr.view(pa.int32())
    elif T.is_temporal(t):
        arr = arr.view(pa.int64())
    return arr.to_pylist()


def wrapped(number, bits):
    return number - (1 << bits) if number >> (bits - 1) & 1 and number >= 0 else number


def stored(arr, column):
    """The cells of an array as the truth values, numbers and bytes that its column stores."""
    t, kind = arr.type, column.physical_type
    if T.is_null(t):
        return [None] * len(arr)
    if T.is_decimal(t):
        cells = [None if v is None else int(v.scaleb(t.scale, WIDE)) for v in arr.to_pylist()]
        if kind == "FIXED_LEN_BYTE_ARRAY":
            return [None if v is None else v.to_bytes(column.length, "big", signed=True) for v in cells]
        return cells
    if T.is_float16(t):
        return [v for v in arr.view(pa.binary(2)).to_pylist()]
    if kind == "BOOLEAN":
        return arr.to_pylist()
    if kind in ("INT32", "INT64", "INT96"):
        cells = numbers(arr)
        if T.is_date64(t) and kind == "INT32":
            cells = [None if v is None else v // 86400000 for v in cells]
        bits = 32 if kind == "INT32" else 64
        return [None if v is None else wrapped(v, bits) for v in cells]
    return [v.encode() if isinstance(v, str) else v for v in arr.to_pylist()]


def spelled(cell):
    if cell is None:
        return "null"
    if isinstance(cell, bool):
        return str(cell).lower()
    return "0x" + cell.hex() if isinstance(cell, bytes) else str(cell)


def quoted(name):
    letters = ["\\x%02x" % ord(c) if c in '\\"' or ord(c) < 32 or ord(c) == 127 else c for c in name]
    return '"' + "".join(letters) + '"'


# ---- cells in the type that pyarrow has

def meant(t):
    """The word of pqscan for a type of pyarrow, or none."""
    if T.is_null(t):
        return "Null"
    if T.is_boolean(t):
        return "Boolean"
    if T.is_integer(t):
        return str(t).replace("uint", "UInt").replace("int", "Int")
    if T.is_float16(t):
        return "FixedSizeBinary(2)"
    for test, word in ((T.is_date32, "Date32"), (T.is_date64, "Date64"), (T.is_large_string, "LargeUtf8"), (T.is_string, "Utf8"),
                       (T.is_large_binary, "LargeBinary"), (T.is_binary, "Binary")):
        if test(t):
            return word
    for test, word in ((T.is_time32, "Time32"), (T.is_time64, "Time64"), (T.is_timestamp, "Timestamp"), (T.is_duration, "Duration")):
        if test(t):
            return "%s(%s)" % (word, t.unit)
    if T.is_decimal(t):
        return "Decimal(%d,%d)" % (t.precision, t.scale)
    if T.is_fixed_size_binary(t):
        return "FixedSizeBinary(%d)" % t.byte_width
    return None


def cells_meant(arr):
    """The cells of an array as pqscan prints them in that type."""
    t = arr.type
    if T.is_null(t):
        return ["null"] * len(arr)
    if T.is_decimal(t):
        return [spelled(None if v is None else int(v.scaleb(t.scale, WIDE))) for v in arr.to_pylist()]
    if T.is_float16(t):
        return [spelled(v) for v in arr.view(pa.binary(2)).to_pylist()]
    if T.is_string(t) or T.is_large_string(t):
        return ["null" if v is None else quoted(v) for v in arr.to_pylist()]
    if T.is_temporal(t):
        return [spelled(v) for v in numbers(arr)]
    return [spelled(v) for v in arr.to_pylist()]


# ---- columns

def logical(column):
    return json.loads(column.logical_type.to_json())


def order(column):
    """What a writer orders the stored cells of a column by, or none where the format has no order."""
    kind, told = column.physical_type, logical(column)
    if kind == "INT96" or column.converted_type == "INTERVAL" or told.get("Type") == "Interval":
        return None
    if told.get("Type") == "Int" and not told.get("isSigned", True):
        return lambda v: v & ((1 << (32 if kind == "INT32" else 64)) - 1)
    if kind in ("FIXED_LEN_BYTE_ARRAY", "BYTE_ARRAY") and told.get("Type") == "Decimal":
        return lambda v: int.from_bytes(v, "big", signed=True)
    if told.get("Type") == "Float16":
        return lambda v: struct.unpack("<e", v)[0]
    return lambda v: v


def as_stored(column):
    """Whether that order is the one of the type that pqinspect names."""
    told = logical(column)
    return order(column) is not None and not (told.get("Type") in ("Decimal", "Float16") and column.physical_type == "FIXED_LEN_BYTE_ARRAY") \
        and not (told.get("Type") == "Int" and not told.get("isSigned", True))


def first_name(column, tops):
    if column.path == column.name:
        return column.name
    return max((top for top in tops if column.path.startswith(top + ".")), key=len)


def without_guess(column, names, name):
    """Why pqinspect has no type for a column, or none where it has one."""
    if column.path != column.name:
        return "nested"
    if column.max_repetition_level:
        return "repeated"
    if names.count(name) > 1:
        return "another path begins with its name"
    if column.physical_type in ("FLOAT", "DOUBLE"):
        return "FLOAT or DOUBLE"
    return None


def guess(column):
    kind, told = column.physical_type, logical(column)
    if kind == "INT64" and told.get("Type") == "Timestamp":
        return "Timestamp(%s)" % {"milliseconds": "ms", "microseconds": "us", "nanoseconds": "ns"}[told["timeUnit"]]
    if kind == "FIXED_LEN_BYTE_ARRAY":
        return "FixedSizeBinary(%d)" % column.length
    return {"BOOLEAN": "Boolean", "INT32": "Int32", "INT64": "Int64", "INT96": "Timestamp(ns)", "BYTE_ARRAY": "Binary"}[kind]


# ---- one file

class Looked:
    """What came of a file: counts, differences, and the answers that were changed on purpose."""

    def __init__(self, name, damage):
        self.name, self.count, self.reasons = name, {}, {}
        self.differences, self.changed = [], []
        self.damage = ["an end", "the nulls of a page", "a cell", "a row of a run", "a row"] if damage else []

    def add(self, what, number=1):
        self.count[what] = self.count.get(what, 0) + number

    def because(self, what, reason):
        key = what + ": " + reason
        self.reasons[key] = self.reasons.get(key, 0) + 1

    def same(self, answer, what, here, there):
        if here != there:
            self.differences.append([answer, "%s: %s here, %s there" % (what, here, there)])
        return here == there

    def holds(self, answer, what, true):
        if not true:
            self.differences.append([answer, what])
        return true

    def change(self, kind, answer):
        """Whether this answer is to be changed in this way."""
        if self.damage[:1] != [kind]:
            return False
        self.damage.pop(0)
        self.changed.append(answer)
        return True


def run(program, *words):
    ended = subprocess.run([os.path.join(PROGRAMS, program)] + list(words), stdout=subprocess.PIPE, stderr=subprocess.PIPE, timeout=60)
    return ended.returncode, ended.stdout.decode().split("\n")[:-1], ended.stderr.decode().strip()


def other(word):
    """Another word of the same kind."""
    if word in ("true", "false"):
        return "false" if word == "true" else "true"
    return "0" if word == "null" else word[:-1] + ("1" if word[-1] != "1" else "2")


def inspect(looked, path, file, columns, reasons, cells):
    """Compares the whole text of pqinspect."""
    about = "pqinspect"
    status, lines, message = run("pqinspect", path)
    if not looked.same(about, "status", "%d %s" % (status, message), "0 "):
        return
    count = len(columns)
    for number, column in enumerate(columns):
        word = "-" if reasons[number] else guess(column)
        looked.same(about, "column", lines[number:number + 1], ["column %d %s %s" % (number, quoted(column.path), word)])
        looked.add("columns")
    at = count
    for group in range(file.metadata.num_row_groups):
        told = file.metadata.row_group(group)
        looked.same(about, "group", lines[at:at + 1], ["group %d %d" % (group, told.num_rows)])
        at += 1
        for number, column in enumerate(columns):
            if reasons[number]:
                continue
            answer = "pqinspect, group %d, column %s" % (group, quoted(column.path))
            line, at = (lines[at] if at < len(lines) else ""), at + 1
            words = line.split(" ")
            if not looked.same(answer, "words", words[:2] + [len(words)], ["stats", str(number), 5]):
                continue
            if words[2] != "?" and looked.change("an end", answer):
                words[2] = other(words[2])
            compare_chunk(looked, answer, words[2:], told.column(number), column, cells[group][number])
            pages = []
            while at < len(lines) and lines[at].startswith("page "):
                pages.append(lines[at].split(" "))
                at += 1
            compare_pages(looked, answer, pages, told.column(number), number, column, cells[group][number])
    looked.same(about, "lines behind the last", lines[at:], [])


def told_end(word, column):
    """The end that a word tells, as it is stored."""
    if word in ("true", "false"):
        return word == "true"
    return bytes.fromhex(word[2:]) if word.startswith("0x") else int(word)


def within(looked, answer, low, high, column, cells, what):
    """No cell lies outside the ends that are told; how many of the ends are exact."""
    by, values = order(column), [v for v in cells if v is not None]
    if by is None or not values:
        return
    for word, end, sign in ((low, min(map(by, values)), 1), (high, max(map(by, values)), -1)):
        if word != "?":
            told = by(told_end(word, column))
            looked.holds(answer, "%s: the end %s, where there is a cell %s" % (what, word, end), told == end or (told < end) == (sign > 0))
            looked.add("ends that a cell has" if told == end else "ends that no cell has")


def compare_chunk(looked, answer, words, told, column, cells):
    low, high, nulls = words
    statistics = told.statistics
    looked.add("chunks")
    if statistics is not None and statistics.has_min_max:
        looked.same(answer, "ends", [low, high], [spelled(statistics.min_raw), spelled(statistics.max_raw)])
        looked.add("ends", 2)
    elif (low, high) != ("?", "?"):
        looked.because("ends told here and not by pyarrow", "no order" if order(column) is None else "one end alone" if "?" in (low, high) else "both")
        looked.holds(answer, "ends %s and %s, where pyarrow has none" % (low, high), "?" in (low, high) or order(column) is None)
    else:
        values = [v for v in cells if v is not None]
        looked.because("no ends, by neither", "no statistics" if statistics is None else "no cell but nulls" if not values else "the type has no order"
                       if order(column) is None else "statistics without ends")
    if statistics is not None and statistics.has_null_count:
        looked.same(answer, "nulls", nulls, str(statistics.null_count))
        looked.add("nulls")
    else:
        looked.same(answer, "nulls", nulls, "?")
        looked.because("no number of nulls, by neither", "no statistics" if statistics is None else "statistics without it")
    if nulls != "?":
        looked.same(answer, "nulls and null cells", nulls, str(sum(v is None for v in cells)))
    within(looked, answer, low, high, column, cells, "stats")


def compare_pages(looked, answer, pages, told, number, column, cells):
    answer += ", pages"
    both = told.has_column_index and told.has_offset_index
    if not pages:
        reason = "no indexes" if not told.has_column_index and not told.has_offset_index else "no column index" if not told.has_column_index else \
            "fixed bytes" if column.physical_type == "FIXED_LEN_BYTE_ARRAY" else "no rows" if not cells else None
        looked.holds(answer, "no lines of pages, where pyarrow tells of both indexes", reason is not None)
        looked.because("chunks without lines of pages", reason or "not known")
        return
    looked.holds(answer, "lines of pages, where pyarrow does not tell of both indexes", both)
    row = 0
    for words in pages:
        if not looked.same(answer, "words of a page", words[:2] + [len(words)], ["page", str(number), 6]):
            return
        start, length = map(int, words[2].split("+"))
        looked.same(answer, "first row of a page", start, row)
        row = start + length
        part = cells[start:row]
        looked.holds(answer, "page %s is past the rows" % words[2], len(part) == length)
        if looked.change("the nulls of a page", answer):
            words[5] = other(words[5])
        what = "page " + words[2]
        if words[5] != "?":
            looked.same(answer, what + ": nulls", words[5], str(sum(v is None for v in part)))
        else:
            looked.because("pages without", "a number of nulls")
        if (words[3], words[4]) == ("?", "?"):
            alone = all(v is None for v in part)
            looked.holds(answer, what + ": no ends, and other cells than nulls", alone)
            looked.because("pages without", "ends, of nulls alone")
        within(looked, answer, words[3], words[4], column, part, what)
        looked.add("pages")
    looked.same(answer, "rows of all pages", row, len(cells))


def scan(looked, path, answer, column, told, words, cells, groups, bounded):
    """Compares one run of pqscan; cells are those of each group as they should be printed. Answers the rows printed of each group, or none."""
    status, lines, message = run("pqscan", path, *words)
    if status:
        reason = refusal(column, told, status)
        looked.holds(answer, "status %d, %s" % (status, message), reason is not None)
        looked.because("pqscan refused", "%s (status %d)" % (reason or "not known", status))
        looked.add("refused")
        return None
    runs = []
    for group, rows in enumerate(groups):
        head = lines[group].split(" ", 3) if group < len(lines) else []
        if not looked.same(answer, "group", head[:3], ["group", str(group), str(rows)]):
            return None
        runs.append([] if head[3] == "-" else [tuple(map(int, it.split("+"))) for it in head[3].split(" ")])
        if not bounded:
            looked.same(answer, "runs", runs[-1], [(0, rows)] if rows else [])
    printed = [line for line in lines[len(groups):] if not line.startswith("chunk ")]
    if not bounded and len(printed) > 1 and looked.change("a cell", answer):
        printed[-1] = other(printed[-1])
    elif not bounded and len(printed) > 1 and looked.change("a row", answer):
        printed.pop()
    elif bounded and runs and runs[-1] and looked.change("a row of a run", answer):
        start, length = runs[-1].pop()
        runs[-1].append((start, length - 1))
        printed.pop()
    wanted = [cell for group, its in enumerate(runs) for start, length in its for cell in cells[group][start:start + length]]
    looked.same(answer, "rows", len(printed), len(wanted))
    for place, (here, there) in enumerate(zip(printed, wanted)):
        if not looked.same(answer, "cell %d" % place, here, there):
            break
    looked.add("cells", len(wanted))
    return runs


def refusal(column, told, status):
    """The known reason for which pqscan does not read a column, or none."""
    codings = {coding for chunk in told for coding in chunk.encodings}
    if status != 4:
        return None
    if any(chunk.compression != "UNCOMPRESSED" for chunk in told):
        return "compressed"
    if column.physical_type == "BOOLEAN" and "RLE" in codings:
        return "truth values in runs"
    if column.physical_type == "BYTE_ARRAY" and logical(column).get("Type") == "Decimal":
        return "decimals as BYTE_ARRAY"
    return next((coding for coding in ("BYTE_STREAM_SPLIT", "DELTA_BYTE_ARRAY") if coding in codings), None)


def value(word, cell, shown):
    """A bound at a cell, in the type of this word."""
    if word.endswith("Utf8"):
        return cell.decode()
    return shown


def scan_column(looked, path, file, column, told, cells, arrays):
    """All runs of pqscan about one column."""
    groups = [len(part) for part in cells]
    words = [(guess(column), [[spelled(v) for v in part] for part in cells], as_stored(column))]
    type_there = arrays[0].type if arrays else None
    if type_there is not None and meant(type_there) not in (None, words[0][0]):
        words.append((meant(type_there), [cells_meant(part) for part in arrays], order(column) is not None and not T.is_float16(type_there)))
    by, values = order(column), [v for part in cells for v in part if v is not None]
    middle = sorted(values, key=by)[len(values) // 2] if values and by else None
    for word, shown, ordered in words:
        item = "%s:%s" % (column.name, word)
        front = ["--"] if item.startswith("-") else []
        if scan(looked, path, "pqscan " + item, column, told, front + [item], shown, groups, False) is None:
            continue
        looked.add("whole columns")
        if middle is None or not ordered or word in ("Boolean", "Null"):
            continue
        spot = next((g, r) for g, part in enumerate(cells) for r, v in enumerate(part) if v == middle)
        end = value(word, middle, shown[spot[0]][spot[1]])
        if "\0" in end or ">=" in column.name or "<=" in column.name:
            continue
        for sign in (">=", "<="):
            bound = column.name + sign + end
            answer = "pqscan %s %s" % (item, bound)
            runs = scan(looked, path, answer, column, told, front + [item, bound], shown, groups, True)
            if runs is None:
                continue
            looked.add("bounded columns")
            for group, part in enumerate(cells):
                left = [True] * len(part)
                for start, length in runs[group]:
                    left[start:start + length] = [False] * length
                looked.add("rows left out", sum(left))
                lost = [r for r, v in enumerate(part) if left[r] and v is not None and (by(v) >= by(middle) if sign == ">=" else by(v) <= by(middle))]
                looked.holds(answer, "group %d: rows that meet the bound are left out: %s" % (group, lost[:5]), not lost)


def compare(name, damage):
    path = os.path.join(SETS, name)
    looked = Looked(name, damage)
    file = pq.ParquetFile(path)
    columns = [file.schema.column(number) for number in range(len(file.schema))]
    names = [first_name(column, file.schema_arrow.names) for column in columns]
    reasons = [without_guess(column, names, first) for column, first in zip(columns, names)]
    groups = range(file.metadata.num_row_groups)
    arrays = [[None if why else plain(file.reader.read_row_group(group, column_indices=[number], use_threads=False).column(0))
               for number, why in enumerate(reasons)] for group in groups]
    cells = [[None if why else stored(arrays[group][number], columns[number]) for number, why in enumerate(reasons)] for group in groups]
    for why in reasons:
        if why:
            looked.because("columns without a type", why)
    inspect(looked, path, file, columns, reasons, cells)
    for number, why in enumerate(reasons):
        if not why:
            told = [file.metadata.row_group(group).column(number) for group in groups]
            scan_column(looked, path, file, columns[number], told, [cells[g][number] for g in groups], [arrays[g][number] for g in groups])
    looked.add("files")
    return {"name": name, "count": looked.count, "reasons": looked.reasons, "differences": looked.differences, "changed": looked.changed}


# ---- all files

def work(files, share, out):
    """What one process does; what it was at stands in the result if it is ended."""
    for name in files[share::JOBS]:
        try:
            it = compare(name, DAMAGE and name == DAMAGED)
        except Exception as error:
            it = {"name": name, "count": {}, "reasons": {}, "differences": [["all", "not compared: %s: %s" % (type(error).__name__, error)]], "changed": []}
        out.write(json.dumps(it) + "\n")
        out.flush()


def main():
    pa.set_cpu_count(1)
    pa.set_io_thread_count(1)
    files = sorted(os.path.relpath(os.path.join(at, name), SETS) for at, _, names in os.walk(SETS) for name in names if name.endswith(".parquet"))
    outs, children = [tempfile.TemporaryFile("w+") for _ in range(JOBS)], []
    for share, out in enumerate(outs):
        children.append(os.fork())
        if children[-1] == 0:
            work(files, share, out)
            os._exit(0)
    bad = [os.waitpid(child, 0)[1] for child in children]
    results = []
    for out in outs:
        out.seek(0)
        results += [json.loads(line) for line in out]
    results.sort(key=lambda it: it["name"])
    table(results)
    differences = [(it["name"], answer, what) for it in results for answer, what in it["differences"]]
    for name in sorted(set(files) - {it["name"] for it in results}):
        differences.append((name, "all", "not compared: the process that read it was ended"))
    print("\n%d differences" % len(differences))
    for difference in differences[:SHOWN]:
        print("%s: %s: %s" % difference)
    if DAMAGE:
        changed = [(it["name"], answer) for it in results for answer in it["changed"]]
        found = [it for it in changed if it in [(name, answer) for name, answer, _ in differences]]
        print("\nchanged on purpose: %d answers, of which found: %d; differences elsewhere: %d" % (
            len(changed), len(found), sum((name, answer) not in changed for name, answer, _ in differences)))
    sys.exit(1 if differences or any(bad) or not files else 0)


COUNTED = ["files", "columns", "chunks", "pages", "whole columns", "bounded columns", "cells", "rows left out", "refused"]


def table(results):
    sets = sorted({os.path.dirname(it["name"]) for it in results})
    print("| set | " + " | ".join(COUNTED) + " |")
    print("|---|" + "---|" * len(COUNTED))
    for name in sets + ["all"]:
        its = [it for it in results if name in ("all", os.path.dirname(it["name"]))]
        print("| %s | " % name + " | ".join(str(sum(it["count"].get(what, 0) for it in its)) for what in COUNTED) + " |")
    print("\n| counted beside | |\n|---|---|")
    others = sorted({what for it in results for what in it["count"]} - set(COUNTED))
    for what in others:
        print("| %s | %d |" % (what, sum(it["count"].get(what, 0) for it in results)))
    print("\n| not told, or refused | |\n|---|---|")
    for what in sorted({reason for it in results for reason in it["reasons"]}):
        print("| %s | %d |" % (what, sum(it["reasons"].get(what, 0) for it in results)))


main()
