#!/usr/bin/env python3
"""Draws the plots of the documents from the tables that stand in them, and from nothing else. Usage: docs/plots.py [--check]

A plot is a picture of the first table in a section: bars of one column on a scale of powers of two, with a line at 1, or lines of some columns over another. With --check
nothing is written, and the status is 1 where a picture is not that of its table.
"""
import math, os, re, sys

HERE = os.path.dirname(os.path.abspath(__file__))
# the picture, its document and section, and what is drawn: bars (a column), or lines over a column (with the names of both axes)
PLOTS = [
    ("decoders", "BENCHMARKS.md", "Decoders", ("bars", "ratio", "time of the proved decoder, in times of the Rust's")),
    ("footers", "BENCHMARKS.md", "Large footers", ("lines", "bytes", [("ms", "proved"), ("Rust ms", "Rust")], "bytes of the footer", "ms")),
    ("rows", "BENCHMARKS.md", "Time over rows", ("lines", "rows", [
        ("numbers ms", "numbers, proved"), ("Rust numbers ms", "numbers, Rust"), ("texts ms", "texts, proved"), ("Rust texts ms", "texts, Rust"),
    ], "rows", "ms")),
    ("scans", "BENCHMARKS.md", "Whole scans", ("bars", "ratio", "processor time of the proved program, in times of the Rust's")),
]
INKS = ["#2f6db3", "#c2703d", "#4b8b3b", "#7a55a3"]
HEAD = '<svg xmlns="http://www.w3.org/2000/svg" viewBox="0 0 %d %d" font-family="sans-serif" font-size="12">\n<rect width="100%%" height="100%%" fill="#ffffff"/>'


def table_of(document, section):
    """The columns' names and the rows of the first table in a section."""
    text = open(os.path.join(HERE, document), encoding="utf-8").read()
    part = re.split(r"^#+ ", text.split("\n## %s\n" % section, 1)[1], flags=re.M)[0]
    lines = [line for line in re.search(r"(?:^\|.*\n)+", part, re.M).group(0).splitlines()]
    cells = [[cell.strip() for cell in line.strip("|").split("|")] for line in lines]
    return cells[0], cells[2:]


def number(cell):
    return float(cell.replace(",", "").split()[0])


def bars(columns, rows, column, title):
    at = columns.index(column)
    found = [(row[0].strip("`"), number(row[at])) for row in rows]
    left, wide, high, top = 230, 420, 18, 40
    least = math.floor(min(0, min(math.log2(value) for _, value in found)))
    most = math.ceil(max(math.log2(value) for _, value in found))

    def x(value):
        return left + wide * (math.log2(value) - least) / (most - least)

    out = [HEAD % (left + wide + 60, top + high * len(found) + 30), "<title>%s</title>" % title, '<text x="%d" y="18">%s</text>' % (left, title)]
    bottom = top + high * len(found)
    for power in range(least, most + 1):
        value = 2.0 ** power
        ink, thick = ("#222222", 1.5) if power == 0 else ("#cccccc", 1)
        out.append('<line x1="%.1f" y1="%d" x2="%.1f" y2="%d" stroke="%s" stroke-width="%s"/>' % (x(value), top - 6, x(value), bottom, ink, thick))
        out.append('<text x="%.1f" y="%d" text-anchor="middle" fill="#444444">%g</text>' % (x(value), bottom + 16, value))
    for i, (name, value) in enumerate(found):
        y = top + high * i
        a, b = sorted((x(1), x(value)))
        out.append('<rect x="%.1f" y="%d" width="%.1f" height="%d" fill="%s"/>' % (a, y + 2, b - a, high - 6, INKS[0] if value <= 1 else INKS[1]))
        out.append('<text x="%d" y="%d" text-anchor="end">%s</text>' % (left - 8, y + 13, name))
        out.append('<text x="%.1f" y="%d" fill="#444444" font-size="11">%.2f</text>' % (max(x(value), x(1)) + 5, y + 12, value))
    return "\n".join(out + ["</svg>"]) + "\n"


def step_for(most):
    """A round step that makes four to eight parts of a range."""
    for power in range(-3, 16):
        for step in (1, 2, 5):
            if most / (step * 10.0 ** power) <= 8:
                return step * 10.0 ** power
    raise ValueError(most)


def lines(columns, rows, over, shown, name_over, name_up):
    xs = [number(row[columns.index(over)]) for row in rows]
    series = [(label, [number(row[columns.index(name)]) for row in rows]) for name, label in shown]
    left, wide, top, high = 80, 420, 40, 260
    most_x, most_y = max(xs), max(max(values) for _, values in series)

    def place(a, b):
        return left + wide * a / most_x, top + high - high * b / most_y

    out = [HEAD % (left + wide + 150, top + high + 50), "<title>%s over %s</title>" % (name_up, name_over), '<text x="%d" y="22">%s</text>' % (left - 60, name_up)]
    for most, is_over in ((most_x, True), (most_y, False)):
        step = step_for(most)
        for i in range(int(most / step) + 1):
            value = i * step
            x, y = place(value, 0) if is_over else place(0, value)
            other = (x, top) if is_over else (left + wide, y)
            out.append('<line x1="%.1f" y1="%.1f" x2="%.1f" y2="%.1f" stroke="#dddddd"/>' % (x, y, *other))
            text = format(int(value), ",") if value == int(value) else "%g" % value
            at = (x, y + 18, "middle") if is_over else (x - 6, y + 4, "end")
            out.append('<text x="%.1f" y="%.1f" text-anchor="%s" fill="#444444" font-size="11">%s</text>' % (*at, text))
    out.append('<text x="%.1f" y="%d" text-anchor="middle">%s</text>' % (left + wide / 2, top + high + 40, name_over))
    for ink, (name, values) in zip(INKS, series):
        points = [place(a, b) for a, b in zip(xs, values)]
        out.append('<polyline fill="none" stroke="%s" stroke-width="2" points="%s"/>' % (ink, " ".join("%.1f,%.1f" % point for point in points)))
        out += ['<circle cx="%.1f" cy="%.1f" r="3" fill="%s"/>' % (*point, ink) for point in points]
        out.append('<text x="%.1f" y="%.1f" fill="%s">%s</text>' % (points[-1][0] + 8, points[-1][1] + 4, ink, name))
    return "\n".join(out + ["</svg>"]) + "\n"


def picture(document, section, drawn):
    columns, rows = table_of(document, section)
    return {"bars": bars, "lines": lines}[drawn[0]](columns, rows, *drawn[1:])


if sys.argv[1:] not in ([], ["--check"]):
    sys.exit(__doc__)
stale = 0
for name, document, section, drawn in PLOTS:
    path = os.path.join(HERE, "plots", name + ".svg")
    found = picture(document, section, drawn)
    if sys.argv[1:]:
        if not os.path.exists(path) or open(path, encoding="utf-8").read() != found:
            print("docs/plots/%s.svg is not the picture of the table in docs/%s: docs/plots.py draws it" % (name, document))
            stale = 1
    else:
        os.makedirs(os.path.dirname(path), exist_ok=True)
        open(path, "w", encoding="utf-8").write(found)
sys.exit(stale)
