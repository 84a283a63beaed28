#!/usr/bin/env python3
"""Draws layers.svg, the crates and what each stands on, from crates.txt alone. Usage: docs/layers.py [--check]

A crate stands one row above the highest crate that it stands on. An arrow is drawn to each of those that it does not reach through another. With --check nothing is
written, and the status is 1 where layers.svg is another picture than the one of crates.txt.
"""
import os, sys

HERE = os.path.dirname(os.path.abspath(__file__))
PICTURE = os.path.join(HERE, "layers.svg")
WIDE, HIGH, GAP, STEP, EDGE = 150, 40, 26, 84, 24
COLOURS = ["#cfe3f5", "#d8ecd2", "#f6e7c1", "#f4d5cd", "#e3d6f0", "#d2ecec", "#f3d9e8", "#e6e6c8", "#dcdcdc", "#ffe0c2", "#d9e0ff", "#cdeadf"]
SWEEPS = 40


def read_crates(path):
    """The layers in order, the layer of each crate, and what each crate names, in the order of crates.txt."""
    layers, layer_of, below = [], {}, {}
    for line in open(path, encoding="utf-8"):
        line = line.strip()
        if line.startswith("# ") and ":" not in line:
            layers.append(line[2:])
        elif line and not line.startswith("#"):
            name, names = line.split(":")
            name = name.split()[0]
            layer_of[name], below[name] = layers[-1], names.split()
    return layers, layer_of, below


def nearest(below):
    """Of what each crate names, the crates that it reaches through no other, and those of the kit."""
    reached = {}

    def reach(name):
        if name not in reached:
            reached[name] = set(n for n in below[name] if n in below)
            for other in list(reached[name]):
                reached[name] |= reach(other)
        return reached[name]

    for name in below:
        reach(name)
    near = {n: [o for o in below[n] if o in below and not any(o in reached[p] for p in below[n] if p in below)] for n in below}
    kit = {n: [o for o in below[n] if o not in below and not any(o in below[p] for p in reached[n])] for n in below}
    return near, kit


def rows_of(near):
    row = {}

    def row_of(name):
        if name not in row:
            row[name] = 1 + max([row_of(other) for other in near[name]], default=-1)
        return row[name]

    for name in near:
        row_of(name)
    return row


def with_bends(near, row):
    """The rows of places, and the pairs of places in neighbouring rows; an arrow over several rows bends in each."""
    rows = [[] for _ in range(1 + max(row.values()))]
    for name in near:
        rows[row[name]].append(name)
    paths, pairs = [], []
    for name in near:
        for other in near[name]:
            path = [name] + [(name, other, r) for r in range(row[name] - 1, row[other], -1)] + [other]
            for place, r in zip(path[1:-1], range(row[name] - 1, row[other], -1)):
                rows[r].append(place)
            paths.append(path)
            pairs += zip(path, path[1:])
    return rows, paths, pairs


def crossings(rows, pairs):
    at = {place: i for row in rows for i, place in enumerate(row)}
    level = {place: r for r, row in enumerate(rows) for place in row}
    count = 0
    for r in range(1, len(rows)):
        here = [(at[a], at[b]) for a, b in pairs if level[a] == r]
        count += sum((a - c) * (b - d) < 0 for i, (a, b) in enumerate(here) for c, d in here[:i])
    return count


def order(rows, pairs):
    """Places of a row in the order of the means of their neighbours, swept up and down; the order with the fewest crossings."""
    down, up = {}, {}
    for a, b in pairs:
        down.setdefault(a, []).append(b)
        up.setdefault(b, []).append(a)
    best, fewest = [list(row) for row in rows], crossings(rows, pairs)
    for sweep in range(SWEEPS):
        rising = sweep % 2 == 0
        for r in range(1, len(rows)) if rising else range(len(rows) - 2, -1, -1):
            beside = rows[r - 1] if rising else rows[r + 1]
            at = {place: i for i, place in enumerate(beside)}
            near = down if rising else up

            def mean(item):
                i, place = item
                found = [at[n] for n in near.get(place, []) if n in at]
                return sum(found) / len(found) if found else i

            rows[r] = [place for _, place in sorted(enumerate(rows[r]), key=mean)]
        count = crossings(rows, pairs)
        if count < fewest:
            best, fewest = [list(row) for row in rows], count
    return best


def is_bend(place):
    return isinstance(place, tuple)


def span(place):
    return GAP if is_bend(place) else WIDE


def columns(rows, pairs):
    """The middle of each place: near the mean of its neighbours, and no place over another."""
    near = {}
    for a, b in pairs:
        near.setdefault(a, []).append(b)
        near.setdefault(b, []).append(a)
    x = {}
    for row in rows:
        left = 0
        for place in row:
            x[place] = left + span(place) / 2
            left += span(place) + GAP
    for sweep in range(4 * SWEEPS):
        for row in rows if sweep % 2 else reversed(rows):
            for i in sorted(range(len(row)), key=lambda i: is_bend(row[i]), reverse=sweep % 3 == 0):
                place = row[i]
                around = near.get(place, [])
                if not around:
                    continue
                want = sum(x[n] for n in around) / len(around)
                low = x[row[i - 1]] + (span(row[i - 1]) + span(place)) / 2 + GAP if i else None
                high = x[row[i + 1]] - (span(row[i + 1]) + span(place)) / 2 - GAP if i + 1 < len(row) else None
                if low is not None:
                    want = max(want, low)
                if high is not None:
                    want = min(want, high)
                x[place] = want
    least = min(x[p] - span(p) / 2 for p in x)
    return {place: round(x[place] - least + EDGE) for place in x}


def drawing(layers, layer_of, below):
    near, kit = nearest(below)
    row = rows_of(near)
    rows, paths, pairs = with_bends(near, row)
    rows = order(rows, pairs)
    x = columns(rows, pairs)
    used = [layer for layer in layers if layer in layer_of.values()]
    colour = {layer: COLOURS[i % len(COLOURS)] for i, layer in enumerate(used)}
    width = max(x[p] + span(p) / 2 for p in x) + EDGE
    legend, left, line = [], EDGE, 0
    for layer in used:
        long = 40 + 8 * len(layer)
        if left + long > width:
            left, line = EDGE, line + 1
        legend.append((layer, left, EDGE + 22 * line))
        left += long
    top = EDGE + 22 * line + 34
    height = top + STEP * (len(rows) - 1) + HIGH + EDGE

    def middle(r):
        return top + STEP * (len(rows) - 1 - r) + HIGH / 2

    def row_of(place):
        return place[2] if is_bend(place) else row[place]

    out = ['<svg xmlns="http://www.w3.org/2000/svg" viewBox="0 0 %d %d" font-family="sans-serif" font-size="13">' % (width, height)]
    out.append("<title>The crates and what each stands on</title>")
    out.append('<rect width="100%" height="100%" fill="#ffffff"/>')
    for layer, left, y in legend:
        out.append('<rect x="%d" y="%d" width="14" height="14" fill="%s" stroke="#888888"/>' % (left, y - 8, colour[layer]))
        out.append('<text x="%d" y="%d">%s</text>' % (left + 19, y + 4, layer))
    out.append('<g fill="none" stroke="#777777" stroke-width="1.2">')
    for path in paths:
        line = ""
        for place, next_place in zip(path, path[1:]):
            a, b = x[place], middle(row_of(place)) + HIGH / 2
            c, d = x[next_place], middle(row_of(next_place)) - HIGH / 2
            bend = (b + d) / 2
            # beside the boxes of a row an arrow goes straight down, and bends between rows alone
            line += ("M%d %d" if not line else " L%d %d") % (a, b)
            line += " C%d %d %d %d %d %d" % (a, bend, c, bend, c, d)
        out.append('<path d="%s"/>' % line)
    out.append("</g>")
    for name in near:
        dashed = ' stroke-dasharray="4 3"' if name.endswith("_tests") else ""
        a, b = x[name] - WIDE / 2, middle(row[name]) - HIGH / 2
        out.append('<rect x="%d" y="%d" width="%d" height="%d" rx="5" fill="%s" stroke="#555555"%s/>' % (a, b, WIDE, HIGH, colour[layer_of[name]], dashed))
        lines = [(name, 13, "#000000")] + ([("and of the kit " + ", ".join(kit[name]), 10, "#444444")] if kit[name] else [])
        for i, (text, size, ink) in enumerate(lines):
            y = middle(row[name]) + 4.5 + (i - (len(lines) - 1) / 2) * 15
            out.append('<text x="%d" y="%.1f" text-anchor="middle" font-size="%d" fill="%s">%s</text>' % (x[name], y, size, ink, text))
    out.append("</svg>")
    return "\n".join(out) + "\n"


picture = drawing(*read_crates(os.path.join(HERE, "..", "crates.txt")))
if sys.argv[1:] == ["--check"]:
    if not os.path.exists(PICTURE) or open(PICTURE, encoding="utf-8").read() != picture:
        print("docs/layers.svg is not the picture of crates.txt: docs/layers.py draws it")
        sys.exit(1)
elif sys.argv[1:]:
    sys.exit(__doc__)
else:
    open(PICTURE, "w", encoding="utf-8").write(picture)
