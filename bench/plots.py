#!/usr/bin/env python3
"""Draws what bench/measure.py wrote by --json: time by size of four things, beside SQLite, an SVG for each corpus.

    bench/plots.py RESULTS FOLDER

RESULTS is that file, FOLDER where the pictures are put, each under its corpus' name (`records-of-a-log.svg`). A picture has a
panel each for indexing, a count, a page of hits and a histogram. Both axes are logarithmic. Nothing is painted behind it, and its
colours can be told from white and from black. Only Python's standard library is used.
"""
import argparse
import json
import math
import os
import re
from xml.sax.saxutils import escape

# What is drawn: the panel's name, and the row of the table with its unit.
PANELS = (
    ("Indexing", "indexing", "seconds"),
    ("A count: a common word", "a common word", "ms"),
    ("A page: 20 hits of a word, by a number", "first 20 of a word by a number", "ms"),
    ("A histogram over all records", "a histogram over all", "ms"),
)
# Whose times: the key in the results, the name, the colour, and whether the marks are squares.
SERIES = (("poltyqen", "Poltyqen", "#2a78d6", False), ("sqlite", "SQLite FTS5", "#d9622b", True))
UNITS = {"seconds": "s", "ms": "ms"}
INK = "#767676"

# Pixels: a panel with its room, and what is drawn in it.
PANEL, HEIGHT, TOP, BOTTOM = 380, 250, 64, 28
LEFT, RIGHT, ABOVE, BELOW = 54, 58, 30, 34
# How far apart two labels have to be.
APART = 13


def shown(number):
    """A number as people write it: three digits that count."""
    if number >= 100:
        return f"{number:,.0f}"
    return f"{number:.{max(0, 2 - math.floor(math.log10(number)))}f}".rstrip("0").rstrip(".") if number < 1 else f"{number:.3g}"


def sized(count):
    """How many records, in few letters."""
    for step, letter in ((1_000_000, " M"), (1_000, " k")):
        if count >= step:
            return f"{count / step:g}{letter}"
    return str(count)


def text(x, y, said, anchor="start", size=11, colour=INK, weight="normal"):
    return f'<text x="{x:.1f}" y="{y:.1f}" text-anchor="{anchor}" font-size="{size}" fill="{colour}" font-weight="{weight}">{escape(said)}</text>'


def line(x, y, to_x, to_y, faint):
    return f'<line x1="{x:.1f}" y1="{y:.1f}" x2="{to_x:.1f}" y2="{to_y:.1f}" stroke="{INK}" stroke-width="1" stroke-opacity="{0.3 if faint else 0.9}"/>'


def mark(x, y, colour, is_square):
    if is_square:
        return f'<rect x="{x - 3.5:.1f}" y="{y - 3.5:.1f}" width="7" height="7" fill="{colour}"/>'
    return f'<circle cx="{x:.1f}" cy="{y:.1f}" r="4" fill="{colour}"/>'


class Axis:
    """A logarithmic axis: which pixel a number is at."""

    def __init__(self, least, most, begin, end):
        self.least, self.span = math.log10(least), math.log10(most) - math.log10(least)
        self.begin, self.end = begin, end

    def at(self, number):
        if self.span == 0:
            return (self.begin + self.end) / 2
        return self.begin + (math.log10(number) - self.least) / self.span * (self.end - self.begin)


def rows_of(tables, what, unit):
    """The row of each size, the least size first."""
    rows = []
    for table in sorted(tables, key=lambda it: it["records"]):
        rows += [(table["records"], row) for row in table["rows"] if row["what"] == what and row["unit"] == unit]
    return rows


def panel(name, unit, rows, x, y):
    """One panel, whose upper left corner is there."""
    times = [row[key] for _, row in rows for key, *_ in SERIES]
    low, high = math.floor(math.log10(min(times))), math.ceil(math.log10(max(times)))
    high = max(high, low + 1)
    up = Axis(10.0**low, 10.0**high, y + HEIGHT - BELOW, y + ABOVE)
    along = Axis(rows[0][0], rows[-1][0], x + LEFT + 8, x + PANEL - RIGHT)
    drawn = [text(x + LEFT, y + 14, f"{name}, {UNITS[unit]}", size=12, weight="bold")]
    for decade in range(low, high + 1):
        drawn.append(line(x + LEFT, up.at(10.0**decade), x + PANEL - RIGHT + 8, up.at(10.0**decade), decade != low))
        drawn.append(text(x + LEFT - 6, up.at(10.0**decade) + 4, f"{10.0**decade:,g}", "end"))
    for records, _ in rows:
        drawn.append(line(along.at(records), up.begin, along.at(records), up.begin + 4, False))
        drawn.append(text(along.at(records), up.begin + 17, sized(records), "middle"))
    ends = {}
    for key, _, colour, is_square in SERIES:
        points = [(along.at(records), up.at(row[key])) for records, row in rows]
        drawn.append(f'<polyline points="{" ".join(f"{at:.1f},{of:.1f}" for at, of in points)}" fill="none" stroke="{colour}" stroke-width="2"/>')
        drawn += [mark(*point, colour, is_square) for point in points]
        ends[key] = points[-1][1]
    return drawn + labels(rows[-1][1], ends, x + PANEL - RIGHT + 9)


def labels(row, ends, x):
    """The last times, beside their marks, and one under the other."""
    drawn, lowest = [], -math.inf
    for key, _, colour, _ in sorted(SERIES, key=lambda it: ends[it[0]]):
        lowest = max(ends[key], lowest + APART)
        drawn.append(text(x, lowest + 4, shown(row[key]), colour=colour, weight="bold"))
    return drawn


def legend(x, y):
    drawn = []
    for _, name, colour, is_square in SERIES:
        drawn += [mark(x, y - 4, colour, is_square), text(x + 10, y, name, size=12, colour=colour, weight="bold")]
        x += 100
    return drawn


def told(tables):
    """The numbers as a sentence for each panel, for who can't see the picture."""
    said = []
    for name, what, unit in PANELS:
        for records, row in rows_of(tables, what, unit):
            said.append(f"{name}, {records:,} records: " + ", ".join(f"{of} {shown(row[key])} {UNITS[unit]}" for key, of, *_ in SERIES) + ".")
    return " ".join(said)


def picture(made, corpus, tables):
    width, height = 2 * PANEL, TOP + 2 * HEIGHT + BOTTOM
    drawn = [text(LEFT, 22, f"{corpus}: time by the number of records", size=15, weight="bold")]
    drawn += legend(LEFT + 5, 44)
    for place, (name, what, unit) in enumerate(PANELS):
        rows = rows_of(tables, what, unit)
        if rows:
            drawn += panel(name, unit, rows, place % 2 * PANEL, TOP + place // 2 * HEIGHT)
    drawn.append(text(LEFT, height - 10, f"Less is better. Both axes are logarithmic. Seed {made['seed']}, medians of {made['repeat']}, "
                      f"{made['processors']} processors of {made['machine']}, SQLite {made['sqlite']}.", size=10))
    head = f'<svg xmlns="http://www.w3.org/2000/svg" viewBox="0 0 {width} {height}" width="{width}" height="{height}" role="img" ' \
           'font-family="system-ui, -apple-system, Segoe UI, Helvetica, Arial, sans-serif">'
    about = f"<title>{escape(corpus)}: time by the number of records</title>\n<desc>{escape(told(tables))}</desc>"
    return "\n".join([head, about, *drawn, "</svg>", ""])


def main():
    words = argparse.ArgumentParser(description=__doc__, formatter_class=argparse.RawDescriptionHelpFormatter)
    words.add_argument("results")
    words.add_argument("folder")
    asked = words.parse_args()
    with open(asked.results, encoding="utf-8") as file:
        made = json.load(file)
    os.makedirs(asked.folder, exist_ok=True)
    for corpus in dict.fromkeys(it["corpus"] for it in made["tables"]):
        path = os.path.join(asked.folder, re.sub(r"[^a-z0-9]+", "-", corpus.lower()) + ".svg")
        with open(path, "w", encoding="utf-8") as file:
            file.write(picture(made, corpus, [it for it in made["tables"] if it["corpus"] == corpus]))
        print(path)


if __name__ == "__main__":
    main()
