#!/usr/bin/env python3
"""Draws the CSV of `lux grid ROOM` as a plan of the task points, in SVG.

usage: plan.py GRID.csv [PICTURE.svg]

Each task point is a cell, with column 0 at the left and row 0, which is nearest to y = 0, at the bottom. It has the two printed ends of
its illuminance in lux and the colour of the step that the lower end reaches; the legend has the steps. A covered point is hatched.
Without a name for the picture it goes to standard output.
"""
import csv
import sys
from collections import namedtuple
from decimal import Decimal

# what the lower end of a step may be, times a power of ten, and how many steps there are at most
ROUND_STEPS, MOST_STEPS = (1, 2, 5), 10
CELL_WIDE, CELL_DEEP, MARGIN, LEGEND = 84, 60, 40, 170

Point = namedtuple("Point", "column row lower upper")


def read_grid(path):
    """The task points; the two ends of a covered one are None."""
    with open(path, newline="", encoding="utf-8-sig") as file:
        header, *records = [record for record in csv.reader(file) if record] or [[]]
    if header != ["column", "row", "lower", "upper"]:
        raise SystemExit(f"{path} isn't a grid of lux: its header is {','.join(header)}")
    if not records:
        raise SystemExit(f"{path} has no task point")
    return [Point(int(column), int(row), lower or None, upper or None) for column, row, lower, upper in records]


def lux_steps(points):
    """The lower ends of round steps, from the one that holds the least lower end to the one that holds the greatest."""
    lit = [Decimal(point.lower) for point in points if point.lower]
    if not lit:
        return []
    spread = max(lit) - min(lit)
    sizes = (Decimal(digit).scaleb(power) for power in range(-2, 8) for digit in ROUND_STEPS)
    size = next(size for size in sizes if size * (MOST_STEPS - 1) >= spread)
    first, last = (int(end // size) for end in (min(lit), max(lit)))
    return [size * k for k in range(first, last + 1)]


def colour(step, count):
    """From dark blue to light yellow, for step 0 to count - 1."""
    dark, light = (38, 70, 120), (255, 240, 150)
    part = step / (count - 1) if count > 1 else 1
    red, green, blue = (round(a + (b - a) * part) for a, b in zip(dark, light))
    return f"rgb({red},{green},{blue})", "white" if part < 0.45 else "black"


def rectangle(x, y, wide, deep, fill):
    return f'<rect x="{x}" y="{y}" width="{wide}" height="{deep}" fill="{fill}" stroke="gray"/>'


def text(x, y, words, fill="black", anchor="middle"):
    return f'<text x="{x}" y="{y}" fill="{fill}" text-anchor="{anchor}">{words}</text>'


def cell(point, x, y, steps):
    if not point.lower:
        return [rectangle(x, y, CELL_WIDE, CELL_DEEP, "url(#covered)")]
    reached = sum(step <= Decimal(point.lower) for step in steps) - 1
    fill, ink = colour(reached, len(steps))
    middle = x + CELL_WIDE / 2
    return [
        rectangle(x, y, CELL_WIDE, CELL_DEEP, fill),
        text(middle, y + 26, point.lower, ink),
        text(middle, y + 44, point.upper, ink),
    ]


def numbers(columns, rows):
    """The numbers of the columns below the plan, and of the rows at its left."""
    below = MARGIN + rows * CELL_DEEP + 18
    yield from (text(MARGIN + (i + 0.5) * CELL_WIDE, below, i) for i in range(columns))
    yield from (text(MARGIN - 14, MARGIN + (rows - j - 0.5) * CELL_DEEP + 5, j) for j in range(rows))


def legend(x, steps, has_covered):
    """The steps of the lower end, the greatest at the top, and what hatching means."""
    yield text(x, MARGIN - 10, "lux from", anchor="start")
    places = [(f"{steps[k]:f}", colour(k, len(steps))[0]) for k in reversed(range(len(steps)))]
    places += [("covered", "url(#covered)")] * has_covered
    for k, (words, fill) in enumerate(places):
        yield rectangle(x, MARGIN + 22 * k, 24, 16, fill)
        yield text(x + 32, MARGIN + 22 * k + 13, words, anchor="start")


def picture(points):
    columns, rows = max(point.column for point in points) + 1, max(point.row for point in points) + 1
    steps = lux_steps(points)
    wide = 2 * MARGIN + columns * CELL_WIDE + LEGEND
    deep = max(2 * MARGIN + rows * CELL_DEEP, 2 * MARGIN + 22 * (len(steps) + 1))
    lines = [
        f'<svg xmlns="http://www.w3.org/2000/svg" width="{wide}" height="{deep}" font-family="sans-serif" font-size="14">',
        '<defs><pattern id="covered" width="8" height="8" patternUnits="userSpaceOnUse" patternTransform="rotate(45)">',
        '<rect width="8" height="8" fill="white"/><line x1="0" y1="0" x2="0" y2="8" stroke="gray" stroke-width="3"/></pattern></defs>',
        f'<rect width="{wide}" height="{deep}" fill="white"/>',
    ]
    for point in points:
        x, y = MARGIN + point.column * CELL_WIDE, MARGIN + (rows - 1 - point.row) * CELL_DEEP
        lines += cell(point, x, y, steps)
    lines += numbers(columns, rows)
    lines += legend(MARGIN + columns * CELL_WIDE + MARGIN, steps, any(not point.lower for point in points))
    return "\n".join(lines + ["</svg>"]) + "\n"


def main():
    if len(sys.argv) not in (2, 3):
        raise SystemExit(__doc__)
    drawn = picture(read_grid(sys.argv[1]))
    if sys.argv[2:]:
        with open(sys.argv[2], "w", encoding="utf-8") as file:
            file.write(drawn)
    else:
        print(drawn, end="")


if __name__ == "__main__":
    main()
