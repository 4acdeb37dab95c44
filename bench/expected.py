#!/usr/bin/env python3
"""A second planner, in plain double precision and with none of Lux's code: the values against which the tests compare.

usage: expected.py ROOM.toml

It cuts the room and its boxes into patches, solves the radiosity equations by Gauss-Seidel until nothing moves by more than
1e-10 lux, and prints the value at each task point, the average and the uniformity with six decimals. It serves both versions of the
layout, but no limits. Photometric files lie where their names lead from the room's folder, and photometry.py reads them. It claims
nothing of its own rounding, which is far below a printed hundredth.
"""
import math
import sys
import tomllib
from pathlib import Path

from photometry import read_lamp

UP, DOWN, EAST, WEST, NORTH, SOUTH = (2, 1), (2, -1), (0, 1), (0, -1), (1, 1), (1, -1)


def tiles(face, lo, hi, reflect, longest):
    """The patches of a rectangle: centre in mm, face, area, reflectance; by the second axis, then the first."""
    first, second = [axis for axis in range(3) if axis != face[0]]

    def cuts(axis):
        edge = hi[axis] - lo[axis]
        parts = -(-edge // longest)
        ends = [lo[axis] + edge * i // parts for i in range(parts + 1)]
        return list(zip(ends, ends[1:]))

    for a, b in cuts(second):
        for c, d in cuts(first):
            centre = list(lo)
            centre[first] = (c + d) / 2
            centre[second] = (a + b) / 2
            yield centre, face, (b - a) * (d - c), reflect


def surfaces(room, boxes):
    x, y, z = room["size"]
    floor, ceiling, x0, x1, y0, y1 = room.get("reflect", [0] * 6)
    yield UP, (0, 0, 0), (x, y, 0), floor
    yield DOWN, (0, 0, z), (x, y, z), ceiling
    yield EAST, (0, 0, 0), (0, y, z), x0
    yield WEST, (x, 0, 0), (x, y, z), x1
    yield NORTH, (0, 0, 0), (x, 0, z), y0
    yield SOUTH, (0, y, 0), (x, y, z), y1
    for box in boxes:
        (a, b, c), (d, e, f), reflect = box["lo"], box["hi"], box.get("reflect", 0)
        yield DOWN, (a, b, c), (d, e, c), reflect
        yield UP, (a, b, f), (d, e, f), reflect
        yield WEST, (a, b, c), (a, e, f), reflect
        yield EAST, (d, b, c), (d, e, f), reflect
        yield SOUTH, (a, b, c), (d, b, f), reflect
        yield NORTH, (a, e, c), (d, e, f), reflect


def blocked(boxes, p, q):
    """Whether the segment holds a point of the open inside of a box: by clipping its parameter between the planes."""
    for box in boxes:
        least, most, met = 0.0, 1.0, True
        for axis in range(3):
            lo, hi, at, way = box["lo"][axis], box["hi"][axis], p[axis], q[axis] - p[axis]
            if way == 0:
                met = met and lo < at < hi
            else:
                ends = sorted(((lo - at) / way, (hi - at) / way))
                least, most = max(least, ends[0]), min(most, ends[1])
        if met and (least < most or (p == q and least <= most)):
            return True
    return False


def front(p, face, q):
    return (q[face[0]] - p[face[0]]) * face[1]


def coefficient(boxes, p, face, patch):
    centre, other, area, reflect = patch
    a, b = front(p, face, centre), front(centre, other, p)
    if a <= 0 or b <= 0 or reflect == 0 or blocked(boxes, p, centre):
        return 0.0
    square = math.dist(p, centre) ** 2
    return reflect / 1000 * a * b / square * area / (math.pi * square + area)


# For each aim the axes that span a lamp's rectangle, and where C 0, C 90 and what is opposite to gamma 0 lie: axis and sign.
AIMS = {
    "-z": ((0, 1), ((0, 1), (1, 1), (2, 1))),
    "+z": ((0, 1), ((0, 1), (1, -1), (2, -1))),
    "+x": ((1, 2), ((1, 1), (2, -1), (0, -1))),
    "-x": ((1, 2), ((1, 1), (2, 1), (0, 1))),
    "+y": ((0, 2), ((0, 1), (2, 1), (1, -1))),
    "-y": ((0, 2), ((0, 1), (2, -1), (1, 1))),
}


class Source:
    """One point of a lamp, in mm, and what it shines."""

    def __init__(self, at, shine, frame, turn, share):
        self.at, self.shine, self.frame, self.turn, self.share = at, shine, frame, turn, share

    def candela(self, p):
        """Towards p. Gamma is counted from the aim, C from where C 0 lies less the lamp's turn; along the aim's axis C is 0."""
        if isinstance(self.shine, int):
            return self.shine * self.share
        x, y, z = (sign * (p[axis] - self.at[axis]) for axis, sign in self.frame)
        c = (math.degrees(math.atan2(y, x)) - self.turn) % 360 if x or y else 0.0
        return self.shine.intensity(c, math.degrees(math.atan2(math.hypot(x, y), -z))) * self.share


def sources(lamps, folder):
    """The points of all lamps. A lamp's rectangle lies along the axes across its aim, whatever its turn; half mm are rounded down."""
    files = {}
    for lamp in lamps:
        shine = lamp.get("candela")
        if shine is None:
            key = lamp["file"], lamp.get("set", 1)
            if key not in files:
                files[key] = read_lamp(key[0], Path(folder, key[0]).read_bytes(), key[1]).in_floats()
            shine = files[key]
        (wide, deep), (columns, rows) = lamp.get("size", [0, 0]), lamp.get("split", [1, 1])
        (u, v), frame = AIMS[lamp.get("aim", "-z")]
        share = lamp.get("maintenance", 1000) / 1000 / (columns * rows)
        for j in range(rows):
            for i in range(columns):
                at = [float(n) for n in lamp["at"]]
                at[u] += ((2 * i + 1) * wide // columns - wide) / 2
                at[v] += ((2 * j + 1) * deep // rows - deep) / 2
                yield Source(at, shine, frame, lamp.get("turn", 0), share)


def direct(boxes, lights, p, face):
    light = 0.0
    for source in lights:
        a = front(p, face, source.at)
        if a > 0 and not blocked(boxes, source.at, p):
            light += source.candela(p) * a * 1e6 / math.dist(p, source.at) ** 3
    return light


def task_points(task):
    """Column, row and place in mm of each task point; half mm are rounded down."""
    columns, rows = task["points"]

    def middle(axis, parts, k):
        edge = task["to"][axis] - task["from"][axis]
        return (2 * task["from"][axis] + (2 * k + 1) * edge // parts) / 2

    for j in range(rows):
        for i in range(columns):
            yield i, j, [middle(0, columns, i), middle(1, rows, j), float(task["height"])]


def reckon(document, folder):
    """How many patches the room has, the greatest row sum with its row, and column, row and value of each task point: None where a box
    covers the point. No points where the row sum leaves no solution."""
    room, task = document["room"], document["task"]
    boxes, lights = document.get("box", []), list(sources(document.get("lamp", []), folder))
    patches = [t for s in surfaces(room, boxes) for t in tiles(*s, room.get("patch", 600))]
    rows = [[coefficient(boxes, p[0], p[1], other) for other in patches] for p in patches]
    light = [direct(boxes, lights, p[0], p[1]) for p in patches]
    greatest = max(map(sum, rows))
    heaviest = len(patches), greatest, [sum(r) for r in rows].index(greatest)
    if greatest >= 1:
        return heaviest, []
    solved, moved = light[:], 1.0
    while moved > 1e-10:
        moved = 0.0
        for i, row in enumerate(rows):
            new = light[i] + sum(k * h for k, h in zip(row, solved) if k)
            moved = max(moved, abs(new - solved[i]))
            solved[i] = new
    points = []
    for i, j, p in task_points(task):
        if any(all(b["lo"][a] < p[a] < b["hi"][a] for a in range(3)) for b in boxes):
            points.append((i, j, None))
            continue
        value = direct(boxes, lights, p, UP) + sum(coefficient(boxes, p, UP, o) * h for o, h in zip(patches, solved))
        points.append((i, j, value))
    return heaviest, points


def mean(points):
    """The average over the points that no box covers."""
    values = [value for _, _, value in points if value is not None]
    return sum(values) / len(values)


def main():
    (patches, greatest, row), points = reckon(tomllib.loads(Path(sys.argv[1]).read_text()), Path(sys.argv[1]).parent)
    print("patches", patches, "greatest row sum", f"{greatest:.6f}", "of row", row)
    for i, j, value in points:
        print("point", i, j, "covered" if value is None else f"{value:.6f}")
    values = [value for _, _, value in points if value is not None]
    if values:
        print("average", f"{mean(points):.6f}")
        print("uniformity", f"{min(values) / mean(points):.6f}" if mean(points) else "none")


if __name__ == "__main__":
    main()
