"""Masks of cells, and what is asked along segments, for the tables of src/tests/odd_room.rt, from fractions and by trying every cell.

Cell k of an edge l goes from floor(k l / 16) to floor((k + 1) l / 16). A box touches a cell where the closed intervals have a point in
common on each axis, and so do the bounds of a segment. Whether a segment meets a box is told by the search over fractions of
../../sight_line/expected/segments.py. Run `python3 cells.py` for the rows; places are in half millimetres, boxes in millimetres.
"""
import sys
from fractions import Fraction
from math import floor
from pathlib import Path

sys.path.insert(0, str(Path(__file__).resolve().parents[2] / "sight_line" / "expected"))
from segments import meets  # noqa: E402

EDGES = (1001, 2503, 517)  # none is a multiple of 16


def border(edge, k):
    return floor(Fraction(k * edge, 16))


def cell_on(edge, k):
    return (Fraction(border(edge, k)), Fraction(border(edge, k + 1)))


def have_common_point(a, b):
    return max(a[0], b[0]) <= min(a[1], b[1])


CELLS = [(i, j, k) for i in range(16) for j in range(16) for k in range(16)]


def cut(i, j, k):
    """The corner where cell (i, j, k) begins."""
    return tuple(border(edge, n) for edge, n in zip(EDGES, (i, j, k)))


BOXES = [
    (cut(4, 6, 8), cut(5, 7, 9)),  # just cell (4, 6, 8), so that it touches 27 cells
    (tuple(n + 1 for n in cut(4, 6, 8)), tuple(n - 1 for n in cut(5, 7, 9))),  # one mm less on each side: one cell
    ((0, 0, 0), (1, 1, 1)),  # in the first corner
    (tuple(n - 1 for n in EDGES), EDGES),  # in the last corner
    ((0, 0, 200), (1001, 2503, 201)),  # a sheet across the room
    (cut(15, 15, 15), EDGES),  # just the last cell
    (cut(14, 0, 0), cut(15, 1, 1)),  # ends where the last slab of x begins
    (cut(8, 0, 0), (cut(8, 0, 0)[0] + 1, 2503, 517)),  # a wall that begins at a border
]


def mask(cell):
    bits = 0
    for b, (lo, hi) in enumerate(BOXES):
        if all(have_common_point((lo[n], hi[n]), cell_on(EDGES[n], cell[n])) for n in range(3)):
            bits |= 1 << b
    return bits


MASKS = {cell: mask(cell) for cell in CELLS}

SHOWN = [
    (0, 0, 0), (0, 0, 6), (3, 5, 7), (4, 6, 8), (5, 7, 9), (6, 7, 9), (5, 8, 9), (3, 6, 8), (2, 6, 8), (7, 3, 6), (7, 3, 7), (8, 3, 5),
    (8, 15, 15), (9, 0, 0), (13, 0, 0), (12, 0, 0), (14, 1, 1), (15, 0, 0), (15, 2, 0), (14, 14, 14), (13, 14, 14), (15, 15, 15),
]


def twice(place):
    return tuple(2 * n for n in place)


LAST = twice(EDGES)
AT = twice(cut(4, 6, 8))

SEGMENTS = [
    # along the border of cells, which is an edge of box 0 and then past it
    ((AT[0], 0, AT[2]), (AT[0], LAST[1], AT[2])),
    # along a face of box 0, and half a millimetre inside of it
    ((AT[0] + 20, AT[1], 300), (AT[0] + 20, AT[1], 600)),
    ((AT[0] + 20, AT[1] + 1, 410), (AT[0] + 20, AT[1] + 1, 600)),
    # half a millimetre before the cells that box 0 touches, where it isn't near, and at their border
    ((2 * border(1001, 3) - 1, 1900, 520), (2 * border(1001, 3) - 1, 2000, 540)),
    ((2 * border(1001, 3), 1900, 520), (2 * border(1001, 3), 2000, 540)),
    # along the sheet's face, and through it
    ((10, 10, 402), (700, 4900, 402)),
    ((10, 10, 402), (700, 4900, 401)),
    # of length nothing: at a corner of cells, inside box 1, on a face of the sheet, in the first corner, and in the last
    (AT, AT),
    (twice(tuple(n + 9 for n in cut(4, 6, 8))), twice(tuple(n + 9 for n in cut(4, 6, 8)))),
    ((300, 300, 400), (300, 300, 400)),
    ((1, 1, 1), (1, 1, 1)),
    ((0, 0, 0), (0, 0, 0)),
    (LAST, LAST),
    ((LAST[0] - 1, LAST[1] - 1, LAST[2] - 1), (LAST[0] - 1, LAST[1] - 1, LAST[2] - 1)),
    # in the last cell, and up to it
    (twice(cut(15, 15, 15)), LAST),
    ((LAST[0] - 2, LAST[1], LAST[2] - 3), (LAST[0], LAST[1] - 2, LAST[2])),
    ((LAST[0], 0, LAST[2]), (LAST[0], LAST[1], LAST[2])),
    (twice(cut(15, 15, 15)), (0, 0, 1034)),
    # past the wall and the box that ends at a border
    ((2 * border(1001, 8), 0, 0), (2 * border(1001, 8), 5006, 300)),
    ((2 * border(1001, 15), 5, 5), (LAST[0], 60, 60)),
    ((2 * border(1001, 15) - 1, 5, 5), (LAST[0], 60, 60)),
    # from corner to corner
    ((0, 0, 0), LAST),
    ((0, LAST[1], 0), (LAST[0], 0, LAST[2])),
    ((LAST[0], LAST[1], 0), (0, 0, LAST[2])),
]


def look_up(p, q):
    """The mask of the boxes that are asked, and the first that is met."""
    bounds = [(Fraction(min(a, b), 2), Fraction(max(a, b), 2)) for a, b in zip(p, q)]
    near = 0
    for cell in CELLS:
        if all(have_common_point(bounds[n], cell_on(EDGES[n], cell[n])) for n in range(3)):
            near |= MASKS[cell]
    asked = 0
    for b, box in enumerate(BOXES):
        if near >> b & 1:
            asked |= 1 << b
            if meets(p, q, box):
                return asked, b
    return asked, None


if __name__ == "__main__":
    print("boxes:")
    for lo, hi in BOXES:
        print(f"    block({lo}, {hi}),")
    print("cells:")
    for cell in SHOWN:
        print(f"    ({cell}, {MASKS[cell]}),")
    print("cells of each box:", [sum(m >> b & 1 for m in MASKS.values()) for b in range(len(BOXES))])
    print("segments:")
    for p, q in SEGMENTS:
        assert all(0 <= n <= e for place in (p, q) for n, e in zip(place, LAST))
        asked, first = look_up(p, q)
        plain = next((b for b, box in enumerate(BOXES) if meets(p, q, box)), None)
        assert first == plain
        answer = "None" if first is None else f"Some({first})"
        truths = sum(1 << b for b, box in enumerate(BOXES) if meets(p, q, box))
        print(f"    ({list(p)}, {list(q)}, {truths}, {asked}, {answer}),")
