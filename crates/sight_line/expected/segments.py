"""The first box that a segment meets, for the table of src/tests/segments.rt, by search over fractions.

Whether the point at t lies strictly inside a box changes only where a coordinate of the point passes a plane of the box. So the points at
those t, at 0, at 1 and halfway between each two neighbours among them decide. No clipping, no products of differences.
Run `python3 segments.py` for the rows of the table; places are in half millimetres, boxes in millimetres.
"""
from fractions import Fraction

BOXES = [
    ((1000, 1000, 1000), (2000, 2000, 2000)),  # alone
    ((2000, 1000, 1000), (3000, 2000, 2000)),  # touches box 0 at the face x = 2000
    ((1500, 1500, 500), (2500, 2500, 1500)),  # overlaps boxes 0 and 1
    ((3000, 2000, 2000), (4000, 3000, 3000)),  # touches box 1 at one corner
]

SEGMENTS = [
    # through a box, on the way to it and away from it
    ((0, 3000, 3000), (6000, 3000, 3000)),
    ((6000, 3000, 3000), (0, 3000, 3000)),
    ((0, 3000, 3000), (1999, 3000, 3000)),
    ((0, 3000, 3000), (2001, 3000, 3000)),
    ((7000, 3000, 3000), (4500, 3000, 3000)),
    # along a face, and half a millimetre inside of it
    ((0, 2000, 3000), (9000, 2000, 3000)),
    ((0, 2001, 3000), (9000, 2001, 3000)),
    ((0, 3000, 4000), (9000, 3000, 4000)),
    ((0, 2500, 3999), (9000, 2500, 3999)),
    # in the face that boxes 0 and 1 share, and across it
    ((4000, 2200, 3200), (4000, 2900, 3800)),
    ((4000, 0, 3500), (4000, 2900, 3500)),
    ((3999, 0, 3500), (3999, 9000, 3500)),
    ((4001, 0, 3500), (4001, 9000, 3500)),
    ((4000, 2200, 3200), (4001, 2900, 3800)),
    ((4001, 2200, 3200), (3999, 2900, 3800)),
    # through an edge, and half a millimetre nearer the middle
    ((0, 4000, 3500), (4000, 0, 3500)),
    ((1, 4000, 3500), (4001, 0, 3500)),
    ((0, 3999, 3500), (3999, 0, 3500)),
    # along an edge
    ((2000, 2000, 0), (2000, 2000, 9000)),
    ((2001, 2001, 0), (2001, 2001, 9000)),
    # through a corner
    ((1000, 2000, 3000), (3000, 2000, 1000)),
    ((1000, 1000, 1000), (2000, 2000, 2000)),
    ((1000, 1000, 1000), (2001, 2001, 2001)),
    ((0, 2000, 4000), (4000, 2000, 0)),
    ((6000, 4000, 4000), (7000, 5000, 5000)),
    ((6000, 4000, 4000), (5000, 5000, 5000)),
    # starting or ending on a face
    ((0, 3000, 3500), (2000, 3000, 3500)),
    ((2000, 3000, 3500), (0, 3000, 3500)),
    ((2000, 3000, 3500), (2001, 3000, 3500)),
    ((2000, 2500, 3500), (2000, 2500, 2500)),
    ((2000, 2500, 3500), (0, 2500, 3500)),
    # starting or ending inside, and wholly inside
    ((3000, 2500, 3500), (0, 0, 0)),
    ((0, 0, 0), (3000, 2500, 3500)),
    ((2500, 2500, 3500), (2600, 2400, 3600)),
    ((2001, 2001, 3999), (0, 0, 9000)),
    # of length nothing: inside, on a face, on an edge, at a corner, outside, where boxes touch and where they overlap
    ((3000, 2500, 3500), (3000, 2500, 3500)),
    ((2000, 2500, 3500), (2000, 2500, 3500)),
    ((2000, 2000, 3500), (2000, 2000, 3500)),
    ((2000, 2000, 2000), (2000, 2000, 2000)),
    ((500, 500, 500), (500, 500, 500)),
    ((4000, 2500, 3500), (4000, 2500, 3500)),
    ((3500, 3500, 2500), (3500, 3500, 2500)),
    ((4500, 3500, 2500), (4500, 3500, 2500)),
    ((4000, 3500, 2500), (4000, 3500, 2500)),
    ((4000, 4500, 1500), (4000, 4500, 1500)),
    # where boxes overlap: the first in order is named, and not the first on the way
    ((9000, 3500, 2500), (0, 3500, 2500)),
    ((3500, 3500, 0), (3500, 3500, 9000)),
    ((3500, 3500, 0), (3500, 3500, 2000)),
    ((4000, 9000, 2500), (4000, 0, 2500)),
    # within a box on each axis somewhere, and never on all at once
    ((0, 3000, 3500), (3000, 9000, 3500)),
    ((0, 1000, 3000), (3000, 0, 1000)),
    ((0, 9000, 0), (9000, 9000, 9000)),
    # past the box in the line of the segment
    ((0, 3000, 3500), (1000, 3000, 3500)),
    ((9000, 3000, 3500), (8000, 3000, 3500)),
    ((9000, 5000, 5000), (6001, 5000, 5000)),
]


def passes(p, q, box):
    """Each t in 0 to 1 at which a coordinate of the point passes a plane of the box."""
    for axis in range(3):
        run = q[axis] - p[axis]
        for plane in (2 * box[0][axis], 2 * box[1][axis]):
            if run:
                t = Fraction(plane - p[axis], run)
                if 0 <= t <= 1:
                    yield t


def meets(p, q, box):
    ends = sorted({Fraction(0), Fraction(1), *passes(p, q, box)})
    halves = [(a + b) / 2 for a, b in zip(ends, ends[1:])]
    for t in ends + halves:
        at = [p[i] + t * (q[i] - p[i]) for i in range(3)]
        if all(2 * box[0][i] < at[i] < 2 * box[1][i] for i in range(3)):
            return True
    return False


def first(p, q):
    for k, box in enumerate(BOXES):
        if meets(p, q, box):
            return k
    return None


if __name__ == "__main__":
    for p, q in SEGMENTS:
        k = first(p, q)
        answer = "None" if k is None else f"Some({k})"
        print(f"    ({list(p)}, {list(q)}, {answer}),")
