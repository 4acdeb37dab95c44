#!/usr/bin/env python3
"""Prints the shares that src/tests.rt expects, in ticks of 2^-36 lux, rounded down: by mpmath at 60 digits, from angles by atan2 and
intensities in straight lines of gamma and of C. Nothing of the crate is used."""
from mpmath import mp, mpf, atan2, degrees, sqrt, floor

mp.dps = 60

UNEVEN = ([0, 90, 180, 270], [0, 60, 120], [[1000, 600, 200], [1000, 500, 100], [1000, 300, 50], [1000, 800, 400]])
CUT = ([0], [0, 135], [[90, 90]])
ALL_ROUND = ([0, 90, 180, 270], [0, 60, 180], [[1000, 600, 20], [1000, 500, 20], [1000, 300, 20], [1000, 800, 20]])

# for each aim the room's axes that the lamp's own x, y and z lie along: those of C 0 and C 90, and the one against the aim
FRAMES = {
    "-z": ((1, 0, 0), (0, 1, 0), (0, 0, 1)),
    "+z": ((1, 0, 0), (0, -1, 0), (0, 0, -1)),
    "+x": ((0, 1, 0), (0, 0, -1), (-1, 0, 0)),
    "-x": ((0, 1, 0), (0, 0, 1), (1, 0, 0)),
    "+y": ((1, 0, 0), (0, 0, 1), (0, -1, 0)),
    "-y": ((1, 0, 0), (0, 0, -1), (0, 1, 0)),
}


def between(knots, values, x):
    for i in range(len(knots) - 1):
        if knots[i] <= x <= knots[i + 1]:
            return values[i] + (values[i + 1] - values[i]) * (x - knots[i]) / mpf(knots[i + 1] - knots[i])
    return mpf(0)


def intensity(table, turn, step):
    planes, gammas, rows = table
    dx, dy, dz = step
    c = mpf(0) if dx == dy == 0 else (degrees(atan2(dy, dx)) - turn) % 360
    gamma = degrees(atan2(sqrt(mpf(dx * dx + dy * dy)), -dz))
    at_gamma = [between(gammas, row, gamma) for row in rows]
    return between(planes + [360], at_gamma + at_gamma[:1], c)


def ahead(face, q, p):
    axis, sign = {"Up": (2, 1), "Down": (2, -1), "East": (0, 1), "West": (0, -1), "North": (1, 1), "South": (1, -1)}[face]
    return sign * (q[axis] - p[axis])


def share(candela, maintenance, parts, q, p, face):
    squared = sum((a - b) ** 2 for a, b in zip(p, q))
    lux = candela * maintenance / 1000 * ahead(face, q, p) * 4000000 / (squared * sqrt(mpf(squared))) / parts
    return int(floor(lux * 2**36)), mp.nstr(lux, 12)


def seen(name, table, turn, maintenance, parts, q, p, face):
    step = tuple(a - b for a, b in zip(p, q))
    print(name, share(intensity(table, turn, step), maintenance, parts, q, p, face))


def corners(aim):
    print("aim", aim)
    for corner in range(8):
        east, north, up = corner % 2 == 1, corner // 2 % 2 == 1, corner // 4 == 1
        p = (7700 if east else 4300, 8300 if north else 3700, 7100 if up else 4900)
        away = tuple(a - b for a, b in zip(p, MIDDLE))
        step = tuple(sum(a * b for a, b in zip(axis, away)) for axis in FRAMES[aim])
        print(share(intensity(ALL_ROUND, 30, step), 800, 1, MIDDLE, p, "West" if east else "East"))


MIDDLE = (6000, 6000, 6000)
print("half of 5,050 cd", share(mpf(5050), 1000, 2, (5700, 6000, 6000), (6000, 6000, 0), "Up"))
print("1,000 cd kept to 800", share(mpf(1000), 800, 1, MIDDLE, (8000, 7000, 0), "Up"))
seen("floor", UNEVEN, 30, 800, 2, MIDDLE, (8000, 7000, 0), "Up")
seen("floor, no turn", UNEVEN, 0, 800, 2, MIDDLE, (8000, 7000, 0), "Up")
seen("wall", UNEVEN, 200, 1000, 1, MIDDLE, (0, 7000, 3000), "East")
seen("far wall", UNEVEN, 359, 1000, 1, MIDDLE, (5000, 9000, 4000), "South")
seen("below", UNEVEN, 77, 1000, 1, MIDDLE, (6000, 6000, 0), "Up")
seen("past the gammas", UNEVEN, 0, 1000, 1, MIDDLE, (8000, 7000, 9000), "Down")
seen("at the last gamma", CUT, 0, 1000, 1, MIDDLE, (8000, 6000, 8000), "Down")
seen("before the last gamma", CUT, 0, 1000, 1, MIDDLE, (8000, 6000, 7999), "Down")
for aim in FRAMES:
    corners(aim)
