#!/usr/bin/env python3
"""Prints the light that src/tests.rt expects of the turned lamp of a file, in ticks of 2^-36 lux, rounded down: by mpmath at 60 digits,
from angles by atan2 and intensities in straight lines of gamma and of C. Nothing of the crate is used."""
from mpmath import mp, mpf, atan2, degrees, sqrt, floor

mp.dps = 60

# 1,000 cd at gamma 0, and these at gamma 120 in the half-planes 0, 90, 180 and 270
OUTER = [800, 600, 400, 200]
TURN = 90
KEPT = mpf(800) / 1000
# 400 mm wide around the middle of a cube of 2 m, in two parts; in half mm
POINTS = [(1800, 2000, 2000), (2200, 2000, 2000)]


def intensity(dx, dy, dz):
    c = mpf(0) if dx == dy == 0 else (degrees(atan2(dy, dx)) - TURN) % 360
    gamma = degrees(atan2(sqrt(mpf(dx * dx + dy * dy)), -dz))
    if gamma > 120:
        return mpf(0)
    at_gamma = [1000 + (outer - 1000) * gamma / 120 for outer in OUTER]
    plane = int(floor(c / 90))
    part = c / 90 - plane
    return at_gamma[plane] * (1 - part) + at_gamma[(plane + 1) % 4] * part


def light(axis, sign, place):
    lux = mpf(0)
    for q in POINTS:
        ahead = sign * (q[axis] - place[axis])
        if ahead > 0:
            step = tuple(a - b for a, b in zip(place, q))
            squared = sum(d * d for d in step)
            lux += intensity(*step) * KEPT * ahead * 4000000 / (squared * sqrt(mpf(squared))) / len(POINTS)
    return int(floor(lux * 2**36)), mp.nstr(lux, 12)


print("floor", light(2, 1, (2000, 2000, 0)))
print("ceiling", light(2, -1, (2000, 2000, 4000)))
print("wall at the start of x", light(0, 1, (0, 2000, 2000)))
print("wall at the end of y", light(1, -1, (2000, 4000, 2000)))
