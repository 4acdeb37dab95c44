#!/usr/bin/env python3
"""The light along a route in double precision, with none of Lux's code: the values against which the tests compare.

usage: route.py

A lamp is a place, its candela or a table of them, how much of them is kept, its turn in degrees, and the frame of its aim: the step in
the room as the step along the axes by which a lamp is mounted that hangs.
"""
from bisect import bisect_right
from math import acos, atan2, ceil, degrees, sqrt

FRAMES = {
    "-z": lambda x, y, z: (x, y, z),
    "+z": lambda x, y, z: (x, -y, -z),
    "+x": lambda x, y, z: (y, -z, -x),
    "-x": lambda x, y, z: (y, z, x),
    "+y": lambda x, y, z: (x, z, -y),
    "-y": lambda x, y, z: (x, -z, y),
}

# half-planes 0, 45 and 90, which stand for all others by symmetry to both axes, and gammas from 0 to 90
PLANES, GAMMAS = [0, 45, 90], [0, 30, 60, 90]
QUARTER = [[300, 250, 120, 10], [300, 230, 90, 5], [300, 200, 60, 0]]
# 1,000 lumens by 1,000 is the unit of the lines: 1,200 lumens make them 1.2 times as much
FLUX = 1.2


def piece(angles, x):
    k = min(bisect_right(angles, x) - 1, len(angles) - 2)
    return k, (x - angles[k]) / (angles[k + 1] - angles[k])


def of_quarter(c, gamma):
    """The intensity in a direction, in candela."""
    if gamma > GAMMAS[-1]:
        return 0.0
    c = c % 180
    c = min(c, 180 - c)
    i, u = piece(PLANES, c)
    j, v = piece(GAMMAS, gamma)
    at = lambda a: QUARTER[a][j] * (1 - v) + QUARTER[a][j + 1] * v
    return FLUX * (at(i) * (1 - u) + at(i + 1) * u)


def light(lamp, at):
    """On the floor at a place in mm."""
    step = [a - b for a, b in zip(at, lamp["at"])]
    x, y, z = FRAMES[lamp.get("aim", "-z")](*step)
    r = sqrt(sum(d * d for d in step))
    candela = lamp["candela"]
    if callable(candela):
        candela = candela(degrees(atan2(y, x)) - lamp.get("turn", 0), degrees(acos(-z / r)))
    return candela * lamp.get("kept", 1) * -step[2] / r / (r / 1000) ** 2


def points(x0, y0, x1, y1):
    length = abs(x1 - x0) + abs(y1 - y0)
    part = lambda a, b, d: a + (d if b > a else -d if b < a else 0)
    ds = [min(500 * k, length) for k in range(ceil(length / 500) + 1)]
    return [(part(x0, x1, d), part(y0, y1, d), 0) for d in ds]


def told(name, lamps, route):
    values = [sum(light(lamp, p) for lamp in lamps) for p in points(*route)]
    ratio = max(values) / min(values) if min(values) else None
    print(name, len(values), f"{min(values):.7f} {max(values):.7f}", ratio and f"{ratio:.7f}", [f"{v:.5f}" for v in values])


overhead = {"at": (3000, 3000, 3000), "candela": 905}
far = {"at": (1000, 3000, 3000), "candela": 905}
near = {"at": (2400, 3000, 300), "candela": 71000}
aimed = {"at": (0, 3000, 2000), "candela": of_quarter, "kept": 0.8, "turn": 30, "aim": "+x"}

if __name__ == "__main__":
    told("overhead", [overhead], (2000, 3000, 4000, 3000))
    told("one point", [overhead], (3000, 3000, 3000, 3000))
    told("along y", [overhead], (3000, 1000, 3000, 5000))
    for length in (499, 500, 501):
        told(f"{length} mm", [overhead], (3000, 3000, 3000, 3000 + length))
    told("to the far wall", [overhead], (0, 3000, 6000, 3000))
    told("back from it", [overhead], (6000, 3000, 0, 3000))
    told("the other lamp", [far], (2000, 3000, 4000, 3000))
    told("both", [overhead, far], (2000, 3000, 4000, 3000))
    for candela in (222895, 223105, 223315):
        told(f"{candela} cd beside 71,000", [{"at": (2000, 3000, 300), "candela": candela}, near], (2000, 3000, 2400, 3000))
    told("aimed and turned", [aimed], (2000, 1000, 2000, 4200))
