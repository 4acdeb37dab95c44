#!/usr/bin/env python3
"""A second checker of claims on the light of a room's patches, in Python's whole numbers and fractions and with none of Lux's code.

usage: check_claim.py ROOM.toml CLAIM.csv

It prints the line of `lux check`: `shown N` for the N patches of the room, `not shown ROW` for the first patch, counted from 0, at
which the claim isn't shown, or `refused claim ..`. The status is 0, 12 or 1. A claim has a lower and an upper bound for each patch, in
ticks of 2^-36 lux. It is shown at a patch where the lower bound is at most the patch's direct light and what patches lit by their lower
bounds send there, and the upper bound at least the same by the upper bounds.

Direct light and coefficients are enclosed far more closely than a tick (pi to 1e-30, angles to 1e-30 degrees, roots to 2^-100, and
products to 2^-80), and a line is printed only where the enclosures decide it; where they don't, standard error says so and the status
is 1. `lux check` rounds outward, so that what it shows is shown here too; a claim that is shown here by less than its roundings, which
may come to some thousandths of a lux, may not be shown there. The room and its files are taken to be sound, but for the sums of the
coefficients. Files lie where their names lead from the room's folder.
"""
import csv
import io
import math
import re
import sys
import tomllib
from collections import namedtuple
from decimal import Decimal, localcontext
from fractions import Fraction
from functools import cache
from pathlib import Path

from expected import sources, surfaces, tiles
from photometry import read_lamp

# an amount is a whole number of 2^-80; a root is one of 2^-100
FINE, ROOT = 80, 100
TICK = 36
GREATEST_END = 2**90
GREATEST_ROW_SUM = Fraction(255, 256)
ANGLE_ERROR = Fraction(1, 10**30)


class Refused(Exception):
    """A claim or a room that isn't judged."""


# ---- the claim

def records(data):
    """The records of a text, without its byte-order mark and its blank lines."""
    csv.field_size_limit(len(data) + 1)
    text = data.removeprefix(b"\xef\xbb\xbf").decode("latin-1")
    return [record for record in csv.reader(io.StringIO(text, newline="")) if record]


def number(field):
    """What digits without leading zeros write, or just more than any bound where it is greater, or None."""
    if not re.fullmatch("0|[1-9][0-9]*", field):
        return None
    return min(int(field[:40]), GREATEST_END + 1)


def read_claim(data, count):
    """The lower and the upper bounds of so many patches."""
    header, *rows = records(data) or [[]]
    claim = []
    for n, fields in enumerate(rows):
        numbers = [number(field) for field in fields]
        if n >= count:
            raise Refused("claim 2 Count")
        if len(fields) != len(header) or len(fields) != 3 or None in numbers or max(numbers[1:]) > GREATEST_END:
            raise Refused(f"claim 1 Record {n + 1}")
        if numbers[0] != n:
            raise Refused(f"claim 3 Order {n + 1}")
        claim.append(numbers[1:])
    if len(claim) < count:
        raise Refused("claim 2 Count")
    return [lower for lower, _ in claim], [upper for _, upper in claim]


# ---- places in half millimetres, areas in their squares

Box = namedtuple("Box", "lo hi")
Patch = namedtuple("Patch", "centre face area reflect")
LampPoint = namedtuple("LampPoint", "at shine frame turn share")


def half_mm(place):
    return tuple(int(2 * along) for along in place)


def patches_of(room, boxes):
    cut = [tile for surface in surfaces(room, boxes) for tile in tiles(*surface, room.get("patch", 600))]
    return [Patch(half_mm(centre), face, 4 * area, reflect) for centre, face, area, reflect in cut]


def in_front(p, face, q):
    axis, way = face
    return (q[axis] - p[axis]) * way


def squared_distance(p, q):
    return sum((b - a) ** 2 for a, b in zip(p, q))


def stands_between(box, p, q):
    """Whether a point of the segment, ends included, lies in the open inside of the box."""
    axes = list(zip(box.lo, box.hi, p, q))
    if any(a <= lo and b <= lo or a >= hi and b >= hi for lo, hi, a, b in axes):
        return False
    # it is between the two faces of each axis in this part of the way, over one denominator
    enter, leave, whole = 0, 1, 1
    for lo, hi, a, b in axes:
        way = abs(b - a)
        if way:
            ends = (lo - a, hi - a) if b > a else (a - hi, a - lo)
            enter, leave, whole = max(enter * way, ends[0] * whole), min(leave * way, ends[1] * whole), whole * way
    return enter < leave


def blocked(boxes, p, q):
    return any(stands_between(box, p, q) for box in boxes)


# ---- coefficients

def pi_ends(terms):
    """Machin's formula, with sums of the arctan's series that end below and above."""
    def arctan_ends(n):
        parts = [Fraction((-1) ** k, (2 * k + 1) * n ** (2 * k + 1)) for k in range(2 * terms)]
        return sum(parts), sum(parts[:-1])

    (low5, high5), (low239, high239) = arctan_ends(5), arctan_ends(239)
    return 16 * low5 - 4 * high239, 16 * high5 - 4 * low239


PI_LOW, PI_HIGH = (end(pi * 2**ROOT) for end, pi in zip((math.floor, math.ceil), pi_ends(20)))


def unreflected(p, q):
    """Both ends of the coefficient of patch q at patch p, but for the reflectance: both cosines, times A / (pi R + A), with the squared
    distance R."""
    slopes = in_front(p.centre, p.face, q.centre) * in_front(q.centre, q.face, p.centre)
    square = squared_distance(p.centre, q.centre)
    above = slopes * q.area << FINE + ROOT
    low = above // (square * (PI_HIGH * square + (q.area << ROOT)))
    high = -(-above // (square * (PI_LOW * square + (q.area << ROOT))))
    return low, high


def row_of(patches, boxes, p):
    """Number and ends of each coefficient at patch p that isn't 0."""
    for j, q in enumerate(patches):
        if q.reflect and in_front(p.centre, p.face, q.centre) > 0 and in_front(q.centre, q.face, p.centre) > 0:
            if not blocked(boxes, p.centre, q.centre):
                yield j, *unreflected(p, q)


# ---- direct light

def lamp_points(lamps, folder):
    """The points of all lamps, with the part of the lamp's intensity that each shines."""
    files = {}
    for lamp in lamps:
        shine = lamp.get("candela")
        if shine is None:
            key = lamp["file"], lamp.get("set", 1)
            if key not in files:
                files[key] = read_lamp(key[0], Path(folder, key[0]).read_bytes(), key[1])
            shine = files[key]
        # their places and frames alone, for which no file is read
        places = list(sources([lamp | {"candela": 0}], folder))
        share = Fraction(lamp.get("maintenance", 1000), 1000 * len(places))
        yield from (LampPoint(half_mm(source.at), shine, source.frame, source.turn, share) for source in places)


@cache
def arctan(x):
    """Of a decimal from 0 to 1, to 45 digits: halved five times, and then by the series."""
    for _ in range(5):
        x = x / (1 + (1 + x * x).sqrt())
    total = power = x
    for k in range(3, 40, 2):
        power *= -x * x
        total += power / k
    return 32 * total


def degrees(x, y):
    """The angle of (x, y) from the first axis towards the second, 0 to 360 degrees, as a fraction nearer than the angle error. One of
    the two isn't 0."""
    quarter = arctan(min(abs(x), abs(y)) / max(abs(x), abs(y))) * 45 / arctan(Decimal(1))
    angle = Fraction(int((quarter if abs(y) <= abs(x) else 90 - quarter).scaleb(40)), 10**40)
    angle = 180 - angle if x < 0 else angle
    return 360 - angle if y < 0 else angle


def candidates(angle):
    """Both ends of the angle's bracket, and the millionth of a degree in it where there is one: files have no finer angles."""
    ends = [angle - ANGLE_ERROR, angle + ANGLE_ERROR]
    middle = Fraction(round(angle * 10**6), 10**6)
    return ends + [middle] * (ends[0] <= middle <= ends[1])


def candela_ends(lamp, p):
    """The least and the greatest intensity towards p over the brackets of both angles. C is counted from where C 0 lies less the
    lamp's turn, gamma from the aim; along the aim's axis C is 0."""
    if isinstance(lamp.shine, int):
        return lamp.shine, lamp.shine
    with localcontext(prec=50):
        x, y, z = (Decimal(sign * (p[axis] - lamp.at[axis])) for axis, sign in lamp.frame)
        cs = [c % 360 for c in candidates(degrees(x, y) - lamp.turn)] if x or y else [Fraction(0)]
        gamma = degrees(-z, (x * x + y * y).sqrt())
    seen = [lamp.shine.intensity(c, g) for g in candidates(gamma) if 0 <= g <= 180 for c in cs]
    return min(seen), max(seen)


def direct_ends(boxes, lights, p):
    """Both ends of the direct light of patch p, in 2^-80 of a tick: by the inverse square and cosine laws from each lamp's point."""
    low = high = 0
    for lamp in lights:
        above = in_front(p.centre, p.face, lamp.at)
        if above > 0 and not blocked(boxes, lamp.at, p.centre):
            square = squared_distance(p.centre, lamp.at)
            root = math.isqrt(square << 2 * ROOT)
            least, greatest = candela_ends(lamp, p.centre)
            factor = lamp.share * above * 4000000 / square * 2 ** (FINE + TICK + ROOT)
            low += math.floor(least * factor / (root + 1))
            high += math.ceil(greatest * factor / root)
    return low, high


# ---- the judgement

def judge(lower, upper, low_sums, high_sums):
    """Whether the bounds of a patch are shown by what patches of the lower and of the upper bounds give there, each between its ends;
    None where the ends don't tell."""
    if lower <= low_sums[0] and high_sums[1] <= upper:
        return True
    return False if low_sums[1] < lower or upper < high_sums[0] else None


def light_by(row, light, direct):
    """Both ends of the direct light and of what patches of so much reflected light send, in 2^-80 of a thousandth of a tick."""
    return [1000 * direct[end] + sum(coefficient[1 + end] * light[coefficient[0]] for coefficient in row) for end in (0, 1)]


def check(document, folder, data):
    """The line to print, and the status."""
    patches = patches_of(document["room"], document.get("box", []))
    boxes = [Box(half_mm(box["lo"]), half_mm(box["hi"])) for box in document.get("box", [])]
    lights = list(lamp_points(document.get("lamp", []), folder))
    lower, upper = read_claim(data, len(patches))
    reflected = [[p.reflect * bound for p, bound in zip(patches, bounds)] for bounds in (lower, upper)]
    verdicts = []
    for i, p in enumerate(patches):
        row = list(row_of(patches, boxes, p))
        row_sum = Fraction(sum(high * patches[j].reflect for j, _, high in row), 1000 << FINE)
        if row_sum > GREATEST_ROW_SUM:
            raise Refused(f"rows 1 RowSum {i} {math.ceil(row_sum * 1000)}")
        direct = direct_ends(boxes, lights, p)
        low_sums, high_sums = (light_by(row, light, direct) for light in reflected)
        verdicts.append(judge(lower[i] * 1000 << FINE, upper[i] * 1000 << FINE, low_sums, high_sums))
    first = next((i for i, verdict in enumerate(verdicts) if not verdict), None)
    if first is None:
        return f"shown {len(patches)}", 0
    if verdicts[first] is None:
        raise SystemExit(f"the enclosures don't decide whether the claim is shown at patch {first}")
    return f"not shown {first}", 12


def main():
    if len(sys.argv) != 3:
        raise SystemExit(__doc__)
    path = Path(sys.argv[1])
    try:
        line, status = check(tomllib.loads(path.read_text()), path.parent, Path(sys.argv[2]).read_bytes())
    except Refused as fault:
        line, status = f"refused {fault}", 1
    print(line)
    sys.exit(status)


if __name__ == "__main__":
    main()
