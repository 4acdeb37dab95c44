#!/usr/bin/env python3
"""A second reader of EULUMDAT and LM-63, in Python's fractions and with none of Lux's code: the values against which the tests compare.

usage: photometry.py FILE [SET] [C,GAMMA ..]         the summary, and in each direction the intensity and the ticks at or below it
       photometry.py FILE [SET] flux LUMENS          the zonal flux downward, upward and in all, and whether it reaches LUMENS
       photometry.py --tests TESTS.rt                the same for the files and rows in that file of tests; it says where they differ

A direction is in degrees. An intensity is the line's value times the conversion factor times the flux of the lamp set by 1000; in
LM-63, which a name that ends in .ies tells, the value times the multiplier times the ballast factor, and under IESNA91 times the item
after it. C is folded into the measured half-planes by the file's symmetry, and between neighbouring angles the intensity runs in a
straight line. Ticks are 2^-36 candela. The flux of a zone, 5 degrees of gamma wide, is the mean intensity in its middle round the
vertical times 2 pi (cos a - cos b), and between neighbouring half-planes the mean counts for their part of the turn. It takes the file
to be sound, and looks for no faults.
"""
import re
import sys
from bisect import bisect_right
from fractions import Fraction
from math import ceil, floor
from pathlib import Path

TICKS = 2**36
PI = Fraction("3.14159265358979323846264338327950288419716939937510")


def cosine(degrees):
    """By its series, to more than 40 decimals."""
    x = degrees * PI / 180
    term, total, k = Fraction(1), Fraction(0), 0
    while abs(term) > Fraction(1, 10**45):
        total, k = total + term, k + 2
        term = -term * x * x / (k * (k - 1))
    return total


def number(line):
    """A decimal with a point or a comma, of which six decimals count."""
    sign, whole, rest = re.fullmatch(r"[ \t]*([+-]?)(\d*)[.,]?(\d*)[ \t]*", line).groups()
    value = int(whole or 0) + Fraction(int((rest + "000000")[:6]), 10**6)
    return -value if sign == "-" else value


def lines_of(data):
    """A CR before an LF, or at the end, belongs to no line."""
    return [line.removesuffix("\r") for line in data.decode("latin-1").split("\n")]


# how the measured half-planes stand for all others
NONE, AXIS, PLANE0, PLANE90, BOTH = range(5)


class Lamp:
    """What was measured: the symmetry, angles C of the stored half-planes, angles gamma, and the intensities in candela."""

    def __init__(self, symmetry, planes, gammas, values):
        self.symmetry, self.planes, self.gammas, self.values = symmetry, planes, gammas, values

    def in_floats(self):
        """The same in double precision, which is much faster."""
        floats = lambda numbers: [float(n) for n in numbers]
        return Lamp(self.symmetry, floats(self.planes), floats(self.gammas), [floats(row) for row in self.values])

    def fold(self, c):
        """The measured angle that stands for C."""
        if self.symmetry == AXIS:
            return self.planes[0]
        if self.symmetry in (PLANE0, BOTH) and c > 180:
            c = 360 - c
        if self.symmetry == BOTH and c > 90:
            c = 180 - c
        if self.symmetry == PLANE90:
            c = 180 - c if 90 < c <= 270 else c - 360 if c > 270 else c
            # the half-planes of an LM-63 file run from 90 to 270
            c = 180 - c if self.planes[-1] == 270 else c
        return c

    def half_planes(self):
        """The angles of the half-planes, around the whole turn, that have a measured one that stands for them."""
        if self.symmetry == AXIS:
            return self.planes
        turns = {NONE: [lambda a: a], PLANE0: [lambda a: a, lambda a: -a], PLANE90: [lambda a: a, lambda a: 180 - a]}
        turns[BOTH] = [lambda a: a, lambda a: -a, lambda a: 180 - a, lambda a: 180 + a]
        return sorted({turn(a) % 360 for a in self.planes for turn in turns[self.symmetry]})

    def intensity(self, c, g):
        if not self.gammas[0] <= g <= self.gammas[-1]:
            return 0 * self.values[0][0]
        c = self.fold(c)
        planes, rows = self.planes, self.values
        if self.symmetry == NONE:
            if c < planes[0]:
                c += 360
            planes, rows = planes + [planes[0] + 360], rows + [rows[0]]
        if len(planes) == 1:
            return line(self.gammas, rows[0], g)
        i = piece(planes, c)
        return line(planes[i:i + 2], [line(self.gammas, row, g) for row in rows[i:i + 2]], c)

    def mean(self, g):
        """The mean intensity round the vertical at gamma."""
        planes = self.half_planes()
        sectors = zip(planes, planes[1:] + [planes[0] + 360])
        return sum((d - c) / Fraction(720) * (self.intensity(c, g) + self.intensity(d % 360, g)) for c, d in sectors)

    def flux(self):
        """Downward and upward, in lumens."""
        zones = [self.mean(5 * k + Fraction(5, 2)) * 2 * PI * (cosine(5 * k) - cosine(5 * k + 5)) for k in range(36)]
        return sum(zones[:18]), sum(zones[18:])

    def flux_lines(self, lumens):
        down, up = self.flux()
        low, high = floor((down + up) * 100), ceil((down + up) * 100)
        verdict = "met" if low >= 100 * lumens else "missed" if high < 100 * lumens else "undecided"
        fluxes = [("down", down), ("up", up), ("flux", down + up)]
        return [f"{name} {cents(floor(flux * 100))} {cents(ceil(flux * 100))}" for name, flux in fluxes] + [f"against {lumens} {verdict}"]

    def summary(self):
        greatest = max(max(row) for row in self.values)
        low, high = floor(greatest * TICKS), ceil(greatest * TICKS)
        low, high = floor(Fraction(low * 100, TICKS)), ceil(Fraction(high * 100, TICKS))
        return f"planes {len(self.half_planes())} gammas {len(self.gammas)} greatest {cents(low)} {cents(high)}"


def cents(n):
    """Hundredths as a decimal."""
    return f"{n // 100}.{n % 100:02}"


def read_eulumdat(data, lamp_set):
    lines = lines_of(data)
    at = lambda k: number(lines[k - 1])
    isym, count_c, count_g = int(at(3)), int(at(4)), int(at(6))
    sets = int(at(26))
    scale = at(24) * at(29 + 6 * (lamp_set - 1)) / 1000
    first = 27 + 6 * sets + 10
    angles = [at(first + i) for i in range(count_c)]
    gammas = [at(first + count_c + i) for i in range(count_g)]
    # the first stored half-plane, counted from 0, and how many are stored
    start, stored = {
        0: (0, count_c),
        1: (0, 1),
        2: (0, count_c // 2 + 1),
        3: (3 * count_c // 4, count_c // 2 + 1),
        4: (0, count_c // 4 + 1),
    }[isym]
    planes = []
    for i in range(stored):
        angle = angles[(start + i) % count_c]
        planes.append(angle - 360 if isym == 3 and angle > 180 else angle)
    first += count_c + count_g
    return Lamp(isym, planes, gammas, [[at(first + p * count_g + g) * scale for g in range(count_g)] for p in range(stored)])


def read_lm63(data):
    lines = lines_of(data)
    tilt = next(k for k, line in enumerate(lines) if line.startswith("TILT="))
    items = [number(item) for item in re.split(r"[ \t\r\n,\x1a]+", "\n".join(lines[tilt + 1:])) if item]
    if lines[tilt].rstrip(" \t\r") == "TILT=INCLUDE":
        del items[:2 + 2 * int(items[1])]
    count_g, count_c = int(items[3]), int(items[4])
    scale = items[2] * items[10] * (items[11] if lines[0].rstrip(" \t\r") == "IESNA91" else 1)
    gammas, planes = items[13:13 + count_g], items[13 + count_g:13 + count_g + count_c]
    first = 13 + count_g + count_c
    values = [[items[first + p * count_g + g] * scale for g in range(count_g)] for p in range(count_c)]
    if count_c == 1:
        return Lamp(AXIS, planes, gammas, values)
    symmetry = {(0, 90): BOTH, (0, 180): PLANE0, (90, 270): PLANE90}.get((planes[0], planes[-1]), NONE)
    # the values at a whole turn aren't used
    return Lamp(symmetry, *((planes[:-1], gammas, values[:-1]) if planes[-1] == 360 else (planes, gammas, values)))


def read_lamp(name, data, lamp_set=1):
    return read_lm63(data) if name.lower().endswith(".ies") else read_eulumdat(data, lamp_set)


def piece(xs, x):
    """The place of the angle from which the piece that holds x runs to the next."""
    if not xs[0] <= x <= xs[-1]:
        raise ValueError(x)
    return min(bisect_right(xs, x), len(xs) - 1) - 1


def line(xs, ys, x):
    """The value at x on the straight pieces from (xs[i], ys[i]) to the next."""
    i = piece(xs, x)
    return ys[i] + (ys[i + 1] - ys[i]) * (x - xs[i]) / (xs[i + 1] - xs[i])


def ticks_below(value):
    return floor(value * TICKS)


def check(source):
    """Texts stand there as `const NAME: &str`, and rows of C and gamma in millionths of a degree and of ticks as
    `const NAME_ROWS`."""
    texts = {name: body.replace("\\n", "\n") for name, body in re.findall(r'const (\w+): &str =\s*"([^"]*)";', source)}
    wrong = 0
    for name, text in texts.items():
        rows = re.search(rf'const {name}_ROWS: &str =\s*"([^"]*)";', source)
        if rows is None:
            continue
        lamp = read_eulumdat(text.encode(), 1)
        found = [[int(n) for n in row.split()] for row in rows[1].splitlines()]
        for c, g, ticks in found:
            wanted = ticks_below(lamp.intensity(Fraction(c, 10**6), Fraction(g, 10**6)))
            wrong += wanted != ticks
            if wanted != ticks:
                print(f"{name} at {c}, {g}: {wanted}, and not {ticks}")
        summary = lamp.summary()
        if f'{name}, "{summary}", {name}_ROWS' not in re.sub(r"\s+", " ", source):
            wrong += 1
            print(f"{name}: {summary}")
        print(f"{name}: {len(found)} rows")
    sys.exit(wrong > 0)


def main():
    words = sys.argv[1:]
    if words[:1] == ["--tests"]:
        check(Path(words[1]).read_text())
    name, *words = words
    lamp_set = int(words.pop(0)) if words and words[0].isdigit() else 1
    lamp = read_lamp(name, Path(name).read_bytes(), lamp_set)
    if words[:1] == ["flux"]:
        print(*lamp.flux_lines(int(words[1])), sep="\n")
        return
    print(lamp.summary())
    for word in words:
        c, g = (Fraction(part) for part in word.split(","))
        value = lamp.intensity(c, g)
        print(word, value, ticks_below(value))


if __name__ == "__main__":
    main()
