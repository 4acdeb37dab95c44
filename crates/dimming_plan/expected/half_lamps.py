#!/usr/bin/env python3
"""The average of a room with one task point 3 m below lamps of 2,500 cd, of none, one or both of them, in ticks of 2^-36 lux; and the plans
of least power, with a lamp of 50 W in the first group and one of 40 W in the second. The numbers stand in src/tests/groups.rt.

Where nothing reflects, the light of a lamp straight above is its candela by the squared distance in metres.
"""

from fractions import Fraction
from math import ceil, floor

for kept in range(3):
    lux = Fraction(kept * 2500, 9)
    ticks = lux * 2**36
    print(kept, lux, floor(ticks), ceil(ticks))

for limit in (300, 600):
    plans = [(50 * a + 40 * b, a, b) for a in range(11) for b in range(11) if Fraction(a + b, 10) * Fraction(2500, 9) >= limit]
    print(limit, min(plans, default=None))
