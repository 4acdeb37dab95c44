#!/usr/bin/env python3
"""Brute force over all dimming plans of some groups, by whole numbers: which plan takes the least power among those that reach a limit.
The numbers that it prints stand in src/tests.rt."""
from itertools import product

ONE = 2**36  # ticks in a lux


def least(light, watts, limit):
    """The first plan of least power whose light, a tenth of the sum in ticks, is at least `limit` thousandths of a lux."""
    best = None
    for steps in product(range(11), repeat=6):  # in the order of the six steps
        if limit * ONE <= 100 * sum(s * n for s, n in zip(steps, light)):
            power = sum(s * w for s, w in zip(steps, watts))
            if best is None or power < best[0]:
                best = (power, steps)
    return best


def show(name, low, high, watts, limit):
    print(name, "met", least(low, watts, limit), "possible", least(high, watts, limit))


# six different groups; the averages are wide, so that the two plans differ
low = [n * ONE // 1000 for n in (83_120, 41_007, 120_999, 65_500, 9_001, 240_360)]
high = [n * ONE // 1000 + 7 * ONE for n in (83_120, 41_007, 120_999, 65_500, 9_001, 240_360)]
watts = (36, 14, 58, 22, 6, 130)
if __name__ == "__main__":
    show("different", low, high, watts, 300_000)
    print("different low", low, "high", high)
    show("equal", [100 * ONE] * 6, [100 * ONE] * 6, (10,) * 6, 30_000)
    show("exactly", [40 * ONE] + [0] * 5, [40 * ONE] + [0] * 5, (10, 0, 0, 0, 0, 0), 40_000)
    show("one more", [40 * ONE] + [0] * 5, [40 * ONE] + [0] * 5, (10, 0, 0, 0, 0, 0), 40_001)
    show("one group", [1 * ONE] + [0] * 5, [3 * ONE] + [0] * 5, (10, 0, 0, 0, 0, 0), 1_500)
    show("dark and dear", [0, 100 * ONE, 0, 0, 0, 0], [0, 100 * ONE, 0, 0, 0, 0], (0, 10, 5, 0, 0, 0), 50_000)
    show("nothing asked", [0] * 6, [0] * 6, (1,) * 6, 0)
