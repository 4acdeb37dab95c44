#!/usr/bin/env python3
"""A second search for the least power of a dimming plan, in double precision and with none of Lux's code.

usage: dim.py ROOM.toml PLAN.csv MILLILUX

For each group of the plan that has lamps, expected.py reckons the average of the room lit by its lamps alone. Then all plans of the six
groups, each at a step of 0 to 10 tenths, are tried in the order of their steps. It prints the groups' watts and averages, the first
plan of least power that reaches the limit, its power in watts and its average, and how near the next average below and above the limit
come to it: where that is less than some hundredths of a lux, Lux may print another plan, or two. It looks for no faults in its files.
"""
import csv
import sys
import tomllib
from itertools import product
from pathlib import Path

import expected


def groups_of(document, folder, plan):
    """The watts of each group, and the average of the room with just its lamps in lux."""
    for group in range(6):
        lamps = [lamp for lamp, record in zip(document.get("lamp", []), plan) if record[1] == group]
        watts = sum(record[2] for record in plan if record[1] == group)
        lit = expected.mean(expected.reckon(document | {"lamp": lamps}, folder)[1]) if lamps else 0.0
        yield watts, lit


def main():
    path = Path(sys.argv[1])
    with open(sys.argv[2], newline="") as file:
        plan = [tuple(map(int, record)) for record in csv.reader(file) if record and record[0].isdigit()]
    groups = list(groups_of(tomllib.loads(path.read_text()), path.parent, plan))
    limit, best, below, above = int(sys.argv[3]) / 1000, None, None, None
    for steps in product(range(11), repeat=6):
        if any(step and not watts and not lit for step, (watts, lit) in zip(steps, groups)):
            continue  # a group without lamps: its other steps change nothing, and come later
        light = sum(step * lit for step, (_, lit) in zip(steps, groups)) / 10
        power = sum(step * watts for step, (watts, _) in zip(steps, groups))
        if light < limit:
            below = light if below is None else max(below, light)
            continue
        above = light if above is None else min(above, light)
        if best is None or power < best[0]:
            best = power, steps, light
    for group, (watts, lit) in enumerate(groups):
        print("group", group, "watts", watts, "average", f"{lit:.6f}")
    if best is None:
        print("none")
    else:
        print(f"{best[0] // 10}.{best[0] % 10}", *best[1], "average", f"{best[2]:.6f}")
    print("next below", below, "next above", above)


if __name__ == "__main__":
    main()
