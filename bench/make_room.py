#!/usr/bin/env python3
"""The layout of the room that `lux trial N` makes, written from its formulas with none of Lux's code.

usage: make_room.py N > ROOM.toml

With expected.py it gives the average and the uniformity of a trial.
"""
import sys


def room_text(n):
    x, y = 2000 + 200 * n, 2000 + 150 * n
    columns, rows = 1 + n // 10, 1 + n // 20
    lines = ["version = 1", "[room]", f"size = [{x}, {y}, 2500]", "reflect = [200, 500, 400, 400, 300, 300]", "patch = 500"]
    for k in range(n // 4):
        lines += ["[[box]]", f"lo = [{300 + 800 * k}, 400, 0]", f"hi = [{800 + 800 * k}, 1000, 700]", "reflect = 300"]
    for j in range(rows):
        for i in range(columns):
            at = (2 * i + 1) * x // (2 * columns), (2 * j + 1) * y // (2 * rows)
            lines += ["[[lamp]]", f"at = [{at[0]}, {at[1]}, 2500]", "candela = 400"]
    lines += ["[task]", "from = [200, 200]", f"to = [{x - 200}, {y - 200}]", "height = 800", f"points = [{2 + n // 4}, {2 + n // 5}]"]
    return "\n".join(lines) + "\n"


if __name__ == "__main__":
    sys.stdout.write(room_text(int(sys.argv[1])))
