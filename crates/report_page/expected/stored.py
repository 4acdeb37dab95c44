"""Writes the page of a room by the second writer of pages and the second planner: python3 stored.py ROOM.toml > stdout

The stored runs of the page's program, `crates/lux_page` and `crates/lux_page_full`, have what it writes. The values are those of
bench/expected.py, rounded outward to the printed digits; a value so near a digit that Lux might print one more on either side is refused.
It serves rooms whose lamps shine evenly, without limits. Of a black room, where no patch sends light, only the patches are counted."""
import math
import sys
import tomllib
from pathlib import Path

here = Path(__file__).resolve().parent
sys.path += [str(here), str(here.parent.parent.parent / "bench")]
import expected
import page


def ends(value, parts):
    scaled = value * parts
    if abs(scaled - round(scaled)) < 1e-4:
        sys.exit(f"{value} is too near a printed digit")
    digits = len(str(parts)) - 1
    return f"{math.floor(scaled) / parts:.{digits}f} {math.ceil(scaled) / parts:.{digits}f}"


def black(document, folder):
    """How many patches a room has, and its points by the lamps alone."""
    room, task, boxes = document["room"], document["task"], document.get("box", [])
    count = sum(1 for surface in expected.surfaces(room, boxes) for _ in expected.tiles(*surface, room.get("patch", 600)))
    lights = list(expected.sources(document.get("lamp", []), folder))
    return count, [
        (i, j, None if any(all(b["lo"][a] < p[a] < b["hi"][a] for a in range(3)) for b in boxes) else expected.direct(boxes, lights, p, expected.UP))
        for i, j, p in expected.task_points(task)
    ]


path = Path(sys.argv[1])
room = tomllib.loads(path.read_text())
if any(room["room"].get("reflect", [])) or any(box.get("reflect", 0) for box in room.get("box", [])):
    (patches, _, _), points = expected.reckon(room, path.parent)
else:
    patches, points = black(room, path.parent)
values = [value for _, _, value in points if value is not None]
lines = [f"point {i} {j} {'covered' if value is None else ends(value, 100)}" for i, j, value in points]
lines += [f"average {ends(expected.mean(points), 100)}", f"uniformity {ends(min(values) / expected.mean(points), 1000)}"]
sys.stdout.write(page.page(path.name, room, lines, [], patches))
