"""The two figures of a room, made from a layout and a report, for the tests of `plan_drawing`. Written from what the figures are to show,
in plain words, and not from the crate's code.

`light_figure(room, report)` and `things_figure(room)` give the text. `room` is a layout as tomllib reads it, `report` the lines of
`lux report`. Called as a script it writes the rooms of the tests and their figures: python3 drawing.py ../src/tests/rooms.rt
"""
from fractions import Fraction
from math import floor
from pathlib import Path
import sys
import tomllib

AIMS = {'+z': (0, 1), '-z': (0, 1), '+x': (1, 2), '-x': (1, 2), '+y': (0, 2), '-y': (0, 2)}
STARTS = [0, 5, 10, 20, 30, 50, 75, 100, 150, 200, 300, 500, 750, 1000, 1500, 2000, 3000, 5000]


def metres(mm):
    return '%d.%03d' % divmod(mm, 1000)


def attributes(box):
    return "x='%d' y='%d' width='%d' height='%d'" % box


def points_of(report):
    """(column, row, lower end or None, upper end) of each point, the ends as they are printed"""
    points = []
    for words in (line.split() for line in report):
        if words and words[0] == 'point':
            ends = (None, None) if words[3] == 'covered' else (words[3], words[4])
            points.append((int(words[1]), int(words[2])) + ends)
    return points


class Plan:
    """the measures of a plan in millimetres of its room"""

    def __init__(self, room):
        self.x, self.y, self.z = room['room']['size']
        self.edge = max(self.x, self.y)
        self.unit = floor(Fraction(self.edge, 32))
        self.width = max(self.x, floor(Fraction(self.edge, 3))) + 4 * self.unit
        self.height = self.y + 3 * self.unit
        self.boxes = room.get('box', [])
        self.lamps = room.get('lamp', [])
        self.task = room['task']
        (self.from_x, self.from_y), (self.to_x, self.to_y) = self.task['from'], self.task['to']
        self.nx, self.ny = self.task['points']
        across = floor(Fraction(self.to_x - self.from_x, self.nx)) // 6
        along = floor(Fraction(self.to_y - self.from_y, self.ny)) // 3
        self.letters = min(across, along, self.unit)

    def numbers_fit(self):
        return Fraction(self.letters) >= Fraction(self.edge, 90)

    def is_fine(self):
        return self.numbers_fit() and Fraction(self.letters) < Fraction(self.edge, 50)

    def bar(self):
        return max(mm for mm in (100, 500, 1000, 5000, 10000) if Fraction(mm) <= Fraction(self.edge, 4))

    def from_above(self, x0, y0, x1, y1):
        """what is drawn of a rectangle, with y counted from the far edge down"""
        return (x0, self.y - y1, x1 - x0, y1 - y0)

    def box(self, box):
        return self.from_above(box['lo'][0], box['lo'][1], box['hi'][0], box['hi'][1])

    def cell(self, column, row):
        def cut(start, end, parts, i):
            return floor(start + Fraction(end - start, parts) * i)
        return self.from_above(
            cut(self.from_x, self.to_x, self.nx, column), cut(self.from_y, self.to_y, self.ny, row),
            cut(self.from_x, self.to_x, self.nx, column + 1), cut(self.from_y, self.to_y, self.ny, row + 1))

    def point(self, column, row):
        def middle(start, end, parts, i):
            return floor(start + Fraction(end - start, parts) * (i + Fraction(1, 2)))
        return middle(self.from_x, self.to_x, self.nx, column), middle(self.from_y, self.to_y, self.ny, row)


def step_of(lower):
    return max(k for k, start in enumerate(STARTS) if start <= Fraction(lower))


def head(plan, kind, name):
    return (f"<figure>\n<div class='scroll'><svg class='{kind}' viewBox='0 0 {plan.width} {plan.height}' role='img' "
            f"aria-label='{name}'>\n")


def floor_part(plan):
    return (f"<g transform='translate({2 * plan.unit} {plan.unit // 2})'>\n"
            f"<rect class='floor' {attributes((0, 0, plan.x, plan.y))}/>\n")


def wall(plan):
    return f"<rect class='wall' {attributes((0, 0, plan.x, plan.y))}/>\n"


def cell_text(plan, point):
    column, row, lower, upper = point
    x, y = plan.point(column, row)
    look = 'covered' if lower is None else f's{step_of(lower)}'
    said = 'covered by a box' if lower is None else f'{lower} to {upper} lx'
    return (f"<rect class='{look}' {attributes(plan.cell(column, row))}><title>point {column} {row} at {metres(x)}, {metres(y)} m: "
            f"{said}</title></rect>\n")


def number_text(plan, point):
    column, row, lower, upper = point
    if lower is None:
        return ''
    left, top, width, height = plan.cell(column, row)
    middle, base = left + width // 2, top + height // 2 - plan.letters // 5
    step = step_of(lower)
    ink = 'w' if step <= 7 else 'k'
    return (f"<text class='s{step} {ink}' x='{middle}' y='{base}'>{lower}<tspan x='{middle}' dy='{6 * plan.letters // 5}'>{upper}"
            "</tspan></text>\n")


def legend():
    items = ''.join(f"<li class='s{k} {'w' if k <= 7 else 'k'}'>{start}</li>\n" for k, start in enumerate(STARTS))
    return ("<ul class='legend'>\n" + items + "<li class='hatch'>covered</li>\n</ul>\n"
            "<p class='note'>Each colour from its number of lux up to the next.</p>\n")


def light_caption(plan):
    boxes = 'Thin lines are boxes, and hatched cells are covered by one. x runs to the right, y upward.'
    if plan.numbers_fit():
        said = ('Light: each cell belongs to the task point in its middle and holds the lower and the upper end of its interval in '
                'lux; its colour goes by the lower end. ')
    else:
        said = ('Light: each cell belongs to the task point in its middle, and its colour goes by the lower end of its interval. '
                'The cells are too small for the intervals: each stands in the tooltip of its cell and in the table of the task '
                'points. ')
    return f'<figcaption>{said}{boxes}</figcaption>\n'


def light_figure(room, report):
    plan = Plan(room)
    points = points_of(report)
    u, bar = plan.unit, plan.bar()
    text = head(plan, 'light fine' if plan.is_fine() else 'light', 'Plan with the illuminance at each task point')
    text += (f"<defs><pattern id='covered' width='{u}' height='{u}' patternUnits='userSpaceOnUse' patternTransform='rotate(45)'>"
             f"<path d='M0 0V{u}' stroke='#555' stroke-width='{u // 3}'/></pattern></defs>\n")
    text += floor_part(plan)
    text += ''.join(cell_text(plan, p) for p in points)
    for box in plan.boxes:
        area = attributes(plan.box(box))
        text += f"<rect class='halo' {area}/><rect class='edge' {area}/>\n"
    text += wall(plan)
    if plan.numbers_fit():
        text += f"<g class='values' font-size='{plan.letters}'>\n" + ''.join(number_text(plan, p) for p in points) + '</g>\n'
    text += (f"<path class='bar' d='M0 {plan.y + u}h{bar}'/><text class='label' font-size='{4 * u // 5}' x='{bar + u // 2}' "
             f"y='{plan.y + 5 * u // 4}'>{metres(bar)} m</text>\n")
    return text + '</g>\n</svg></div>\n' + light_caption(plan) + legend() + '</figure>\n'


def box_text(plan, k, box):
    x, y, width, height = area = plan.box(box)
    low, high = metres(box['lo'][2]), metres(box['hi'][2])
    size = min(3 * plan.unit // 4, 3 * max(width, height) // 10, 7 * min(width, height) // 10)
    margin = size // 3
    base = y + height - margin
    place = f'translate({x + size} {base}) rotate(-90)' if width < height else f'translate({x + margin} {base})'
    return (f"<rect class='box' {attributes(area)}><title>box {k}: from {low} to {high} m above the floor</title></rect>\n"
            f"<text class='boxname' font-size='{size}' transform='{place}'>{high}</text>\n")


def mark(radius, aim, turn):
    def turned(angle):
        return f"<path class='aim' transform='rotate({angle})' d='M0 0H{2 * radius}"
    a = radius // 3
    along = {'+x': 0, '-y': 90, '-x': 180, '+y': 270}
    if aim in along:
        return turned(along[aim]) + f"l-{a}-{a}m{a} {a}l-{a} {a}'/>\n"
    ring = f"<circle class='ring' r='{5 * radius // 4}'/>\n" if aim == '+z' else ''
    if turn == 0:
        return ring
    return ring + turned(turn if aim == '+z' else 360 - turn) + "'/>\n"


def lamp_text(plan, k, lamp):
    x, y, z = lamp['at']
    aim, turn = lamp.get('aim', '-z'), lamp.get('turn', 0)
    extent = [0, 0, 0]
    for axis, size in zip(AIMS[aim], lamp.get('size', [0, 0])):
        extent[axis] = size
    width, height = extent[0], extent[1]
    radius = min((4 if len(plan.lamps) <= 64 else 2) * plan.unit // 5, min(plan.x, plan.y) // 10)
    return (f"<g transform='translate({x} {plan.y - y})'><title>lamp {k} at {metres(x)}, {metres(y)} m, {metres(z)} m above the floor, "
            f"aim {aim}, turn {turn}</title>\n"
            f"<path class='shine' d='M-{width // 2}-{height // 2}h{width}v{height}h-{width}z'/>\n"
            + mark(radius, aim, turn) +
            f"<circle class='lamp' r='{radius}'/><text class='lampname' font-size='{radius}' y='{radius // 3}'>{k}</text></g>\n")


def things_figure(room):
    plan = Plan(room)
    u = plan.unit
    text = head(plan, 'things', 'Plan of the boxes, the lamps and the task area') + floor_part(plan)
    text += ''.join(box_text(plan, k, box) for k, box in enumerate(plan.boxes))
    text += f"<rect class='task' {attributes(plan.from_above(plan.from_x, plan.from_y, plan.to_x, plan.to_y))}/>\n" + wall(plan)
    text += ''.join(lamp_text(plan, k, lamp) for k, lamp in enumerate(plan.lamps))
    text += f"<text class='label middle' font-size='{min(u, (plan.x + 4 * u) // 6)}' x='{plan.x // 2}' y='{plan.y + 3 * u // 2}'>x: {metres(plan.x)} m</text>\n"
    text += (f"<text class='label middle' font-size='{min(u, (plan.y + u) // 6)}' transform='translate(-{3 * u // 4} {plan.y // 2}) rotate(-90)'>"
             f"y: {metres(plan.y)} m</text>\n")
    caption = ('Things: boxes have the height of their tops in metres. Circles are lamps with their numbers, and a grey rectangle is '
               'what a lamp shines from. An arrow is the aim of a lamp that is aimed along the floor, a second circle marks a lamp that '
               'is aimed upward, and a line out of a circle the half-plane C 0 of a lamp that is turned. The dashed line is the task '
               'area. x runs to the right, y upward.')
    return text + f'</g>\n</svg></div>\n<figcaption>{caption}</figcaption>\n</figure>\n'


# ---- the rooms of the tests

STUDY = """version = 2
[room]
size = [4000, 3000, 2500]
[[box]]
lo = [3000, 0, 0]
hi = [4000, 1400, 1800]
[[box]]
lo = [500, 1000, 0]
hi = [700, 2500, 720]
[[lamp]]
at = [2000, 1500, 2500]
candela = 500
size = [600, 300]
turn = 90
[[lamp]]
at = [0, 1000, 1800]
candela = 150
size = [300, 1200]
aim = '+x'
[[lamp]]
at = [3500, 2900, 400]
candela = 100
aim = '+z'
turn = 45
[task]
from = [0, 0]
to = [4000, 3000]
height = 750
points = [2, 2]
"""
STUDY_REPORT = ['point 0 0 4.99 5.01', 'point 1 0 covered', 'point 0 1 149.99 150.00', 'point 1 1 5000.00 5000.01']
HALL = """version = 2
[room]
size = [1000, 100000, 3000]
[[lamp]]
at = [500, 49999, 3000]
candela = 10
[task]
from = [100, 200]
to = [901, 99900]
height = 0
points = [3, 2]
"""
HALL_REPORT = [
    'point 0 0 0.00 0.01', 'point 1 0 10.00 10.01', 'point 2 0 19.99 20.00', 'point 0 1 74.99 75.01', 'point 1 1 75.00 75.00',
    'point 2 1 2999.99 3000.00',
]


def literal(name, said, text):
    spelled = text.replace('"', '\\"').replace('\n', '\\n')
    return f'/// {said}\npub const {name}: &str =\n    "{spelled}";\n'


def main(file):
    parts = ["//! Two rooms and their figures, as expected/drawing.py writes them: `python3 expected/drawing.py src/tests/rooms.rt`.\n"]
    for name, said, room, report in (('STUDY', 'a study', STUDY, STUDY_REPORT), ('HALL', 'a long hall', HALL, HALL_REPORT)):
        read = tomllib.loads(room)
        parts.append(literal(name, f'The layout of {said}.', room))
        parts.append(literal(name + '_LIGHT', f'The light in {said}.', light_figure(read, report)))
        parts.append(literal(name + '_THINGS', f'The things in {said}.', things_figure(read)))
    file.write_text('\n'.join(parts))


if __name__ == '__main__':
    main(Path(sys.argv[1]))
