"""A second writer of a room's page, with none of Lux's code: plain strings from the layout as tomllib reads it and from the lines that
`lux report` prints. The tests of the crate hold the program's pages against what this one writes."""
import fractions, pathlib, sys

here = pathlib.Path(__file__).parent
sys.path.insert(0, str(here.parent.parent / "plan_drawing" / "expected"))
import drawing  # the two figures

KIT = "rattle-kit-13f logic dac8208d650f15bf"


def escaped(text):
    for sign, name in (("&", "&amp;"), ("<", "&lt;"), (">", "&gt;"), ('"', "&quot;"), ("'", "&#39;")):
        text = text.replace(sign, name)
    return text


def milli(n):
    """Thousandths as a decimal, so also millimetres in metres."""
    return f"{n // 1000}.{n % 1000:03}"


def counted(n, one, many):
    return f"{n} {one if n == 1 else many}"


def table(heads, rows):
    head = "".join(f"<th>{h}</th>" for h in heads)
    return f"<div class='scroll'><table>\n<thead><tr>{head}</tr></thead>\n<tbody>\n" + "".join(rows) + "</tbody>\n</table></div>\n"


def row(cells):
    return "<tr>" + "".join(cells) + "</tr>\n"


def cell(text):
    return f"<td>{text}</td>"


# ---- what is read


class Said:
    """The lines of a report."""

    def __init__(self, lines):
        self.points, self.average, self.uniformity = [], None, None
        for line in lines:
            words = line.split()
            if words[0] == "point":
                self.points.append(None if words[3] == "covered" else (words[3], words[4]))
            elif words[0] == "average":
                self.average = (words[1], words[2])
            elif words[0] == "uniformity" and words[1] != "none":
                self.uniformity = (words[1], words[2])


def files_of(room):
    """Each pair of file and set once, in order of first use."""
    uses = []
    for lamp in room.get("lamp", []):
        if "file" in lamp and (lamp["file"], lamp.get("set", 1)) not in uses:
            uses.append((lamp["file"], lamp.get("set", 1)))
    return uses


# ---- the parts of the page


def head(name):
    style = (here / "style.css").read_text()
    return (
        "<!DOCTYPE html>\n<html xmlns='http://www.w3.org/1999/xhtml' lang='en'>\n<head>\n<meta charset='utf-8'/>\n"
        "<meta name='viewport' content='width=device-width, initial-scale=1'/>\n"
        f"<title>{escaped(name)} - Lux</title>\n<style>\n{style}</style>\n</head>\n<body>\n"
    )


def opening(name, room, said):
    x, y, z = room["room"]["size"]
    return (
        f"<h1>Light in {escaped(name)}</h1>\n"
        f"<p>Illuminance at {counted(len(said.points), 'task point', 'task points')}, {milli(room['task']['height'])} m above the floor of a room of "
        f"{milli(x)} by {milli(y)} m, {milli(z)} m high, with {counted(len(room.get('lamp', [])), 'lamp', 'lamps')} and "
        f"{counted(len(room.get('box', [])), 'box', 'boxes')}.</p>\n"
    )


MARKS = {"met": "&#10003;", "missed": "&#10007;", "undecided": "?"}


def verdict(least, ends):
    """By printed ends: met where the lower one reaches the limit, missed where the upper one doesn't."""
    if ends is None:
        return "undecided"
    lo, hi = (fractions.Fraction(e) for e in ends)
    least = fractions.Fraction(least, 1000)
    return "met" if lo >= least else "missed" if hi < least else "undecided"


def cards(room, said):
    asked = room.get("limits", {})
    uniformity = f"{said.uniformity[0]} to {said.uniformity[1]}" if said.uniformity else "none: the average may be 0"
    text = f"<dl>\n<div><dt>Average</dt><dd>{said.average[0]} to {said.average[1]} lx</dd></div>\n"
    text += f"<div><dt>Uniformity</dt><dd>{uniformity}</dd></div>\n"
    limits = (("average_millilux", "Average", " lx", said.average), ("uniformity_permille", "Uniformity", "", said.uniformity))
    for key, title, unit, ends in limits:
        if key in asked:
            v = verdict(asked[key], ends)
            text += f"<div class='{v}'><dt>{title} asked for: at least {milli(asked[key])}{unit}</dt><dd>{MARKS[v]} {v}</dd></div>\n"
    return text + "</dl>\n"


AIMS = {"-z": "-z, down", "+z": "+z, up", "+x": "+x", "-x": "-x", "+y": "+y", "-y": "-y"}


def lamp_row(k, lamp):
    size, split = lamp.get("size", [0, 0]), lamp.get("split", [1, 1])
    if "file" in lamp:
        shines = f"{escaped(lamp['file'])}, set {lamp.get('set', 1)}"
    else:
        shines = f"{lamp['candela']} cd in all directions"
    cells = [cell(k)] + [cell(milli(c)) for c in lamp["at"]] + [f"<td class='name'>{shines}</td>"]
    cells += [cell(AIMS[lamp.get("aim", "-z")]), cell(f"{lamp.get('turn', 0)}&#176;"), cell(f"{milli(size[0])} by {milli(size[1])}")]
    return row(cells + [cell(f"{split[0]} by {split[1]}"), cell(milli(lamp.get("maintenance", 1000)))])


def lamps(room):
    rows = [lamp_row(k, lamp) for k, lamp in enumerate(room.get("lamp", []))]
    if not rows:
        return ""
    heads = ["Lamp", "x, m", "y, m", "z, m", "Shines by", "Aim", "Turn", "Size, m", "Parts", "Maintenance"]
    return "<h2>Lamps</h2>\n" + table(heads, rows)


def files(room, summaries):
    uses = files_of(room)
    if not uses:
        return ""
    rows = [row([f"<td class='name'>{escaped(n)}</td>", cell(s), f"<td><code>{t}</code></td>"]) for (n, s), t in zip(uses, summaries, strict=True)]
    note = (
        "<p class='note'>A file's table has so many half-planes C (planes), each with so many angles gamma, and its greatest intensity lies "
        "between the last two numbers, in candela.</p>\n"
    )
    return "<h2>Photometric files</h2>\n" + table(["File", "Set", "Its table"], rows) + note


def surfaces(room, patches, said):
    names = ["Floor", "Ceiling", "Wall x = 0", "Far x wall", "Wall y = 0", "Far y wall"]
    reflect = room["room"].get("reflect", [0] * 6)
    rows = [row([cell(n), cell(milli(r))]) for n, r in zip(names, reflect)]
    nx, ny = room["task"]["points"]
    return "<h2>Surfaces</h2>\n" + table(["Surface", "Reflectance"], rows) + (
        f"<p>Patches: {patches}, with edges of at most {milli(room['room'].get('patch', 600))} m. "
        f"Task points: {len(said.points)}, in {counted(nx, 'column', 'columns')} by {counted(ny, 'row', 'rows')}.</p>\n"
    )


def boxes(room):
    rows = []
    for k, box in enumerate(room.get("box", [])):
        spans = [cell(f"{milli(a)} to {milli(b)}") for a, b in zip(box["lo"], box["hi"])]
        rows.append(row([cell(k)] + spans + [cell(milli(box.get("reflect", 0)))]))
    if not rows:
        return ""
    return "<h2>Boxes</h2>\n" + table(["Box", "x, m", "y, m", "z, m", "Reflectance"], rows)


def points(room, said):
    """For paper, where the plan's cells are too small for numbers."""
    if drawing.Plan(room).numbers_fit():
        return ""
    columns = room["task"]["points"][0]
    rows = []
    for k, ends in enumerate(said.points):
        printed = [cell(ends[0]), cell(ends[1])] if ends else ["<td colspan='2'>covered</td>"]
        rows.append(row([cell(k % columns), cell(k // columns)] + printed))
    return (
        "<h2>Task points</h2>\n<p class='note'>Columns run along x and rows along y, both from 0; the ends of each interval are in lux.</p>\n"
        "<div class='points'>\n" + table(["Column", "Row", "From", "To"], rows) + "</div>\n"
    )


def account(name, room):
    n = escaped(name)
    return (
        "<section class='account'>\n<h2>What the numbers are, and what is proved</h2>\n"
        "<p><b>Proved:</b> each printed interval meets, at every depth from 2, the enclosure of the exact value that the radiosity equations of "
        "this room give, and where these enclosures narrow to one number it holds that number; none is wider than stated amounts allow. No "
        "digit is off by rounding, by an iteration that stopped early or by floating point. A limit is met where the whole printed interval "
        "reaches it, missed where the whole interval lies below it, and else undecided; it is the designer's number and no standard's.</p>\n"
        "<p><b>Not proved:</b> that the layout describes the real room, that a real lamp shines as its number or its file says, and that the "
        "equations are the room's light.</p>\n"
        f"<p>The equations are a model: surfaces are cut into patches with edges of at most {milli(room['room'].get('patch', 600))} m, each of "
        "one illuminance, which hand light on between their middles and reflect it evenly in all directions. Where lamps hang clear of the "
        "surfaces, averages came within 3 per cent of a path tracer's with coarse patches, and within 1 per cent with finer ones. Where a lamp "
        "shines on a surface from less than about a patch edge away, the numbers depend on where the patches lie: compare them with those of "
        "smaller patches.</p>\n"
        f"<p>Checked with <code>{KIT}</code>. To repeat it, with the room's file and its photometric files in one folder: "
        f"<code>lux report {n}</code> prints the same intervals, <code>lux certify {n} &gt; claim.csv</code> writes bounds of the light of "
        f"every patch, and <code>lux check {n} claim.csv</code> checks them without solving.</p>\n"
        "</section>\n</body>\n</html>\n"
    )


def page(name, room, lines, summaries, patches):
    """The page of a room: its name, the layout as tomllib reads it, the lines of its report, the line of `lux read` for each file and set in
    order of first use, and how many patches it has."""
    said = Said(lines)
    return (
        head(name)
        + opening(name, room, said)
        + cards(room, said)
        + drawing.light_figure(room, lines)
        + drawing.things_figure(room)
        + lamps(room)
        + files(room, summaries)
        + surfaces(room, patches, said)
        + boxes(room)
        + points(room, said)
        + account(name, room)
    )
