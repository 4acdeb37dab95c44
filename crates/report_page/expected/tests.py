"""Writes the rooms and the pages that the tests of this crate have, in `src/tests`, by the second writer of pages. Call it in this folder:
python3 tests.py"""
import pathlib, tomllib
import page

here = pathlib.Path(__file__).parent

# a box, a covered point, a lamp of a file whose name is full of markup, and limits of which one is met and one missed
OFFICE = r"""version = 2
[room]
size = [4000, 3000, 2800]
reflect = [200, 700, 500, 510, 520, 530]
patch = 1000
[[box]]
lo = [100, 200, 0]
hi = [1900, 1400, 2000]
reflect = 310
[[lamp]]
at = [2000, 1500, 2800]
file = "<script>alert('x')</script> & \"q\".ldt"
set = 2
turn = 90
maintenance = 805
size = [300, 1200]
split = [1, 4]
[[lamp]]
at = [0, 1600, 1500]
candela = 905
aim = "+x"
[[lamp]]
at = [3000, 700, 2700]
file = "büro.ies"
[task]
from = [0, 0]
to = [4000, 3000]
height = 750
points = [2, 2]
[limits]
average_millilux = 300000
uniformity_permille = 600
"""
OFFICE_NAME = "Büro & <Halle> \"7\" 'A'.toml"
OFFICE_LINES = """point 0 0 covered
point 1 0 301.26 301.27
point 0 1 489.72 489.74
point 1 1 400.00 400.05
average 396.99 397.02
uniformity 0.589 0.590
"""
OFFICE_SUMMARIES = ["planes 1 gammas 2 greatest 905.00 905.00\n", "planes 1 gammas 2 greatest 1000.00 1000.00\n"]

# cells that are too small for numbers, no uniformity, and limits of which one is missed and one undecided
CELLAR = """version = 1
[room]
size = [6000, 6000, 3000]
[[lamp]]
at = [3000, 3000, 3000]
candela = 0
[task]
from = [0, 0]
to = [300, 450]
height = 0
points = [2, 3]
[limits]
average_millilux = 1000
uniformity_permille = 500
"""
CELLAR_NAME = "地下室-Υπόγειο.toml"
CELLAR_LINES = """point 0 0 0.00 0.00
point 1 0 0.00 0.01
point 0 1 0.02 0.03
point 1 1 0.04 0.05
point 0 2 covered
point 1 2 0.06 0.07
average 0.00 0.04
uniformity none
"""
CELLAR_SUMMARIES = []

# no limits, no lamps, and one task point
BARE = """version = 1
[room]
size = [500, 500, 500]
[task]
from = [0, 0]
to = [500, 500]
height = 0
points = [1, 1]
"""
BARE_NAME = "bare.toml"
BARE_LINES = """point 0 0 0.00 0.00
average 0.00 0.00
uniformity none
"""
BARE_SUMMARIES = []


def literal(text):
    return '"' + text.replace("\\", "\\\\").replace('"', '\\"') + '"'


def const(title, name, text):
    return f"/// {title}\npub(super) const {name}: &str = {literal(text)};\n"


def main():
    style = (here / "style.css").read_text()
    for name, patches in (("OFFICE", 72), ("CELLAR", 1320), ("BARE", 6)):
        g = globals()
        out = "//! A room and its page, which `expected/tests.py` writes by `expected/page.py`. STYLE stands where the page has its style sheet.\n"
        text, file, lines, summaries = (g[name + end] for end in ("", "_NAME", "_LINES", "_SUMMARIES"))
        whole = page.page(file, tomllib.loads(text), lines.splitlines(), summaries, patches)
        shown = whole.replace(style, "STYLE")
        out += "\n" + const("The layout.", name, text) + "\n" + const("The name of its file.", name + "_NAME", file)
        out += "\n" + const("Its page.", name + "_PAGE", shown)
        (here.parent / f"src/tests/{name.lower()}_page.rt").write_text(out)


if __name__ == "__main__":
    main()
