"""Writes the style sheet of a page, `style.css` beside this file, into `src/style.rt` and `specs/Style.antt`; with the word `check` it
tells whether they have it. Call it in this folder: python3 style.py [check]"""
import pathlib, sys

here = pathlib.Path(__file__).parent
sheet = (here / "style.css").read_text()
assert '"' not in sheet and "\\" not in sheet and sheet.isascii()

# the parts of the sheet, each by the rule with which it begins
PARTS = [
    ("page", "@page{", "the page, its words and its cards"),
    ("plan", "figure{", "the two plans"),
    ("dark", ".s0{", "the dark steps of the light"),
    ("bright", ".s10{", "the bright steps"),
    ("legend", ".k{", "letters on the steps, and the list of them"),
    ("table", "table{", "the tables, the account, and narrow screens and paper"),
]
starts = [sheet.index("\n" + begin) + 1 if k else 0 for k, (_, begin, _) in enumerate(PARTS)] + [len(sheet)]
assert starts == sorted(starts)


def literal(k):
    return '"' + sheet[starts[k] : starts[k + 1]].replace("\n", "\\n") + '"'


code = """//! The style sheet of a page. `expected/style.py` writes this file from `expected/style.css`.
ghost use Rattle.std.specs.Prelude.{◌≡◌, ◌++◌, IfOk, string_bytes};
"""
code += "ghost use Rattle.report_page.specs.Style.{" + ", ".join(sorted(["style"] + [f"{name}_style" for name, _, _ in PARTS])) + "};\n"
code += "\nuse std::alloc::AllocError;\n"
definition = "-- The style sheet of a page. `expected/style.py` writes this file from `expected/style.css`.\nuse Rattle.std.specs.Prelude.{ℕ, List, ◌++◌, codes}\n"
for k, (name, _, said) in enumerate(PARTS):
    code += f"""
/// Adds the rules of {said}.
#[tactic(auto, unfolding(crate::specs::Style::{name}_style))]
fn push_{name}_style(text: &mut String) -> Result<(), AllocError>
    ensures {{ IfOk result (λ _. string_bytes text.new ≡ string_bytes text.old ++ {name}_style) }}
{{
    text.push_str({literal(k)})
}}
"""
    definition += f"\n-- {said}\nunfoldable pub {name}_style : List ℕ\n{name}_style = codes {literal(k)}\n"
code += """
/// Adds the style sheet.
#[tactic(auto, using(plan_drawing::proofs::Growth::after), unfolding(crate::specs::Style::style))]
pub(crate) fn push_style(text: &mut String) -> Result<(), AllocError>
    ensures { IfOk result (λ _. string_bytes text.new ≡ string_bytes text.old ++ style) }
{
"""
code += "".join(f"    push_{name}_style(text)?;\n" for name, _, _ in PARTS[:-1]) + f"    push_{PARTS[-1][0]}_style(text)\n}}\n"
definition += "\n-- all rules\nunfoldable pub style : List ℕ\nstyle = " + " ++ ".join(f"{name}_style" for name, _, _ in PARTS) + "\n"
files = {here.parent / "src/style.rt": code, here.parent / "specs/Style.antt": definition}
if sys.argv[1:] == ["check"]:
    wrong = [str(p) for p in files for k in range(len(PARTS)) if literal(k) not in p.read_text()]
    sys.exit(f"without the style sheet: {wrong}" if wrong else 0)
for path, text in files.items():
    path.write_text(text)
