"""Makes docs/FIGURES.md. `tests/minutes.py --write` writes the page, and `tests/minutes.py --check` compares it.

The page has the minutes of docs/minutes.json, the edits in the crates' folders, and the measurements of docs/figures.json. There each
section has tables; a table says what was measured (`what`), its columns and rows, and, where they are known, the date, the kit, the build
and the processor. `bars` names the rows that docs/pictures/draw.py draws.
"""
import json
import pathlib

ROOT = pathlib.Path(__file__).resolve().parent.parent
FIGURES, PAGE = ROOT / "docs" / "figures.json", ROOT / "docs" / "FIGURES.md"
HEAD = """# Figures

`tests/minutes.py --write` writes this page, from `docs/figures.json`, `docs/minutes.json` and the edits in the crates' folders. Change those, not this page. `rr_bench` makes the round trips.
"""


def cell(value):
    """Returns a number with its thousands apart, and a text as it is."""
    return f"{value:,}" if isinstance(value, int) else str(value)


def conditions(told):
    """Returns when, with what and on what a table was measured, as far as it says so."""
    known = [told[name] for name in ["date", "kit", "build", "processor"] if name in told]
    return f"*{'; '.join(known)}*\n\n" if known else ""


def table(told):
    """Returns a table of docs/figures.json."""
    lines = ["| " + " | ".join(told["columns"]) + " |", "|" + "---|" * len(told["columns"])]
    lines += ["| " + " | ".join(map(cell, row)) + " |" for row in told["rows"]]
    notes = "".join(f"\n{note}\n" for note in told.get("notes", []))
    return f"{told['what']}\n\n{conditions(told)}" + "\n".join(lines) + "\n" + notes


def edits():
    """Returns how many wrong edits there are, by who tries them."""
    tried, others = (len(list(ROOT.glob(f"crates/*/{folder}/*.edit"))) for folder in ["must-fail", "edits"])
    return f"The gate tries {tried} wrong edits; `tests/edits` tries the other {others}.\n"


def page(minutes):
    """Returns the page, with a table of the gate's minutes."""
    told = json.loads(FIGURES.read_text())
    parts = [HEAD]
    for section in told["sections"]:
        parts.append(f"## {section['title']}\n")
        parts += [table(it) for it in section["tables"]]
    parts += ["## The gate\n", minutes, edits()]
    return "\n".join(parts)
