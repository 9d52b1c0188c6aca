#!/usr/bin/env python3
"""Draws docs/formats.svg, the elements of a frame of each rate letter, of A and B with the year and without, from the layout
table in crates/layout/src/lib.rt; where X's digits stand is from the definition in crates/timecode/specs/Layout.antt.

Without arguments it writes the file; with --check it compares the file with what it would write."""

import re
import sys
from pathlib import Path

HERE = Path(__file__).resolve().parent
TABLE = HERE.parent / "crates/layout/src/lib.rt"
DEFINITION = HERE.parent / "crates/timecode/specs/Layout.antt"
PICTURE = HERE / "formats.svg"

# What each run of the table carries, in the table's order: the field, and the weight of the run's first element.
RUNS = [
    ("seconds", 1),
    ("seconds", 10),
    ("minutes", 1),
    ("minutes", 10),
    ("hours", 1),
    ("hours", 10),
    ("days", 1),
    ("days", 10),
    ("days", 100),
    ("tenths", 0.1),
    ("hundredths", 0.01),
    ("SBS", None),
    ("SBS", None),
    ("control", None),
    ("control", None),
    ("control", None),
    ("control", None),
    ("control", None),
    ("years", 1),
    ("years", 10),
]
COLOURS = {
    "mark": "#37474f",
    "seconds": "#ffe0b2",
    "minutes": "#fff3b0",
    "hours": "#cfe8c6",
    "days": "#bfe3ea",
    "years": "#9fd3c7",
    "tenths": "#f8cfd8",
    "hundredths": "#f3b8c6",
    "SBS": "#d6ccee",
    "control": "#c9d8f5",
    "index": "#f4f4f4",
    "missing": "#e4d8cf",
}
# Letters with the first expression of an edition, those of one length beside each other.
PANELS = [[("A", 0), ("B", 0)], [("A", 4), ("B", 4)], [("E", 1), ("G", 1)], [("D", 1), ("H", 1)], [("X", 2)]]

WIDTH = 900
MARGIN = 8
LABEL = 22  # room for the index of a row's first element
CELL = 34
LINE = 26
SIDE = 74  # room for a row's fields
PANEL = LABEL + 10 * CELL + SIDE
HEAD = 46
LEGEND = 102
FONT = "DejaVu Sans, Verdana, Arial, sans-serif"


def fail(why):
    sys.exit(f"formats.py: {why}")


def numbers(text):
    return [int(number.replace("_", "")) for number in re.findall(r"\d[\d_]*", text)]


def read_x():
    """The digits of X, whose places are none of the table's: field, weight of the lowest bit, start and width."""
    source = DEFINITION.read_text(encoding="utf-8")
    digits = []
    for field in ("hours", "minutes", "seconds"):
        found = re.search(rf"^{field} f = in_x f (\d+) (\d+) .*?∷ in_x f (\d+) (\d+) ", source, re.M)
        if not found:
            fail(f"no {field} of X in {DEFINITION}")
        units, units_width, tens, tens_width = (int(number) for number in found.groups())
        digits += [(field, 1, units, units_width), (field, 10, tens, tens_width)]
    return digits


def read_table():
    """The rows by letter and first expression, from the constants of the layout crate."""
    source = TABLE.read_text(encoding="utf-8")
    found = re.search(r"^const WIDTHS: \[u8; \d+\] = \[(.*?)\];", source, re.M | re.S)
    if not found:
        fail(f"no constant WIDTHS in {TABLE}")
    widths = numbers(found[1])
    rows = {}
    for name, body in re.findall(r"^const (\w+): Row = Row \{(.*?)^\};", source, re.M | re.S):
        row = {"letter": name[0]}
        for field in ("elements", "interval", "first", "last"):
            found = re.search(rf"\b{field}: ([\d_]+),", body)
            if not found:
                fail(f"row {name} has no {field}")
            row[field] = numbers(found[1])[0]
        if row["last"] < row["first"]:
            continue  # the row of what is no format
        runs = re.search(r"\bruns: 0b([01_]+),", body)
        if not runs:
            fail(f"row {name} has no runs")
        carried = runs[1].replace("_", "")[::-1]
        for field in ("digits", "controls", "years", "marks"):
            found = re.search(rf"\b{field}: \[(.*?)\],", body, re.S)
            if not found:
                fail(f"row {name} has no {field}")
            row[field] = numbers(found[1])
        row["starts"] = row["digits"] + row["controls"] + row["years"]
        row["widths"] = [width if bit == "1" else 0 for width, bit in zip(widths, carried)]
        if not len(carried) == len(row["widths"]) == len(row["starts"]) == len(RUNS):
            fail(f"row {name} has {len(carried)} runs")
        rows[row["letter"], row["first"]] = row
    if sorted(rows) != sorted(sum(PANELS, [])):
        fail(f"rows for the letters and first expressions {sorted(rows)}")
    return rows


def weight_text(weight):
    return f"{weight:.2f}".rstrip("0").rstrip(".").removeprefix("0")


def cells_of_x(n):
    """The same for X: a mark, digits with the highest weight first, missing pulses."""
    cells = [("mark", "Pr", "mark Pr")] + [("missing", "–", "missing pulse")] * (n - 1)
    for field, lowest, start, width in read_x():
        for place in range(start, start + width):
            text = weight_text(lowest * 2 ** (start + width - 1 - place))
            cells[place] = (field, text, f"{field}, weight {text}")
    return cells


def cells_of(row):
    """For each element its kind, the text in its cell and what it is in words."""
    n = row["elements"]
    if row["letter"] == "X":
        return cells_of_x(n)
    cells = [("index", "", "index marker")] * n
    places = [mark for mark in row["marks"] if mark < n]
    for count, mark in enumerate(places):
        name = "r" if count == 0 else "0" if count == len(places) - 1 else str(count)
        cells[mark] = ("mark", "P" + name, f"mark P{name}")
    bits = {"SBS": 0, "control": 0}
    for (field, first), start, width in zip(RUNS, row["starts"], row["widths"]):
        for place in range(start, start + width):
            if cells[place][0] != "index":
                fail(f"element {place} has two uses")
            if field == "control":
                bits[field] += 1
                text, words = str(bits[field]), f"control bit {bits[field]}"
            elif field == "SBS":
                text = str(2 ** bits[field])
                bits[field] += 1
                words = f"straight binary seconds, weight {text}"
            else:
                text = weight_text(first * 2 ** (place - start))
                words = f"{field}, weight {text}"
            cells[place] = (field, text, words)
    return cells


def duration(hundredths, parts=1):
    """A duration of hundredths of a second, or one of its equal parts."""
    micros = hundredths * 10_000 // parts
    for unit, size in (("h", 3_600_000_000), ("min", 60_000_000), ("s", 1_000_000), ("ms", 1_000)):
        if micros >= size and micros % size == 0 or unit == "s" and micros >= 10_000 and parts == 1:
            return f"{micros / size:g} {unit}"
    return f"{micros / 1000:g} ms"


def text(x, y, content, size, anchor="start", fill="#222", bold=False):
    weight = ' font-weight="bold"' if bold else ""
    return f'<text x="{x:g}" y="{y:g}" font-size="{size:g}" text-anchor="{anchor}" fill="{fill}"{weight}>{content}</text>'


def mark_text(x, y, name, size):
    """P with its index below the line."""
    return (
        f'<text x="{x:g}" y="{y:g}" font-size="{size:g}" text-anchor="middle" fill="#fff" font-weight="bold">P'
        f'<tspan font-size="{size - 2.5:g}" dy="2.5">{name[1:]}</tspan></text>'
    )


def side_text(cells):
    """The fields of a row of ten cells, in a few words."""
    names = []
    for kind, _, _ in cells:
        name = {"tenths": "0.1 s", "hundredths": "0.01 s"}.get(kind, kind)
        if kind not in ("mark", "index", "missing") and name not in names:
            names.append(name)
    if names == ["control"]:
        numbers_in = [content for kind, content, _ in cells if kind == "control"]
        return f"control {numbers_in[0]}–{numbers_in[-1]}"
    return ", ".join(names)


def draw_cell(x, y, kind, content, words):
    out = [f'<g><title>{words}</title><rect x="{x:g}" y="{y:g}" width="{CELL}" height="{LINE}" fill="{COLOURS[kind]}"/>']
    middle, base = x + CELL / 2, y + LINE / 2 + 4
    if kind == "mark":
        out.append(mark_text(middle, base, content, 12))
    elif content:
        out.append(text(middle, base, content, 9.5 if len(content) > 4 else 11, "middle"))
    out.append("</g>")
    return "".join(out)


def draw_panel(x, y, row):
    cells = cells_of(row)
    letter, n = row["letter"], row["elements"]
    takes = "–".join(str(expression) for expression in sorted({row["first"], row["last"]}))
    expressions = "expressions" if "–" in takes else "expression"
    out = [
        text(x + LABEL, y + 20, f"Format {letter}", 17, bold=True),
        text(
            x + LABEL + 92,
            y + 20,
            f"frame {duration(row['interval'])}, {n} elements of {duration(row['interval'], n)}, {expressions} {takes}",
            10.5,
            fill="#444",
        ),
    ]
    for column in range(10):
        out.append(text(x + LABEL + (column + 0.5) * CELL, y + HEAD - 6, f"+{column}", 9, "middle", "#666"))
    for first in range(0, n, 10):
        top = y + HEAD + first // 10 * LINE
        line = cells[first : first + 10]
        out.append(text(x + LABEL - 5, top + LINE / 2 + 4, str(first), 10, "end", "#666"))
        for column, (kind, content, words) in enumerate(line):
            out.append(draw_cell(x + LABEL + column * CELL, top, kind, content, f"{letter}{takes}, element {first + column}: {words}"))
        out.append(text(x + LABEL + 10 * CELL + 5, top + LINE / 2 + 4, side_text(line), 10, fill="#444"))
    left, top = x + LABEL, y + HEAD
    # the last row of X has fewer than ten cells
    bottoms = [top + lines(n - max(i - 1, 0)) * LINE for i in range(11)]
    rights = [left + min(10, n - 10 * max(i - 1, 0)) * CELL for i in range(lines(n) + 1)]
    path = "".join(f"M{left + i * CELL:g} {top:g}V{bottom:g}" for i, bottom in enumerate(bottoms))
    path += "".join(f"M{left:g} {top + i * LINE:g}H{right:g}" for i, right in enumerate(rights))
    out.append(f'<path d="{path}" stroke="#9aa5ab" stroke-width="1" fill="none"/>')
    return out


def lines(n):
    """How many rows of ten cells n elements take."""
    return -(-n // 10)


def draw_legend(x, y):
    entries = [
        ("mark", "mark: reference bit Pr, position identifiers P1 to P0", 0, 0),
        ("index", "index marker, always zero", 352, 0),
        ("control", "control bit, with its number", 552, 0),
        ("SBS", "straight binary seconds of the day", 0, 1),
        ("seconds", "seconds", 242, 1),
        ("minutes", "minutes", 322, 1),
        ("hours", "hours", 402, 1),
        ("days", "days", 470, 1),
        ("years", "years", 532, 1),
        ("tenths", "tenths and", 598, 1),
        ("hundredths", "hundredths of a second", 690, 1),
        ("missing", "missing pulse of X, symbol 3", 0, 2),
    ]
    out = []
    for kind, words, left, line in entries:
        at, top = x + left, y + line * 20
        out.append(f'<rect x="{at:g}" y="{top:g}" width="14" height="14" fill="{COLOURS[kind]}" stroke="#9aa5ab"/>')
        out.append(text(at + 19, top + 11.5, words, 11))
    notes = (
        "A cell's number is the weight of a one there, or a control bit's number. Expression 0 carries everything shown, 1 no straight binary",
        "seconds, 2 neither these nor control bits, 3 no control bits, 4 to 7 the same with the year; what is not carried is an index marker.",
    )
    for line, words in enumerate(notes):
        out.append(text(x, y + 74 + 15 * line, words, 11, fill="#444"))
    return out


def draw():
    rows = read_table()
    gap = WIDTH - 2 * MARGIN - 2 * PANEL
    body, y = [], MARGIN
    body += draw_legend(MARGIN + LABEL, y + 6)
    y += LEGEND
    for pair in PANELS:
        for column, key in enumerate(pair):
            body += draw_panel(MARGIN + column * (PANEL + gap), y, rows[key])
        y += HEAD + max(lines(rows[key]["elements"]) for key in pair) * LINE + 14
    height = y + MARGIN - 8
    head = [
        f'<svg xmlns="http://www.w3.org/2000/svg" width="{WIDTH}" height="{height}" viewBox="0 0 {WIDTH} {height}" '
        f'font-family="{FONT}">',
        "<title>The elements of a frame in formats A and B with the year and without, D, E, G, H and X</title>",
        "<!-- Drawn by docs/formats.py from crates/layout/src/lib.rt and crates/timecode/specs/Layout.antt. -->",
        f'<rect width="{WIDTH}" height="{height}" fill="#fff"/>',
    ]
    return "\n".join(head + body + ["</svg>"]) + "\n"


def main():
    picture = draw()
    if sys.argv[1:] == ["--check"]:
        if not PICTURE.is_file() or PICTURE.read_text(encoding="utf-8") != picture:
            fail("docs/formats.svg is not what the layout table gives: run docs/formats.py")
        print("docs/formats.svg is what the layout table gives")
    elif sys.argv[1:]:
        fail("usage: formats.py [--check]")
    else:
        PICTURE.write_text(picture, encoding="utf-8")


if __name__ == "__main__":
    main()
