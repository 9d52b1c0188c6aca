#!/usr/bin/env python3
"""Draws docs/recording.svg: a damaged recording, a row for each frame that is due, and what timelook and timeread find in it.

The frames come from target/bin/timewrite, what is found from target/bin/timelook and target/bin/timeread (scripts/build
timewrite timelook timeread). Without arguments it writes the file; with --check it compares the file with what it would
write."""

import re
import subprocess
import sys
from pathlib import Path

HERE = Path(__file__).resolve().parent
PROGRAMS = HERE.parent / "target/bin"
PICTURE = HERE / "recording.svg"

RUN = ["H1", "191", "5088000", "365", "20", "55"]

CELL, ROW = 11, 20
LEFT, TOP = 70, 78
SHARES = {"0": 0.2, "1": 0.5, "P": 0.8}  # of an element's interval
REPORTED, ACCEPTED, REFUSED, OTHER = "#e8f5e9", "#f1f1f1", "#ffebee", "#ffffff"
FONT = "DejaVu Sans, Verdana, Arial, sans-serif"


def fail(why):
    sys.exit(f"recording.py: {why}")


def run(program, arguments, given=""):
    done = subprocess.run([PROGRAMS / program, *arguments], input=given, capture_output=True, text=True, check=False)
    if done.stderr:
        fail(f"{program}: {done.stderr.strip()}")
    return done.stdout


def damaged():
    """The elements of the run, with a spoiled one, a mark misread, one lost, one put in, and two frames without a signal."""
    elements = [c for c in run("timewrite", RUN).split("\n", 1)[1] if c not in " \n"]
    elements[4 * 60 + 12] = "-"
    elements[7 * 60 + 29] = "1"
    elements[14 * 60 : 16 * 60] = "-" * 120
    elements.insert(18 * 60 + 25, "0")
    del elements[11 * 60 + 33]
    return "".join(elements)


def found(elements):
    """The places where frames are due, with what is said of each that is refused; and the time that each report brings."""
    recording = f"{RUN[0]}\n{elements}\n"
    looked = run("timelook", [], recording)
    n = int(re.search(r", (\d+) to a frame", looked)[1])
    first = int(re.search(r"the first frame at (\d+)", looked)[1])
    refused = {}
    for at, number, rest in re.findall(r"^  frame at (\d+) refused (\d+), (.*)$", looked, re.M):
        refused[int(at)] = (number, rest)
    if "more refused" in looked or "cut short" in looked:
        fail("a row of its own for each frame is expected")
    reports = {}
    for line in run("timeread", [], recording).splitlines()[:-1]:
        element, _, clock, _ = line.split()
        reports[int(element)] = clock[:5]
    return n, first, refused, reports


def next_of(at, n, refused):
    begins = re.search(r"begins at (\d+)", refused[at][1]) if at in refused else None
    return int(begins[1]) if begins else at + n


def text(x, y, content, size, anchor="start", fill="#222", bold=False):
    weight = ' font-weight="bold"' if bold else ""
    return f'<text x="{x:g}" y="{y:g}" font-size="{size:g}" text-anchor="{anchor}" fill="{fill}"{weight}>{content}</text>'


def rect(x, y, width, height, fill, more=""):
    return f'<rect x="{x:g}" y="{y:g}" width="{width:g}" height="{height:g}" fill="{fill}"{more}/>'


def pulses(symbols, y):
    """Bars as wide as the pulses; a spoiled element is a low red one."""
    bars = [f"M{LEFT + i * CELL:g} {y + 5}h{SHARES[c] * CELL:g}v11h{-SHARES[c] * CELL:g}z" for i, c in enumerate(symbols) if c in SHARES]
    spoiled = [f"M{LEFT + i * CELL:g} {y + 12}h{0.9 * CELL:g}v4h{-0.9 * CELL:g}z" for i, c in enumerate(symbols) if c not in SHARES]
    return [f'<path d="{"".join(paths)}" fill="{fill}"/>' for paths, fill in ((bars, "#37474f"), (spoiled, "#e53935")) if paths]


def row(at, symbols, y, n, first, refused, reports):
    end = at + n - 1
    if at < first:
        said, colour = "no mark before it", OTHER
    elif at in refused:
        number, rest = refused[at]
        offending = re.search(r"element (\d+) is (.)", rest)
        said = f"refused {number}" + (f": element {offending[1]} is {offending[2]}" if offending else "")
        colour = REFUSED
    elif end in reports:
        said, colour = reports[end], REPORTED
    else:
        said, colour = "accepted, no report yet", ACCEPTED
    out = [rect(LEFT - 4, y + 1, n * CELL + 8, ROW - 2, colour), *pulses(symbols, y)]
    if at in refused and offending:
        index = int(offending[1]) - at
        if index < len(symbols):
            out.append(rect(LEFT + index * CELL - 2, y + 2, CELL + 2, ROW - 4, "none", ' stroke="#c62828" stroke-width="1.5"'))
    out.append(text(LEFT - 10, y + 15, at, 11, "end", "#555"))
    out.append(text(LEFT + n * CELL + 12, y + 15, said, 11, fill="#b71c1c" if at in refused else "#222"))
    return out


def picture():
    elements = damaged()
    n, first, refused, reports = found(elements)
    rows, at = [(1, elements[: first - 1])], first
    while at <= len(elements):
        after = next_of(at, n, refused)
        rows.append((at, elements[at - 1 : min(after - 1, at + n - 1)]))
        at = after
    width = LEFT + n * CELL + 210
    height = TOP + len(rows) * ROW + 44
    out = [
        f'<svg xmlns="http://www.w3.org/2000/svg" width="{width}" height="{height}" viewBox="0 0 {width} {height}" font-family="{FONT}">',
        "<title>A damaged recording, a row for each frame that is due</title>",
        "<!-- Drawn by docs/recording.py with timewrite, timelook and timeread. -->",
        rect(0, 0, width, height, "#ffffff"),
        text(20, 30, "A damaged recording as timelook sees it: a row for each frame that is due", 16, bold=True),
        text(20, 52, f"{RUN[0]}, pulses as wide as they are; at the left the number of the row's first element, at the right what timeread or timelook says of the frame", 11, fill="#555"),
    ]
    out += [text(LEFT + i * CELL, TOP - 6, i, 10, fill="#777") for i in range(0, n, 10)]
    for k, (begins, symbols) in enumerate(rows):
        out += row(begins, symbols, TOP + k * ROW, n, first, refused, reports)
    y = TOP + len(rows) * ROW + 24
    for x, colour, said in ((LEFT, REPORTED, "reported"), (LEFT + 110, ACCEPTED, "accepted, no report"), (LEFT + 270, REFUSED, "refused")):
        out += [rect(x, y - 11, 14, 14, colour, ' stroke="#bbb"'), text(x + 20, y, said, 11)]
    out.append(rect(LEFT + 400, y - 11, 12, 14, "none", ' stroke="#c62828" stroke-width="1.5"'))
    out.append(text(LEFT + 420, y, "the element that offends", 11))
    out.append("</svg>")
    return "\n".join(out) + "\n"


def main():
    for program in ("timewrite", "timeread", "timelook"):
        if not (PROGRAMS / program).is_file():
            fail(f"target/bin/{program} is not built: scripts/build {program}")
    drawn = picture()
    if sys.argv[1:] == ["--check"]:
        if not PICTURE.is_file() or PICTURE.read_text(encoding="utf-8") != drawn:
            fail("docs/recording.svg is not what the programs find: run docs/recording.py")
        print("docs/recording.svg is what the programs find")
    elif sys.argv[1:]:
        fail("usage: recording.py [--check]")
    else:
        PICTURE.write_text(drawn, encoding="utf-8")


if __name__ == "__main__":
    main()
