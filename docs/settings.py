#!/usr/bin/env python3
"""Draws docs/settings.svg: how many reports each setting k gives up as more elements are replaced, and where false ones begin.

Every number comes from target/bin/timetry (scripts/build timetry), which is run with fixed seeds. Without arguments it writes the
file; with --check it compares the file with what it would write."""

import math
import subprocess
import sys
from pathlib import Path

HERE = Path(__file__).resolve().parent
PROGRAM = HERE.parent / "target/bin/timetry"
PICTURE = HERE / "settings.svg"

# A run: format, day, hundredths, year length, frames and year; then the seeds, and one element in how many is replaced.
RUN = ["H1", "1", "0", "365", "5000", "0"]
SEEDS = range(1, 11)
ONE_IN = [1000, 500, 300, 200, 150, 100, 70, 50, 40, 30, 25, 20]
FRAMES = int(RUN[4]) * len(SEEDS)

COLOURS = {2: "#1565c0", 3: "#00897b", 4: "#ef6c00", 5: "#8e24aa"}
TICKS = [0.1, 0.2, 0.5, 1, 2, 5]  # of 100 elements
WIDTH = 900
LEFT, RIGHT = 70, 870
TOP, BOTTOM = 92, 372  # of the reports
LOWER, BASE = 432, 532  # of the false ones
HEIGHT = 590
FONT = "DejaVu Sans, Verdana, Arial, sans-serif"


def fail(why):
    sys.exit(f"settings.py: {why}")


def counts_of(one_in):
    """The reports and the false ones of each setting, over all seeds."""
    out = {k: [0, 0] for k in COLOURS}
    for seed in SEEDS:
        run = subprocess.run([PROGRAM, *RUN, str(one_in), str(seed)], capture_output=True, text=True, check=False)
        lines = [line.split() for line in run.stdout.splitlines()[1:]]
        if [line[0] for line in lines] != [str(k) for k in COLOURS]:
            fail(f"timetry printed {run.stdout!r} {run.stderr!r}")
        for k, _, reports, wrong in lines:
            out[int(k)][0] += int(reports)
            out[int(k)][1] += int(wrong)
    return out


def x_of(percent):
    low, high = math.log(TICKS[0]), math.log(TICKS[-1])
    return LEFT + (RIGHT - LEFT) * (math.log(percent) - low) / (high - low)


def text(x, y, content, size, anchor="start", fill="#222", bold=False):
    weight = ' font-weight="bold"' if bold else ""
    return f'<text x="{x:.1f}" y="{y:.1f}" font-size="{size:g}" text-anchor="{anchor}" fill="{fill}"{weight}>{content}</text>'


def line(x1, y1, x2, y2, colour="#cfd8dc"):
    return f'<path d="M{x1:.1f} {y1:.1f}L{x2:.1f} {y2:.1f}" stroke="{colour}" fill="none"/>'


def draw_reports(counts):
    def y_of(reports):
        return BOTTOM - (BOTTOM - TOP) * reports / FRAMES

    out = [text(LEFT, TOP - 12, "reports of 100 frames", 12, bold=True)]
    for percent in range(0, 101, 20):
        y = y_of(FRAMES * percent / 100)
        out += [line(LEFT, y, RIGHT, y), text(LEFT - 8, y + 4, str(percent), 11, "end", "#555")]
    for k, colour in COLOURS.items():
        points = [(x_of(100 / one_in), y_of(counts[one_in][k][0])) for one_in in ONE_IN]
        path = "L".join(f"{x:.1f} {y:.1f}" for x, y in points)
        out.append(f'<path d="M{path}" stroke="{colour}" stroke-width="2.5" fill="none"/>')
        for (x, y), one_in in zip(points, ONE_IN):
            words = f"k = {k}, one element in {one_in} replaced: {counts[one_in][k][0]} reports, {counts[one_in][k][1]} false"
            out.append(f'<circle cx="{x:.1f}" cy="{y:.1f}" r="3.5" fill="{colour}"><title>{words}</title></circle>')
    return out


def draw_false(counts):
    most = max(1, max(counts[one_in][k][1] for one_in in ONE_IN for k in COLOURS))
    out = [text(LEFT, LOWER - 20, f"false reports in {FRAMES:,} frames", 12, bold=True), line(LEFT, BASE, RIGHT, BASE, "#78909c")]
    for one_in in ONE_IN:
        for place, (k, colour) in enumerate(COLOURS.items()):
            wrong = counts[one_in][k][1]
            if wrong == 0:
                continue
            height = (BASE - LOWER) * wrong / most
            x = x_of(100 / one_in) - 16 + 8 * place
            out.append(f'<rect x="{x:.1f}" y="{BASE - height:.1f}" width="8" height="{height:.1f}" fill="{colour}"/>')
            out.append(text(x + 4, BASE - height - 4, str(wrong), 10.5, "middle", colour))
    return out


def draw():
    if not PROGRAM.is_file():
        fail("target/bin/timetry is not built: scripts/build timetry")
    counts = {one_in: counts_of(one_in) for one_in in ONE_IN}
    out = [
        f'<svg xmlns="http://www.w3.org/2000/svg" width="{WIDTH}" height="{HEIGHT}" viewBox="0 0 {WIDTH} {HEIGHT}" font-family="{FONT}">',
        "<title>Reports and false reports with the settings 2 to 5, by the share of elements replaced</title>",
        "<!-- Drawn by docs/settings.py with timetry. -->",
        f'<rect width="{WIDTH}" height="{HEIGHT}" fill="#fff"/>',
        text(LEFT, 28, f"{RUN[0]}, {FRAMES:,} frames: random symbols in the place of elements", 16, bold=True),
    ]
    for place, (k, colour) in enumerate(COLOURS.items()):
        wrong = sum(counts[one_in][k][1] for one_in in ONE_IN)
        x = LEFT + place * 200
        out.append(line(x, 50, x + 24, 50, colour).replace('fill="none"', 'stroke-width="3" fill="none"'))
        out.append(text(x + 31, 54, f"k = {k}: {wrong or 'none'} false", 12))
    for percent in TICKS:
        x = x_of(percent)
        out += [line(x, TOP, x, BOTTOM), line(x, BASE, x, BASE + 5, "#78909c"), text(x, BASE + 20, f"{percent:g}", 11, "middle", "#555")]
    out += draw_reports(counts) + draw_false(counts)
    out.append(text((LEFT + RIGHT) / 2, BASE + 42, "elements of 100 in whose place a random symbol, 0 to 3, was received", 12, "middle"))
    return "\n".join(out + ["</svg>"]) + "\n"


def main():
    picture = draw()
    if sys.argv[1:] == ["--check"]:
        if not PICTURE.is_file() or PICTURE.read_text(encoding="utf-8") != picture:
            fail("docs/settings.svg is not what timetry gives: run docs/settings.py")
        print("docs/settings.svg is what timetry gives")
    elif sys.argv[1:]:
        fail("usage: settings.py [--check]")
    else:
        PICTURE.write_text(picture, encoding="utf-8")


if __name__ == "__main__":
    main()
