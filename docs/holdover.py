#!/usr/bin/env python3
"""Draws docs/holdover.svg, the error that three oscillators are expected to have in the day and in the week after the code is
cut, as the library forecasts it: the archive in target/staticlib, or in the directory that DUSKVEYRA_LIB names, is made a
shared object and called.

Without arguments it writes the file; with --check it compares the file with what it would write."""

import ctypes
import math
import os
import subprocess
import sys
import tempfile
from pathlib import Path

HERE = Path(__file__).resolve().parent
PICTURE = HERE / "holdover.svg"
LIBRARY = Path(os.environ.get("DUSKVEYRA_LIB", HERE.parent / "target/staticlib")) / "librecorder.a"

HOUR = 3600
DAY = 24 * HOUR
WEEK = 7 * DAY
# The oscillators: 10 MHz, 100 ns off at the cut, with an offset of f0/fr from 1 and an ageing a day that are usual for their
# kind.
REFERENCE = 1e7
STARTING_ERROR = 1e-7
OSCILLATORS = [
    ("quartz", 1e-6, 3e-9, "#c0392b"),
    ("oven quartz", 1e-9, 1e-10, "#2e7d32"),
    ("rubidium", 5e-11, 3e-13, "#1f4e9c"),
]
# The panels: their name, their length, and the step and the unit of their marks.
PANELS = [("the first day", DAY, 4 * HOUR, HOUR, "h"), ("the first week", WEEK, DAY, DAY, "d")]

WIDTH = 960
HEIGHT = 430
LEFT = 64
TOP = 56
PANEL = 330  # a panel's width, and room for the labels at its right
SIDE = 136
FLOOR = 300  # a panel's height
LOWEST, HIGHEST = -7, 0  # the powers of ten of seconds that it shows
POINTS = 96
FONT = "DejaVu Sans, Verdana, Arial, sans-serif"


class Oscillator(ctypes.Structure):
    _fields_ = [(name, ctypes.c_double) for name in ("error", "frequency", "reference", "ageing")]


class ForecastResult(ctypes.Structure):
    _fields_ = [("number", ctypes.c_uint8), ("error", ctypes.c_double)]


def fail(why):
    sys.exit(f"holdover.py: {why}")


def library(folder):
    """duskveyra_forecast of the archive."""
    if not LIBRARY.exists():
        fail(f"no {LIBRARY}: run 'scripts/build recorder' first")
    shared = Path(folder) / "librecorder.so"
    whole = ["-Wl,--whole-archive", str(LIBRARY), "-Wl,--no-whole-archive"]
    subprocess.run(["gcc", "-shared", "-o", str(shared), *whole], check=True)
    call = ctypes.CDLL(str(shared)).duskveyra_forecast
    call.argtypes, call.restype = [Oscillator, ctypes.c_uint32], ForecastResult
    return call


def forecast(call, offset, ageing, seconds):
    result = call(Oscillator(STARTING_ERROR, REFERENCE * (1 + offset), REFERENCE, ageing / DAY), seconds)
    if result.number != 0:
        fail(f"refused with {result.number}")
    return result.error


def duration(seconds):
    """A time error in words of three digits."""
    for unit, size in (("s", 1), ("ms", 1e-3), ("µs", 1e-6)):
        if seconds >= size:
            return f"{seconds / size:.3g} {unit}"
    return f"{seconds / 1e-9:.3g} ns"


def text(x, y, content, size, anchor="start", fill="#222", bold=False):
    weight = ' font-weight="bold"' if bold else ""
    return f'<text x="{x:g}" y="{y:g}" font-size="{size:g}" text-anchor="{anchor}" fill="{fill}"{weight}>{content}</text>'


def line(x1, y1, x2, y2, colour):
    return f'<line x1="{x1:g}" y1="{y1:g}" x2="{x2:g}" y2="{y2:g}" stroke="{colour}"/>'


def height(error):
    """Where an error stands in a panel."""
    return TOP + FLOOR * (HIGHEST - math.log10(error)) / (HIGHEST - LOWEST)


def draw_axes(left, name, length, step, unit, sign):
    out = [text(left, TOP - 12, f"In {name}", 15, bold=True)]
    for power in range(LOWEST, HIGHEST + 1):
        y = height(10.0**power)
        out.append(line(left, y, left + PANEL, y, "#ddd"))
        out.append(text(left - 6, y + 4, duration(10.0**power), 10.5, "end", "#444"))
    for mark in range(0, length + 1, step):
        x = left + PANEL * mark / length
        out.append(line(x, TOP, x, TOP + FLOOR, "#eee"))
        out.append(text(x, TOP + FLOOR + 16, f"{mark // unit} {sign}" if mark else "0", 10.5, "middle", "#444"))
    return out


def draw_curve(call, left, length, oscillator):
    name, offset, ageing, colour = oscillator
    points = []
    for point in range(POINTS + 1):
        seconds = length * point // POINTS
        error = forecast(call, offset, ageing, seconds)
        points.append(f"{left + PANEL * seconds / length:.1f},{height(error):.1f}")
    path = " ".join(points)
    words = f"{name}: {duration(error)}"
    return [
        f'<polyline points="{path}" fill="none" stroke="{colour}" stroke-width="2"><title>{words}</title></polyline>',
        text(left + PANEL + 6, height(error) - 2, name, 11.5, fill=colour, bold=True),
        text(left + PANEL + 6, height(error) + 12, duration(error), 11, fill=colour),
    ]


def draw_figures():
    """What each oscillator is, below the panels."""
    y = TOP + FLOOR + 44
    out = [text(LEFT - 44, y, "E0 = 100 ns, fr = 10 MHz", 11, fill="#444")]
    for column, (name, offset, ageing, colour) in enumerate(OSCILLATORS):
        x = LEFT + 150 + 245 * column
        out.append(text(x, y, name, 11, fill=colour, bold=True))
        out.append(text(x, y + 15, f"f0/fr - 1 = {offset:g}, a = {ageing:g} a day", 11, fill="#444"))
    return out


def draw():
    out = [
        f'<svg xmlns="http://www.w3.org/2000/svg" width="{WIDTH}" height="{HEIGHT}" viewBox="0 0 {WIDTH} {HEIGHT}" '
        f'font-family="{FONT}">',
        "<title>The error that three oscillators are expected to have once the code is cut</title>",
        "<!-- Drawn by docs/holdover.py through the library. -->",
        f'<rect width="{WIDTH}" height="{HEIGHT}" fill="#fff"/>',
        text(LEFT - 44, 22, "Expected error after the code is cut, E0 + (f0/fr - 1) t + a t² / 2", 13),
    ]
    with tempfile.TemporaryDirectory() as folder:
        call = library(folder)
        for panel, (name, length, step, unit, sign) in enumerate(PANELS):
            left = LEFT + panel * (PANEL + SIDE)
            out += draw_axes(left, name, length, step, unit, sign)
            for oscillator in OSCILLATORS:
                out += draw_curve(call, left, length, oscillator)
    out += draw_figures()
    out.append("</svg>")
    return "\n".join(out) + "\n"


def main():
    picture = draw()
    if sys.argv[1:] == ["--check"]:
        if not PICTURE.is_file() or PICTURE.read_text(encoding="utf-8") != picture:
            fail("docs/holdover.svg is not what the library forecasts: run docs/holdover.py")
        print("docs/holdover.svg is what the library forecasts")
    elif sys.argv[1:]:
        fail("usage: holdover.py [--check]")
    else:
        PICTURE.write_text(picture, encoding="utf-8")


if __name__ == "__main__":
    main()
