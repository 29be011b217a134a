#!/usr/bin/env python3
"""Draws times.svg from times.log: what calls take, as a share of the plain loop's time, by the number of items.

times.log has bench's own lines, each run's after a line with its words, as `measure` makes it.
"""
import math
import re
from pathlib import Path

HERE = Path(__file__).parent
CASES = ["map-light", "fold-light", "map-heavy", "fold-heavy"]
WAYS = [("Sequential", "#2b6cb0", ""), ("Rayon", "#2f855a", "2 3"), ("Rayon with its policy", "#c05621", "5 3")]
WIDTH, HEIGHT, LEFT, TOP, GAP_X, GAP_Y = 300, 230, 70, 60, 80, 90
X_FROM, X_TO, Y_FROM, Y_TO = 0.7, 7.2, math.log10(0.15), math.log10(2000)


def read():
    """The median shares of the loop, by case and way: lists of items and share."""
    found, case, items = {}, "", 0
    for line in (HERE / "times.log").read_text(encoding="utf-8").splitlines():
        if line.startswith("bench "):
            # (those over a vector or an iterator have a word more, and aren't drawn)
            _, case, number, _, *over = line.split()
            case, items = "" if over else case, int(number)
        elif at := re.match(r"(.+): best .* us, median .* us, .* and ([0-9.]+) of the loop", line):
            found.setdefault((case, at[1]), []).append((items, float(at[2])))
    return found


def place(left, top, items, share):
    x = left + (math.log10(items) - X_FROM) / (X_TO - X_FROM) * WIDTH
    y = top + (Y_TO - math.log10(share)) / (Y_TO - Y_FROM) * HEIGHT
    return x, y


def panel(found, case, left, top):
    yield f'<text x="{left}" y="{top - 10}" font-weight="bold">{case}</text>'
    yield f'<rect x="{left}" y="{top}" width="{WIDTH}" height="{HEIGHT}" fill="none" stroke="#888"/>'
    for share in [0.25, 1, 4, 16, 64, 256, 1024]:
        _, y = place(left, top, 10, share)
        stroke = "#444" if share == 1 else "#ddd"
        yield f'<line x1="{left}" y1="{y:.1f}" x2="{left + WIDTH}" y2="{y:.1f}" stroke="{stroke}"/>'
        yield f'<text x="{left - 6}" y="{y + 4:.1f}" text-anchor="end">{share}</text>'
    for power in range(1, 8):
        x, _ = place(left, top, 10**power, 1)
        yield f'<text x="{x:.1f}" y="{top + HEIGHT + 16}" text-anchor="middle">1e{power}</text>'
    middle, side = left + WIDTH / 2, top + HEIGHT / 2
    yield f'<text x="{middle}" y="{top + HEIGHT + 32}" text-anchor="middle">items</text>'
    yield f'<text transform="translate({left - 42},{side}) rotate(-90)" text-anchor="middle">time / loop\'s time</text>'
    for way, colour, dashes in WAYS:
        points = sorted(found.get((case, way), []))
        path = " ".join("{:.1f},{:.1f}".format(*place(left, top, *it)) for it in points)
        yield f'<polyline points="{path}" fill="none" stroke="{colour}" stroke-width="2" stroke-dasharray="{dashes}"/>'
        for it in points:
            x, y = place(left, top, *it)
            yield f'<circle cx="{x:.1f}" cy="{y:.1f}" r="3" fill="{colour}"/>'


def draw(found):
    whole = (LEFT + 2 * WIDTH + GAP_X + 20, TOP + 2 * HEIGHT + GAP_Y + 60)
    yield f'<svg xmlns="http://www.w3.org/2000/svg" width="{whole[0]}" height="{whole[1]}" font-family="sans-serif" font-size="12">'
    yield f'<rect width="{whole[0]}" height="{whole[1]}" fill="white"/>'
    yield f'<text x="{LEFT}" y="24">Median time of a call divided by the plain loop\'s, over a slice, with 4 threads; below 1 is faster</text>'
    for number, case in enumerate(CASES):
        left = LEFT + number % 2 * (WIDTH + GAP_X)
        top = TOP + number // 2 * (HEIGHT + GAP_Y)
        yield from panel(found, case, left, top)
    for number, (way, colour, dashes) in enumerate(WAYS):
        x, y = LEFT + number * 170, whole[1] - 14
        yield f'<line x1="{x}" y1="{y - 4}" x2="{x + 30}" y2="{y - 4}" stroke="{colour}" stroke-width="2" stroke-dasharray="{dashes}"/>'
        yield f'<text x="{x + 36}" y="{y}">{way}</text>'
    yield "</svg>"


(HERE / "times.svg").write_text("\n".join(draw(read())) + "\n", encoding="utf-8")
