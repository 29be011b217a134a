#!/usr/bin/env python3
"""Prints the table of docs/PERFORMANCE.md from times.log, or with --write puts it there: medians, as ratios to the loop's.

The first line of times.log says where and of what it is. A row of ROWS that times.log hasn't is left empty.
"""
import re
import sys
from pathlib import Path

SEQUENTIAL, PARALLEL, LEARNT, KIT = "Sequential", "Rayon", "Rayon with its policy", "kit-rayon"
OVER = {"": "slice", "vec": "vector", "iter": "plain iterator", "counted": "counted iterator", "fresh": "slice, fresh memory"}
OWN = {"each-light": "slice, in place"}
WAYS = [SEQUENTIAL, PARALLEL, LEARNT, KIT]
LINE = re.compile(r"(.+): best [0-9.]+ us, median ([0-9.]+) us, [0-9.]+ and ([0-9.]+) of the loop")
ROWS = [
    *(("fold-light", items, "") for items in (8, 100_000, 1_000_000)),
    *(("map-light", items, "") for items in (8, 100_000, 1_000_000)),
    ("map-light", 1_000_000, "iter"),
    ("map-light", 10_000_000, "fresh"),
    ("map-heavy", 1000, ""),
    ("map-heavy", 100_000, ""),
    *((case, 1_000_000, "") for case in ("try-map-light", "each-light", "partition", "filter", "find", "sort")),
    *((case, 1_000_000, "") for case in ("merkle-light", "merkle-blocks-light", "tiles-cut-light", "tiles-uneven")),
]


def share(text):
    number = float(text)
    return f"{number:.0f}" if number >= 9.95 else f"{number:.2f}"


def time(text):
    number = float(text)
    if number >= 10_000:
        return f"{number / 1000:.0f} ms"
    if number >= 1000:
        return f"{number / 1000:.2f} ms"
    return f"{number:.0f} µs" if number >= 10 else f"{number:.2f} µs"


def measured():
    """What the first line of times.log says, and the ways' medians by case, number of items and what they are over."""
    lines = (Path(__file__).parent / "times.log").read_text(encoding="utf-8").splitlines()
    found, ways = {}, {}
    for line in lines[1:]:
        if line.startswith("bench "):
            words = line.split()
            ways = found[(words[1], int(words[2]), "".join(words[4:5]))] = {}
        elif at := LINE.match(line):
            ways[at[1]] = at.groups()[1:]
    return lines[0].removeprefix("# "), found


def table():
    where, found = measured()
    yield f"Measured with 4 threads, on {where}:\n"
    yield "| Case | Items | Over | Loop | `Sequential` | `Rayon`, no policy | `Rayon` with its policy | the kit's `rayon` |"
    yield "|---|---|---|---|---|---|---|---|"
    for case, items, kind in ROWS:
        over = OWN.get(case, "tiles" if case.startswith("tiles") else OVER[kind])
        ways = found.get((case, items, kind), {})
        loop = time(ways["loop"][0]) if ways else ""
        cells = [share(ways[way][1]) if way in ways else "" for way in WAYS]
        yield "| " + " | ".join([f"`{case}`", f"{items:,}", over, loop, *cells]) + " |"


def main():
    text = "\n".join(table()) + "\n"
    if sys.argv[1:] != ["--write"]:
        print(text, end="")
        return
    page = Path(__file__).parent.parent / "PERFORMANCE.md"
    old = page.read_text(encoding="utf-8")
    page.write_text(re.sub(r"^Measured with 4 threads.*\n\n(?:\|.*\n)+", lambda _: text, old, flags=re.M), encoding="utf-8")


main()
