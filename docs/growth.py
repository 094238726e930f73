#!/usr/bin/env python3
"""Draws docs/growth.svg: how a query's first run and a later one grow with the mails stored, beside C and SQLite.

docs/growth.py            draws it
docs/growth.py --check    ends with 0 if it is drawn already

The figures are those of the two tables of bench/README.md that compare with C and with SQLite.
"""

from __future__ import annotations

import re
import sys
from math import log10
from typing import Dict, List, Optional, Tuple

from picture import Picture, main, read

SIZES = (1_000, 10_000, 100_000)
UNITS = {"us": 1e-6, "ms": 1e-3, "s": 1.0}
#: The queries that are drawn: the row's name, its colour, the peer.
QUERIES = (("no reply within ten days", "blue", "C"), ("a thread", "orange", "SQLite"))
Times = List[Optional[float]]

TOP, BOTTOM = 92, 400
PANELS = {"first": (86, 410), "later": (608, 932)}
LEAST, MOST = -6, 0


def tables() -> List[List[Dict[str, str]]]:
    """The page's tables, each row by its column's name."""
    found = []
    for block in re.findall(r"(?:^\|.*\n)+", read("bench", "README.md"), re.MULTILINE):
        lines = [[cell.strip() for cell in line.strip().strip("|").split("|")] for line in block.splitlines()]
        found.append([dict(zip(lines[0], cells)) for cells in lines[2:]])
    return found


def row_of(name: str, peer: str) -> Dict[str, str]:
    """The row of this query in the table that compares with this peer."""
    column = f"First run, times {peer}"
    for table in tables():
        for row in table:
            if any(key.startswith(column) for key in row) and next(iter(row.values())) == name:
                return row
    raise SystemExit(f"bench/README.md has no row {name} beside {peer}")


def seconds(said: str) -> Optional[float]:
    found = re.fullmatch(r"([\d.,]+) (us|ms|s)", said.strip())
    return float(found.group(1).replace(",", "")) * UNITS[found.group(2)] if found else None


def cell(row: Dict[str, str], size: int) -> List[str]:
    return [it.strip() for it in row[f"{size:,} mails"].split(";")]


def factors(row: Dict[str, str], column: str) -> Times:
    """How many times the peer's time ours is at each size; a figure fewer leaves out the smallest size."""
    said = next((text for key, text in row.items() if key.startswith(column)), "-")
    found: Times = [float(it) if re.fullmatch(r"[\d.]+", it.strip()) else None for it in said.split(";")]
    return [None] * (len(SIZES) - len(found)) + found


def peers(ours: Times, times: Times) -> Times:
    return [own / by if own is not None and by else None for own, by in zip(ours, times)]


def curves(name: str, peer: str) -> Dict[str, Tuple[Times, Times]]:
    """Our times and the peer's, of the first run and of a later one."""
    row = row_of(name, peer)
    first = [seconds(cell(row, size)[0]) for size in SIZES]
    later = [seconds(cell(row, size)[1]) for size in SIZES]
    return {
        "first": (first, peers(first, factors(row, f"First run, times {peer}"))),
        "later": (later, peers(later, factors(row, f"A round, times {peer}"))),
    }


def place(panel: str, size: int, time: float) -> Tuple[float, float]:
    left, right = PANELS[panel]
    x = left + (right - left) * (log10(size) - log10(SIZES[0])) / (log10(SIZES[-1]) - log10(SIZES[0]))
    y = BOTTOM - (BOTTOM - TOP) * (log10(time) - LEAST) / (MOST - LEAST)
    return x, y


def frame(picture: Picture, panel: str, heading: str) -> None:
    left, right = PANELS[panel]
    picture.box(left - 14, TOP - 10, right - left + 28, BOTTOM - TOP + 20, "panel", rx=6)
    picture.text(left - 14, TOP - 24, heading, 16, font_weight="bold")
    for power, label in zip(range(LEAST, MOST + 1), ("1 µs", "10 µs", "0.1 ms", "1 ms", "10 ms", "0.1 s", "1 s")):
        y = place(panel, SIZES[0], 10.0**power)[1]
        picture.line(left - 14, y, right + 14, y, "rule", 0.8)
        picture.text(left - 22, y + 4, label, 12, "soft", "end")
    for size in SIZES:
        x = place(panel, size, 1)[0]
        picture.text(x, BOTTOM + 30, f"{size:,}", 12, "soft", "middle")
    picture.text((left + right) / 2, BOTTOM + 50, "mails stored", 13, "soft", "middle")


def curve(picture: Picture, panel: str, times: Times, colour: str, label: str, drop: float, is_peer: bool) -> None:
    points = [place(panel, size, time) for size, time in zip(SIZES, times) if time is not None]
    if not points:
        return
    picture.path(points, colour, 1.8 if is_peer else 2.8, **({"stroke_dasharray": "5 4"} if is_peer else {}))
    for x, y in points:
        if is_peer:
            picture.ring(x, y, 4, colour)
        else:
            picture.dot(x, y, 5, colour)
    x, y = points[-1]
    picture.text(x + 20, y + 5 + drop, label, 13, colour, font_weight="normal" if is_peer else "bold")


def draw() -> Picture:
    found = {name: curves(name, peer) for name, _, peer in QUERIES}
    picture = Picture(
        1070,
        470,
        "A run beside its peers",
        "Seconds of the processor, both axes logarithmic. The first run of a query grows in step with the mails stored; a later"
        " run, which has one new event to look at, takes as long over 100,000 mails as over 1,000.",
    )
    picture.text(24, 30, "How a run grows", 18, font_weight="bold")
    for at, (name, colour, _) in enumerate(QUERIES):
        x = (240, 450)[at]
        picture.dot(x, 25, 6, colour)
        picture.text(x + 14, 30, name, 14, colour)
    picture.text(1046, 30, "solid: this program; dashed: its peer; seconds of the processor", 13, "soft", "end")
    frame(picture, "first", "First run: in step with the mails stored")
    frame(picture, "later", "A later run: one event, however many mails")
    for panel in PANELS:
        shown = [(found[name][panel][which], colour, peer if which else "this program", bool(which)) for name, colour, peer in QUERIES for which in (0, 1)]
        last = [place(panel, SIZES[-1], times[-1])[1] if times[-1] else None for times, *_ in shown]
        drops = spread(last)
        for (times, colour, label, is_peer), drop in zip(shown, drops):
            curve(picture, panel, times, colour, label, drop, is_peer)
    return picture


def spread(heights: List[Optional[float]], gap: float = 17.0) -> List[float]:
    """How far each label moves, so that none lies on another."""
    drops = [0.0] * len(heights)
    order = sorted((it, at) for at, it in enumerate(heights) if it is not None)
    low = None
    placed = []
    for height, at in order:
        low = height if low is None else max(height, low + gap)
        placed.append((at, low - height))
    if placed:
        middle = sum(it for _, it in placed) / len(placed)
        for at, drop in placed:
            drops[at] = drop - middle
    return drops


if __name__ == "__main__":
    sys.exit(main("growth.svg", draw))
