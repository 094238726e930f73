#!/usr/bin/env python3
"""Draws docs/layers.svg: the crates in layers, each of which uses those below it alone.

docs/layers.py            draws it
docs/layers.py --check    ends with 0 if it is drawn already

crates.txt must agree: every crate but those of tests has one place, uses no crate of a higher layer, and of the two halves
of the middle layer neither uses the other.
"""

from __future__ import annotations

import sys
from typing import Dict, List, Tuple

from picture import Picture, main, read

Layer = Tuple[str, str, List[str]]
#: The layers from above: a name, a colour, the crates.
ABOVE: List[Layer] = [
    ("programs", "ink", ["tapestry", "tapestry_mem", "tapestry_pop"]),
    ("top calls", "ink", ["tap_top", "pop_box"]),
    ("one command", "ink", ["tap_engine"]),
    ("what is cached", "ink", ["tap_kept"]),
]
MEANT: Layer = ("what a command means", "blue", ["tap_model", "script_lang", "sample_gen", "restart_core"])
FOUND: Layer = (
    "how rows are found",
    "green",
    "query_eval wake_plan form_marks probe_eval access_plan row_index little_box vote_scores appraiser digest_mail pop_session".split(),
)
BELOW: List[Layer] = [
    (
        "queries",
        "ink",
        "filter_rules incremental_rewrite delta_rewrite monotone_rewrite time_marks query_form snapshot_meaning"
        " tql_text tql_types tql_core tql_parse tql_lex tql_tree".split(),
    ),
    ("lines and words", "ink", ["mail_fields", "mail_lines", "command_words"]),
    ("base", "ink", ["tap_rows", "peer_edges", "tap_edges", "node_pool", "tap_base"]),
]
STORED: Layer = ("stored rows", "orange", ["file_session", "keeper_file", "keeper_sql", "keeper_core"])

LEFT, RIGHT, SIDE, EDGE = 24, 800, 820, 1000
STEP, GAP = 30, 10


def uses() -> Dict[str, List[str]]:
    """The crates of this repository that each crate uses, without those of tests."""
    found: Dict[str, List[str]] = {}
    for line in read("crates.txt").splitlines():
        if line.startswith("# tests"):
            break
        if line and not line.startswith("#"):
            name, _, used = line.partition(":")
            found[name] = used.split()
    return {name: [it for it in used if it in found] for name, used in found.items()}


def check(used: Dict[str, List[str]]) -> None:
    """Ends with what is wrong, if crates.txt doesn't agree with the layers."""
    layers = [*ABOVE, MEANT, *BELOW]
    height = {crate: len(layers) - at for at, (_, _, crates) in enumerate(layers) for crate in crates}
    for crate in FOUND[2]:
        height[crate] = height["tap_model"]
    low = height["tap_base"]
    wrong = sorted(set(used) ^ {*height, *STORED[2]})
    for crate, others in used.items():
        for other in others:
            if crate in STORED[2]:
                good = other in STORED[2] or height[other] == low
            elif other in STORED[2]:
                good = crate in height and height[crate] > height["tap_kept"]
            else:
                sides = (crate in FOUND[2], other in FOUND[2])
                good = height[other] < height[crate] or (height[other] == height[crate] and sides[0] == sides[1])
            if not good:
                wrong.append(f"{crate} uses {other}")
    if wrong:
        raise SystemExit("docs/layers.py and crates.txt don't agree: " + "; ".join(wrong))


def rows_of(crates: List[str], room: float) -> List[List[Tuple[str, float]]]:
    """The crates in rows, each with its width."""
    rows: List[List[Tuple[str, float]]] = [[]]
    left = room
    for crate in crates:
        width = 7.6 * len(crate) + 18
        if rows[-1] and width > left:
            rows.append([])
            left = room
        rows[-1].append((crate, width))
        left -= width + GAP
    return rows


def panel(picture: Picture, layer: Layer, x: float, y: float, width: float, least: int = 1) -> float:
    """Draws a layer; returns where the next one begins."""
    name, colour, crates = layer
    rows = rows_of(crates, width - 24)
    height = 34 + STEP * max(len(rows), least)
    picture.box(x, y, width, height, "panel", rx=6)
    picture.text(x + 12, y + 21, name, 13, colour if colour != "ink" else "soft", font_weight="bold")
    for at, row in enumerate(rows):
        left = x + 12
        for crate, wide in row:
            picture.box(left, y + 30 + STEP * at, wide, 24, "paper", rx=4)
            picture.add("rect", x=left, y=y + 30 + STEP * at, width=wide, height=24, rx=4, class_=f"line-{'rule' if colour == 'ink' else colour}", stroke_width=1.2)
            picture.text(left + wide / 2, y + 46 + STEP * at, crate, 12.5, "ink", "middle", mono=True)
            left += wide + GAP
    return y + height + GAP


def draw() -> Picture:
    check(uses())
    picture = Picture(
        1024,
        20,
        "The crates in layers",
        "From above: programs, top calls, the engine, the cache, what a command means beside how rows are found, queries, lines"
        " and words, base. Keepers stand beside them, on the base.",
    )
    y = 16.0
    for layer in ABOVE:
        y = panel(picture, layer, LEFT, y, RIGHT - LEFT)
    half = 300
    deep = len(rows_of(FOUND[2], RIGHT - LEFT - half - GAP - 24))
    panel(picture, MEANT, LEFT, y, half, deep)
    y = panel(picture, FOUND, LEFT + half + GAP, y, RIGHT - LEFT - half - GAP, deep)
    middle = y
    for layer in BELOW[:-1]:
        y = panel(picture, layer, LEFT, y, RIGHT - LEFT)
    base = y
    y = panel(picture, BELOW[-1], LEFT, y, EDGE - LEFT)
    top = 16 + 2 * (34 + STEP + GAP)
    picture.box(SIDE, top, EDGE - SIDE, base - GAP - top, "panel", rx=6)
    picture.text(SIDE + 12, top + 21, STORED[0], 13, STORED[1], font_weight="bold")
    space = (base - GAP - top - 40) / len(STORED[2])
    for at, crate in enumerate(STORED[2]):
        low = top + 40 + space * at + (space - 24) / 2
        picture.box(SIDE + 12, low, EDGE - SIDE - 24, 24, "paper", rx=4)
        picture.add("rect", x=SIDE + 12, y=low, width=EDGE - SIDE - 24, height=24, rx=4, class_="line-orange", stroke_width=1.2)
        picture.text((SIDE + EDGE) / 2, low + 16, crate, 12.5, "ink", "middle", mono=True)
    assert middle < base
    picture.height = int(y + 8)
    return picture


if __name__ == "__main__":
    sys.exit(main("layers.svg", draw))
