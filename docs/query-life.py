#!/usr/bin/env python3
"""Draws docs/query-life.svg: how two queries of the tour go from a mail to a box.

docs/query-life.py            draws it
docs/query-life.py --check    ends with 0 if it is drawn already

The seconds and texts are read from examples/tour.script and its replies.
"""

from __future__ import annotations

import re
import sys
from datetime import datetime, timezone
from typing import List

from picture import Picture, main, read

LEFT, MAIL, NOTE, MARK, RUN, RIGHT = 24, 190, 350, 560, 760, 1036
BOX = RUN + 52


def query_text(name: str) -> str:
    found = re.search(rf"^query {name} (.*)$", read("examples", "tour.script"), re.MULTILINE)
    assert found, f"examples/tour.script defines no query {name}"
    return found.group(1)


def reply(first: str) -> List[str]:
    """The lines behind the tour's reply whose first line is this."""
    lines = read("examples", "tour.replies").splitlines()
    at = lines.index(first)
    return lines[at + 1 : at + 1 + int(first.split()[1])]


def replies() -> List[str]:
    return read("examples", "tour.replies").splitlines()


def day(second: int) -> str:
    return datetime.fromtimestamp(second, timezone.utc).strftime("%-d %B, %H:%M:%S")


class Tour:
    """The seconds of the tour."""

    def __init__(self) -> None:
        moments = [int(line.split()[-1]) for line in replies() if line.startswith("ok 0 at ")]
        self.mail, self.note, self.run = moments
        self.wake = next(int(line.split()[-1]) for line in replies() if line.startswith("ok 0 wake unanswered "))
        self.boxed = reply("ok 2 box unanswered")
        self.mark = int(self.boxed[0].split()[3])
        runs = [at for at, line in enumerate(replies()) if " run 1 before " in line]
        self.boss = replies()[runs[2] + 1]
        assert self.wake == self.mark + 1 and self.boss == f"doc 1 first {self.mail}", "the tour says something else"


def heads(picture: Picture, tour: Tour) -> None:
    """What happens, above the line of time."""
    for x, word, what, second in (
        (MAIL, "mail", "three messages come in", tour.mail),
        (NOTE, "note", "bob rates message 1", tour.note),
        (MARK, "mark", "ten days have passed", tour.mark),
        (RUN, "run", "ann looks", tour.run),
    ):
        picture.text(x, 30, word, 16, anchor="middle", font_weight="bold")
        picture.text(x, 50, what, 13, "soft", "middle")
        picture.text(x, 76, str(second), 13, anchor="middle", mono=True)
        picture.text(x, 93, day(second), 12, "soft", "middle")
        picture.line(x, 106, x, 118, "ink")
    picture.text(BOX, 30, "box", 16, font_weight="bold")
    picture.text(BOX, 50, "what she was given", 13, "soft")
    picture.line(LEFT, 112, RUN + 16, 112, "ink")
    for x in ((NOTE + MARK) / 2, (MARK + RUN) / 2):
        picture.box(x - 4, 108, 8, 8, "paper")
        picture.line(x - 6, 117, x - 1, 107, "ink")
        picture.line(x + 1, 117, x + 6, 107, "ink")


def lane(picture: Picture, y: int, name: str, spans: List[int], colour: str, said: str, at: float) -> None:
    """A message's line of time; it is thick while the condition holds of it."""
    picture.text(LEFT, y + 5, name, 14)
    picture.line(MAIL, y, RUN + 16, y, "rule", 2)
    picture.dot(MAIL, y, 3.5, "soft")
    if spans:
        start, end = spans
        picture.line(start, y, end, y, colour, 9)
        picture.dot(start, y, 7, colour)
    picture.text(at, y - 10, said, 12.5, colour if spans else "soft", "start")


def draw() -> Picture:
    tour = Tour()
    picture = Picture(
        1060,
        448,
        "A query's life",
        f"Three messages come in at second {tour.mail}. One second later bob rates message 1. At second {tour.mark}, ten days"
        f" later, messages 1 and 3 have no reply. A run at {tour.run} delivers both with that second, and for the query boss"
        " message 1, of which the condition held for one second.",
    )
    picture.box(LEFT - 10, 130, 1032, 166, "panel", rx=6)
    picture.box(LEFT - 10, 308, 1032, 88, "panel", rx=6)
    for top, bottom in ((130, 296), (342, 396)):
        picture.line(RUN, top, RUN, bottom, "ink", 1.5, stroke_dasharray="4 4")
    heads(picture, tour)

    picture.text(LEFT, 153, "unanswered", 14, "blue", font_weight="bold")
    picture.text(MAIL - 60, 153, query_text("unanswered"), 12, "ink", mono=True)
    lane(picture, 194, "message 1", [MARK, RUN + 16], "blue", f"holds from {tour.mark} on", MARK + 10)
    lane(picture, 234, "message 2", [], "soft", "never holds: message 3 answers it", MAIL + 12)
    lane(picture, 274, "message 3", [MARK, RUN + 16], "blue", f"holds from {tour.mark} on", MARK + 10)
    for y, line in zip((194, 274), tour.boxed):
        picture.text(BOX, y + 5, line, 13, "ink", mono=True)

    picture.text(LEFT, 331, "boss", 14, "green", font_weight="bold")
    picture.text(MAIL - 60, 331, query_text("boss"), 12, "ink", mono=True)
    lane(picture, 374, "message 1", [MAIL, NOTE], "green", "holds for one second", MAIL + 12)
    picture.text(NOTE + 12, 364, "rated: it no longer holds", 12.5, "soft")
    picture.text(BOX, 379, tour.boss, 13, "ink", mono=True)

    bottom = 416
    picture.line(LEFT, bottom, RUN - 2, bottom, "soft", 1.5)
    picture.path([(RUN - 2, bottom - 6), (RUN - 2, bottom + 6)], "soft", 1.5)
    picture.path([(LEFT + 7, bottom - 5), (LEFT, bottom), (LEFT + 7, bottom + 5)], "soft", 1.5)
    picture.text((LEFT + RUN) / 2, bottom + 20, f"one run covers every second before {tour.run}, whether or not anybody looked then", 13, "soft", "middle")
    return picture


if __name__ == "__main__":
    sys.exit(main("query-life.svg", draw))
