"""Texts and tables on a terminal, measured in its columns."""

import os
import textwrap
import unicodedata
from dataclasses import dataclass
from enum import Enum
from typing import Sequence

GAP = "  "
CUT = "…"
_JOINERS = "\u200c\u200d"
DEFAULT_WIDTH = 80


def terminal_width() -> int:
    """Returns the columns of the terminal: COLUMNS, else what the terminal of an open stream says, else 80."""
    try:
        width = int(os.environ.get("COLUMNS", ""))
    except ValueError:
        width = 0
    for stream in (1, 2, 0):
        if width > 0:
            break
        try:
            width = os.get_terminal_size(stream).columns
        except OSError:
            pass
    return width if width > 0 else DEFAULT_WIDTH


def printable(text: str) -> str:
    """Returns a line of text without what could steer a terminal.

    A control character becomes `?`, a tab a blank; invisible format characters are left out, but for those that join letters.
    """
    if text.isascii() and text.isprintable():
        return text
    return "".join(_printable(char) for char in text)


def _printable(char: str) -> str:
    category = unicodedata.category(char)
    if char == "\t":
        return " "
    if category in ("Cc", "Cs", "Zl", "Zp"):
        return "?"
    if category == "Cf" and char not in _JOINERS:
        return ""
    return char


def char_width(char: str) -> int:
    """Returns how many columns a character takes: 2 if it is wide, 0 if it stands over or within the one before."""
    if char.isascii():
        return 1
    if unicodedata.category(char) in ("Mn", "Me", "Cf") or "\u1160" <= char <= "\u11ff":
        return 0
    return 2 if unicodedata.east_asian_width(char) in "WF" else 1


def text_width(text: str) -> int:
    """Returns how many columns a text takes."""
    return len(text) if text.isascii() else sum(map(char_width, text))


def fitted(text: str, width: int) -> str:
    """Returns the text, cut to at most `width` columns; a text that was cut ends by `…`."""
    if text_width(text) <= width:
        return text
    if width < 1:
        return ""
    room = width - text_width(CUT)
    kept = 0
    for place, char in enumerate(text):
        kept += char_width(char)
        if kept > room:
            return text[:place] + CUT
    return text


def padded(text: str, width: int, right: bool = False) -> str:
    """Returns the text cut and filled with blanks to `width` columns; `right` puts the blanks in front."""
    text = fitted(text, width)
    blanks = " " * (width - text_width(text))
    return blanks + text if right else text + blanks


def wrapped(text: str, width: int) -> list[str]:
    """Returns the lines of a text of which each takes at most `width` columns, broken at blanks where that is possible."""
    lines: list[str] = []
    line = ""
    for word in text.split(" "):
        longer = f"{line} {word}" if line else word
        if text_width(longer) <= width:
            line = longer
            continue
        if line:
            lines.append(line)
        while text_width(word) > width:
            front = _front(word, width)
            lines.append(word[:front])
            word = word[front:]
        line = word
    lines.append(line)
    return lines


def _front(word: str, width: int) -> int:
    """Returns how many characters of the word fit, at least one."""
    taken = 0
    for place, char in enumerate(word):
        taken += char_width(char)
        if taken > width:
            return max(place, 1)
    return len(word)


class Kind(Enum):
    """What is done to a cell that is wider than its column."""

    WHOLE = "it never is: the column is as wide as its widest cell"
    CUT = "it is cut"
    WRAP = "it goes on in the next line"


@dataclass(frozen=True)
class Column:
    """A column of a table: its heading, what is done to wide cells, the side of numbers, and the least width it is given."""

    name: str
    kind: Kind = Kind.WHOLE
    right: bool = False
    least: int = 0
    most: int = 10_000


def table(columns: Sequence[Column], rows: Sequence[Sequence[str]], width: int) -> list[str]:
    """Returns the lines of a table that is at most `width` columns wide, with its headings in the first line.

    If the columns don't fit side by side, each row is written as lines `Heading  cell`, with an empty line between two rows.
    """
    cells = [[printable(cell) for cell in row] for row in rows]
    widths = _widths(columns, cells, width)
    if widths is None:
        return _stacked(columns, cells, width)
    lines = [_joined([padded(it.name, size, it.right) for it, size in zip(columns, widths)])]
    for row in cells:
        lines += _row(columns, row, widths)
    return lines


def _joined(parts: list[str]) -> str:
    return GAP.join(parts).rstrip()


def _widths(columns: Sequence[Column], cells: list[list[str]], width: int) -> list[int] | None:
    """Returns the width of each column, or None if there is no room for them."""
    wanted = [
        min(column.most, max([text_width(column.name)] + [text_width(row[place]) for row in cells]))
        for place, column in enumerate(columns)
    ]
    least = [
        size if column.kind is Kind.WHOLE else min(size, max(column.least, text_width(column.name)))
        for column, size in zip(columns, wanted)
    ]
    room = width - text_width(GAP) * (len(columns) - 1) - sum(least)
    if room < 0:
        return None
    return [size + more for size, more in zip(least, _shares([w - l for w, l in zip(wanted, least)], room))]


def _shares(wishes: list[int], room: int) -> list[int]:
    """Divides the room: each wish gets its equal share or all that it wishes, and what is left over goes to the others."""
    given = [0] * len(wishes)
    open_ = [place for place, wish in enumerate(wishes) if wish > 0]
    while open_ and room > 0:
        share = max(room // len(open_), 1)
        for place in open_:
            more = min(share, wishes[place] - given[place], room)
            given[place] += more
            room -= more
        open_ = [place for place in open_ if given[place] < wishes[place]]
    return given


def _row(columns: Sequence[Column], row: list[str], widths: list[int]) -> list[str]:
    parts = [wrapped(cell, size) if column.kind is Kind.WRAP else [cell] for column, cell, size in zip(columns, row, widths)]
    return [
        _joined(
            [
                padded(part[place] if place < len(part) else "", size, column.right)
                for part, column, size in zip(parts, columns, widths)
            ]
        )
        for place in range(max(map(len, parts)))
    ]


def _stacked(columns: Sequence[Column], cells: list[list[str]], width: int) -> list[str]:
    heading = max(text_width(it.name) for it in columns)
    room = max(width - heading - text_width(GAP), 1)
    lines: list[str] = []
    for row in cells:
        if lines:
            lines.append("")
        for column, cell in zip(columns, row):
            parts = wrapped(cell, room) if column.kind is Kind.WRAP else [cell]
            for place, part in enumerate(parts):
                lines.append(fitted(_joined([padded(column.name if place == 0 else "", heading), part]), width))
    return lines


def paragraph(text: str, width: int, indent: str = "") -> list[str]:
    """Returns the lines of a sentence, broken at blanks; lines after the first are indented."""
    return textwrap.wrap(text, max(width, 20), subsequent_indent=indent, break_on_hyphens=False) or [""]
