"""What the pictures of these pages share: colours for light and dark, shapes, and the comparison with what is drawn already."""

from __future__ import annotations

import os
import sys
from html import escape
from typing import Callable, Dict, List, Tuple

TOP = os.path.dirname(os.path.dirname(os.path.abspath(__file__)))

#: The colour of each class of shapes, light and dark.
COLOURS: Dict[str, Tuple[str, str]] = {
    "paper": ("#ffffff", "#0d1117"),
    "panel": ("#f6f8fa", "#161b22"),
    "ink": ("#1f2328", "#e6edf3"),
    "soft": ("#59636e", "#9da7b3"),
    "rule": ("#c4ccd4", "#444c56"),
    "blue": ("#0a5fc2", "#58a6ff"),
    "green": ("#1a7f37", "#3fb950"),
    "orange": ("#b04a00", "#f0a05a"),
}
SANS = "system-ui, -apple-system, 'Segoe UI', 'DejaVu Sans', Verdana, sans-serif"
MONO = "ui-monospace, 'SFMono-Regular', Menlo, Consolas, 'DejaVu Sans Mono', monospace"


def style(dark_only: bool) -> str:
    """The rules of the shapes: fill by class name, stroke by the name with `line-` before it."""

    def rules(shade: int) -> str:
        return "".join(f".{name}{{fill:{pair[shade]}}}.line-{name}{{stroke:{pair[shade]}}}" for name, pair in COLOURS.items())

    shapes = f"text{{font-family:{SANS}}}.mono{{font-family:{MONO}}}[class^=line-]{{fill:none}}"
    if dark_only:
        return shapes + rules(1)
    return f"{shapes}{rules(0)}@media (prefers-color-scheme:dark){{{rules(1)}}}"


def number(value: float) -> str:
    return f"{value:.1f}".rstrip("0").rstrip(".")


class Picture:
    """Shapes on a page of the given size, in the order in which they are drawn."""

    def __init__(self, width: int, height: int, title: str, description: str):
        self.width, self.height, self.title, self.description = width, height, title, description
        self.shapes: List[str] = []

    def add(self, tag: str, content: str = "", **attributes: object) -> None:
        words = []
        for key, value in attributes.items():
            shown = number(value) if isinstance(value, (int, float)) else str(value)
            words.append(f'{key.rstrip("_").replace("_", "-")}="{escape(shown)}"')
        self.shapes.append(f"<{tag} {' '.join(words)}" + (f">{content}</{tag}>" if content else "/>"))

    def text(self, x: float, y: float, said: str, size: float = 14, colour: str = "ink", anchor: str = "start", **more: object) -> None:
        mono = more.pop("mono", False)
        self.add("text", escape(said, quote=False), x=x, y=y, font_size=size, text_anchor=anchor, class_=colour + (" mono" if mono else ""), **more)

    def line(self, x1: float, y1: float, x2: float, y2: float, colour: str = "rule", width: float = 1.5, **more: object) -> None:
        self.add("line", x1=x1, y1=y1, x2=x2, y2=y2, class_=f"line-{colour}", stroke_width=width, **more)

    def path(self, points: List[Tuple[float, float]], colour: str, width: float = 2.5, **more: object) -> None:
        drawn = "M" + " L".join(f"{number(x)} {number(y)}" for x, y in points)
        self.add("path", d=drawn, class_=f"line-{colour}", stroke_width=width, stroke_linejoin="round", **more)

    def box(self, x: float, y: float, width: float, height: float, colour: str, **more: object) -> None:
        self.add("rect", x=x, y=y, width=width, height=height, class_=colour, **more)

    def dot(self, x: float, y: float, radius: float, colour: str, **more: object) -> None:
        self.add("circle", cx=x, cy=y, r=radius, class_=colour, **more)

    def ring(self, x: float, y: float, radius: float, colour: str) -> None:
        """A dot with an empty inside."""
        self.dot(x, y, radius, "paper")
        self.dot(x, y, radius, f"line-{colour}", stroke_width=2)

    def svg(self, dark_only: bool = False) -> str:
        head = f'<svg xmlns="http://www.w3.org/2000/svg" viewBox="0 0 {self.width} {self.height}" width="{self.width}" height="{self.height}" role="img">'
        said = f"<title>{escape(self.title, quote=False)}</title>\n<desc>{escape(self.description, quote=False)}</desc>\n"
        paper = f'<rect class="paper" width="{self.width}" height="{self.height}" rx="8"/>'
        return "\n".join([head, f"{said}<style>{style(dark_only)}</style>", paper, *self.shapes, "</svg>", ""])


def read(*names: str) -> str:
    with open(os.path.join(TOP, *names), encoding="utf-8") as file:
        return file.read()


def main(name: str, draw: Callable[[], Picture]) -> int:
    """Draws docs/NAME; with --check says whether it is drawn already, with --dark writes the dark one to standard output."""
    words = sys.argv[1:]
    path = os.path.join(TOP, "docs", name)
    if words == ["--dark"]:
        sys.stdout.write(draw().svg(dark_only=True))
        return 0
    if words not in ([], ["--check"]):
        sys.stderr.write(f"usage: {sys.argv[0]} [--check | --dark]\n")
        return 2
    drawn = draw().svg()
    if not words:
        with open(path, "w", encoding="utf-8") as file:
            file.write(drawn)
        return 0
    if os.path.exists(path) and read("docs", name) == drawn:
        return 0
    sys.stderr.write(f"docs/{name} isn't what {sys.argv[0]} draws: call it without --check\n")
    return 1
