"""A document as people read it: its main fields decoded, and the text of its parts."""

from typing import Iterable

from ..decode import decoded_or_raw
from .fields import date_of
from .layout import printable
from .times import shown_second

_SHOWN = ("from", "to", "cc", "newsgroups", "date", "subject")


def readable(lines: Iterable[bytes]) -> list[str]:
    """Returns the lines that a reader wants of a document: its main fields, an empty line, and its text.

    Encoded words, quoted-printable, base64 and charsets are decoded; of alternatives the plain one is taken, of HTML its text;
    attachments are named. No line has a character that could steer a terminal.
    """
    kept = list(lines)
    if kept and kept[0].startswith(b"From "):
        del kept[0]
    text = decoded_or_raw(b"".join(line + b"\n" for line in kept)).decode("utf-8", "replace").rstrip("\n")
    header, _, body = text.partition("\n\n") if not text.startswith("\n") else ("", "", text[1:])
    fields = [field for line in header.split("\n") if (field := _field(line))]
    shown = fields + ([""] if fields and body else []) + (body.split("\n") if body else [])
    return [printable(line) for line in shown]


def _field(line: str) -> str | None:
    """Returns a field of the header as it is shown, or None if it isn't."""
    name, _, value = line.partition(":")
    if name.lower() not in _SHOWN:
        return None
    moment = date_of(value) if name.lower() == "date" else None
    return line if moment is None else f"{name}: {shown_second(moment)}"
