"""The header fields of a document that people look for: its date, sender and subject."""

import email.errors
import email.header
import email.utils
from dataclasses import dataclass
from typing import Iterable

from .times import LAST_MOMENT


@dataclass(frozen=True)
class Fields:
    """What a document's header says. A field that it doesn't have, or that can't be read, is None."""

    date: int | None = None
    sender: str | None = None
    address: str | None = None
    subject: str | None = None
    name: str | None = None

    @property
    def who(self) -> str:
        """The sender's name, or the address if there is no name, or nothing."""
        return self.name or self.address or self.sender or ""


def header_of(lines: Iterable[bytes]) -> list[tuple[str, bytes]]:
    """Returns the fields of a document's header, in order: the name in lower case, and the value unfolded.

    The rules are those of the program: a first line `From ..` is left out, a line that begins with a blank continues the field
    before it, and the header ends at an empty line or at one that is no field.
    """
    fields: list[tuple[str, bytes]] = []
    for place, line in enumerate(lines):
        if place == 0 and line.startswith(b"From "):
            continue
        if line[:1] in (b" ", b"\t") and fields:
            name, value = fields[-1]
            fields[-1] = (name, value + b" " + line.strip())
            continue
        name_bytes, colon, value = line.partition(b":")
        name_bytes = name_bytes.rstrip(b" \t")
        if not colon or not name_bytes or any(not 33 <= byte <= 126 for byte in name_bytes):
            break
        fields.append((name_bytes.decode("ascii").lower(), value.strip()))
    return fields


def fields_of(lines: Iterable[bytes]) -> Fields:
    """Returns the date, sender and subject of a document: of several fields of a name the first."""
    first: dict[str, bytes] = {}
    for name, value in header_of(lines):
        first.setdefault(name, value)
    sender = text_of(first["from"]) if "from" in first else None
    name, address = (email.utils.getaddresses([sender or ""]) or [("", "")])[0]
    return Fields(
        date=date_of(text_of(first["date"])) if "date" in first else None,
        sender=None if sender is None else decoded(sender),
        address=address or None,
        subject=decoded(text_of(first["subject"])) if "subject" in first else None,
        name=decoded(name) or None,
    )


def text_of(value: bytes) -> str:
    """Returns bytes as text: UTF-8, or Latin-1 if they aren't."""
    try:
        return value.decode("utf-8")
    except UnicodeDecodeError:
        return value.decode("latin-1")


def decoded(value: str) -> str:
    """Returns a field's value in one line with its encoded words decoded (RFC 2047); what can't be decoded stays as it is."""
    if "=?" in value:
        try:
            value = "".join(_part(part, charset) for part, charset in email.header.decode_header(value))
        except (ValueError, LookupError, email.errors.MessageError):
            pass
    return " ".join(value.split())


def _part(part: str | bytes, charset: str | None) -> str:
    if isinstance(part, str):
        return part
    if charset is None:
        # decode_header gives unencoded parts in this form, in which each character above 255 is \uXXXX.
        return part.decode("raw-unicode-escape")
    return part.decode(charset, "replace")


def date_of(value: str) -> int | None:
    """Returns the moment of a Date field (RFC 5322 3.3); without a zone it is that of UTC, as the program reads it."""
    try:
        found = email.utils.parsedate_tz(value)
        if found is None:
            return None
        moment = email.utils.mktime_tz(found)
    except (ValueError, TypeError, OverflowError, IndexError):
        return None
    return int(moment) if 0 <= moment <= LAST_MOMENT else None
