"""What is stored of a message, and its bytes as commands of the script language.

A message's lines are stored as a script's lines are read: each without one CR before its LF, the last one with an LF. So a file
with line ends of CR LF and one with LF are the same message, whichever way it comes.

The program reads a block by lines: one CR before an LF is dropped, and a leading dot. A mailbox file's lines are read once more,
so that a second CR goes as well. A text whose line ends by a CR all the same gets as many more, so that it is stored as it is.
"""

from __future__ import annotations

import hashlib
import re
from typing import Iterable, NamedTuple

#: The most bytes of a stored message, and those above which no message can become one (a CR or a dot before each LF).
MESSAGE_LIMIT = 1_048_576
RAW_LIMIT = 2 * MESSAGE_LIMIT

_FROM = re.compile(rb"\n(?=>*From )")
_CRS = re.compile(rb"\r+$", re.MULTILINE)


class Text(NamedTuple):
    """A message as the program stores it."""

    text: bytes

    @property
    def is_too_long(self) -> bool:
        """Whether the program refuses it for its size."""
        return len(self.text) > MESSAGE_LIMIT

    def block(self, word: bytes) -> bytes:
        """It as the block of a command."""
        lines = b"\n" + self.text
        if b"\r\n" in lines:
            lines = lines.replace(b"\r\n", b"\r\r\n")
        return word + lines.replace(b"\n.", b"\n..") + b".\n"

    @property
    def mail(self) -> bytes:
        """It as a `mail` command."""
        return self.block(b"mail")

    @property
    def mbox(self) -> bytes:
        """It as one message of a mailbox file within a block."""
        lines = b"\n" + self.text
        if b"From " in lines:
            lines = _FROM.sub(b"\n>", lines)
        if b"\r\n" in lines:
            lines = lines.replace(b"\r\n", b"\r\r\r\n")
        return b"From -" + lines.replace(b"\n.", b"\n..") + b"\n"

    @property
    def sum(self) -> str:
        """A checksum of its lines, as `show` gives them."""
        text = _CRS.sub(b"", self.text) if b"\r\n" in self.text else self.text
        return _sum_of(text)


def stored_text(raw: bytes) -> Text:
    """What is stored of a message's file: its lines, each without one CR at its end, each ended by an LF."""
    if raw and not raw.endswith(b"\n"):
        raw += b"\n"
    return Text(raw.replace(b"\r\n", b"\n"))


def mbox_of(messages: Iterable[bytes]) -> bytes:
    """The `mbox` command of messages in their form for it."""
    return b"mbox\n" + b"".join(messages) + b".\n"


def sum_of_lines(lines: Iterable[bytes]) -> str:
    """The checksum of a message's lines."""
    return _sum_of(b"".join(line + b"\n" for line in lines))


def _sum_of(text: bytes) -> str:
    return hashlib.blake2b(text, digest_size=16).hexdigest()
