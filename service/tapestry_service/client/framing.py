"""How files are cut into messages.

What is stored of a message is what the spool would store of the same bytes: its lines, each without one CR before its LF.
"""

import re
from dataclasses import dataclass
from typing import BinaryIO, Iterable, Iterator

from ..messages import MESSAGE_LIMIT, RAW_LIMIT, stored_text


@dataclass(frozen=True)
class Message:
    """A message to store: its text, how many bytes of the file it took, and whether the text is longer than a message may be.

    The text of one that is too long isn't kept.
    """

    text: bytes
    taken: int
    too_long: bool = False


class _Gathered:
    """The lines of one message, as long as they aren't too long."""

    def __init__(self, taken: int) -> None:
        self.taken = taken
        self._lines: list[bytes] = []
        self._size = 0
        self._empty_waits = False

    def line(self, line: bytes) -> None:
        """Appends a line; an empty one waits until the next line shows that it isn't the last."""
        if self._empty_waits:
            self._put(b"\n")
        self._empty_waits = line == b"\n"
        if not self._empty_waits:
            self._put(line)

    def _put(self, line: bytes) -> None:
        self._size += len(line)
        if self._size <= MESSAGE_LIMIT:
            self._lines.append(line)
        else:
            self._lines.clear()

    def message(self) -> Message:
        """Returns the message."""
        return Message(b"".join(self._lines), self.taken, self._size > MESSAGE_LIMIT)


def cut_mailbox(lines: Iterable[bytes]) -> Iterator[Message]:
    """Yields the messages of a mailbox file, as the program's command `mbox` would cut it. Its lines are given with their ends.

    One CR before an LF, or at the file's end, is dropped. A message begins after each line that begins with `From ` and is the
    first or follows an empty one; what comes before the first is left out, and so is an empty last line of a message. A line of one
    or more `>` and `From ` loses one `>`.
    """
    gathered: _Gathered | None = None
    opens = True
    lead = 0
    for raw in lines:
        line = raw if raw.endswith(b"\n") else raw + b"\n"
        if line.endswith(b"\r\n"):
            line = line[:-2] + b"\n"
        if opens and line.startswith(b"From "):
            if gathered is not None:
                yield gathered.message()
            gathered = _Gathered(len(raw) + lead)
            lead = 0
            opens = False
            continue
        opens = line == b"\n"
        if gathered is None:
            lead += len(raw)
            continue
        gathered.taken += len(raw)
        gathered.line(line[1:] if re.match(rb">+From ", line) else line)
    if gathered is not None:
        yield gathered.message()


def one_message(file: BinaryIO, front: bytes = b"") -> Message:
    """Returns the file's bytes as one message, behind those that were read of it already."""
    raw = front + file.read(max(RAW_LIMIT + 1 - len(front), 0))
    taken = len(raw)
    while piece := file.read(1 << 20):
        taken += len(piece)
    text = stored_text(raw)
    too_long = taken > RAW_LIMIT or text.is_too_long
    return Message(b"" if too_long else text.text, taken, too_long)
