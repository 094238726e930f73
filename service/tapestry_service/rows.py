"""Commands that add mail and notes, as items for the shared log, and rows of the log as commands again.

A row is only put if each store takes it, since a store that refused one would stay behind for good. So what a command is refused for
is found before: the form of a note by the program itself, which is asked about the same note on a document that can't be there;
what depends on the other rows by the log; and sizes here. The replies are those that the program would give.
"""

from __future__ import annotations

import re
import secrets
from typing import List, NamedTuple, Tuple

from .client.framing import cut_mailbox
from .commands import BLOCKS, LINE_LIMIT
from .messages import Text, mbox_of
from .shared_log import DOC, DOCUMENTS, NOTE, Item, Put, Row, message_item

#: The commands whose rows go into the log.
LOGGED = frozenset([b"mail", b"mbox", b"note"])

#: The most bytes of a note's text.
NOTE_LIMIT = 4096

#: The most rows and bytes of one command to the program.
BATCH_ROWS = 1000
BATCH_BYTES = 900_000

#: The greatest number that a document may have by its form. No document has it.
_NO_DOC = 4_294_967_295

_NOTE = re.compile(rb"[ \t]*note[ \t]+([^ \t]+)[ \t]+([^ \t]+)[ \t]+([^ \t]+)(?:[ \t]+(.*))?", re.DOTALL)
_OPENER = re.compile(rb"[ \t]*(?:mail|mbox)[ \t]*")
_DOT = re.compile(rb"^\.", re.MULTILINE)


class NotPut(Exception):
    """A command that isn't put into the log; `line` is its reply."""

    def __init__(self, line: bytes):
        super().__init__(line.decode("utf-8", "replace").rstrip("\n"))
        self.line = line


class NoteLine(NamedTuple):
    """The line of a note: the whole line, its four parts after the command's word, and the probe that the program refuses by
    `no 11` if and only if the line's form is right."""

    line: bytes
    doc: int
    kind: bytes
    value: bytes
    text: bytes

    @property
    def probe(self) -> bytes:
        """The command that asks the program about the form."""
        return b"note %d %s %s\n" % (_NO_DOC, self.kind, self.value)

    def shown(self, row: Row) -> bytes:
        """The line by which `notes` shows it."""
        head = b"note %d ts %d author %s kind %s value %d text" % (row.number, row.at, row.user, self.kind, int(self.value))
        return head + (b" " + self.text if self.text else b"")


def note_of(data: bytes) -> NoteLine:
    """The note of a command's line. Raises NotPut if it isn't one whatever its kind and value are."""
    line = data[:-1] if data.endswith(b"\n") else data
    line = line[:-1] if line.endswith(b"\r") else line
    found = _NOTE.fullmatch(line)
    if found is None or re.fullmatch(rb"[0-9]{1,10}", found[1]) is None or int(found[1]) > _NO_DOC:
        raise NotPut(b"no 2\n")
    return NoteLine(line, int(found[1]), found[2], found[3], found[4] or b"")


def note_items(user: str, note: NoteLine, documents: int) -> List[Item]:
    """The note as an item. Raises NotPut for a text that is too long; `documents` is how many there are."""
    if len(note.text) > NOTE_LIMIT:
        raise NotPut(b"no 16 note\n" if 0 < note.doc <= documents else b"no 11\n")
    return [Item(_name(), NOTE, user.encode(), note.line, len(note.text), note.doc)]


def message_items(word: bytes, data: bytes) -> List[Item]:
    """The messages of a `mail` or an `mbox`. Raises NotPut if it is refused."""
    opener, _, block = data.partition(b"\n")
    if _OPENER.fullmatch(opener[:-1] if opener.endswith(b"\r") else opener) is None:
        raise NotPut(b"no 2\n")
    lines = block.replace(b"\r\n", b"\n")
    assert lines == b".\n" or lines.endswith(b"\n.\n")
    text = _DOT.sub(b"", lines[:-2])
    limit, which = BLOCKS[word]
    if len(text) > limit or (word == b"mbox" and any(len(it) > LINE_LIMIT for it in text.split(b"\n"))):
        raise NotPut(b"no 16 %s\n" % which)
    if word == b"mail":
        return [message_item(_name(), text)]
    messages = list(cut_mailbox(it + b"\n" for it in text.split(b"\n")[:-1]))
    if any(it.too_long for it in messages):
        raise NotPut(b"no 16 message\n")
    if len(messages) > DOCUMENTS:
        raise NotPut(b"no 16 documents\n")
    name = _name()
    return [message_item(b"%s.%d" % (name, at), it.text) for at, it in enumerate(messages)]


def reply_of(word: bytes, put: Put) -> bytes:
    """The reply to a command whose rows each store has, or to one that the log refused."""
    if put.refused == "document":
        return b"no 11\n"
    if put.refused:
        return b"no 16 %s\n" % put.refused.encode()
    first = put.rows[0][1]
    if word == b"mbox":
        return b"ok 0 docs %d %d\n" % (len(put.rows), first)
    return b"ok 0 %s %d\n" % (b"doc" if word == b"mail" else b"note", first)


def batch_of(rows: List[Row]) -> Tuple[List[Row], bytes, bytes]:
    """The first of these rows that go to the program by one command, the command, and the first line of its reply."""
    first = rows[0]
    if first.kind == NOTE:
        # The program drops one CR before the LF.
        return [first], first.text + (b"\r\n" if first.text.endswith(b"\r") else b"\n"), b"ok 0 note %d" % first.number
    parts: List[bytes] = []
    size = 0
    for row in rows[:BATCH_ROWS]:
        if row.kind != DOC or row.at != first.at:
            break
        part = Text(row.text).mbox
        size += len(part)
        if parts and size > BATCH_BYTES:
            break
        parts.append(part)
    if len(parts) < 2:
        return [first], Text(first.text).mail, b"ok 0 doc %d" % first.number
    return rows[: len(parts)], mbox_of(parts), b"ok 0 docs %d %d" % (len(parts), first.number)


def _name() -> bytes:
    return secrets.token_bytes(16)
