"""Lists of documents, each with the date, sender and subject of its message."""

import time
from dataclasses import dataclass, field
from typing import Any, Iterable, Sequence

from .connection import Connection
from .fields import Fields, fields_of
from .layout import Column, Kind, paragraph, table
from .outcome import Outcome, need, shape_of
from .refusals import Asked
from ..digests import documents_of
from ..replies import Reply
from .times import shown_minute, shown_second

ROOMY = 100
UNKNOWN = 1
_NO_SHOW = "the program that the daemon runs has no command `show', so of these documents only the numbers are known"


@dataclass(frozen=True)
class Row:
    """A line of a reply that names a document: its number, and the words and numbers behind it by name."""

    doc: int
    more: dict[str, int | str] = field(default_factory=dict)


@dataclass(frozen=True)
class Known:
    """What is known of a document: its header fields, and its arrival if the program shows it."""

    fields: Fields
    arrival: int | None = None


def rows_of(lines: Iterable[bytes]) -> list[Row]:
    """Returns the rows of lines such as `doc 1 first 1000 run 2`."""
    rows = []
    for line in lines:
        words = line.decode("ascii", "replace").split()
        more: dict[str, int | str] = {}
        for name, value in zip(words[2::2], words[3::2]):
            more[name] = int(value) if _is_number(value) else value
        rows.append(Row(int(words[1]), more))
    return rows


def _is_number(word: str) -> bool:
    return word.isascii() and word.removeprefix("-").isdigit()


def ask_with_probe(connection: Connection, command: bytes, asked: Asked) -> tuple[Reply, bool]:
    """Sends a command, and with it a question whether the program can show documents; one round trip.

    Returns the reply and the answer to the question. Raises Refused if the command was refused.
    """
    reply, probe = connection.many([command, b"show 0\n"])
    return need(reply, asked), probe.ok or probe.number != UNKNOWN


def known_by_show(connection: Connection, docs: Sequence[int]) -> dict[int, Known]:
    """Returns what is known of each document by `show`, in one round trip."""
    known = {}
    for doc, reply in zip(docs, connection.many(b"show %d\n" % it for it in docs)):
        if reply.ok:
            known[doc] = Known(fields_of(reply.lines), int(reply.words.split()[3]))
    return known


def known_by_digest(connection: Connection, name: str, runs: Sequence[int]) -> dict[int, Known]:
    """Returns what is known of the documents of these runs of a query by `digest`, in one round trip."""
    known: dict[int, Known] = {}
    for reply in connection.many(b"digest %s %d\n" % (name.encode("utf-8", "surrogateescape"), it) for it in runs):
        for document in documents_of(reply.lines):
            known[document.number] = Known(fields_of(document.text.split(b"\n")))
    return known


class Listing:
    """A list of documents that is being made: its rows, and how their messages are found."""

    def __init__(self, connection: Connection, asked: Asked, width: int) -> None:
        self._connection = connection
        self._asked = asked
        self._width = width

    def outcome(self, rows: list[Row], can_show: bool, runs: Sequence[int], nothing: str, **members: Any) -> Outcome:
        """Returns the list. `runs` are the runs of the query that gave the rows, for a program that can't show documents.

        `nothing` is the line for people if there are no rows. Two round trips in all, however many documents there are.
        """
        docs = [row.doc for row in rows]
        if can_show:
            known = known_by_show(self._connection, docs)
        elif runs and rows:
            known = known_by_digest(self._connection, self._asked.name, runs)
        else:
            known = {}
        shape = shape_of(self._asked, **members, documents=[_shape(row, known.get(row.doc)) for row in rows])
        lines = self._table(rows, known) if rows else [nothing]
        blind = rows and not can_show and not runs
        return Outcome(shape, lines, remarks=paragraph(f"tap: {_NO_SHOW}", self._width, "     ") if blind else [])

    def _table(self, rows: list[Row], known: dict[int, Known]) -> list[str]:
        columns = [Column("No.", right=True)]
        if known:
            columns += [
                Column("Date"),
                Column("From", Kind.CUT, least=8, most=max(self._width // 5, 12)),
                Column("Subject", Kind.CUT, least=12),
            ]
        columns += [_HEADINGS.get(name) or Column(name.capitalize()) for name in rows[0].more]
        cells = [
            [str(row.doc), *(self._fields(known.get(row.doc)) if known else []), *map(_cell, row.more.items())] for row in rows
        ]
        return table(columns, cells, self._width)

    def _fields(self, known: Known | None) -> list[str]:
        if known is None:
            return ["-", "-", "-"]
        date = known.fields.date
        shown = "-" if date is None else shown_minute(date)
        return [shown if self._width >= ROOMY else shown.split()[0], known.fields.who or "-", known.fields.subject or "-"]


_HEADINGS = {
    "first": Column("First second"),
    "run": Column("Run", right=True),
    "priority": Column("Priority", right=True),
    "voters": Column("Voters", right=True),
    "sum": Column("Sum", right=True),
}


def _cell(item: tuple[str, int | str]) -> str:
    name, value = item
    return shown_second(value) if name == "first" and isinstance(value, int) else str(value)


def _shape(row: Row, known: Known | None) -> dict[str, Any]:
    fields = known.fields if known else Fields()
    return {
        "doc": row.doc,
        "date": fields.date,
        "from": fields.sender,
        "name": fields.name,
        "address": fields.address,
        "subject": fields.subject,
        "arrival": known.arrival if known else None,
        **row.more,
    }


def clock() -> int:
    """Returns the clock's second."""
    return int(time.time())
