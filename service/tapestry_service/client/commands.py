"""The commands of `tap`: each asks the daemon and returns what it gives."""

import os
import re
import sys
from argparse import Namespace
from typing import Callable

from .connection import Connection
from .documents import Listing, ask_with_probe, clock, rows_of
from .fields import text_of
from .layout import Column, Kind, printable, table
from .loading import load
from .outcome import Faulty, Outcome, need, shape_of
from .readable import readable
from .refusals import Asked, from_now
from ..digests import documents_of
from ..messages import stored_text
from ..replies import Reply
from .times import parse_moment, shown_second

Command = Callable[[Connection, Namespace, int], Outcome]


def encoded(text: str) -> bytes:
    """Returns the bytes of words of the command line, also of those that aren't UTF-8."""
    return os.fsencode(text)


def given_text(words: list[str]) -> bytes:
    """Returns the text that the words make up: joined by blanks, or the standard input if the only word is `-`."""
    if words == ["-"]:
        text = _file("-")
    else:
        text = encoded(" ".join(words))
    return text.strip(b" \t\r\n")


def in_one_line(text: bytes) -> bytes:
    """Returns a query's text with blanks in place of its line ends, so that no place moves.

    Raises Faulty if a line ends within quotes, since the text there would be another.
    """
    for quoted in re.findall(rb"'(?:[^']|'')*'", text):
        if b"\n" in quoted:
            raise Faulty("a text in quotes has a line end in it")
    return re.sub(rb"[\r\n]", b" ", text)


def query(connection: Connection, words: Namespace, width: int) -> Outcome:
    """Defines a query."""
    text = given_text(words.text)
    line = in_one_line(text)
    asked = Asked("query", words.name, text, from_now(line))
    need(connection.one(b"query %s %s\n" % (encoded(words.name), line)), asked)
    return Outcome(shape_of(asked, query=words.name), [f"query {words.name} is defined"])


def run(connection: Connection, words: Namespace, width: int) -> Outcome:
    """Runs a query and lists what it delivers."""
    asked = Asked("run", words.name)
    reply, can_show = ask_with_probe(connection, b"run %s\n" % encoded(words.name), asked)
    ordinal, before = int(reply.words.split()[1]), int(reply.words.split()[3])
    rows = rows_of(reply.lines)
    many = "nothing new" if not rows else f"{len(rows)} document{'s' if len(rows) > 1 else ''}"
    heading = f"run {ordinal} of {words.name}, up to {shown_second(before)}: {many}"
    outcome = Listing(connection, asked, width).outcome(
        rows, can_show, [ordinal], heading, query=words.name, run=ordinal, before=before
    )
    if rows:
        outcome.lines.insert(0, heading)
    return outcome


def box(connection: Connection, words: Namespace, width: int) -> Outcome:
    """Lists what the runs of a query have delivered, in order of delivery."""
    return _delivered(connection, Asked("box", words.name), words.last, width)


def rated(connection: Connection, words: Namespace, width: int) -> Outcome:
    """Lists what the runs of a query have delivered, rated by the user's rules, the greatest priority first."""
    return _delivered(connection, Asked("list", words.name), None, width)


def _delivered(connection: Connection, asked: Asked, last: int | None, width: int) -> Outcome:
    reply, can_show = ask_with_probe(connection, b"%s %s\n" % (asked.command.encode(), encoded(asked.name)), asked)
    rows = rows_of(reply.lines)
    if last is not None:
        rows = rows[len(rows) - min(last, len(rows)) :]
    runs = sorted({int(row.more["run"]) for row in rows})
    return Listing(connection, asked, width).outcome(rows, can_show, runs, f"the box of {asked.name} is empty", query=asked.name)


def ask(connection: Connection, words: Namespace, width: int) -> Outcome:
    """Lists the documents that a condition gives at a second."""
    try:
        moment = parse_moment(words.when, clock())
    except ValueError as error:
        raise Faulty(str(error)) from error
    text = given_text(words.text)
    asked = Asked("ask", words.when, text)
    reply, can_show = ask_with_probe(connection, b"ask %d %s\n" % (moment, in_one_line(text)), asked)
    nothing = f"the condition gives no document at {shown_second(moment)}"
    return Listing(connection, asked, width).outcome(rows_of(reply.lines), can_show, [], nothing, second=moment)


def scores(connection: Connection, words: Namespace, width: int) -> Outcome:
    """Lists the documents that have notes of a kind, with their voters and sums."""
    asked = Asked("scores", words.kind)
    reply, can_show = ask_with_probe(connection, b"scores %s\n" % encoded(words.kind), asked)
    nothing = f"no document has a note of the kind {words.kind}"
    return Listing(connection, asked, width).outcome(rows_of(reply.lines), can_show, [], nothing, kind=words.kind)


def show(connection: Connection, words: Namespace, width: int) -> Outcome:
    """Shows a document as a reader wants it, or as it is stored."""
    asked = Asked("show", str(words.doc))
    reply = need(connection.one(b"show %d\n" % words.doc), asked)
    arrival = int(reply.words.split()[3])
    text = b"".join(line + b"\n" for line in reply.lines)
    shape = shape_of(asked, doc=words.doc, arrival=arrival, text=text.decode("utf-8", "replace"))
    if words.raw:
        return Outcome(shape, raw=text)
    return Outcome(shape, [f"document {words.doc}, stored {shown_second(arrival)}", *readable(reply.lines)])


_NOTE = re.compile(rb"note (\d+) ts (\d+) author (\S+) kind (\S+) value (-?\d+) text ?(.*)", re.DOTALL)
_QUERY = re.compile(rb"query (\S+) ts (\d+) from (\d+) runs (\d+) last (\d+|never) boxed (\d+) text ?(.*)", re.DOTALL)


def notes(connection: Connection, words: Namespace, width: int) -> Outcome:
    """Lists the notes on a document."""
    asked = Asked("notes", str(words.doc))
    reply = need(connection.one(b"notes %d\n" % words.doc), asked)
    found = [match.groups() for line in reply.lines if (match := _NOTE.fullmatch(line))]
    shape = [
        {"note": int(n), "arrival": int(s), "author": a.decode(), "kind": k.decode(), "value": int(v), "text": text_of(t)}
        for n, s, a, k, v, t in found
    ]
    columns = [
        Column("Note", right=True),
        Column("Written"),
        Column("By"),
        Column("Kind"),
        Column("Value", right=True),
        Column("Text", Kind.WRAP, least=16),
    ]
    rows = [[n.decode(), shown_second(int(s)), a.decode(), k.decode(), v.decode(), text_of(t)] for n, s, a, k, v, t in found]
    lines = table(columns, rows, width) if rows else [f"document {words.doc} has no notes"]
    return Outcome(shape_of(asked, doc=words.doc, notes=shape), lines)


def note(connection: Connection, words: Namespace, width: int) -> Outcome:
    """Adds a note to a document."""
    text = given_text(words.text)
    if b"\n" in text or b"\r" in text:
        raise Faulty("the text of a note is one line")
    asked = Asked("note", words.kind)
    command = b"note %d %s %d %s\n" % (words.doc, encoded(words.kind), words.value, text)
    reply = connection.one(command)
    if not reply.ok and reply.number == 11:
        asked = Asked("note", str(words.doc))
    number = int(need(reply, asked).words.split()[1])
    return Outcome(shape_of(asked, note=number, doc=words.doc), [f"note {number} on document {words.doc}"])


def wake(connection: Connection, words: Namespace, width: int) -> Outcome:
    """Says for each query when a run of it would deliver something, if nothing is added until then."""
    names = words.names or _names(connection, "wake")
    replies = connection.many(b"wake %s\n" % encoded(it) for it in names)
    moments = {name: _moment(need(reply, Asked("wake", name))) for name, reply in zip(names, list(replies))}
    now = clock()
    rows = [[name, "never" if it is None else shown_second(it) + (", now" if it <= now else "")] for name, it in moments.items()]
    shape = [{"query": name, "wake": it} for name, it in moments.items()]
    lines = table([Column("Query"), Column("Would deliver")], rows, width) if rows else ["you have no queries"]
    return Outcome(shape_of(Asked("wake"), queries=shape), lines)


def _moment(reply: Reply) -> int | None:
    moment = reply.words.split()[2]
    return None if moment == "never" else int(moment)


def _names(connection: Connection, command: str) -> list[str]:
    """Returns the names of the user's queries, in order of definition."""
    reply = need(connection.one(b"queries\n"), Asked("queries", hint=f"name them: tap {command} NAME.."))
    return [line.split()[1].decode() for line in reply.lines]


def explain(connection: Connection, words: Namespace, width: int) -> Outcome:
    """Shows what a run of the query looks for."""
    asked = Asked("explain", words.name)
    reply = need(connection.one(b"explain %s\n" % encoded(words.name)), asked)
    lines = [text_of(line) for line in reply.lines]
    return Outcome(shape_of(asked, query=words.name, lines=lines), list(map(printable, lines)) or ["a run looks for nothing"])


def queries(connection: Connection, words: Namespace, width: int) -> Outcome:
    """Lists the user's queries."""
    asked = Asked("queries")
    reply = need(connection.one(b"queries\n"), asked)
    found = [match.groups() for line in reply.lines if (match := _QUERY.fullmatch(line))]
    shape = [
        {
            "query": name.decode(),
            "defined": int(defined),
            "from": int(start),
            "runs": int(runs),
            "last": None if last == b"never" else int(last),
            "boxed": int(boxed),
            "text": text_of(text),
        }
        for name, defined, start, runs, last, boxed, text in found
    ]
    if words.names:
        return Outcome(shape_of(asked, queries=shape), [str(it["query"]) for it in shape])
    columns = [
        Column("Query"),
        Column("Runs", right=True),
        Column("Last run"),
        Column("In box", right=True),
        Column("Text", Kind.WRAP, least=24),
    ]
    rows = [
        [
            str(it["query"]),
            str(it["runs"]),
            "never" if it["last"] is None else shown_second(int(it["last"])),
            str(it["boxed"]),
            (f"FROM {shown_second(int(it['from']))}: " if it["from"] else "") + str(it["text"]),
        ]
        for it in shape
    ]
    return Outcome(shape_of(asked, queries=shape), table(columns, rows, width) if rows else ["you have no queries"])


def filter_(connection: Connection, words: Namespace, width: int) -> Outcome:
    """Replaces the user's rules by those of a file or of the standard input."""
    text = _file(words.file)
    asked = Asked("filter", "", text)
    reply = need(connection.one(stored_text(text).block(b"filter")), asked)
    count = int(reply.words.split()[1])
    lines = [f"you have {count} rule{'' if count == 1 else 's'} from now on"]
    return Outcome(shape_of(asked, rules=count), lines)


def _file(path: str) -> bytes:
    """Returns the bytes of a file, or of the standard input."""
    try:
        if path == "-":
            return sys.stdin.buffer.read()
        with open(path, "rb") as file:
            return file.read()
    except OSError as error:
        raise Faulty(f"{path}: {error.strerror}") from error


def digest(connection: Connection, words: Namespace, width: int) -> Outcome:
    """Gives what a run delivered as one message, whose body is a mailbox file."""
    asked = Asked("digest", words.name)
    reply = need(connection.one(b"digest %s %d\n" % (encoded(words.name), words.run)), asked)
    shape = [
        {"doc": number, "first": first, "text": text.decode("utf-8", "replace")}
        for number, first, text in documents_of(reply.lines)
    ]
    raw = b"".join(line + b"\n" for line in reply.lines)
    return Outcome(shape_of(asked, query=words.name, run=words.run, documents=shape), raw=raw)


def counts(connection: Connection, words: Namespace, width: int) -> Outcome:
    """Says how many documents and notes are stored, and up to which moment."""
    asked = Asked("counts")
    reply = need(connection.one(b"counts\n"), asked)
    documents, notes_, moment = (int(reply.words.split()[place]) for place in (2, 4, 6))
    lines = [f"{documents} documents, {notes_} notes, moment {shown_second(moment)}"]
    return Outcome(shape_of(asked, documents=documents, notes=notes_, moment=moment), lines)


COMMANDS: dict[str, Command] = {
    "query": query,
    "run": run,
    "box": box,
    "list": rated,
    "ask": ask,
    "scores": scores,
    "show": show,
    "notes": notes,
    "note": note,
    "wake": wake,
    "explain": explain,
    "queries": queries,
    "filter": filter_,
    "digest": digest,
    "counts": counts,
    "load": load,
}
