"""The command line of `tap`: its words, what is written, and its statuses."""

import argparse
import io
import json
import os
import re
import sys
from typing import Callable, Sequence

from .. import DEFAULT_SOCKET, SOCKET_VARIABLE
from ..replies import NotAReply
from .commands import COMMANDS
from .connection import Connection, Dismissed, NoDaemon
from .layout import paragraph, terminal_width
from .outcome import FAULTY, INTERRUPTED, NO_DAEMON, NOT_WRITTEN, REFUSED, Faulty, Outcome, Refused
from .refusals import Asked, refusal_of, shown
from .times import FORMS

_STATUSES = """statuses:
  0  the daemon accepted the command
  1  it refused it; of `load', some message isn't stored
  2  the words of the command line can't be used; nothing was sent
  3  no daemon answers at the socket, or it ended the connection
  4  writing failed"""


def _word(text: str) -> str:
    if not text or re.search(r"[ \t\r\n]", text):
        raise argparse.ArgumentTypeError(f"`{text}' isn't one word")
    return text


def _number(text: str) -> int:
    if not re.fullmatch(r"[0-9]{1,10}", text) or int(text) > 4_294_967_295:
        raise argparse.ArgumentTypeError(f"`{text}' is no number from 0 to 4294967295")
    return int(text)


def _value(text: str) -> int:
    if not re.fullmatch(r"-?[0-9]{1,19}", text) or not -(2**63) <= int(text) < 2**63:
        raise argparse.ArgumentTypeError(f"`{text}' is no whole number from -2^63 to 2^63 - 1")
    return int(text)


def parser() -> argparse.ArgumentParser:
    """Returns the parser of the command line."""
    common = argparse.ArgumentParser(add_help=False, allow_abbrev=False, argument_default=argparse.SUPPRESS)
    common.add_argument("--socket", metavar="PATH", help=f"the daemon's socket ({SOCKET_VARIABLE}, else {DEFAULT_SOCKET})")
    common.add_argument("--json", action="store_true", help="write one line of JSON, as tap(1) has it")
    top = argparse.ArgumentParser(
        prog="tap",
        description="Asks the mail filter's daemon.",
        epilog=_STATUSES,
        parents=[common],
        formatter_class=argparse.RawDescriptionHelpFormatter,
        allow_abbrev=False,
    )
    commands = top.add_subparsers(dest="command", metavar="COMMAND", required=True)

    def command(name: str, does: str, *words: str) -> argparse.ArgumentParser:
        it: argparse.ArgumentParser = commands.add_parser(
            name, help=does, description=f"{does[0].upper()}{does[1:]}.", parents=[common], allow_abbrev=False
        )
        for word in words:
            _WORDS[word](it)
        return it

    command("query", "define a query: from then on it gives documents", "name", "text")
    command("run", "run a query: deliver what has become due", "name")
    it = command("box", "list what the runs of a query have delivered", "name")
    it.add_argument("--last", type=_number, metavar="N", default=None, help="only the last N deliveries")
    command("list", "list a box rated by your rules, the greatest priority first", "name")
    command("ask", "list the documents that a condition gives at a past second", "when", "text")
    it = command("show", "show a document", "doc")
    it.add_argument("--raw", action="store_true", help="as it is stored, without CRs at the ends of its lines")
    command("notes", "list the notes on a document", "doc")
    command("note", "add a note to a document", "doc", "kind", "value", "note")
    command("scores", "list the documents that have notes of a kind, the greatest sum first", "kind")
    command("wake", "say when a run of each query would deliver something", "names")
    it = command("queries", "list your queries")
    it.add_argument("--names", action="store_true", help="only their names")
    command("explain", "show what a run of a query looks for", "name")
    command("filter", "replace your rules", "file")
    it = command("digest", "write what a run delivered as one message, whose body is a mailbox file", "name")
    it.add_argument("run", type=_number, metavar="RUN", help="the run's number")
    command("counts", "say how many documents and notes are stored")
    it = command("load", "store the messages of files")
    it.add_argument("--single", action="store_true", help="each file is one message, whatever its first line")
    it.add_argument("files", nargs="+", metavar="FILE", help="a mailbox file, a message, a maildir, or - for the standard input")
    return top


_TEXT_HELP = "the text; its words are joined by blanks; - reads the standard input"
_WORDS: dict[str, Callable[[argparse.ArgumentParser], argparse.Action]] = {
    "name": lambda it: it.add_argument("name", type=_word, metavar="NAME", help="the query's name"),
    "names": lambda it: it.add_argument("names", type=_word, nargs="*", metavar="NAME", help="queries; all of yours if none"),
    "text": lambda it: it.add_argument("text", nargs=argparse.REMAINDER, metavar="TEXT", help=_TEXT_HELP),
    "note": lambda it: it.add_argument("text", nargs=argparse.REMAINDER, metavar="TEXT", help=_TEXT_HELP),
    "when": lambda it: it.add_argument("when", metavar="WHEN", help=FORMS),
    "doc": lambda it: it.add_argument("doc", type=_number, metavar="DOC", help="the document's number"),
    "kind": lambda it: it.add_argument("kind", type=_word, metavar="KIND", help="the kind of note, such as score"),
    "value": lambda it: it.add_argument("value", type=_value, metavar="VALUE", help="a whole number"),
    "file": lambda it: it.add_argument(
        "file", nargs="?", default="-", metavar="FILE", help="one rule a line; - is standard input"
    ),
}


def main(arguments: Sequence[str] | None = None) -> int:
    """Does one command and returns the status."""
    for stream in (sys.stdout, sys.stderr):
        if isinstance(stream, io.TextIOWrapper):
            stream.reconfigure(errors="replace")
    words = parser().parse_args(arguments)
    try:
        outcome = _perform(words, terminal_width())
    except KeyboardInterrupt:
        return INTERRUPTED
    try:
        return _write(outcome, "json" in words)
    except OSError as error:
        if not isinstance(error, BrokenPipeError):
            print(f"tap: writing failed: {error.strerror}", file=sys.stderr)
        # What is left in the stream goes nowhere, so that the interpreter's end has no fault to report.
        os.dup2(os.open(os.devnull, os.O_WRONLY), 1)
        return NOT_WRITTEN


def _perform(words: argparse.Namespace, width: int) -> Outcome:
    """Asks the daemon; a failure too becomes something to write."""
    path = getattr(words, "socket", None) or os.environ.get(SOCKET_VARIABLE) or DEFAULT_SOCKET
    try:
        with Connection(path) as connection:
            return COMMANDS[words.command](connection, words, width)
    except Refused as refused:
        return _refused(refused, width)
    except Dismissed as dismissed:
        return _refused(Refused(dismissed.reply, Asked(words.command)), width)
    except Faulty as error:
        return _failed(words, str(error), FAULTY, width)
    except (NoDaemon, NotAReply) as error:
        why = str(error) if isinstance(error, NoDaemon) else f"what answers at {path} is no daemon of tapestry: {error}"
        return _failed(words, why, NO_DAEMON, width)


def _refused(refused: Refused, width: int) -> Outcome:
    lines = shown(refusal_of(refused.reply), refused.asked, refused.reply, width)
    return Outcome(refused.shape(), remarks=lines, status=REFUSED)


def _failed(words: argparse.Namespace, why: str, status: int, width: int) -> Outcome:
    shape = {"ok": False, "command": words.command, "words": why}
    return Outcome(shape, remarks=paragraph(f"tap: {why}", width, "     "), status=status)


def _write(outcome: Outcome, as_json: bool) -> int:
    """Writes what a command gave, and returns its status."""
    if as_json:
        print(json.dumps(outcome.shape, ensure_ascii=False))
    elif outcome.raw is not None:
        sys.stdout.buffer.write(outcome.raw)
    else:
        for line in outcome.lines:
            print(line)
    sys.stdout.flush()
    if not as_json:
        for line in outcome.remarks:
            print(line, file=sys.stderr)
    return outcome.status
