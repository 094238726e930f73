"""Stores messages of files, with a bar of progress on a terminal."""

import itertools
import os
import sys
import time
from argparse import Namespace
from dataclasses import dataclass, field
from typing import Any, BinaryIO, Iterator

from .connection import Connection, Dismissed, NoDaemon
from .framing import Message, cut_mailbox, one_message
from .layout import fitted, terminal_width
from .outcome import INTERRUPTED, NO_DAEMON, REFUSED, Faulty, Outcome, shape_of
from .refusals import Asked, refusal_of, words_of
from ..messages import Text, mbox_of
from ..replies import UNKNOWN_END, NotAReply, Reply

BLOCK_BYTES = 1_000_000
BLOCK_MESSAGES = 1_000
_TOO_LONG = "the message has more than 1,048,576 bytes"


@dataclass(frozen=True)
class Place:
    """Where a message is: its file, and which of its messages it is, from 1, or None if the file is one message."""

    path: str
    number: int | None

    def __str__(self) -> str:
        return self.path if self.number is None else f"message {self.number} of {self.path}"


@dataclass
class Loaded:
    """How far a load got."""

    stored: int = 0
    ranges: list[list[int]] = field(default_factory=list)
    refused: list[dict[str, Any]] = field(default_factory=list)
    stopped: str | None = None
    status: int = 0

    def add(self, first: int, count: int) -> None:
        """Counts these documents as stored."""
        self.stored += count
        if count and self.ranges and self.ranges[-1][1] == first - 1:
            self.ranges[-1][1] += count
        elif count:
            self.ranges.append([first, first + count - 1])

    def refuse(self, place: Place, why: str) -> None:
        """Notes that a message is not stored."""
        self.refused.append({"file": place.path, "message": place.number, "why": why})
        self.status = self.status or REFUSED

    def words(self) -> str:
        """Says how many messages are stored, and as which documents."""
        if not self.stored:
            return "no message is stored"
        numbers = ", ".join(str(a) if a == b else f"{a} to {b}" for a, b in self.ranges)
        many = "1 message is" if self.stored == 1 else f"{self.stored} messages are"
        return f"{many} stored: document{'' if self.stored == 1 else 's'} {numbers}"


class Progress:
    """A bar on the standard error, if that is a terminal."""

    def __init__(self, total: int, stream: Any = None) -> None:
        self._stream = stream or sys.stderr
        self._shown = self._stream.isatty()
        self._total = total
        self._taken = 0
        self._last = 0.0

    def move(self, taken: int, stored: int) -> None:
        """Shows that so many bytes more were taken, and how many messages are stored; at most ten times a second."""
        self._taken += taken
        now = time.monotonic()
        if self._shown and now - self._last >= 0.1:
            self._last = now
            self._stream.write("\r" + bar(self._taken, self._total, stored, terminal_width() - 1))
            self._stream.flush()

    def end(self) -> None:
        """Removes the bar."""
        if self._shown and self._last:
            self._stream.write("\r" + " " * (terminal_width() - 1) + "\r")
            self._stream.flush()


def bar(taken: int, total: int, stored: int, width: int) -> str:
    """Returns a bar as wide as the terminal; without a known total it has only the count."""
    count = f" {stored} messages"
    if total <= 0:
        return fitted(count.strip(), width).ljust(width)
    part = min(taken / total, 1.0)
    label = f" {part * 100:3.0f} %{count}"
    room = width - len(label) - 2
    if room < 4:
        return fitted(label.strip(), width).ljust(width)
    full = int(room * part)
    return f"[{'#' * full}{'.' * (room - full)}]{label}"


def files_of(paths: list[str]) -> list[tuple[str, bool]]:
    """Returns the files to read, in order, and for each whether it was found in a maildir.

    Of a folder that is a maildir these are the files of `new` and `cur`, in order of their names. Raises Faulty if a path can't be
    read.
    """
    found: list[tuple[str, bool]] = []
    for path in paths:
        if path != "-" and os.path.isdir(path):
            found += _maildir(path)
        elif path == "-" or os.access(path, os.R_OK):
            found.append((path, False))
        else:
            raise Faulty(f"{path}: {'may not be read' if os.path.exists(path) else 'there is no such file'}")
    return found


def _maildir(path: str) -> list[tuple[str, bool]]:
    parts = [os.path.join(path, part) for part in ("new", "cur")]
    if not all(map(os.path.isdir, parts)):
        raise Faulty(f"{path}: this folder is no maildir")
    try:
        names = [(name, part) for part in parts for name in os.listdir(part) if not name.startswith(".")]
    except OSError as error:
        raise Faulty(f"{error.filename}: {error.strerror}") from error
    return [(os.path.join(part, name), True) for name, part in sorted(names)]


def messages_of(files: list[tuple[str, bool]], single: bool) -> Iterator[tuple[Place, Message]]:
    """Yields the messages of the files. A file whose first line begins with `From ` is a mailbox file, any other one message.

    With `single`, and in a maildir, each file is one message. Any other empty file has none.
    """
    for path, in_maildir in files:
        if path == "-":
            yield from _of_file(path, sys.stdin.buffer, single)
            continue
        with open(path, "rb") as file:
            yield from _of_file(path, file, single or in_maildir)


def _of_file(path: str, file: BinaryIO, single: bool) -> Iterator[tuple[Place, Message]]:
    line = b"" if single else file.readline()
    if line.startswith(b"From "):
        for number, message in enumerate(cut_mailbox(itertools.chain([line], file)), 1):
            yield Place(path, number), message
    elif line or single:
        yield Place(path, None), one_message(file, line)


class Loader:
    """Stores messages block by block. One block is under way at a time, so that what is stored is a beginning."""

    def __init__(self, connection: Connection, total: int) -> None:
        self.loaded = Loaded()
        self._connection = connection
        self._progress = Progress(total)
        self._batch: list[tuple[Place, Message]] = []
        self._size = 0
        self._under_way = False

    def load(self, messages: Iterator[tuple[Place, Message]]) -> None:
        """Stores the messages, in order, up to the first block that is refused or to a failure; `loaded` says how far it got."""
        try:
            self._all(messages)
        except (NoDaemon, NotAReply) as error:
            self._stop(str(error), NO_DAEMON)
        except Dismissed as error:
            self._under_way = False
            self._stop(_why(error.reply), REFUSED)
        except KeyboardInterrupt:
            self._stop("interrupted", INTERRUPTED)
        except OSError as error:
            self._stop(f"{error.filename or 'a file'}: {error.strerror}", REFUSED)
        finally:
            self._progress.end()

    def _all(self, messages: Iterator[tuple[Place, Message]]) -> None:
        for place, message in messages:
            if message.too_long:
                self.loaded.refuse(place, _TOO_LONG)
                self._progress.move(message.taken, self.loaded.stored)
                continue
            full = self._size + len(message.text) > BLOCK_BYTES or len(self._batch) == BLOCK_MESSAGES
            if full and self._batch and not self._put():
                return
            self._batch.append((place, message))
            self._size += len(message.text)
        if self._batch:
            self._put()

    def _put(self) -> bool:
        """Stores the messages gathered, all or none, and returns whether they are stored."""
        texts = [Text(message.text) for _, message in self._batch]
        self._under_way = True
        reply = self._connection.one(texts[0].mail if len(texts) == 1 else mbox_of(it.mbox for it in texts))
        self._under_way = not reply.ok and reply.number == UNKNOWN_END
        if not reply.ok:
            self._stop(_why(reply), REFUSED)
            return False
        self.loaded.add(*_numbers(reply))
        self._progress.move(sum(message.taken for _, message in self._batch), self.loaded.stored)
        self._batch, self._size = [], 0
        return True

    def _stop(self, why: str, status: int) -> None:
        """Notes why the load ended, and which messages aren't stored."""
        first, last = (self._batch[0][0], self._batch[-1][0]) if self._batch else (None, None)
        if first is None:
            rest = "what follows isn't stored"
        elif not self._under_way:
            rest = f"{first} and what follows aren't stored"
        elif first == last:
            rest = f"{first} may be stored, what follows isn't"
        else:
            rest = f"from {first} to {last} all are stored or none; what follows isn't"
        self.loaded.stopped = f"{why}; {rest}"
        self.loaded.status = status


def load(connection: Connection, words: Namespace, width: int) -> Outcome:
    """Stores the messages of the files."""
    files = files_of(words.files)
    total = 0 if any(path == "-" for path, _ in files) else sum(os.path.getsize(path) for path, _ in files)
    loader = Loader(connection, total)
    loader.load(messages_of(files, words.single))
    return _outcome(loader.loaded)


def _why(reply: Reply) -> str:
    return f"{words_of(refusal_of(reply), Asked('mbox'), reply)} ({reply.first.decode('utf-8', 'replace')})"


def _numbers(reply: Reply) -> tuple[int, int]:
    """Returns the number of the first document, and how many there are: of `ok 0 doc D` or `ok 0 docs K F`."""
    words = reply.words.split()
    return (int(words[1]), 1) if words[0] == "doc" else (int(words[2]), int(words[1]))


def _outcome(loaded: Loaded) -> Outcome:
    shape = shape_of(Asked("load"), stored=loaded.stored, documents=loaded.ranges, refused=loaded.refused, stopped=loaded.stopped)
    shape["ok"] = loaded.status == 0
    remarks = [f"tap: {Place(it['file'], it['message'])} isn't stored: {it['why']}" for it in loaded.refused]
    if loaded.stopped:
        remarks.append(f"tap: {loaded.stopped}")
    return Outcome(shape, [loaded.words()], remarks=remarks, status=loaded.status)
