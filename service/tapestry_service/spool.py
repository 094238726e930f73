"""The spool: a maildir whose messages go into the store, each exactly once and in order of their names.

Before a batch is handed over, DIR/batch is written and synced: the number of documents that were stored, and for each message
its name and a checksum. A batch of several is one `mbox`, which is stored whole or not at all. After a stop at any moment the
number of documents says whether the batch was stored, and `show`, if the program has it, that these documents are the batch's.
Then its files are removed, and their names synced, before DIR/batch goes. A file that has taken the name of one of them meanwhile
stays: it is another message.
"""

from __future__ import annotations

import errno
import os
import stat
import time
from typing import Callable, Iterable, List, NamedTuple, Optional, Set, Tuple

from .files import read_or_none, remove, replace_synced, sync_folder, write_synced
from .log import ERROR, INFO, NOTICE, WARNING, say
from .messages import RAW_LIMIT, Text, mbox_of, stored_text, sum_of_lines
from .replies import Reply
from .session import Session
from .work import Exchange, Refused, Work

#: The most messages and bytes of a batch. A second batch is read while the program works on the first.
BATCH_MESSAGES = 1000
BATCH_BYTES = 900_000

#: Seconds after which no more is read into a batch, so that others get their turns: decoding may take long.
BATCH_SECONDS = 0.2

#: The most bytes of a message that is to be decoded.
DECODE_LIMIT = 64 << 20

#: The most bytes of a refused message's name, since its reason's name is longer. Its beginning is kept.
NAME_LIMIT = 200

#: How many names that have to be passed over are logged; of the others only that there are more.
NAMES_SAID = 100

#: Seconds between two looks at the spool without news of it, with the files that couldn't be read; if it can't be watched, too.
LOOK_AGAIN = 60.0
LOOK_UNWATCHED = 2.0

OUT_OF_MEMORY = 18

#: What holds up all messages, and not one alone.
_OF_ALL = (errno.ENOSPC, errno.EDQUOT, errno.EROFS, errno.EMFILE, errno.ENFILE, errno.ENOMEM)

#: Why the program refuses a message, in words that follow its reply.
_REASONS = {
    "message": "it has more than 1,048,576 bytes; tapestryd --decode leaves attachments out",
    "documents": "the store is full: begin another store, and move the files of refused back to new",
    "store": "the store is full: begin another store, and move the files of refused back to new",
}


class File(NamedTuple):
    """A file of the spool: its name, and its number on the disk."""

    name: bytes
    number: int


class Message(NamedTuple):
    """A message of the spool."""

    file: File
    text: Text


class Batch(NamedTuple):
    """Messages that are handed over by one command."""

    messages: Tuple[Message, ...]
    data: bytes


class Spool:
    """The folders DIR/new, DIR/tmp and DIR/refused, and the file DIR/batch."""

    FAILS = "the spool can't be loaded"

    def __init__(self, path: str, decode: Optional[Callable[[bytes], bytes]] = None):
        self.path = os.fsencode(os.path.abspath(path))
        self.new = os.path.join(self.path, b"new")
        self._in_new = self.new + b"/"
        self.refused = os.path.join(self.path, b"refused")
        self.batch = os.fsdecode(os.path.join(self.path, b"batch"))
        for folder in (self.path, self.new, os.path.join(self.path, b"tmp"), self.refused):
            os.makedirs(folder, 0o770, exist_ok=True)
        self._decode = decode
        #: Whether names may have come since the folder was read.
        self.has_news = True
        self._names: List[bytes] = []  # of the last reading, the least one at the end
        self._alone: List[Message] = []  # those of a refused batch, the first one at the end
        self._ahead: Optional[Batch] = None
        self._passed_over: Set[bytes] = set()
        self._left: Set[bytes] = set()  # those of them that no look tries again
        self._said: Set[bytes] = set()  # those that were logged
        self.stored = 0

    def forget(self) -> None:
        """Begins anew from the files: what was read ahead may be stored by now."""
        self._names, self._alone, self._ahead = [], [], None
        self.has_news = True

    @property
    def has_work(self) -> bool:
        """Whether there is something to load, or may be."""
        return self.has_news or bool(self._names or self._alone or self._ahead)

    # What was handed over when the last process ended

    def settle(self, session: Session) -> Work[None]:
        """Removes the messages of the last batch, if they were stored."""
        data = read_or_none(self.batch)
        if data is None:
            return
        before, entries = _batch_of(data)
        if entries and session.documents >= before + len(entries):
            if (yield from self._is_theirs(session, before, [checksum for _, checksum in entries])):
                self._remove(it for it in (self._stored_file(*entry) for entry in entries) if it is not None)
                say(f"{len(entries)} messages of the spool were stored when the last session ended", INFO)
        remove(self.batch)
        self.forget()

    def _is_theirs(self, session: Session, before: int, sums: List[str]) -> Work[bool]:
        """Whether the documents after the first `before` are the messages with these checksums."""
        if not session.can_show:
            if session.documents > before + len(sums):
                say("the store has more documents than this service added: was another program at it?", WARNING)
            return True
        for number, checksum in enumerate(sums, before + 1):
            reply = (yield Exchange(b"show %d\n" % number))[0]
            if not reply.ok and reply.number == OUT_OF_MEMORY:
                raise Refused("show", reply)
            if not reply.ok or sum_of_lines(reply.lines) != checksum:
                say("another program has added documents to the store; the batch of the spool is not among them", WARNING)
                return False
        return True

    def _stored_file(self, name: bytes, checksum: str) -> Optional[File]:
        """The file of a message that is stored, or None if it is gone, or another one has its name."""
        try:
            file, raw = self._bytes_of(name)
        except FileNotFoundError:
            return None
        except OSError:
            # It could be read then.
            return File(name, os.lstat(os.path.join(self.new, name)).st_ino)
        return file if raw is not None and self._text_of(raw).sum == checksum else None

    # Reading the spool

    def _read_names(self) -> None:
        self.has_news = False
        with os.scandir(self.new) as entries:
            names = [it.name for it in entries if not it.name.startswith(b".")]
        for known in (self._passed_over, self._left, self._said):
            known.intersection_update(names)
        self._names = sorted((it for it in names if it not in self._passed_over), reverse=True)

    def look_again(self) -> None:
        """Has the folder read anew, with the files that couldn't be read."""
        self._passed_over = set(self._left)
        self.has_news = True

    def _pass_over(self, name: bytes, error: OSError) -> None:
        """Notes a file that can't be read, or can't be moved away. Others go on."""
        self._passed_over.add(name)
        if name in self._said or len(self._said) > NAMES_SAID:
            return
        self._said.add(name)
        if len(self._said) > NAMES_SAID:
            say(f"{os.fsdecode(self.new)} has more files that can't be used", ERROR)
            return
        path = os.fsdecode(os.path.join(self.new, name))
        say(f"{path} can't be used ({error.strerror}): give the service the right to, or remove it; others go on", ERROR)

    def _read(self, name: bytes) -> Optional[Message]:
        """A message, or None for one that isn't there, can't be read, or is refused at once."""
        try:
            file, raw = self._bytes_of(name)
        except FileNotFoundError:
            return None
        except OSError as error:
            if error.errno in _OF_ALL:
                raise
            path = os.path.join(self.new, name)
            if os.path.islink(path) or not os.path.isfile(path):
                self._refuse(name, "it isn't a file\n")
            else:
                self._pass_over(name, error)
            return None
        text = None if raw is None else self._text_of(raw)
        if text is None or text.is_too_long:
            self._refuse(name, f"no 16 message\n{_REASONS['message']}\n")
            return None
        return Message(file, text)

    def _text_of(self, raw: bytes) -> Text:
        return stored_text(raw if self._decode is None else self._decode(raw))

    def _bytes_of(self, name: bytes) -> Tuple[File, Optional[bytes]]:
        """A file with its bytes, or with None if there are too many for a message. Raises OSError for what is no file."""
        fd = os.open(self._in_new + name, os.O_RDONLY | os.O_NOFOLLOW | os.O_NONBLOCK | os.O_CLOEXEC)
        try:
            state = os.fstat(fd)
            if not stat.S_ISREG(state.st_mode):
                raise OSError(errno.EINVAL, "it isn't a file")
            file, size = File(name, state.st_ino), state.st_size
            if size > (RAW_LIMIT if self._decode is None else DECODE_LIMIT):
                return file, None
            pieces = [os.read(fd, size + 1)]
            while pieces[-1] and len(pieces[0]) != size:
                pieces.append(os.read(fd, 1 << 20))
            return file, b"".join(pieces)
        finally:
            os.close(fd)

    def _next_batch(self) -> Optional[Batch]:
        """The next messages that go together."""
        messages: List[Message] = []
        parts: List[bytes] = []
        size = 0
        until = time.monotonic() + BATCH_SECONDS
        while self._names and len(messages) < BATCH_MESSAGES and time.monotonic() < until:
            message = self._read(self._names[-1])
            if message is None:
                self._names.pop()
                continue
            part = message.text.mbox
            if messages and size + len(part) > BATCH_BYTES:
                break
            messages.append(message)
            parts.append(part)
            size += len(part)
            self._names.pop()
        if not messages:
            return None
        return Batch(tuple(messages), mbox_of(parts) if len(messages) > 1 else messages[0].text.mail)

    def _take_batch(self) -> Optional[Batch]:
        """The batch that was read ahead, or the next one."""
        if self._alone:
            return _alone(self._alone.pop())
        batch, self._ahead = self._ahead, None
        if batch is None:
            if not self._names and self.has_news:
                self._read_names()
            batch = self._next_batch()
        return batch

    def _read_ahead(self) -> None:
        """Reads the batch after the one that the program works on. The folder is not read: that batch is still there."""
        if self._ahead is None and not self._alone:
            try:
                self._ahead = self._next_batch()
            except OSError:
                self.forget()

    # Loading it

    def load(self, session: Session) -> Work[int]:
        """Stores the next batch, and returns how many messages it stored. Raises OSError if a file can't be written or removed,
        and Refused if memory is out; the spool is unchanged then."""
        if os.path.exists(self.batch):
            # Its messages couldn't be removed then.
            yield from self.settle(session)
        try:
            batch = self._take_batch()
            return (yield from self._put(session, batch)) if batch is not None else 0
        except (OSError, Refused):
            self.forget()
            raise

    def _put(self, session: Session, batch: Batch) -> Work[int]:
        yield from session.now()
        replace_synced(self.batch, _batch_bytes(session.documents, batch.messages))
        reply = yield from session.add(batch.data, self._read_ahead)
        if reply.ok:
            self._remove(it.file for it in batch.messages)
            self.stored += len(batch.messages)
        elif reply.number == OUT_OF_MEMORY:
            raise Refused("mbox", reply)
        elif len(batch.messages) > 1:
            # One of them is at fault, or the store has no room for all.
            self._alone = list(reversed(batch.messages))
        else:
            self._refuse(batch.messages[0].file.name, _reason_of(reply))
        remove(self.batch)
        return len(batch.messages) if reply.ok else 0

    def _remove(self, files: Iterable[File]) -> None:
        """Removes files, but not another one that has the name of one of them by now."""
        for file in files:
            path = self._in_new + file.name
            try:
                if os.lstat(path).st_ino == file.number:
                    os.unlink(path)
                else:
                    self.has_news = True
            except FileNotFoundError:
                pass
        sync_folder(os.fsdecode(self.new))

    def _refuse(self, name: bytes, reason: str) -> None:
        """Moves a message to refused, with its reason beside it. What can't be moved, as somebody's own folder, is left."""
        to = first = os.path.join(self.refused, name[:NAME_LIMIT])
        number = 0
        while os.path.lexists(to) or os.path.lexists(to + b".reason") and number > 0:
            number += 1
            to = first + b".%d" % number
        write_synced(os.fsdecode(to + b".reason"), reason.encode())
        try:
            os.rename(os.path.join(self.new, name), to)
        except OSError as error:
            os.unlink(to + b".reason")
            if error.errno in _OF_ALL:
                raise
            if not isinstance(error, FileNotFoundError):
                self._left.add(name)
                self._pass_over(name, error)
            return
        sync_folder(os.fsdecode(self.refused))
        sync_folder(os.fsdecode(self.new))
        say(f"refused {os.fsdecode(name)}: {' '.join(reason.split(chr(10)))}; it is in {os.fsdecode(self.refused)}", NOTICE)


def _alone(message: Message) -> Batch:
    return Batch((message,), message.text.mail)


def _reason_of(reply: Reply) -> str:
    words = _REASONS.get(reply.words, "") if reply.number == 16 else ""
    return reply.first.decode("utf-8", "replace") + "\n" + (words + "\n" if words else "")


def _batch_bytes(before: int, messages: Tuple[Message, ...]) -> bytes:
    """A batch as a file: the number of documents before it, and for each message its checksum and its name, each ended by a byte
    0, which no name has."""
    parts = [b"%d" % before]
    for it in messages:
        parts += [it.text.sum.encode(), it.file.name]
    return b"\0".join(parts) + b"\0"


def _batch_of(data: bytes) -> Tuple[int, List[Tuple[bytes, str]]]:
    """The number of documents before a batch, and its names with their checksums."""
    parts = data.split(b"\0")
    if len(parts) < 2 or len(parts) % 2 or parts[-1] or not parts[0].isdigit():
        say("the file batch of the spool isn't of this service: it is passed over", WARNING)
        return 0, []
    return int(parts[0]), [(parts[at + 1], parts[at].decode("ascii", "replace")) for at in range(1, len(parts) - 1, 2)]
