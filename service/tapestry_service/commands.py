"""Cuts a client's bytes into commands, as the program reads a script.

Only whole commands go on to the program, so that a client that stops in the middle of one holds nobody up, and only those that
are known here, so that each gets one reply. A client may say all commands but `at` and `as`.
"""

from __future__ import annotations

import re
from typing import NamedTuple, Optional, Union

from .replies import OWN_COMMAND

#: The most bytes of a line, without its LF.
LINE_LIMIT = 1_048_576

#: Commands with a block: the most bytes of its text, and what a longer one is refused as.
BLOCKS = {b"mail": (1_048_576, b"message"), b"mbox": (16_777_216, b"block"), b"filter": (65_536, b"block")}

#: Commands that add rows, so that queries may be due and boxes may have grown.
CHANGES = frozenset([b"mail", b"mbox", b"note", b"query", b"run"])

#: Commands that only read, so that they can be performed again.
READS = frozenset(b"box ask list explain wake scores digest show notes queries counts".split())

KNOWN = CHANGES | READS | {b"filter"}

_BLANKS = b" \t"
_LAST_LINE = re.compile(rb"^\.\r?\n", re.MULTILINE)
_OWN = {
    b"at": b"no %d at: the moment is the clock's second\n" % OWN_COMMAND,
    b"as": b"no %d as: the user is that of the login\n" % OWN_COMMAND,
}


class Command(NamedTuple):
    """A whole command for the program."""

    word: bytes
    data: bytes

    @property
    def changes(self) -> bool:
        """Whether it may add rows that make a query due or a box grow."""
        return self.word in CHANGES

    @property
    def only_reads(self) -> bool:
        """Whether it may be performed twice."""
        return self.word in READS


class Cutter:
    """Gathers the bytes of a client. `next` gives what is complete: a command, or the reply to a line that goes no further."""

    def __init__(self) -> None:
        self._buffer = bytearray()
        self._scan = 0  # where the buffer's line begins in which the search for a block's end goes on
        self._block: Optional[bytes] = None  # the word of the open block
        self._formed = True
        self._start = 0  # where the block's text begins in the buffer
        self._is_long = False  # of an open line, or of the open block, whose bytes are dropped
        self._tail = b""  # of an open block that is too long: what its open line begins with

    @property
    def size(self) -> int:
        """How many bytes wait here."""
        return len(self._buffer)

    @property
    def is_within(self) -> bool:
        """Whether a command has begun that isn't complete."""
        return bool(self._buffer) or self._block is not None or self._is_long

    def feed(self, data: bytes) -> None:
        """Takes the next bytes."""
        self._buffer += data

    def next(self) -> Optional[Union[Command, bytes]]:
        """The next command, or the next reply; None if more bytes are needed."""
        if self._block is None:
            found = self._next_line()
            if found is not None or self._block is None:
                return found
        return self._next_of_block()

    def finish(self) -> None:
        """Ends the input: what follows the last LF is a line, too."""
        if self._is_long or (self._buffer and not self._buffer.endswith(b"\n")):
            self._buffer += b"\n"

    def rest(self) -> Optional[bytes]:
        """After the end of the input: the reply to a block without its end, or None."""
        if self._block is None:
            return None
        self._block, self._is_long, self._scan = None, False, 0
        self._buffer.clear()
        return b"no 3\n" if self._formed else b"no 2\n"

    def _next_line(self) -> Optional[Union[Command, bytes]]:
        while True:
            end = self._buffer.find(b"\n", self._scan)
            if end < 0:
                if len(self._buffer) > LINE_LIMIT:
                    self._is_long = True
                if self._is_long:
                    self._buffer.clear()
                self._scan = len(self._buffer)
                return None
            line = bytes(self._buffer[: end + 1])
            if self._is_long or end > LINE_LIMIT:
                del self._buffer[: end + 1]
                self._scan, self._is_long = 0, False
                return b"no 16 line\n"
            word, more = _words_of(line)
            if word in BLOCKS:
                self._block, self._formed = word, not more
                self._start = self._scan = end + 1
                return None
            del self._buffer[: end + 1]
            self._scan = 0
            if not word or word.startswith(b"#"):
                continue
            if word in _OWN:
                return _OWN[word]
            return Command(word, line) if word in KNOWN else b"no 1\n"

    def _next_of_block(self) -> Optional[Union[Command, bytes]]:
        assert self._block is not None
        if self._is_long:
            return self._next_of_long_block()
        found = _LAST_LINE.search(self._buffer, self._scan)
        end = found.start() if found is not None else len(self._buffer)
        # Two bytes at most become one of the text, so more are too long whatever follows.
        self._is_long = end - self._start > 2 * BLOCKS[self._block][0]
        if found is None:
            if self._is_long:
                self._drop_long()
            else:
                self._scan = self._buffer.rfind(b"\n") + 1
            return None
        if self._is_long:
            return self._end_long_block(found.end())
        data = bytes(self._buffer[: found.end()])
        del self._buffer[: found.end()]
        word, self._block, self._scan = self._block, None, 0
        return Command(word, data)

    def _drop_long(self) -> None:
        """Drops the bytes of a block that is too long, but for what may begin its last line."""
        last = self._buffer.rfind(b"\n")
        line = bytes(self._buffer[last + 1 :]) if last >= 0 else self._tail + bytes(self._buffer)
        self._tail = line if len(line) <= 2 else b"--"
        self._buffer.clear()
        self._start = self._scan = 0

    def _next_of_long_block(self) -> Optional[bytes]:
        assert self._block is not None
        self._buffer[:0] = self._tail
        self._tail = b""
        found = _LAST_LINE.search(self._buffer)
        if found is None:
            self._drop_long()
            return None
        return self._end_long_block(found.end())

    def _end_long_block(self, end: int) -> bytes:
        assert self._block is not None
        del self._buffer[:end]
        word, self._block, self._scan, self._is_long = self._block, None, 0, False
        return b"no 16 " + BLOCKS[word][1] + b"\n" if self._formed else b"no 2\n"


def _words_of(line: bytes) -> tuple[bytes, bool]:
    """The first word of a line, without one CR at its end, and whether there is another word."""
    text = line[:-1]
    if text.endswith(b"\r"):
        text = text[:-1]
    text = text.strip(_BLANKS)
    for at, byte in enumerate(text[:64]):
        if byte in _BLANKS:
            return text[:at], True
    return (text, False) if len(text) <= 64 else (text[:64], True)
