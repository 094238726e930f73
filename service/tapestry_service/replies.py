"""Replies of the filter's program, as they come over a pipe or a socket.

A reply is one line, `ok K WORDS` or `no N WORDS`, and K further lines after an `ok`. The service itself refuses with the
numbers from 40 on, which the program never uses:

    no 40 WORD ..     a client may not say `at` or `as`: the service sets the moment and the user
    no 41 ..          too many connections, or too much that waits; the connection is closed
    no 42 ..          the store can't be used now; nothing was done
    no 43 ..          the program ended within the command, which may have been performed: look first
    no 44 LOGIN ..    the login has no name in the store; the connection is closed
    no 45 ..          the client was silent within a command, or didn't read; the connection is closed
    no 46 USER ..     another shard serves this user; the connection is closed
"""

from __future__ import annotations

import io
import re
from typing import BinaryIO, List, NamedTuple, Optional, Union

OWN_COMMAND = 40
BUSY = 41
WAITING = 42
UNKNOWN_END = 43
NO_NAME = 44
SLOW = 45
OTHER_SHARD = 46

#: Bytes of a first line; the longest that the program writes has some hundred.
FIRST_LINE = 65536

_FIRST = re.compile(rb"(ok|no) (0|[1-9][0-9]{0,9})(?: (.*))?", re.DOTALL)


class NotAReply(Exception):
    """Something else than a reply came; `line` is it. A store that is refused gives `stop 6 ..`."""

    def __init__(self, line: bytes):
        super().__init__(line.decode("utf-8", "replace").rstrip("\n"))
        self.line = line


class Reply(NamedTuple):
    """A reply: `ok 2 box news` has the number 2, the words `box news` and two lines; `no 13 token 4` the number 13 and the words
    `token 4`. The lines have no LF."""

    ok: bool
    number: int
    words: str
    lines: List[bytes]

    @property
    def first(self) -> bytes:
        """The first line, without its LF."""
        line = f"{'ok' if self.ok else 'no'} {self.number}" + (f" {self.words}" if self.words else "")
        return line.encode("utf-8", "surrogateescape")

    @property
    def bytes(self) -> bytes:
        """The reply as the program wrote it."""
        return b"".join(line + b"\n" for line in [self.first, *self.lines])


def first_of(line: bytes) -> Reply:
    """Reads the first line of a reply, without its LF; raises NotAReply if it is none."""
    found = _FIRST.fullmatch(line)
    if found is None:
        raise NotAReply(line)
    words = (found[3] or b"").decode("utf-8", "surrogateescape")
    return Reply(found[1] == b"ok", int(found[2]), words, [])


class ReplyReader:
    """Cuts replies out of bytes that come in pieces of any size."""

    def __init__(self) -> None:
        self._buffer = bytearray()
        self._head: Optional[Reply] = None
        self._ends = 0  # LFs in the buffer's first _seen bytes
        self._seen = 0

    def feed(self, data: Union[bytes, bytearray, memoryview]) -> List[Reply]:
        """Takes the next bytes, and returns the replies that they complete. Raises NotAReply at a line that begins none."""
        self._buffer += data
        found: List[Reply] = []
        while True:
            if self._head is None:
                end = self._buffer.find(b"\n")
                if end < 0:
                    if len(self._buffer) > FIRST_LINE:
                        raise NotAReply(bytes(self._buffer[:80]))
                    return found
                head = first_of(bytes(self._buffer[:end]))
                del self._buffer[: end + 1]
                if not head.ok or head.number == 0:
                    found.append(head)
                    continue
                self._head, self._ends, self._seen = head, 0, 0
            head = self._head
            self._ends += self._buffer.count(b"\n", self._seen)
            self._seen = len(self._buffer)
            if self._ends < head.number:
                return found
            lines = bytes(self._buffer).split(b"\n", head.number)
            self._buffer = bytearray(lines.pop())
            self._head = None
            found.append(head._replace(lines=lines))

    @property
    def is_between(self) -> bool:
        """Whether no reply has begun that isn't complete."""
        return self._head is None and not self._buffer


def read_reply(file: Union[BinaryIO, io.BufferedIOBase]) -> Optional[Reply]:
    """Reads one reply from a file, as `socket.makefile("rb")` gives one. Returns None at the end of the file; raises NotAReply for
    a line that begins no reply, and EOFError if the file ends within a reply."""
    line = file.readline()
    if not line:
        return None
    if not line.endswith(b"\n"):
        raise EOFError("the connection ended within a reply")
    head = first_of(line[:-1])
    lines = []
    for _ in range(head.number if head.ok else 0):
        line = file.readline()
        if not line.endswith(b"\n"):
            raise EOFError("the connection ended within a reply")
        lines.append(line[:-1])
    return head._replace(lines=lines)
