"""One connection to the daemon: commands go out and replies come in at the same time, so that many take one round trip."""

import os
import selectors
import socket
from collections import deque
from typing import Iterable, Iterator

from ..replies import BUSY, NO_NAME, SLOW, Reply, ReplyReader

_PIECE = 1 << 16
_AHEAD = 1 << 18


_LAST = (BUSY, NO_NAME, SLOW)


class NoDaemon(Exception):
    """There is no daemon at the socket, or it ended the connection before all replies had come."""


class Dismissed(Exception):
    """The daemon refused the connection by this reply, and closed it."""

    def __init__(self, reply: Reply) -> None:
        super().__init__(reply.first.decode("utf-8", "replace"))
        self.reply = reply


class Connection:
    """A session with the daemon. It is closed as the end of a `with` statement."""

    def __init__(self, path: str) -> None:
        """Connects to the daemon at this path. Raises NoDaemon if none accepts there."""
        self._socket = socket.socket(socket.AF_UNIX, socket.SOCK_STREAM)
        try:
            self._socket.connect(path)
        except (OSError, ValueError) as error:
            self._socket.close()
            why = os.strerror(error.errno) if isinstance(error, OSError) and error.errno else str(error)
            raise NoDaemon(f"no daemon answers at {path}: {why}") from error
        self._socket.setblocking(False)
        self._reader = ReplyReader()
        self._replies: deque[Reply] = deque()

    def __enter__(self) -> "Connection":
        return self

    def __exit__(self, *_: object) -> None:
        self._socket.close()

    def one(self, command: bytes) -> Reply:
        """Sends one command and returns its reply."""
        return next(iter(self.many([command])))

    def many(self, commands: Iterable[bytes]) -> Iterator[Reply]:
        """Sends the commands, each with its LF, and yields one reply for each, in order, as they come.

        Raises Dismissed at a reply after which the daemon closes the connection, NoDaemon if the connection ends before the last
        reply, and NotAReply if something else than a reply comes.
        """
        source = iter(commands)
        out = bytearray()
        waiting = 0
        more = True
        with selectors.DefaultSelector() as selector:
            selector.register(self._socket, selectors.EVENT_READ)
            while True:
                while more and len(out) < _AHEAD:
                    command = next(source, None)
                    more = command is not None
                    if command is not None:
                        out += command
                        waiting += 1
                while waiting and self._replies:
                    waiting -= 1
                    reply = self._replies.popleft()
                    if not reply.ok and reply.number in _LAST:
                        raise Dismissed(reply)
                    yield reply
                if not waiting and not more:
                    return
                if not out and not waiting:
                    continue
                events = selectors.EVENT_READ | (selectors.EVENT_WRITE if out else 0)
                selector.modify(self._socket, events)
                for _, ready in selector.select():
                    self._move(ready, out)

    def _move(self, ready: int, out: bytearray) -> None:
        """Sends and receives what is possible."""
        try:
            if ready & selectors.EVENT_READ:
                piece = self._socket.recv(_PIECE)
                if not piece:
                    raise NoDaemon("the daemon ended the connection")
                self._replies.extend(self._reader.feed(piece))
                return
        except (BlockingIOError, InterruptedError):
            pass
        except OSError as error:
            raise NoDaemon(f"the daemon ended the connection: {error.strerror}") from error
        try:
            with memoryview(out) as view, view[:_PIECE] as piece_out:
                sent = self._socket.send(piece_out)
            del out[:sent]
        except (BlockingIOError, InterruptedError):
            pass
        except OSError:
            # What the daemon said before it closed can still be read.
            out.clear()
