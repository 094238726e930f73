"""The filter's program as a child process, whose pipes never block this process."""

from __future__ import annotations

import fcntl
import os
import subprocess
from typing import List, Optional, Sequence

from .replies import NotAReply, Reply, ReplyReader

#: A script has at most this many bytes, so a session ends before it has them.
SCRIPT_LIMIT = 268_435_456

#: Bytes that a pipe takes, so that a batch of mail is handed over at once (the most that Linux lets any user have).
PIPE_SIZE = 1 << 20

READ_SIZE = 1 << 18


class ProgramEnded(Exception):
    """The program ended, or wrote what is no reply, before it had replied."""


class Program:
    """One session of the program: bytes go in, replies come out."""

    def __init__(self, words: Sequence[str]):
        self.child = subprocess.Popen(
            list(words), stdin=subprocess.PIPE, stdout=subprocess.PIPE, bufsize=0, start_new_session=True, close_fds=True
        )
        assert self.child.stdin is not None and self.child.stdout is not None
        self.input = self.child.stdin.fileno()
        self.output = self.child.stdout.fileno()
        for fd in (self.input, self.output):
            os.set_blocking(fd, False)
            try:
                fcntl.fcntl(fd, getattr(fcntl, "F_SETPIPE_SZ", 1031), PIPE_SIZE)
            except OSError:
                pass  # a smaller pipe is slower, and nothing else
        self.sent = 0
        self.last_line = ""
        self._reader = ReplyReader()
        self._waiting: List[memoryview] = []

    def send(self, data: bytes) -> None:
        """Hands bytes over: what the pipe doesn't take now goes as it is read."""
        self.sent += len(data)
        self._waiting.append(memoryview(data))
        self.write()

    @property
    def wants_to_write(self) -> bool:
        """Whether bytes wait for the pipe."""
        return bool(self._waiting)

    def write(self) -> None:
        """Writes what the pipe takes. A broken pipe is no error here: the end of the replies tells it."""
        try:
            while self._waiting:
                rest = self._waiting[0][os.write(self.input, self._waiting[0]) :]
                if rest:
                    self._waiting[0] = rest
                else:
                    self._waiting.pop(0)
        except BlockingIOError:
            pass
        except BrokenPipeError:
            self._waiting.clear()

    def read(self) -> Optional[List[Reply]]:
        """The replies that are complete now, or None once the program has closed its output. Raises ProgramEnded for what is no
        reply, as the line `stop 6 ..`."""
        found: List[Reply] = []
        try:
            while True:
                data = os.read(self.output, READ_SIZE)
                if not data:
                    return found or None
                found += self._reader.feed(data)
                if len(data) < READ_SIZE:
                    return found
        except BlockingIOError:
            return found
        except NotAReply as what:
            self.last_line = str(what)
            raise ProgramEnded(self.last_line) from None

    def end_input(self) -> None:
        """Ends the script: the program closes the store and ends with its status."""
        self._waiting.clear()
        if self.child.stdin is not None:
            self.child.stdin.close()

    def kill(self) -> None:
        """Stops the program at once; every row whose reply was written is stored."""
        if self.child.poll() is None:
            self.child.kill()

    def close(self) -> None:
        """Closes the pipes."""
        for pipe in (self.child.stdin, self.child.stdout):
            if pipe is not None:
                try:
                    pipe.close()
                except OSError:
                    pass
