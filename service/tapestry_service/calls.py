"""Calls that wait for a server, in threads, so that the loop never waits for one. What a call gave is taken in the loop's thread."""

from __future__ import annotations

import os
import queue
import threading
import traceback
from collections import deque
from typing import Any, Callable, Deque, Tuple

from .shared_log import LogFails

Done = Callable[[Any], None]


class Calls:
    """The calls that have ended. `fd` is readable once there are some, or once a byte was written to `write`."""

    def __init__(self) -> None:
        self.fd, self.write = os.pipe2(os.O_NONBLOCK | os.O_CLOEXEC)
        self._ended: Deque[Tuple[Done, Any]] = deque()

    def line(self) -> Callable[[Callable[[], Any], Done], None]:
        """A thread for calls, one after the other. `line(function, done)` calls the function there; `done` gets what it returned,
        or the LogFails that it raised, from `deliver`."""
        waiting: "queue.SimpleQueue[Tuple[Callable[[], Any], Done]]" = queue.SimpleQueue()
        threading.Thread(target=self._work, args=(waiting,), daemon=True).start()
        return lambda function, done: waiting.put((function, done))

    def _work(self, waiting: "queue.SimpleQueue[Tuple[Callable[[], Any], Done]]") -> None:
        while True:
            function, done = waiting.get()
            try:
                found = function()
            except LogFails as why:
                found = why
            except Exception:
                found = LogFails(f"a fault of this service: {traceback.format_exc()}")
            self._ended.append((done, found))
            try:
                os.write(self.write, b"x")
            except BlockingIOError:
                pass

    def deliver(self) -> None:
        """Hands over what has ended."""
        try:
            while os.read(self.fd, 4096):
                pass
        except BlockingIOError:
            pass
        while self._ended:
            done, found = self._ended.popleft()
            done(found)
