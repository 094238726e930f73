"""Pauses that grow with each failure in a row."""

from __future__ import annotations

import time
from typing import Callable


class Pause:
    """When something that failed may be tried again: after `first` seconds, then twice as long each time, up to `most`."""

    def __init__(self, first: float = 1.0, most: float = 60.0, now: Callable[[], float] = time.monotonic):
        self.first, self.most, self._now = first, most, now
        self.length = 0.0
        self.until = 0.0

    def grow(self) -> float:
        """Begins the next pause, and returns its length."""
        self.length = min(self.most, self.length * 2 or self.first)
        self.until = self._now() + self.length
        return self.length

    def begin(self) -> None:
        """Notes that the next try begins. If it fails, too, the pause grows."""
        self.until = 0.0

    def reset(self) -> None:
        """Ends the pause: something succeeded."""
        self.length = self.until = 0.0

    @property
    def is_over(self) -> bool:
        """Whether the next try may begin."""
        return self._now() >= self.until
