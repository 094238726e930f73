"""The moment of a command: the clock's second, which never falls."""

from __future__ import annotations

import time
from typing import Callable

from .log import WARNING, say

#: The greatest moment that the program accepts.
LAST_MOMENT = 250_000_000_000


class Clock:
    """Seconds since 1970 that never fall. If the system's clock falls, the moment stays as it is until the clock has passed it."""

    def __init__(self, now: Callable[[], float] = time.time):
        self._now = now
        self._least = 0
        self._is_behind = False

    def raise_to(self, moment: int) -> None:
        """Makes this the least moment: the store has rows of it."""
        self._least = max(self._least, moment)

    def second(self) -> int:
        """The moment of the next command."""
        clock = int(self._now())
        if clock < self._least:
            if not self._is_behind and clock < self._least - 1:
                say(
                    f"the clock is at {clock}, {self._least - clock} seconds behind the last moment {self._least}: what comes"
                    " until the clock has passed it gets that moment; set the clock if it is wrong",
                    WARNING,
                )
                self._is_behind = True
            return self._least
        self._is_behind = False
        self._least = min(clock, LAST_MOMENT)
        return self._least

    def seconds_until(self, moment: int) -> float:
        """How long it takes the clock to get to a moment; 0 if it is there."""
        return max(0.0, moment - self._now())
