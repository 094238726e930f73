"""Pieces of work that wait for the program without holding anybody up.

A piece of work is a generator. It yields an `Exchange`, and gets the replies to it; or it yields None where other work may go on
in between. One piece at a time talks to the program, from one None to the next.
"""

from __future__ import annotations

from typing import Callable, Generator, List, NamedTuple, Optional, TypeVar

from .replies import Reply

T = TypeVar("T")


class Exchange(NamedTuple):
    """Bytes for the program, and how many replies it gives to them. `meanwhile` is called while the program works."""

    data: bytes
    replies: int = 1
    meanwhile: Optional[Callable[[], None]] = None


Work = Generator[Optional[Exchange], List[Reply], T]


class Refused(Exception):
    """The program refused a command of the service's own; `reply` says why."""

    def __init__(self, command: str, reply: Reply):
        super().__init__(f"`{command}` got `{reply.first.decode('utf-8', 'replace')}`")
        self.reply = reply
