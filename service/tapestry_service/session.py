"""What a session of the program has been told: its moment, its user, and the number of documents."""

from __future__ import annotations

from typing import Callable, Optional

from .clock import Clock
from .replies import Reply
from .work import Exchange, Refused, Work


class Session:
    """Commands to one session of the program. Each method that talks is a piece of work."""

    def __init__(self, clock: Clock):
        self.clock = clock
        self.moment = -1
        self.user: Optional[str] = None
        #: The number of stored documents, which are numbered from 1.
        self.documents = 0
        #: The number of stored notes, if the program has `counts`.
        self.notes = 0
        #: Whether the program has `counts` and `show`.
        self.can_show = False

    def open(self) -> Work[None]:
        """Learns how far the store is: by `counts`, or, if the program hasn't that, by an empty mailbox file."""
        reply = (yield Exchange(b"counts\n"))[0]
        word = reply.words.split()
        if reply.ok and word[0:2] == ["counts", "documents"] and word[5:6] == ["moment"]:
            self.can_show = True
            self.documents, self.notes = int(word[2]), int(word[4])
            self.clock.raise_to(int(word[6]))
            yield from self.now()
            return
        yield from self.now()
        reply = (yield Exchange(b"mbox\n.\n"))[0]
        if not reply.ok:
            raise Refused("mbox", reply)
        self._count(reply)

    def now(self) -> Work[None]:
        """Moves the session to the clock's second."""
        second = self.clock.second()
        while second != self.moment:
            reply = (yield Exchange(b"at %d\n" % second))[0]
            if reply.ok:
                self.moment = second
            elif reply.number == 5 and reply.words.isdigit() and int(reply.words) > second:
                # The store has a later moment than the clock.
                self.clock.raise_to(int(reply.words))
                second = self.clock.second()
            else:
                raise Refused(f"at {second}", reply)

    def speak_as(self, user: str) -> Work[None]:
        """Moves the session to a user. What is said next is said as this one, so nothing is said before the reply."""
        if user != self.user:
            self.user = None
            reply = (yield Exchange(b"as %s\n" % user.encode()))[0]
            if not reply.ok:
                raise Refused(f"as {user}", reply)
            self.user = user

    def command(self, user: str, data: bytes) -> Work[Reply]:
        """Performs one command of a user at the clock's second."""
        yield from self.now()
        yield from self.speak_as(user)
        reply = (yield Exchange(data))[0]
        self._count(reply)
        return reply

    def add(self, data: bytes, meanwhile: Optional[Callable[[], None]] = None) -> Work[Reply]:
        """Performs one `mail` or `mbox`, which need no user. The moment must have been set by `now`."""
        reply = (yield Exchange(data, 1, meanwhile))[0]
        self._count(reply)
        return reply

    def _count(self, reply: Reply) -> None:
        word = reply.words.split()
        if reply.ok and word[:1] == ["doc"]:
            self.documents = int(word[1])
        elif reply.ok and word[:1] == ["docs"]:
            self.documents = int(word[2]) + int(word[1]) - 1
        elif reply.ok and word[:1] == ["note"]:
            self.notes = int(word[1])
