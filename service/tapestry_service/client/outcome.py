"""What a command of `tap` gives: an object for programs, lines for people, and a status."""

from dataclasses import dataclass, field
from typing import Any

from .refusals import Asked, refusal_of, words_of
from ..replies import Reply

OK, REFUSED, FAULTY, NO_DAEMON, NOT_WRITTEN, INTERRUPTED = 0, 1, 2, 3, 4, 130


class Faulty(Exception):
    """The words of the command line can't be used; nothing was sent."""


class Refused(Exception):
    """The daemon refused the command."""

    def __init__(self, reply: Reply, asked: Asked) -> None:
        super().__init__(reply.first.decode("utf-8", "replace"))
        self.reply = reply
        self.asked = asked

    def shape(self) -> dict[str, Any]:
        """Returns the refusal as an object for programs."""
        refusal = refusal_of(self.reply)
        return {
            "ok": False,
            "command": self.asked.command,
            "reply": str(self),
            "no": refusal.number,
            "reason": refusal.reason,
            "line": refusal.line,
            "place": refusal.place,
            "words": words_of(refusal, self.asked, self.reply),
        }


@dataclass
class Outcome:
    """What an accepted command gives.

    `shape` is the object for programs; `lines` are for people; `raw` is written as it is in place of the lines, where the command
    gives bytes; `remarks` go to the standard error.
    """

    shape: dict[str, Any]
    lines: list[str] = field(default_factory=list)
    raw: bytes | None = None
    remarks: list[str] = field(default_factory=list)
    status: int = OK


def need(reply: Reply, asked: Asked) -> Reply:
    """Returns the reply if the command was accepted; else raises Refused."""
    if not reply.ok:
        raise Refused(reply, asked)
    return reply


def shape_of(asked: Asked, **members: Any) -> dict[str, Any]:
    """Returns the object of an accepted command: `ok`, `command` and these members."""
    return {"ok": True, "command": asked.command, **members}
