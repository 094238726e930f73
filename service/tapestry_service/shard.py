"""A store that follows the shared log. For the loop it takes the place of the spool.

How far the store is, the store says: each row of the log is one of its documents or notes, so their number is a place in the log.
After each start of the program, and after each fault, the log's row at this place is compared with the store's last document or note,
before a row is applied. Each further reading begins with the row that the one before ended with. So a log that was lost, cut or
filled anew, or that is another store's, is noticed, and nothing of it is applied.

Rows are applied in order, each at its own second, and the reply has to be the one that the log's numbers give. No row is passed over.
If the program refuses one, this shard stays behind: out of memory is tried again, and the users of a store that its own queries and
filters have filled go on with what it has.

All other commands have the second that the log told with the last reading, once its rows are applied. No row that comes later has an
earlier one, and nobody has to ask the log, which may be down.
"""

from __future__ import annotations

import time
from collections import deque
from itertools import islice
from typing import Any, Callable, Deque, List, NamedTuple, Optional

from .calls import Calls
from .clock import Clock
from .commands import Command
from .feeder import PATIENCE, Feeder, Putter
from .log import ERROR, NOTICE, WARNING, say
from .messages import Text, sum_of_lines
from .pauses import Pause
from .replies import UNKNOWN_END, WAITING, Reply
from .rows import BATCH_ROWS, NotPut, batch_of, message_items, note_items, note_of, reply_of
from .rules import is_name
from .session import Session
from .shared_log import DOC, NOTE, Item, LogFails, Put, Reading, Row, SharedLog
from .work import Exchange, Refused, Work

#: Rows that may wait here.
AHEAD = 1500

NO_DOCUMENT, LIMIT, OUT_OF_MEMORY = 11, 16, 18

_WHAT_TO_DO = "put the log of this store in its place, by its appendonly file, a replica or a backup; or begin with other stores"

_UNREAD = "the log wasn't read yet"

Answer = Callable[[bytes], None]


class WrongLog(Exception):
    """The log isn't the one that the store has followed, or isn't whole."""


class NotTaken(Refused):
    """The program refused a row of the log."""

    def __init__(self, row: Row, reply: Reply):
        super().__init__(f"row {row.place} of the log", reply)
        if reply.number == LIMIT:
            self.args = (f"{self}: this store is full, its users go on with what it has; other shards may have room for their queries",)
        elif reply.number != OUT_OF_MEMORY:
            self.args = (f"{self}: the log and the program don't agree; do all shards have the same version?",)


class LogClock(Clock):
    """The second that the log told last."""

    def __init__(self) -> None:
        super().__init__(lambda: 0.0)

    def second(self) -> int:
        """The moment of the next command."""
        return self._least

    def seconds_until(self, moment: int) -> float:
        """0 if it is there; else long, since the log will tell."""
        return 0.0 if moment <= self._least else 3600.0


class Waiter(NamedTuple):
    """Who waits for a row, since when, and with which reply."""

    place: int
    since: float
    reply: bytes
    answer: Answer


def new_rows(place: int, last: Optional[Row], reading: Reading) -> List[Row]:
    """The rows after a place, of a reading that begins there. Raises WrongLog unless they follow `last`, as far as that is known,
    without a gap, and at seconds that don't fall."""
    rows = reading.rows
    if reading.total < place:
        raise WrongLog(f"it has {reading.total} rows, and this store {place}: it was lost or cut, or is another store's")
    if place > 0:
        if not rows or rows[0].place != place:
            raise WrongLog(f"row {place}, the last one that this store has, isn't there any more: it was cut")
        if last is not None and rows[0] != last:
            raise WrongLog(f"row {place} isn't what it was: it was filled anew")
        last, rows = rows[0], rows[1:]
    if not rows and reading.total > place:
        raise WrongLog(f"row {place + 1} isn't there any more: it was cut")
    for at, row in enumerate(rows, place + 1):
        if row.place != at:
            raise WrongLog(f"row {at} isn't there any more: it was cut")
        is_formed = row.kind == DOC or (row.kind == NOTE and b"\n" not in row.text and is_name(row.user.decode("latin-1")))
        if not is_formed or (last is not None and row.at < last.at):
            raise WrongLog(f"row {at} isn't of this service, or is older than the one before: something else writes it")
        last = row
    return rows


class Shard:
    """The rows on their way from the log to the store, and the commands on their way to the log."""

    FAILS = "the log can't be applied"

    def __init__(self, log: SharedLog, put: Putter, feeder: Feeder, calls: Calls):
        self.clock = LogClock()
        self.calls = calls
        self.feeder = feeder
        self._log, self._put, self._line = log, put, calls.line()
        self._place: Optional[int] = None  # how many rows the store has; None before it was opened
        self._rows: Deque[Row] = deque()  # those after it that were read
        self._last: Optional[Row] = None  # the one that the last reading ended with
        self._anchor: Optional[Row] = None  # the store's last row as the log has it, until they have been compared
        self._is_confirmed = False
        self._is_asked = False
        self._total = self._second = 0  # of the last reading
        self._rest = 0.0
        self._identity = ""
        self._trouble: Optional[str] = None  # why the log isn't read
        self._refused: Optional[str] = None  # the row that the program refuses
        self._pause = Pause(0.1, 30.0)
        self._waiters: List[Waiter] = []
        self._has_looked = self._has_told = False

    @property
    def is_behind(self) -> bool:
        """Whether the store hasn't all that the log had when this began. If the log can't be read, it isn't waited for."""
        return not self._has_told and self.why_not in (None, _UNREAD)

    @property
    def why_not(self) -> Optional[str]:
        """Why nothing can be put into the log now, or None."""
        if self._trouble is not None or self._refused is not None:
            return self._trouble or self._refused
        return None if self._is_confirmed else _UNREAD

    # The log

    def tick(self) -> None:
        """What is to be done at its time."""
        self._ask()
        if self.why_not is None:
            self.feeder.go_on()
        elif self._waiters:
            late = time.monotonic() - PATIENCE
            self._answer([it for it in self._waiters if it.since < late], self._unknown())

    def seconds_until_tick(self) -> float:
        """How long `tick` has nothing to do."""
        until = [it for it in (self._pause.until, self.feeder.pause.until) if it > 0]
        wait = min(until) - time.monotonic() if until else 30.0
        return max(0.0, min(wait, 1.0 if self._waiters else 30.0))

    def _ask(self) -> None:
        """Asks for the next rows; if there were none, for those of the next second."""
        if self._is_asked or self._place is None or not self._pause.is_over or len(self._rows) >= AHEAD:
            return
        self._is_asked = True
        place, rest = self._place + len(self._rows), self._rest

        def read() -> Reading:
            if rest > 0:
                self._log.wait(place, rest)
            elif not self._has_looked:
                self._look_at_server()
            return self._log.read(place)

        self._line(read, lambda reading: self._have_read(place, reading))

    def _look_at_server(self) -> None:
        self._has_looked = True
        unsafe = self._log.unsafe()
        if unsafe is not None:
            say(f"the log at {self._log.where} can lose rows that were answered: set {unsafe} in redis.conf", WARNING)

    def _have_read(self, place: int, reading: Any) -> None:
        self._is_asked = False
        assert self._place is not None
        if place != self._place + len(self._rows):
            return  # the store was opened again meanwhile
        try:
            if isinstance(reading, LogFails):
                self._stop(f"it can't be asked: {reading}")
                return
            rows = new_rows(place, self._last, reading)
        except WrongLog as why:
            self._stop(f"{why}. {_WHAT_TO_DO}")
            return
        if self._last is None and place > 0:
            self._anchor = reading.rows[0]
        self._is_confirmed = self._is_confirmed or place == 0
        self._rows.extend(rows)
        self._last = reading.rows[-1] if reading.rows else None
        self._total, self._second, self._identity = reading.total, reading.second, reading.identity
        self._rest = reading.rest if reading.total == place + len(rows) else 0.0
        if self._is_confirmed:
            self._go_on()
        self._tell()

    def _stop(self, why: str) -> None:
        """Says, once, why the log isn't applied; it is tried again after a pause."""
        self._rest = 0.0
        pause = self._pause.grow()
        if why != self._trouble:
            self._trouble = why
            say(f"the log at {self._log.where} isn't applied: {why}; trying again in {pause:.1f} seconds", ERROR)

    def _go_on(self) -> None:
        if self._trouble is not None:
            say(f"the log at {self._log.where} is applied again, from row {self._place} on", NOTICE)
        self._trouble = None
        self._pause.reset()

    def _tell(self) -> None:
        """If the store has all rows of the last reading, its second is the moment."""
        assert self._place is not None
        if self._is_confirmed and self._place >= self._total:
            self.clock.raise_to(self._second)
            self._has_told = True
        self._answer([it for it in self._waiters if it.place <= self._place])

    # In the place of the spool

    def settle(self, session: Session) -> Work[None]:
        """Begins with what the store has. Raises Refused if the program is too old."""
        if not session.can_show:
            raise Refused("show", Reply(False, 1, "", []))
        self.forget()
        self._place = session.documents + session.notes
        self._ask()
        return
        yield

    def forget(self) -> None:
        """Begins anew: the store may have more rows by now, or other ones."""
        self._rows.clear()
        self._last = self._anchor = None
        self._is_confirmed = False
        self._rest = 0.0

    @property
    def has_work(self) -> bool:
        """Whether rows are to be compared or applied."""
        return self._anchor is not None or bool(self._rows)

    def load(self, session: Session) -> Work[int]:
        """Applies the next rows, and returns how many. Raises Refused if the program refuses them."""
        count = 0
        try:
            if self._anchor is not None:
                yield from self._confirm(session, self._anchor)
            if self._rows:
                count = yield from self._apply(session)
        except WrongLog as why:
            self.forget()
            self._stop(f"{why}. {_WHAT_TO_DO}")
            return 0
        self._tell()
        return count

    def _confirm(self, session: Session, row: Row) -> Work[None]:
        """Compares the store's last row with the log's."""
        wrong = WrongLog(f"row {row.place} isn't the last one that this store has: it is another store's, or was filled anew")
        if row.number != (session.documents if row.kind == DOC else session.notes):
            raise wrong
        note = None if row.kind == DOC else note_of(row.text)
        command = f"show {row.number}" if note is None else f"notes {note.doc}"
        reply = (yield Exchange(command.encode() + b"\n"))[0]
        if not reply.ok and reply.number == OUT_OF_MEMORY:
            raise Refused(command, reply)
        if note is None:
            is_same = reply.words.endswith(f" at {row.at}") and sum_of_lines(reply.lines) == Text(row.text).sum
        else:
            is_same = note.shown(row) in reply.lines
        if not reply.ok or not is_same:
            raise wrong
        self._anchor, self._is_confirmed = None, True
        self._go_on()

    def _apply(self, session: Session) -> Work[int]:
        rows, command, wanted = batch_of(list(islice(self._rows, BATCH_ROWS)))
        first = rows[0]
        self.clock.raise_to(first.at)
        yield from session.now()
        if session.moment != first.at:
            raise WrongLog(f"row {first.place} is of second {first.at}, and the store is at {session.moment}: it is another store's")
        if first.kind != DOC:
            yield from session.speak_as(first.user.decode())
        reply = yield from session.add(command, self._ask)
        if reply.first != wanted:
            if reply.ok:
                raise WrongLog(f"row {first.place} got `{reply.first.decode()}`: something else writes the store")
            refused = NotTaken(first, reply)
            self._refused = str(refused)
            raise refused
        self._refused = None
        assert self._place is not None
        self._place += len(rows)
        for _ in rows:
            self._rows.popleft()
        return len(rows)

    # Commands of users

    def take(self, session: Session, user: str, command: Command, answer: Answer) -> Work[None]:
        """Puts a user's mail or note into the log. It is answered once this store has it."""
        why = self.why_not
        if why is not None:
            answer(b"no %d the log can't be used: %s; nothing was done\n" % (WAITING, why.encode("utf-8", "replace")))
            return
        try:
            items = yield from self._items_of(session, user, command)
        except NotPut as refused:
            answer(refused.line)
            return
        if items:
            self._put(self._identity, items, lambda put: self._have_put(command.word, put, answer))
        else:
            # A mailbox file without a message adds none.
            reply = yield from session.command(user, b"mbox\n.\n")
            answer(reply.bytes)

    def _items_of(self, session: Session, user: str, command: Command) -> Work[List[Item]]:
        if command.word != b"note":
            return message_items(command.word, command.data)
        note = note_of(command.data)
        reply = yield from session.command(user, note.probe)
        if reply.ok or reply.number != NO_DOCUMENT:
            raise NotPut(reply.bytes)
        return note_items(user, note, session.documents)

    def _have_put(self, word: bytes, put: Any, answer: Answer) -> None:
        if isinstance(put, LogFails):
            answer(self._unknown())
        elif put.refused == "other":
            answer(b"no %d the log isn't the one of this store; nothing was done\n" % WAITING)
        elif put.refused == "cut":
            answer(b"no %d the log lacks rows; nothing was done\n" % WAITING)
        elif put.refused:
            answer(reply_of(word, put))
        else:
            self._waiters.append(Waiter(put.rows[-1][0], time.monotonic(), reply_of(word, put), answer))
            self._answer([it for it in self._waiters if it.place <= (self._place or 0)])

    def _answer(self, waiters: List[Waiter], line: Optional[bytes] = None) -> None:
        if waiters:
            self._waiters = [it for it in self._waiters if it not in waiters]
            for it in waiters:
                it.answer(line or it.reply)

    def _unknown(self) -> bytes:
        return b"no %d the log couldn't be asked within %d seconds: look whether this was performed\n" % (UNKNOWN_END, PATIENCE)
