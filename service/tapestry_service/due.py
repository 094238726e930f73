"""Runs queries when they are due, and delivers what they gave.

After each change `wake` is asked for each query of RULES. One whose moment has come runs; the least moment of the others is when
to ask again. Nothing is asked in between.
"""

from __future__ import annotations

import time
from typing import Dict, List, Optional, Union

from .delivery import DigestDelivery, MaildirDelivery
from .log import ERROR, advice, say
from .marks import Marks
from .pauses import Pause
from .replies import Reply
from .rules import Digest, Maildir, QueryName, Rules
from .session import Session
from .work import Refused, Work

NO_QUERY = 10
NO_RUN = 19

#: A pass waits this many times as long as the last one took, and at most so many seconds, so that others get their turns.
REST, LONGEST_REST = 4.0, 1.0


class Due:
    """The due queries and their deliveries."""

    def __init__(self, rules: Rules, digest_marks: str):
        #: Whether something changed since the last pass began.
        self.is_dirty = True
        #: The earliest moment at which a query is due, as far as is known.
        self.next: Optional[int] = None
        self.pause = Pause(1.0, 60.0)
        self.runs = 0
        self._digest_marks = Marks(digest_marks)
        self._maildir_marks: Dict[str, Marks] = {}
        self._deliveries: Dict[Union[Maildir, Digest], Union[MaildirDelivery, DigestDelivery]] = {}
        self._leaving: List[DigestDelivery] = []
        self._said: Dict[QueryName, bytes] = {}
        self._rest_until = 0.0
        self.rules = rules
        self.set_rules(rules)

    def set_rules(self, rules: Rules) -> None:
        """Takes other rules. What stays the same goes on."""
        old, self._deliveries = self._deliveries, {}
        for rule in rules.maildirs:
            marks = self._maildir_marks.setdefault(rule.path, Marks(f"{rule.path}/.delivered"))
            self._deliveries[rule] = old.pop(rule) if rule in old else MaildirDelivery(rule, marks)
        for digest in rules.digests:
            self._deliveries[digest] = old.pop(digest) if digest in old else DigestDelivery(digest, self._digest_marks)
        self._leaving += [it for it in old.values() if isinstance(it, DigestDelivery) and it.is_running]
        self.rules = rules
        self.is_dirty = True

    def changed(self) -> None:
        """Rows were added."""
        self.is_dirty = True

    def is_ready(self, moment: int) -> bool:
        """Whether a pass has something to do, at this moment of the clock."""
        now = time.monotonic()
        if now < self._rest_until or not self.pause.is_over:
            return False
        return self.is_dirty or (self.next is not None and self.next <= moment) or self._has_retry(now)

    def _has_retry(self, now: float) -> bool:
        return any(0 < it.pause.until <= now for it in self._deliveries.values())

    def seconds_until_ready(self, until_next: Optional[float]) -> Optional[float]:
        """How long nothing is to be done here; `until_next` is how long it takes the clock to get to `next`."""
        now = time.monotonic()
        waits = [it.pause.until - now for it in self._deliveries.values() if it.pause.until > 0]
        if self.is_dirty:
            waits.append(0.0)
        if until_next is not None:
            waits.append(until_next)
        if not waits:
            return None
        return max(0.0, min(waits), self._rest_until - now, self.pause.until - now)

    # A pass

    def run(self, session: Session) -> Work[None]:
        """Asks each query, runs those that are due, and delivers."""
        began = time.monotonic()
        self.is_dirty = False
        earliest: Optional[int] = None
        for of in self.rules.queries:
            try:
                moment = yield from self._serve(session, of)
            except Refused as why:
                self.is_dirty = True
                say(f"{of}: {why}; trying again in {self.pause.grow():.0f} seconds", ERROR)
                return
            if moment is not None and (earliest is None or moment < earliest):
                earliest = moment
        self.next = earliest
        self.pause.reset()
        ended = time.monotonic()
        self._rest_until = ended + min(LONGEST_REST, REST * (ended - began))

    def _serve(self, session: Session, of: QueryName) -> Work[Optional[int]]:
        """Runs a query if it is due, delivers its documents, and returns when it is due next."""
        moment = yield from self._run_if_due(session, of)
        deliveries = [it for it in self._deliveries.values() if it.of == of]
        if deliveries:
            runs = yield from self._runs(session, of)
            for delivery in deliveries:
                yield from self._deliver(delivery, session, runs)
        return moment

    def _wake(self, session: Session, of: QueryName) -> Work[Optional[int]]:
        reply: Reply = yield from session.command(of.user, b"wake %s\n" % of.query.encode())
        if not reply.ok:
            self._refused(of, reply, "wake")
            return None
        word = reply.words.split()[-1]
        return int(word) if word.isdigit() else None

    def _run_if_due(self, session: Session, of: QueryName) -> Work[Optional[int]]:
        moment = yield from self._wake(session, of)
        if moment is None or moment > session.moment:
            return moment
        reply: Reply = yield from session.command(of.user, b"run %s\n" % of.query.encode())
        if not reply.ok:
            self._refused(of, reply, "run")
            return None
        self._said.pop(of, None)
        self.runs += 1
        moment = yield from self._wake(session, of)
        return None if moment is None else max(moment, session.moment + 1)

    def _refused(self, of: QueryName, reply: Reply, command: str) -> None:
        """A query that isn't there yet is none of our business; out of memory is tried again; the rest is said once."""
        if reply.number == 18:
            raise Refused(command, reply)
        if reply.number != NO_QUERY and self._said.get(of) != reply.first:
            self._said[of] = reply.first
            say(f"{of} can't run: `{reply.first.decode('utf-8', 'replace')}`; begin another store if this one is full", ERROR)

    def _runs(self, session: Session, of: QueryName) -> Work[Optional[int]]:
        """The number of a query's runs, or None if there is no such query."""
        reply: Reply = yield from session.command(of.user, b"digest %s 0\n" % of.query.encode())
        if reply.number == NO_RUN and not reply.ok:
            return int(reply.words)
        if reply.number == NO_QUERY and not reply.ok:
            return None
        raise Refused(f"digest {of.query} 0", reply)

    def _deliver(self, delivery: Union[MaildirDelivery, DigestDelivery], session: Session, runs: Optional[int]) -> Work[None]:
        if not delivery.pause.is_over:
            return
        if isinstance(delivery, DigestDelivery) and any(it.of == delivery.of for it in self._leaving):
            # A command of the old rules still has a digest: its end begins another pass.
            return
        delivery.pause.begin()
        try:
            if isinstance(delivery, DigestDelivery):
                yield from delivery.deliver(session, runs)
            elif runs is not None:
                yield from delivery.deliver(session, runs)
                delivery.pause.reset()
        except OSError as error:
            delivery.marks.forget()
            if isinstance(delivery, MaildirDelivery):
                why = advice(error, delivery.path)
            elif error.filename == delivery.rule.command[0]:
                why = f"{error.filename} can't be started ({error.strerror})"
            else:
                why = advice(error, delivery.marks.path)
            say(f"{delivery.of} isn't delivered: {why}; trying again in {delivery.pause.grow():.0f} seconds", ERROR)

    # Commands

    def look_at_commands(self) -> None:
        """Notes which commands have ended."""
        running = [it for it in self._deliveries.values() if isinstance(it, DigestDelivery)]
        for delivery in running + self._leaving:
            try:
                if delivery.look():
                    self.is_dirty = True
            except OSError as error:
                why = advice(error, self._digest_marks.path)
                delivery.failed(f"the mark of a digest of {delivery.of} wasn't written, so it comes again: {why}")
        self._leaving = [it for it in self._leaving if it.is_running]

    @property
    def running(self) -> "List[DigestDelivery]":
        """The deliveries whose command has a digest now."""
        found = [it for it in self._deliveries.values() if isinstance(it, DigestDelivery)] + self._leaving
        return [it for it in found if it.is_running]
