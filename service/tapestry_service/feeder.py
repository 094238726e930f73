"""A spool whose messages go into the shared log, each once and in order of their names.

A file's name and bytes are the name of its row, so the log takes it once, whatever is stopped in between. A file is removed once the
log has its row on disk. DIR/log has the identity of the log that this spool is put into: another log gets nothing of it, since mail
that came into a log by mistake would be gone from here.
"""

from __future__ import annotations

import hashlib
import os
import selectors
import signal
import time
from typing import Any, Callable, Dict, List, Optional, Tuple

from .calls import Calls
from .files import hold, read_or_none, replace_synced
from .log import ERROR, INFO, advice, say
from .notify import Notify
from .pauses import Pause
from .shared_log import Item, LogFails, Put, SharedLog, message_item
from .spool import LOOK_AGAIN, LOOK_UNWATCHED, Batch, File, Spool
from .watch import Watch

#: Seconds for which a put is tried again by itself while the log can't be asked.
PATIENCE = 60.0

#: What puts items: the log's identity, or an empty text; the items; and what gets the Put, or the LogFails.
Putter = Callable[[str, List[Item], Callable[[Any], None]], None]

_FULL = "the log is full: begin another log with other stores (GUIDE, More than one machine); the messages stay where they are"
_CUT = "it lacks rows: put the whole one in its place, by its appendonly file, a replica or a backup"
_OTHER = "it isn't the log that this spool was put into before; if it is to be from now on, remove {path}"


class Feeder(Spool):
    """The folders DIR/new, DIR/tmp and DIR/refused, and the file DIR/log. `put` puts items into the log."""

    def __init__(self, path: str, decode: Optional[Callable[[bytes], bytes]], put: Putter, where: str):
        super().__init__(path, decode)
        self.pause = Pause(1.0, 60.0)
        self._put_items, self._where = put, where
        self._path = os.fsdecode(os.path.join(self.path, b"log"))
        self._keys: Dict[bytes, bytes] = {}
        self._is_under_way = False

    def go_on(self) -> None:
        """Puts the next batch, unless one is under way or a pause is."""
        if self._is_under_way or not self.has_work or not self.pause.is_over:
            return
        try:
            batch = self._take_batch()
            if batch is not None:
                self._put_batch(batch)
        except OSError as why:
            self._failed(advice(why, os.fsdecode(self.path)))

    def _bytes_of(self, name: bytes) -> Tuple[File, Optional[bytes]]:
        file, raw = super()._bytes_of(name)
        if raw is not None:
            self._keys[name] = hashlib.sha256(name + b"/" + raw).digest()[:16]
        return file, raw

    def _put_batch(self, batch: Batch) -> None:
        items = [message_item(self._keys[it.file.name], it.text.text) for it in batch.messages]
        self._is_under_way = True
        wanted = (read_or_none(self._path) or b"").decode("ascii", "replace").strip()
        self._put_items(wanted, items, lambda put: self._have_put(batch, put))
        self._read_ahead()

    def _have_put(self, batch: Batch, put: Any) -> None:
        self._is_under_way = False
        try:
            if isinstance(put, LogFails):
                self._failed(str(put))
            elif put.refused:
                self._failed({"other": _OTHER.format(path=self._path), "cut": _CUT}.get(put.refused, _FULL))
            else:
                self._take_away(batch, put)
        except OSError as why:
            self._failed(advice(why, os.fsdecode(self.path)))

    def _take_away(self, batch: Batch, put: Put) -> None:
        if not os.path.exists(self._path):
            replace_synced(self._path, put.identity.encode() + b"\n")
        self._remove(it.file for it in batch.messages)
        for it in batch.messages:
            self._keys.pop(it.file.name, None)
        self.stored += len(batch.messages)
        self.pause.reset()

    def _failed(self, why: str) -> None:
        self.forget()
        self._keys.clear()
        say(f"the spool isn't put into the log at {self._where}: {why}; trying again in {self.pause.grow():.0f} seconds", ERROR)


def putter(log: SharedLog, calls: Calls) -> Putter:
    """Puts items by a thread of its own, which waits for a log that can't be asked."""
    line = calls.line()

    def patiently(wanted: str, items: List[Item]) -> Put:
        pause, until = Pause(0.05, 2.0), time.monotonic() + PATIENCE
        while True:
            try:
                return log.put(wanted, items)
            except LogFails:
                if time.monotonic() > until:
                    raise
                time.sleep(pause.grow())

    return lambda wanted, items, done: line(lambda: patiently(wanted, items), done)


class Feeding:
    """The process that only feeds a log from a spool."""

    def __init__(self, log: SharedLog, spool: str, decode: Optional[Callable[[bytes], bytes]]):
        self.calls = Calls()
        self.feeder = Feeder(spool, decode, putter(log, self.calls), log.where)
        self._lock = hold(os.path.join(spool, "lock"))
        self.watch = Watch(os.fsdecode(self.feeder.new))
        self.notify = Notify()
        self._signal = 0

    def run(self) -> int:
        """Feeds until SIGTERM or SIGINT. What is under way then is put once more by the next process, and taken once by the log."""
        signal.set_wakeup_fd(self.calls.write, warn_on_full_buffer=False)
        for number in (signal.SIGTERM, signal.SIGINT):
            signal.signal(number, self._on_stop)
        selector = selectors.DefaultSelector()
        selector.register(self.calls.fd, selectors.EVENT_READ, self.calls.deliver)
        if self.watch.fd is not None:
            selector.register(self.watch.fd, selectors.EVENT_READ, self._news)
        say(f"ready: puts {os.fsdecode(self.feeder.new)} into the log", INFO)
        self.notify.ready()
        looked = time.monotonic()
        while not self._signal:
            for key, _ in selector.select(self._seconds()):
                key.data()
            self.notify.alive()
            if time.monotonic() - looked >= (LOOK_AGAIN if self.watch.fd is not None else LOOK_UNWATCHED):
                looked = time.monotonic()
                self.watch.clear()
                self.feeder.look_again()
            self.feeder.go_on()
            self.notify.status(f"{self.feeder.stored} messages put")
        self.notify.stopping()
        return 0

    def _seconds(self) -> float:
        """How long nothing is to be done if nothing happens."""
        wait = LOOK_UNWATCHED if self.notify.watchdog is None else min(LOOK_UNWATCHED, self.notify.watchdog / 2)
        return max(0.0, min(wait, self.feeder.pause.until - time.monotonic())) if self.feeder.pause.until else wait

    def _news(self) -> None:
        self.watch.clear()
        self.feeder.has_news = True

    def _on_stop(self, number: int, _frame: Any) -> None:
        self._signal = number
