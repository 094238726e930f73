"""Where the documents of a query go: a maildir, or a command that gets a digest.

In a maildir each document of the query's box is put once, whatever is killed when. A run's documents are written to tmp and
synced; then the file `.delivering` names them and is synced; then each is renamed from tmp to new; then `.delivered` gets the
run. What is in tmp and named by `.delivering` isn't delivered yet, and what isn't in tmp any more is: so a message that a user
has moved or deleted meanwhile doesn't come again.

A command can't have that: if it was killed, or this service was before its end, nobody knows what it did. So it gets a digest
until it has ended with 0: once if nothing is killed, and again, under the same Message-ID, if something is.
"""

from __future__ import annotations

import hashlib
import os
import subprocess
import tempfile
import time
from concurrent.futures import ThreadPoolExecutor
from typing import Dict, List, Optional, Set, Tuple

from .digests import Document, documents_of, is_empty, message_of
from .files import read_or_none, remove, replace_synced, sync_folder, write_synced
from .log import ERROR, INFO, WARNING, say
from .marks import NO_MARK, Mark, Marks, digest_sum, mark_line, read_mark
from .pauses import Pause
from .replies import Reply
from .rules import Digest, Maildir, QueryName
from .session import Session
from .work import Refused, Work

#: How many files are written, or get their place, before other work goes on.
SLICE = 64

#: Seconds after which a mail program may have removed a file of tmp (36 hours by the definition of a maildir).
TMP_AGE = 24 * 3600

#: Seconds that a command may take for a digest.
COMMAND_LIMIT = 600.0

_pool: Optional[ThreadPoolExecutor] = None


def _write_all(files: List[Tuple[str, bytes]]) -> None:
    """Writes and syncs files side by side, since each sync waits for the disk."""
    global _pool
    if len(files) == 1:
        write_synced(*files[0])
        return
    if _pool is None:
        _pool = ThreadPoolExecutor(8, "sync")
    for _ in _pool.map(lambda it: write_synced(*it), files):
        pass


class Delivery:
    """What all deliveries share: the marks, and which runs are new."""

    def __init__(self, of: QueryName, marks: Marks):
        self.of = of
        self.marks = marks
        self.pause = Pause(1.0, 300.0)
        self._checked: Optional[Session] = None

    def _digest(self, session: Session, run: int) -> Work[List[bytes]]:
        reply: Reply = yield from session.command(self.of.user, b"digest %s %d\n" % (self.of.query.encode(), run))
        if not reply.ok:
            raise Refused(f"digest {self.of.query} {run}", reply)
        return reply.lines

    def _mark(self, session: Session, runs: int) -> Work[Optional[Mark]]:
        """The query's mark. One that was written for another store counts for nothing: its last digest is another one here."""
        mark = self.marks.get(self.of)
        if mark is None or self._checked is session:
            return mark
        same = mark.run <= runs
        if same and mark.last > 0:
            same = digest_sum((yield from self._digest(session, mark.last))) == mark.sum
        if not same:
            say(f"the store isn't the one that {self.marks.path} speaks of: all runs of {self.of} are delivered", WARNING)
            mark = NO_MARK
            self.marks.put(self.of, mark)
        self._checked = session
        return mark


class MaildirDelivery(Delivery):
    """Puts the documents of a query into a maildir."""

    def __init__(self, rule: Maildir, marks: Marks):
        super().__init__(rule.of, marks)
        self.rule = rule
        self.path = rule.path
        self._journal = os.path.join(rule.path, ".delivering")

    def deliver(self, session: Session, runs: int) -> Work[None]:
        """Puts the documents of the runs that aren't there yet. Raises OSError if the maildir can't be written."""
        for folder in ("tmp", "new", "cur"):
            os.makedirs(os.path.join(self.path, folder), 0o770, exist_ok=True)
        known = self._recover()
        mark = yield from self._mark(session, runs)
        if mark is None or mark == NO_MARK:
            # There is no mark, or no longer: what is there by name isn't put again.
            known = self._names() if mark is None else known
            mark = NO_MARK
        done = mark
        for run in range(mark.run + 1, runs + 1):
            lines = yield from self._digest(session, run)
            if is_empty(lines):
                done = done._replace(run=run)
                continue
            done = Mark(run, run, digest_sum(lines))
            yield from self._put(done, list(documents_of(lines)), known)
        if done != self.marks.get(self.of):
            self.marks.put(self.of, done)

    def _put(self, mark: Mark, documents: List[Document], known: Set[str]) -> Work[None]:
        files = [(self._name(it), it.text) for it in documents]
        files = [it for it in files if it[0] not in known]
        for at in range(0, len(files), SLICE):
            _write_all([(self._place("tmp", name), text) for name, text in files[at : at + SLICE]])
            yield None
        sync_folder(self._place("tmp"))
        names = [name for name, _ in files]
        replace_synced(self._journal, "\n".join([mark_line(self.of, mark), *names]).encode())
        for at in range(0, len(names), SLICE):
            self._move(names[at : at + SLICE])
            yield None
        self._finish(self.of, mark)

    def _move(self, names: List[str]) -> List[str]:
        """Gives the files of tmp their places, and returns the names of those that aren't in tmp."""
        lacking = []
        for name in names:
            try:
                os.rename(self._place("tmp", name), self._place("new", name))
            except FileNotFoundError:
                lacking.append(name)
        return lacking

    def _finish(self, of: QueryName, mark: Mark) -> None:
        sync_folder(self._place("new"))
        sync_folder(self._place("tmp"))
        old = self.marks.get(of)
        if old is None or old.run < mark.run:
            self.marks.put(of, mark)
        remove(self._journal)

    def _recover(self) -> Set[str]:
        """Ends a delivery that was stopped, of whichever query. Returns the names that must not be put once more."""
        data = read_or_none(self._journal)
        if data is None:
            return set()
        head, *names = data.decode("ascii", "replace").split("\n")
        read = read_mark(head)
        if read is None:
            say(f"{self._journal} isn't of this service: it is removed", WARNING)
            remove(self._journal)
            return set()
        age = time.time() - os.stat(self._journal).st_mtime
        lacking = self._move(names)
        if lacking and age > TMP_AGE:
            # A mail program may have removed files of tmp: those that are nowhere else are put once more.
            say(f"{self.path}: a delivery was stopped a day ago; what is missing of it is put once more", WARNING)
            sync_folder(self._place("new"))
            remove(self._journal)
            return self._names()
        self._finish(*read)
        return set()

    def _names(self) -> Set[str]:
        """The names of the maildir's messages, without their flags."""
        return {name.split(":")[0] for folder in ("new", "cur") for name in os.listdir(self._place(folder))}

    def _name(self, document: Document) -> str:
        """A name that is made from the query and the document, and is no other's."""
        text = hashlib.sha256(document.text).hexdigest()[:8]
        return f"{document.first}.D{document.number}H{text}.{self.of.query}+{self.of.user}"

    def _place(self, *parts: str) -> str:
        return os.path.join(self.path, *parts)


class DigestDelivery(Delivery):
    """Gives the digests of a query to a command, one after the other."""

    def __init__(self, rule: Digest, marks: Marks):
        super().__init__(rule.of, marks)
        self.rule = rule
        self.pause = Pause(5.0, 1800.0)
        self._child: Optional[subprocess.Popen[bytes]] = None
        self._mark_then = NO_MARK
        self._began = 0.0

    @property
    def is_running(self) -> bool:
        """Whether the command has a digest now."""
        return self._child is not None

    def deliver(self, session: Session, runs: Optional[int]) -> Work[None]:
        """Gives the command the next digest. Runs from before the rule have none; `runs` is None while there is no such query."""
        if self._child is not None:
            return
        if self.marks.get(self.of) is None:
            self.marks.put(self.of, NO_MARK._replace(run=runs or 0))
        if runs is None:
            return
        mark = yield from self._mark(session, runs)
        assert mark is not None
        done = mark
        for run in range(mark.run + 1, runs + 1):
            lines = yield from self._digest(session, run)
            if not is_empty(lines):
                self._start(lines, Mark(run, run, digest_sum(lines)))
                return
            done = done._replace(run=run)
        if done != mark:
            self.marks.put(self.of, done)

    def _start(self, lines: List[bytes], mark: Mark) -> None:
        with tempfile.TemporaryFile() as file:
            file.write(message_of(lines, self.of.user, self.of.query, mark.run, mark.sum))
            file.seek(0)
            self._child = subprocess.Popen(
                self.rule.command,
                stdin=file,
                stdout=2,
                env=child_environment({"TAPESTRY_USER": self.of.user, "TAPESTRY_QUERY": self.of.query, "TAPESTRY_RUN": str(mark.run)}),
                start_new_session=True,
            )
        self._mark_then, self._began = mark, time.monotonic()

    def look(self) -> bool:
        """Notes that the command has ended; returns whether it has."""
        if self._child is None:
            return False
        status = self._child.poll()
        run = self._mark_then.run
        if status is None:
            if time.monotonic() - self._began > COMMAND_LIMIT:
                say(f"{self.rule.command[0]} has digest {run} of {self.of} for {COMMAND_LIMIT:.0f} seconds: it is killed", ERROR)
                self.stop(9)
            return False
        self._child = None
        if status == 0:
            self.marks.put(self.of, self._mark_then)
            self.pause.reset()
            say(f"{self.rule.command[0]} took digest {run} of {self.of}", INFO)
        else:
            self.failed(f"{self.rule.command[0]} ended with status {status}, so digest {run} of {self.of} wasn't taken: see what it says")
        return True

    def failed(self, what: str) -> None:
        """Says what failed, and tries again after a pause."""
        say(f"{what}; trying again in {self.pause.grow():.0f} seconds", ERROR)

    def stop(self, signal_number: int) -> None:
        """Sends the command's processes a signal."""
        if self._child is not None:
            try:
                os.killpg(self._child.pid, signal_number)
            except OSError:
                pass


def child_environment(more: Optional[Dict[str, str]] = None) -> Dict[str, str]:
    """The environment for a child, which is no part of the service to systemd."""
    left_out = ("NOTIFY_SOCKET", "WATCHDOG_USEC", "WATCHDOG_PID", "LISTEN_FDS", "LISTEN_PID")
    return {**{key: value for key, value in os.environ.items() if key not in left_out}, **(more or {})}
