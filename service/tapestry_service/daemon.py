"""The resident process: one program, a spool, clients, due runs and deliveries, in one loop that never waits for one of them."""

from __future__ import annotations

import os
import resource
import selectors
import shutil
import signal
import time
import traceback
from typing import Any, Callable, Generator, List, NamedTuple, Optional, Union

from .clients import MOST, Client, Clients
from .clock import Clock
from .due import Due
from .files import hold
from .log import ERROR, INFO, NOTICE, WARNING, advice, own_login, say
from .notify import Notify
from .pauses import Pause
from .program import SCRIPT_LIMIT, Program, ProgramEnded
from .replies import Reply
from .rules import Rules, WrongRule, read_rules
from .session import Session
from .shard import Shard
from .spool import LOOK_AGAIN, LOOK_UNWATCHED, Spool
from .watch import Watch
from .work import Exchange, Refused

#: The loop looks at the clock at least this often, since the system may sleep or its clock be set.
LONGEST_SLEEP = 30.0

#: Seconds for which clients, say, may follow one another before it is the turn of the spool, if there is something to load.
TURN = 0.05

#: Seconds for one reply, after which the watchdog gets no sign of life any more.
LONGEST_REPLY = 900.0

#: Seconds that the program gets at the end to close the store.
LONGEST_CLOSE = 60.0

_STATUSES = {
    2: "its words were refused: is TAPESTRY the filter's program?",
    3: "reading its input failed",
    4: "writing its output failed",
    5: "the store failed, or another program holds it: make room on its disk, end the other program, and see that {login} may write the"
    " store and its folder",
    6: "the store is refused, since something else than the filter changed it: put a backup in its place",
    7: "out of memory: give the machine or the service more",
    8: "the script was too long",
    127: "it can't be started: is TAPESTRY the filter's program?",
}


class Paths(NamedTuple):
    """What the words of the command line name."""

    store: str
    spool: str
    socket: str
    rules: str
    users: Optional[str] = None


class Piece(NamedTuple):
    """A piece of work in progress."""

    kind: str  # "open", "spool", "due" or "client"
    work: Generator[Optional[Exchange], List[Reply], Any]
    client: Optional[Client] = None


class Daemon:
    """The service. `run` returns the status that it ends with."""

    def __init__(
        self,
        paths: Paths,
        program: List[str],
        rules: Rules,
        clock: Optional[Clock] = None,
        decode: Optional[Callable[[bytes], bytes]] = None,
        notify: Optional[Notify] = None,
        shard: Optional[Shard] = None,
    ):
        self.paths = paths
        self.words = [*program, "--store", paths.store]
        self.shard = shard
        self.clock = clock or (shard.clock if shard is not None else Clock())
        self.notify = notify or Notify()
        self.selector = selectors.DefaultSelector()
        self.spool = Spool(paths.spool, decode) if shard is None else shard.feeder
        #: What brings mail into the store.
        self.source: Union[Spool, Shard] = shard or self.spool
        self.due = Due(rules, os.path.join(os.path.abspath(paths.spool), "digests"))
        self._lock = hold(os.path.join(paths.spool, "lock"))
        most = _raise_file_limit()
        try:
            self.clients = Clients(paths.socket, rules, self.selector, min(MOST, most - 64))
        except OSError:
            os.close(self._lock)
            raise
        if shard is not None:
            self.clients.shard = shard
            self.selector.register(shard.calls.fd, selectors.EVENT_READ, lambda _: shard.calls.deliver())
        self.watch = Watch(os.fsdecode(self.spool.new))
        if self.watch.fd is not None:
            self.selector.register(self.watch.fd, selectors.EVENT_READ, lambda _: self._news())
        else:
            say("the spool can't be watched (inotify): it is looked at every two seconds", WARNING)
        self.program: Optional[Program] = None
        self._program_events = 0
        self.session: Optional[Session] = None
        self.is_open = False
        self._is_ending = False  # the program's input was ended on purpose
        self._has_closed = False  # the program closed its output; its status is to come
        self._closed_at = 0.0
        self._current: Optional[Piece] = None
        self._suspended: List[Piece] = []
        self._replies: List[Reply] = []
        self._expected = 0  # replies of the exchange that goes on; 0 if none does
        self._asked_at = 0.0
        self._turn = 0  # the kind of work that went on last, and until when it may go on before the others
        self._turn_until = 0.0
        self._start_pause = Pause(0.05, 60.0)
        self._spool_pause = Pause(1.0, 60.0)
        self._opened_at = 0.0
        self._look_at = time.monotonic()
        self._swept_at = time.monotonic()
        self._alive_at = 0.0
        self._is_ready = False
        self._is_told = False  # systemd knows that
        self._stop_signal = 0
        self._rereads = False
        self._wake_read, self._wake_write = os.pipe2(os.O_NONBLOCK | os.O_CLOEXEC)
        self.selector.register(self._wake_read, selectors.EVENT_READ, lambda _: self._drain())

    # Signals

    def _handle_signals(self) -> None:
        signal.set_wakeup_fd(self._wake_write, warn_on_full_buffer=False)
        for number in (signal.SIGTERM, signal.SIGINT):
            signal.signal(number, self._on_stop)
        signal.signal(signal.SIGHUP, self._on_reread)
        signal.signal(signal.SIGCHLD, lambda *_: None)
        signal.signal(signal.SIGPIPE, signal.SIG_IGN)

    def _on_stop(self, number: int, _frame: Any) -> None:
        self._stop_signal = number

    def _on_reread(self, _number: int, _frame: Any) -> None:
        self._rereads = True

    def _drain(self) -> None:
        try:
            while os.read(self._wake_read, 4096):
                pass
        except BlockingIOError:
            pass

    # The loop

    def run(self) -> int:
        """Serves until SIGTERM or SIGINT."""
        self._handle_signals()
        try:
            while not self._stop_signal:
                self._turn_once()
            return self._end()
        finally:
            if self.program is not None:
                self.program.kill()
            self.clients.close()

    def _turn_once(self) -> None:
        for key, events in self.selector.select(self._timeout()):
            key.data(events)
        if self._rereads:
            self._rereads = False
            self._reread_rules()
        self._tick()
        if not self._stop_signal:
            self._go_on()

    def _timeout(self) -> float:
        if self._can_go_on():
            return 0.0
        now = time.monotonic()
        waits = [LONGEST_SLEEP]
        if self.notify.watchdog is not None:
            waits.append(self.notify.watchdog)
        if self.program is None:
            waits.append(self._start_pause.until - now)
        elif self.is_open and self._current is None:
            until_next = None if self.due.next is None else self.clock.seconds_until(self.due.next)
            due = self.due.seconds_until_ready(until_next)
            if due is not None:
                waits.append(due)
            if self.source.has_work:
                waits.append(self._spool_pause.until - now)
        if self.clients.clients:
            waits.append(5.0)
        if self.shard is not None:
            waits.append(self.shard.seconds_until_tick())
        waits.append(self._look_at + (LOOK_AGAIN if self.watch.fd is not None else LOOK_UNWATCHED) - now)
        return max(0.0, min(waits))

    def _tick(self) -> None:
        """What is to be done at its time."""
        now = time.monotonic()
        if self._is_ready and not self._is_told:
            self._is_told = self.notify.ready()
        if self._is_told and self.notify.watchdog is not None and now - self._alive_at >= self.notify.watchdog / 2:
            self._alive_at = now
            if not self._expected or now - self._asked_at < LONGEST_REPLY:
                self.notify.alive()
        if now - self._swept_at >= 5.0:
            self._swept_at = now
            self.clients.sweep()
            self.clients.resume()
            self._show()
        if now - self._look_at >= (LOOK_AGAIN if self.watch.fd is not None else LOOK_UNWATCHED):
            self._look_at = now
            self.watch.clear()
            self.spool.look_again()
        if self.shard is not None:
            self.shard.tick()
        self.due.look_at_commands()
        if self._has_closed:
            self._reap()
        if self.program is None and self._start_pause.is_over:
            self._start()

    def _show(self) -> None:
        """Shows systemd how far the service is."""
        if self.is_open and self.session is not None:
            self.notify.status(f"{self.session.documents} documents, {len(self.clients.clients)} connections")

    def _news(self) -> None:
        self.watch.clear()
        self.spool.has_news = True

    def _reread_rules(self) -> None:
        try:
            rules = read_rules(self.paths.rules, self.paths.users)
        except (WrongRule, OSError) as why:
            say(f"{why}: the rules stay as they were", ERROR)
            return
        self.due.set_rules(rules)
        self.clients.set_rules(rules)
        say(f"read {self.paths.rules}: {len(rules.queries)} queries, {len(rules.users)} logins with a name of their own", INFO)

    # The program

    def _start(self) -> None:
        try:
            self.program = Program(self.words)
        except OSError as error:
            pause = self._start_pause.grow()
            say(f"{self.words[0]} can't be started ({error.strerror}): TAPESTRY names the program; again in {pause:.1f} seconds", ERROR)
            self.clients.wait(f"the program can't be started: {error.strerror}")
            return
        self.selector.register(self.program.output, selectors.EVENT_READ, lambda _: self._read_program())
        self._program_events = 0
        self._is_ending = self._has_closed = False
        self.session = Session(self.clock)
        self._current = Piece("open", self._open(self.session))
        self._advance(None)

    def _open(self, session: Session) -> Generator[Optional[Exchange], List[Reply], None]:
        yield from session.open()
        yield from self.source.settle(session)

    def _send(self, data: bytes) -> None:
        assert self.program is not None
        self.program.send(data)
        self._watch_input()

    def _watch_input(self) -> None:
        program = self.program
        assert program is not None
        wants = selectors.EVENT_WRITE if program.wants_to_write else 0
        if wants and not self._program_events:
            self.selector.register(program.input, wants, lambda _: self._write_program())
        elif not wants and self._program_events:
            self.selector.unregister(program.input)
        self._program_events = wants

    def _write_program(self) -> None:
        if self.program is not None:
            self.program.write()
            self._watch_input()

    def _read_program(self) -> None:
        program = self.program
        if program is None or self._has_closed:
            return
        try:
            found = program.read()
        except ProgramEnded:
            # As `stop 6 ..` before a status of 6: it ends by itself, or is stopped.
            found = None
        if found is None:
            self._has_closed, self._closed_at = True, time.monotonic()
            self.selector.unregister(program.output)
            self._end_input()
            self._reap()
            return
        self._replies += found
        if self._expected and len(self._replies) >= self._expected:
            replies, self._replies, self._expected = self._replies, [], 0
            self._advance(replies)

    def _end_input(self) -> None:
        if self.program is not None:
            if self._program_events:
                self.selector.unregister(self.program.input)
                self._program_events = 0
            self.program.end_input()

    def _reap(self) -> None:
        """Takes the status of a program that has closed its output."""
        program = self.program
        if program is None:
            return
        if program.child.poll() is None:
            if time.monotonic() - self._closed_at > LONGEST_CLOSE:
                program.kill()
            return
        program.close()
        status = program.child.returncode
        was_open, self.is_open = self.is_open, False
        was_on_purpose = self._is_ending and status in (0, 1)
        self.program, self.session, self._expected, self._replies, self._has_closed = None, None, 0, [], False
        if not was_on_purpose:
            self._say_ended(program, status, was_open)
        piece, self._current = self._current, None
        for it in [*([piece] if piece is not None else []), *self._suspended]:
            it.work.close()
        self._suspended = []
        self.source.forget()
        self.due.changed()
        if piece is not None and piece.client is not None:
            self.clients.program_ended(piece.client)

    def _say_ended(self, program: Program, status: int, was_open: bool) -> None:
        kind = self._current.kind if self._current is not None else ""
        by_itself = status >= 0
        if was_open and time.monotonic() - self._opened_at > 60:
            self._start_pause.reset()
        pause = self._start_pause.grow()
        what = f"the program ended with status {status}" if by_itself else f"the program was stopped by signal {-status}"
        if program.last_line:
            what += f" and the line `{program.last_line[:200]}`"
        why = _STATUSES.get(status, "")
        if by_itself and was_open and kind == "spool":
            pause = max(pause, self._spool_pause.grow())
        elif by_itself and was_open and kind == "due":
            pause = max(pause, self.due.pause.grow())
        text = f"{what}: {why}" if why else what
        if by_itself and (was_open or pause >= 0.4):
            say(f"{text}; nothing is lost; trying again in {pause:.1f} seconds".replace("{login}", own_login()), ERROR)
        elif not by_itself:
            say(f"{text}; starting it again", WARNING)
        if not was_open and pause >= 1.0:
            self.clients.wait(text.replace("{login}", "the service"))
            self.notify.status(f"waiting: {what}")

    # Pieces of work

    def _can_go_on(self) -> bool:
        """Whether work can begin or go on now."""
        if self.program is None or self._expected or self._has_closed or self._is_ending:
            return False
        if self._current is not None or self._suspended:
            return True
        return self.is_open and any(self._is_waiting(kind) for kind in ("spool", "due", "client"))

    def _is_waiting(self, kind: str) -> bool:
        """Whether there is work of this kind that hasn't begun."""
        if any(it.kind == kind for it in self._suspended):
            return False
        if kind == "spool":
            return self.source.has_work and self._spool_pause.is_over
        if kind == "due":
            return self.due.is_ready(self.clock.second()) and not (self.shard is not None and self.shard.is_behind)
        return self.clients.has_ready

    def _go_on(self) -> None:
        """Lets the next piece of work go on, until it waits for the program. Kinds take turns."""
        if not self._can_go_on() or self._current is not None:
            return
        if self._ends_early():
            return
        kinds, now = ("spool", "client", "due"), time.monotonic()
        for step in range(0 if now < self._turn_until else 1, 4):
            kind = kinds[(self._turn + step) % 3]
            piece = self._next_piece(kind)
            if piece is not None:
                if step > 0:
                    self._turn, self._turn_until = (self._turn + step) % 3, now + TURN
                self._current = piece
                self._advance(None)
                return

    def _next_piece(self, kind: str) -> Optional[Piece]:
        for it in self._suspended:
            if it.kind == kind:
                self._suspended.remove(it)
                return it
        assert self.session is not None
        if not self.is_open or not self._is_waiting(kind):
            return None
        if kind == "spool":
            return Piece("spool", self.source.load(self.session))
        if kind == "due":
            return Piece("due", self.due.run(self.session))
        client = self.clients.next_ready()
        if client is None:
            return None
        return Piece("client", self.clients.perform(self.session, client, self.due.changed), client)

    def _advance(self, replies: Optional[List[Reply]]) -> None:
        """Gives the current piece its replies, and lets it go on to its next exchange, its next rest, or its end."""
        piece = self._current
        assert piece is not None
        try:
            exchange = piece.work.send(replies)  # type: ignore[arg-type]
        except StopIteration as end:
            self._current = None
            self._ended(piece, end.value)
            return
        except (OSError, Refused) as why:
            self._current = None
            self._failed(piece, why)
            return
        except Exception:
            self._current = None
            say(f"a fault of this service at {piece.kind}: {traceback.format_exc()}", ERROR)
            self._failed(piece, None)
            return
        if exchange is None:
            self._current = None
            self._suspended.append(piece)
            return
        self._expected, self._asked_at = exchange.replies, time.monotonic()
        self._send(exchange.data)
        if exchange.meanwhile is not None:
            exchange.meanwhile()

    def _ended(self, piece: Piece, value: Any) -> None:
        if piece.kind == "open":
            self.is_open = True
            self._opened_at = time.monotonic()
            self.clients.wait(None)
            self.due.changed()
            self._show()
            if not self._is_ready:
                self._is_ready = True
                self._is_told = self.notify.ready()
                assert self.session is not None
                say(f"ready: {self.session.documents} documents in {self.paths.store}", INFO)
        elif piece.kind == "spool":
            if value:
                self.due.changed()
                self._start_pause.reset()
            self._spool_pause.reset()
        elif piece.kind == "client":
            self._start_pause.reset()

    def _failed(self, piece: Piece, why: Optional[Exception]) -> None:
        """A piece of work that couldn't be ended is tried again after a pause."""
        what = "" if why is None else advice(why, self.paths.spool) if isinstance(why, OSError) else str(why)
        if piece.kind == "spool":
            self.source.forget()
            say(f"{self.source.FAILS}: {what}; trying again in {self._spool_pause.grow():.0f} seconds", ERROR)
        elif piece.kind == "due":
            self.due.changed()
            say(f"due queries can't run: {what}; trying again in {self.due.pause.grow():.0f} seconds", ERROR)
        elif piece.kind == "client" and piece.client is not None:
            self.clients.close_client(piece.client)
        elif piece.kind == "open":
            say(f"the store can't be used: {what}", ERROR)
            if self.program is not None:
                self.program.kill()

    def _ends_early(self) -> bool:
        """Ends the session before its script is too long, since a new one goes on where it ends."""
        assert self.program is not None
        if self.program.sent < (SCRIPT_LIMIT * 3 // 4 if self._suspended else SCRIPT_LIMIT // 2):
            return False
        say(f"ending the session after {self.program.sent} bytes of commands, and starting the next one", INFO)
        self._is_ending = True
        self.is_open = False
        self._end_input()
        return True

    # The end

    def _end(self) -> int:
        """Ends the session, so that the store is one file."""
        say(f"ending after signal {self._stop_signal}", INFO)
        self.notify.stopping()
        self.clients.close()
        for delivery in self.due.running:
            delivery.stop(signal.SIGTERM)
        program = self.program
        if program is None:
            return 0
        self._end_input()
        until = time.monotonic() + LONGEST_CLOSE
        was_said = False
        while program.child.poll() is None and time.monotonic() < until:
            for key, _ in self.selector.select(0.05):
                if key.fd in (program.output, self._wake_read):
                    self._swallow(key.fd)
            if not was_said and time.monotonic() > until - LONGEST_CLOSE + 1:
                was_said = True
                say("waiting for the program to end its command and to close the store", NOTICE)
        status = program.child.poll()
        if status is None:
            say("the program didn't end: it is stopped. The store's file and its log belong together", WARNING)
            program.kill()
            program.child.wait()
            return 1
        if status not in (0, 1):
            say(f"the program ended with status {status}. The store's file and its log belong together", WARNING)
            return 1
        return 0

    def _swallow(self, fd: int) -> None:
        try:
            if not os.read(fd, 1 << 18):
                self.selector.unregister(fd)
        except BlockingIOError:
            pass


def _raise_file_limit() -> int:
    """Lets the process have as many connections as it may, and returns how many files that is."""
    soft, hard = resource.getrlimit(resource.RLIMIT_NOFILE)
    wanted = 2 * MOST if hard == resource.RLIM_INFINITY else min(hard, 2 * MOST)
    if soft < wanted:
        try:
            resource.setrlimit(resource.RLIMIT_NOFILE, (wanted, hard))
            soft = wanted
        except (OSError, ValueError):
            pass
    return soft


def program_words(top: str, variable: Optional[str]) -> Optional[List[str]]:
    """The filter's program: that of the environment variable, else the proved one of the clone around this file, else that of
    PATH."""
    if variable:
        return [variable]
    built = os.path.join(top, "crates", "tapestry", "out", "tapestry")
    if os.access(built, os.X_OK):
        return [built]
    found = shutil.which("tapestry")
    return [found] if found else None
