"""Clients at the Unix socket. None of them can hold up another: each has at most one command at the program at a time, users take
turns, and what a client sends without an end or doesn't read is bounded."""

from __future__ import annotations

import errno
import os
import pwd
import selectors
import socket
import stat
import struct
import time
from collections import OrderedDict, deque
from typing import Callable, Deque, Dict, Optional, Set

from .commands import Command, Cutter
from .log import NOTICE, WARNING, say
from .replies import BUSY, NO_NAME, OTHER_SHARD, SLOW, UNKNOWN_END, WAITING, Reply
from .rows import LOGGED
from .rules import Rules
from .session import Session
from .shard import Shard
from .work import Refused, Work

#: Connections of one login, and of all.
MOST_OF_LOGIN = 256
MOST = 1024

#: Bytes of commands that aren't complete: of one login, and of all. A mailbox file of 16 MiB may have twice as many bytes in a block.
INPUT_OF_LOGIN = 80 << 20
INPUT = 320 << 20

#: Bytes of replies that wait at a client before its next command is read, and at a login's clients before one is performed.
OUTPUT_OF_CLIENT = 1 << 16
OUTPUT_OF_LOGIN = 16 << 20

#: Seconds without a byte: within a command, and while a reply waits.
SILENCE = 300.0
NOT_READING = 60.0

READ_SIZE = 1 << 16


class Client:
    """A connection."""

    def __init__(self, connection: socket.socket, uid: int, login: str, user: str):
        self.socket, self.uid, self.login, self.user = connection, uid, login, user
        self.cutter = Cutter()
        self.out: Deque[memoryview] = deque()
        self.out_size = 0
        self.command: Optional[Command] = None
        self.was_tried = False
        self.is_served = False
        self.has_ended = False  # it sends nothing more
        self.is_held = False  # its bytes may have commands that wait until its replies are sent
        self.is_closed = False
        self.counted = 0
        self.events = 0
        self.last = time.monotonic()


class Clients:
    """The socket and all connections at it."""

    def __init__(self, path: str, rules: Rules, selector: selectors.BaseSelector, most: int = MOST):
        self.path = path
        self.rules = rules
        self.most = most
        #: Where mail and notes of users go first, if this is a shard.
        self.shard: Optional[Shard] = None
        self.clients: Set[Client] = set()
        self._selector = selector
        self._of_login: Dict[int, Set[Client]] = {}
        self._input: Dict[int, int] = {}
        self._output: Dict[int, int] = {}
        self._ready: "OrderedDict[int, Deque[Client]]" = OrderedDict()
        self._logins: Dict[int, str] = {}
        self._told = 0.0
        self._listens = False
        self._server = _listen(path)
        #: What a command gets while the store can't be used; None while it can.
        self.is_waiting: Optional[str] = None
        self.resume()

    # Connections

    def resume(self) -> None:
        """Takes new connections."""
        if not self._listens:
            self._selector.register(self._server, selectors.EVENT_READ, lambda _: self._accept())
            self._listens = True

    def _accept(self) -> None:
        for _ in range(64):
            try:
                connection, _ = self._server.accept()
            except (BlockingIOError, ConnectionAbortedError):
                return
            except OSError as error:
                say(f"no connection could be taken: {error.strerror}", WARNING)
                self._selector.unregister(self._server)
                self._listens = False
                return
            self._greet(connection)

    def _greet(self, connection: socket.socket) -> None:
        connection.setblocking(False)
        data = connection.getsockopt(socket.SOL_SOCKET, socket.SO_PEERCRED, struct.calcsize("iII"))
        uid = struct.unpack("iII", data)[1]
        if len(self.clients) >= self.most or len(self._of_login.get(uid, ())) >= MOST_OF_LOGIN:
            _refuse(connection, b"no %d too many connections: end some\n" % BUSY)
            self._tell(f"login {self._login_of(uid)} has too many connections; one was refused")
            return
        login = self._login_of(uid)
        user = self.rules.name_of(login)
        if user is None:
            name = login.encode("utf-8", "replace")
            _refuse(connection, b"no %d %s isn't a valid name, and RULES has no line for this login\n" % (NO_NAME, name))
            return
        if not self.rules.serves(user):
            _refuse(connection, _other_shard(user))
            return
        client = Client(connection, uid, login, user)
        self.clients.add(client)
        self._of_login.setdefault(uid, set()).add(client)
        self._want(client)

    def _login_of(self, uid: int) -> str:
        if uid not in self._logins:
            try:
                self._logins[uid] = pwd.getpwuid(uid).pw_name
            except KeyError:
                # It may be known a moment later.
                return str(uid)
        return self._logins[uid]

    def _tell(self, text: str) -> None:
        """Says something that a client can cause, at most once a second."""
        if time.monotonic() - self._told > 1:
            self._told = time.monotonic()
            say(text, NOTICE)

    def set_rules(self, rules: Rules) -> None:
        """Gives each connection the user that the rules name for its login."""
        self.rules = rules
        self._logins.clear()
        for client in list(self.clients):
            user = rules.name_of(client.login)
            if user is None:
                self._drop(client, b"no %d RULES has no line for this login any more\n" % NO_NAME)
            elif not rules.serves(user):
                self._drop(client, _other_shard(user))
            else:
                client.user = user

    def close_client(self, client: Client) -> None:
        """Ends a connection."""
        if client.is_closed:
            return
        client.is_closed = True
        self._count(client, 0)
        self._output[client.uid] = self._output.get(client.uid, 0) - client.out_size
        if client.events:
            self._selector.unregister(client.socket)
        client.socket.close()
        self.clients.discard(client)
        of_login = self._of_login[client.uid]
        of_login.discard(client)
        if not of_login:
            del self._of_login[client.uid]
            for counts in (self._input, self._output):
                counts.pop(client.uid, None)

    def _drop(self, client: Client, line: bytes) -> None:
        """Ends a connection with one line about why, if it still takes that."""
        if not client.is_closed:
            if not client.out:
                _send_last(client.socket, line)
            self.close_client(client)

    def close(self) -> None:
        """Ends all connections, and removes the socket."""
        for client in list(self.clients):
            self.close_client(client)
        if self._listens:
            self._selector.unregister(self._server)
            self._listens = False
        self._server.close()
        try:
            os.unlink(self.path)
        except OSError:
            pass

    # Bytes

    def _serve(self, client: Client, events: int) -> None:
        try:
            if events & selectors.EVENT_WRITE:
                self._flush(client)
            if events & selectors.EVENT_READ and not client.is_closed:
                self._receive(client)
        except OSError:
            self.close_client(client)
            return
        self._go_on(client)

    def _receive(self, client: Client) -> None:
        try:
            data = client.socket.recv(READ_SIZE)
        except BlockingIOError:
            return
        client.last = time.monotonic()
        if data:
            client.cutter.feed(data)
        else:
            client.has_ended = True
            client.cutter.finish()

    def _go_on(self, client: Client) -> None:
        """Cuts the next command, if the last one is done, and asks for the bytes that may come next."""
        if client.is_closed:
            return
        self._cut(client)
        self._count(client, client.cutter.size)
        self._bound_input(client)
        if client.is_closed:
            return
        try:
            self._flush(client)
            while client.command is None and client.is_held and client.out_size < OUTPUT_OF_CLIENT:
                # Its replies are sent, and what came with the last command is still to be cut.
                self._cut(client)
                self._count(client, client.cutter.size)
                self._flush(client)
        except OSError:
            self.close_client(client)
            return
        if client.has_ended and client.command is None and not client.out and not client.cutter.is_within:
            self.close_client(client)
            return
        self._want(client)

    def _cut(self, client: Client) -> None:
        """Cuts commands until there is one to perform, too much to send, or nothing more."""
        client.is_held = False
        while client.command is None:
            if client.out_size >= OUTPUT_OF_CLIENT:
                client.is_held = True
                return
            item = client.cutter.next()
            if item is None and client.has_ended:
                item = client.cutter.rest()
            if item is None:
                break
            if isinstance(item, bytes):
                self._put(client, item)
            elif self.is_waiting is not None:
                self._put(client, self._waiting_line())
            else:
                client.command = item
                self._make_ready(client)

    def _want(self, client: Client) -> None:
        events = selectors.EVENT_WRITE if client.out else 0
        if client.command is None and not client.has_ended and client.out_size < OUTPUT_OF_CLIENT:
            events |= selectors.EVENT_READ
        if events == client.events:
            return
        if events == 0:
            # Nothing is waited for: the end of this connection is found once its reply is sent.
            self._selector.unregister(client.socket)
        elif client.events == 0:
            self._selector.register(client.socket, events, lambda events: self._serve(client, events))
        else:
            self._selector.modify(client.socket, events, lambda events: self._serve(client, events))
        client.events = events

    def _put(self, client: Client, data: bytes) -> None:
        if not client.out:
            client.last = time.monotonic()
        client.out.append(memoryview(data))
        client.out_size += len(data)
        self._output[client.uid] = self._output.get(client.uid, 0) + len(data)

    def _flush(self, client: Client) -> None:
        sent = 0
        try:
            while client.out:
                count = client.socket.send(client.out[0])
                sent += count
                if count < len(client.out[0]):
                    client.out[0] = client.out[0][count:]
                else:
                    client.out.popleft()
        except BlockingIOError:
            pass
        if sent:
            client.last = time.monotonic()
            client.out_size -= sent
            self._output[client.uid] -= sent

    def _count(self, client: Client, size: int) -> None:
        self._input[client.uid] = self._input.get(client.uid, 0) + size - client.counted
        client.counted = size

    def _bound_input(self, client: Client) -> None:
        """Ends the connection of the largest command that isn't complete, of the login that has too much of them."""
        if self._input[client.uid] > INPUT_OF_LOGIN:
            uid = client.uid
        elif client.counted > READ_SIZE and sum(self._input.values()) > INPUT:
            uid = max(self._input, key=lambda it: self._input[it])
        else:
            return
        largest = max(self._of_login[uid], key=lambda it: it.counted)
        self._tell(f"login {largest.login} sends too much at once; a connection was ended")
        self._drop(largest, b"no %d too much at once: send one mailbox file after the other\n" % BUSY)

    # Commands

    def _make_ready(self, client: Client) -> None:
        self._ready.setdefault(client.uid, deque()).append(client)

    def next_ready(self) -> Optional[Client]:
        """The next client whose command is to be performed. Logins take turns, and so do the clients of each."""
        for _ in range(len(self._ready)):
            uid = next(iter(self._ready))
            self._ready.move_to_end(uid)
            waiting = self._ready[uid]
            while waiting and waiting[0].is_closed:
                waiting.popleft()
            if not waiting:
                del self._ready[uid]
            elif self._output.get(uid, 0) <= OUTPUT_OF_LOGIN:
                client = waiting.popleft()
                if not waiting:
                    del self._ready[uid]
                return client
        return None

    @property
    def has_ready(self) -> bool:
        """Whether a command may be performed now."""
        return any(self._output.get(uid, 0) <= OUTPUT_OF_LOGIN for uid in self._ready)

    def perform(self, session: Session, client: Client, changed: Callable[[], None]) -> Work[None]:
        """Performs the client's command, and sends its reply. `changed` is called if that may have added rows."""
        command = client.command
        assert command is not None
        client.is_served = True
        if self.shard is not None and self.shard.is_behind:
            self._answer(client, b"no %d the store hasn't all rows of the log yet; nothing was done\n" % WAITING)
            return
        if self.shard is not None and command.word in LOGGED:
            yield from self.shard.take(session, client.user, command, lambda line: self._answer(client, line))
            return
        try:
            reply: Reply = yield from session.command(client.user, command.data)
        except Refused as why:
            reply = why.reply
        if reply.ok and command.changes:
            changed()
        self._answer(client, reply.bytes)

    def _answer(self, client: Client, data: bytes) -> None:
        client.command, client.was_tried, client.is_served = None, False, False
        if not client.is_closed:
            self._put(client, data)
            self._go_on(client)

    def program_ended(self, client: Client) -> None:
        """The program ended while it had this client's command: a command that only reads is performed again, once."""
        command = client.command
        client.is_served = False
        if command is not None and command.only_reads and not client.was_tried:
            client.was_tried = True
            self._make_ready(client)
        elif command is not None:
            self._answer(client, b"no %d the program ended within this command: look whether it was performed\n" % UNKNOWN_END)

    def wait(self, why: Optional[str]) -> None:
        """Says why the store can't be used, or, with None, that it can. Commands that wait get that as their reply."""
        self.is_waiting = why
        if why is None:
            return
        waiting = [client for clients in self._ready.values() for client in clients]
        self._ready.clear()
        for client in waiting:
            self._answer(client, self._waiting_line())

    def _waiting_line(self) -> bytes:
        return b"no %d %s\n" % (WAITING, (self.is_waiting or "").encode("utf-8", "replace"))

    def sweep(self) -> None:
        """Ends the connections that are silent within a command, or don't read their replies."""
        now = time.monotonic()
        for client in list(self.clients):
            if client.out and now - client.last > NOT_READING:
                self._tell(f"login {client.login} doesn't read its replies; a connection was ended")
                self.close_client(client)
            elif client.cutter.is_within and client.command is None and now - client.last > SILENCE:
                self._drop(client, b"no %d silent for %d seconds within a command\n" % (SLOW, SILENCE))


def _listen(path: str) -> socket.socket:
    """A socket at the path, in the place of one that nobody listens at. Raises OSError if somebody does, or if something else than
    a socket is there."""
    server = socket.socket(socket.AF_UNIX, socket.SOCK_STREAM | socket.SOCK_CLOEXEC)
    server.setblocking(False)
    try:
        try:
            server.bind(path)
        except OSError as error:
            if error.errno != errno.EADDRINUSE or not stat.S_ISSOCK(os.lstat(path).st_mode) or _is_served(path):
                raise
            os.unlink(path)
            server.bind(path)
        os.chmod(path, 0o666)
        server.listen(512)
    except OSError:
        server.close()
        raise
    return server


def _other_shard(user: str) -> bytes:
    return b"no %d %s is a user of another shard: ask at the socket of that one\n" % (OTHER_SHARD, user.encode())


def _is_served(path: str) -> bool:
    """Whether somebody listens at a socket."""
    with socket.socket(socket.AF_UNIX) as probe:
        probe.settimeout(1)
        try:
            probe.connect(path)
        except ConnectionRefusedError:
            return False
        except OSError:
            return True
        return True


def _send_last(connection: socket.socket, line: bytes) -> None:
    try:
        connection.send(line)
    except OSError:
        pass


def _refuse(connection: socket.socket, line: bytes) -> None:
    _send_last(connection, line)
    connection.close()
