"""A daemon for tests: it answers from a table, and records what it was sent."""

from __future__ import annotations

import io
import os
import select
import socket
import sys
import tempfile
import threading
import time
import unittest.mock
from typing import Callable, Optional, Union

from support import SERVICE
from tapestry_service import SOCKET_VARIABLE
from tapestry_service.client.command_line import main

TAP = os.path.join(SERVICE, "tap")
_BLOCKS = (b"mail", b"mbox", b"filter")
Answer = Union[bytes, Callable[[bytes], Optional[bytes]]]


class FakeDaemon:
    """Accepts one connection after another, and answers each command by the first entry whose beginning it has.

    The value of an entry is the reply's bytes, or a function from the command to them; None closes the connection. A command that
    no entry fits gets `no 1`. `commands` are the commands as they came, blocks with their dot; `turns` counts how often the client
    sent something after all replies had been written.
    """

    def __init__(self, answers: dict[bytes, Answer]) -> None:
        self.answers = answers
        self.commands: list[bytes] = []
        self.turns = 0
        self._folder = tempfile.TemporaryDirectory()
        self.path = os.path.join(self._folder.name, "socket")
        self._server = socket.socket(socket.AF_UNIX)
        self._server.bind(self.path)
        self._server.listen(5)
        self._thread = threading.Thread(target=self._serve, daemon=True)

    def __enter__(self) -> "FakeDaemon":
        self._thread.start()
        return self

    def __exit__(self, *_: object) -> None:
        self._server.shutdown(socket.SHUT_RDWR)
        self._server.close()
        self._thread.join(5)
        self._folder.cleanup()

    def _serve(self) -> None:
        while True:
            try:
                client, _ = self._server.accept()
            except OSError:
                return
            with client:
                try:
                    self._talk(client)
                except OSError:
                    pass

    def _talk(self, client: socket.socket) -> None:
        data = b""
        while piece := client.recv(1 << 20):
            data += piece
            while select.select([client], [], [], 0.03)[0]:
                piece = client.recv(1 << 20)
                if not piece:
                    break
                data += piece
            commands, data = cut(data)
            self.turns += 1
            replies = b""
            for command in commands:
                self.commands.append(command)
                reply = self._reply(command)
                if reply is None:
                    client.sendall(replies)
                    return
                replies += reply
            client.sendall(replies)

    def _reply(self, command: bytes) -> bytes | None:
        for beginning, answer in self.answers.items():
            if command.startswith(beginning):
                return answer(command) if callable(answer) else answer
        return b"no 1\n"


def cut(data: bytes) -> tuple[list[bytes], bytes]:
    """Cuts bytes into whole commands and a rest."""
    commands: list[bytes] = []
    at = 0
    while (end := data.find(b"\n", at)) >= 0:
        end += 1
        if data[at : end - 1].split()[:1] and data[at : end - 1].split()[0] in _BLOCKS:
            dot = data.find(b"\n.\n", end - 1)
            if dot < 0:
                break
            end = dot + 3
        commands.append(data[at:end])
        at = end
    return commands, data[at:]


class Ended:
    """How a run of `tap` ended: its status, and what it wrote."""

    def __init__(self, status: int, out: str, err: str) -> None:
        self.status, self.out, self.err = status, out, err

    def __repr__(self) -> str:
        return f"status {self.status}\n{self.out}---\n{self.err}"


def tap(path: str | None, *words: str, given: bytes = b"", **environment: str) -> Ended:
    """Does what `tap` does, in this process, against the socket at this path.

    The terminal has 80 columns and the zone is UTC if the environment says no other.
    """
    variables = {"COLUMNS": "80", "TZ": "UTC", **environment}
    if path is not None:
        variables[SOCKET_VARIABLE] = path
    streams = [io.TextIOWrapper(io.BytesIO(it), encoding="utf-8", newline="\n") for it in (given, b"", b"")]
    with (
        unittest.mock.patch.dict(os.environ, variables),
        unittest.mock.patch.multiple(sys, stdin=streams[0], stdout=streams[1], stderr=streams[2]),
    ):
        if path is None:
            os.environ.pop(SOCKET_VARIABLE, None)
        time.tzset()
        try:
            status = main(words)
        except SystemExit as end:
            status = end.code if isinstance(end.code, int) else 1
    time.tzset()
    for stream in streams[1:]:
        stream.flush()
    out, err = (it.buffer.getvalue().decode() for it in streams[1:])  # type: ignore[attr-defined]
    return Ended(status, out, err)
