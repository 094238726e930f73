"""What the tests share: folders, a running service, and clients."""

from __future__ import annotations

import contextlib
import os
import pwd
import random
import shutil
import signal
import socket
import subprocess
import sys
import tempfile
import time
import unittest
from typing import Any, Callable, Dict, Generator, Iterable, List, Optional

SERVICE = os.path.dirname(os.path.dirname(os.path.abspath(__file__)))
TESTS = os.path.join(SERVICE, "tests")
FAKE = os.path.join(TESTS, "fake_tapestry.py")
if SERVICE not in sys.path:
    sys.path.insert(0, SERVICE)

from tapestry_service.replies import Reply, read_reply  # noqa: E402

#: Where the tests' files are: in memory, if that may be written, since each change is synced.
FAST = "/dev/shm" if os.access("/dev/shm", os.W_OK) else None

LOGIN = pwd.getpwuid(os.geteuid()).pw_name


def the_program(variable: str = "TAPESTRY") -> str:
    """The real program that a variable of the environment names. Without one these tests fail, unless SERVICE_TESTS=alone says
    that only the others are wanted."""
    path = os.environ.get(variable, "")
    if path and os.access(path, os.X_OK):
        return os.path.abspath(path)
    if os.environ.get("SERVICE_TESTS") == "alone":
        raise unittest.SkipTest("SERVICE_TESTS=alone: what needs the program is left out")
    name = "tapestry_pop" if variable == "TAPESTRY_POP" else "tapestry"
    raise AssertionError(
        f"{variable} names no program ({path or 'it is not set'}): `tools/build.py program {name}` proves and builds it;"
        " SERVICE_TESTS=alone leaves these tests out"
    )


class Folder(unittest.TestCase):
    """A test with a folder of its own, `self.at`, which is removed after it."""

    def setUp(self) -> None:
        self.at = tempfile.mkdtemp(prefix="service-", dir=FAST)
        self.addCleanup(shutil.rmtree, self.at, ignore_errors=True)

    def place(self, *names: str) -> str:
        return os.path.join(self.at, *names)

    def read(self, *names: str) -> bytes:
        with open(self.place(*names), "rb") as file:
            return file.read()


def wait_until(holds: Callable[[], Any], what: str, seconds: float = 90.0) -> Any:
    """Waits until something holds, and returns it; fails after that many seconds, which a busy machine may take."""
    end = time.monotonic() + seconds
    while True:
        found = holds()
        if found:
            return found
        if time.monotonic() > end:
            raise AssertionError(f"not within {seconds:.0f} seconds: {what}")
        time.sleep(0.01)


def end_process(process: "subprocess.Popen[bytes]") -> None:
    """Kills a process, unless it has ended, waits for its end, and closes the pipes to it."""
    process.kill()
    with process:
        pass


class Talk:
    """A client's connection."""

    def __init__(self, path: str, timeout: float = 90.0):
        self.socket = socket.socket(socket.AF_UNIX)
        try:
            # With a timeout it fails at once if others wait to be accepted.
            self.socket.connect(path)
        except OSError:
            self.socket.close()
            raise
        self.socket.settimeout(timeout)
        self.file = self.socket.makefile("rb")

    def say(self, data: bytes) -> Optional[Reply]:
        """Sends a command and returns its reply, or what was said to a client that is refused."""
        with contextlib.suppress(BrokenPipeError):
            self.socket.sendall(data)
        return read_reply(self.file)

    def line(self, data: bytes) -> str:
        """Sends a command and returns the first line of its reply."""
        reply = self.say(data)
        return "" if reply is None else reply.first.decode()

    def close(self) -> None:
        self.file.close()
        self.socket.close()


class Service:
    """A running tapestryd with its files in a folder."""

    def __init__(self, at: str, program: str, rules: str = "", words: Iterable[str] = (), script: Optional[str] = None):
        self.at, self.program, self.words, self.script = at, program, list(words), script
        self.environment: Dict[str, str] = {}
        self.process: Optional["subprocess.Popen[bytes]"] = None
        self.store, self.spool, self.socket = (os.path.join(at, it) for it in ("store", "spool", "socket"))
        self.rules, self.log = os.path.join(at, "rules"), os.path.join(at, "log")
        for folder in ("new", "tmp"):
            os.makedirs(os.path.join(self.spool, folder), exist_ok=True)
        self.write_rules(rules)
        open(self.log, "ab").close()
        self._number = 0
        self._talks: List[Talk] = []

    def write_rules(self, rules: str) -> None:
        with open(self.rules, "w") as file:
            file.write(rules)

    def start(self, is_ready: bool = True) -> None:
        before = self.said().count("ready:")
        with open(self.log, "ab") as log:
            words = ["--store", self.store, "--spool", self.spool, "--socket", self.socket, "--rules", self.rules, *self.words]
            start = [sys.executable, self.script or os.path.join(SERVICE, "tapestryd")]
            environment = {**os.environ, "TAPESTRY": self.program, **self.environment}
            self.process = subprocess.Popen([*start, *words], stderr=log, stdout=log, env=environment)
        if is_ready:
            wait_until(lambda: self.said().count("ready:") > before or self.process.poll() is not None, "the service is ready")
            assert self.process.poll() is None, self.said()

    def said(self) -> str:
        with open(self.log, errors="replace") as file:
            return file.read()

    def children(self) -> List[int]:
        """The processes of the program under this service."""
        assert self.process is not None
        try:
            with open(f"/proc/{self.process.pid}/task/{self.process.pid}/children") as file:
                return [int(it) for it in file.read().split()]
        except OSError:
            return []

    def kill(self, number: int = signal.SIGKILL) -> None:
        assert self.process is not None
        self.process.send_signal(number)
        self.process.wait(30)

    def kill_program(self) -> bool:
        for pid in self.children():
            try:
                os.kill(pid, signal.SIGKILL)
                return True
            except ProcessLookupError:
                pass
        return False

    def stop(self) -> int:
        """Ends the service in order; returns its status."""
        if self.process is None or self.process.poll() is not None:
            return -1 if self.process is None else self.process.returncode
        self.process.send_signal(signal.SIGTERM)
        return self.process.wait(90)

    def put(self, data: bytes, name: Optional[str] = None) -> str:
        """Puts a message into the spool, as whoever delivers does."""
        if name is None:
            self._number += 1
            name = f"{self._number:08d}.test"
        tmp = os.path.join(self.spool, "tmp", name)
        with open(tmp, "wb") as file:
            file.write(data)
        os.rename(tmp, os.path.join(self.spool, "new", name))
        return name

    def waiting(self) -> List[str]:
        return os.listdir(os.path.join(self.spool, "new"))

    def wait_empty(self, seconds: float = 90.0) -> None:
        wait_until(lambda: not self.waiting(), "the spool is empty", seconds)

    def talk(self) -> Talk:
        """A connection, which ends with the test at the latest."""
        self._talks.append(Talk(self.socket))
        return self._talks[-1]

    def end(self) -> None:
        """Kills the service, if it runs, and closes the connections to it."""
        if self.process is not None:
            end_process(self.process)
        for talk in self._talks:
            talk.close()

    def once(self, data: bytes) -> str:
        talk = Talk(self.socket)
        try:
            return talk.line(data)
        finally:
            talk.close()


class WithService(Folder):
    """A test of a running service, which ends with it. The log is shown if the test fails."""

    def service(self, program: str, rules: str = "", **more: Any) -> Service:
        service = Service(self.at, program, rules, **more)
        self.addCleanup(self._end, service)
        return service

    def _end(self, service: Service) -> None:
        service.end()
        result = getattr(self._outcome, "result", None)  # type: ignore[attr-defined]
        bad = [*getattr(result, "failures", []), *getattr(result, "errors", [])] if result is not None else []
        if any(test is self for test, _ in bad) or not getattr(self._outcome, "success", True):  # type: ignore[attr-defined]
            sys.stderr.write(f"\n-- the log of {self.id()}:\n{service.said()[-3000:]}\n")


def a_second_here() -> float:
    """A second, or more on a machine that is so busy that an empty Python takes more than a twentieth of one."""
    began = time.monotonic()
    subprocess.run([sys.executable, "-S", "-c", ""], check=True)
    return max(1.0, 20 * (time.monotonic() - began))


class Driver:
    """Performs pieces of work over a table of replies or a function, without a loop."""

    def __init__(self, answer: Callable[[bytes], List[Reply]]):
        self.answer = answer
        self.sent: List[bytes] = []
        self.rests = 0

    def run(self, work: Generator[Any, Any, Any], most: int = 100_000) -> Any:
        replies: Any = None
        for _ in range(most):
            try:
                exchange = work.send(replies)
            except StopIteration as end:
                return end.value
            if exchange is None:
                self.rests += 1
                replies = None
                continue
            self.sent.append(exchange.data)
            if exchange.meanwhile is not None:
                exchange.meanwhile()
            replies = self.answer(exchange.data)
        raise AssertionError("a piece of work goes on and on")


def draw(seed: int) -> random.Random:
    return random.Random(seed)
