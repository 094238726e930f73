"""Messages to systemd: readiness, what the service does, and the watchdog (sd_notify(3))."""

from __future__ import annotations

import os
import socket
from typing import Mapping, Optional


class Notify:
    """Sends datagrams to the socket that NOTIFY_SOCKET names, and nothing if it isn't set."""

    def __init__(self, environment: Optional[Mapping[str, str]] = None):
        given = os.environ if environment is None else environment
        name = given.get("NOTIFY_SOCKET", "")
        self._address = "\0" + name[1:] if name.startswith("@") else name
        self._socket: Optional[socket.socket] = None
        self._status = ""
        self.watchdog: Optional[float] = None
        period, pid = given.get("WATCHDOG_USEC", ""), given.get("WATCHDOG_PID", "")
        if period.isdigit() and int(period) > 0 and pid in ("", str(os.getpid())):
            #: Seconds between two signs of life: half of what systemd waits.
            self.watchdog = int(period) / 2_000_000
        if self._address:
            self._socket = socket.socket(socket.AF_UNIX, socket.SOCK_DGRAM | socket.SOCK_CLOEXEC)
            self._socket.setblocking(False)

    def send(self, *lines: str) -> bool:
        """Sends these lines as one message; returns whether it was taken. It isn't if systemd doesn't read at the moment."""
        if self._socket is None:
            return True
        try:
            self._socket.sendto("\n".join(lines).encode("utf-8", "replace"), self._address)
        except OSError as error:
            return not isinstance(error, BlockingIOError)
        return True

    def ready(self) -> bool:
        """The service takes mail and users from now on. It is to be said again if it wasn't taken."""
        return self.send("READY=1")

    def status(self, text: str) -> None:
        """What `systemctl status` shows."""
        if text != self._status and self.send("STATUS=" + text.replace("\n", " ")):
            self._status = text

    def alive(self) -> None:
        """The sign of life for the watchdog."""
        self.send("WATCHDOG=1")

    def stopping(self) -> None:
        """The service ends."""
        self.send("STOPPING=1")
