"""News of a folder, without polling: inotify(7) by the C library."""

from __future__ import annotations

import ctypes
import os
import struct
from typing import Optional

_CREATE, _MOVED_TO, _DELETE_SELF, _MOVE_SELF = 0x100, 0x80, 0x400, 0x800
_NONBLOCK, _CLOEXEC = os.O_NONBLOCK, os.O_CLOEXEC
_EVENT = struct.Struct("iIII")  # watch, what happened, cookie, bytes of the name that follows


class Watch:
    """A file descriptor that is readable once a name came into the folder. `fd` is None if the system can't tell; then the folder
    has to be looked at now and then."""

    def __init__(self, folder: str):
        self.fd: Optional[int] = None
        self._folder = os.fsencode(folder)
        self._number = -1
        try:
            self._libc = ctypes.CDLL(None, use_errno=True)
            fd = self._libc.inotify_init1(_NONBLOCK | _CLOEXEC)
        except (OSError, AttributeError):
            return
        if fd < 0:
            return
        self.fd = fd
        if not self._begin():
            self.close()

    def _begin(self) -> bool:
        """Watches the folder that is at the path now."""
        news = _CREATE | _MOVED_TO | _DELETE_SELF | _MOVE_SELF
        self._number = self._libc.inotify_add_watch(self.fd, self._folder, ctypes.c_uint32(news))
        return self._number >= 0

    def clear(self) -> None:
        """Reads away the news, so that the descriptor is readable at the next ones. If the folder itself went, the one that has
        come in its place, now or by the next call, is watched from then on."""
        if self.fd is None:
            return
        try:
            while data := os.read(self.fd, 65536):
                self._look_at(data)
        except BlockingIOError:
            pass
        if self._number < 0:
            self._begin()

    def _look_at(self, data: bytes) -> None:
        """Notes whether the folder itself went."""
        at = 0
        while at + _EVENT.size <= len(data):
            number, what, _, length = _EVENT.unpack_from(data, at)
            at += _EVENT.size + length
            if number == self._number and what & (_DELETE_SELF | _MOVE_SELF):
                self._libc.inotify_rm_watch(self.fd, number)
                self._number = -1

    def close(self) -> None:
        """Ends the watch."""
        if self.fd is not None:
            os.close(self.fd)
            self.fd = None
