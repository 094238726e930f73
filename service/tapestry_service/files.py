"""Files that survive a stop at any moment: a file or a change of names counts once it is synced."""

from __future__ import annotations

import fcntl
import os
from typing import Optional


def sync_folder(path: str) -> None:
    """Syncs the names of a folder."""
    fd = os.open(path, os.O_RDONLY | os.O_DIRECTORY | os.O_CLOEXEC)
    try:
        os.fsync(fd)
    finally:
        os.close(fd)


def write_synced(path: str, data: bytes, mode: int = 0o660) -> None:
    """Writes a file and syncs its bytes; its name isn't synced."""
    fd = os.open(path, os.O_WRONLY | os.O_CREAT | os.O_TRUNC | os.O_CLOEXEC | os.O_NOFOLLOW, mode)
    try:
        view = memoryview(data)
        while view:
            view = view[os.write(fd, view) :]
        os.fsync(fd)
    finally:
        os.close(fd)


def replace_synced(path: str, data: bytes, mode: int = 0o660) -> None:
    """Puts a whole file in the place of another, so that either the old or the new one is there, and syncs it."""
    write_synced(path + ".part", data, mode)
    os.rename(path + ".part", path)
    sync_folder(os.path.dirname(path))


def read_or_none(path: str) -> Optional[bytes]:
    """The bytes of a file, or None if there is no such file."""
    try:
        with open(path, "rb") as file:
            return file.read()
    except FileNotFoundError:
        return None


def remove(path: str) -> None:
    """Removes a file, if it is there."""
    try:
        os.unlink(path)
    except FileNotFoundError:
        pass


def hold(path: str) -> int:
    """Holds a file, so that two processes never do the same work. Raises BlockingIOError if another one has it."""
    fd = os.open(path, os.O_RDWR | os.O_CREAT | os.O_CLOEXEC, 0o660)
    fcntl.flock(fd, fcntl.LOCK_EX | fcntl.LOCK_NB)
    return fd
