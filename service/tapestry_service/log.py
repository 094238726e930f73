"""Log lines on standard error, as systemd and people read them."""

from __future__ import annotations

import errno
import os
import pwd
import sys

ERROR, WARNING, NOTICE, INFO = 3, 4, 5, 6


def say(text: str, level: int = INFO) -> None:
    """Writes one line. Under systemd the level goes before it, so that the journal can tell them apart."""
    line = " ".join(text.split("\n"))
    prefix = f"<{level}>" if "JOURNAL_STREAM" in os.environ else ""
    try:
        sys.stderr.write(f"{prefix}tapestryd: {line}\n")
        sys.stderr.flush()
    except (OSError, ValueError):
        pass  # a log that can't be written stops no mail


def own_login() -> str:
    """The login that this process runs as."""
    try:
        return pwd.getpwuid(os.geteuid()).pw_name
    except KeyError:
        return str(os.geteuid())


def advice(error: OSError, path: str) -> str:
    """What happened at a path, and what to do about it."""
    where = os.fsdecode(error.filename) if error.filename else path
    if error.errno in (errno.ENOSPC, errno.EDQUOT):
        return f"no room at {where}: make room on that disk or raise the quota"
    if error.errno == errno.EROFS:
        return f"{where} is on a read-only file system: mount it writable, or list it in ReadWritePaths of the unit"
    if error.errno in (errno.EACCES, errno.EPERM):
        return f"{own_login()} may not write at {where}: give that login the right to"
    if error.errno in (errno.ENOENT, errno.ENOTDIR):
        return f"{where} isn't there: make its folder"
    if error.errno == errno.EADDRINUSE:
        return f"something else is at {where}: end the service that listens there, remove the file, or name another path"
    return f"{error.strerror or error} at {where}"
