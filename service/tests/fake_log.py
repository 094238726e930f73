"""A stand-in for the shared log: a file that processes share, with the replies of the server's scripts.

FILE.clock may have the server's second. While FILE.down is there, nothing can be asked.
"""

from __future__ import annotations

import contextlib
import fcntl
import json
import os
import time
from typing import Any, Dict, Iterator, List, Optional

import support  # noqa: F401  where the service is
from tapestry_service.shared_log import (
    DOC,
    DOCUMENTS,
    NOTES,
    READING,
    ROOM_OF_SHARD,
    STORE_BYTES,
    Item,
    LogFails,
    Put,
    Reading,
    Row,
)

#: A daemon that follows such a log.
FOLLOWING = """
import sys
sys.path[:0] = [{service!r}, {tests!r}]
import fake_log
from tapestry_service import main
main.SharedLog = fake_log.FileLog
sys.exit(main.main())
"""


class FileLog:
    """The log in a file."""

    def __init__(self, url: str):
        self.path = url.split("://")[-1]
        self.where = url
        #: The most bytes of all texts.
        self.room = STORE_BYTES - ROOM_OF_SHARD

    @contextlib.contextmanager
    def state(self) -> Iterator[Dict[str, Any]]:
        """What the file has; what is changed is written in the end."""
        with open(self.path + ".lock", "ab") as lock:
            fcntl.flock(lock, fcntl.LOCK_EX)
            if os.path.exists(self.path + ".down"):
                raise LogFails("it is down")
            state: Dict[str, Any] = {"id": "", "second": 0, "docs": 0, "notes": 0, "bytes": 0, "rows": [], "names": {}}
            with contextlib.suppress(FileNotFoundError), open(self.path) as file:
                state = json.load(file)
            before = json.dumps(state)
            yield state
            if json.dumps(state) != before:
                with open(self.path + ".part", "w") as file:
                    json.dump(state, file)
                os.rename(self.path + ".part", self.path)

    def now(self) -> int:
        with contextlib.suppress(FileNotFoundError), open(self.path + ".clock") as file:
            return int(file.read())
        return int(time.time())

    def put(self, wanted: str, items: List[Item]) -> Put:
        with self.state() as state:
            if wanted not in ("", state["id"]):
                return Put(state["id"], "other", [])
            if len(state["rows"]) != state["docs"] + state["notes"]:
                return Put(state["id"], "cut", [])
            docs, notes, size, found, new = state["docs"], state["notes"], state["bytes"], [], []
            for item in items:
                known = state["names"].get(item.name.hex())
                if known is None:
                    if item.kind != DOC and not 0 < item.doc <= docs:
                        return Put(state["id"], "document", [])
                    docs, notes, size = docs + (item.kind == DOC), notes + (item.kind != DOC), size + item.size
                    known = [docs + notes, docs if item.kind == DOC else notes]
                    new.append((item, known))
                found.append((known[0], known[1]))
            for holds, limit in ((docs > DOCUMENTS, "documents"), (notes > NOTES, "notes"), (size > self.room, "store")):
                if holds:
                    return Put(state["id"], limit, [])
            identity = state["id"] or os.urandom(8).hex()
            if new:
                state.update(id=identity, second=max(state["second"], self.now()), docs=docs, notes=notes, bytes=size)
            for item, known in new:
                texts = [it.decode("latin-1") for it in (item.kind, item.user, item.text)]
                state["rows"].append([known[0], state["second"], texts[0], known[1], texts[1], texts[2]])
                state["names"][item.name.hex()] = known
            return Put(identity, "", found)

    def read(self, place: int) -> Reading:
        with self.state() as state:
            told = max(state["second"], self.now())
            if not state["id"] and place == 0:
                state["id"] = os.urandom(8).hex()
            if state["id"]:
                state["second"] = told
            rows = [it for it in state["rows"] if it[0] >= place][:READING]
            return Reading(state["id"], state["docs"] + state["notes"], told, 0.05, [row_of(it) for it in rows])

    def wait(self, place: int, seconds: float) -> None:
        end = time.monotonic() + seconds
        while time.monotonic() < end:
            with self.state() as state:
                if any(it[0] > place for it in state["rows"]):
                    return
            time.sleep(0.01)

    def unsafe(self) -> Optional[str]:
        return None


def row_of(it: List[Any]) -> Row:
    return Row(it[0], it[1], it[2].encode(), it[3], it[4].encode("latin-1"), it[5].encode("latin-1"))
