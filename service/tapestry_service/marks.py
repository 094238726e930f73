"""Marks: the last run of each query whose documents were handed over."""

from __future__ import annotations

import hashlib
from typing import Dict, Iterable, NamedTuple, Optional

from .files import read_or_none, replace_synced
from .log import WARNING, say
from .rules import QueryName, is_name


class Mark(NamedTuple):
    """All runs up to `run` were handed over. `last` is the last of them that delivered something, and `sum` the checksum of its
    digest, by which another store is told apart."""

    run: int
    last: int
    sum: str


NO_MARK = Mark(0, 0, "-")


class Marks:
    """A file with a line `USER QUERY RUN LAST SUM` for each query."""

    def __init__(self, path: str):
        self.path = path
        self._marks: Optional[Dict[QueryName, Mark]] = None

    def _all(self) -> Dict[QueryName, Mark]:
        if self._marks is None:
            found: Dict[QueryName, Mark] = {}
            for line in (read_or_none(self.path) or b"").decode("ascii", "replace").splitlines():
                read = read_mark(line)
                if read is None:
                    say(f"{self.path}: the line `{line[:80]}` isn't of this service: it is passed over", WARNING)
                else:
                    found[read[0]] = read[1]
            self._marks = found
        return self._marks

    def get(self, of: QueryName) -> Optional[Mark]:
        """The mark of a query, if it has one."""
        return self._all().get(of)

    def put(self, of: QueryName, mark: Mark) -> None:
        """Writes the mark of a query, and syncs it."""
        marks = {**self._all(), of: mark}
        replace_synced(self.path, "".join(mark_line(*it) + "\n" for it in marks.items()).encode())
        self._marks = marks

    def forget(self) -> None:
        """Reads the file again at the next call."""
        self._marks = None


def mark_line(of: QueryName, mark: Mark) -> str:
    """A mark as a line."""
    return f"{of.user} {of.query} {mark.run} {mark.last} {mark.sum}"


def read_mark(line: str) -> "Optional[tuple[QueryName, Mark]]":
    """The mark of a line, or None if it is none."""
    words = line.split()
    if len(words) != 5 or not all(map(is_name, words[:2])) or not all(it.isdigit() for it in words[2:4]):
        return None
    return QueryName(*words[:2]), Mark(int(words[2]), int(words[3]), words[4])


def digest_sum(lines: Iterable[bytes]) -> str:
    """The checksum of a digest."""
    return hashlib.sha256(b"".join(it + b"\n" for it in lines)).hexdigest()[:32]
