"""The digest of a run: what it delivered, as the program gives it."""

from __future__ import annotations

import re
from typing import Iterator, List, NamedTuple

_FROM = re.compile(rb"From doc ([0-9]+) first (-?[0-9]+)")
_QUOTED = re.compile(rb">+From ")

#: Lines before the first document: two header fields and an empty line.
HEAD = 3


class Document(NamedTuple):
    """A document of a digest: its number, the second from which on the query gives it, and its text."""

    number: int
    first: int
    text: bytes


def is_empty(lines: List[bytes]) -> bool:
    """Whether the run delivered nothing."""
    return len(lines) <= HEAD


def documents_of(lines: List[bytes]) -> Iterator[Document]:
    """The documents of a digest's lines."""
    starts = [at for at in range(HEAD, len(lines)) if lines[at].startswith(b"From ")]
    for start, end in zip(starts, starts[1:] + [len(lines)]):
        found = _FROM.fullmatch(lines[start])
        if found is None:
            raise ValueError(f"a digest has the line {lines[start]!r}")
        # The line before the next document is empty and not the document's.
        text = b"".join((line[1:] if _QUOTED.match(line) else line) + b"\n" for line in lines[start + 1 : end - 1])
        yield Document(int(found[1]), int(found[2]), text)


def message_of(lines: List[bytes], user: str, query: str, run: int, checksum: str) -> bytes:
    """A digest as a message. Its Message-ID is the same each time, so that a mail program can tell that it came twice."""
    identity = b"Message-ID: <%s.%d.%s.%s@tapestry>" % (query.encode(), run, user.encode(), checksum.encode())
    return b"".join(it + b"\n" for it in [*lines[:2], identity, *lines[2:]])
