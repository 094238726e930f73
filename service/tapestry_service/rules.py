"""The file RULES: who speaks as whom, which queries run when they are due, and where their documents go.

    # a comment
    user LOGIN NAME                        this login of the system speaks as NAME
    run NAME QUERY                         NAME's query runs when it is due
    deliver NAME QUERY maildir PATH        the same, and its documents go into a maildir
    deliver NAME QUERY digest COMMAND ..   the same, and COMMAND gets each run's digest on its standard input

Words stand between blanks. A word in quotes, of either kind, may have blanks; nothing else is special, and no shell reads them.
A word that begins with # begins a comment.
"""

from __future__ import annotations

import os
import re
from typing import Dict, FrozenSet, List, NamedTuple, Optional, Tuple

_NAME = re.compile(r"[a-z][a-z0-9_.-]{0,31}")
_WORD = re.compile(r"""[ \t]*(?:(?P<comment>\#.*)|(?P<word>(?:"[^"]*"|'[^']*'|[^ \t"'])+))""")
_QUOTED = re.compile(r""""([^"]*)"|'([^']*)'""")


class WrongRule(Exception):
    """A line of RULES that is no rule: its text is `FILE:LINE: WHY`."""


class QueryName(NamedTuple):
    """A query of a user."""

    user: str
    query: str

    def __str__(self) -> str:
        return f"{self.user}'s query {self.query}"


class Maildir(NamedTuple):
    """A query's documents go into the maildir at the path."""

    of: QueryName
    path: str


class Digest(NamedTuple):
    """The command gets each digest of a query on its standard input."""

    of: QueryName
    command: Tuple[str, ...]


class Rules(NamedTuple):
    """What RULES says. `queries` has each query that runs when it is due once, in order of the lines. `served` are the users of a
    shard; None stands for all."""

    users: Dict[str, str]
    queries: Tuple[QueryName, ...]
    maildirs: Tuple[Maildir, ...]
    digests: Tuple[Digest, ...]
    served: Optional[FrozenSet[str]] = None

    def name_of(self, login: str) -> Optional[str]:
        """The name that a login speaks as: that of its line, else itself if it is a valid name, else None."""
        return self.users.get(login) or (login if is_name(login) else None)

    def serves(self, user: str) -> bool:
        """Whether this service has the user."""
        return self.served is None or user in self.served

    def only(self, served: FrozenSet[str]) -> "Rules":
        """The rules of these users: what runs and goes somewhere for the others is left out."""
        return self._replace(
            queries=tuple(it for it in self.queries if it.user in served),
            maildirs=tuple(it for it in self.maildirs if it.of.user in served),
            digests=tuple(it for it in self.digests if it.of.user in served),
            served=served,
        )


def is_name(text: str) -> bool:
    """Whether the text is a valid name of a user or a query."""
    return _NAME.fullmatch(text) is not None


def words_of(line: str) -> List[str]:
    """The words of a line. Raises ValueError for a quote that doesn't end."""
    words, at, line = [], 0, line.rstrip(" \t")
    while at < len(line):
        found = _WORD.match(line, at)
        if found is None:
            raise ValueError("a quote has no end")
        if found["comment"] is not None:
            break
        words.append(_QUOTED.sub(lambda it: it[1] if it[1] is not None else it[2], found["word"]))
        at = found.end()
    return words


def _query_name(words: List[str]) -> QueryName:
    for word, what in zip(words, ("user", "query")):
        if not is_name(word):
            raise ValueError(f"{word} isn't a valid name of a {what}: 1 to 32 of a-z 0-9 _ . -, first a letter")
    return QueryName(*words)


class _Reader:
    def __init__(self) -> None:
        self.users: Dict[str, str] = {}
        self.queries: Dict[QueryName, None] = {}
        self.maildirs: List[Maildir] = []
        self.digests: List[Digest] = []

    def take(self, words: List[str]) -> None:
        """Adds the rule of a line; raises ValueError if it is none."""
        word, rest = words[0], words[1:]
        if word == "user":
            self._take_user(rest)
        elif word == "run":
            if len(rest) != 2:
                raise ValueError("it wants: run NAME QUERY")
            self.queries[_query_name(rest)] = None
        elif word == "deliver":
            self._take_delivery(rest)
        else:
            raise ValueError(f"{word} is none of user, run and deliver")

    def _take_user(self, rest: List[str]) -> None:
        if len(rest) != 2:
            raise ValueError("it wants: user LOGIN NAME")
        if not is_name(rest[1]):
            raise ValueError(f"{rest[1]} isn't a valid name of a user: 1 to 32 of a-z 0-9 _ . -, first a letter")
        if rest[0] in self.users:
            raise ValueError(f"the login {rest[0]} has a line already")
        self.users[rest[0]] = rest[1]

    def _take_delivery(self, rest: List[str]) -> None:
        if len(rest) < 4 or rest[2] not in ("maildir", "digest") or (rest[2] == "maildir" and len(rest) != 4):
            raise ValueError("it wants: deliver NAME QUERY maildir PATH, or: deliver NAME QUERY digest COMMAND ..")
        of = _query_name(rest[:2])
        if rest[2] == "maildir":
            rule = Maildir(of, os.path.abspath(rest[3]))
            if rule in self.maildirs:
                raise ValueError("the same delivery has a line already")
            self.maildirs.append(rule)
        else:
            if any(it.of == of for it in self.digests):
                raise ValueError("the query has a digest already: let one command do both")
            self.digests.append(Digest(of, tuple(rest[3:])))
        self.queries[of] = None


def users_of(given: str) -> FrozenSet[str]:
    """The users of LIST: names with commas between, or, if it has a slash, those of the file at this path, between blanks and line
    ends. Raises WrongRule if one isn't a name or there is none, and OSError if the file can't be read."""
    words = given.split(",")
    if "/" in given:
        with open(given, encoding="utf-8", errors="surrogateescape") as file:
            words = file.read().split()
    for word in words or [""]:
        if not is_name(word):
            raise WrongRule(f"--users {given}: `{word}` isn't a valid name of a user")
    return frozenset(words)


def read_rules(path: str, users: Optional[str] = None) -> Rules:
    """Reads RULES, of a shard those of its users alone. Raises WrongRule for the first wrong line, and OSError if it can't be
    read."""
    reader = _Reader()
    with open(path, encoding="utf-8", errors="surrogateescape", newline="\n") as file:
        for number, line in enumerate(file, 1):
            try:
                words = words_of(line.rstrip("\n").rstrip("\r"))
                if words:
                    reader.take(words)
            except ValueError as why:
                raise WrongRule(f"{path}:{number}: {why}") from None
    rules = Rules(reader.users, tuple(reader.queries), tuple(reader.maildirs), tuple(reader.digests))
    return rules if users is None else rules.only(users_of(users))
