"""The log that all shards share: mail and notes in one order, as rows of a stream on a Redis server.

Row n has the id `n-0`. It has the second at which it was put, and its number among the messages or among the notes. Two scripts on
the server are all that touches the log, so each is done whole or not at all, one after the other:

- `put` appends rows, at a second that never falls: that of the server's clock, or the greatest one that was told before. It only
  appends what each store takes: the document of a note is there, and messages and notes stay within the limits of a store, less
  ROOM_OF_SHARD for its queries and filters. So a store that follows the log adds every row, and the number of its rows says how far
  it is. A log that lacks rows gets no more.
- A row has a name. What comes again under a name that is there isn't appended again: a process that was stopped, or that lost its
  connection, puts the same once more. Names are kept as long as the log. It ends with the limits of a store, so there are at most
  two millions of them, each of some 100 bytes.
- `read` gives the rows from a place on, and a second. No row that is put later has an earlier one.

With `appendonly yes` and `appendfsync always` the server replies when its disk has what the reply says.
"""

from __future__ import annotations

import secrets
from typing import Any, List, NamedTuple, Optional, Tuple
from urllib.parse import urlsplit

from .messages import MESSAGE_LIMIT

DOC, NOTE = b"doc", b"note"

#: The limits of a store: documents, notes, and the bytes of all texts, of which a shard's queries and filters get some.
DOCUMENTS = NOTES = 1_000_000
STORE_BYTES = 134_217_728
ROOM_OF_SHARD = 16_777_216

#: Rows of one reading.
READING = 500

#: Seconds for a reply of the server, and for one that may wait for a row.
REPLY_LIMIT = 10.0
LONGEST_WAIT = 1.0

KEYS = ["tapestry:rows", "tapestry:about", "tapestry:names"]

# The identity that the log must have, a fresh one, the limits of documents, notes and bytes; then six words an item.
_PUT = """
local id, second, docs, notes, bytes = unpack(redis.call('HMGET', KEYS[2], 'id', 'second', 'docs', 'notes', 'bytes'))
if ARGV[1] ~= '' and ARGV[1] ~= id then return {id or '', 'other'} end
second = math.max(tonumber(redis.call('TIME')[1]), tonumber(second or 0))
docs, notes, bytes = tonumber(docs or 0), tonumber(notes or 0), tonumber(bytes or 0)
if redis.call('XLEN', KEYS[1]) ~= docs + notes then return {id or '', 'cut'} end
local found, new = {}, {}
for at = 6, #ARGV, 6 do
  local known = redis.call('HGET', KEYS[3], ARGV[at])
  if not known then
    if ARGV[at + 1] == 'doc' then
      docs = docs + 1
      known = docs + notes .. ' ' .. docs
    else
      local of = tonumber(ARGV[at + 5])
      if of < 1 or of > docs then return {id or '', 'document'} end
      notes = notes + 1
      known = docs + notes .. ' ' .. notes
    end
    bytes = bytes + tonumber(ARGV[at + 4])
    new[#new + 1] = {at, known}
  end
  found[#found + 1] = known
end
if docs > tonumber(ARGV[3]) then return {id or '', 'documents'} end
if notes > tonumber(ARGV[4]) then return {id or '', 'notes'} end
if bytes > tonumber(ARGV[5]) then return {id or '', 'store'} end
id = id or ARGV[2]
for _, it in ipairs(new) do
  local at, place, number = it[1], string.match(it[2], '(%d+) (%d+)')
  redis.call('XADD', KEYS[1], place .. '-0', 'at', second, 'kind', ARGV[at + 1], 'number', number,
    'user', ARGV[at + 2], 'text', ARGV[at + 3])
  redis.call('HSET', KEYS[3], ARGV[at], it[2])
end
if #new > 0 then
  redis.call('HSET', KEYS[2], 'id', id, 'second', second, 'docs', docs, 'notes', notes, 'bytes', bytes)
end
return {id, '', found}
"""

# The place from which on rows are wanted, how many at most, a fresh identity. A log that is lost isn't begun anew by a store with rows.
_READ = """
local id, second, docs, notes = unpack(redis.call('HMGET', KEYS[2], 'id', 'second', 'docs', 'notes'))
local time = redis.call('TIME')
local told = math.max(tonumber(time[1]), tonumber(second or 0))
if not id and ARGV[1] == '0' then
  id = ARGV[3]
  redis.call('HSET', KEYS[2], 'id', id)
end
if id and told > tonumber(second or 0) then redis.call('HSET', KEYS[2], 'second', told) end
local rows = redis.call('XRANGE', KEYS[1], ARGV[1] .. '-0', '+', 'COUNT', ARGV[2])
return {id or '', tonumber(docs or 0) + tonumber(notes or 0), told, 1000000 - time[2], rows}
"""


class LogFails(Exception):
    """The log can't be asked now; its text says why."""


class Item(NamedTuple):
    """What is to be put: the text of a message, or the line of a note on a document. `size` is what counts for a store's limit."""

    name: bytes
    kind: bytes
    user: bytes
    text: bytes
    size: int
    doc: int = 0


class Row(NamedTuple):
    """A row: its place from 1 on, its second, and its number among the rows of its kind."""

    place: int
    at: int
    kind: bytes
    number: int
    user: bytes
    text: bytes


class Put(NamedTuple):
    """What became of items: the log's identity, and place and number of each. `refused` is empty, or says why none was put: `other`
    (this is another log), `cut` (it lacks rows), `document` (there is none of this number), or the limit that would be passed."""

    identity: str
    refused: str
    rows: List[Tuple[int, int]]


class Reading(NamedTuple):
    """Rows from a place on, the number of all rows, the second that the log told, and how long the server's clock shows it."""

    identity: str
    total: int
    second: int
    rest: float
    rows: List[Row]


class SharedLog:
    """A connection to the log at a URL, as redis://HOST:PORT/DB, rediss://.. or unix://PATH?db=DB. Raises ImportError if python3-redis
    is missing, and ValueError if the URL is none."""

    def __init__(self, url: str):
        import redis

        self.where = where(url)
        self._fault = redis.exceptions.RedisError
        self._client = redis.Redis.from_url(url, socket_timeout=REPLY_LIMIT)
        self._put = self._client.register_script(_PUT)
        self._read = self._client.register_script(_READ)

    def put(self, wanted: str, items: List[Item]) -> Put:
        """Appends items, all or none, but for those that are there. `wanted` is the identity that the log must have, if not empty."""
        words: List[Any] = [wanted, secrets.token_hex(16), DOCUMENTS, NOTES, STORE_BYTES - ROOM_OF_SHARD]
        for it in items:
            words += it
        given = self._ask(lambda: self._put(KEYS, words))
        rows = [tuple(map(int, it.split())) for it in given[2]] if len(given) > 2 else []
        return Put(given[0].decode(), given[1].decode(), rows)  # type: ignore[arg-type]

    def read(self, place: int) -> Reading:
        """The rows from a place on. A log that has none yet is begun by a reading from 0."""
        words = [place, READING, secrets.token_hex(16)]
        identity, total, second, rest, rows = self._ask(lambda: self._read(KEYS, words))
        return Reading(identity.decode(), total, second, rest / 1e6, [_row_of(*it) for it in rows])

    def wait(self, place: int, seconds: float) -> None:
        """Waits until there is a row after a place, and at most that long."""
        self._ask(lambda: self._client.xread({KEYS[0]: f"{place}-0"}, count=1, block=max(1, int(1000 * min(seconds, LONGEST_WAIT)))))

    def unsafe(self) -> Optional[str]:
        """What the server is to be told so that it loses nothing, as far as it says how it is set up."""
        try:
            found = {key: value for key, value in self._client.config_get("append*").items()}
        except self._fault:
            return None
        wrong = [f"{key} {value}" for key, value in (("appendonly", "yes"), ("appendfsync", "always")) if found.get(key) != value]
        return " and ".join(wrong) or None

    def _ask(self, call: Any) -> Any:
        try:
            return call()
        except self._fault as why:
            raise LogFails(f"the server says `{why}`") from None


def _row_of(key: bytes, words: List[bytes]) -> Row:
    fields = dict(zip(words[::2], words[1::2]))
    return Row(int(key.split(b"-")[0]), int(fields[b"at"]), fields[b"kind"], int(fields[b"number"]), fields[b"user"], fields[b"text"])


def where(url: str) -> str:
    """The URL without a password, for people."""
    parts = urlsplit(url)
    return url if "@" not in parts.netloc else parts._replace(netloc=parts.netloc.rpartition("@")[2]).geturl()


def message_item(name: bytes, text: bytes) -> Item:
    """A message to put. It has at most MESSAGE_LIMIT bytes."""
    assert len(text) <= MESSAGE_LIMIT
    return Item(name, DOC, b"", text, len(text))
