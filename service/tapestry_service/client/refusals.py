"""Refusals in words, with their place under the text, as a compiler shows it."""

import re
from dataclasses import dataclass

from ..replies import BUSY, NO_NAME, OTHER_SHARD, OWN_COMMAND, SLOW, UNKNOWN_END, WAITING, Reply
from .layout import paragraph, printable, text_width

INDENT = "    "

_LIMITS = {
    "line": "the line would have more than 1,048,576 bytes",
    "message": "a message has more than 1,048,576 bytes",
    "block": "the block has more bytes than one may have: 16,777,216 of messages, 65,536 of a filter",
    "note": "the text of a note has more than 4,096 bytes",
    "documents": "the store is full: it has 1,000,000 documents",
    "notes": "the store is full: it has 1,000,000 notes",
    "queries": "you have 64 queries, which is the most",
    "allqueries": "the store is full: it has 4,000 queries of all users",
    "users": "the store is full: 1,000 users have a query or a filter",
    "filters": "the store is full: it has had 10,000 filters",
    "runs": "the store is full: it has 1,000,000 runs",
    "picks": "the store is full: it has 4,000,000 deliveries",
    "store": "the store is full: its texts would have more than 134,217,728 bytes",
}
_TABLE_FIELDS = {
    b"doc": "id, size, from, subject, msgid, inreplyto, ts, date, to, cc, newsgroups, references and words",
    b"note": "id, doc, value, author, kind, text and ts",
}
_TOKEN = re.compile(rb"'(?:[^']|'')*'|'[^\n]*|[A-Za-z_][A-Za-z0-9_]*|[0-9]+|<>|<=|>=|[\xc2-\xf4][\x80-\xbf]*|.", re.DOTALL)
_BLANKS = b" \t\r\n"


@dataclass(frozen=True)
class Asked:
    """What a refusal may speak of: the command's word, its name or number, and the text whose places it counts.

    `offset` is the place in `text` from which places are counted: that behind FROM NOW. `hint` is what to do if the program doesn't
    have the command.
    """

    command: str
    name: str = ""
    text: bytes = b""
    offset: int = 0
    hint: str = ""


@dataclass(frozen=True)
class Refusal:
    """A refusal taken apart: its number, the word after it, the place or number at its end, and the line of a filter."""

    number: int
    reason: str | None = None
    value: int | None = None
    line: int | None = None

    @property
    def place(self) -> int | None:
        """The byte at which the fault is, counted as the reply counts, or None."""
        if self.number in (12, 13, 14) and self.reason != "long":
            return self.value
        return self.value if self.number == 17 and self.line is not None else None


def refusal_of(reply: Reply) -> Refusal:
    """Takes the reply apart. What isn't known of it is left out; a reply that is no refusal has number 0."""
    if not reply.ok and reply.number >= OWN_COMMAND:
        # The daemon's own: words for people follow the number.
        return Refusal(reply.number, reply.words or None)
    words = reply.words.split()
    numbers = [int(it) for it in words if it.isascii() and it.isdigit()]
    reason = words[0] if words and not words[0].isdigit() else None
    number = 0 if reply.ok else reply.number
    if number == 17 and len(numbers) == 2:
        return Refusal(17, None, numbers[1], numbers[0])
    return Refusal(number, reason, numbers[-1] if numbers else None)


def from_now(text: bytes) -> int:
    """Returns where the condition of a query's text begins: behind FROM NOW and the blanks after it, or at 0."""
    found = re.match(rb"[ \t]*from[ \t]+now(?:[ \t]+|$)", text, re.IGNORECASE)
    return found.end() if found else 0


def words_of(refusal: Refusal, asked: Asked, reply: Reply) -> str:
    """Returns the refusal in words, without a place."""
    text = _plain(refusal, asked)
    if text is None and refusal.number == 12:
        text = _lexer(refusal)
    if text is None and refusal.number == 13:
        text = _parser(refusal, asked)
    if text is None and refusal.number == 14:
        text = _types(refusal, asked)
    if text is None and refusal.number == 16:
        text = _LIMITS.get(refusal.reason or "")
    if text is None and refusal.number == 17:
        text = _filter(refusal, asked)
    return text or f"the daemon answers `{printable(reply.first.decode('utf-8', 'replace'))}'"


def _plain(refusal: Refusal, asked: Asked) -> str | None:
    name = printable(asked.name)
    return {
        1: f"the program that the daemon runs has no command `{asked.command}'; {asked.hint or 'a newer one has it'}",
        2: f"the words don't have the form of the command `{asked.command}'",
        3: "the daemon ended before the block did",
        4: "this is no moment",
        5: "the daemon's moment is behind its store's; look at its log",
        6: "the daemon has set no moment; look at its log",
        7: "the daemon has set no user; look at its log",
        8: f"`{name}' is no name: a name has 1 to 32 characters, first a to z, then a to z, 0 to 9, `_', `-' and `.'",
        9: f"you have a query `{name}' already; queries are never changed, so choose another name",
        10: f"you have no query `{name}'; `tap queries' lists those that you have",
        11: f"there is no document {name}",
        15: "this second isn't over yet; questions are about seconds that are over",
        18: "the daemon's program is out of memory; nothing was changed, try again",
        19: f"the query has no such run: it has {refusal.value} runs, counted from 1",
        OWN_COMMAND: f"a client may not say `{asked.command}': the daemon sets the moment and the user",
        BUSY: "the daemon has too many connections, or too much that waits; try again later",
        WAITING: "the daemon can't use its store now; nothing was done; its log says why",
        UNKNOWN_END: "the program ended within the command, which may have been performed: look first",
        NO_NAME: "your login is no user of the filter; a line `user LOGIN NAME' in the daemon's rules makes it one",
        OTHER_SHARD: "another shard serves you; --socket or TAPESTRY_SOCKET names its socket",
        SLOW: "the daemon waited too long for the rest of the command, or for its replies to be read",
    }.get(refusal.number)


def _lexer(refusal: Refusal) -> str | None:
    return {
        "byte": "no word, number, text or sign of the language begins with this",
        "string": "this text has no closing quote",
        "number": "this number is above 9,223,372,036,854,775,807",
        "long": f"the text has {refusal.value} bytes; a query has at most 4,096",
    }.get(refusal.reason or "")


def _parser(refusal: Refusal, asked: Asked) -> str | None:
    return {
        "token": "no query goes on with this",
        "ended": "the query is empty" if not asked.text[asked.offset :].strip() else "the query ends too early",
        "deep": "this opens a level above the 32nd",
    }.get(refusal.reason or "")


def _types(refusal: Refusal, asked: Asked) -> str | None:
    token = token_at(asked.text, asked.offset + (refusal.value or 0))
    if refusal.reason == "field":
        table = _table_of(asked.text, asked.offset + (refusal.value or 0))
        if table is not None:
            name = "document" if table == b"doc" else "note"
            return f"a {name} has no such field; it has {_TABLE_FIELDS[table]}"
    if token.upper() == b"HAS":
        clash = "HAS needs a list at its left and a text at its right"
    elif token in (b"+", b"-"):
        clash = "only a time can be shifted"
    else:
        clash = "the sides must be both numbers, both texts or both times"
        if b"TODAY" in asked.text.upper():
            clash += "; NOW isn't compared with TODAY"
    return {
        "variable": "no such variable is in scope here; `m' is the document that is asked about, and EXISTS names others",
        "field": "the table of this variable has no such field",
        "clash": clash,
        "shadow": "a variable of this name is in scope already",
        "variables": "this would be the seventh variable; a query has at most six, `m' among them",
        "time": "this is no moment; write seconds since 1970 or 'YYYY-MM-DDTHH:MM:SSZ'",
        "span": "this duration is above 100,000,000,000 seconds",
        "nodes": "the condition has more than 128 parts",
    }.get(refusal.reason or "")


def _table_of(text: bytes, place: int) -> bytes | None:
    """Returns the table of the variable whose field is at this place, if the text before shows it."""
    variable = re.search(rb"([A-Za-z_][A-Za-z0-9_]*)\s*\.\s*$", text[:place])
    if not variable:
        return None
    if variable[1].lower() == b"m":
        return b"doc"
    named = re.findall(rb"\(\s*" + variable[1] + rb"\s*:\s*(doc|note)\b", text[:place], re.IGNORECASE)
    return named[-1].lower() if named else None


def _filter(refusal: Refusal, asked: Asked) -> str:
    if refusal.line is None:
        return "the filter has more than 64 rules"
    line = _line(asked.text, refusal.line)
    if refusal.value is not None and refusal.value >= len(line):
        return "this rule doesn't end with PRIORITY, a number, CLASS and a text"
    token = token_at(line, refusal.value or 0).upper()
    if not line[: refusal.value or 0].strip() and token != b"WHEN":
        return "a rule begins with WHEN"
    if token in (b"NOW", b"TODAY", b"EXISTS"):
        return "a rule speaks of the document alone: not of NOW or TODAY, and without EXISTS"
    return "this line is no rule: its first fault is here"


def _line(text: bytes, number: int) -> bytes:
    lines = text.split(b"\n")
    return lines[number - 1].rstrip(b"\r") if 0 < number <= len(lines) else b""


def token_at(text: bytes, place: int) -> bytes:
    """Returns the word, number, text or sign that begins at this place, or nothing if none does."""
    if not 0 <= place < len(text) or text[place : place + 1] in (b" ", b"\t", b"\r", b"\n"):
        return b""
    found = _TOKEN.match(text, place)
    return found[0] if found else b""


def shown(refusal: Refusal, asked: Asked, reply: Reply, width: int) -> list[str]:
    """Returns the lines that tell people of a refusal, the text with its place among them."""
    code = printable(reply.first.decode("utf-8", "replace"))
    # The reply in parentheses stays in one line, if it is short.
    code = code.replace(" ", "\xa0") if len(code) < 30 else code
    lines = [it.replace("\xa0", " ") for it in paragraph(f"tap: {words_of(refusal, asked, reply)} ({code})", width, "     ")]
    if refusal.line is not None:
        return lines + [f"{INDENT}in line {refusal.line}:"] + marked(_line(asked.text, refusal.line), refusal.value or 0, width)
    place = refusal.place
    if place is None and refusal.number == 13 and refusal.reason == "ended":
        place = len(asked.text[asked.offset :].rstrip(_BLANKS))
    return lines if place is None else lines + marked(asked.text, asked.offset + place, width)


def marked(text: bytes, place: int, width: int) -> list[str]:
    """Returns the line of the text that has this place, and below it a mark under the token there.

    A line that is wider than the terminal is cut on both sides of the place.
    """
    place = min(max(place, 0), len(text))
    start = text.rfind(b"\n", 0, place) + 1
    end = text.find(b"\n", place)
    line = text[start : len(text) if end < 0 else end].rstrip(b"\r")
    place = min(place - start, len(line))
    token = token_at(line, place)
    before = printable(line[:place].decode("utf-8", "replace"))
    under = printable(token.decode("utf-8", "replace"))
    after = printable(line[place + len(token) :].decode("utf-8", "replace"))
    room = max(width - len(INDENT), 12)
    before, under, after = _excerpt(before, under, after, room)
    mark = "^" + "~" * (text_width(under) - 1)
    lines = [f"{INDENT}{before}{under}{after}".rstrip(), f"{INDENT}{' ' * text_width(before)}{mark}"]
    number = text.count(b"\n", 0, start) + 1
    return lines if b"\n" not in text.rstrip(_BLANKS) else [f"{INDENT}in line {number}:"] + lines


def _excerpt(before: str, under: str, after: str, room: int) -> tuple[str, str, str]:
    """Cuts the three parts so that they fit together: the middle first gets room, then what stands before it."""
    if text_width(before + under + after) <= room:
        return before, under, after
    if text_width(under) > room // 2:
        under, after = _front(under, room // 2), ""
    left = room - text_width(under)
    kept = max(left - min(text_width(after), left // 3), 3)
    if text_width(before) > kept:
        before = "…" + _back(before, kept - 1)
    left = room - text_width(before + under)
    if text_width(after) > left:
        after = _front(after, max(left - 1, 0)) + "…" if left > 0 else ""
    return before, under, after


def _front(text: str, width: int) -> str:
    while text_width(text) > width:
        text = text[:-1]
    return text


def _back(text: str, width: int) -> str:
    while text_width(text) > width:
        text = text[1:]
    return text
