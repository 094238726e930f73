"""The decoded form of a message, since the filter looks at lines as they stand.

It keeps the header fields that the filter reads, with encoded words decoded (RFC 2047), and the text of the parts: base64 and
quoted-printable decoded, any charset as UTF-8; of alternatives the plain one; HTML without its tags. Attachments are named and
left out.
"""

from __future__ import annotations

import email
import email.errors
import email.header
import email.policy
import html.parser
import signal
from email.message import Message
from types import FrameType
from typing import List, Optional, Tuple

FIELDS = ["From", "To", "Cc", "Newsgroups", "Subject", "Date", "Message-ID", "In-Reply-To", "References"]

#: Seconds of the processor that decoding a message may take, and for each byte of it, before it is left as it is. Others wait
#: meanwhile.
TIME_LIMIT, TIME_OF_BYTE = 1.0, 150e-9


class _Text(html.parser.HTMLParser):
    """The text of an HTML page."""

    BREAKS = {"br", "p", "div", "tr", "li", "h1", "h2", "h3", "h4", "table", "blockquote"}

    def __init__(self) -> None:
        super().__init__(convert_charrefs=True)
        self.pieces: List[str] = []
        self.hidden = 0

    def handle_starttag(self, tag: str, attrs: List[Tuple[str, Optional[str]]]) -> None:
        self.hidden += tag in ("script", "style")
        self.pieces += ["\n"] * (tag in self.BREAKS)

    def handle_endtag(self, tag: str) -> None:
        self.hidden -= tag in ("script", "style") and self.hidden > 0

    def handle_data(self, data: str) -> None:
        if not self.hidden:
            self.pieces.append(data)


def _field(value: str) -> str:
    """One line, with its encoded words decoded; a word that can't be decoded stays as it is."""
    try:
        value = str(email.header.make_header(email.header.decode_header(value)))
    except (ValueError, LookupError, email.errors.MessageError):
        pass
    return " ".join(value.split())


def _text_of(part: Message) -> str:
    data = part.get_payload(decode=True) or b""
    try:
        text = data.decode(part.get_content_charset() or "utf-8", "replace")
    except LookupError:
        text = data.decode("latin-1")
    if part.get_content_type() != "text/html":
        return text
    page = _Text()
    page.feed(text)
    page.close()
    return "\n".join(line for line in (it.strip() for it in "".join(page.pieces).splitlines()) if line)


def _body_of(message: Message) -> str:
    if message.get_content_type() == "multipart/alternative":
        parts = message.get_payload() if message.is_multipart() else []
        plain = [it for it in parts if it.get_content_type() == "text/plain"]
        return _body_of((plain or parts)[0]) if parts else ""
    if message.is_multipart():
        return "\n".join(_body_of(it) for it in message.get_payload())
    if message.get_filename() or message.get_content_maintype() != "text":
        return f"[{message.get_content_type()}: {_field(message.get_filename() or 'no name')}]\n"
    return _text_of(message)


def decoded(raw: bytes) -> bytes:
    """The decoded form of a message; its lines end by LF."""
    message = email.message_from_bytes(raw, policy=email.policy.compat32)
    lines = [f"{name}: {_field(str(value))}" for name in FIELDS for value in message.get_all(name, [])]
    lines += ["", *_body_of(message).replace("\r", "").split("\n")]
    while lines and lines[-1] == "":
        lines.pop()
    return "".join(f"{it}\n" for it in lines).encode("utf-8", "replace")


class _TooLong(Exception):
    """Decoding took too long."""


def _stop(_signal: int, _frame: Optional[FrameType]) -> None:
    raise _TooLong


def decoded_or_raw(raw: bytes, limit: float = TIME_LIMIT) -> bytes:
    """The decoded form of a message, or the message itself if it can't be decoded, or not in time: mail comes from anywhere, and
    no message may stop the others. Only for a process's main thread."""
    old = signal.signal(signal.SIGVTALRM, _stop)
    try:
        signal.setitimer(signal.ITIMER_VIRTUAL, limit + TIME_OF_BYTE * len(raw))
        try:
            return decoded(raw)
        finally:
            signal.setitimer(signal.ITIMER_VIRTUAL, 0)
    except Exception:  # whatever a message's form brings the parser to
        return raw
    finally:
        signal.signal(signal.SIGVTALRM, old)
