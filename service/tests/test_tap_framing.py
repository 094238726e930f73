"""Files as messages: what is cut out of them, and that the spool and `tap load` store the same of the same bytes."""

from __future__ import annotations

import io
import random
import unittest

from test_messages import by_mail, by_mbox
from tapestry_service.client.framing import cut_mailbox, one_message
from tapestry_service.messages import MESSAGE_LIMIT, Text, mbox_of, stored_text

PIECES = [b"\n", b"\n", b"\r", b".", b">", b"From ", b"From", b"a", b" ", b"\r\n", b"\n\n", b"\xff", b".\n", b"Subject: x\n"]
HARD = [
    b"",
    b"\n",
    b"\n\n",
    b".",
    b".\n.\r\n..\n",
    b"\r\n",
    b"\r\r\n",
    b"a\r\n\r\nb\r",
    b"From me\n\nFrom you\n>From us\n>>From all\n",
    b"no end",
    b"From ",
    b"x\n\n",
    b".\n\nFrom x\n",
]


def lines_of(text: bytes) -> list[bytes]:
    """The lines of a file, each without its LF and without one CR at its end: the rule in the plainest form."""
    lines = text.split(b"\n")
    if not lines[-1]:
        lines.pop()
    return [it[:-1] if it.endswith(b"\r") else it for it in lines]


def mailbox_texts(text: bytes) -> list[bytes]:
    """The messages that the program has of a mailbox file: its rule in the plainest form."""
    messages: list[list[bytes]] = []
    opens = True
    for line in lines_of(text):
        if opens and line.startswith(b"From "):
            messages.append([])
            opens = False
            continue
        opens = line == b""
        if messages:
            unquoted = line.lstrip(b">")
            messages[-1].append(line[1:] if unquoted != line and unquoted.startswith(b"From ") else line)
    for message in messages:
        if message and message[-1] == b"":
            message.pop()
    return [b"".join(it + b"\n" for it in message) for message in messages]


def loaded(data: bytes) -> bytes:
    """What `tap load --single` stores of a file."""
    return by_mail(Text(one_message(io.BytesIO(data)).text).mail)


def spooled(data: bytes) -> bytes:
    """What the spool stores of a file."""
    return by_mail(stored_text(data).mail)


class Framing(unittest.TestCase):
    def files(self) -> list[bytes]:
        draw = random.Random(7)
        return HARD + [b"".join(draw.choice(PIECES) for _ in range(draw.randrange(12))) for _ in range(2000)]

    def test_a_file_is_stored_by_its_lines_whichever_way_it_comes(self) -> None:
        for data in self.files():
            wanted = b"".join(it + b"\n" for it in lines_of(data))
            self.assertEqual((loaded(data), spooled(data)), (wanted, wanted), data)
            self.assertEqual(one_message(io.BytesIO(data[3:]), data[:3]), one_message(io.BytesIO(data)))

    def test_line_ends_of_either_kind_are_the_same_message(self) -> None:
        text = b"Subject: x\n\n.one\nFrom two\n\nthree\n"
        with_cr = text.replace(b"\n", b"\r\n")
        for data in (text, with_cr, with_cr[:-1], text[:-1]):
            self.assertEqual((loaded(data), spooled(data)), (text, text), data)
        for box in (b"From me\n" + text, b"From me\r\n" + with_cr, b"From me\r\n" + with_cr[:-1]):
            self.assertEqual([it.text for it in cut_mailbox(io.BytesIO(box.replace(b"\nFrom two", b"\n>From two")))], [text], box)

    def test_messages_together_are_stored_as_alone(self) -> None:
        draw = random.Random(8)
        texts = [stored_text(it) for it in self.files()]
        for _ in range(500):
            some = draw.sample(texts, draw.randrange(1, 6))
            self.assertEqual(by_mbox(mbox_of(it.mbox for it in some)), [it.text for it in some], some)
        hard = [stored_text(it) for it in HARD]
        self.assertEqual(by_mbox(mbox_of(it.mbox for it in hard)), [it.text for it in hard])

    def test_a_mailbox_is_cut_as_the_program_cuts_it(self) -> None:
        draw = random.Random(9)
        for _ in range(3000):
            text = b"".join(draw.choice(PIECES + [b"From x\n", b"\nFrom y\n"]) for _ in range(draw.randrange(25)))
            messages = list(cut_mailbox(io.BytesIO(text)))
            self.assertEqual([it.text for it in messages], mailbox_texts(text), text)
            if messages:
                self.assertEqual(sum(it.taken for it in messages), len(text), text)

    def test_a_message_of_the_longest_size(self) -> None:
        line = b"x" * 63 + b"\n"
        whole = line * (MESSAGE_LIMIT // 64)
        with_cr = whole.replace(b"\n", b"\r\n")
        for data in (whole, whole[:-1], with_cr, with_cr[:-1]):
            message = one_message(io.BytesIO(data))
            self.assertEqual((message.text, message.taken, message.too_long), (whole, len(data), False))
            self.assertFalse(stored_text(data).is_too_long)
        # The most bytes that a message's file can have.
        message = one_message(io.BytesIO(b"\r\n" * MESSAGE_LIMIT))
        self.assertEqual((message.text, message.taken), (b"\n" * MESSAGE_LIMIT, 2 * MESSAGE_LIMIT))
        for longer in (whole + b"\n", whole + b"x" * 3_000_000, with_cr + b"\r\n", b"\r\n" * MESSAGE_LIMIT + b"\n"):
            message = one_message(io.BytesIO(longer))
            self.assertEqual((message.text, message.taken, message.too_long), (b"", len(longer), True))
            self.assertTrue(stored_text(longer).is_too_long)

    def test_a_long_message_of_a_mailbox_alone_is_too_long(self) -> None:
        line = b"x" * 63 + b"\n"
        whole = line * (MESSAGE_LIMIT // 64)
        box = b"From a\n" + whole + b"\nFrom b\n" + whole + b"y\n\nFrom c\nz\n"
        self.assertEqual([it.too_long for it in cut_mailbox(io.BytesIO(box))], [False, True, False])
        self.assertEqual([it.text for it in cut_mailbox(io.BytesIO(box))], [whole, b"", b"z\n"])


if __name__ == "__main__":
    unittest.main()
