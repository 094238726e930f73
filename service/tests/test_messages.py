"""The bytes that are stored of a message, by either command."""

from __future__ import annotations

import unittest
from typing import List

from support import draw
from tapestry_service.messages import MESSAGE_LIMIT, mbox_of, stored_text, sum_of_lines

RAWS = [
    b"",
    b"\n",
    b"\n\n\n",
    b"\r\n",
    b"\r",
    b"a",
    b"a\r",
    b"a\nb",
    b"From x\n\nFrom y\n>From z\n>>>From w\n From v\nfrom u\nFrom\nFrom \n",
    b".\n..\n.x\n\r\n.\r\n",
    b"a\r\n\r\nb\r\n",
    b"one\rtwo\n\rthree\n",
    b"\0\xff\xfe\n\x85\xc2\x85\n\x0b\x0c\x1c\n",
    b"x\n\n",
]
ODD = [b"a\r\r\nb\n", b"\r\r\n", b"a\n\r\r\r\n"]


def lines_of(data: bytes) -> List[bytes]:
    """A text's lines as the program reads a block: the parts between LFs, without one CR."""
    assert data.endswith(b"\n")
    return [it[:-1] if it.endswith(b"\r") else it for it in data.split(b"\n")[:-1]]


def block_of(command: bytes) -> List[bytes]:
    lines = lines_of(command)
    assert lines[-1] == b"." and b"." not in lines[:-1], command
    return [it[1:] if it.startswith(b".") else it for it in lines[1:-1]]


def by_mail(command: bytes) -> bytes:
    return b"".join(it + b"\n" for it in block_of(command))


def by_mbox(command: bytes) -> List[bytes]:
    """The messages of an mbox block, by the words of the reference."""
    found: List[List[bytes]] = []
    opens = True
    for line in (it[:-1] if it.endswith(b"\r") else it for it in block_of(command)):
        if opens and line.startswith(b"From "):
            found.append([])
        elif found:
            found[-1].append(line[1:] if line.startswith(b">") and line.lstrip(b">").startswith(b"From ") else line)
        opens = line == b""
    return [b"".join(it + b"\n" for it in (lines[:-1] if lines[-1:] == [b""] else lines)) for lines in found]


class Messages(unittest.TestCase):
    def test_mail_stores_the_lines(self) -> None:
        for raw in RAWS + ODD:
            wanted = b"".join(it + b"\n" for it in lines_of(raw if not raw or raw.endswith(b"\n") else raw + b"\n")) if raw else b""
            text = stored_text(raw)
            self.assertEqual(text.text, wanted, raw)
            self.assertEqual(by_mail(text.mail), wanted, raw)

    def test_a_mailbox_file_stores_the_same(self) -> None:
        texts = [stored_text(it) for it in RAWS + ODD]
        self.assertEqual(by_mbox(mbox_of(it.mbox for it in texts)), [it.text for it in texts])

    def test_random_messages(self) -> None:
        pieces = [b"From ", b">", b"\n", b"\r\n", b".", b"x", b"\n\n", b"\r"]
        for seed in range(200):
            random = draw(seed)
            raws = [b"".join(random.choice(pieces) for _ in range(random.randrange(30))) for _ in range(8)]
            texts = list(map(stored_text, raws))
            self.assertEqual(by_mbox(mbox_of(it.mbox for it in texts)), [it.text for it in texts], seed)
            for it in texts:
                self.assertEqual(by_mail(it.mail), it.text, seed)

    def test_what_is_too_long(self) -> None:
        self.assertFalse(stored_text(b"x" * (MESSAGE_LIMIT - 1)).is_too_long)
        self.assertTrue(stored_text(b"x" * MESSAGE_LIMIT).is_too_long)

    def test_the_sum_is_that_of_the_shown_lines(self) -> None:
        for raw in RAWS + ODD:
            text = stored_text(raw)
            shown = [it.rstrip(b"\r") for it in text.text.split(b"\n")[:-1]]
            self.assertEqual(text.sum, sum_of_lines(shown), raw)


if __name__ == "__main__":
    unittest.main()
