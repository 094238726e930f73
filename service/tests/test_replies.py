"""Replies that come in pieces."""

from __future__ import annotations

import io
import random
import unittest

import support  # noqa: F401  (puts the package in reach)
from tapestry_service.replies import NotAReply, Reply, ReplyReader, first_of, read_reply

TEXT = (
    b"ok 0 at 1000\nok 2 box news\ndoc 1 first 5 run 1\ndoc 2 first 6 run 1\nno 13 token 4\nno 1\n"
    b"ok 3 show 1 at 7\nok 9 x\n\nno 18\nok 0 docs 3 1\n"
)
REPLIES = [
    Reply(True, 0, "at 1000", []),
    Reply(True, 2, "box news", [b"doc 1 first 5 run 1", b"doc 2 first 6 run 1"]),
    Reply(False, 13, "token 4", []),
    Reply(False, 1, "", []),
    Reply(True, 3, "show 1 at 7", [b"ok 9 x", b"", b"no 18"]),
    Reply(True, 0, "docs 3 1", []),
]


class Replies(unittest.TestCase):
    def test_any_pieces_give_the_same_replies(self) -> None:
        draw = random.Random(48)
        for _ in range(300):
            reader, found, at = ReplyReader(), [], 0
            while at < len(TEXT):
                size = draw.choice([1, 1, 2, 3, 10, 100])
                found += reader.feed(TEXT[at : at + size])
                at += size
            self.assertEqual(found, REPLIES)
            self.assertTrue(reader.is_between)

    def test_a_file_gives_the_same_replies(self) -> None:
        file = io.BytesIO(TEXT)
        self.assertEqual([read_reply(file) for _ in REPLIES], REPLIES)
        self.assertIsNone(read_reply(file))

    def test_bytes_are_those_that_came(self) -> None:
        self.assertEqual(b"".join(it.bytes for it in REPLIES), TEXT)
        line = b"ok 1 box \xff\xfe"
        self.assertEqual(first_of(line).first, line)

    def test_a_large_reply_in_small_pieces(self) -> None:
        lines = [b"x" * (i % 50) for i in range(20000)]
        data = b"ok 20000 digest q 1\n" + b"".join(it + b"\n" for it in lines)
        reader, found = ReplyReader(), []
        for at in range(0, len(data), 4096):
            found += reader.feed(data[at : at + 4096])
        self.assertEqual(found, [Reply(True, 20000, "digest q 1", lines)])

    def test_what_is_no_reply(self) -> None:
        for line in (b"stop 6 version 3", b"", b"okay 0", b"ok", b"ok x", b"ok 01", b"no -1", b"ok 99999999999"):
            with self.assertRaises(NotAReply, msg=line):
                first_of(line)
        with self.assertRaises(NotAReply) as caught:
            ReplyReader().feed(b"ok 0 at 1\nstop 6 version 3\n")
        self.assertEqual(caught.exception.line, b"stop 6 version 3")
        with self.assertRaises(NotAReply):
            ReplyReader().feed(b"x" * 70000)

    def test_a_file_that_ends_within_a_reply(self) -> None:
        for text in (b"ok 2 box q\ndoc 1 first 5 run 1\n", b"ok 0 at", b"ok 1 box q\ndoc 1"):
            with self.assertRaises(EOFError, msg=text):
                read_reply(io.BytesIO(text))


if __name__ == "__main__":
    unittest.main()
