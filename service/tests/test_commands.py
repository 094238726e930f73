"""How a client's bytes are cut into commands."""

from __future__ import annotations

import unittest
from typing import List, Tuple, Union

from support import draw
from tapestry_service.commands import Command, Cutter

Item = Union[bytes, Tuple[bytes, bytes]]

SCRIPT = (
    b"# a comment\n\n   \t\r\nbox q\r\n  at 5\nas\tann\nATS\nmail\nabc\n..x\n#no comment\nat 7\n.\nmbox more\n.\r\nfilter\r\n.\r\r\n.\n"
    b"note 1 k 1 text  \nmail\r\r\ncounts\nrun q"
)
ITEMS: List[Item] = [
    (b"box", b"box q\r\n"),
    b"no 40 at: the moment is the clock's second\n",
    b"no 40 as: the user is that of the login\n",
    b"no 1\n",
    (b"mail", b"mail\nabc\n..x\n#no comment\nat 7\n.\n"),
    (b"mbox", b"mbox more\n.\r\n"),
    (b"filter", b"filter\r\n.\r\r\n.\n"),
    (b"note", b"note 1 k 1 text  \n"),
    b"no 1\n",
    (b"counts", b"counts\n"),
    (b"run", b"run q\n"),
]


def items_of(data: bytes, size: int = 0, end: bool = True) -> Tuple[List[Item], int]:
    """What a cutter makes of the bytes in pieces of this size, and the most bytes that waited in it."""
    cutter, found, most = Cutter(), [], 0

    def take() -> None:
        while True:
            item = cutter.next()
            if item is None:
                return
            found.append(tuple(item) if isinstance(item, Command) else item)

    for at in range(0, len(data), size or len(data) or 1):
        cutter.feed(data[at : at + (size or len(data))])
        take()
        most = max(most, cutter.size)
    if end:
        cutter.finish()
        take()
        rest = cutter.rest()
        if rest is not None:
            found.append(rest)
    return found, most


class Commands(unittest.TestCase):
    def test_a_script_in_pieces_of_any_size(self) -> None:
        for size in [0, 1, 2, 3, 5, 7, 11, 64]:
            self.assertEqual(items_of(SCRIPT, size)[0], ITEMS, size)

    def test_a_line_without_an_end(self) -> None:
        found, most = items_of(b"x" * 3_000_000 + b"\nbox q\n", 65536)
        self.assertEqual(found, [b"no 16 line\n", (b"box", b"box q\n")])
        self.assertLessEqual(most, 1_048_576 + 65536)

    def test_the_longest_line(self) -> None:
        line = b"note 1 k 1 ".ljust(1_048_576, b"x")
        self.assertEqual(items_of(line + b"\n")[0], [(b"note", line + b"\n")])
        self.assertEqual(items_of(line + b"x\n")[0], [b"no 16 line\n"])
        self.assertEqual(items_of(b"#" + line + b"\n", 65536)[0], [b"no 16 line\n"])

    def test_a_block_without_an_end(self) -> None:
        for size in (0, 1 << 16):
            for start, end in ((b"mail", b"message"), (b"filter", b"block")):
                body = b"..some text\n" * 400_000
                found, most = items_of(start + b"\n" + body + b".\nbox q\n", size)
                self.assertEqual(found, [b"no 16 " + end + b"\n", (b"box", b"box q\n")])
                if size:
                    self.assertLess(most, 2 * 1_048_576 + 2 * size)
        found, most = items_of(b"mail\n" + b"y" * 5_000_000, 1 << 16)
        self.assertEqual(found, [b"no 3\n"])
        self.assertLess(most, 2 * 1_048_576 + 2 * 65536)

    def test_the_dot_of_a_block_that_is_too_long(self) -> None:
        body = b"z" * 150_000
        for ending in (b"\n.\n", b"\n.\r\n", b"\n..\n.\n", b"\nab\n.\n", b"a.\nx.\n\n.\n"):
            for size in range(1, 8):
                cutter = Cutter()
                cutter.feed(b"filter\n" + body)
                self.assertIsNone(cutter.next())
                found = []
                for at in range(0, len(ending), size):
                    cutter.feed(ending[at : at + size])
                    found.append(cutter.next())
                self.assertEqual([it for it in found if it is not None], [b"no 16 block\n"], (ending, size))
                self.assertIsNotNone(found[-1])
                self.assertFalse(cutter.is_within)

    def test_a_form_that_is_wrong_comes_first(self) -> None:
        self.assertEqual(items_of(b"mail x\n" + b"y" * 3_000_000 + b"\n.\n", 1 << 16)[0], [b"no 2\n"])
        self.assertEqual(items_of(b"mail x\nabc\n")[0], [b"no 2\n"])
        self.assertEqual(items_of(b"mail\nabc\n")[0], [b"no 3\n"])
        self.assertEqual(items_of(b"mail\nabc\n.")[0], [(b"mail", b"mail\nabc\n.\n")])

    def test_noise_never_stops_it(self) -> None:
        pieces = [b"mail", b"mbox", b"filter", b"\n", b"\n.\n", b".", b"\r\n", b" ", b"at", b"box q", b"\0", b"#", b"\xff"]
        for seed in range(300):
            random = draw(seed)
            data = b"".join(random.choice(pieces) for _ in range(random.randrange(60)))
            whole, _ = items_of(data)
            self.assertEqual(items_of(data, random.randrange(1, 5))[0], whole, data)


if __name__ == "__main__":
    unittest.main()
