"""What is said to a session before a command."""

from __future__ import annotations

import contextlib
import io
import unittest
from typing import Dict, List

from support import Driver
from tapestry_service.clock import Clock
from tapestry_service.replies import Reply, first_of
from tapestry_service.session import Session
from tapestry_service.work import Refused


class Sessions(unittest.TestCase):
    def setUp(self) -> None:
        self.now = [1000.0]
        self.replies: Dict[bytes, List[bytes]] = {}
        self.driver = Driver(self.answer)
        self.session = Session(Clock(lambda: self.now[0]))

    def answer(self, data: bytes) -> List[Reply]:
        given = self.replies.get(data)
        if given:
            return [first_of(given.pop(0) if len(given) > 1 else given[0])]
        return [first_of(b"ok 0 " + data.split(b"\n")[0])]

    def command(self, user: str, data: bytes) -> bytes:
        return self.driver.run(self.session.command(user, data)).first

    def said(self) -> List[bytes]:
        said, self.driver.sent = self.driver.sent, []
        return said

    def test_the_moment_and_the_user_are_set_when_they_change(self) -> None:
        self.command("ann", b"box q\n")
        self.assertEqual(self.said(), [b"at 1000\n", b"as ann\n", b"box q\n"])
        self.command("ann", b"box r\n")
        self.assertEqual(self.said(), [b"box r\n"])
        self.now[0] = 1001.5
        self.command("bob", b"box r\n")
        self.assertEqual(self.said(), [b"at 1001\n", b"as bob\n", b"box r\n"])
        self.now[0] = 900.0
        with contextlib.redirect_stderr(io.StringIO()):
            self.command("bob", b"box r\n")
        self.assertEqual(self.said(), [b"box r\n"])

    def test_nothing_is_said_as_another_user_if_as_is_refused(self) -> None:
        self.command("ann", b"box q\n")
        self.said()
        self.replies[b"as bob\n"] = [b"no 18", b"ok 0 as bob"]
        with self.assertRaises(Refused) as caught:
            self.command("bob", b"query q TRUE\n")
        self.assertEqual(caught.exception.reply.first, b"no 18")
        self.assertEqual(self.said(), [b"as bob\n"])
        # Nor is it known who speaks now.
        self.command("ann", b"box q\n")
        self.assertEqual(self.said(), [b"as ann\n", b"box q\n"])

    def test_a_store_with_a_later_moment(self) -> None:
        self.replies[b"at 1000\n"] = [b"no 5 4000"]
        with contextlib.redirect_stderr(io.StringIO()) as said:
            self.command("ann", b"box q\n")
        self.assertEqual(self.said(), [b"at 1000\n", b"at 4000\n", b"as ann\n", b"box q\n"])
        self.assertIn("behind the last moment 4000", said.getvalue())
        self.assertEqual(self.session.moment, 4000)

    def test_a_moment_that_is_refused_otherwise(self) -> None:
        for line in (b"no 4", b"no 5 10", b"no 5 x"):
            self.replies[b"at 1000\n"] = [line]
            with self.assertRaises(Refused):
                self.command("ann", b"box q\n")

    def test_how_far_a_store_is(self) -> None:
        self.replies[b"counts\n"] = [b"ok 0 counts documents 12 notes 3 moment 2000"]
        with contextlib.redirect_stderr(io.StringIO()):
            self.driver.run(self.session.open())
        self.assertEqual((self.session.documents, self.session.can_show, self.session.moment), (12, True, 2000))
        self.assertEqual(self.said(), [b"counts\n", b"at 2000\n"])

    def test_how_far_a_store_is_by_a_program_without_counts(self) -> None:
        self.replies[b"counts\n"] = [b"no 1"]
        self.replies[b"mbox\n.\n"] = [b"ok 0 docs 0 13"]
        self.driver.run(self.session.open())
        self.assertEqual((self.session.documents, self.session.can_show), (12, False))
        self.assertEqual(self.said(), [b"counts\n", b"at 1000\n", b"mbox\n.\n"])
        self.replies[b"mbox\n.\n"] = [b"no 18"]
        with self.assertRaises(Refused):
            self.driver.run(Session(Clock(lambda: 1.0)).open())

    def test_documents_are_counted(self) -> None:
        self.replies[b"mail\n.\n"] = [b"ok 0 doc 7"]
        self.replies[b"mbox\nx\n.\n"] = [b"ok 0 docs 3 8"]
        self.command("ann", b"mail\n.\n")
        self.assertEqual(self.session.documents, 7)
        self.driver.run(self.session.add(b"mbox\nx\n.\n"))
        self.assertEqual(self.session.documents, 10)
        self.replies[b"mail\n.\n"] = [b"no 16 message"]
        self.command("ann", b"mail\n.\n")
        self.assertEqual(self.session.documents, 10)


if __name__ == "__main__":
    unittest.main()
