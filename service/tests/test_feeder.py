"""A spool that goes into the log: each message once, whatever is stopped when."""

from __future__ import annotations

import contextlib
import io
import os
import unittest
from typing import Any, Callable, List, Optional
from unittest import mock

from fake_log import FileLog
from support import Folder, draw
from tapestry_service import spool as spool_module
from tapestry_service.feeder import Feeder
from test_shard import Pumped
from test_spool import Stopped


class FeederCase(Folder):
    def setUp(self) -> None:
        super().setUp()
        self.said = io.StringIO()
        redirect = contextlib.redirect_stderr(self.said)
        redirect.__enter__()
        self.addCleanup(redirect.__exit__, None, None, None)
        self.log = FileLog(self.place("rows"))
        self.feeder = self.start()

    def start(self, spool: str = "spool", decode: Optional[Callable[[bytes], bytes]] = None) -> Feeder:
        """A new process."""
        self.calls = Pumped()
        put = self.calls.line()
        return Feeder(self.place(spool), decode, lambda wanted, items, done: put(lambda: self.log.put(wanted, items), done), "the log")

    def put(self, name: str, data: bytes, spool: str = "spool") -> None:
        with open(self.place(spool, "tmp", name), "wb") as file:
            file.write(data)
        os.rename(self.place(spool, "tmp", name), self.place(spool, "new", name))
        self.feeder.has_news = True

    def feed(self, feeder: Optional[Feeder] = None) -> None:
        feeder = feeder or self.feeder
        feeder.has_news = True
        for _ in range(30):
            feeder.go_on()
            self.calls.pump()

    def texts(self) -> List[bytes]:
        with self.log.state() as state:
            return [it[5].encode("latin-1") for it in state["rows"]]


class Fed(FeederCase):
    def test_messages_go_in_order_of_their_names(self) -> None:
        for name in ("10", "9", "b", "a"):
            self.put(name, name.encode())
        self.feed()
        self.assertEqual(self.texts(), [b"10\n", b"9\n", b"a\n", b"b\n"])
        self.assertEqual((os.listdir(self.place("spool", "new")), self.feeder.stored), ([], 4))

    def test_many_go_in_batches(self) -> None:
        for number in range(120):
            self.put(f"{number:04d}", b"x\r\n %d\n" % number if number % 7 == 0 else b"x %d\n" % number)
        with mock.patch.object(spool_module, "BATCH_MESSAGES", 20):
            self.feed()
        self.assertEqual(self.texts(), [b"x\n %d\n" % it if it % 7 == 0 else b"x %d\n" % it for it in range(120)])

    def test_a_file_stays_until_its_row_is_there(self) -> None:
        self.put("a", b"a")
        self.feeder.go_on()
        self.assertEqual(os.listdir(self.place("spool", "new")), ["a"])
        open(self.place("rows.down"), "w").close()
        self.feed()
        self.assertEqual(os.listdir(self.place("spool", "new")), ["a"])
        self.assertIn("isn't put into the log at the log: it is down; trying again in 1 seconds", self.said.getvalue())
        os.unlink(self.place("rows.down"))
        self.feeder.pause.until = 0.0
        self.feed()
        self.assertEqual((self.texts(), os.listdir(self.place("spool", "new"))), ([b"a\n"], []))

    def test_a_message_comes_once_from_any_spool(self) -> None:
        other = self.start("other")
        for spool in ("spool", "other"):
            self.put("a", b"the same\n", spool)
            self.put("b", spool.encode(), spool)
        self.feeder = self.start()
        self.feed()
        other = self.start("other")
        self.feed(other)
        self.assertEqual(self.texts(), [b"the same\n", b"spool\n", b"other\n"])
        # A name that comes again with other bytes is another message.
        self.put("b", b"again\n", "other")
        self.feed(other)
        self.assertEqual(self.texts()[3:], [b"again\n"])

    def test_a_log_that_lacks_rows_gets_nothing(self) -> None:
        self.put("a", b"a\n")
        self.put("b", b"b\n")
        self.feed()
        with self.log.state() as state:
            saved, state["rows"] = state["rows"], state["rows"][1:]
        self.put("c", b"c\n")
        self.feed()
        self.assertEqual((self.texts(), os.listdir(self.place("spool", "new"))), ([b"b\n"], ["c"]))
        self.assertIn("it lacks rows: put the whole one in its place", self.said.getvalue())
        with self.log.state() as state:
            state["rows"] = saved
        self.feeder.pause.until = 0.0
        self.feed()
        self.assertEqual((self.texts(), os.listdir(self.place("spool", "new"))), ([b"a\n", b"b\n", b"c\n"], []))

    def test_another_log_gets_nothing(self) -> None:
        self.put("a", b"a")
        self.feed()
        self.put("b", b"b")
        for change in (lambda: os.unlink(self.place("rows")), lambda: self.log.read(0)):
            change()
            self.feeder.pause.until = 0.0
            self.feed()
            self.assertEqual(os.listdir(self.place("spool", "new")), ["b"])
            self.feeder = self.start()
        self.assertIn("it isn't the log that this spool was put into before", self.said.getvalue())
        os.unlink(self.place("spool", "log"))
        self.feed()
        self.assertEqual((self.texts(), os.listdir(self.place("spool", "new"))), ([b"b\n"], []))

    def test_a_full_log(self) -> None:
        self.log.room = 4
        for name in "abc":
            self.put(name, name.encode())
        with mock.patch.object(spool_module, "BATCH_MESSAGES", 2):
            self.feed()
        self.assertEqual((self.texts(), os.listdir(self.place("spool", "new"))), ([b"a\n", b"b\n"], ["c"]))
        self.assertIn("the log is full: begin another log", self.said.getvalue())
        self.assertEqual(os.listdir(self.place("spool", "refused")), [])

    def test_a_large_message_goes_aside(self) -> None:
        self.put("a", b"x" * 1_048_576)
        self.put("b", b"x" * 1_048_575)
        self.put("c", b"x" * 3_000_000)
        self.feed()
        self.assertEqual([len(it) for it in self.texts()], [1_048_576])
        self.assertEqual(sorted(os.listdir(self.place("spool", "refused"))), ["a", "a.reason", "c", "c.reason"])

    def test_a_decoded_message_is_known_by_its_bytes(self) -> None:
        self.put("a", b"a")
        with mock.patch("os.unlink", side_effect=Stopped), self.assertRaises(Stopped):
            self.feed(self.start(decode=lambda raw: raw.upper()))
        self.feed(self.start(decode=lambda raw: raw + b" otherwise"))
        self.assertEqual((self.texts(), os.listdir(self.place("spool", "new"))), ([b"A\n"], []))

    def test_a_stop_at_each_call(self) -> None:
        stops = 0
        for number in range(1, 200):
            for name in ("rows", "rows.lock"):
                with contextlib.suppress(FileNotFoundError):
                    os.unlink(self.place(name))
            with contextlib.suppress(FileNotFoundError):
                os.unlink(self.place("spool", "log"))
            count = 0

            def stopped(real: Any) -> Any:
                def call(*words: Any, **named: Any) -> Any:
                    nonlocal count
                    count += 1
                    if count == number:
                        raise Stopped
                    return real(*words, **named)

                return call

            for name in "abcdefg":
                self.put(name, b"x" * 1_048_576 if name == "d" else name.encode())
            with contextlib.ExitStack() as stack:
                stack.enter_context(mock.patch.object(spool_module, "BATCH_MESSAGES", 2))
                for name in ("rename", "unlink", "fsync", "write"):
                    stack.enter_context(mock.patch(f"os.{name}", stopped(getattr(os, name))))
                is_stopped = False
                try:
                    self.feed(self.start())
                except Stopped:
                    is_stopped = True
                    stops += 1
            self.feed(self.start())
            self.assertEqual(self.texts(), [b"%s\n" % it.encode() for it in "abcefg"], number)
            self.assertEqual(sorted(os.listdir(self.place("spool", "refused"))), ["d", "d.reason"], number)
            self.assertEqual(os.listdir(self.place("spool", "new")), [])
            for name in os.listdir(self.place("spool", "refused")):
                os.unlink(self.place("spool", "refused", name))
            if not is_stopped:
                break
        self.assertGreater(stops, 20)

    def test_random_stops_in_a_row(self) -> None:
        for seed in range(20):
            random = draw(seed)
            with contextlib.suppress(FileNotFoundError):
                os.unlink(self.place("rows"))
                os.unlink(self.place("spool", "log"))
            for number in range(30):
                self.put(f"{number:03d}", b"%d" % number)
            with mock.patch.object(spool_module, "BATCH_MESSAGES", 4):
                for _ in range(60):
                    left = random.randrange(1, 30)

                    def stopped(*words: Any, real: Any = os.unlink, **named: Any) -> Any:
                        nonlocal left
                        left -= 1
                        if left == 0:
                            raise Stopped
                        return real(*words, **named)

                    try:
                        with mock.patch("os.unlink", stopped):
                            self.feed(self.start())
                        break
                    except Stopped:
                        pass
            self.assertEqual(self.texts(), [b"%d\n" % it for it in range(30)], seed)


if __name__ == "__main__":
    unittest.main()
