"""The spool over a store that is a list, stopped at every step."""

from __future__ import annotations

import contextlib
import errno
import io
import os
import time
import unittest
from typing import Callable, List, Optional
from unittest import mock

from support import Driver, Folder, draw
from tapestry_service import spool as spool_module
from tapestry_service.clock import Clock
from tapestry_service.replies import Reply, first_of
from tapestry_service.session import Session
from tapestry_service.spool import Spool
from tapestry_service.work import Refused
from test_messages import by_mail, by_mbox


class Store:
    """Documents in a list, and how the program replies. `refuses` says what a `mail` of this text gets."""

    def __init__(self) -> None:
        self.docs: List[bytes] = []
        self.shows = True
        self.refuses: Callable[[List[bytes]], Optional[bytes]] = lambda texts: None
        self.puts = 0

    def answer(self, data: bytes) -> List[Reply]:
        word = data.split()[0]
        if word == b"at":
            return [Reply(True, 0, "at " + data.split()[1].decode(), [])]
        if word == b"counts" and self.shows:
            return [Reply(True, 0, f"counts documents {len(self.docs)} notes 0 moment 5", [])]
        if word == b"show" and self.shows:
            number = int(data.split()[1])
            if number > len(self.docs):
                return [Reply(False, 11, "", [])]
            lines = [it.rstrip(b"\r") for it in self.docs[number - 1].split(b"\n")[:-1]]
            return [Reply(True, len(lines), f"show {number} at 1", lines)]
        if word in (b"mail", b"mbox"):
            texts = by_mbox(data) if word == b"mbox" else [by_mail(data)]
            why = self.refuses(texts)
            if why is not None:
                return [first_of(why)]
            self.docs += texts
            self.puts += bool(texts)
            first = len(self.docs) - len(texts) + 1
            return [Reply(True, 0, f"docs {len(texts)} {first}" if word == b"mbox" else f"doc {first}", [])]
        return [Reply(False, 1, "", [])]


class Stopped(BaseException):
    """A stop of the process, which no code sees."""


class SpoolCase(Folder):
    def setUp(self) -> None:
        super().setUp()
        self.store = Store()
        self.driver = Driver(self.store.answer)
        self.said = io.StringIO()
        self.enterContext = getattr(self, "enterContext", None)
        redirect = contextlib.redirect_stderr(self.said)
        redirect.__enter__()
        self.addCleanup(redirect.__exit__, None, None, None)
        self.restart()

    def restart(self, decode: Optional[Callable[[bytes], bytes]] = None) -> None:
        """A new process: it opens the store, and settles."""
        self.spool = Spool(self.at, decode)
        self.session = Session(Clock(lambda: 1000.0))
        self.driver.run(self.session.open())
        self.driver.run(self.spool.settle(self.session))

    def put(self, name: str, data: bytes) -> None:
        with open(self.place("tmp", name), "wb") as file:
            file.write(data)
        os.rename(self.place("tmp", name), self.place("new", name))
        self.spool.has_news = True

    def load(self) -> int:
        stored = 0
        while self.spool.has_work:
            stored += self.driver.run(self.spool.load(self.session))
        return stored


class Spooled(SpoolCase):
    def test_messages_go_in_order_of_their_names(self) -> None:
        for name in ("10", "9", "b", "a", "Z"):
            self.put(name, name.encode())
        self.put(".hidden", b"no")
        self.assertEqual(self.load(), 5)
        self.assertEqual(self.store.docs, [b"10\n", b"9\n", b"Z\n", b"a\n", b"b\n"])
        self.assertEqual(self.store.puts, 1)
        self.assertEqual(os.listdir(self.place("new")), [".hidden"])
        self.assertFalse(os.path.exists(self.place("batch")))

    def test_bytes_that_a_mailbox_file_would_change(self) -> None:
        texts = [b"a\n", b"b\r\r\nc\n", b"d\n", b"From e\n\n.\n"]
        for number, text in enumerate(texts):
            self.put(str(number), text)
        self.assertEqual(self.load(), 4)
        self.assertEqual(self.store.docs, [b"a\n", b"b\r\nc\n", b"d\n", b"From e\n\n.\n"])

    def test_many_go_in_batches(self) -> None:
        for number in range(2500):
            self.put(f"{number:04d}", b"x %d\n" % number)
        self.assertEqual(self.load(), 2500)
        self.assertEqual(self.store.docs, [b"x %d\n" % it for it in range(2500)])
        self.assertEqual(self.store.puts, 3)

    def test_a_refused_one_goes_aside_with_its_reason(self) -> None:
        self.store.refuses = lambda texts: b"no 16 message" if any(len(it) > 1000 for it in texts) else None
        for name, size in (("a", 5), ("b", 2000), ("c", 7), ("d", 3000)):
            self.put(name, b"x" * size)
        self.assertEqual(self.load(), 2)
        self.assertEqual([len(it) for it in self.store.docs], [6, 8])
        self.assertEqual(sorted(os.listdir(self.place("refused"))), ["b", "b.reason", "d", "d.reason"])
        self.assertEqual(self.read("refused", "b"), b"x" * 2000)
        self.assertTrue(self.read("refused", "b.reason").startswith(b"no 16 message\nit has more than 1,048,576 bytes"))
        self.put("b", b"y" * 2000)
        self.assertEqual(self.load(), 0)
        self.assertEqual(self.read("refused", "b.1"), b"y" * 2000)
        self.assertEqual(self.read("refused", "b"), b"x" * 2000)

    def test_a_full_store(self) -> None:
        self.store.refuses = lambda texts: b"no 16 store" if len(self.store.docs) + len(texts) > 2 else None
        for name in "abc":
            self.put(name, name.encode())
        self.assertEqual(self.load(), 2)
        self.assertIn(b"begin another store", self.read("refused", "c.reason"))

    def test_out_of_memory_leaves_the_spool(self) -> None:
        for name in "abc":
            self.put(name, name.encode())
        self.store.refuses = lambda texts: b"no 18"
        with self.assertRaises(Refused):
            self.driver.run(self.spool.load(self.session))
        self.assertEqual(len(os.listdir(self.place("new"))), 3)
        self.store.refuses = lambda texts: None
        self.assertEqual(self.load(), 3)
        self.assertEqual(self.store.docs, [b"a\n", b"b\n", b"c\n"])

    def test_what_is_no_file(self) -> None:
        os.mkdir(self.place("new", "folder"))
        os.mkfifo(self.place("new", "pipe"))
        os.symlink("/etc/passwd", self.place("new", "link"))
        self.put("message", b"x")
        self.assertEqual(self.load(), 1)
        self.assertEqual(os.listdir(self.place("new")), [])
        self.assertEqual(sum(it.endswith(".reason") for it in os.listdir(self.place("refused"))), 3)

    def test_a_file_that_cannot_be_read_holds_nobody_up(self) -> None:
        self.put("a", b"a")
        self.put("b", b"b")
        real = os.open

        def denied(path, *more, **named):
            if os.fsencode(path).endswith(b"/a"):
                raise PermissionError(errno.EACCES, "Permission denied", path)
            return real(path, *more, **named)

        with mock.patch.object(spool_module.os, "open", denied):
            self.assertEqual(self.load(), 1)
            self.spool.has_news = True
            self.assertEqual(self.load(), 0)
            self.spool.look_again()
            self.assertEqual(self.load(), 0)
        self.assertEqual(self.said.getvalue().count("can't be used"), 1)
        self.spool.look_again()
        self.assertEqual(self.load(), 1)
        self.assertEqual(self.store.docs, [b"b\n", b"a\n"])

    def test_what_cannot_be_moved_away_holds_nobody_up(self) -> None:
        """As a folder that somebody made in new, and that is his own."""
        os.mkdir(self.place("new", "folder"))
        self.put("message", b"x")
        real = os.rename

        def denied(source, target):
            if os.fsencode(source).endswith(b"/folder"):
                raise PermissionError(errno.EACCES, "Permission denied", source)
            return real(source, target)

        with mock.patch.object(spool_module.os, "rename", denied):
            for _ in range(3):
                self.load()
                self.spool.look_again()
        self.assertEqual(self.store.docs, [b"x\n"])
        self.assertEqual(os.listdir(self.place("refused")), [])
        self.assertEqual(self.said.getvalue().count("folder can't be used"), 1)
        os.rmdir(self.place("new", "folder"))
        self.spool.has_news = True
        self.assertEqual(self.load(), 0)
        self.put("folder", b"y")
        self.assertEqual(self.load(), 1)

    def test_many_that_cannot_be_used_fill_no_log(self) -> None:
        for number in range(300):
            self.spool._pass_over(b"%d" % number, PermissionError(errno.EACCES, "Permission denied"))
        self.assertEqual(self.said.getvalue().count("\n"), 101)

    def test_a_long_name_is_refused_with_its_reason(self) -> None:
        for name in ("x" * 255, "x" * 254 + "y"):
            os.mkfifo(self.place("new", name))
        self.put("message", b"x")
        self.assertEqual(self.load(), 1)
        name = "x" * 200
        self.assertEqual(sorted(os.listdir(self.place("refused"))), [name, name + ".1", name + ".1.reason", name + ".reason"])

    def test_another_file_of_the_same_name(self) -> None:
        """Somebody uses a name again while the message that had it is being stored."""
        self.put("a", b"one")
        self.put("b", b"two")

        def answer(data: bytes) -> List[Reply]:
            if data.startswith(b"mbox\nF"):
                self.put("a", b"three")
            return self.store.answer(data)

        Driver(answer).run(self.spool.load(self.session))
        self.assertEqual(os.listdir(self.place("new")), ["a"])
        self.assertEqual(self.load(), 1)
        self.assertEqual(self.store.docs, [b"one\n", b"two\n", b"three\n"])

    def test_reading_takes_no_long_turn(self) -> None:
        def slow(raw: bytes) -> bytes:
            time.sleep(0.03)
            return raw

        self.restart(slow)
        for number in range(20):
            self.put(f"{number:02d}", b"%d" % number)
        with mock.patch.object(spool_module, "BATCH_SECONDS", 0.1):
            self.assertEqual(self.load(), 20)
        self.assertGreater(self.store.puts, 4)
        self.assertEqual(self.store.docs, [b"%d\n" % it for it in range(20)])

    def test_a_message_that_is_far_too_large_is_not_read(self) -> None:
        self.put("large", b"x" * 3_000_000)
        self.put("small", b"y")
        self.assertEqual(self.load(), 1)
        self.assertTrue(self.read("refused", "large.reason").startswith(b"no 16 message\n"))

    def test_decoding(self) -> None:
        self.restart(lambda raw: raw.upper())
        self.put("a", b"abc\n" * 700_000)
        self.put("b", b"abc")
        self.spool._decode = lambda raw: raw[:3].upper()
        self.assertEqual(self.load(), 2)
        self.assertEqual(self.store.docs, [b"ABC\n", b"ABC\n"])

    def test_names_of_any_bytes(self) -> None:
        for name in (b"a\nb", b"\xff\xfe", b"c d:2,S"):
            with open(os.path.join(self.at.encode(), b"new", name), "wb") as file:
                file.write(name)
        self.spool.has_news = True
        self.assertEqual(self.load(), 3)
        self.assertEqual(os.listdir(self.place("new")), [])


class Settled(SpoolCase):
    """A stop at each system call and at each exchange, with and without `show`."""

    def stops(self, number: int) -> "contextlib.ExitStack":
        """A stop at the call of this number among those that change files."""
        count = [0]
        stack = contextlib.ExitStack()
        for name in ("rename", "unlink", "fsync", "write"):
            real = getattr(os, name)

            def stopped(*words, real=real, **named):
                count[0] += 1
                if count[0] == number:
                    raise Stopped
                return real(*words, **named)

            stack.enter_context(mock.patch(f"os.{name}", stopped))
        return stack

    def test_a_stop_at_each_call(self) -> None:
        for shows in (True, False):
            self.store.shows = shows
            stops = 0
            for number in range(1, 200):
                self.store.docs = []
                for folder in ("new", "refused"):
                    for name in os.listdir(self.place(folder)):
                        os.unlink(self.place(folder, name))
                self.store.refuses = lambda texts: b"no 16 message" if any(b"BAD" in it for it in texts) else None
                self.restart()
                for name in "abcdefg":
                    self.put(name, (b"BAD" if name == "d" else b"ok ") + name.encode())
                try:
                    with self.stops(number):
                        self.load()
                    is_stopped = False
                except Stopped:
                    is_stopped = True
                    stops += 1
                self.restart()
                self.load()
                self.assertEqual(self.store.docs, [b"ok %s\n" % it for it in (b"a", b"b", b"c", b"e", b"f", b"g")], number)
                self.assertEqual(sorted(os.listdir(self.place("refused"))), ["d", "d.reason"], number)
                self.assertEqual(os.listdir(self.place("new")), [])
                if not is_stopped:
                    break
            self.assertGreater(stops, 20)

    def test_a_stop_before_and_after_the_program_stored(self) -> None:
        for shows in (True, False):
            for is_stored in (False, True):
                self.store.shows, self.store.docs = shows, []
                self.restart()
                for name in "abc":
                    self.put(name, name.encode())

                def answer(data: bytes) -> List[Reply]:
                    if data.startswith(b"mbox\nF") and is_stored:
                        self.store.answer(data)
                    if data.startswith(b"mbox\nF"):
                        raise Stopped
                    return self.store.answer(data)

                with self.assertRaises(Stopped):
                    Driver(answer).run(self.spool.load(self.session))
                self.restart()
                self.assertEqual(len(os.listdir(self.place("new"))), 0 if is_stored else 3)
                self.load()
                self.assertEqual(self.store.docs, [b"a\n", b"b\n", b"c\n"])

    def test_another_file_of_the_same_name_after_a_stop(self) -> None:
        for shows in (True, False):
            self.store.shows, self.store.docs = shows, []
            self.restart()
            for name in "abc":
                self.put(name, name.encode())

            def answer(data: bytes) -> List[Reply]:
                replies = self.store.answer(data)
                if data.startswith(b"mbox\nF"):
                    raise Stopped
                return replies

            with self.assertRaises(Stopped):
                Driver(answer).run(self.spool.load(self.session))
            self.put("b", b"another")
            # The spool may have been moved to another disk, where its files have other numbers.
            self.put("c", b"c")
            self.restart()
            self.assertEqual(os.listdir(self.place("new")), ["b"])
            self.load()
            self.assertEqual(self.store.docs, [b"a\n", b"b\n", b"c\n", b"another\n"])

    def test_another_program_added_documents(self) -> None:
        """With `show` they aren't taken for the batch, whose messages would be lost."""
        for name in "abc":
            self.put(name, name.encode())

        def answer(data: bytes) -> List[Reply]:
            if data.startswith(b"mbox\nF"):
                raise Stopped
            return self.store.answer(data)

        with self.assertRaises(Stopped):
            Driver(answer).run(self.spool.load(self.session))
        self.store.docs += [b"other %d\n" % it for it in range(5)]
        self.restart()
        self.assertIn("another program", self.said.getvalue())
        self.load()
        self.assertEqual(self.store.docs[5:], [b"a\n", b"b\n", b"c\n"])

    def test_files_that_cannot_be_removed(self) -> None:
        self.put("a", b"a")
        self.put("b", b"b")
        real = os.unlink

        def denied(path, *more, **named):
            if b"/new/" in os.fsencode(path):
                raise OSError(errno.EROFS, "Read-only file system", path)
            return real(path, *more, **named)

        with mock.patch("os.unlink", denied):
            for _ in range(3):
                with self.assertRaises(OSError):
                    self.driver.run(self.spool.load(self.session))
        self.assertEqual(self.load(), 0)
        self.assertEqual(self.store.docs, [b"a\n", b"b\n"])
        self.assertEqual(os.listdir(self.place("new")), [])

    def test_no_room_for_the_batch(self) -> None:
        self.put("a", b"a")
        with mock.patch.object(spool_module, "replace_synced", side_effect=OSError(errno.ENOSPC, "full")):
            with self.assertRaises(OSError):
                self.driver.run(self.spool.load(self.session))
        self.assertEqual(self.store.docs, [])
        self.assertEqual(self.load(), 1)

    def test_a_batch_file_of_something_else(self) -> None:
        for data in (b"", b"x", b"12\0abc", b"5\0\0\0\0"):
            with open(self.place("batch"), "wb") as file:
                file.write(data)
            self.put("a", b"a")
            self.restart()
            self.load()
        self.assertEqual(self.store.docs, [b"a\n"] * 4)

    def test_random_stops_in_a_row(self) -> None:
        for seed in range(40):
            random = draw(seed)
            self.store.docs, self.store.shows = [], bool(seed % 2)
            for name in os.listdir(self.place("new")):
                os.unlink(self.place("new", name))
            self.restart()
            texts = [b"%d%s" % (it, random.choice([b"\n", b"\r\r\n", b"\nFrom x\n"])) for it in range(30)]
            for number, text in enumerate(texts):
                self.put(f"{number:03d}", text)
            with mock.patch.object(spool_module, "BATCH_MESSAGES", 4):
                for _ in range(100):
                    try:
                        with self.stops(random.randrange(1, 40)):
                            self.load()
                        break
                    except Stopped:
                        try:
                            with self.stops(random.randrange(1, 15)):
                                self.restart()
                        except Stopped:
                            pass
                        self.restart()
            self.assertEqual([it.split(b"\n")[0].strip() for it in self.store.docs], [b"%d" % it for it in range(30)], seed)


if __name__ == "__main__":
    unittest.main()
