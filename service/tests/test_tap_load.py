"""Loading files: what is sent, what is said of it, and how far a load that failed got."""

from __future__ import annotations

import io
import json
import os
import pty
import signal
import subprocess
import sys
import tempfile
import threading
import time
import unittest

from fake_daemon import TAP, Ended, FakeDaemon, tap
from tapestry_service.client.layout import text_width
from tapestry_service.client.loading import Loaded, Progress, bar


class Store:
    """Answers `mail` and `mbox` as a store would; after `most` documents it is full."""

    def __init__(self, most: int = 10**9) -> None:
        self.documents = 0
        self.most = most

    def mail(self, _: bytes) -> bytes:
        return self._put(1, b"ok 0 doc %d\n" % (self.documents + 1))

    def mbox(self, block: bytes) -> bytes:
        count = block.count(b"\nFrom -\n")
        return self._put(count, b"ok 0 docs %d %d\n" % (count, self.documents + 1))

    def _put(self, count: int, reply: bytes) -> bytes:
        if self.documents + count > self.most:
            return b"no 16 documents\n"
        self.documents += count
        return reply

    @property
    def answers(self) -> dict:
        return {b"mail\n": self.mail, b"mbox\n": self.mbox}


MAILBOX = b"From a\nSubject: 1\n\n.one\n\nFrom b\nSubject: 2\n\n>From two\n\n"


class Loads(unittest.TestCase):
    maxDiff = None

    def setUp(self) -> None:
        self._folder = tempfile.TemporaryDirectory()
        self.addCleanup(self._folder.cleanup)

    def file(self, name: str, data: bytes) -> str:
        path = os.path.join(self._folder.name, name)
        os.makedirs(os.path.dirname(path), exist_ok=True)
        with open(path, "wb") as file:
            file.write(data)
        return path

    def load(self, answers: dict, *words: str, given: bytes = b"") -> Ended:
        with FakeDaemon(answers) as daemon:
            ended = tap(daemon.path, "load", *words, given=given)
        self.sent = daemon.commands
        return ended

    def test_a_message(self) -> None:
        path = self.file("m", b"Subject: x\r\n\r\n.\r\nFrom me")
        ended = self.load(Store().answers, path)
        self.assertEqual((ended.status, ended.out, ended.err), (0, "1 message is stored: document 1\n", ""))
        self.assertEqual(self.sent, [b"mail\nSubject: x\n\n..\nFrom me\n.\n"])

    def test_a_field_from_begins_no_mailbox(self) -> None:
        ended = self.load(Store().answers, self.file("m", b"From: a@b\n\nFrom b\n"))
        self.assertEqual(self.sent, [b"mail\nFrom: a@b\n\nFrom b\n.\n"])

    def test_a_mailbox(self) -> None:
        ended = self.load(Store().answers, self.file("box", MAILBOX))
        self.assertEqual((ended.status, ended.out), (0, "2 messages are stored: documents 1 to 2\n"))
        self.assertEqual(self.sent, [b"mbox\nFrom -\nSubject: 1\n\n..one\n\nFrom -\nSubject: 2\n\n>From two\n\n.\n"])
        ended = self.load(Store().answers, "-", given=MAILBOX)
        self.assertEqual(ended.out, "2 messages are stored: documents 1 to 2\n")

    def test_each_file_is_one_message(self) -> None:
        path = self.file("box", MAILBOX)
        ended = self.load(Store().answers, "--single", path)
        self.assertEqual(ended.out, "1 message is stored: document 1\n")
        self.assertEqual(self.sent, [b"mail\n" + MAILBOX.replace(b"\n.", b"\n..") + b".\n"])

    def test_a_maildir_and_files_together(self) -> None:
        self.file("md/new/2.x", b"Subject: b\n")
        self.file("md/cur/1.x:2,S", b"From a\nSubject: a\n")
        self.file("md/cur/.hidden", b"Subject: no\n")
        self.file("md/tmp/3.x", b"Subject: no\n")
        empty = self.file("empty", b"")
        ended = self.load(Store().answers, os.path.join(self._folder.name, "md"), empty, self.file("m", b"Subject: c\n"))
        self.assertEqual((ended.status, ended.out), (0, "3 messages are stored: documents 1 to 3\n"))
        self.assertEqual(
            self.sent, [b"mbox\nFrom -\n>From a\nSubject: a\n\nFrom -\nSubject: b\n\nFrom -\nSubject: c\n\n.\n"]
        )
        ended = self.load({}, self._folder.name)
        self.assertEqual(ended.status, 2)
        self.assertIn("no maildir", ended.err)

    def test_nothing_to_store(self) -> None:
        ended = self.load({}, self.file("empty", b""))
        self.assertEqual((ended.status, ended.out, self.sent), (0, "no message is stored\n", []))

    def big(self, count: int, size: int = 100_000) -> str:
        line = b"x" * 99 + b"\n"
        return self.file("big", b"".join(b"From a\nSubject: %d\n\n" % it + line * (size // 100) + b"\n" for it in range(count)))

    def test_blocks_have_about_a_megabyte(self) -> None:
        ended = self.load(Store().answers, self.big(35))
        self.assertEqual(ended.out, "35 messages are stored: documents 1 to 35\n")
        self.assertEqual([it.count(b"\nFrom -\n") for it in self.sent], [9, 9, 9, 8])
        self.assertTrue(all(len(it) < 1_050_000 for it in self.sent))
        path = self.file("many", b"From a\nx\n\n" * 2500)
        self.load(Store().answers, path)
        self.assertEqual([it.count(b"\nFrom -\n") for it in self.sent], [1000, 1000, 500])

    def test_a_message_that_is_too_long(self) -> None:
        path = self.file("box", b"From a\nSubject: 1\n\nFrom b\n" + b"x" * (1 << 20) + b"\n\nFrom c\nSubject: 3\n")
        ended = self.load(Store().answers, path)
        self.assertEqual((ended.status, ended.out), (1, "2 messages are stored: documents 1 to 2\n"))
        self.assertEqual(ended.err, f"tap: message 2 of {path} isn't stored: the message has more than 1,048,576 bytes\n")

    def test_a_full_store(self) -> None:
        path = self.big(35)
        ended = self.load(Store(20).answers, path)
        self.assertEqual((ended.status, ended.out), (1, "18 messages are stored: documents 1 to 18\n"))
        self.assertEqual(
            ended.err,
            f"tap: the store is full: it has 1,000,000 documents (no 16 documents); message 19 of {path} and what follows aren't stored\n",
        )
        self.assertEqual(len(self.sent), 3)
        with FakeDaemon(Store(20).answers) as daemon:
            found = json.loads(tap(daemon.path, "load", "--json", path).out)
        self.assertEqual((found["ok"], found["stored"], found["documents"], found["refused"]), (False, 18, [[1, 18]], []))
        self.assertIn("message 19 of", found["stopped"])

    def test_the_connection_ends(self) -> None:
        store = Store()
        answers = {b"mbox\n": lambda it: store.mbox(it) if store.documents < 18 else None}
        path = self.big(35)
        ended = self.load(answers, path)
        self.assertEqual((ended.status, ended.out), (3, "18 messages are stored: documents 1 to 18\n"))
        self.assertIn(f"from message 19 of {path} to message 27 of {path} all are stored or none; what follows isn't", ended.err)

    def test_the_daemon_refuses(self) -> None:
        path = self.big(12)
        for reply, words in (
            (b"no 42 store\n", f"(no 42 store); message 1 of {path} and what follows aren't stored"),
            (b"no 43 end\n", f"(no 43 end); from message 1 of {path} to message 9 of {path} all are stored or none"),
            (b"no 41 busy\n", f"(no 41 busy); message 1 of {path} and what follows aren't stored"),
            (b"no 1\n", "no command `mbox'"),
        ):
            ended = self.load({b"mbox\n": reply}, path)
            self.assertEqual((ended.status, ended.out), (1, "no message is stored\n"))
            self.assertIn(words, ended.err)

    def test_documents_of_others_between(self) -> None:
        loaded = Loaded()
        for first, count in ((1, 2), (3, 1), (7, 1), (9, 3), (12, 0)):
            loaded.add(first, count)
        self.assertEqual(loaded.words(), "7 messages are stored: documents 1 to 3, 7, 9 to 11")


class Interrupted(unittest.TestCase):
    def test_a_load_that_is_interrupted_says_how_far_it_got(self) -> None:
        store = Store()
        asked = threading.Event()

        def mbox(block: bytes) -> bytes:
            if store.documents:
                asked.set()
                time.sleep(2)
            return store.mbox(block)

        with tempfile.NamedTemporaryFile() as file, FakeDaemon({b"mbox\n": mbox}) as daemon:
            file.write(b"From a\nx\n\n" * 2500)
            file.flush()
            child = subprocess.Popen(
                [sys.executable, TAP, "load", file.name],
                stdout=subprocess.PIPE,
                stderr=subprocess.PIPE,
                env={**os.environ, "TAPESTRY_SOCKET": daemon.path},
                # A shell that runs the tests in the background has them ignore the signal.
                preexec_fn=lambda: signal.signal(signal.SIGINT, signal.SIG_DFL),
            )
            self.assertTrue(asked.wait(30))
            child.send_signal(signal.SIGINT)
            out, err = child.communicate(timeout=30)
        self.assertEqual((child.returncode, out), (130, b"1000 messages are stored: documents 1 to 1000\n"))
        self.assertEqual(
            err.decode(),
            f"tap: interrupted; from message 1001 of {file.name} to message 2000 of {file.name} all are stored or none;"
            " what follows isn't\n",
        )


class Bars(unittest.TestCase):
    def test_a_bar_is_as_wide_as_the_terminal(self) -> None:
        self.assertEqual(bar(50, 100, 7, 40), "[##########...........]  50 % 7 messages")
        self.assertEqual(bar(0, 100, 0, 40), "[.....................]   0 % 0 messages")
        self.assertEqual(bar(100, 100, 9, 40), "[#####################] 100 % 9 messages")
        for width in range(1, 100):
            for total in (0, 10):
                self.assertEqual(text_width(bar(3, total, 12345, width)), width)

    def test_no_bar_without_a_terminal(self) -> None:
        stream = io.StringIO()
        progress = Progress(10, stream)
        progress.move(5, 1)
        progress.end()
        self.assertEqual(stream.getvalue(), "")

    def test_a_bar_on_a_terminal(self) -> None:
        with tempfile.NamedTemporaryFile() as file, FakeDaemon(Store().answers) as daemon:
            file.write(b"From a\nx\n\n" * 2500)
            file.flush()
            master, slave = pty.openpty()
            ended = subprocess.run(
                [sys.executable, TAP, "load", file.name],
                stdout=subprocess.PIPE,
                stderr=slave,
                env={**os.environ, "TAPESTRY_SOCKET": daemon.path, "COLUMNS": "60"},
            )
            os.close(slave)
            shown = os.read(master, 65536).decode()
            os.close(master)
        self.assertEqual((ended.returncode, ended.stdout), (0, b"2500 messages are stored: documents 1 to 2500\n"))
        self.assertIn("\r[##############.......................]  40 % 1000 messages", shown)
        self.assertTrue(shown.endswith("\r" + " " * 59 + "\r"), repr(shown))


if __name__ == "__main__":
    unittest.main()
