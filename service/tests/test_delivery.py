"""Deliveries over a program that is a table, stopped at every step."""

from __future__ import annotations

import contextlib
import errno
import io
import os
import time
import unittest
from typing import Dict, List, Tuple
from unittest import mock

from support import Driver, Folder, wait_until
from tapestry_service import delivery as delivery_module
from tapestry_service.clock import Clock
from tapestry_service.delivery import DigestDelivery, MaildirDelivery
from tapestry_service.digests import documents_of, is_empty, message_of
from tapestry_service.due import Due
from tapestry_service.marks import Mark, Marks, read_mark
from tapestry_service.replies import Reply
from tapestry_service.rules import Digest, Maildir, QueryName, Rules
from tapestry_service.session import Session

OF = QueryName("ann", "q")


class Stopped(BaseException):
    """A stop of the process, which no code sees."""


class Box:
    """The runs of a query: each a list of numbers, first seconds and texts."""

    def __init__(self) -> None:
        self.runs: List[List[Tuple[int, int, bytes]]] = []
        self.wake: Dict[bytes, bytes] = {}
        self.said: List[bytes] = []

    def lines(self, run: int) -> List[bytes]:
        lines = [b"From: tapestry", b"Subject: digest q %d" % run, b""]
        for number, first, text in self.runs[run - 1]:
            lines.append(b"From doc %d first %d" % (number, first))
            lines += [b">" + it if it.lstrip(b">").startswith(b"From ") else it for it in text.split(b"\n")[:-1]]
            lines.append(b"")
        return lines

    def answer(self, data: bytes) -> List[Reply]:
        words = data.split()
        self.said.append(data)
        if words[0] in (b"at", b"as"):
            return [Reply(True, 0, data.decode().strip(), [])]
        if words[0] == b"digest" and words[1] == b"q":
            run = int(words[2])
            if not 0 < run <= len(self.runs):
                return [Reply(False, 19, str(len(self.runs)), [])]
            lines = self.lines(run)
            return [Reply(True, len(lines), f"digest q {run}", lines)]
        if words[0] == b"wake" and words[1] == b"q":
            return [Reply(True, 0, f"wake q {self.wake.get(b'q', b'never').decode()}", [])]
        if words[0] == b"run" and words[1] == b"q":
            self.runs.append([(90, 1000, b"due\n")])
            self.wake[b"q"] = b"never"
            return [Reply(True, 1, f"run {len(self.runs)} before 1000", [b"doc 90 first 1000"])]
        return [Reply(False, 10, "", [])]


class Case(Folder):
    def setUp(self) -> None:
        super().setUp()
        self.box = Box()
        self.driver = Driver(self.box.answer)
        self.now = [1000.0]
        self.said = io.StringIO()
        redirect = contextlib.redirect_stderr(self.said)
        redirect.__enter__()
        self.addCleanup(redirect.__exit__, None, None, None)
        self.maildir = self.place("box")

    def session(self) -> Session:
        return Session(Clock(lambda: self.now[0]))

    def deliver(self) -> None:
        """A new process delivers what there is."""
        work = MaildirDelivery(Maildir(OF, self.maildir), Marks(self.maildir + "/.delivered"))
        self.driver.run(work.deliver(self.session(), len(self.box.runs)))

    def names(self) -> List[str]:
        return sorted(name for folder in ("new", "cur") for name in os.listdir(os.path.join(self.maildir, folder)))

    def numbers(self) -> List[int]:
        return sorted(int(it.split(".D")[1].split("H")[0]) for it in self.names())


class Maildirs(Case):
    def test_each_document_is_a_file(self) -> None:
        text = b"Subject: x\n\nFrom a\n>From b\n\n\n"
        self.box.runs = [[(1, 5, text), (7, 6, b"")], [], [(9, 8, b"\n")]]
        self.deliver()
        self.assertEqual(self.numbers(), [1, 7, 9])
        texts = [self.read("box", "new", it) for it in self.names()]
        self.assertEqual(texts, [text, b"", b"\n"])
        self.assertTrue(self.names()[0].startswith("5.D1H"))
        self.assertTrue(self.names()[0].endswith(".q+ann"))
        self.assertEqual(os.listdir(self.place("box", "tmp")), [])
        before = len(self.box.said)
        self.deliver()
        # One digest, by which the store is known again.
        self.assertEqual([it for it in self.box.said[before:] if it.startswith(b"digest")], [b"digest q 3\n"])
        self.assertEqual(self.numbers(), [1, 7, 9])

    def test_what_a_user_moved_or_deleted_does_not_come_again(self) -> None:
        self.box.runs = [[(it, 5, b"x %d\n" % it) for it in range(1, 6)]]
        self.deliver()
        names = self.names()
        os.unlink(self.place("box", "new", names[0]))
        os.rename(self.place("box", "new", names[1]), self.place("box", "cur", names[1] + ":2,S"))
        self.box.runs.append([(6, 7, b"y\n")])
        self.deliver()
        self.assertEqual(self.numbers(), [2, 3, 4, 5, 6])

    def stops(self, number: int) -> contextlib.ExitStack:
        count = [0]
        stack = contextlib.ExitStack()
        for name in ("rename", "unlink", "fsync", "write"):
            real = getattr(os, name)

            def stopped(*words, real=real, **named):
                count[0] += 1
                if count[0] == number:
                    raise Stopped
                return real(*words, **named)

            stack.enter_context(mock.patch(f"os.{name}", stopped))
        return stack

    def test_a_stop_at_each_call_while_a_user_deletes(self) -> None:
        """Whatever gets into new is read and deleted at once; no document may come twice, and none may be missing."""
        stops = 0
        for number in range(1, 200):
            self.maildir = self.place(f"box{number}")
            self.box.runs = [[(it, 5, b"x %d\n" % it) for it in range(1, 4)], [], [(9, 6, b"z\n")]]
            seen: List[str] = []

            def read_all() -> None:
                if os.path.isdir(self.maildir + "/new"):
                    for name in os.listdir(self.maildir + "/new"):
                        seen.append(name)
                        os.unlink(f"{self.maildir}/new/{name}")

            is_stopped = False
            with mock.patch.object(delivery_module, "_write_all", lambda files: [delivery_module.write_synced(*it) for it in files]):
                try:
                    with self.stops(number):
                        self.deliver()
                except Stopped:
                    is_stopped = True
                    stops += 1
                read_all()
                self.deliver()
                read_all()
                self.deliver()
                read_all()
            self.assertEqual(sorted(seen), sorted(set(seen)), number)
            self.assertEqual(len(seen), 4, number)
            self.assertEqual(os.listdir(self.maildir + "/tmp"), [])
            self.assertFalse(os.path.exists(self.maildir + "/.delivering"))
            if not is_stopped:
                break
        self.assertGreater(stops, 15)

    def test_the_mark_is_lost(self) -> None:
        self.box.runs = [[(1, 5, b"x\n"), (2, 5, b"y\n")], [(3, 6, b"z\n")]]
        self.deliver()
        name = self.names()[1]
        os.rename(self.place("box", "new", name), self.place("box", "cur", name + ":2,RS"))
        os.unlink(self.place("box", ".delivered"))
        self.deliver()
        self.assertEqual(self.numbers(), [1, 2, 3])
        with open(self.place("box", ".delivered"), "w") as file:
            file.write("nonsense\n")
        self.deliver()
        self.assertEqual(self.numbers(), [1, 2, 3])

    def test_another_store(self) -> None:
        self.box.runs = [[(1, 5, b"x\n")], [(2, 6, b"y\n")]]
        self.deliver()
        self.box.runs = [[(1, 50, b"new one\n")], [(2, 60, b"new two\n")], [(3, 70, b"new three\n")]]
        self.deliver()
        self.assertEqual(self.numbers(), [1, 1, 2, 2, 3])
        self.box.runs = [[(1, 500, b"newest\n")]]
        self.deliver()
        self.assertEqual(self.numbers(), [1, 1, 1, 2, 2, 3])
        self.assertEqual(self.said.getvalue().count("isn't the one"), 2)

    def test_two_queries_in_one_maildir(self) -> None:
        self.box.runs = [[(1, 5, b"x\n")]]
        marks = Marks(self.maildir + "/.delivered")
        first = MaildirDelivery(Maildir(OF, self.maildir), marks)
        self.driver.run(first.deliver(self.session(), 1))
        marks.put(QueryName("bob", "r"), Mark(4, 3, "abc"))
        self.box.runs.append([(2, 6, b"y\n")])
        self.driver.run(first.deliver(self.session(), 2))
        again = Marks(self.maildir + "/.delivered")
        self.assertEqual(again.get(QueryName("bob", "r")), Mark(4, 3, "abc"))
        self.assertEqual(again.get(OF).run, 2)

    def test_tmp_was_cleaned_after_a_day(self) -> None:
        self.box.runs = [[(1, 5, b"x\n"), (2, 5, b"y\n")]]
        real, count = os.rename, [0]

        def stopped(source, target):
            if "/new/" in str(target):
                raise Stopped
            return real(source, target)

        with mock.patch("os.rename", stopped), self.assertRaises(Stopped):
            self.deliver()
        self.assertEqual(len(os.listdir(self.place("box", "tmp"))), 2)
        os.unlink(self.place("box", "tmp", sorted(os.listdir(self.place("box", "tmp")))[0]))
        old = time.time() - 2 * 24 * 3600
        os.utime(self.place("box", ".delivering"), (old, old))
        self.deliver()
        self.assertEqual(self.numbers(), [1, 2])

    def test_a_read_only_maildir_waits_and_nothing_is_lost(self) -> None:
        self.box.runs = [[(1, 5, b"x\n")]]
        with mock.patch.object(delivery_module, "write_synced", side_effect=OSError(errno.EROFS, "ro", "/m/tmp/x")):
            with self.assertRaises(OSError):
                self.deliver()
        self.deliver()
        self.assertEqual(self.numbers(), [1])


class Digests(Case):
    def test_the_lines_of_a_digest(self) -> None:
        self.box.runs = [[(1, -5, b"From x\n>From y\n\n")], []]
        lines = self.box.lines(1)
        self.assertEqual([tuple(it) for it in documents_of(lines)], [(1, -5, b"From x\n>From y\n\n")])
        self.assertTrue(is_empty(self.box.lines(2)))
        self.assertFalse(is_empty(lines))
        message = message_of(lines, "ann", "q", 1, "abc").split(b"\n")
        self.assertEqual(message[:4], [b"From: tapestry", b"Subject: digest q 1", b"Message-ID: <q.1.ann.abc@tapestry>", b""])

    def digest(self, *command: str) -> DigestDelivery:
        return DigestDelivery(Digest(OF, command), Marks(self.place("digests")))

    def take(self, work: DigestDelivery) -> None:
        self.driver.run(work.deliver(self.session(), len(self.box.runs)))
        if work.is_running:
            wait_until(work.look, "the command has ended")

    def test_a_command_gets_each_digest_once(self) -> None:
        out = self.place("out")
        work = self.digest("sh", "-c", f"echo $TAPESTRY_USER $TAPESTRY_QUERY $TAPESTRY_RUN >> {out}; cat >> {out}")
        self.driver.run(work.deliver(self.session(), None))
        self.box.runs = [[(1, 5, b"x\n")], [], [(2, 6, b"y\n")]]
        for _ in range(4):
            self.take(work)
        said = self.read("out")
        self.assertEqual(said.count(b"ann q 1\n"), 1)
        self.assertEqual(said.count(b"ann q 3\n"), 1)
        self.assertEqual(said.count(b"Message-ID: <q."), 2)
        self.take(self.digest("false"))
        self.assertEqual(self.read("out"), said)

    def test_runs_from_before_the_rule_have_none(self) -> None:
        self.box.runs = [[(1, 5, b"x\n")], [(2, 5, b"y\n")]]
        work = self.digest("sh", "-c", f"cat >> {self.place('out')}")
        self.take(work)
        self.assertFalse(os.path.exists(self.place("out")))
        self.box.runs.append([(3, 6, b"z\n")])
        self.take(work)
        self.assertEqual(self.read("out").count(b"From doc 3 "), 1)

    def test_a_command_that_fails_gets_it_again(self) -> None:
        Marks(self.place("digests")).put(OF, Mark(0, 0, "-"))
        self.box.runs = [[(1, 5, b"x\n")]]
        work = self.digest("false")
        self.take(work)
        self.assertFalse(work.pause.is_over)
        self.assertIn("ended with status 1", self.said.getvalue())
        work.stop(9)
        work = self.digest("sh", "-c", f"cat >> {self.place('out')}")
        self.take(work)
        self.assertIn(b"From doc 1 first 5", self.read("out"))

    def test_a_command_that_is_not_there(self) -> None:
        Marks(self.place("digests")).put(OF, Mark(0, 0, "-"))
        self.box.runs = [[(1, 5, b"x\n")]]
        with self.assertRaises(OSError):
            self.take(self.digest(self.place("none")))
        self.assertIsNone(read_mark("a b c"))


class Passes(Case):
    def due(self) -> Due:
        rules = Rules({}, (OF, QueryName("ann", "none")), (Maildir(OF, self.maildir),), ())
        return Due(rules, self.place("digests"))

    def test_what_is_due_runs_and_the_rest_sets_the_next_moment(self) -> None:
        due = self.due()
        self.assertTrue(due.is_ready(1000))
        self.box.wake[b"q"] = b"1500"
        self.driver.run(due.run(self.session()))
        self.assertEqual((due.next, due.is_dirty, due.runs), (1500, False, 0))
        self.now[0] = 1500.0
        wait_until(lambda: due.is_ready(1500), "it rests no more")
        self.assertFalse(due.is_ready(1499))
        self.driver.run(due.run(self.session()))
        self.assertEqual((due.next, due.runs), (None, 1))
        self.assertEqual(self.numbers(), [90])
        self.assertFalse(due.is_ready(10**9))
        due.changed()
        wait_until(lambda: due.is_ready(1500), "it rests no more")

    def test_a_maildir_that_fails_is_tried_after_a_pause(self) -> None:
        due = self.due()
        self.box.wake[b"q"] = b"1000"
        with mock.patch.object(delivery_module, "write_synced", side_effect=OSError(errno.ENOSPC, "full", self.maildir)):
            self.driver.run(due.run(self.session()))
        self.assertIn("make room", self.said.getvalue())
        self.assertEqual(due.runs, 1)
        self.assertGreater(due.seconds_until_ready(None) or 0, 0.1)
        wait_until(lambda: due.is_ready(1000), "the pause is over")
        self.driver.run(due.run(self.session()))
        self.assertEqual(self.numbers(), [90])
        self.assertIsNone(due.seconds_until_ready(None))

    def test_a_command_that_cannot_be_started_is_named(self) -> None:
        Marks(self.place("digests")).put(OF, Mark(0, 0, "-"))
        self.box.runs = [[(1, 5, b"x\n")]]
        due = Due(Rules({}, (OF,), (), (Digest(OF, (self.place("none"), "-t")),)), self.place("digests"))
        self.driver.run(due.run(self.session()))
        self.assertIn(f"{self.place('none')} can't be started (No such file or directory); trying again in 5 seconds", self.said.getvalue())

    def test_a_command_of_old_rules_ends_before_another_begins(self) -> None:
        Marks(self.place("digests")).put(OF, Mark(0, 0, "-"))
        self.box.runs = [[(1, 5, b"x\n")]]
        slow = Digest(OF, ("sh", "-c", f"cat > {self.place('one')}; until test -e {self.place('go')}; do sleep 0.01; done"))
        due = Due(Rules({}, (OF,), (), (slow,)), self.place("digests"))
        self.driver.run(due.run(self.session()))
        self.assertEqual(len(due.running), 1)
        due.set_rules(Rules({}, (OF,), (), (Digest(OF, ("sh", "-c", f"cat > {self.place('two')}")),)))
        self.driver.run(due.run(self.session()))
        self.assertEqual(len(due.running), 1)
        open(self.place("go"), "w").close()
        wait_until(lambda: due.look_at_commands() or not due.running, "it has ended")
        self.assertTrue(due.is_dirty)
        self.driver.run(due.run(self.session()))
        self.assertEqual(due.running, [])
        self.assertTrue(os.path.exists(self.place("one")))
        self.assertFalse(os.path.exists(self.place("two")))

    def test_other_rules_keep_what_stays(self) -> None:
        due = self.due()
        old = list(due._deliveries.values())[0]
        other = Maildir(QueryName("bob", "r"), self.place("other"))
        due.set_rules(Rules({}, (OF, other.of), (Maildir(OF, self.maildir), other), ()))
        self.assertIs(list(due._deliveries.values())[0], old)
        self.assertEqual(len(due._deliveries), 2)


if __name__ == "__main__":
    unittest.main()
