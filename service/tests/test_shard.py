"""A store that follows the log, over a log in a file and a store that is a list: what is applied, what is noticed, what is answered."""

from __future__ import annotations

import contextlib
import io
import os
import unittest
from typing import Any, Callable, List, Optional, Tuple
from unittest import mock

from fake_log import FileLog
from support import Driver, Folder, draw
from tapestry_service import rows as rows_module
from tapestry_service.commands import Command
from tapestry_service.feeder import Feeder
from tapestry_service.messages import Text
from tapestry_service.replies import Reply, first_of
from tapestry_service.rows import NotPut, batch_of, message_items, note_items, note_of
from tapestry_service.session import Session
from tapestry_service.shard import Shard, WrongLog, new_rows
from tapestry_service.shared_log import DOC, NOTE, Item, LogFails, Reading, Row
from tapestry_service.work import Refused
from test_messages import by_mail, by_mbox


class Store:
    """Documents and notes in lists, as the program stores and shows them. `refuses` is what a command that adds rows gets."""

    def __init__(self) -> None:
        self.docs: List[Tuple[bytes, int]] = []
        self.notes: List[Tuple[int, bytes, bytes, int]] = []
        self.moment: Optional[int] = None
        self.user = b""
        self.refuses: Callable[[bytes], Optional[bytes]] = lambda data: None

    def answer(self, data: bytes) -> List[Reply]:
        return [self._reply(data)]

    def end(self) -> None:
        """The session of the program ends."""
        self.moment = None

    def _reply(self, data: bytes) -> Reply:
        word = data.split()[0]
        last = max([0, *(at for _, at in self.docs), *(it[3] for it in self.notes)]) if self.moment is None else self.moment
        if word == b"counts":
            return first_of(b"ok 0 counts documents %d notes %d moment %d" % (len(self.docs), len(self.notes), last))
        if word == b"at":
            if int(data.split()[1]) < last:
                return first_of(b"no 5 %d" % last)
            self.moment = int(data.split()[1])
            return first_of(b"ok 0 at %d" % self.moment)
        if word == b"as":
            self.user = data.split()[1]
            return first_of(b"ok 0 as " + self.user)
        assert self.moment is not None
        if word == b"show":
            text, at = self.docs[int(data.split()[1]) - 1]
            lines = [it.rstrip(b"\r") for it in text.split(b"\n")[:-1]]
            return Reply(True, len(lines), f"show {int(data.split()[1])} at {at}", lines)
        if word == b"notes":
            found = [(n, it) for n, it in enumerate(self.notes, 1) if it[0] == int(data.split()[1])]
            lines = [b"note %d ts %d author %s kind %s" % (n, it[3], it[1], it[2]) for n, it in found]
            return Reply(True, len(lines), "notes", lines)
        why = self.refuses(data)
        if why is not None:
            return first_of(why)
        if word == b"note":
            return first_of(self._note(data))
        texts = by_mbox(data) if word == b"mbox" else [by_mail(data)]
        self.docs += [(it, self.moment) for it in texts]
        first = len(self.docs) - len(texts) + 1
        return first_of(b"ok 0 docs %d %d" % (len(texts), first) if word == b"mbox" else b"ok 0 doc %d" % first)

    def _note(self, data: bytes) -> bytes:
        words = data.rstrip(b"\n").split(b" ", 4)
        if len(words) < 4 or not words[3].isdigit():
            return b"no 2"
        if not 0 < int(words[1]) <= len(self.docs):
            return b"no 11"
        assert self.moment is not None
        text = b" " + words[4] if len(words) > 4 and words[4] else b""
        self.notes.append((int(words[1]), self.user, words[2] + b" value " + words[3] + b" text" + text, self.moment))
        return b"ok 0 note %d" % len(self.notes)


class Pumped:
    """Calls that are made when a test says so."""

    fd = -1

    def __init__(self) -> None:
        self.waiting: List[Tuple[Callable[[], Any], Callable[[Any], None]]] = []

    def line(self) -> Callable[[Callable[[], Any], Callable[[Any], None]], None]:
        return lambda function, done: self.waiting.append((function, done))

    def pump(self) -> None:
        """Makes the calls that wait now."""
        waiting, self.waiting = self.waiting, []
        for function, done in waiting:
            try:
                found = function()
            except LogFails as why:
                found = why
            done(found)


class ShardCase(Folder):
    def setUp(self) -> None:
        super().setUp()
        self.said = io.StringIO()
        redirect = contextlib.redirect_stderr(self.said)
        redirect.__enter__()
        self.addCleanup(redirect.__exit__, None, None, None)
        self.log = FileLog(self.place("rows"))
        self.set_clock(1000)
        self.stores = [Store(), Store()]
        self.shards: List[Any] = [None, None]
        self.sessions: List[Any] = [None, None]
        for number in (0, 1):
            self.start(number)

    def set_clock(self, second: int) -> None:
        with open(self.place("rows.clock"), "w") as file:
            file.write(str(second))

    def start(self, number: int) -> None:
        """A new process, and a new session of the program."""
        calls = Pumped()
        put = calls.line()
        putter = lambda wanted, items, done: put(lambda: self.log.put(wanted, items), done)  # noqa: E731
        feeder = Feeder(self.place(f"spool{number}"), None, putter, "the log")
        self.shards[number] = Shard(self.log, putter, feeder, calls)  # type: ignore[arg-type]
        self.open(number)

    def open(self, number: int) -> None:
        """A new session of the program."""
        shard, store = self.shards[number], self.stores[number]
        store.end()
        self.sessions[number] = Session(shard.clock)
        self.drive(number, self.sessions[number].open())
        self.drive(number, shard.settle(self.sessions[number]))

    def drive(self, number: int, work: Any) -> Any:
        return Driver(self.stores[number].answer).run(work)

    def follow(self, number: int, turns: int = 6) -> None:
        shard = self.shards[number]
        for _ in range(turns):
            shard._pause.until = 0.0
            shard.tick()
            shard.calls.pump()
            while shard.has_work and not shard._trouble:
                self.drive(number, shard.load(self.sessions[number]))
            if shard.has_work:
                self.drive(number, shard.load(self.sessions[number]))

    def say(self, number: int, user: str, data: bytes) -> List[bytes]:
        """A user's command; the replies that it got, once they are there."""
        replies: List[bytes] = []
        command = Command(data.split()[0], data)
        self.drive(number, self.shards[number].take(self.sessions[number], user, command, replies.append))
        return replies

    def put(self, *texts: bytes) -> None:
        self.log.put("", [Item(os.urandom(8), DOC, b"", it, len(it)) for it in texts])

    def state(self, change: Callable[[Any], None]) -> None:
        with self.log.state() as state:
            change(state)


class Following(ShardCase):
    def test_all_stores_get_the_same_rows_in_one_order(self) -> None:
        self.follow(0)
        self.put(b"a\n", b"b\r\nc\n", b".\nFrom d\n")
        self.set_clock(1001)
        self.follow(1)
        self.assertEqual(self.say(0, "ann", b"note 2 score 3 good one\n"), [])
        self.follow(0)
        self.put(b"")
        self.follow(0)
        self.follow(1)
        self.assertEqual(self.stores[0].docs, [(b"a\n", 1000), (b"b\r\nc\n", 1000), (b".\nFrom d\n", 1000), (b"", 1001)])
        self.assertEqual(self.stores[0].notes, [(2, b"ann", b"score value 3 text good one", 1001)])
        self.assertEqual((self.stores[1].docs, self.stores[1].notes), (self.stores[0].docs, self.stores[0].notes))

    def test_a_user_gets_the_reply_once_his_store_has_the_row(self) -> None:
        self.put(b"a\n")
        self.follow(0)
        replies = self.say(0, "ann", b"note 1 score 3 \n")
        self.shards[0].calls.pump()
        self.assertEqual((replies, self.stores[0].notes), ([], []))
        self.follow(0)
        self.assertEqual(replies, [b"ok 0 note 1\n"])
        for data, wanted in (
            (b"mail\nx\n.\n", b"ok 0 doc 2\n"),
            (b"mbox\nFrom a\nx\n\nFrom b\ny\n.\n", b"ok 0 docs 2 3\n"),
            (b"mbox\nnothing\n.\n", b"ok 0 docs 0 5\n"),
            (b"note 9 score 3 x\n", b"no 11\n"),
            (b"note 1 score x\n", b"no 2\n"),
            (b"note 1 score\n", b"no 2\n"),
            (b"note x score 3\n", b"no 2\n"),
            (b"note 1 score 3 " + b"x" * 4097 + b"\n", b"no 16 note\n"),
            (b"note 9 score 3 " + b"x" * 4097 + b"\n", b"no 11\n"),
            (b"mail\n" + b"x" * 1_048_576 + b"\n.\n", b"no 16 message\n"),
            (b"mail now\nx\n.\n", b"no 2\n"),
            (b"note 4 score 4 " + b"x" * 4096 + b"\n", b"ok 0 note 2\n"),
        ):
            replies = self.say(0, "ann", data)
            self.follow(0)
            self.assertEqual(replies, [wanted], data[:40])
        self.follow(1)
        self.assertEqual((self.stores[1].docs, self.stores[1].notes), (self.stores[0].docs, self.stores[0].notes))
        self.assertEqual([it for it, _ in self.stores[1].docs], [b"a\n", b"x\n", b"x\n", b"y\n"])

    def test_moments_are_those_of_the_log(self) -> None:
        shard = self.shards[0]
        self.assertTrue(shard.is_behind)
        self.follow(0)
        self.assertEqual((shard.clock.second(), shard.is_behind), (1000, False))
        self.put(b"a\n")
        self.set_clock(1005)
        self.put(b"b\n")
        self.follow(0)
        self.assertEqual(([at for _, at in self.stores[0].docs], shard.clock.second()), ([1000, 1005], 1005))
        # The server's clock falls: what was told holds.
        self.set_clock(1009)
        self.follow(0)
        self.set_clock(900)
        self.put(b"c\n")
        self.follow(0)
        self.follow(1)
        self.assertEqual([at for _, at in self.stores[0].docs], [1000, 1005, 1009])
        self.assertEqual(self.stores[1].docs, self.stores[0].docs)

    def test_a_second_is_the_moment_once_its_rows_are_applied(self) -> None:
        self.put(b"a\n")
        self.set_clock(1007)
        shard = self.shards[0]
        shard.calls.pump()
        self.assertEqual(shard.clock.second(), 0)
        self.drive(0, shard.load(self.sessions[0]))
        self.assertEqual((self.stores[0].docs, shard.clock.second()), ([(b"a\n", 1000)], 1007))

    def test_what_a_log_that_is_down_leaves(self) -> None:
        self.put(b"a\n")
        self.follow(0)
        replies = self.say(0, "ann", b"note 1 score 3\n")
        open(self.place("rows.down"), "w").close()
        self.shards[0].calls.waiting.pop()  # the put waits in its thread
        self.follow(0)
        self.assertIn("it can't be asked: it is down", self.said.getvalue())
        self.assertEqual(self.said.getvalue().count("down"), 1)
        self.assertEqual(replies, [])
        self.assertEqual(self.say(0, "ann", b"note 1 score 3\n")[0][:30], b"no 42 the log can't be used: i")
        # It began without the log: what it has can be used.
        self.start(1)
        self.follow(1)
        self.assertFalse(self.shards[1].is_behind)
        os.unlink(self.place("rows.down"))
        self.follow(0)
        self.assertIsNone(self.shards[0].why_not)
        self.assertIn("applied again, from row 1 on", self.said.getvalue())


class Stopped(ShardCase):
    def test_a_stop_at_each_exchange(self) -> None:
        """Daemon and program stop before or after each command to the program: each row is applied once."""
        self.follow(0)
        random = draw(54)
        for step in range(60):
            for _ in range(random.randrange(1, 4)):
                if random.random() < 0.4 and self.stores[0].docs:
                    self.say(0, "ann", b"note %d score 3 at %d\n" % (random.randrange(1, len(self.stores[0].docs) + 1), step))
                    self.shards[0].calls.pump()
                else:
                    self.put(b"mail %d\n" % step, b"more\n")
            self.set_clock(1000 + step // 3)
            shard, store, left = self.shards[1], self.stores[1], random.randrange(0, 6)
            is_stored = random.random() < 0.5
            real = store.answer

            class Stop(Exception):
                pass

            def answer(data: bytes) -> List[Reply]:
                nonlocal left
                left -= 1
                if left < 0 and is_stored:
                    real(data)
                if left < 0:
                    raise Stop
                return real(data)

            store.answer = answer  # type: ignore[method-assign]
            try:
                self.follow(1, 2)
            except Stop:
                pass
            store.answer = real  # type: ignore[method-assign]
            if step % 2:
                self.start(1)
            else:
                shard.forget()
                self.open(1)
            self.follow(0, 2)
        self.follow(0)
        self.follow(1)
        self.assertGreater(len(self.stores[0].notes), 10)
        self.assertEqual((self.stores[1].docs, self.stores[1].notes), (self.stores[0].docs, self.stores[0].notes))
        self.assertNotIn("isn't applied", self.said.getvalue())

    def test_a_moved_store(self) -> None:
        """A shard is moved by copying its store."""
        self.put(b"a\n", b"b\n")
        self.follow(0)
        self.stores[1].docs = list(self.stores[0].docs)
        self.put(b"c\n")
        self.start(1)
        self.follow(1)
        self.assertEqual([it for it, _ in self.stores[1].docs], [b"a\n", b"b\n", b"c\n"])


class Noticed(ShardCase):
    """A log that isn't the store's, or not whole: nothing is applied, and one line says so."""

    def setUp(self) -> None:
        super().setUp()
        self.put(b"a\n", b"b\n")
        self.follow(0)
        replies = self.say(0, "ann", b"note 2 score 3\n")
        self.follow(0)
        self.assertEqual(replies, [b"ok 0 note 1\n"])
        self.put(b"c\n")
        self.follow(0)
        self.rows = (list(self.stores[0].docs), list(self.stores[0].notes))

    def noticed(self, why: str, is_new: bool) -> None:
        """Nothing is applied, by the same process or by a new one."""
        if is_new:
            self.start(0)
        before = self.said.getvalue().count("\n")
        self.set_clock(2000)
        self.follow(0)
        said = self.said.getvalue()
        self.assertIn(why, said)
        self.assertIn("put the log of this store in its place", said)
        self.assertEqual(said.count("\n") - before, 1, said)
        self.assertEqual((self.stores[0].docs, self.stores[0].notes), self.rows)
        self.assertLess(self.shards[0].clock.second(), 2000)
        self.assertEqual(self.say(0, "ann", b"note 2 score 3\n")[0][:5], b"no 42")

    def test_a_lost_log(self) -> None:
        for is_new in (False, True):
            with contextlib.suppress(FileNotFoundError):
                os.unlink(self.place("rows"))
            self.noticed("it has 0 rows, and this store 4: it was lost or cut, or is another store's", is_new)
        self.assertFalse(os.path.exists(self.place("rows")))

    def test_a_lost_log_that_was_filled_anew(self) -> None:
        os.unlink(self.place("rows"))
        self.put(b"a\n", b"b\n", b"c\n", b"d\n", b"e\n")
        self.noticed("row 4 isn't what it was: it was filled anew", False)
        self.noticed("row 4 isn't the last one that this store has", True)

    def test_a_row_of_the_same_number_at_another_second(self) -> None:
        self.state(lambda state: state["rows"][3].__setitem__(1, 1001))
        self.noticed("row 4 isn't the last one that this store has", True)

    def test_a_note_that_is_another(self) -> None:
        self.stores[0].docs.pop()
        self.rows = (list(self.stores[0].docs), list(self.stores[0].notes))
        self.state(lambda state: state["rows"][2].__setitem__(5, "note 2 score 4"))
        self.noticed("row 3 isn't the last one that this store has", True)

    def test_a_cut_log(self) -> None:
        for is_new in (False, True):
            self.state(lambda state: state.__setitem__("rows", []))
            self.noticed("row 4, the last one that this store has, isn't there any more: it was cut", is_new)

    def test_a_row_that_was_deleted_before_it_was_read(self) -> None:
        self.put(b"d\n", b"e\n", b"f\n")
        self.state(lambda state: state["rows"].pop(5))
        self.noticed("row 6 isn't there any more: it was cut", False)

    def test_a_cut_log_and_an_empty_store(self) -> None:
        self.state(lambda state: state["rows"].pop(0))
        self.follow(1)
        self.assertEqual(self.stores[1].docs, [])
        self.assertIn("row 1 isn't there any more", self.said.getvalue())

    def test_a_store_that_something_else_wrote(self) -> None:
        self.stores[0].docs.append((b"mine\n", 1000))
        self.rows = (list(self.stores[0].docs), list(self.stores[0].notes))
        self.put(b"e\n", b"f\n")
        self.noticed("row 5 isn't the last one that this store has", True)

    def test_readings(self) -> None:
        rows = [Row(n, 1000 + n // 2, DOC, n, b"", b"%d\n" % n) for n in range(1, 9)]
        read = lambda place, total, some: new_rows(place, None, Reading("x", total, 2000, 0.0, some))  # noqa: E731
        self.assertEqual(read(0, 8, rows), rows)
        self.assertEqual(read(3, 8, rows[2:6]), rows[3:6])
        self.assertEqual(read(8, 8, rows[7:]), [])
        self.assertEqual(read(0, 0, []), [])
        for place, total, some in (
            (3, 2, []),
            (3, 8, rows[3:]),
            (3, 8, []),
            (3, 8, rows[2:3]),
            (0, 8, []),
            (0, 8, rows[1:]),
            (0, 8, rows[:3] + rows[4:]),
            (0, 8, [*rows[:3], rows[3]._replace(at=1000)]),
            (0, 8, [rows[0]._replace(kind=b"other")]),
            (0, 8, [rows[0]._replace(kind=NOTE, user=b"ann\nas bob", text=b"note 1 k 1")]),
            (0, 8, [rows[0]._replace(kind=NOTE, user=b"ann", text=b"note 1 k 1\nas bob")]),
        ):
            with self.assertRaises(WrongLog):
                read(place, total, some)
        with self.assertRaises(WrongLog):
            new_rows(3, rows[3]._replace(place=3), Reading("x", 8, 2000, 0.0, rows[2:]))


class NotApplied(ShardCase):
    def test_out_of_memory_is_tried_again(self) -> None:
        self.follow(0)
        self.put(b"a\n", b"b\n")
        self.stores[0].refuses = lambda data: b"no 18"
        with self.assertRaises(Refused) as caught:
            self.follow(0)
        self.assertEqual(str(caught.exception), "`row 1 of the log` got `no 18`")
        self.shards[0].forget()
        self.stores[0].refuses = lambda data: None
        self.follow(0)
        self.assertEqual([it for it, _ in self.stores[0].docs], [b"a\n", b"b\n"])

    def test_no_row_is_passed_over(self) -> None:
        self.follow(0)
        self.put(b"a\n")
        self.set_clock(1001)
        self.put(b"large\n")
        self.set_clock(1002)
        self.put(b"b\n")
        self.stores[0].refuses = lambda data: b"no 16 store" if b"large" in data else None
        for _ in range(3):
            with self.assertRaises(Refused) as caught:
                self.follow(0)
            self.assertIn("`row 2 of the log` got `no 16 store`: this store is full", str(caught.exception))
            self.shards[0].forget()
            self.shards[0].calls.pump()
        self.assertEqual(self.stores[0].docs, [(b"a\n", 1000)])
        self.assertEqual(self.say(0, "ann", b"note 1 score 3\n")[0][:5], b"no 42")
        # What another shard takes, it takes alike.
        self.follow(1)
        self.assertEqual([it for it, _ in self.stores[1].docs], [b"a\n", b"large\n", b"b\n"])

    def test_a_full_log_refuses_before_any_store_does(self) -> None:
        self.follow(0)
        self.log.room = 10
        self.put(b"12345\n")
        self.follow(0)
        for data, wanted in (
            (b"mail\n6789\n.\n", b"no 16 store\n"),
            (b"note 1 k 1 12345\n", b"no 16 store\n"),
            (b"note 1 k 1 1234\n", b"ok 0 note 1\n"),
        ):
            replies = self.say(0, "ann", data)
            self.follow(0)
            self.assertEqual(replies, [wanted])


class Rows(unittest.TestCase):
    def test_messages_of_commands_are_those_that_the_program_stores(self) -> None:
        pieces = [b"From x", b">", b"\n", b"\r\n", b"..", b"x", b"\n\n", b"\r", b"From y\n", b" "]
        for seed in range(300):
            random = draw(seed)
            text = b"".join(random.choice(pieces) for _ in range(random.randrange(40))) + b"\n"
            block = b"".join(b"." + it if it.startswith(b".") else it for it in text.splitlines(True) if it not in (b".\n", b".\r\n"))
            block = b"\n".join(it if it not in (b".", b".\r") else b"-" for it in block.split(b"\n"))
            for word in (b"mail", b"mbox"):
                data = word + b"\n" + block + b".\n"
                wanted = by_mbox(data) if word == b"mbox" else [by_mail(data)]
                self.assertEqual([it.text for it in message_items(word, data)], wanted, data)

    def test_forms(self) -> None:
        for line in (b"note", b"note 1", b"note 1 k", b"note +1 k 1", b"note 12345678901 k 1", b"note 4294967296 k 1"):
            with self.assertRaises(NotPut) as caught:
                note_of(line + b"\n")
            self.assertEqual(caught.exception.line, b"no 2\n")
        note = note_of(b" \tnote  7\tk  -3 \t two  words \r\r\n")
        self.assertEqual((note.doc, note.kind, note.value, note.text), (7, b"k", b"-3", b"two  words \r"))
        self.assertEqual(note.probe, b"note 4294967295 k -3\n")
        (item,) = note_items("ann", note, 0)
        row = Row(9, 1000, NOTE, 4, item.user, item.text)
        self.assertEqual(note.shown(row), b"note 4 ts 1000 author ann kind k value -3 text two  words \r")
        # The program drops one CR, so it gets the line's own once more.
        self.assertEqual(batch_of([row])[1:], (b" \tnote  7\tk  -3 \t two  words \r\r\n", b"ok 0 note 4"))

    def test_names_are_distinct(self) -> None:
        items = message_items(b"mbox", b"mbox\nFrom a\n\nFrom b\n\nFrom c\n.\n") + message_items(b"mail", b"mail\nx\n.\n")
        self.assertEqual(len({it.name for it in items}), 4)

    def test_batches(self) -> None:
        rows = [Row(n, 1000, DOC, n, b"", b"%d\n" % n) for n in range(1, 8)]
        rows[5] = rows[5]._replace(at=1001)
        rows[6] = Row(7, 1001, NOTE, 1, b"ann", b"note 2 k 1")
        found = []
        while rows:
            batch, command, reply = batch_of(rows)
            rows = rows[len(batch) :]
            found.append((len(batch), command.split(b"\n")[0], reply))
        self.assertEqual(
            found,
            [
                (5, b"mbox", b"ok 0 docs 5 1"),
                (1, b"mail", b"ok 0 doc 6"),
                (1, b"note 2 k 1", b"ok 0 note 1"),
            ],
        )
        large = [Row(n, 1000, DOC, n, b"", b"x" * 400_000 + b"\n") for n in range(1, 4)]
        self.assertEqual(len(batch_of(large)[0]), 2)
        with mock.patch.object(rows_module, "BATCH_ROWS", 2):
            self.assertEqual(len(batch_of([Row(n, 1, DOC, n, b"", b"") for n in range(1, 4)])[0]), 2)
        self.assertEqual(by_mbox(batch_of(large)[1]), [Text(it.text).text for it in large[:2]])


if __name__ == "__main__":
    unittest.main()
