"""Running shards and feeders over a log in a file that they share."""

from __future__ import annotations

import os
import subprocess
import sys
import unittest
from typing import Any, List

from fake_log import FOLLOWING, FileLog
from support import FAKE, LOGIN, SERVICE, TESTS, Service, Talk, WithService, draw, end_process, the_program, wait_until

RULES = f"user {LOGIN} ann\n"


class Shards(WithService):
    def setUp(self) -> None:
        super().setUp()
        with open(self.place("following.py"), "w") as file:
            file.write(FOLLOWING.format(service=SERVICE, tests=TESTS))
        self.url = "file://" + self.place("rows")
        self.log = FileLog(self.url)

    def shard(self, name: str, program: str, users: str, rules: str = RULES, **more: Any) -> Service:
        os.makedirs(self.place(name))
        service = Service(self.place(name), program, rules, ["--log", self.url, "--users", users], self.place("following.py"), **more)
        self.addCleanup(self._end, service)
        return service

    def rows(self) -> List[Any]:
        with self.log.state() as state:
            return list(state["rows"])


class Served(Shards):
    def test_a_user_of_another_shard_is_refused_in_words(self) -> None:
        one, two = self.shard("one", FAKE, "ann,bob"), self.shard("two", FAKE, "carl")
        one.start()
        two.start()
        wait_until(lambda: one.once(b"counts\n").startswith("ok 0 counts"), "ann is served")
        self.assertEqual(two.once(b""), "no 46 ann is a user of another shard: ask at the socket of that one")
        # A list in a file is read again with the rules.
        with open(self.place("list"), "w") as file:
            file.write("ann\nbob\n")
        three = self.shard("three", FAKE, self.place("list"))
        three.start()
        talk = three.talk()
        wait_until(lambda: talk.line(b"counts\n").startswith("ok 0 counts"), "ann is served")
        with open(self.place("list"), "w") as file:
            file.write("bob\n")
        three.process.send_signal(1)  # type: ignore[union-attr]
        wait_until(lambda: three.once(b"").startswith("no 46 ann"), "ann is moved away")
        self.assertIn(b"no 46 ann", talk.file.read())
        talk.close()

    def test_only_the_queries_of_the_shards_users_run(self) -> None:
        rules = RULES + f"deliver ann q maildir {self.place('ann')}\ndeliver bob q maildir {self.place('bob')}\n"
        one, two = self.shard("one", FAKE, "ann", rules), self.shard("two", FAKE, "bob", rules.replace(f"{LOGIN} ann", f"{LOGIN} bob"))
        for it in (one, two):
            it.start()
            wait_until(lambda: it.once(b"query q hello\n") == "ok 0 query q", "the query")  # noqa: B023
        one.put(b"hello\n")
        for name in ("ann", "bob"):
            wait_until(lambda: os.path.isdir(self.place(name, "new")) and os.listdir(self.place(name, "new")), "it is delivered")  # noqa: B023
        # What moved away with its user doesn't run here, though the store has it.
        self.assertEqual(one.stop(), 0)
        one.words[one.words.index("ann")] = "zoe"
        one.start()
        two.put(b"hello again\n")
        wait_until(lambda: len(os.listdir(self.place("bob", "new"))) == 2, "the other one")
        self.assertEqual(len(os.listdir(self.place("ann", "new"))), 1)

    def test_notes_and_mail_of_users(self) -> None:
        one, two = self.shard("one", FAKE, "ann"), self.shard("two", FAKE, "ann")
        one.start()
        two.start()
        first, second = Talk(one.socket), Talk(two.socket)
        wait_until(lambda: first.line(b"mail\nhello\n.\n") == "ok 0 doc 1", "the first message")
        wait_until(lambda: second.line(b"counts\n").startswith("ok 0 counts documents 1 "), "the other has it")
        self.assertEqual(second.line(b"note 1 score 3 good\n"), "ok 0 note 1")
        self.assertEqual(second.line(b"note 2 score 3 good\n"), "no 11")
        self.assertEqual(second.line(b"note 1 score x\n"), "no 2")
        # A command beside it isn't held up, and the next one of the client waits for the reply.
        first.socket.sendall(b"note 1 score 4\nnote 1 score 5\ncounts\n")
        self.assertEqual([first.line(b"") for _ in range(2)], ["ok 0 note 2", "ok 0 note 3"])
        self.assertTrue(first.line(b"").startswith("ok 0 counts documents 1 notes 3 "))
        wait_until(lambda: second.line(b"counts\n").startswith("ok 0 counts documents 1 notes 3 "), "both have all")
        shown = [it.say(b"notes 1\n") for it in (first, second)]
        self.assertEqual(shown[0], shown[1])
        for it in (first, second):
            it.close()

    def test_the_log_is_down(self) -> None:
        one = self.shard("one", FAKE, "ann")
        one.start()
        wait_until(lambda: one.once(b"mail\nhello\n.\n") == "ok 0 doc 1", "the first message")
        open(self.place("rows.down"), "w").close()
        wait_until(lambda: one.once(b"note 1 score 3\n").startswith("no 42 the log can't be used: it can't be asked"), "a note is refused")
        self.assertTrue(one.once(b"show 1\n").startswith("ok 1 show 1 at "))
        self.assertEqual(one.once(b"query q hello\n"), "ok 0 query q")
        # It can begin without the log, too.
        self.assertEqual(one.stop(), 0)
        one.start()
        wait_until(lambda: one.once(b"wake q\n").startswith("ok 0 wake q"), "it serves what it has")
        one.put(b"hello again\n")
        os.unlink(self.place("rows.down"))
        one.wait_empty()
        wait_until(lambda: one.once(b"counts\n").startswith("ok 0 counts documents 2"), "it goes on")

    def test_a_lost_log(self) -> None:
        one = self.shard("one", FAKE, "ann")
        one.start()
        one.put(b"hello\n")
        wait_until(lambda: one.once(b"counts\n").startswith("ok 0 counts documents 1"), "the message")
        os.unlink(self.place("rows"))
        one.put(b"another\n")
        wait_until(lambda: "it has 0 rows, and this store 1: it was lost or cut" in one.said(), "it says so")
        self.assertEqual(len(one.waiting()), 1)
        self.assertFalse(os.path.exists(self.place("rows")))

    def test_a_program_that_ends(self) -> None:
        one = self.shard("one", FAKE, "ann")
        one.start()
        for status in (5, 7, 3):
            for when in ("", " stored"):
                with open(self.place("one", "store.fault"), "w") as file:
                    file.write(f"put {status}{when}")
                for _ in range(3):
                    one.put(b"message %d\n" % one._number)
                one.wait_empty()
                wait_until(lambda: not os.path.exists(self.place("one", "store.fault")), "the fault came")
        wait_until(lambda: one.once(b"counts\n").startswith("ok 0 counts documents 18"), "all are there")
        self.assertNotIn("isn't applied", one.said())

    def test_words(self) -> None:
        def said(*words: str, script: str = os.path.join(SERVICE, "tapestryd"), **more: str) -> str:
            done = subprocess.run([sys.executable, script, *words], stderr=subprocess.PIPE, env={**os.environ, "TAPESTRY": FAKE, **more})
            self.assertEqual(done.returncode, 2)
            return done.stderr.decode().splitlines()[-1]

        here = ["--spool", self.place("spool"), "--store", self.place("store"), "--socket", self.place("socket")]
        self.assertIn("a service needs --rules", said(*here))
        self.assertIn("a service needs --rules", said(*here, "--log", self.url, "--users", "ann"))
        with open(self.place("rules"), "w"):
            here += ["--rules", self.place("rules")]
        self.assertIn("a service needs --users, or --log and --spool alone", said(*here, "--log", self.url))
        self.assertIn("--users is for a shard", said(*here, "--users", "ann"))
        following = self.place("following.py")
        self.assertIn("`Ann` isn't a valid name of a user", said(*here, "--log", self.url, "--users", "ann,Ann", script=following))
        self.assertIn("nowhere", said(*here, "--log", self.url, "--users", self.place("nowhere"), script=following))
        self.assertIn("nowhere", said(*here, "--log", self.place("nowhere"), "--users", "ann"))
        # Without python3-redis there is no log, and all else runs.
        with open(self.place("redis.py"), "w") as file:
            file.write("raise ImportError\n")
        self.assertIn("apt install python3-redis", said(*here, "--log", "redis://localhost", "--users", "ann", PYTHONPATH=self.at))
        os.unlink(self.place("redis.py"))


class Moved(Shards):
    def test_the_queries_of_a_user_as_commands(self) -> None:
        script = (
            b"at 1000\nas ann\nquery budget m.words HAS 'budget'\nquery text FROM NOW  m.subject = 'a text ''quoted'' $HOME'\n"
            b"as bob\nquery other TRUE\n"
        )
        program = the_program()
        subprocess.run([program, "--store", self.place("store")], input=script, stdout=subprocess.DEVNULL, check=True)
        move = os.path.join(os.path.dirname(SERVICE), "examples", "move-user.sh")
        done = subprocess.run([move, self.place("store"), "ann"], stdout=subprocess.PIPE, env={**os.environ, "TAPESTRY": program}, check=True)
        # What the shell makes of the commands are the words that define the queries.
        words = subprocess.run(["sh"], input=b"tap() { printf '%s|' \"$@\"; echo; }\n" + done.stdout, stdout=subprocess.PIPE, check=True)
        self.assertEqual(
            words.stdout.decode().splitlines(),
            ["query|budget|m.words HAS 'budget'|", "query|text|FROM NOW m.subject = 'a text ''quoted'' $HOME'|"],
        )


class Killed(Shards):
    def test_shards_and_feeders_that_are_killed(self) -> None:
        """Two shards and a feeder are killed at random: both stores have each message once, and each note that was answered."""
        random = draw(55)
        program = the_program()
        shards = [self.shard(it, program, "ann") for it in ("one", "two")]
        for it in shards:
            it.start(is_ready=False)
        feeder = None
        os.makedirs(self.place("fed", "tmp"))
        os.makedirs(self.place("fed", "new"))
        names = 0

        def feed() -> "subprocess.Popen[bytes]":
            words = [sys.executable, self.place("following.py"), "--log", self.url, "--spool", self.place("fed")]
            found = subprocess.Popen(words, stderr=subprocess.DEVNULL)
            self.addCleanup(end_process, found)
            return found

        answered = {}
        for turn in range(int(os.environ.get("SERVICE_KILLS", 12))):
            for _ in range(random.randrange(1, 20)):
                names += 1
                text = b"Subject: message %d\n\n.\nFrom here %d\r\r\n" % (names, names)
                if random.random() < 0.5:
                    random.choice(shards).put(text, f"{names:06d}")
                else:
                    with open(self.place("fed", "tmp", f"{names:06d}"), "wb") as file:
                        file.write(text)
                    os.rename(self.place("fed", "tmp", f"{names:06d}"), self.place("fed", "new", f"{names:06d}"))
            if feeder is None or random.random() < 0.5:
                if feeder is not None:
                    feeder.kill()
                    feeder.wait()
                feeder = feed()
            it = random.choice(shards)
            try:
                line = it.once(b"note 1 score %d at turn %d\n" % (turn, turn))
                if line.startswith("ok 0 note "):
                    answered[int(line.split()[3])] = turn
            except OSError:
                pass
            kind = random.randrange(3)
            if kind != 0:
                it.kill_program()
            if kind != 1:
                it.kill()
                it.start(is_ready=False)
        wait_until(lambda: not os.listdir(self.place("fed", "new")) and not any(it.waiting() for it in shards), "all are put")
        rows = self.rows()
        docs, notes = [it for it in rows if it[2] == "doc"], [it for it in rows if it[2] == "note"]
        self.assertEqual(len({it[5] for it in docs}), names)
        self.assertEqual(len(docs), names)
        for number, turn in answered.items():
            self.assertTrue(notes[number - 1][5].endswith(f"at turn {turn}"))
        wanted = f"ok 0 counts documents {len(docs)} notes {len(notes)} "
        for it in shards:
            wait_until(lambda: it.once(b"counts\n").startswith(wanted), "it has all")  # noqa: B023
        talks = [it.talk() for it in shards]
        for number in range(1, len(docs) + 1):
            shown = [it.say(b"show %d\n" % number) for it in talks]
            self.assertEqual(shown[0], shown[1])
            self.assertEqual(shown[0].words, f"show {number} at {docs[number - 1][1]}")  # type: ignore[union-attr]
        shown = [it.say(b"notes 1\n") for it in talks]
        self.assertEqual(shown[0], shown[1])
        for talk in talks:
            talk.close()
        for it in shards:
            self.assertNotIn("isn't applied", it.said())
            self.assertEqual(it.stop(), 0)


if __name__ == "__main__":
    unittest.main()
