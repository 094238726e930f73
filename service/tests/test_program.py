"""The running service over the real program, which TAPESTRY names, and the program held open as a process."""

from __future__ import annotations

import os
import random
import signal
import socket
import subprocess
import threading
import time
import unittest
from typing import Callable, Dict, List, Optional

from support import LOGIN, Folder, Service, WithService, a_second_here, draw, end_process, the_program, wait_until
from tapestry_service.digests import documents_of
from tapestry_service.replies import Reply, read_reply

TEXT = b"From: u%d@example.org\nSubject: message %d\nMessage-ID: <%d@x>\n\nwords of number n%dn\nFrom here\n>From there\n.\n..dot\n\n"


#: Conditions, and the numbers of the documents that they give. Message n is document n + 1.
GIVEN: Dict[str, Callable[[int], bool]] = {
    "m.words HAS 'words'": lambda n: True,
    "m.id > 40": lambda n: n > 40,
    "m.words HAS 'n7n' OR m.id < 30": lambda n: n == 8 or n < 30,
    "m.subject = 'message 9' OR m.id > 100": lambda n: n == 10 or n > 100,
    "NOT m.id = 5": lambda n: n != 5,
}


def text_of(number: int) -> bytes:
    return TEXT % (number % 7, number, number, number)


class Held(Folder):
    """The program as a process that is held open: each reply comes whole before the next command is written."""

    def session(self, *words: str) -> "subprocess.Popen[bytes]":
        process = subprocess.Popen([the_program(), *words], stdin=subprocess.PIPE, stdout=subprocess.PIPE)
        self.addCleanup(end_process, process)
        return process

    def say(self, process: "subprocess.Popen[bytes]", data: bytes) -> Reply:
        assert process.stdin is not None and process.stdout is not None
        process.stdin.write(data)
        process.stdin.flush()
        timer = threading.Timer(90, process.kill)
        timer.start()
        try:
            reply = read_reply(process.stdout)
        finally:
            timer.cancel()
        assert reply is not None, "the reply waits for the next command"
        return reply

    def test_each_reply_comes_before_the_next_command(self) -> None:
        process = self.session("--store", self.place("store"))
        script = [
            (b"at 1000\n", "ok 0 at 1000"),
            (b"as ann\n", "ok 0 as ann"),
            (b"mail\nSubject: x\n\nhello\n.\n", "ok 0 doc 1"),
            (b"mbox\nFrom a\nSubject: y\n\nhello\n\nFrom b\nz\n.\n", "ok 0 docs 2 2"),
            (b"query q m.words HAS 'hello'\n", "ok 0 query q"),
            (b"at 1001\n", "ok 0 at 1001"),
            (b"wake q\n", "ok 0 wake q 1001"),
            (b"run q\n", "ok 2 run 1 before 1001"),
            (b"box q\n", "ok 2 box q"),
            (b"digest q 1\n", "ok 13 digest q 1"),
            (b"digest q 0\n", "no 19 1"),
            (b"note 1 k 1 text\n", "ok 0 note 1"),
            (b"list q\n", "ok 2 list q"),
            (b"explain q\n", None),
            (b"scores k\n", "ok 1 scores k"),
            (b"filter\n.\n", "ok 0 filter 0"),
            (b"ask 1000 TRUE\n", "ok 3 ask 1000"),
            (b"nothing\n", "no 1"),
        ]
        for data, wanted in script:
            reply = self.say(process, data)
            if wanted is not None:
                self.assertEqual(reply.first.decode(), wanted, data)
        self.assertEqual(process.poll(), None)
        assert process.stdin is not None
        process.stdin.close()
        self.assertEqual(process.wait(90), 1)

    def test_what_the_service_asks_of_a_store(self) -> None:
        """A program has `counts` and `show`, or neither; then it says `no 1`."""
        process = self.session()
        self.say(process, b"at 1000\n")
        self.say(process, b"as ann\n")
        self.assertEqual(self.say(process, b"mail\nSubject: x\n\n>From y\r\r\n..\n\n.\n").first, b"ok 0 doc 1")
        counts, shown = self.say(process, b"counts\n"), self.say(process, b"show 1\n")
        if not counts.ok:
            self.assertEqual((counts.first, shown.first), (b"no 1", b"no 1"))
            self.assertEqual(self.say(process, b"mbox\n.\n").first, b"ok 0 docs 0 2")
            return
        self.assertEqual(counts.first, b"ok 0 counts documents 1 notes 0 moment 1000")
        self.assertEqual(shown.first, b"ok 5 show 1 at 1000")
        self.assertEqual(shown.lines, [b"Subject: x", b"", b">From y", b".", b""])
        self.assertEqual(self.say(process, b"show 2\n").first, b"no 11")

    def test_a_large_reply_comes_whole(self) -> None:
        process = self.session()
        self.say(process, b"at 1000\n")
        self.say(process, b"as ann\n")
        self.say(process, b"mbox\n" + b"".join(b"From -\n%s\n" % (b"line\n" * 1000) for _ in range(300)) + b".\n")
        self.say(process, b"query q TRUE\n")
        self.say(process, b"at 1001\n")
        self.assertEqual(self.say(process, b"run q\n").number, 300)
        reply = self.say(process, b"digest q 1\n")
        self.assertEqual(reply.number, 3 + 300 * 1002)
        self.assertEqual(self.say(process, b"at 1001\n").first, b"ok 0 at 1001")

    def test_pop3(self) -> None:
        """Each reply of `tapestry_pop` comes before the next request."""
        script = b"at 1000\nas ann\nmail\nSubject: x\n\nhello\n.\nquery q TRUE\nat 1001\nrun q\n"
        subprocess.run([the_program(), "--store", self.place("store")], input=script, stdout=subprocess.PIPE, check=True)
        words = [the_program("TAPESTRY_POP"), "--store", self.place("store"), "--user", "ann", "--box", "q", "--pass", "s"]
        process = subprocess.Popen(words, stdin=subprocess.PIPE, stdout=subprocess.PIPE)
        self.addCleanup(end_process, process)
        assert process.stdin is not None and process.stdout is not None
        timer = threading.Timer(90, process.kill)
        timer.start()
        self.addCleanup(timer.cancel)
        self.assertTrue(process.stdout.readline().startswith(b"+OK"))
        for request in (b"USER ann", b"PASS s", b"STAT"):
            process.stdin.write(request + b"\r\n")
            process.stdin.flush()
            self.assertTrue(process.stdout.readline().startswith(b"+OK"), request)
        process.stdin.write(b"RETR 1\r\n")
        process.stdin.flush()
        lines = [process.stdout.readline()]
        while lines[-1] not in (b".\r\n", b""):
            lines.append(process.stdout.readline())
        self.assertEqual(lines[1:], [b"Subject: x\r\n", b"\r\n", b"hello\r\n", b".\r\n"])
        process.stdin.write(b"QUIT\r\n")
        process.stdin.flush()
        self.assertTrue(process.stdout.readline().startswith(b"+OK"))
        self.assertEqual(process.wait(90), 0)


class Whole(WithService):
    """The service with all its parts."""

    def documents(self, service: Service) -> Dict[int, bytes]:
        """All documents, by a run of a query that gives each of them, in another session."""
        copy = self.place("copy")
        for end in ("", "-wal"):
            if os.path.exists(service.store + end):
                with open(service.store + end, "rb") as source, open(copy + end, "wb") as target:
                    target.write(source.read())
        script = b"at 240000000000\nas zoe\nquery every TRUE\nat 240000000001\nrun every\ndigest every 1\n"
        done = subprocess.run([the_program(), "--store", copy], input=script, stdout=subprocess.PIPE, check=True)
        for end in ("", "-wal"):
            if os.path.exists(copy + end):
                os.unlink(copy + end)
        lines = done.stdout.split(b"\n")
        at = next(number for number, line in enumerate(lines) if line.startswith(b"ok ") and b" digest every 1" in line)
        return {it.number: it.text for it in documents_of(lines[at + 1 : -1])}

    def test_from_spool_to_maildir(self) -> None:
        box = self.place("box")
        rules = f"user {LOGIN} ann\ndeliver ann q maildir {box}\ndeliver ann q digest sh -c 'cat >> {self.place('out')}'\n"
        service = self.service(the_program(), rules)
        service.start()
        talk = service.talk()
        self.assertEqual(talk.line(b"query q m.words HAS 'n3n' OR m.words HAS 'n5n'\n"), "ok 0 query q")
        for number in range(8):
            service.put(text_of(number))
        service.wait_empty()
        # What arrives at a second is given from then on, and a run covers the seconds before its own.
        wait_until(lambda: os.path.isdir(box + "/new") and len(os.listdir(box + "/new")) == 2, "both are delivered")
        texts = {self.read("box", "new", it) for it in os.listdir(box + "/new")}
        self.assertEqual(texts, {text_of(3), text_of(5)})
        wait_until(lambda: "took digest" in service.said(), "the digest is taken")
        self.assertEqual(self.read("out").count(b"\nFrom doc "), 2)
        # A message that was deleted doesn't come again.
        for name in os.listdir(box + "/new"):
            os.unlink(f"{box}/new/{name}")
        self.assertEqual(talk.line(b"mail\n" + text_of(3).replace(b"\n.", b"\n..") + b".\n"), "ok 0 doc 9")
        wait_until(lambda: len(os.listdir(box + "/new")) == 1, "the new one is delivered")
        self.assertIn(".D9H", os.listdir(box + "/new")[0])
        for _ in range(5):
            began = time.monotonic()
            self.assertEqual(service.stop(), 0)
            taken = time.monotonic() - began
            limit = a_second_here()
            if taken < limit:
                break
            service.start()
        self.assertLess(taken, limit)
        self.assertTrue(self.is_one_file(service))
        found = self.documents(service)
        self.assertEqual([found[it] for it in range(1, 9)], [text_of(it) for it in range(8)])

    def is_one_file(self, service: Service) -> bool:
        """Whether the store's file alone has all documents."""
        alone = self.place("alone")
        with open(service.store, "rb") as source, open(alone, "wb") as target:
            target.write(source.read())
        script = b"at 240000000000\nmbox\n.\n"
        done = subprocess.run([the_program(), "--store", alone], input=script, stdout=subprocess.PIPE, check=True)
        return done.stdout.split()[-1] == b"%d" % (len(self.documents(service)) + 1)

    def test_the_bytes_that_are_stored(self) -> None:
        """A message is stored as by `mail`, whatever goes beside it."""
        service = self.service(the_program(), f"user {LOGIN} ann\n")
        raws = [b"", b"\n", b"a\r\n\r\n", b"From x\n\nFrom y\n>From z\n", b".\n..\n", b"no end", b"cr\r\r\nx\n", b"\xff\0\n", b"x\n\n\n"]
        for raw in raws:
            service.put(raw)
        service.start()
        service.wait_empty()
        self.assertEqual(service.stop(), 0)
        found = self.documents(service)
        lines = [(raw[:-1] if raw.endswith(b"\n") else raw).split(b"\n") if raw else [] for raw in raws]
        wanted = [b"".join(line.rstrip(b"\r") + b"\n" for line in it) for it in lines]
        self.assertEqual([found.get(it) for it in range(1, len(raws) + 1)], wanted)

    def test_too_large_ones_are_refused(self) -> None:
        service = self.service(the_program(), f"user {LOGIN} ann\n")
        sizes = [1_048_575, 1_048_576, 2_000_000, 3_000_000, 10]
        for size in sizes:
            service.put(b"x\n" * (size // 2) + b"y" * (size % 2))
        service.start()
        service.wait_empty()
        self.assertEqual(service.stop(), 0)
        self.assertEqual(sorted(len(it) for it in self.documents(service).values()), [10, 1_048_576, 1_048_576])
        refused = [it for it in os.listdir(self.place("spool", "refused")) if it.endswith(".reason")]
        self.assertEqual(len(refused), 2)
        for name in refused:
            self.assertTrue(self.read("spool", "refused", name).startswith(b"no 16 message\n"))

    def test_kills_at_random_moments(self) -> None:
        """Daemon, program or both are killed (-9) at random moments, while mail comes, queries run and a user deletes what he has
        read. Each message is stored once, and in order; each document of each box gets into its maildir once."""
        random = draw(48)
        kills, messages = int(os.environ.get("SERVICE_KILLS", "20")), int(os.environ.get("SERVICE_MESSAGES", "300"))
        conditions = list(GIVEN)
        rules = f"user {LOGIN} ann\n" + "".join(f"deliver ann q{it} maildir {self.place('box%d' % it)}\n" for it in range(5))
        service = self.service(the_program(), rules)
        service.start()
        for number, condition in enumerate(conditions):
            self.assertEqual(service.once(b"query q%d %s\n" % (number, condition.encode())), f"ok 0 query q{number}")
        seen: List[List[str]] = [[] for _ in conditions]

        def read_some(share: float) -> None:
            for number in range(5):
                new = self.place(f"box{number}", "new")
                for name in os.listdir(new) if os.path.isdir(new) else []:
                    if random.random() < share:
                        seen[number].append(name)
                        os.unlink(os.path.join(new, name))

        put = done = 0
        while done < kills or put < messages:
            for _ in range(random.randrange(1, 2 * messages // max(kills, 1))):
                if put < messages:
                    service.put(text_of(put))
                    put += 1
            time.sleep(random.random() * 0.25)
            read_some(0.3)
            if done < kills:
                done += 1
                kind = random.randrange(3)
                if kind != 0:
                    service.kill_program()
                if kind != 1:
                    service.kill()
                    service.start(is_ready=False)
        service.wait_empty()
        assert service.process is not None
        self.assertIsNone(service.process.poll(), service.said()[-1000:])
        found = self.documents(service)
        self.assertEqual([found[it] for it in sorted(found)], [text_of(it) for it in range(messages)])
        for number, condition in enumerate(conditions):
            wait_until(lambda: self.box_of(service, number) == self.given(condition, messages), f"box {number} is whole")
            new = self.place(f"box{number}", "new")
            wanted = len(self.box_of(service, number))
            wait_until(lambda: len(seen[number]) + len(os.listdir(new)) >= wanted, f"maildir {number} is whole")
        time.sleep(0.3)
        read_some(1.1)
        for number in range(5):
            numbers = sorted(int(it.split(".D")[1].split("H")[0]) for it in seen[number])
            self.assertEqual(numbers, self.box_of(service, number), f"maildir {number}")
        self.assertEqual(service.stop(), 0)

    def box_of(self, service: Service, number: int) -> List[int]:
        talk = service.talk()
        try:
            reply: Optional[Reply] = talk.say(b"box q%d\n" % number)
            assert reply is not None
            return sorted(int(it.split()[1]) for it in reply.lines)
        finally:
            talk.close()

    def given(self, condition: str, messages: int) -> List[int]:
        return [n for n in range(1, messages + 1) if GIVEN[condition](n)]

    def test_a_query_that_is_due_later(self) -> None:
        """Nobody says anything, and the query runs at the moment that `wake` names."""
        service = self.service(the_program(), f"user {LOGIN} ann\ndeliver ann q maildir {self.place('box')}\n")
        service.start()
        self.assertEqual(service.once(b"query q NOW >= m.ts + 3 SECONDS\n"), "ok 0 query q")
        service.put(b"x")
        service.wait_empty()
        new = self.place("box", "new")
        time.sleep(1.2)
        self.assertEqual(os.listdir(new) if os.path.isdir(new) else [], [])
        wait_until(lambda: os.path.isdir(new) and os.listdir(new), "it runs by itself")

    def test_another_login_and_no_way_round(self) -> None:
        """Nobody speaks as somebody else, however the line is written."""
        service = self.service(the_program(), f"user {LOGIN} ann\n")
        service.start()
        talk = service.talk()
        self.assertEqual(talk.line(b"query mine TRUE\n"), "ok 0 query mine")
        for line in (b"as bob\n", b" as bob\n", b"\tas bob\r\n", b"as\tbob\n"):
            self.assertTrue(talk.line(line).startswith("no 40 as"), line)
        for line in (b"as\rx bob\n", b"AS bob\n", b"\ras bob\n", b"as\0 bob\n"):
            self.assertEqual(talk.line(line), "no 1", line)
        self.assertEqual(talk.line(b"mail\nas bob\n.\n"), "ok 0 doc 1")
        self.assertEqual(talk.line(b"mbox\r\nFrom x\nas bob\n.\r\n"), "ok 0 docs 1 2")
        self.assertTrue(talk.line(b"box mine\n").startswith("ok "))
        if os.geteuid() != 0:
            return
        # As another login of the system, without a line: as itself.
        code = (
            "import os, socket, sys; os.setgid(65534); os.setuid(65534); s = socket.socket(socket.AF_UNIX); s.connect(sys.argv[1]);"
            " s.sendall(b'box mine\\n'); print(s.recv(100).decode(), end='')"
        )
        os.chmod(self.at, 0o755)
        done = subprocess.run(["python3", "-c", code, service.socket], stdout=subprocess.PIPE, check=True)
        self.assertEqual(done.stdout, b"no 10\n")
        service.write_rules("user nobody 'ann'\n")
        assert service.process is not None
        service.process.send_signal(signal.SIGHUP)
        wait_until(lambda: "1 logins" in service.said().split("read ")[-1], "the rules are read")
        done = subprocess.run(["python3", "-c", code, service.socket], stdout=subprocess.PIPE, check=True)
        self.assertTrue(done.stdout.startswith(b"ok "), done.stdout)

    def test_commands_of_every_kind(self) -> None:
        service = self.service(the_program(), f"user {LOGIN} ann\n")
        service.start()
        talk = service.talk()
        for data, wanted in (
            (b"mail\nSubject: x\n\n..\n.\n", "ok 0 doc 1"),
            (b"mbox\nFrom a\none\n\nFrom b\ntwo\n.\n", "ok 0 docs 2 2"),
            (b"query q TRUE\n", "ok 0 query q"),
            (b"note 1 k 7 some text\n", "ok 0 note 1"),
            (b"filter\nWHEN m.id = 1 PRIORITY 5 CLASS 'one'\n.\n", "ok 0 filter 1"),
            (b"filter\nWHEN\n.\n", "no 17 1 4"),
            (b"scores k\n", "ok 1 scores k"),
            (b"mail x\nabc\n.\n", "no 2"),
            (b"x" * 1_048_577 + b"\n", "no 16 line"),
            (b"mail\n" + b"y\n" * 600_000 + b".\n", "no 16 message"),
            (b"mail\n" + b"y\n" * 2_000_000 + b".\n", "no 16 message"),
            (b"filter\n" + b"#\n" * 40_000 + b".\n", "no 16 block"),
            (b"query q TRUE\n", "no 9"),
            (b"box\n", "no 2"),
        ):
            self.assertEqual(talk.line(data), wanted, data[:40])
        large = b"mbox\n" + b"".join(b"From -\n%d\n%s\n" % (it, b"some text\n" * 100) for it in range(10_000)) + b".\n"
        self.assertEqual(talk.line(large), "ok 0 docs 10000 4")

    def test_a_slow_client_in_the_middle_of_a_large_reply(self) -> None:
        service = self.service(the_program(), f"user {LOGIN} ann\n")
        service.start()
        talk = service.talk()
        talk.line(b"mbox\n" + b"".join(b"From -\n%s\n" % (b"a line of text\n" * 2000) for _ in range(300)) + b".\n")
        talk.line(b"query q TRUE\n")
        wait_until(lambda: talk.say(b"run q\n").number == 300, "the run gives all")
        runs = int(talk.line(b"digest q 0\n").split()[2])
        last = next(run for run in range(1, runs + 1) if talk.say(b"digest q %d\n" % run).number > 3)
        slow = service.talk()
        slow.socket.setsockopt(socket.SOL_SOCKET, socket.SO_RCVBUF, 4096)
        slow.socket.sendall(b"digest q %d\n" % last * 5)
        time.sleep(0.3)
        began = time.monotonic()
        self.assertTrue(talk.line(b"box q\n").startswith("ok 300"))
        service.put(b"x")
        service.wait_empty()
        self.assertLess(time.monotonic() - began, 60)
        self.assertEqual(read_reply(slow.file).number, 3 + 300 * 2002)


if __name__ == "__main__":
    unittest.main()
