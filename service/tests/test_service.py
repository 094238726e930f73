"""The running service over a stand-in for the program, which fails where a test says so."""

from __future__ import annotations

import os
import signal
import socket
import stat
import subprocess
import sys
import time
import unittest
from typing import List

from support import FAKE, LOGIN, SERVICE, Service, Talk, WithService, a_second_here, end_process, wait_until
from tapestry_service.replies import read_reply

RULES = f"user {LOGIN} ann\n"

#: A service whose clock is a file.
CLOCKED = """
import sys
sys.path.insert(0, {service!r})
from tapestry_service import daemon, main
from tapestry_service.clock import Clock
real = daemon.Daemon.__init__
def init(self, *words, **named):
    named["clock"] = Clock(lambda: float(open({clock!r}).read()))
    real(self, *words, **named)
daemon.Daemon.__init__ = init
sys.exit(main.main())
"""

#: A service whose sessions are short.
SHORT = """
import sys
sys.path.insert(0, {service!r})
from tapestry_service import daemon, main
daemon.SCRIPT_LIMIT = 4000
sys.exit(main.main())
"""


class Failing(WithService):
    def fault(self, text: str) -> None:
        with open(self.place("store.fault"), "w") as file:
            file.write(text)

    def start(self, rules: str = RULES, **more) -> Service:
        service = self.service(FAKE, rules, **more)
        service.start()
        return service

    def documents(self, service: Service) -> int:
        return int(service.once(b"counts\n").split()[4])

    def test_statuses_within_a_put(self) -> None:
        """The program ends with each status before or after it stored: each message is stored once."""
        for plain in (False, True):
            if plain:
                open(self.place("store.plain"), "w").close()
            service = self.start()
            number = 0
            for status in (5, 7, 3):
                for when in ("", " stored"):
                    self.fault(f"put {status}{when}")
                    names = [f"{number + it:06d}" for it in range(3)]
                    for name in names:
                        service.put(b"message " + name.encode(), name)
                    number += len(names)
                    service.wait_empty()
                    wait_until(lambda: not os.path.exists(self.place("store.fault")), "the fault came")
            self.assertEqual(service.stop(), 0)
            said = service.said()
            self.assertIn("status 5: the store failed, or another program holds it: make room on its disk", said)
            self.assertIn("status 7: out of memory", said)
            self.assertIn("nothing is lost", said)
            texts = self.texts()
            self.assertEqual(texts, sorted(set(texts)))
            self.assertEqual(len(texts), number)
            for name in ("store", "log"):
                os.unlink(self.place(name))

    def texts(self) -> List[str]:
        import json

        found = []
        with open(self.place("store")) as file:
            for line in file:
                row = json.loads(line)
                found += row.get("texts", []) if row["kind"] == "docs" else []
        return found

    def test_a_store_that_another_program_holds(self) -> None:
        service = self.service(FAKE, RULES)
        holder = subprocess.Popen([sys.executable, FAKE, "--store", service.store], stdin=subprocess.PIPE)
        self.addCleanup(end_process, holder)
        time.sleep(0.3)
        service.start(is_ready=False)
        service.put(b"x")
        wait_until(lambda: service.said().count("status 5") >= 3, "it says so")
        wait_until(lambda: os.path.exists(service.socket), "the socket")
        wait_until(lambda: service.once(b"counts\n").startswith("no 42 the program ended with status 5"), "clients are told")
        self.assertEqual(len(service.waiting()), 1)
        assert holder.stdin is not None
        holder.stdin.close()
        holder.wait()
        service.wait_empty()
        self.assertEqual(self.documents(service), 1)
        # The pauses grow.
        pauses = [float(it.split("trying again in ")[1].split()[0]) for it in service.said().splitlines() if "status 5" in it]
        self.assertEqual(pauses, sorted(pauses))
        self.assertGreater(pauses[-1], pauses[0])

    def test_a_refused_message(self) -> None:
        service = self.start()
        for name, text in (("a", b"one"), ("b", b"REFUSE this"), ("c", b"three"), ("d", b"x" * 1_100_000), ("e", b"y" * 9_000_000)):
            service.put(text, name)
        service.wait_empty()
        self.assertEqual(self.documents(service), 2)
        refused = sorted(os.listdir(self.place("spool", "refused")))
        self.assertEqual(refused, ["b", "b.reason", "d", "d.reason", "e", "e.reason"])
        self.assertTrue(self.read("spool", "refused", "b.reason").startswith(b"no 16 store\n"))
        self.assertTrue(self.read("spool", "refused", "d.reason").startswith(b"no 16 message\n"))
        self.assertEqual(self.read("spool", "refused", "b"), b"REFUSE this")
        self.assertIn("refused b: no 16 store", service.said())

    def test_a_store_that_is_full_within_a_command_pauses_the_spool_alone(self) -> None:
        service = self.start()
        self.fault("put 5 again")
        service.put(b"x")
        wait_until(lambda: service.said().count("status 5") >= 2, "it pauses")
        wait_until(lambda: service.once(b"counts\n").startswith("ok 0 counts documents 0"), "clients are served meanwhile")
        os.unlink(self.place("store.fault"))
        service.wait_empty()
        self.assertEqual(self.documents(service), 1)

    def test_commands_behind_a_large_reply(self) -> None:
        """What came with a command whose reply is large is performed, though nothing more comes."""
        service = self.start()
        service.put(b"line\n" * 20_000)
        service.wait_empty()
        talk = service.talk()
        talk.socket.sendall(b"show 1\ncounts\nshow 1\nnonsense\ncounts\n")
        replies = [talk.say(b"") for _ in range(5)]
        self.assertEqual([len(it.lines) for it in replies if it is not None], [20_000, 0, 20_000, 0, 0])
        talk.socket.sendall(b"show 1\ncounts\n")
        talk.socket.shutdown(socket.SHUT_WR)
        replies = [read_reply(talk.file) for _ in range(3)]
        self.assertEqual([it and len(it.lines) for it in replies], [20_000, 0, None])
        talk.close()

    def test_a_store_that_is_refused(self) -> None:
        """Status 6 and its line are shown, and the service waits for a store that can be used."""
        with open(self.place("store"), "w") as file:
            file.write("version 3\n")
        service = self.service(FAKE, RULES)
        service.start(is_ready=False)
        wait_until(lambda: "status 6 and the line `stop 6 version 3`" in service.said(), "it says so")
        self.assertIn("put a backup in its place", service.said())
        os.unlink(self.place("store"))
        wait_until(lambda: "ready:" in service.said(), "it goes on")

    def test_a_session_ends_before_its_script_is_too_long(self) -> None:
        with open(self.place("short.py"), "w") as file:
            file.write(SHORT.format(service=SERVICE))
        service = self.start(script=self.place("short.py"))
        talk = service.talk()
        for number in range(60):
            service.put(b"x" * 100 + b"%d" % number)
            self.assertTrue(talk.line(b"counts\n").startswith("ok 0 counts"))
        service.wait_empty()
        self.assertEqual(self.documents(service), 60)
        self.assertGreater(service.said().count("starting the next one"), 1)
        self.assertEqual(len(set(self.texts())), 60)

    def test_a_read_only_maildir(self) -> None:
        box = self.place("boxes")
        service = self.start(RULES + f"deliver ann q maildir {box}/q\ndeliver ann q maildir {self.place('well')}\n")
        with open(box, "w"):
            pass  # a file in the place of the folder
        talk = service.talk()
        self.assertEqual(talk.line(b"query q hello\n"), "ok 0 query q")
        service.put(b"hello")
        wait_until(lambda: "isn't delivered" in service.said(), "it says so")
        wait_until(lambda: os.path.isdir(self.place("well", "new")) and os.listdir(self.place("well", "new")), "the other gets it")
        os.unlink(box)
        wait_until(lambda: os.path.isdir(box + "/q/new") and len(os.listdir(box + "/q/new")) == 1, "it gets there later")
        self.assertIn("trying again in 1 seconds", service.said())

    def test_a_clock_that_falls(self) -> None:
        clock = self.place("clock")

        def set_clock(second: float) -> None:
            with open(clock + ".part", "w") as file:
                file.write(str(second))
            os.rename(clock + ".part", clock)

        set_clock(5000)
        with open(self.place("clocked.py"), "w") as file:
            file.write(CLOCKED.format(service=SERVICE, clock=clock))
        service = self.start(script=self.place("clocked.py"))
        service.put(b"one")
        service.wait_empty()
        moment = lambda: service.once(b"counts\n").split()[-1]  # noqa: E731
        self.assertEqual(moment(), "5000")
        set_clock(40)
        service.put(b"two")
        service.wait_empty()
        self.assertEqual(moment(), "5000")
        # A new process doesn't know the last moment but from the store.
        self.assertEqual(service.stop(), 0)
        for plain in (False, True):
            if plain:
                open(self.place("store.plain"), "w").close()
            service.start()
            service.put(b"three")
            service.wait_empty()
            if not plain:
                self.assertEqual(moment(), "5000")
            self.assertEqual(service.stop(), 0)
        os.unlink(self.place("store.plain"))
        set_clock(5001)
        service.start()
        service.put(b"four")
        service.wait_empty()
        self.assertEqual(moment(), "5001")
        self.assertIn("behind the last moment 5000", service.said())
        self.assertEqual(len(self.texts()), 5)

    def test_sigterm_within_a_second(self) -> None:
        service = self.service(FAKE, RULES)
        for number in range(5):
            service.start()
            service.put(b"x %d" % number)
            service.wait_empty()
            talk = service.talk()
            talk.line(b"counts\n")
            began = time.monotonic()
            self.assertEqual(service.stop(), 0)
            taken = time.monotonic() - began
            self.assertEqual(talk.file.read(), b"")
            self.assertFalse(os.path.exists(service.socket))
            limit = a_second_here()
            if taken < limit:
                break
        self.assertLess(taken, limit)

    def test_sigterm_within_a_command(self) -> None:
        """The program ends its command first; the message is stored once."""
        service = self.start()
        with open(self.place("store.slow"), "w") as file:
            file.write("0.3")
        service.put(b"y")
        time.sleep(0.2)
        self.assertEqual(service.stop(), 0)
        os.unlink(self.place("store.slow"))
        service.start()
        service.wait_empty()
        self.assertEqual(self.texts(), ["y\n"])

    def test_sighup_with_a_wrong_line_changes_nothing(self) -> None:
        service = self.start()
        self.assertEqual(service.once(b"query q hello\n"), "ok 0 query q")
        service.write_rules(RULES + f"deliver ann q maildir {self.place('box')}\nrun ann\n")
        assert service.process is not None
        service.process.send_signal(signal.SIGHUP)
        wait_until(lambda: f"{service.rules}:3: it wants: run NAME QUERY: the rules stay as they were" in service.said(), "it is named")
        service.put(b"hello")
        service.wait_empty()
        time.sleep(0.2)
        self.assertFalse(os.path.exists(self.place("box")))
        service.write_rules(f"user {LOGIN} bob\ndeliver ann q maildir {self.place('box')}\n")
        talk = service.talk()
        service.process.send_signal(signal.SIGHUP)
        wait_until(lambda: os.path.isdir(self.place("box", "new")) and os.listdir(self.place("box", "new")), "the new rules are used")
        self.assertEqual(talk.line(b"wake q\n"), "no 10")

    def test_wrong_rules_at_the_start(self) -> None:
        service = self.service(FAKE, "run ann\n")
        service.start(is_ready=False)
        assert service.process is not None
        self.assertEqual(service.process.wait(90), 2)
        self.assertIn("rules:1: it wants: run NAME QUERY", service.said())

    def test_two_services_at_one_spool(self) -> None:
        self.start()
        other = Service(self.at, FAKE, RULES)
        other.socket = self.place("other")
        other.start(is_ready=False)
        assert other.process is not None
        self.assertEqual(other.process.wait(90), 2)
        self.assertIn("another service has the spool", other.said())

    def test_a_socket_that_nobody_listens_at_is_replaced(self) -> None:
        service = self.start()
        service.kill()
        self.assertTrue(os.path.exists(service.socket))
        service.start()
        self.assertTrue(service.once(b"counts\n").startswith("ok 0 counts"))
        self.assertEqual(stat.S_IMODE(os.stat(service.socket).st_mode), 0o666)

    def test_a_file_in_the_place_of_the_socket_stays(self) -> None:
        service = self.service(FAKE, RULES)
        with open(service.socket, "w") as file:
            file.write("a store, say")
        service.start(is_ready=False)
        assert service.process is not None
        self.assertEqual(service.process.wait(90), 2)
        self.assertIn(f"something else is at {service.socket}", service.said())
        self.assertEqual(self.read("socket"), b"a store, say")

    def test_two_services_at_one_socket(self) -> None:
        service = self.start()
        other = Service(self.place("other"), FAKE, RULES)
        other.socket = service.socket
        other.start(is_ready=False)
        assert other.process is not None
        self.assertEqual(other.process.wait(90), 2)
        self.assertIn(f"something else is at {service.socket}", other.said())
        self.assertTrue(service.once(b"counts\n").startswith("ok 0 counts"))

    def test_a_program_that_is_not_there(self) -> None:
        service = self.service(self.place("none"), RULES)
        service.start(is_ready=False)
        wait_until(lambda: "can't be started" in service.said(), "it says so")
        os.symlink(FAKE, self.place("none"))
        wait_until(lambda: "ready:" in service.said(), "it starts later")

    def test_systemd_is_told(self) -> None:
        server = socket.socket(socket.AF_UNIX, socket.SOCK_DGRAM)
        self.addCleanup(server.close)
        server.bind(self.place("notify"))
        server.settimeout(90)
        service = self.service(FAKE, RULES)
        service.environment = {"NOTIFY_SOCKET": self.place("notify"), "WATCHDOG_USEC": "400000"}
        service.start()
        found: List[bytes] = []

        def has_said(*wanted: bytes) -> bool:
            found.append(server.recv(200))
            return all(any(it.startswith(line) for it in found) for line in wanted)

        wait_until(lambda: has_said(b"READY=1", b"WATCHDOG=1", b"STATUS=0 documents"), "systemd is told")
        seen = found.count(b"WATCHDOG=1")
        wait_until(lambda: has_said() and found.count(b"WATCHDOG=1") > seen + 3, "it lives")
        assert service.process is not None
        service.process.send_signal(signal.SIGTERM)
        wait_until(lambda: has_said(b"STOPPING=1"), "it ends")

    def test_a_digest_command_that_the_service_was_killed_under(self) -> None:
        """It gets the digest again, under the same Message-ID."""
        out = self.place("out")
        rules = RULES + f"deliver ann q digest sh -c 'cat >> {out}; test -e {out}.go'\n"
        service = self.start(rules)
        self.assertEqual(service.once(b"query q hello\n"), "ok 0 query q")
        service.put(b"hello")
        wait_until(lambda: os.path.exists(out) and self.read("out").count(b"Message-ID") == 1, "the command has it")
        service.kill()
        open(out + ".go", "w").close()
        service.start()
        wait_until(lambda: "took digest 1" in service.said(), "it is taken")
        service.put(b"hello 2")
        wait_until(lambda: service.said().count("took digest") == 2, "the next one is taken")
        lines = [it for it in self.read("out").split(b"\n") if it.startswith(b"Message-ID")]
        self.assertEqual(len(lines), 3)
        self.assertEqual(len(set(lines)), 2)


class Harm(WithService):
    """What clients do to each other."""

    def start(self) -> Service:
        service = self.service(FAKE, RULES)
        service.start()
        return service

    def is_well(self, service: Service, seconds: float = 60.0) -> None:
        began = time.monotonic()
        self.assertTrue(service.once(b"counts\n").startswith("ok 0 counts"))
        self.assertLess(time.monotonic() - began, seconds)

    def test_a_client_that_stops_within_a_block(self) -> None:
        service = self.start()
        talk = service.talk()
        talk.socket.sendall(b"mail\nhalf a message\n")
        service.put(b"x")
        service.wait_empty()
        self.is_well(service)
        talk.socket.sendall(b".\n")
        self.assertEqual(read_reply(talk.file).words, "doc 2")

    def test_a_line_without_an_end(self) -> None:
        service = self.start()
        talk = service.talk()
        for _ in range(40):
            talk.socket.sendall(b"x" * 100_000)
        self.is_well(service)
        self.assertEqual(talk.line(b"\n"), "no 16 line")
        self.assertTrue(talk.line(b"counts\n").startswith("ok 0 counts"))

    def test_a_flood_that_is_not_read(self) -> None:
        service = self.start()
        talk = service.talk()
        talk.socket.setblocking(False)
        sent = 0
        for _ in range(200):
            try:
                sent += talk.socket.send(b"counts\nbogus\n" * 5000)
            except BlockingIOError:
                time.sleep(0.005)
        self.is_well(service)
        # What isn't read stops what is taken: the socket's buffers and a few commands.
        self.assertLess(sent, 4_000_000)
        with open(f"/proc/{service.process.pid}/statm") as file:
            pages = int(file.read().split()[1])
        self.assertLess(pages * os.sysconf("SC_PAGE_SIZE"), 200_000_000)

    def test_a_thousand_connections(self) -> None:
        service = self.start()
        talks, refused = [], 0
        for _ in range(1000):
            talk = Talk(service.socket)
            talks.append(talk)
        for talk in talks[:300]:
            try:
                reply = talk.line(b"counts\n")
            except OSError:
                reply = "no 41"
            if reply.startswith("no 41") or reply == "":
                refused += 1
            else:
                self.assertTrue(reply.startswith("ok 0 counts"), reply)
        self.assertEqual(refused, 300 - 256)
        for talk in talks:
            talk.close()
        wait_until(lambda: service.once(b"counts\n").startswith("ok"), "it serves on")
        service.put(b"x")
        service.wait_empty()

    def test_a_hundred_clients_at_once(self) -> None:
        service = self.start()
        talks = [service.talk() for _ in range(100)]
        for number, talk in enumerate(talks):
            talk.socket.sendall(b"query q%d hello\nwake q%d\nmail\nhello\n.\n" % (number % 10, number % 10))
        for talk in talks:
            first, second, third = (read_reply(talk.file) for _ in range(3))
            self.assertTrue(first.ok or first.number == 9)
            self.assertTrue(second.ok and third.ok)
        self.assertTrue(service.once(b"counts\n").startswith("ok 0 counts documents 100 "))

    def test_the_words_of_the_service(self) -> None:
        service = self.start()
        talk = service.talk()
        self.assertEqual(talk.line(b"at 5\n"), "no 40 at: the moment is the clock's second")
        self.assertEqual(talk.line(b" \tas\tbob\r\n"), "no 40 as: the user is that of the login")
        self.assertEqual(talk.line(b"as\n"), "no 40 as: the user is that of the login")
        self.assertEqual(talk.line(b"asx\n"), "no 1")
        talk.socket.sendall(b"# nothing\n\nmail\nlast")
        talk.socket.shutdown(socket.SHUT_WR)
        self.assertEqual(read_reply(talk.file).bytes, b"no 3\n")
        self.assertIsNone(read_reply(talk.file))

    def test_a_client_that_goes_away(self) -> None:
        service = self.start()
        for _ in range(50):
            talk = service.talk()
            talk.socket.sendall(b"counts\nmail\nx\n.\ncounts\n")
            talk.close()
        self.is_well(service)


if __name__ == "__main__":
    unittest.main()
