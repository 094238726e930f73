"""The clock, pauses, messages to systemd, the watch of a folder, files, and log lines."""

from __future__ import annotations

import contextlib
import errno
import io
import os
import select
import shutil
import socket
import unittest
from unittest import mock

from support import SERVICE, Folder
from tapestry_service import main
from tapestry_service.clock import LAST_MOMENT, Clock
from tapestry_service.files import read_or_none, remove, replace_synced
from tapestry_service.log import WARNING, advice, say
from tapestry_service.notify import Notify
from tapestry_service.pauses import Pause
from tapestry_service.watch import Watch


class Clocks(unittest.TestCase):
    def test_the_moment_never_falls(self) -> None:
        now = [1000.9]
        clock = Clock(lambda: now[0])
        said = io.StringIO()
        with contextlib.redirect_stderr(said):
            seconds = []
            for now[0] in (1000.9, 1001.0, 999.0, 400.0, 1001.5, 1002.0):
                seconds.append(clock.second())
            self.assertEqual(seconds, [1000, 1001, 1001, 1001, 1001, 1002])
            self.assertEqual(said.getvalue().count("behind the last moment 1001"), 1)
            clock.raise_to(5000)
            self.assertEqual(clock.second(), 5000)
            clock.raise_to(10)
            self.assertEqual(clock.second(), 5000)
            now[0] = 5001.2
            self.assertEqual(clock.second(), 5001)
            self.assertAlmostEqual(clock.seconds_until(5003), 1.8)
            self.assertEqual(clock.seconds_until(4), 0)
            now[0] = 1e15
            self.assertEqual(clock.second(), LAST_MOMENT)


class Pauses(unittest.TestCase):
    def test_they_grow_until_something_succeeds(self) -> None:
        now = [10.0]
        pause = Pause(1, 6, lambda: now[0])
        self.assertTrue(pause.is_over)
        self.assertEqual([pause.grow() for _ in range(5)], [1, 2, 4, 6, 6])
        self.assertFalse(pause.is_over)
        now[0] = 16.0
        self.assertTrue(pause.is_over)
        pause.begin()
        self.assertEqual(pause.grow(), 6)
        pause.reset()
        self.assertTrue(pause.is_over)
        self.assertEqual(pause.grow(), 1)


class Systemd(Folder):
    def test_messages(self) -> None:
        server = socket.socket(socket.AF_UNIX, socket.SOCK_DGRAM)
        self.addCleanup(server.close)
        server.bind(self.place("notify"))
        notify = Notify({"NOTIFY_SOCKET": self.place("notify"), "WATCHDOG_USEC": "30000000"})
        self.assertEqual(notify.watchdog, 15.0)
        notify.ready()
        notify.status("12 documents\nx")
        notify.status("12 documents\nx")
        notify.alive()
        notify.stopping()
        found = [server.recv(100) for _ in range(4)]
        self.assertEqual(found, [b"READY=1", b"STATUS=12 documents x", b"WATCHDOG=1", b"STOPPING=1"])
        assert notify._socket is not None
        notify._socket.close()

    def test_without_systemd(self) -> None:
        notify = Notify({"WATCHDOG_USEC": "30000000", "WATCHDOG_PID": "1"})
        self.assertIsNone(notify.watchdog)
        notify.ready()
        gone = Notify({"NOTIFY_SOCKET": self.place("none"), "WATCHDOG_USEC": "x"})
        gone.ready()
        self.assertIsNone(gone.watchdog)
        assert gone._socket is not None
        gone._socket.close()


class Watches(Folder):
    def test_names_that_come(self) -> None:
        os.mkdir(self.place("new"))
        watch = Watch(self.place("new"))
        self.addCleanup(watch.close)
        assert watch.fd is not None

        def has_news() -> bool:
            return bool(select.select([watch.fd], [], [], 0.2)[0])

        self.assertFalse(has_news())
        with open(self.place("a"), "w"):
            pass
        os.rename(self.place("a"), self.place("new", "a"))
        self.assertTrue(has_news())
        watch.clear()
        self.assertFalse(has_news())
        os.link(self.place("new", "a"), self.place("new", "b"))
        self.assertTrue(has_news())
        watch.clear()
        os.unlink(self.place("new", "a"))
        self.assertFalse(has_news())

    def test_a_folder_that_another_one_replaces(self) -> None:
        for remove_old in (os.rmdir, lambda it: os.rename(it, it + ".old")):
            os.mkdir(self.place("new"))
            watch = Watch(self.place("new"))
            self.addCleanup(watch.close)
            remove_old(self.place("new"))
            self.assertTrue(select.select([watch.fd], [], [], 10)[0])
            watch.clear()
            os.mkdir(self.place("new"))
            watch.clear()
            watch.clear()
            self.assertFalse(select.select([watch.fd], [], [], 0.05)[0])
            with open(self.place("new", "a"), "w"):
                pass
            self.assertTrue(select.select([watch.fd], [], [], 10)[0])
            shutil.rmtree(self.place("new"))

    def test_a_folder_that_is_not_there(self) -> None:
        self.assertIsNone(Watch(self.place("none")).fd)


class Files(Folder):
    def test_a_whole_file_takes_the_place_of_another(self) -> None:
        path = self.place("f")
        self.assertIsNone(read_or_none(path))
        replace_synced(path, b"one")
        replace_synced(path, b"two")
        self.assertEqual(read_or_none(path), b"two")
        self.assertEqual(os.listdir(self.at), ["f"])
        remove(path)
        remove(path)
        self.assertEqual(os.listdir(self.at), [])

    def test_a_full_disk_leaves_the_old_file(self) -> None:
        path = self.place("f")
        replace_synced(path, b"one")
        with mock.patch("os.fsync", side_effect=OSError(errno.ENOSPC, "full")), self.assertRaises(OSError):
            replace_synced(path, b"two")
        self.assertEqual(read_or_none(path), b"one")


class Words(Folder):
    def test_a_full_disk_at_the_start_is_waited_for(self) -> None:
        class Ended:
            def run(self) -> int:
                return 0

        with open(self.place("rules"), "w"):
            pass
        words = [f"--{it}={self.place(it)}" for it in ("store", "spool", "socket", "rules")]
        full = OSError(errno.ENOSPC, "No space left on device", self.place("socket"))
        said, slept = io.StringIO(), []
        with mock.patch.object(main, "Daemon", side_effect=[full, full, Ended()]), mock.patch("time.sleep", slept.append):
            with mock.patch.dict(os.environ, {"TAPESTRY": "tapestry"}), contextlib.redirect_stderr(said):
                self.assertEqual(main.main(words), 0)
        self.assertEqual(slept, [1.0, 2.0])
        self.assertEqual(said.getvalue().count("make room on that disk"), 2)


class Unit(unittest.TestCase):
    """The unit for systemd; tools/systemd_trial.sh tries it."""

    def setUp(self) -> None:
        with open(os.path.join(SERVICE, "tapestryd.service")) as file:
            lines = [it.strip() for it in file if "=" in it and not it.startswith("#")]
        self.unit = dict(it.split("=", 1) for it in lines)

    def test_the_words_of_its_command(self) -> None:
        words = self.unit["ExecStart"].split()
        self.assertEqual(words[0], "/usr/sbin/tapestryd")
        given = main._parser().parse_args(words[1:])
        self.assertTrue(all(it.startswith("/") for it in (given.store, given.spool, given.socket, given.rules)))

    def test_only_the_service_gets_the_signal_to_end(self) -> None:
        """It ends the program. If the program gets the signal, too, the store is two files."""
        self.assertEqual((self.unit["KillMode"], self.unit["Type"], self.unit["NotifyAccess"]), ("mixed", "notify", "main"))


class Logs(unittest.TestCase):
    def test_lines(self) -> None:
        for environment, wanted in (({}, "tapestryd: a b\n"), ({"JOURNAL_STREAM": "1:2"}, "<4>tapestryd: a b\n")):
            said = io.StringIO()
            with mock.patch.dict(os.environ, environment, clear=True), contextlib.redirect_stderr(said):
                say("a\nb", WARNING)
            self.assertEqual(said.getvalue(), wanted)

    def test_advice(self) -> None:
        for number, wanted in (
            (errno.ENOSPC, "make room"),
            (errno.EROFS, "mount it writable"),
            (errno.EACCES, "may not write at /x"),
            (errno.ENOENT, "make its folder"),
            (errno.EADDRINUSE, "something else is at /x"),
            (errno.EIO, "Input/output error at /x"),
        ):
            self.assertIn(wanted, advice(OSError(number, os.strerror(number), "/x"), "/y"))


if __name__ == "__main__":
    unittest.main()
