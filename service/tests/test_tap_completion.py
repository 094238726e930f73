"""Completion for bash."""

from __future__ import annotations

import os
import shlex
import subprocess
import tempfile
import unittest

from fake_daemon import FakeDaemon
from support import SERVICE
from tapestry_service.client.commands import COMMANDS

FILE = os.path.join(SERVICE, "completion", "tap")
QUERIES = b"ok 2 queries\n" + b"".join(
    b"query %s ts 1 from 0 runs 0 last never boxed 0 text TRUE\n" % name for name in (b"budget", b"open")
)


class Completion(unittest.TestCase):
    def complete(self, line: str, socket: str = "/no/such") -> list[str]:
        """What is offered at the end of the line."""
        words = line.split(" ")
        script = (
            f". {shlex.quote(FILE)}; COMP_WORDS=({' '.join(map(shlex.quote, words))}); COMP_CWORD={len(words) - 1}; _tap;"
            ' printf "%s\\n" "${COMPREPLY[@]}"'
        )
        path = f"{SERVICE}:{os.environ['PATH']}"
        ended = subprocess.run(
            ["bash", "--norc", "-c", script], capture_output=True, env={**os.environ, "PATH": path, "TAPESTRY_SOCKET": socket}
        )
        self.assertEqual(ended.stderr, b"")
        return ended.stdout.decode().split()

    def test_commands(self) -> None:
        self.assertEqual(sorted(self.complete("tap ")), sorted(COMMANDS))
        self.assertEqual(self.complete("tap q"), ["query", "queries"])
        self.assertEqual(self.complete("tap --json --socket x sh"), ["show"])

    def test_options(self) -> None:
        self.assertEqual(self.complete("tap --"), ["--json", "--socket", "--help"])
        self.assertEqual(self.complete("tap box --l"), ["--last"])
        self.assertEqual(self.complete("tap load --s"), ["--single", "--socket"])

    def test_names_of_queries_come_from_the_daemon(self) -> None:
        with FakeDaemon({b"queries": QUERIES}) as daemon:
            self.assertEqual(self.complete("tap box ", daemon.path), ["budget", "open"])
            self.assertEqual(self.complete("tap box --last 3 o", daemon.path), ["open"])
            self.assertEqual(self.complete("tap wake budget o", daemon.path), ["open"])
            self.assertEqual(self.complete(f"tap --socket {daemon.path} run b"), ["budget"])
            self.assertEqual(self.complete("tap box open ", daemon.path), [])
        self.assertEqual(self.complete("tap box "), [])

    def test_files(self) -> None:
        with tempfile.TemporaryDirectory() as folder:
            open(os.path.join(folder, "mbox"), "w").close()
            self.assertEqual(self.complete(f"tap load {folder}/m"), [f"{folder}/mbox"])
            self.assertEqual(self.complete(f"tap load x {folder}/m"), [f"{folder}/mbox"])
            self.assertEqual(self.complete(f"tap --socket {folder}/m"), [f"{folder}/mbox"])


if __name__ == "__main__":
    unittest.main()
