"""The client, the daemon and the filter's program together, if TAPESTRY names a program."""

from __future__ import annotations

import getpass
import json
import os
import random
import signal
import subprocess
import sys
import tempfile
import time
import unittest

from fake_daemon import Ended, tap
from support import SERVICE, wait_until
from tapestry_service import PROGRAM_VARIABLE
from tapestry_service.messages import stored_text

MAILBOX = b"""From a Tue Dec  1 08:00:00 2026
From: =?utf-8?q?J=C3=BCrgen?= <j@example.org>
Subject: =?utf-8?b?6aKE566X?= budget
Date: Tue, 1 Dec 2026 08:00:00 +0000
Message-ID: <plan@x>

.The figures.
>From next year on.

From b Tue Dec  1 09:00:00 2026
From: bob@example.org
Subject: Re: budget
In-Reply-To: <plan@x>

Fine.

"""


@unittest.skipUnless(os.environ.get(PROGRAM_VARIABLE), "no program is named")
class Together(unittest.TestCase):
    maxDiff = None

    @classmethod
    def setUpClass(cls) -> None:
        cls.folder = tempfile.TemporaryDirectory()
        where = cls.folder.name
        cls.socket = os.path.join(where, "socket")
        os.mkdir(os.path.join(where, "spool"))
        with open(os.path.join(where, "rules"), "w") as rules:
            rules.write(f"user {getpass.getuser()} ann\n")
        words = [sys.executable, os.path.join(SERVICE, "tapestryd")]
        for word in ("spool", "socket", "rules"):
            words += [f"--{word}", os.path.join(where, word)]
        cls.daemon = subprocess.Popen([*words, "--store", os.path.join(where, "mail.db")], stderr=subprocess.PIPE)
        for _ in range(600):
            if tap(cls.socket, "scores", "score").status == 0:
                break
            time.sleep(0.05)
        cls.can_show = tap(cls.socket, "counts").status == 0

    @classmethod
    def tearDownClass(cls) -> None:
        cls.daemon.send_signal(signal.SIGTERM)
        cls.daemon.communicate(timeout=60)
        cls.folder.cleanup()

    def tap(self, *words: str, given: bytes = b"", **environment: str) -> Ended:
        return tap(self.socket, *words, given=given, **environment)

    def ok(self, *words: str, given: bytes = b"") -> str:
        ended = self.tap(*words, given=given)
        self.assertEqual(ended.status, 0, ended)
        return ended.out

    def json(self, *words: str) -> dict:
        return json.loads(self.tap("--json", *words).out)

    def next_second(self) -> None:
        time.sleep(1.05)

    def test_a_box(self) -> None:
        stored = self.json_load(MAILBOX)
        first, second = stored["documents"][0]
        self.assertEqual((stored["stored"], second), (2, first + 1))
        self.ok("query", "budget", f"m.words HAS 'budget'\nAND m.id >= {first} AND m.id <= {second}")
        self.assertTrue(self.ok("wake", "budget").splitlines()[1].startswith("budget  2"))
        self.next_second()
        self.assertIn(": 2 documents\n", self.ok("run", "budget"))
        rows = self.ok("box", "budget").splitlines()
        self.assertEqual(len(rows), 3)
        self.assertRegex(rows[1], rf"^ *{first}  2026-12-01  Jürgen +预算 budget  2\d\d\d-\d\d-\d\d \d\d:\d\d:\d\d    1$")
        self.assertRegex(rows[2], rf"^ *{second}  -           bob@example.org  Re: budget   2")
        box = self.json("box", "budget")["documents"]
        self.assertEqual([it["doc"] for it in box], [first, second])
        self.assertEqual(box[0]["subject"], "预算 budget")
        self.assertEqual(self.json("digest", "budget", "1")["documents"][0]["text"].splitlines()[-1], "From next year on.")
        self.assertIn("nothing new", self.ok("run", "budget"))
        rules = b"WHEN m.from = 'bob@example.org' PRIORITY 7 CLASS 'bob'\n"
        self.assertEqual(self.ok("filter", given=rules), "you have 1 rule from now on\n")
        rated = self.json("list", "budget")["documents"]
        self.assertEqual([(it["doc"], it["priority"], it["class"]) for it in rated], [(second, 7, "bob"), (first, 0, "other")])
        self.assertTrue(self.ok("explain", "budget").startswith("OVER m: DOC ["))
        self.next_second()
        asked = self.ok("ask", "now", f"EXISTS (r: DOC WHERE r.inreplyto = m.msgid) AND m.id >= {first} AND m.id <= {second}")
        self.assertEqual(len(asked.splitlines()), 2)
        self.ok("note", str(first), "score", "-3", "too", "long")
        scores = self.json("scores", "score")["documents"]
        self.assertEqual([(it["doc"], it["voters"], it["sum"]) for it in scores], [(first, 1, -3)])
        if self.can_show:
            self.assertEqual(scores[0]["name"], "Jürgen")
            self.assertIn("  ann  score     -3  too long", self.ok("notes", str(first)))
            self.assertIn("\nSubject: 预算 budget\n", self.ok("show", str(first)))
            self.assertIn("budget", self.ok("queries", "--names").split())
            self.assertIn("m.words HAS 'budget'", self.ok("queries"))
            self.assertIn("Query", self.ok("wake"))

    def json_load(self, data: bytes, *more: str) -> dict:
        ended = tap(self.socket, "--json", "load", *more, "-", given=data)
        self.assertEqual(ended.status, 0, ended)
        return json.loads(ended.out)

    def test_a_file_is_stored_the_same_whichever_way_it_comes(self) -> None:
        """By `tap load` of many files, of one file and of a maildir, and by the spool."""
        draw = random.Random(3)
        pieces = [b"\n", b"\r", b".", b">", b"From ", b"a", b"\r\n", b"\n\n", b"\xff", b".\n", b"Subject: x\n"]
        texts = [b"".join(draw.choice(pieces) for _ in range(draw.randrange(15))) for _ in range(150)]
        texts += [b".\r\n.\n..\n", b"From x\n\nFrom y\n", b"\r\r\n\r\n", b"x" * 1000 + b"\n" * 1000, b"Subject: x\r\n\r\ny\r\n"]
        with tempfile.TemporaryDirectory() as folder:
            for part in ("new", "cur"):
                os.mkdir(os.path.join(folder, part))
            paths = [os.path.join(folder, "new", f"{at:04}") for at in range(len(texts))]
            for path, text in zip(paths, texts):
                with open(path, "wb") as file:
                    file.write(text)
            first = [json.loads(self.tap("--json", "load", "--single", path).out)["documents"][0][0] for path in paths[-30:]]
            for words in (["--single", *paths], [folder]):
                loaded = json.loads(self.tap("--json", "load", *words).out)
                self.assertEqual((loaded["stored"], loaded["refused"]), (len(texts), []))
                first.append(loaded["documents"][0][0])
            before = self.json("counts")["documents"] if self.can_show else first[-1] + len(texts) - 1
            for path in paths:
                os.rename(path, os.path.join(self.folder.name, "spool", "new", os.path.basename(path)))
            wait_until(lambda: not os.listdir(os.path.join(self.folder.name, "spool", "new")), "the spool is empty")
        stored = list(zip(first[:30], texts[-30:]))
        for start in (first[30], first[31], before + 1):
            stored += [(start + at, text) for at, text in enumerate(texts)]
        self.next_second()
        for at in range(0, len(stored), 25):
            some = stored[at : at + 25]
            sizes = " OR ".join(f"m.id = {doc} AND m.size = {len(stored_text(text).text)}" for doc, text in some)
            self.assertEqual([it["doc"] for it in self.json("ask", "now", sizes)["documents"]], [doc for doc, _ in some])
        if self.can_show:
            for doc, text in stored:
                lines = [line.rstrip(b"\r") + b"\n" for line in stored_text(text).text.split(b"\n")[:-1]]
                raw = self.json("show", str(doc))["text"]
                self.assertEqual(raw, b"".join(lines).decode("utf-8", "replace"))

    def test_refusals(self) -> None:
        self.next_second()
        for words, lines, status in (
            (("ask", "now", "m.sender = 'x'"), ["    m.sender = 'x'", "      ^~~~~~"], 1),
            (
                ("query", "r", "FROM NOW 'é' = m.from AND m.id = 'x'"),
                ["    FROM NOW 'é' = m.from AND m.id = 'x'", " " * 35 + "^"],
                1,
            ),
            (("query", "r", "FROM NOW m.id = 1 2"), ["    FROM NOW m.id = 1 2", "                      ^"], 1),
            (("query", "r", "m.id ="), ["    m.id =", "          ^"], 1),
            (
                ("query", "r", "m.id = 1 AND\n  m.subject = 'x"),
                ["    in line 2:", "      m.subject = 'x", "                  ^~"],
                1,
            ),
            (("run", "nosuch"), [], 1),
            (("query", "Wrong", "TRUE"), [], 1),
            (("note", "999999", "score", "1", "x"), [], 1),
            (("ask", "2099-01-01", "TRUE"), [], 1),
        ):
            ended = self.tap(*words, COLUMNS="200")
            self.assertEqual((ended.status, ended.out), (status, ""), ended)
            self.assertEqual(ended.err.splitlines()[1:][-len(lines) :] if lines else ended.err.splitlines()[1:], lines, words)
        self.assertEqual(self.ok("filter", given=b"WHEN TRUE PRIORITY 1 CLASS 'a'\r\n"), "you have 1 rule from now on\n")
        ended = self.tap("filter", given=b"# one\nWHEN NOW > m.ts PRIORITY 1 CLASS 'a'\n")
        self.assertEqual(
            ended.err.splitlines()[-3:], ["    in line 2:", "    WHEN NOW > m.ts PRIORITY 1 CLASS 'a'", "         ^~~"]
        )

    def test_a_larger_load(self) -> None:
        data = b"".join(b"From a\nSubject: %d\n\n%s\n\n" % (it, b"word " * 200) for it in range(3000))
        stored = self.json_load(data)
        self.assertEqual((stored["stored"], stored["stopped"]), (3000, None))
        self.next_second()
        low, high = stored["documents"][0][0], stored["documents"][-1][1]
        found = self.json("ask", "now", f"m.id >= {low} AND m.id <= {high}")["documents"]
        self.assertEqual(len(found), 3000)
        if self.can_show:
            self.assertEqual([it["subject"] for it in found], [str(it) for it in range(3000)])


if __name__ == "__main__":
    unittest.main()
