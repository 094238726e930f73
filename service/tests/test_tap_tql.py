"""The examples of tql(7): each is tried by the program, if TAPESTRY names one."""

from __future__ import annotations

import io
import os
import re
import subprocess
import unittest

from support import SERVICE
from tapestry_service import PROGRAM_VARIABLE
from tapestry_service.messages import Text
from tapestry_service.replies import Reply, read_reply

PAGE = os.path.join(SERVICE, "man", "tql.7")


def mail(text: bytes) -> bytes:
    """The command that stores a message."""
    return Text(text).mail


# Four messages and two notes. The questions are about the second ASKED.
ASKED = b"2026-12-08T12:00:00Z"
STORE = [
    b"at 2026-12-01T08:00:00Z\n",
    mail(
        b"From: The Boss <Boss@example.org>\nTo: staff@example.org\nCc: Ann <ann@example.org>\nMessage-ID: <plan@example.org>\n"
        b"Date: Tue, 1 Dec 2026 07:59:30 +0000\nSubject: The budget plan\n\nPlease answer by Friday.\n"
    ),
    b"at 2026-12-01T08:30:00Z\n",
    mail(
        b"From: bob@example.org\nIn-Reply-To: <plan@example.org>\nReferences: <plan@example.org>\nMessage-ID: <re@example.org>\n"
        b"Subject: Re: The budget plan\n\nFine.\n"
    ),
    b"at 2026-12-02T10:00:00Z\n",
    mail(
        b"From: carol@example.org\nNewsgroups: comp.mail\nDate: Wed, 2 Dec 2026 11:00:00 +0100\nSubject: Lunch\n\nSoup at twelve.\n"
    ),
    b"at 2026-12-03T10:00:00Z\nas ann\nnote 1 score 4 worth reading\n",
    b"at 2026-12-03T13:00:00Z\nas bob\nnote 2 score -3 too short\n",
    b"at 2026-12-08T09:00:00Z\nas ann\n",
    mail(b"From: bob@example.org\nSubject: It's late\n\n" + b"There is more to say. " * 10 + b"\n"),
]

CONDITIONS: dict[str, list[int]] = {
    "m.subject = 'It''s late'": [4],
    "M.SUBJECT = 'It''s late'": [4],
    "TRUE": [1, 2, 3, 4],
    "FALSE": [],
    "NOT m.words HAS 'lunch'": [1, 2, 4],
    "m.words HAS 'budget' AND m.words HAS 'plan'": [1, 2],
    "m.words HAS 'lunch' OR m.words HAS 'budget' AND NOT m.id = 1": [2, 3],
    "(m.words HAS 'lunch' OR m.words HAS 'budget') AND NOT m.id = 1": [2, 3],
    "m.id = 3": [3],
    "m.id <> 3": [1, 2, 4],
    "m.size < 200": [2, 3],
    "m.size >= 200": [1, 4],
    "2 <= m.id": [2, 3, 4],
    "m.from > 'bo'": [1, 2, 3, 4],
    "m.subject <= 'Lunch'": [3, 4],
    "m.id > -1": [1, 2, 3, 4],
    "m.inreplyto = m.inreplyto": [2],
    "NOT m.inreplyto = m.inreplyto": [1, 3, 4],
    "m.inreplyto <> 'plan@example.org'": [],
    "m.words HAS 'Budget'": [1, 2],
    "m.to HAS 'staff@example.org'": [1],
    "m.cc HAS 'ann@example.org'": [1],
    "m.newsgroups HAS 'comp.mail'": [3],
    "m.references HAS 'plan@example.org'": [2],
    "EXISTS (r: DOC WHERE r.inreplyto = m.msgid)": [1],
    "NOT EXISTS (r: DOC WHERE r.references HAS m.msgid)": [2, 3, 4],
    "EXISTS (n: NOTE WHERE n.doc = m.id AND n.value > 2)": [1],
    "EXISTS (n: NOTE WHERE n.doc = m.id AND n.kind = 'score' AND n.value < -2)": [2],
    "EXISTS (n: NOTE WHERE n.doc = m.id AND n.author = 'bob')": [2],
    "EXISTS (n: NOTE WHERE n.doc = m.id AND n.text = 'worth reading')": [1],
    "EXISTS (r: DOC WHERE r.inreplyto = m.msgid AND NOT r.from = m.from)": [1],
    "EXISTS (p: DOC WHERE p.msgid = m.inreplyto AND EXISTS (n: NOTE WHERE n.doc = p.id))": [2],
    "EXISTS (n: NOTE WHERE n.doc = m.id AND n.id = 2)": [2],
    "m.ts >= TIME '2026-12-01T09:00:00Z'": [3, 4],
    "m.ts < TIME '1796115600'": [1, 2],
    "m.date = m.date AND m.date < m.ts": [1],
    "NOW > m.ts": [1, 2, 3, 4],
    "NOW >= m.ts + 3 DAYS": [1, 2, 3],
    "NOW - 1 DAY < m.ts": [4],
    "m.ts >= TODAY": [4],
    "TODAY - 7 DAYS <= m.date": [1, 3],
    "m.ts = m.date + 30 SECONDS": [1],
    "m.ts <= m.date + 1 MINUTE": [1, 3],
    "m.ts - 2 HOURS < TIME '2026-12-01T06:30:00Z'": [1],
    "NOW >= m.ts + 3 DAYS AND NOT EXISTS (r: DOC WHERE r.inreplyto = m.msgid)": [2, 3],
    "NOT EXISTS (n: NOTE WHERE n.doc = m.id AND NOW < n.ts + 5 DAYS)": [1, 3, 4],
    "EXISTS (r: DOC WHERE r.inreplyto = m.msgid AND r.ts <= m.ts + 1 HOUR)": [1],
}
# Defined at ASKED, and run a second later: what the run gives, each with ASKED as its first second.
FROM_NOW: dict[str, list[int]] = {"FROM NOW m.words HAS 'soup'": [3], "from now NOW >= m.ts + 3 DAYS": [1, 2, 3]}
RATED = [(1, 9, "work"), (3, 5, "fun"), (2, 0, "rest"), (4, 0, "rest")]


def examples() -> dict[str, list[str]]:
    """The lines of the page's examples by their section."""
    found: dict[str, list[str]] = {}
    section = ""
    within = False
    with open(PAGE, encoding="utf-8") as page:
        for line in page.read().splitlines():
            if line.startswith(".Sh "):
                section = line[4:]
            elif line.startswith(".Bd -literal"):
                within = True
            elif line == ".Ed":
                within = False
            elif within:
                found.setdefault(section, []).append(line.replace("\\(aq", "'"))
    return found


def replies(program: list[str], script: bytes) -> list[Reply]:
    """The program's replies to a script."""
    ended = subprocess.run(program, input=script, capture_output=True, timeout=600)
    file = io.BytesIO(ended.stdout)
    found = []
    while (reply := read_reply(file)) is not None:
        found.append(reply)
    return found


class Page(unittest.TestCase):
    def test_every_example_is_tried(self) -> None:
        found = examples()
        self.assertEqual(found["WORDS"] + found["CONDITIONS"], list(CONDITIONS))
        self.assertEqual(found["QUERIES FROM NOW ON"], list(FROM_NOW))
        self.assertEqual(set(found), {"WORDS", "CONDITIONS", "QUERIES FROM NOW ON", "RULES", "GRAMMAR"})

    def test_every_word_has_an_example(self) -> None:
        found = examples()
        tried = " ".join(sum((lines for section, lines in found.items() if section != "GRAMMAR"), []))
        words = set(re.findall(r"[A-Z]{2,}|\"[^\"]+\"", " ".join(found["GRAMMAR"]))) | {
            "MINUTE",
            "HOUR",
            "DAY",
            "SECONDS",
            "DAYS",
            "HOURS",
        }
        for word in words - {'" "'}:
            self.assertIn(word.strip('"'), tried)
        for (
            field
        ) in "id size from subject msgid inreplyto ts date to cc newsgroups references words doc value author kind text".split():
            self.assertRegex(tried, rf"[a-z]\.{field}\b")

    @unittest.skipUnless(os.environ.get(PROGRAM_VARIABLE), "no program is named")
    def test_the_program_gives_what_the_examples_say(self) -> None:
        commands = [*STORE, b"at %s\n" % ASKED]
        commands += [b"query n%d %s\n" % (at, text.encode()) for at, text in enumerate(FROM_NOW)]
        commands += [b"query all TRUE\n", Text("\n".join(examples()["RULES"]).encode() + b"\n").block(b"filter")]
        commands += [b"at 2026-12-08T12:00:01Z\nrun all\nlist all\n"]
        commands += [b"ask %s %s\n" % (ASKED, text.encode()) for text in CONDITIONS]
        commands += [b"run n%d\n" % at for at in range(len(FROM_NOW))]
        found = replies([os.environ[PROGRAM_VARIABLE]], b"".join(commands))
        for reply in found:
            self.assertTrue(reply.ok, reply)
        from_now = found[-len(FROM_NOW) :]
        asked = found[-len(FROM_NOW) - len(CONDITIONS) : -len(FROM_NOW)]
        for (text, docs), reply in zip(CONDITIONS.items(), asked, strict=True):
            self.assertEqual([int(line.split()[1]) for line in reply.lines], docs, text)
        second = int(asked[0].words.split()[1])
        for (text, docs), reply in zip(FROM_NOW.items(), from_now, strict=True):
            self.assertEqual(reply.lines, [b"doc %d first %d" % (doc, second) for doc in docs], text)
        rated = found[-len(FROM_NOW) - len(CONDITIONS) - 1]
        self.assertEqual([(int(it[1]), int(it[7]), it[9].decode()) for it in map(bytes.split, rated.lines)], RATED)


if __name__ == "__main__":
    unittest.main()
