"""Each command against a daemon that answers from a table: what is sent, what is shown, and the statuses."""

from __future__ import annotations

import json
import os
import subprocess
import sys
import unittest

from fake_daemon import TAP, Ended, FakeDaemon, tap

SHOW_0 = {b"show 0\n": b"no 11\n"}
DOC_1 = b"""ok 5 show 1 at 707392800
From: =?utf-8?q?J=C3=BCrgen?= <j@example.org>
Subject: =?utf-8?b?6aKE566X?= 2027
Date: Mon, 1 Jun 1992 12:00:00 +0200

ok 7 this is text
"""
DOC_2 = b"ok 0 show 2 at 707392801\n"
SHOWS = {b"show 1\n": DOC_1, b"show 2\n": DOC_2, **SHOW_0}
BOX = b"ok 2 box news\ndoc 1 first 707392800 run 1\ndoc 2 first 707392805 run 3\n"
DIGEST_1 = (
    b"ok 8 digest news 1\nFrom: tapestry\nSubject: digest news 1\n\n"
    b"From doc 1 first 707392800\nFrom: a@b\nSubject: one\n>From x\n\n"
)
DIGEST_2 = (
    b"ok 12 digest news 2\nFrom: tapestry\nSubject: digest news 2\n\nFrom doc 4 first 5\nSubject: four\n\nx\n\n"
    b"From doc 5 first 6\nSubject: five\n\n\n"
)
DIGEST_3 = b"ok 7 digest news 3\nFrom: tapestry\nSubject: digest news 3\n\nFrom doc 2 first 707392805\nSubject: two\n\n\n"


class Case(unittest.TestCase):
    maxDiff = None

    def with_daemon(self, answers: dict, *words: str, given: bytes = b"", **environment: str) -> Ended:
        with FakeDaemon(answers) as daemon:
            ended = tap(daemon.path, *words, given=given, **environment)
        self.sent, self.turns = daemon.commands, daemon.turns
        return ended


class Boxes(Case):
    def test_a_box(self) -> None:
        ended = self.with_daemon({b"box ": BOX, **SHOWS}, "box", "news")
        self.assertEqual(
            ended.out,
            "No.  Date        From    Subject    First second         Run\n"
            "  1  1992-06-01  Jürgen  预算 2027  1992-06-01 10:00:00    1\n"
            "  2  -           -       -          1992-06-01 10:00:05    3\n",
        )
        self.assertEqual((ended.status, ended.err), (0, ""))
        self.assertEqual(self.sent, [b"box news\n", b"show 0\n", b"show 1\n", b"show 2\n"])

    def test_wide_terminals_have_the_time_of_the_date(self) -> None:
        ended = self.with_daemon({b"box ": BOX, **SHOWS}, "box", "news", COLUMNS="120", TZ="CET-1CEST,M3.5.0,M10.5.0/3")
        self.assertIn("  1  1992-06-01 12:00  Jürgen  预算 2027  1992-06-01 12:00:00    1\n", ended.out)

    def test_narrow_terminals_have_a_line_a_field(self) -> None:
        ended = self.with_daemon({b"box ": BOX, **SHOWS}, "box", "news", COLUMNS="34")
        self.assertTrue(ended.out.startswith("No.           1\nDate          1992-06-01\nFrom          Jürgen\n"), ended)

    def test_two_round_trips_however_many_documents(self) -> None:
        count = 3000
        box = b"ok %d box news\n" % count + b"".join(b"doc %d first 5 run 1\n" % it for it in range(1, count + 1))
        answers = {b"box ": box, **SHOW_0, b"show ": lambda it: b"ok 1 show %s at 5\nSubject: s\n" % it.split()[1]}
        ended = self.with_daemon(answers, "box", "news")
        self.assertEqual((ended.status, len(ended.out.splitlines()), self.turns), (0, count + 1, 2))

    def test_json(self) -> None:
        ended = self.with_daemon({b"box ": BOX, **SHOWS}, "box", "news", "--json")
        self.assertEqual(
            json.loads(ended.out),
            {
                "ok": True,
                "command": "box",
                "query": "news",
                "documents": [
                    {
                        "doc": 1,
                        "date": 707392800,
                        "from": "Jürgen <j@example.org>",
                        "name": "Jürgen",
                        "address": "j@example.org",
                        "subject": "预算 2027",
                        "arrival": 707392800,
                        "first": 707392800,
                        "run": 1,
                    },
                    {
                        "doc": 2,
                        "date": None,
                        "from": None,
                        "name": None,
                        "address": None,
                        "subject": None,
                        "arrival": 707392801,
                        "first": 707392805,
                        "run": 3,
                    },
                ],
            },
        )
        self.assertEqual(ended.out.count("\n"), 1)

    def test_a_program_without_show(self) -> None:
        answers = {b"box ": BOX, b"digest news 1\n": DIGEST_1, b"digest news 3\n": DIGEST_3}
        ended = self.with_daemon(answers, "box", "news")
        self.assertEqual(self.sent, [b"box news\n", b"show 0\n", b"digest news 1\n", b"digest news 3\n"])
        self.assertEqual(self.turns, 2)
        self.assertEqual(
            ended.out,
            "No.  Date  From  Subject  First second         Run\n"
            "  1  -     a@b   one      1992-06-01 10:00:00    1\n"
            "  2  -     -     two      1992-06-01 10:00:05    3\n",
        )

    def test_the_last_ones(self) -> None:
        ended = self.with_daemon({b"box ": BOX, **SHOWS}, "box", "news", "--last", "1")
        self.assertEqual([it.split()[0] for it in ended.out.splitlines()], ["No.", "2"])
        self.assertEqual(self.sent[2:], [b"show 2\n"])
        self.assertEqual(
            self.with_daemon({b"box ": BOX, **SHOWS}, "box", "--last", "0", "news").out, "the box of news is empty\n"
        )
        self.assertEqual(len(self.with_daemon({b"box ": BOX, **SHOWS}, "box", "--last", "9", "news").out.splitlines()), 3)

    def test_an_empty_box(self) -> None:
        ended = self.with_daemon({b"box ": b"ok 0 box news\n", **SHOWS}, "box", "news")
        self.assertEqual((ended.status, ended.out), (0, "the box of news is empty\n"))

    def test_a_rated_box(self) -> None:
        answers = {b"list ": b"ok 1 list news\ndoc 1 first 5 run 1 priority 9 class work\n", **SHOWS}
        ended = self.with_daemon(answers, "list", "news", COLUMNS="100")
        self.assertIn("Priority  Class\n", ended.out)
        self.assertTrue(ended.out.endswith("       9  work\n"), ended)
        found = json.loads(self.with_daemon(answers, "--json", "list", "news").out)["documents"][0]
        self.assertEqual((found["priority"], found["class"]), (9, "work"))

    def test_a_run(self) -> None:
        answers = {b"run ": b"ok 1 run 4 before 707392806\ndoc 1 first 707392800\n", **SHOWS}
        ended = self.with_daemon(answers, "run", "news")
        self.assertEqual(ended.out.splitlines()[0], "run 4 of news, up to 1992-06-01 10:00:06: 1 document")
        self.assertIn("Jürgen", ended.out)
        answers = {b"run ": b"ok 0 run 5 before 707392807\n"}
        ended = self.with_daemon(answers, "run", "news")
        self.assertEqual(ended.out, "run 5 of news, up to 1992-06-01 10:00:07: nothing new\n")
        found = json.loads(self.with_daemon(answers, "run", "news", "--json").out)
        self.assertEqual(found, {"ok": True, "command": "run", "query": "news", "run": 5, "before": 707392807, "documents": []})

    def test_a_run_of_a_program_without_show(self) -> None:
        answers = {b"run ": b"ok 1 run 1 before 9\ndoc 1 first 5\n", b"digest news 1\n": DIGEST_1}
        self.assertIn("a@b", self.with_daemon(answers, "run", "news").out)


class Questions(Case):
    def test_ask(self) -> None:
        answers = {b"ask ": b"ok 1 ask 707392800\ndoc 1\n", **SHOWS}
        ended = self.with_daemon(answers, "ask", "1992-06-01T10:00Z", "m.words", "HAS", "'x'")
        self.assertEqual(self.sent[0], b"ask 707392800 m.words HAS 'x'\n")
        self.assertIn("Jürgen", ended.out)
        ended = self.with_daemon(answers, "ask", "1992-06-01 12:00", "TRUE", TZ="CET-1CEST,M3.5.0,M10.5.0/3")
        self.assertEqual(self.sent[0], b"ask 707392800 TRUE\n")
        ended = self.with_daemon({b"ask ": b"ok 0 ask 5\n"}, "ask", "5", "TRUE")
        self.assertEqual(ended.out, "the condition gives no document at 1970-01-01 00:00:05\n")

    def test_ask_of_a_program_without_show(self) -> None:
        ended = self.with_daemon({b"ask ": b"ok 1 ask 5\ndoc 1\n"}, "ask", "5", "TRUE")
        self.assertEqual((ended.status, ended.out), (0, "No.\n  1\n"))
        self.assertIn("no command `show'", ended.err)

    def test_scores(self) -> None:
        answers = {b"scores ": b"ok 1 scores score\ndoc 1 voters 2 sum -7\n", **SHOWS}
        self.assertTrue(self.with_daemon(answers, "scores", "score").out.endswith("       2   -7\n"))
        found = json.loads(self.with_daemon(answers, "scores", "--json", "score").out)["documents"][0]
        self.assertEqual((found["doc"], found["voters"], found["sum"]), (1, 2, -7))

    def test_show(self) -> None:
        ended = self.with_daemon(SHOWS, "show", "1")
        self.assertEqual(
            ended.out,
            "document 1, stored 1992-06-01 10:00:00\nFrom: Jürgen <j@example.org>\nSubject: 预算 2027\n"
            "Date: 1992-06-01 10:00:00\n\nok 7 this is text\n",
        )
        self.assertEqual(self.with_daemon(SHOWS, "show", "--raw", "1").out.encode(), DOC_1.partition(b"\n")[2])
        found = json.loads(self.with_daemon(SHOWS, "show", "--json", "1").out)
        self.assertEqual((found["doc"], found["arrival"], found["text"].encode()), (1, 707392800, DOC_1.partition(b"\n")[2]))
        ended = self.with_daemon({b"show ": b"no 11\n"}, "show", "9")
        self.assertEqual((ended.status, ended.err), (1, "tap: there is no document 9 (no 11)\n"))

    def test_notes(self) -> None:
        reply = (
            b"ok 2 notes 1\nnote 3 ts 707392800 author ann kind score value -3 text good  one text x\n"
            b"note 9 ts 707392801 author bob kind k value 1 text\n"
        )
        ended = self.with_daemon({b"notes ": reply}, "notes", "1")
        self.assertEqual(
            ended.out,
            "Note  Written              By   Kind   Value  Text\n"
            "   3  1992-06-01 10:00:00  ann  score     -3  good  one text x\n"
            "   9  1992-06-01 10:00:01  bob  k          1\n",
        )
        found = json.loads(self.with_daemon({b"notes ": reply}, "notes", "1", "--json").out)
        self.assertEqual(
            found["notes"],
            [
                {"note": 3, "arrival": 707392800, "author": "ann", "kind": "score", "value": -3, "text": "good  one text x"},
                {"note": 9, "arrival": 707392801, "author": "bob", "kind": "k", "value": 1, "text": ""},
            ],
        )
        self.assertEqual(self.with_daemon({b"notes ": b"ok 0 notes 1\n"}, "notes", "1").out, "document 1 has no notes\n")

    def test_queries(self) -> None:
        reply = (
            b"ok 2 queries\nquery news ts 707392800 from 0 runs 2 last 707392801 boxed 5 text m.words HAS 'x'\n"
            b"query late ts 707392800 from 707392800 runs 0 last never boxed 0 text TRUE\n"
        )
        ended = self.with_daemon({b"queries": reply}, "queries")
        self.assertEqual(
            ended.out,
            "Query  Runs  Last run             In box  Text\n"
            "news      2  1992-06-01 10:00:01       5  m.words HAS 'x'\n"
            "late      0  never                     0  FROM 1992-06-01 10:00:00: TRUE\n",
        )
        self.assertEqual(self.with_daemon({b"queries": reply}, "queries", "--names").out, "news\nlate\n")
        found = json.loads(self.with_daemon({b"queries": reply}, "queries", "--json").out)["queries"]
        self.assertEqual(
            found[1],
            {"query": "late", "defined": 707392800, "from": 707392800, "runs": 0, "last": None, "boxed": 0, "text": "TRUE"},
        )
        self.assertEqual(self.with_daemon({b"queries": b"ok 0 queries\n"}, "queries").out, "you have no queries\n")

    def test_what_an_older_program_has_not(self) -> None:
        for words in (("show", "1"), ("notes", "1"), ("queries",), ("counts",)):
            ended = self.with_daemon({}, *words)
            self.assertEqual(ended.status, 1)
            self.assertIn(f"has no command `{words[0]}'", ended.err)

    def test_wake(self) -> None:
        queries = b"ok 2 queries\n" + b"".join(
            b"query %s ts 1 from 0 runs 0 last never boxed 0 text TRUE\n" % name for name in (b"a", b"b")
        )
        answers = {b"queries": queries, b"wake a\n": b"ok 0 wake a 5\n", b"wake b\n": b"ok 0 wake b never\n"}
        ended = self.with_daemon(answers, "wake")
        self.assertEqual(ended.out, "Query  Would deliver\na      1970-01-01 00:00:05, now\nb      never\n")
        self.assertEqual(self.turns, 2)
        found = json.loads(self.with_daemon(answers, "wake", "b", "a", "--json").out)
        self.assertEqual(found["queries"], [{"query": "b", "wake": None}, {"query": "a", "wake": 5}])
        ended = self.with_daemon({b"wake a\n": b"ok 0 wake a 5\n"}, "wake")
        self.assertEqual(ended.status, 1)
        self.assertIn("name them:", ended.err)
        ended = self.with_daemon({b"wake ": b"no 10\n"}, "wake", "x")
        self.assertEqual((ended.status, ended.err[:27]), (1, "tap: you have no query `x';"))

    def test_explain(self) -> None:
        answers = {b"explain ": b"ok 1 explain q\nOVER m: DOC AT m.ts WHERE TRUE\n"}
        self.assertEqual(self.with_daemon(answers, "explain", "q").out, "OVER m: DOC AT m.ts WHERE TRUE\n")
        self.assertEqual(
            json.loads(self.with_daemon(answers, "explain", "q", "--json").out)["lines"], ["OVER m: DOC AT m.ts WHERE TRUE"]
        )

    def test_digest_and_counts(self) -> None:
        answers = {
            b"digest news 1\n": DIGEST_1,
            b"counts": b"ok 0 counts documents 3 notes 4 moment 5\n",
            b"digest": b"no 19 3\n",
        }
        self.assertEqual(self.with_daemon(answers, "digest", "news", "1").out.encode(), DIGEST_1.partition(b"\n")[2])
        found = json.loads(self.with_daemon(answers, "digest", "news", "1", "--json").out)
        self.assertEqual(found["documents"], [{"doc": 1, "first": 707392800, "text": "From: a@b\nSubject: one\nFrom x\n"}])
        found = json.loads(self.with_daemon({b"digest": DIGEST_2}, "digest", "news", "2", "--json").out)
        self.assertEqual(
            found["documents"],
            [{"doc": 4, "first": 5, "text": "Subject: four\n\nx\n"}, {"doc": 5, "first": 6, "text": "Subject: five\n\n"}],
        )
        self.assertIn("it has 3 runs", self.with_daemon(answers, "digest", "news", "7").err)
        self.assertEqual(self.with_daemon(answers, "counts").out, "3 documents, 4 notes, moment 1970-01-01 00:00:05\n")
        found = json.loads(self.with_daemon(answers, "counts", "--json").out)
        self.assertEqual(found, {"ok": True, "command": "counts", "documents": 3, "notes": 4, "moment": 5})


class Changes(Case):
    def test_query(self) -> None:
        ended = self.with_daemon({b"query ": b"ok 0 query q\n"}, "query", "q", "m.words HAS 'x'")
        self.assertEqual((ended.status, ended.out), (0, "query q is defined\n"))
        self.assertEqual(self.sent, [b"query q m.words HAS 'x'\n"])
        self.with_daemon({b"query ": b"ok 0 query q\n"}, "query", "q", "FROM", "NOW", "m.id", ">", "-3", "--json")
        self.assertEqual(self.sent, [b"query q FROM NOW m.id > -3 --json\n"])
        self.with_daemon({b"query ": b"ok 0 query q\n"}, "query", "q", "-", given=b"\nm.id\n  > 3\n")
        self.assertEqual(self.sent, [b"query q m.id   > 3\n"])

    def test_a_refused_query_is_marked(self) -> None:
        ended = self.with_daemon({b"query ": b"no 14 field 2\n"}, "query", "q", "FROM NOW m.sender = 'x'", COLUMNS="200")
        self.assertEqual(ended.status, 1)
        self.assertEqual(ended.out, "")
        self.assertEqual(ended.err.splitlines()[1:], ["    FROM NOW m.sender = 'x'", "               ^~~~~~"])
        self.assertIn("a document has no such field", ended.err)
        ended = self.with_daemon({b"ask ": b"no 13 token 5\n"}, "ask", "5", "TRUE TRUE")
        self.assertEqual(ended.err.splitlines()[1:], ["    TRUE TRUE", "         ^~~~"])
        ended = self.with_daemon({b"query ": b"no 14 field 2\n"}, "--json", "query", "q", "m.sender = 'x'")
        self.assertEqual((ended.status, ended.err), (1, ""))
        found = json.loads(ended.out)
        words = found.pop("words")
        self.assertIn("no such field", words)
        self.assertEqual(
            found,
            {"ok": False, "command": "query", "reply": "no 14 field 2", "no": 14, "reason": "field", "line": None, "place": 2},
        )

    def test_note(self) -> None:
        ended = self.with_daemon({b"note ": b"ok 0 note 7\n"}, "note", "12", "score", "-3", "very", "good", "-x")
        self.assertEqual((ended.status, ended.out), (0, "note 7 on document 12\n"))
        self.assertEqual(self.sent, [b"note 12 score -3 very good -x\n"])
        self.with_daemon({b"note ": b"ok 0 note 7\n"}, "note", "12", "score", "3")
        self.assertEqual(self.sent, [b"note 12 score 3 \n"])
        self.assertIn("there is no document 12 ", self.with_daemon({b"note ": b"no 11\n"}, "note", "12", "score", "3", "x").err)
        self.assertIn("`Score' is no name", self.with_daemon({b"note ": b"no 8\n"}, "note", "12", "Score", "3", "x").err)

    def test_filter(self) -> None:
        answers = {b"filter": b"ok 0 filter 1\n"}
        ended = self.with_daemon(answers, "filter", given=b"WHEN TRUE PRIORITY 1 CLASS 'a'\n.\n")
        self.assertEqual((ended.status, ended.out), (0, "you have 1 rule from now on\n"))
        self.assertEqual(self.sent, [b"filter\nWHEN TRUE PRIORITY 1 CLASS 'a'\n..\n.\n"])
        ended = self.with_daemon({b"filter": b"no 17 1 5\n"}, "filter", "-", given=b"WHEN NOW > m.ts PRIORITY 1 CLASS 'a'\n")
        self.assertEqual(ended.err.splitlines()[-2:], ["    WHEN NOW > m.ts PRIORITY 1 CLASS 'a'", "         ^~~"])
        self.assertEqual(self.with_daemon(answers, "filter", "/there/is/no/such").status, 2)


class Statuses(Case):
    def test_a_faulty_command_line_sends_nothing(self) -> None:
        for words in (
            (),
            ("fly",),
            ("box",),
            ("box", "a b"),
            ("box", ""),
            ("run", "q\nat 5"),
            ("show", "x"),
            ("show", "-1"),
            ("show", "4294967296"),
            ("note", "1", "score", "much", "x"),
            ("note", "1", "score", "9223372036854775808", "x"),
            ("note", "1", "score", "3", "two\nlines"),
            ("note", "1", "k\nat", "3", "x"),
            ("ask", "yesterday", "TRUE"),
            ("query", "q", "m.words HAS 'a\nb'"),
            ("load", "/there/is/no/such/file"),
            ("box", "--jso", "q"),
        ):
            ended = self.with_daemon({b"": b"ok 0\n"}, *words)
            self.assertEqual((ended.status, ended.out, self.sent), (2, "", []), words)
            self.assertTrue(ended.err, words)

    def test_no_daemon(self) -> None:
        ended = tap("/there/is/no/such/socket", "box", "q")
        self.assertEqual((ended.status, ended.out), (3, ""))
        self.assertIn("no daemon answers at /there/is/no/such/socket", ended.err)
        ended = tap(None, "--socket", "/no/such", "box", "q")
        self.assertIn("/no/such", ended.err)
        ended = tap("/no/such", "--json", "box", "q")
        self.assertEqual((ended.status, json.loads(ended.out)["ok"]), (3, False))
        self.assertEqual(tap("/" + "x" * 200, "box", "q").status, 3)

    def test_the_connection_ends(self) -> None:
        for answer in (b"", b"ok 2 box q\ndoc 1 first 5 run 1\n"):

            def end(_: bytes, answer: bytes = answer) -> bytes | None:
                return None

            ended = self.with_daemon({b"box ": answer, b"show": end}, "box", "q")
            self.assertEqual((ended.status, ended.out), (3, ""))
            self.assertIn("ended the connection", ended.err)

    def test_what_is_no_reply(self) -> None:
        ended = self.with_daemon({b"box ": b"HTTP/1.1 400 Bad\n"}, "box", "q")
        self.assertEqual(ended.status, 3)
        self.assertIn("HTTP/1.1", ended.err)

    def test_refusals_of_the_daemon_itself(self) -> None:
        for reply, words in (
            (b"no 41 too many\n", "too many connections"),
            (b"no 44 eve has no name\n", "your login is no user"),
            (b"no 45 slow\n", "waited too long"),
        ):
            # After these the daemon closes the connection: what was sent behind has no reply.
            ended = self.with_daemon({b"box ": reply, b"show": lambda _: None}, "box", "q")
            self.assertEqual(ended.status, 1)
            self.assertIn(words, ended.err)
        ended = self.with_daemon({b"box ": b"no 42 store\n", **SHOW_0}, "box", "q")
        self.assertIn("can't use its store", ended.err)

    def test_the_option_is_before_the_environment(self) -> None:
        with FakeDaemon({b"counts": b"ok 0 counts documents 0 notes 0 moment 0\n"}) as daemon:
            self.assertEqual(tap("/no/such", "counts", "--socket", daemon.path).status, 0)
            self.assertEqual(tap("/no/such", "--socket", daemon.path, "counts").status, 0)

    def test_a_full_disk(self) -> None:
        with FakeDaemon({b"counts": b"ok 0 counts documents 0 notes 0 moment 0\n"}) as daemon, open("/dev/full", "w") as full:
            variables = {**os.environ, "TAPESTRY_SOCKET": daemon.path}
            ended = subprocess.run([sys.executable, TAP, "counts"], stdout=full, stderr=subprocess.PIPE, env=variables)
        self.assertEqual((ended.returncode, ended.stderr), (4, b"tap: writing failed: No space left on device\n"))

    def test_a_reader_that_ends(self) -> None:
        with FakeDaemon({b"explain": b"ok 100000 explain q\n" + b"OVER m: DOC AT m.ts WHERE TRUE\n" * 100000}) as daemon:
            command = f"'{sys.executable}' '{TAP}' explain q; echo $? >&2"
            ended = subprocess.run(
                ["bash", "-c", f"( {command} ) | head -1"],
                capture_output=True,
                env={**os.environ, "TAPESTRY_SOCKET": daemon.path},
            )
        self.assertEqual((ended.stdout, ended.stderr), (b"OVER m: DOC AT m.ts WHERE TRUE\n", b"4\n"))


if __name__ == "__main__":
    unittest.main()
