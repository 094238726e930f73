"""Refusals in words, with their place under the text."""

from __future__ import annotations

import unittest

import support  # noqa: F401  (puts the package in reach)
from tapestry_service.client.layout import text_width
from tapestry_service.client.refusals import Asked, from_now, marked, refusal_of, shown, token_at, words_of
from tapestry_service.replies import first_of


def told(first: bytes, asked: Asked, width: int = 80) -> list[str]:
    reply = first_of(first)
    return shown(refusal_of(reply), asked, reply, width)


class Places(unittest.TestCase):
    def query(self, text: str, reply: bytes, width: int = 80) -> list[str]:
        return told(reply, Asked("query", "q", text.encode(), from_now(text.encode())), width)

    def test_the_mark_stands_under_the_token(self) -> None:
        self.assertEqual(
            self.query("m.words LIKE 'x'", b"no 13 token 8"),
            ["tap: no query goes on with this (no 13 token 8)", "    m.words LIKE 'x'", "            ^~~~"],
        )
        self.assertEqual(
            self.query("m.from = 'it''s' AND m.to = 'x'", b"no 14 clash 26")[1:],
            ["    m.from = 'it''s' AND m.to = 'x'", "                              ^"],
        )
        self.assertEqual(
            self.query("m.subject = 'open", b"no 12 string 12")[1:], ["    m.subject = 'open", "                ^~~~~"]
        )
        self.assertEqual(self.query("NOT", b"no 13 ended")[1:], ["    NOT", "       ^"])
        self.assertEqual(self.query("m.id = 99999999999999999999", b"no 12 number 7")[-1], "           " + "^" + "~" * 19)

    def test_places_count_bytes_and_marks_count_columns(self) -> None:
        text = "m.subject = '王é' AND m.x = 1"
        place = text.encode().index(b"x")
        lines = self.query(text, b"no 14 field %d" % place)
        self.assertEqual(
            lines[-2:], ["    m.subject = '王é' AND m.x = 1", "    " + " " * text_width(text[: text.index("x")]) + "^"]
        )
        self.assertEqual(self.query("m.id = ½", b"no 12 byte 7")[-2:], ["    m.id = ½", "           ^"])
        self.assertEqual(self.query("TRUE\tAND %", b"no 12 byte 9")[-2:], ["    TRUE AND %", "             ^"])

    def test_places_behind_from_now(self) -> None:
        for start in ("FROM NOW ", "from\t now   "):
            lines = self.query(start + "m.x = 1", b"no 14 field 2")
            self.assertEqual(lines[-2].index("x"), lines[-1].index("^"))
        self.assertEqual(from_now(b"FROM NOWHERE"), 0)
        self.assertEqual(from_now(b"from now"), 8)
        self.assertEqual(self.query("FROM NOW", b"no 13 ended")[0], "tap: the query is empty (no 13 ended)")

    def test_a_text_of_several_lines(self) -> None:
        text = "m.words HAS 'a'\n  AND m.y = 1\n  AND TRUE"
        lines = self.query(text, b"no 14 field %d" % text.index("y"))
        self.assertEqual(lines[-3:], ["    in line 2:", "      AND m.y = 1", "            ^"])

    def test_a_line_that_is_too_wide(self) -> None:
        text = "m.words HAS 'a' AND " * 20 + "m.y = 1" + " AND m.words HAS 'b'" * 20
        for width in range(30, 120):
            lines = marked(text.encode(), text.index("y"), width)
            self.assertEqual(lines[0][lines[1].index("^")], "y", width)
            for line in lines:
                self.assertLessEqual(text_width(line), width)
        lines = marked(b"m.from = '" + b"x" * 300, 9, 40)
        self.assertLessEqual(max(map(text_width, lines)), 40)
        self.assertEqual(lines[1].index("^"), lines[0].index("'"))

    def test_rules(self) -> None:
        text = b"# mine\nWHEN TRUE PRIORITY 1 CLASS 'a'\r\nWHEN NOW > m.ts PRIORITY 1 CLASS 'b'\nTRUE\nWHEN TRUE\n"
        self.assertEqual(
            told(b"no 17 3 5", Asked("filter", "", text)),
            [
                "tap: a rule speaks of the document alone: not of NOW or TODAY, and without",
                "     EXISTS (no 17 3 5)",
                "    in line 3:",
                "    WHEN NOW > m.ts PRIORITY 1 CLASS 'b'",
                "         ^~~",
            ],
        )
        self.assertIn("begins with WHEN", told(b"no 17 4 0", Asked("filter", "", text))[0])
        lines = told(b"no 17 5 9", Asked("filter", "", text))
        self.assertIn("doesn't end with PRIORITY", " ".join(lines))
        self.assertEqual(lines[-1], "             ^")
        self.assertEqual(told(b"no 17 many", Asked("filter", "", text)), ["tap: the filter has more than 64 rules (no 17 many)"])

    def test_tokens(self) -> None:
        for text, place, token in (
            (b"a<>b", 1, b"<>"),
            (b"a<=b", 1, b"<="),
            (b"a<b", 1, b"<"),
            (b"m.words", 2, b"words"),
            (b"'a''b' x", 0, b"'a''b'"),
            (b"12ab", 0, b"12"),
            (b"a b", 1, b""),
            (b"a", 5, b""),
            ("é".encode(), 0, "é".encode()),
        ):
            self.assertEqual(token_at(text, place), token)


class Words(unittest.TestCase):
    def test_each_refusal_has_words(self) -> None:
        asked = Asked("query", "q", b"m.x = 1", 0)
        limits = "line message block note documents notes queries allqueries users filters runs picks store".split()
        faults = "variable field clash shadow variables time span".split()
        replies = (
            [f"no {it}" for it in (1, 2, 3, 4, 6, 7, 8, 9, 10, 11, 18)]
            + ["no 5 1000", "no 15 1000", "no 19 3", "no 17 1 4", "no 17 many", "no 13 ended", "no 13 token 2", "no 13 deep 2"]
            + ["no 12 byte 2", "no 12 string 2", "no 12 number 2", "no 12 long 5000", "no 14 nodes"]
            + [f"no 14 {it} 2" for it in faults]
            + [f"no 16 {it}" for it in limits]
            + ["no 40 at", "no 41", "no 42", "no 43", "no 44 ann", "no 45", "no 46 ann"]
        )
        said = {}
        for first in replies:
            reply = first_of(first.encode())
            words = words_of(refusal_of(reply), asked, reply)
            self.assertNotIn("the daemon answers", words, first)
            self.assertNotIn("None", words, first)
            said[first] = words
            self.assertIn(first, " ".join(shown(refusal_of(reply), asked, reply, 80)).replace("      ", " "))
        self.assertEqual(len(set(said.values())), len(said))

    def test_what_a_newer_daemon_may_say(self) -> None:
        for first in (b"no 99", b"no 14 colour 3", b"no 16 moons", b"no 12 what 1"):
            reply = first_of(first)
            self.assertIn(first.decode(), words_of(refusal_of(reply), Asked("query"), reply))

    def test_a_field_says_which_there_are(self) -> None:
        for text, table in (
            ("m.value = 1", "a document has no such field"),
            ("EXISTS (n: NOTE WHERE n.subject = 'x')", "a note has no such field"),
            ("EXISTS (R : doc WHERE R.kind = 'x')", "a document has no such field"),
        ):
            place = text.rindex(".") + 1
            self.assertIn(table, told(b"no 14 field %d" % place, Asked("query", "q", text.encode()))[0])

    def test_a_clash_says_of_what(self) -> None:
        for text, at, words in (
            ("m.from HAS 'x'", "HAS", "HAS needs a list"),
            ("m.id + 3 DAYS > NOW", "+", "only a time"),
            ("m.id = 'x'", "=", "both numbers, both texts or both times (no"),
            ("NOW > TODAY", ">", "NOW isn't compared with TODAY"),
        ):
            first = b"no 14 clash %d" % text.index(at)
            self.assertIn(words, " ".join(told(first, Asked("query", "q", text.encode()), 200)))


if __name__ == "__main__":
    unittest.main()
