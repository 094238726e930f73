"""Tables at several widths, and texts measured in columns."""

from __future__ import annotations

import unittest

import support  # noqa: F401  (puts the package in reach)
from tapestry_service.client.layout import Column, Kind, char_width, fitted, padded, printable, table, text_width, wrapped

COLUMNS = [
    Column("No.", right=True),
    Column("From", Kind.CUT, least=8, most=16),
    Column("Subject", Kind.CUT, least=12),
    Column("Run", right=True),
]
ROWS = [
    ["1", "Bob", "Budget", "1"],
    ["12", "A sender with a very long name", "The figures of next year, and why they are what they are", "3"],
    ["7", "王小明", "预算会议的日程安排以及其他重要事项", "10"],
    ["8", "Zoe\u0301", "re\u0301sume\u0301", "2"],
]


class Widths(unittest.TestCase):
    def test_columns_of_characters(self) -> None:
        for char, width in (("a", 1), ("é", 1), ("王", 2), ("Ａ", 2), ("\u0301", 0), ("ｱ", 1), ("😀", 2), ("\u200d", 0), ("…", 1)):
            self.assertEqual(char_width(char), width, ascii(char))
        self.assertEqual(text_width("re\u0301sume\u0301"), 6)

    def test_a_text_that_is_cut(self) -> None:
        self.assertEqual(fitted("abcdef", 6), "abcdef")
        self.assertEqual(fitted("abcdef", 5), "abcd…")
        self.assertEqual(fitted("王小明", 6), "王小明")
        self.assertEqual(fitted("王小明", 5), "王小…")
        self.assertEqual(fitted("王小明", 4), "王…")
        self.assertEqual(fitted("王小明", 1), "…")
        self.assertEqual(fitted("abc", 0), "")
        self.assertEqual(padded("王小明", 4), "王… ")
        self.assertEqual(padded("7", 3, right=True), "  7")

    def test_words_are_wrapped(self) -> None:
        self.assertEqual(wrapped("one two three", 7), ["one two", "three"])
        self.assertEqual(wrapped("abcdefgh ij", 3), ["abc", "def", "gh", "ij"])
        self.assertEqual(wrapped("王小明 x", 3), ["王", "小", "明", "x"])
        self.assertEqual(wrapped("", 5), [""])

    def test_nothing_steers_the_terminal(self) -> None:
        self.assertEqual(printable("a\x1b[31mred\x07\x9b\tb\u202eevil\u2066\r\n"), "a?[31mred?? bevil??")
        self.assertEqual(printable("plain Ünï 王"), "plain Ünï 王")


class Tables(unittest.TestCase):
    def test_every_width_is_kept(self) -> None:
        for width in range(20, 140):
            for line in table(COLUMNS, ROWS, width):
                self.assertLessEqual(text_width(line), width, line)

    def test_wide(self) -> None:
        self.assertEqual(
            table(COLUMNS, ROWS, 90),
            [
                "No.  From              Subject                                                   Run",
                "  1  Bob               Budget                                                      1",
                " 12  A sender with a…  The figures of next year, and why they are what they are    3",
                "  7  王小明            预算会议的日程安排以及其他重要事项                         10",
                "  8  Zoe\u0301               re\u0301sume\u0301                                                      2",
            ],
        )

    def test_narrow(self) -> None:
        self.assertEqual(
            table(COLUMNS, ROWS, 40),
            [
                "No.  From          Subject           Run",
                "  1  Bob           Budget              1",
                " 12  A sender wi…  The figures of …    3",
                "  7  王小明        预算会议的日程…    10",
                "  8  Zoe\u0301           re\u0301sume\u0301              2",
            ],
        )

    def test_too_narrow_for_columns(self) -> None:
        self.assertEqual(
            table(COLUMNS, ROWS[:2], 30),
            [
                "No.      1",
                "From     Bob",
                "Subject  Budget",
                "Run      1",
                "",
                "No.      12",
                "From     A sender with a very…",
                "Subject  The figures of next …",
                "Run      3",
            ],
        )

    def test_a_text_goes_on_below(self) -> None:
        columns = [Column("Query"), Column("Text", Kind.WRAP, least=10)]
        self.assertEqual(
            table(columns, [["q", "m.words HAS 'budget'"], ["long", "TRUE"]], 20),
            ["Query  Text", "q      m.words HAS", "       'budget'", "long   TRUE"],
        )


if __name__ == "__main__":
    unittest.main()
