#!/usr/bin/env python3
"""Tests of what makes and counts pages, and of the made page itself, without a proof: python3 tools/test_pages.py"""

import contextlib
import io
import os
import re
import sys
import tempfile
import unittest
from typing import List, Tuple
from unittest import mock

sys.dont_write_bytecode = True

import counts
import definitions
import plan

MODULE = """-- What a list has.
use Rattle.std.specs.Prelude.{N, List}

-- the first of some items,
-- if there is one
abbrev pub first_of : List N -> N
first_of items = 0

abbrev pub last_of : List N -> N
last_of items = 0

-- is it empty?
infixl 5 _is_
unfoldable pub IsEmpty : List N -> Type 0
IsEmpty items = items = []

-- ---- as they are shown

abbrev pub shown : List N -> List N
shown items = items

-- of a set of items
module _ (items : List N) where
  abbrev pub counted : N
  counted = 0

  -- one of them
  pub record IsOne (n : N) : Type 0 where
    pub one : In n items

  abbrev hidden : N
"""

SOURCE = """//! Lists.
ghost use Rattle.low.specs.Lists.{first_of as first, last_of, shown};

/// A list that is read. It has an end.
pub trait Read {
    // What is left, if it
    // is told.
    ghost left: { Self -> List N };

    ghost faults: { Self -> N };

    /// Reads.
    fn read(&mut self) -> u8
        ensures { result = last_of (left self.old) };
}

// Shows.
fn show(x: u8) -> u8
    ensures { result = shown x }
{
    x
}

/// Gives the first.
pub fn begin(x: &[u8]) -> u8
    ensures ok { OnOk result {
        first x }
    }
{
    show(x[0])
}
"""


class DefinitionsTest(unittest.TestCase):
    def test_a_definition_has_the_comment_above_it_or_the_last_one(self) -> None:
        groups = [(it.names, it.sentence) for it in definitions.groups_of(MODULE)]
        self.assertEqual(
            groups,
            [
                (["first_of", "last_of"], "the first of some items, if there is one"),
                (["IsEmpty"], "is it empty?"),
                (["shown"], "as they are shown"),
                (["counted"], "of a set of items"),
                (["IsOne"], "one of them"),
            ],
        )

    def test_the_first_one_of_a_file_needs_no_comment_if_the_file_has_one(self) -> None:
        text = "-- What a name is.\nuse A.{B}\n\nabbrev pub is_name : B\nis_name = b\n"
        self.assertEqual(definitions.groups_of(text), [(["is_name"], "", 4)])
        for head, bare in (("", ["crates/low/specs/Names.antt:4: is_name has no comment"]), ("-- What a name is.", [])):
            with tempfile.TemporaryDirectory() as top, mock.patch.object(definitions, "TOP", top):
                write(top, "crates.txt", "# base: texts\nlow:\n")
                write(top, "crates/low/src/lib.rt", "//! Texts.\n")
                write(top, "crates/low/specs/Names.antt", text.replace("-- What a name is.", head))
                self.assertEqual(definitions.made()[1], bare)

    def test_a_trait_has_its_ghosts(self) -> None:
        (read,) = definitions.traits_of("low/src/read.rt", SOURCE)
        self.assertEqual((read.name, read.head), ("Read", "A list that is read. It has an end."))
        self.assertEqual([(it.names, it.sentence) for it in read.groups], [(["left", "faults"], "What is left, if it is told.")])

    def test_only_public_contracts_name_what_is_bold(self) -> None:
        clauses = definitions.contracts_of(SOURCE)
        for name, is_there in (("first", True), ("last_of", True), ("shown", False), ("show", False)):
            self.assertEqual(bool(re.search(rf"\b{name}\b", clauses)), is_there, name)

    def test_a_row_escapes_what_would_end_a_cell(self) -> None:
        groups = [definitions.Group(["◌|◌", "holds"], "one | the other", 1)]
        crate = definitions.Crate("low", "", [definitions.Module("Bits", "crates/low/specs/Bits.antt", "Bits.", groups)])
        rows = definitions.rows_of(crate, {("low", "Bits", "holds")})
        self.assertEqual(rows[2], "| [Bits](../crates/low/specs/Bits.antt) | *Bits.* |")
        self.assertEqual(rows[3], "| `◌\\|◌`, **`holds`** | one \\| the other |")

    def test_layers_are_those_of_crates_txt_without_tests(self) -> None:
        text = "# The crates in layers.\n\n# base: texts\nlow: std_like\nhigh may_abort=2: low\n# tests: of these\nlow_tests: low\n"
        self.assertEqual(definitions.layers_of(text), [("base: texts", ["low", "high"])])

    def test_the_page_is_what_the_comments_say(self) -> None:
        with contextlib.redirect_stdout(io.StringIO()) as said:
            self.assertEqual(definitions.main(["--check"]), 0, said.getvalue())

    def test_a_page_that_is_old_is_refused_and_then_made(self) -> None:
        with tempfile.TemporaryDirectory() as top, mock.patch.object(definitions, "TOP", top):
            write(top, "crates.txt", "# base: texts\nlow:\n")
            write(top, "crates/low/src/lib.rt", "//! Texts.\n")
            write(top, "crates/low/specs/Lists.antt", MODULE)
            write(top, "docs/DEFINITIONS.md", "old")
            with contextlib.redirect_stdout(io.StringIO()):
                self.assertEqual([definitions.main(it) for it in (["--check"], [], ["--check"])], [1, 0, 0])
            write(top, "crates/low/specs/Lists.antt", MODULE.replace("is it empty", "is nothing in it"))
            with contextlib.redirect_stdout(io.StringIO()):
                self.assertEqual(definitions.main(["--check"]), 1)


def write(top: str, path: str, text: str) -> None:
    os.makedirs(os.path.dirname(f"{top}/{path}"), exist_ok=True)
    with open(f"{top}/{path}", "w", encoding="utf-8") as it:
        it.write(text)


class CountsTest(unittest.TestCase):
    def twice(self, *found: Tuple[str, bool]) -> bool:
        return bool(counts.with_two({"x": [counts.Home(crate, "", 1, is_type) for crate, is_type in found]}))

    def test_a_type_and_what_it_is_seen_as_are_one_home(self) -> None:
        self.assertTrue(self.twice(("low", False), ("high", False)))
        self.assertTrue(self.twice(("low", False), ("low", False)))
        self.assertTrue(self.twice(("low", True), ("high", False)))
        self.assertFalse(self.twice(("low", True), ("low", False)))
        self.assertFalse(self.twice(("low", False)))

    def test_names_of_one_sense_still_have_two_homes(self) -> None:
        self.assertEqual([it for it in counts.ONE_SENSE if it not in counts.with_two(counts.homes())], [])

    def found(self, text: str) -> List[str]:
        return [better for pattern, better in counts.OLD_WORDS if re.search(pattern, text)]

    def test_old_words_are_found_and_their_like_are_not(self) -> None:
        old = (
            "a name that is none; at first; with so many parts; it puts the row behind others; a crash leaves them alone;"
            " a row is kept; it stands for a row; a fault comes; takes back a row; lets go of it; is true at s; exactly where;"
            " a second that is over; starved; is held; it is attached at a place; the rest stays as it was."
        )
        self.assertEqual(self.found(old), [better for _, better in counts.OLD_WORDS])
        new = (
            "there is none; so many rows that none fits; kept by hand; it is held to this; these alone; a place in a list;"
            " as it was put; none of them is there; behind others"
        )
        self.assertEqual(self.found(new), [])

    def test_code_is_no_prose(self) -> None:
        page = "One `is none` word.\n```\nis none\n```\nTwo.\n"
        self.assertEqual([(it.text, it.line_of(0)) for it in counts.prose_of_page(page)], [("One `` word.", 1), ("Two.", 5), ("", 6)])

    def test_words_are_those_outside_of_code_and_in_cells(self) -> None:
        table = "| A | B |\n|---|:-:|\n| one cell | - |\n"
        code = "```session\n> not these\n```\n\nafter\n\n  ```\n  nor these\n  ```\n"
        for text, words in (("# Two words\n", "# Two words"), (table, "A B one cell"), (code, "after"), ("a || b", "a || b")):
            self.assertEqual(counts.words_of(text), len(words.split()), text)

    def test_pages_that_are_too_long_are_named(self) -> None:
        with tempfile.TemporaryDirectory() as top, contextlib.ExitStack() as stack:
            for patch in (
                mock.patch.object(definitions, "TOP", top),
                mock.patch.object(counts, "TOP", top),
                mock.patch.object(counts, "MOST_WORDS", {"README.md": 2}),
                mock.patch.object(counts, "MOST_WORDS_OF_PAGES", 6),
            ):
                stack.enter_context(patch)
            write(top, "README.md", "| one | two |\n")
            write(top, "docs/DEFINITIONS.md", "a page that is made and as long as it is\n")
            for words, more, found in ((4, "", []), (5, "", ["pages by hand"]), (4, "three", ["README.md", "pages by hand"])):
                write(top, "CONTRIBUTING.md", "word " * words)
                write(top, "README.md", f"| one | two |\n{more}\n")
                self.assertEqual([it.path for it in counts.long_pages()], found)

    def test_a_comment_is_read_over_its_lines(self) -> None:
        (first, second) = counts.prose_of_comments("let x = 1;\n    // A crash leaves\n    // these alone.\nfn f()\n-- more")
        self.assertEqual((first.text, second.text), ("A crash leaves these alone. ", "more "))
        self.assertEqual([first.line_of(first.text.index(it)) for it in ("crash", "these")], [2, 3])

    def test_a_crate_uses_what_it_names_and_what_that_uses(self) -> None:
        texts = {
            **dict.fromkeys("abcde", ()),
            "low": ["use a::b;", "use Rattle.b.specs.C.{d}", "use c;", "unfolding(d::specs::E::f)"],
            "high": ["let e = 1;"],
            "top": ["use low::f;"],
        }
        uses = plan.read_uses("a:\nb:\nc:\nd:\ne:\nlow: a b c d e kit\nhigh: e low\ntop: low a e\n")
        self.assertEqual(counts.unused(uses, lambda crate: texts[crate]), {"low": ["e"], "high": ["e", "low"], "top": ["e"]})

    def test_a_count_that_is_not_0_is_a_status(self) -> None:
        place = counts.Place("a.rt", 3, "long")
        for found, status, lines in (([], 0, ["0 lines"]), ([place], 1, ["1 lines", "  a.rt:3: long"])):
            with mock.patch.object(counts, "COUNTS", {"lines": ("lines", lambda found=found: iter(found))}):
                with contextlib.redirect_stdout(io.StringIO()) as said:
                    self.assertEqual(counts.main([]), status)
            self.assertEqual(said.getvalue().splitlines(), lines)


class CitationsTest(unittest.TestCase):
    @classmethod
    def setUpClass(cls) -> None:
        cls.tree = counts.Tree()

    def page(self, text: str) -> List[str]:
        return [it.what for it in counts.cited_in_page(self.tree, "docs/PROVED.md", text)]

    def test_what_exists_is_no_fault(self) -> None:
        text = (
            "`Engine::perform` (`step`, `refused` of `Engine::perform`), `script.whole` of `tap_top::tapestry`, `is_name` of tap_base,"
            " `tools/build.py`, `crates/*/specs`, `crates/NAME/src`, `specs/Names.antt`, [ESSAYS](ESSAYS.md), `two words`, `end`"
        )
        self.assertEqual(self.page(text), [])
        self.assertEqual(self.page("```\n`NotThere`\n```"), [])

    def test_what_does_not_exist_is_named(self) -> None:
        self.assertEqual(self.page("`is_nowhere` and `IsNowhere`"), ["is_nowhere", "IsNowhere"])
        self.assertEqual(self.page("`is_blank`, `perform` of tap_base"), ["perform of tap_base"])
        self.assertEqual(self.page("`script.nowhere` of `tap_top::tapestry`"), ["script.nowhere of tap_top::tapestry"])
        self.assertEqual(self.page("`tools/nothing.py`, `specs/Nothing.antt`"), ["no file tools/nothing.py", "no file specs/Nothing.antt"])
        self.assertEqual(self.page("[it](NOTHING.md)"), ["no file NOTHING.md"])

    def test_a_comment_cites_names(self) -> None:
        found = counts.cited_in_comments(self.tree, "a.rt", "// as `is_name` and `is_nowhere`\nlet x = `is_nowhere`;")
        self.assertEqual([str(it) for it in found], ["a.rt:1: is_nowhere"])

    def test_this_tree_cites_what_exists(self) -> None:
        self.assertEqual([str(it) for it in counts.citations()], [])


if __name__ == "__main__":
    unittest.main()
