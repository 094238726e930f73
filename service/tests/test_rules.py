"""The file RULES."""

from __future__ import annotations

import unittest

from support import Folder
from tapestry_service.rules import Digest, Maildir, QueryName, WrongRule, read_rules, words_of

GOOD = """
# who
user   root\tann
user www-data web.mail    # a comment
run ann budget
deliver ann budget maildir /srv/ann/.budget
deliver ann open maildir "/srv/ann's mail/.open"\r
deliver ann open digest sendmail -i 'ann lee@example.org' a#b #c
deliver bob.x q-1 digest sh -c "cat >> /tmp/x"
"""

WRONG = {
    "user root": "it wants: user LOGIN NAME",
    "user root Ann": "Ann isn't a valid name of a user",
    "run ann": "it wants: run NAME QUERY",
    "run ann b c": "it wants: run NAME QUERY",
    "run 1ann b": "1ann isn't a valid name of a user",
    "run ann " + "q" * 33: "isn't a valid name of a query",
    "deliver ann q maildir": "it wants: deliver",
    "deliver ann q maildir /a /b": "it wants: deliver",
    "deliver ann q mbox /a": "it wants: deliver",
    "deliver ann q digest": "it wants: deliver",
    "deliver ann q maildir 'a": "a quote has no end",
    "runs ann q": "runs is none of user, run and deliver",
    "user bob bob\nuser bob ann": "the login bob has a line already",
    "deliver a q maildir /x\ndeliver a q maildir /x/": "the same delivery has a line already",
    "deliver a q digest x\ndeliver a q digest y": "the query has a digest already",
}


class Rules(Folder):
    def of(self, text: str):
        with open(self.place("rules"), "w", newline="") as file:
            file.write(text)
        return read_rules(self.place("rules"))

    def test_a_file_of_each_kind_of_line(self) -> None:
        rules = self.of(GOOD)
        budget, is_open, q = QueryName("ann", "budget"), QueryName("ann", "open"), QueryName("bob.x", "q-1")
        self.assertEqual(rules.users, {"root": "ann", "www-data": "web.mail"})
        self.assertEqual(rules.queries, (budget, is_open, q))
        self.assertEqual(rules.maildirs, (Maildir(budget, "/srv/ann/.budget"), Maildir(is_open, "/srv/ann's mail/.open")))
        self.assertEqual(
            rules.digests,
            (Digest(is_open, ("sendmail", "-i", "ann lee@example.org", "a#b")), Digest(q, ("sh", "-c", "cat >> /tmp/x"))),
        )

    def test_who_a_login_is(self) -> None:
        rules = self.of(GOOD)
        self.assertEqual(rules.name_of("root"), "ann")
        self.assertEqual(rules.name_of("carol"), "carol")
        self.assertIsNone(rules.name_of("Carol"))
        self.assertIsNone(rules.name_of("1000"))

    def test_a_wrong_line_is_named(self) -> None:
        for text, why in WRONG.items():
            with self.subTest(text), self.assertRaises(WrongRule) as caught:
                self.of("# one\nrun x y\n" + text + "\n")
            number = 3 + text.count("\n")
            self.assertTrue(str(caught.exception).startswith(f"{self.place('rules')}:{number}: "), caught.exception)
            self.assertIn(why, str(caught.exception))

    def test_words(self) -> None:
        self.assertEqual(words_of("a  b\t'c d'e \"f'g\" ''"), ["a", "b", "c de", "f'g", ""])
        self.assertEqual(words_of("  # all"), [])


if __name__ == "__main__":
    unittest.main()
