"""Header fields of documents, and documents as a reader wants them."""

from __future__ import annotations

import os
import time
import unittest
import unittest.mock

import support  # noqa: F401  (puts the package in reach)
from tapestry_service.client.fields import date_of, decoded, fields_of, header_of
from tapestry_service.client.readable import readable


class Headers(unittest.TestCase):
    def test_fields(self) -> None:
        lines = [
            b"From ann Mon Jun  1 09:00:00 1992",
            b"Received: from x",
            b"  by y",
            b"FROM: =?utf-8?q?J=C3=BCrgen=2C?= <J@Example.org>,",
            b" bob@example.org",
            b"subject : =?iso-8859-1?q?caf=E9?= =?utf-8?b?546L?=",
            b"\tand more",
            b"Subject: another",
            b"Date: Mon, 1 Jun 1992 12:00:00 +0200",
            b"",
            b"Subject: of the body",
        ]
        fields = fields_of(lines)
        self.assertEqual(fields.date, 707392800)
        self.assertEqual(fields.subject, "café王 and more")
        self.assertEqual(fields.address, "J@Example.org")
        self.assertEqual((fields.name, fields.who), ("Jürgen,", "Jürgen,"))
        self.assertEqual(fields.sender, "Jürgen, <J@Example.org>, bob@example.org")

    def test_what_is_missing(self) -> None:
        for lines in ([], [b""], [b"no header"], [b"", b"Subject: x"], [b" folded first", b"Subject: x"]):
            fields = fields_of(lines)
            self.assertEqual(
                (fields.date, fields.sender, fields.address, fields.subject, fields.who), (None, None, None, None, "")
            )
        self.assertEqual(fields_of([b"From:", b"Subject:"]).who, "")
        self.assertEqual(fields_of([b"From: a@b"]).who, "a@b")
        self.assertEqual(fields_of([b"From: nobody in particular <"]).who, "nobody in particular")

    def test_words_that_cannot_be_decoded(self) -> None:
        for value in ("=?utf-8?b?a?=", "=?no-such-charset?q?x?=", "=?utf-8?q?", "=?", "plain"):
            self.assertEqual(decoded(value), value)
        self.assertEqual(decoded("=?utf-8?q?=FF?="), "\ufffd")
        self.assertEqual(decoded("  a \t b "), "a b")
        self.assertEqual(decoded("王 =?utf-8?q?=C3=A9?= ½"), "王 é ½")

    def test_bytes_that_are_not_ascii(self) -> None:
        self.assertEqual(fields_of(["Subject: é王".encode()]).subject, "é王")
        self.assertEqual(fields_of([b"Subject: caf\xe9"]).subject, "café")

    def test_dates(self) -> None:
        # The local zone is that of nobody but the reader.
        self.addCleanup(time.tzset)
        self.enterContext(unittest.mock.patch.dict(os.environ, TZ="CET-1"))
        time.tzset()
        for value, moment in (
            ("Mon, 1 Jun 1992 10:00:00 +0000", 707392800),
            ("1 Jun 1992 10:00:00", 707392800),
            ("1 Jun 1992 10:00:00 -0000", 707392800),
            ("Mon, 1 Jun 1992 10:00:00 GMT (comment)", 707392800),
            ("Thu, 1 Jan 1970 00:00:00 +0000", 0),
            ("Thu, 1 Jan 1970 00:00:00 +0100", None),
            ("never", None),
            ("", None),
            ("Mon, 99 Foo 1992 10:00:00", None),
            ("Mon, 1 Jun 99999999999 10:00:00 +0000", None),
        ):
            self.assertEqual(date_of(value), moment, value)

    def test_the_header_ends(self) -> None:
        self.assertEqual(header_of([b"A: 1", b"no field", b"B: 2"]), [("a", b"1")])
        self.assertEqual(header_of([b"A: 1", b" 2 ", b"B:3"]), [("a", b"1 2"), ("b", b"3")])


class Readable(unittest.TestCase):
    def setUp(self) -> None:
        os.environ["TZ"] = "UTC"
        time.tzset()

    def test_a_plain_message(self) -> None:
        lines = [
            b"From: Ann <ann@x>",
            b"X-Other: 1",
            b"Date: Mon, 1 Jun 1992 10:00:00 +0000",
            b"Subject: =?utf-8?q?=C3=A9?=",
            b"",
            b"Hi\x1b[2J",
            b".",
            b"",
        ]
        self.assertEqual(readable(lines), ["From: Ann <ann@x>", "Subject: é", "Date: 1992-06-01 10:00:00", "", "Hi?[2J", "."])

    def test_without_a_header(self) -> None:
        self.assertEqual(readable([b"", b"just text"]), ["just text"])
        self.assertEqual(readable([]), [])
        self.assertEqual(readable([b"Subject: x"]), ["Subject: x"])

    def test_parts_are_decoded(self) -> None:
        message = b"""Subject: x
MIME-Version: 1.0
Content-Type: multipart/mixed; boundary=B

--B
Content-Type: multipart/alternative; boundary=C

--C
Content-Type: text/plain; charset=iso-8859-1
Content-Transfer-Encoding: quoted-printable

caf=E9
--C
Content-Type: text/html

<b>no</b>
--C--
--B
Content-Type: text/html; charset=utf-8
Content-Transfer-Encoding: base64

PHN0eWxlPng8L3N0eWxlPjxwPnRleHQ8L3A+PHA+bW9yZTwvcD4=
--B
Content-Type: application/pdf
Content-Disposition: attachment; filename="=?utf-8?q?a=C3=A9.pdf?="
Content-Transfer-Encoding: base64

AAAA
--B--
"""
        self.assertEqual(readable(message.split(b"\n")), ["Subject: x", "", "café", "text", "more", "[application/pdf: aé.pdf]"])

    def test_an_unknown_charset(self) -> None:
        lines = [b"Content-Type: text/plain; charset=none-such", b"", b"caf\xe9"]
        self.assertEqual(readable(lines), ["café"])


if __name__ == "__main__":
    unittest.main()
