"""The decoded form of messages."""

from __future__ import annotations

import os
import signal
import subprocess
import sys
import time
import unittest
from unittest import mock

from support import SERVICE
from tapestry_service import decode
from tapestry_service.decode import decoded, decoded_or_raw

RAW = b"""From: =?utf-8?q?Ann_L=C3=A9e?= <ann@example.org>
Subject: =?utf-8?b?QnVkZ2V0IOKCrA==?=
X-Other: left out
MIME-Version: 1.0
Content-Type: multipart/mixed; boundary=b

--b
Content-Type: multipart/alternative; boundary=c

--c
Content-Type: text/plain; charset=latin-1
Content-Transfer-Encoding: quoted-printable

caf=E9 is
=20open
--c
Content-Type: text/html

<p>no</p>
--c--
--b
Content-Type: application/pdf; name="a b.pdf"
Content-Disposition: attachment; filename="a b.pdf"
Content-Transfer-Encoding: base64

AAAA
--b--
"""

WANTED = """From: Ann L\u00e9e <ann@example.org>
Subject: Budget \u20ac

caf\u00e9 is
 open
[application/pdf: a b.pdf]
"""


class Decode(unittest.TestCase):
    def test_fields_and_parts(self) -> None:
        self.assertEqual(decoded(RAW).decode(), WANTED)
        self.assertEqual(decoded_or_raw(RAW).decode(), WANTED)

    def test_html_alone(self) -> None:
        raw = b"Subject: x\nContent-Type: text/html\n\n<style>p{}</style><p>one<br>two &amp; three</p><script>no()</script>\n"
        self.assertEqual(decoded(raw), b"Subject: x\n\none\ntwo & three\n")

    def test_what_cannot_be_decoded_stays(self) -> None:
        for error in (ValueError, RecursionError, MemoryError, UnicodeError):
            with mock.patch.object(decode, "decoded", side_effect=error):
                self.assertEqual(decoded_or_raw(b"raw"), b"raw")

    def test_a_deep_message(self) -> None:
        raw = b"".join(b"Content-Type: multipart/mixed; boundary=b%d\n\n--b%d\n" % (it, it) for it in range(3000)) + b"text\n"
        self.assertIsInstance(decoded_or_raw(raw), bytes)

    def test_a_message_that_takes_long(self) -> None:
        def slow(_raw: bytes) -> bytes:
            end = time.monotonic() + 10
            while time.monotonic() < end:
                pass
            return b""

        began = time.monotonic()
        with mock.patch.object(decode, "decoded", slow):
            self.assertEqual(decoded_or_raw(b"raw", 0.1), b"raw")
        self.assertLess(time.monotonic() - began, 5)
        self.assertEqual(signal.getitimer(signal.ITIMER_VIRTUAL)[0], 0)

    def test_the_script_of_the_examples(self) -> None:
        script = os.path.join(os.path.dirname(SERVICE), "examples", "decode-mail.py")
        done = subprocess.run([sys.executable, script], input=RAW, stdout=subprocess.PIPE, check=True)
        self.assertEqual(done.stdout.decode(), WANTED)


if __name__ == "__main__":
    unittest.main()
