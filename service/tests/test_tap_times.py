"""Moments in the local zone."""

from __future__ import annotations

import os
import time
import unittest

import support  # noqa: F401  (puts the package in reach)
from tapestry_service.client.times import LAST_MOMENT, parse_moment, shown_minute, shown_second

# 2026-07-01T12:00:00Z
NOW = 1782907200


class Times(unittest.TestCase):
    def setUp(self) -> None:
        self._zone = os.environ.get("TZ")

    def tearDown(self) -> None:
        self.zone(self._zone)

    def zone(self, name: str | None) -> None:
        if name is None:
            os.environ.pop("TZ", None)
        else:
            os.environ["TZ"] = name
        time.tzset()

    def test_shown_in_the_local_zone(self) -> None:
        self.zone("UTC")
        self.assertEqual(shown_second(NOW), "2026-07-01 12:00:00")
        self.assertEqual(shown_minute(NOW + 59), "2026-07-01 12:00")
        self.zone("CET-1CEST,M3.5.0,M10.5.0/3")
        self.assertEqual(shown_second(NOW), "2026-07-01 14:00:00")
        self.assertEqual(shown_second(NOW + 180 * 86400), "2026-12-28 13:00:00")
        self.assertEqual(shown_second(0), "1970-01-01 01:00:00")
        self.assertTrue(shown_second(LAST_MOMENT).startswith("9892-"))

    def test_forms(self) -> None:
        self.zone("CET-1CEST,M3.5.0,M10.5.0/3")
        for text, moment in (
            ("now", NOW - 1),
            ("Now", NOW - 1),
            ("0", 0),
            ("1000", 1000),
            ("250000000000", LAST_MOMENT),
            ("09:30", NOW - 14 * 3600 + 9 * 3600 + 1800),
            ("14:00:05", NOW + 5),
            ("2026-07-01", NOW - 14 * 3600),
            ("2026-07-01T14:00", NOW),
            ("2026-07-01 14:00:01", NOW + 1),
            ("2026-07-01T12:00:00Z", NOW),
            ("2026-07-01t12:00z", NOW),
            ("2026-07-01T13:00:00+01:00", NOW),
            ("2026-07-01 06:30-0530", NOW),
            ("2026-12-28 13:00", NOW + 180 * 86400),
            # Twice: the first is meant. Clocks go from 03:00 back to 02:00.
            ("2026-10-25 02:30", 1792888200),
        ):
            self.assertEqual(parse_moment(text, NOW), moment, text)

    def test_what_is_shown_is_read(self) -> None:
        self.zone("America/New_York")
        for moment in range(0, 4_000_000_000, 123_456_789):
            self.assertEqual(parse_moment(shown_second(moment), NOW), moment)

    def test_what_is_no_moment(self) -> None:
        self.zone("UTC")
        for text in (
            "",
            "yesterday",
            "-1",
            "1e3",
            "250000000001",
            "1234567890123",
            "2026-02-30",
            "2026-7-1",
            "2026-07-01T25:00",
            "2026-07-01T12:00:00+25:00",
            "12:61",
            "1969-12-31T23:59:59",
            "9999-12-31",
            "2026-07-01T12",
            "٢٠٢٦-07-01",
        ):
            with self.assertRaises(ValueError, msg=text) as caught:
                parse_moment(text, NOW)
            self.assertIn("moment", str(caught.exception))


if __name__ == "__main__":
    unittest.main()
