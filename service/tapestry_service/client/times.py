"""Moments as people write and read them, in the local zone.

A moment is a whole second since 1970-01-01T00:00:00Z, from 0 to 250,000,000,000.
"""

import datetime
import re
import time

LAST_MOMENT = 250_000_000_000
FORMS = (
    "`now', seconds since 1970, HH:MM or HH:MM:SS of today, YYYY-MM-DD, or YYYY-MM-DD and HH:MM or HH:MM:SS,"
    " joined by T or a blank, in the local zone unless Z or an offset such as +01:00 follows"
)

_CLOCK = r"(?P<hour>\d\d):(?P<minute>\d\d)(?::(?P<second>\d\d))?"
_DAY = r"(?P<year>\d{4})-(?P<month>\d\d)-(?P<day>\d\d)"
_ZONE = r"(?P<zone>[Zz]|[+-]\d\d:?\d\d)?"
_TODAY = re.compile(_CLOCK, re.ASCII)
_FULL = re.compile(rf"{_DAY}(?:[Tt ]{_CLOCK}{_ZONE})?", re.ASCII)


def shown_second(moment: int) -> str:
    """Returns the local date and time of a moment: 2026-11-30 14:05:09."""
    return _local("%Y-%m-%d %H:%M:%S", moment)


def shown_minute(moment: int) -> str:
    """Returns the local date and time of a moment without the seconds: 2026-11-30 14:05."""
    return _local("%Y-%m-%d %H:%M", moment)


def _local(form: str, moment: int) -> str:
    try:
        return time.strftime(form, time.localtime(moment))
    except (OverflowError, ValueError, OSError):
        return str(moment)


def parse_moment(text: str, now: int) -> int:
    """Returns the moment that a text means; `now` is the clock's second.

    The word `now` means the last second that is over, which is the latest that can be asked about. Of a local time that occurs
    twice, when clocks are set back, the first is meant. Raises ValueError, with the forms in words, if the text has none of them.
    """
    text = text.strip()
    if text.lower() == "now":
        moment = now - 1
    elif re.fullmatch(r"\d{1,12}", text, re.ASCII):
        moment = int(text)
    else:
        moment = _parse_date(text, now)
    if not 0 <= moment <= LAST_MOMENT:
        raise ValueError(f"`{text}' isn't a moment from 1970 on, up to second {LAST_MOMENT}")
    return moment


def _parse_date(text: str, now: int) -> int:
    clock = _TODAY.fullmatch(text)
    found = clock or _FULL.fullmatch(text)
    if not found:
        raise ValueError(f"`{text}' isn't a moment: write {FORMS}")
    if clock:
        today = time.localtime(now)
        day = (today.tm_year, today.tm_mon, today.tm_mday)
    else:
        day = (int(found["year"]), int(found["month"]), int(found["day"]))
    hour, minute, second = (int(found[part] or 0) for part in ("hour", "minute", "second"))
    zone = None if clock else found["zone"]
    try:
        return int(datetime.datetime(*day, hour, minute, second, tzinfo=_zone(zone)).timestamp())
    except (ValueError, OverflowError, OSError) as error:
        raise ValueError(f"`{text}' isn't a moment: {error}") from error


def _zone(text: str | None) -> datetime.timezone | None:
    if text is None:
        return None
    if text in "Zz":
        return datetime.timezone.utc
    minutes = int(text[1:3]) * 60 + int(text[-2:])
    return datetime.timezone(datetime.timedelta(minutes=-minutes if text[0] == "-" else minutes))
