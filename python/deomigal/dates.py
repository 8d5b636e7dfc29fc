"""Dates of cookies, in UTC and whole seconds."""
from __future__ import annotations

import datetime
import time
from typing import Any

from ._library import PRINT_DATE, READ_DATE, Text, bytes_from, bytes_of, checked, typed
from .errors import NoDate, error_of

# The first second that `datetime` has, the last one since 1970, and one more than the last that a call takes.
FIRST, LAST, END = datetime.datetime(1, 1, 1, tzinfo=datetime.timezone.utc), 253402300799, 2**64
A_TIME = "a time is a datetime.datetime"


def whole_second(now: float | None) -> int:
    """The whole second since 1970, of the clock if there is none. Raises `NoDate` for one before 1970 or from 2^64 on.

    >>> whole_second(1445412480.9)
    1445412480
    """
    now = time.time() if now is None else typed(now, (int, float), "a time is in seconds since 1970")
    # So an infinite one is refused, and what is no number.
    if not -1 < now < END:
        raise error_of(NoDate.status)
    return int(now)


def date_of(moment: Any) -> datetime.datetime | None:
    """The date and time in UTC, or None if there is none. `datetime` has no year below 1, so that is None too."""
    if moment.status == NoDate.status or checked(moment).year < 1:
        return None
    return FIRST.replace(moment.year, moment.month, moment.day, moment.hour, moment.minute, moment.second)


def date_at(second: float) -> datetime.datetime:
    """The date and time of the second since 1970, and the last one if it is later."""
    return datetime.datetime.fromtimestamp(min(second, LAST), datetime.timezone.utc)


def numbers_of(moment: datetime.datetime) -> tuple[int, ...]:
    """The six numbers of a date and time in UTC. One without a time zone counts as UTC."""
    return typed(moment, datetime.datetime, A_TIME).utctimetuple()[:6]  # type: ignore[no-any-return]


def read_date(text: Text) -> datetime.datetime | None:
    """Reads the text as a date and time in UTC, in one of four forms (RFC 9110 5.6.7, RFC 6265 5.1.1). Returns None if
    it isn't one, or if its year is below 1. Raises `NotUtf8`.

    >>> read_date("Wed, 21 Oct 2015 07:28:00 GMT")
    datetime.datetime(2015, 10, 21, 7, 28, tzinfo=datetime.timezone.utc)
    """
    text = bytes_of(text)
    return date_of(READ_DATE(text, len(text)))


def print_date(moment: datetime.datetime) -> str:
    """The text of a date and time. One without a time zone counts as UTC.

    >>> print_date(datetime.datetime(2015, 10, 21, 7, 28))
    'Wed, 21 Oct 2015 07:28:00 GMT'
    """
    return bytes_from(PRINT_DATE, *numbers_of(moment)).decode()
