"""Times and spans, in whole microseconds. A time counts from the beginning of 1970, in UTC."""

from __future__ import annotations

import re
from datetime import date
from enum import Enum
from functools import lru_cache

SECOND = 1_000_000
MINUTE = 60 * SECOND
DAY = 24 * 60 * MINUTE
UNITS = {'s': SECOND, 'm': MINUTE, 'h': 60 * MINUTE, 'd': DAY, 'w': 7 * DAY}

_SECONDS = re.compile(r'(-?)([0-9]{1,12})(?:\.([0-9]{1,9}))?')
_DATE = re.compile(r'([0-9]{4})-([0-9]{2})-([0-9]{2})')
_CLOCK = re.compile(r'[Tt ]([0-9]{2}):([0-9]{2})')
_SECONDS_AND_ZONE = re.compile(
    r'(?::([0-9]{2})(?:[.,]([0-9]{1,9}))?)?'
    r'(?:[Zz]|([+-])([0-9]{2})(?::?([0-9]{2}))?)?'
)
_SPAN = re.compile(r'([0-9]{1,9})([smhdw])')
_EPOCH_DAY = date(1970, 1, 1).toordinal()


class Form(Enum):
    """How a table writes its times."""

    SECONDS = 'seconds'
    DATE = 'date'
    TIME = 'time'


def form_of(text: str) -> Form:
    """The form of a time that can be read."""
    if _SECONDS.fullmatch(text):
        return Form.SECONDS
    return Form.DATE if len(text) == len('1970-01-01') else Form.TIME


def read_time(text: str) -> int:
    """The time that a text says: seconds since 1970, a date (its first moment), or a date and a time of day.

    Without a zone it is in UTC. Digits after the sixth of a fraction are dropped. ValueError for other texts.
    """
    try:
        if text[4:5] == '-':
            # Rows have these three parts in common with others, so each is read once.
            return _date(text[:10]) + _clock(text[10:16]) + _seconds_and_zone(text[16:])
        return _seconds(text)
    except ValueError:
        raise ValueError(f'{text!r} is no time') from None


@lru_cache(maxsize=4096)
def _date(text: str) -> int:
    """The first moment of a date."""
    match = _DATE.fullmatch(text)
    if not match:
        raise ValueError
    year, month, day = map(int, match.groups())
    return (date(year, month, day).toordinal() - _EPOCH_DAY) * DAY


@lru_cache(maxsize=4096)
def _clock(text: str) -> int:
    """The hour and the minute of a time, which may be missing."""
    match = _CLOCK.fullmatch(text)
    if not match:
        if text:
            raise ValueError
        return 0
    hour, minute = map(int, match.groups())
    if hour > 23 or minute > 59:
        raise ValueError
    return (hour * 60 + minute) * MINUTE


@lru_cache(maxsize=4096)
def _seconds_and_zone(text: str) -> int:
    """The seconds of a time less its zone, both of which may be missing."""
    match = _SECONDS_AND_ZONE.fullmatch(text)
    if not match:
        raise ValueError
    second, fraction, sign, zone_hours, zone_minutes = match.groups()
    seconds, hours, minutes = (int(part or 0) for part in (second, zone_hours, zone_minutes))
    if seconds > 59 or hours > 23 or minutes > 59:
        raise ValueError
    zone = (hours * 60 + minutes) * MINUTE
    return seconds * SECOND + _fraction(fraction) + (zone if sign == '-' else -zone)


def _seconds(text: str) -> int:
    match = _SECONDS.fullmatch(text)
    if not match:
        raise ValueError
    sign, seconds, fraction = match.groups()
    micros = int(seconds) * SECOND + _fraction(fraction)
    return -micros if sign else micros


def _fraction(digits) -> int:
    return int(digits[:6].ljust(6, '0')) if digits else 0


def read_span(text: str) -> int:
    """A span such as 45s, 30m, 12h, 30d or 2w. ValueError for other texts, and for none at all."""
    match = _SPAN.fullmatch(text)
    if not match or int(match[1]) == 0:
        raise ValueError(f'{text!r} is no span: it is a number above 0 and one of s, m, h, d and w, as 30d')
    return int(match[1]) * UNITS[match[2]]


def time_text(time: int, form: Form) -> str:
    """A time as a table of this form writes it. A date stands alone for the first moment of its day."""
    if form is Form.SECONDS:
        sign = '-' if time < 0 else ''
        seconds, micros = divmod(abs(time), SECOND)
        return f'{sign}{seconds}{_fraction_text(micros)}'
    day, within = divmod(time, DAY)
    if form is Form.DATE and not within:
        return _date_text(day)
    minute, micros = divmod(within, MINUTE)
    second, micros = divmod(micros, SECOND)
    return f'{_date_text(day)}T{_clock_text(minute)}:{second:02}{_fraction_text(micros)}Z'


@lru_cache(maxsize=4096)
def _date_text(day: int) -> str:
    """A date by its days since the beginning of 1970."""
    return date.fromordinal(_EPOCH_DAY + day).isoformat()


@lru_cache(maxsize=4096)
def _clock_text(minute: int) -> str:
    """An hour and a minute by the minutes since midnight."""
    return f'{minute // 60:02}:{minute % 60:02}'


def _fraction_text(micros: int) -> str:
    return f'.{micros:06d}'.rstrip('0') if micros else ''
