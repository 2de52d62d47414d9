"""Events in the order of their times."""

from __future__ import annotations

import heapq
import math
import pickle
import tempfile
from itertools import islice
from typing import BinaryIO, Callable, Iterable, Iterator, List, Optional

from common.ending import REFUSED, Stop
from events.event import Event

# Events that are sorted in memory at a time: some 30 MB.
CHUNK = 100_000


def unless_backwards(events: Iterable[Event], refused: Callable[[Event, Event], str]) -> Iterator[Event]:
    """The events as they come, up to the first whose time is before that of the one just before it."""
    last_time, last = -math.inf, None
    for event in events:
        if event[0] < last_time:
            raise Stop(REFUSED, refused(event, last))
        yield event
        last_time, last = event[0], event


def by_time(events: Iterable[Event]) -> Iterator[Event]:
    """All events by time, those of one time as they came. More than fit in a chunk wait in files.

    Where reading them stops, those before are given first.
    """
    reading = _Reading(events)
    first = sorted(islice(reading, CHUNK))
    parts: List[Iterator[Event]] = [iter(first)]
    while chunk := sorted(islice(reading, CHUNK)):
        parts.append(_read_back(_spooled(chunk)))
    yield from heapq.merge(*parts)
    if reading.stop is not None:
        raise reading.stop


class _Reading:
    """Events up to where reading them stops, and the stop."""

    def __init__(self, events: Iterable[Event]):
        self._events = iter(events)
        self.stop: Optional[Stop] = None

    def __iter__(self) -> Iterator[Event]:
        return self

    def __next__(self) -> Event:
        if self.stop is not None:
            raise StopIteration
        try:
            return next(self._events)
        except Stop as stop:
            self.stop = stop
            raise StopIteration from None


def _spooled(chunk: List[Event]) -> BinaryIO:
    file = tempfile.TemporaryFile()
    for event in chunk:
        pickle.dump(event, file)
    file.seek(0)
    return file


def _read_back(file: BinaryIO) -> Iterator[Event]:
    with file:
        while True:
            try:
                yield pickle.load(file)
            except EOFError:
                return
