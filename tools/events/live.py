"""The graph of the live events, by pairs.

A pair is one number: the lower id times 2^32, plus the higher one.
"""

from __future__ import annotations

import math
from array import array
from bisect import bisect_right
from typing import Dict, Iterable, List, Optional, Sequence, Tuple

from events.event import NO_LABEL, is_label

ID_BITS = 32
ID_MASK = (1 << ID_BITS) - 1


def ends_of(pair: int) -> Tuple[int, int]:
    """The two ids of a pair, the lower first."""
    return pair >> ID_BITS, pair & ID_MASK


class Bands:
    """Labels by how many events a pair has: each from its bound on, up to the next bound."""

    def __init__(self, labels: Iterable[Tuple[str, int]] = ()):
        ordered = sorted(labels, key=lambda band: band[1])
        self.labels = [label for label, _ in ordered]
        self.bounds = [bound for _, bound in ordered]


def read_bands(text: str) -> Bands:
    """Bands as in few:1,many:10. ValueError for other texts."""
    bands = []
    for part in text.split(','):
        label, _, bound = part.partition(':')
        if not is_label(label):
            raise ValueError(f'{label!r} is no label')
        if not (bound.isascii() and bound.isdigit() and int(bound) > 0):
            raise ValueError(f'{part!r} has no bound above 0: bands are written as few:1,many:10')
        bands.append((label, int(bound)))
    if len({bound for _, bound in bands}) < len(bands):
        raise ValueError('two bands have one bound')
    return Bands(bands)


# A pair whose edge isn't as it was: the pair, the labels of its edge before and after, each None where there is no
# edge, and the rows that came and that expired, where these are asked for.
Change = Tuple[int, Optional[str], Optional[str], Sequence[int], Sequence[int]]


class LiveGraph:
    """The graph of the live events: a pair that has some has an edge.

    The label of an edge is that of the band of its count, or else of its latest event. An event is live from its
    time until, and not at, its time plus `keep`, which is in microseconds; without `keep` it stays. With `traces`
    changes tell their rows.

    Memory: a number for each pair, with a label where its latest event has one, and 24 bytes for each event that
    will expire.
    """

    def __init__(self, keep: Optional[int], bands: Bands, traces: bool):
        self.next_expiry = math.inf  # when the next events expire
        self._keep = keep
        self._bands = bands
        self._traces = traces
        self._counts: Dict[int, int] = {}
        self._latest: Dict[int, str] = {}
        self._waiting = _Waiting()
        # By pairs, since the changes were last taken: the label before, the rows that came, those that expired.
        self._before: Dict[int, Optional[str]] = {}
        self._rows: Dict[int, List[int]] = {}
        self._expired: Dict[int, List[int]] = {}

    def add(self, one: int, other: int, time: int, row: int, label: str) -> None:
        """Takes in an event between two ids, which comes no earlier than those before it."""
        pair = one << ID_BITS | other if one < other else other << ID_BITS | one
        count = self._counts.get(pair, 0)
        if pair not in self._before:
            self._before[pair] = self._label(pair, count) if count else None
        self._counts[pair] = count + 1
        if label != NO_LABEL:
            self._latest[pair] = label
        elif self._latest:
            self._latest.pop(pair, None)
        if self._traces:
            self._rows.setdefault(pair, []).append(row)
        if self._keep is not None:
            expiry = time + self._keep
            self._waiting.push(expiry, row, pair)
            self.next_expiry = min(self.next_expiry, expiry)

    def expire(self) -> None:
        """Takes out the events that expire next, which are those of one time."""
        for row, pair in self._waiting.take_first():
            count = self._counts[pair]
            if pair not in self._before:
                self._before[pair] = self._label(pair, count)
            if count > 1:
                self._counts[pair] = count - 1
            else:
                del self._counts[pair]
                self._latest.pop(pair, None)
            if self._traces:
                self._expired.setdefault(pair, []).append(row)
        self.next_expiry = self._waiting.first_time()

    def take_changes(self) -> List[Change]:
        """The pairs whose edges aren't as they were when this was last called, in the order of touch."""
        changes = []
        for pair, before in self._before.items():
            count = self._counts.get(pair, 0)
            after = self._label(pair, count) if count else None
            if after != before:
                changes.append((pair, before, after, self._rows.get(pair, ()), self._expired.get(pair, ())))
        self._before.clear()
        if self._traces:
            self._rows.clear()
            self._expired.clear()
        return changes

    def _label(self, pair: int, count: int) -> str:
        """The label of a pair with so many events: of its band, or of its latest event where it is in none."""
        place = bisect_right(self._bands.bounds, count)
        return self._bands.labels[place - 1] if place else self._latest.get(pair, NO_LABEL)


class _Waiting:
    """Events that will expire, first in, first out, as plain numbers."""

    def __init__(self) -> None:
        self._times = array('q')
        self._rows = array('Q')
        self._pairs = array('Q')
        self._head = 0

    def push(self, time: int, row: int, pair: int) -> None:
        self._times.append(time)
        self._rows.append(row)
        self._pairs.append(pair)

    def first_time(self) -> float:
        return self._times[self._head] if self._head < len(self._times) else math.inf

    def take_first(self) -> List[Tuple[int, int]]:
        """Takes out all events of the first time, each as its row and its pair."""
        first = end = self._head
        time = self._times[first]
        while end < len(self._times) and self._times[end] == time:
            end += 1
        events = list(zip(self._rows[first:end], self._pairs[first:end]))
        self._head = end
        if end > 1024 and 2 * end > len(self._times):
            self._drop_taken()
        return events

    def _drop_taken(self) -> None:
        for column in (self._times, self._rows, self._pairs):
            del column[: self._head]
        self._head = 0
