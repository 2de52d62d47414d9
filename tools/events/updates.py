"""Updates of a simple graph: what changes from one moment to the next in the graph of the live events.

A pair has one update at most for a moment, whatever happens to it then.
"""

from __future__ import annotations

from typing import Dict, Iterable, List, Optional, Sequence, TextIO, Tuple

from common.ending import Stop
from common.maps import MapWriter
from events.event import NO_LABEL, Event
from events.labels import Labels
from events.live import ID_BITS, ID_MASK, Change, LiveGraph, ends_of
from events.vertices import Vertices


# An update line, the rows that came and made it, and those that expired and made it.
Update = Tuple[str, Sequence[int], Sequence[int]]


class UpdateWriter:
    """Writes update lines, and for each of them, which takes the next timestamp, what made it.

    With `flushes` nothing is held back once its moment is over.
    """

    def __init__(self, output: TextIO, origins: Optional[MapWriter], flushes: bool):
        self._output = output
        self._origins = origins
        self._flushes = flushes
        self._timestamp = 0

    def write(self, time: int, updates: List[Update]) -> None:
        """Writes all updates of a moment, and that it ends there."""
        self._output.write('\n'.join([line for line, _, _ in updates]) + '\ncommit\n')
        if self._origins:
            self._origins.write(self._timestamp + 1, time, [(rows, expired) for _, rows, expired in updates])
        self._timestamp += len(updates)
        if self._flushes:
            self._output.flush()


class Stream:
    """Makes updates from events, which come in the order of their times.

    With `forgets` a vertex goes with its last edge; otherwise it stays.
    """

    def __init__(self, live: LiveGraph, vertices: Vertices, labels: Labels, writer: UpdateWriter, forgets: bool):
        self._live = live
        self._vertices = vertices
        self._labels = labels
        self._writer = writer
        self._degrees = _Degrees() if forgets else None
        self._now: Optional[int] = None
        self._newcomers: List[Update] = []

    def take_all(self, events: Iterable[Event]) -> int:
        """Writes the updates of all events; where they stop, of those before. What is live at the end stays.

        Gives how many events were dropped, since they join a name to itself.
        """
        dropped = 0
        ids, labels = self._vertices.ids, self._labels.known
        try:
            for event in events:
                time, row, source, target, label = event
                if time != self._now:
                    self._pass_to(time)
                if source == target:
                    dropped += 1
                    continue
                if source not in ids or target not in ids or label not in labels:
                    self._bring(event)
                self._live.add(ids[source], ids[target], time, row, label)
        except Stop:
            self._end_moment()
            raise
        self._end_moment()
        return dropped

    def _bring(self, event: Event) -> None:
        """Brings what is new in an event: names, or a label. Where that passes a limit nothing changes."""
        _, row, source, target, label = event
        new = [name for name in (source, target) if name not in self._vertices.ids]
        self._vertices.check_room(len(new), f'row {row}')
        self._labels.note(label, f'row {row}')
        for name in new:
            self._labels.note(self._vertices.label(name), f'row {row}, {name!r}')
        for name in new:
            vertex = self._vertices.give(name)
            self._newcomers.append(_vertex_comes(vertex, self._vertices.label(name), row))
            if self._degrees:
                self._degrees.add(vertex, name)

    def _pass_to(self, time: int) -> None:
        """Ends the moment that is now, and those up to a later one at which events expire."""
        while self._live.next_expiry <= time:
            self._end_moment()
            self._now = self._live.next_expiry
            self._live.expire()
        if time != self._now:
            self._end_moment()
            self._now = time

    def _end_moment(self) -> None:
        """Writes how the graph differs from that before the moment: first what goes, then what comes."""
        changes = self._live.take_changes()
        if not changes:
            return
        goes: List[Update] = []
        comes, self._newcomers = self._newcomers, []
        for change in changes:
            if change[2] is None:
                goes.append(_edge_goes(change))
            else:
                comes.append(_edge_comes(change))
        if self._degrees:
            goes += self._vertices_go(changes)
        self._writer.write(self._now, goes + comes)

    def _vertices_go(self, changes: List[Change]) -> List[Update]:
        """Removes the vertices whose last edges went."""
        self._degrees.take(changes)
        lonely: Dict[int, List[int]] = {}
        for pair, _, after, _, expired in changes:
            if after is None:
                for vertex in ends_of(pair):
                    if self._degrees.is_lonely(vertex):
                        lonely.setdefault(vertex, []).extend(expired)
        for vertex in lonely:
            self._vertices.forget(self._degrees.remove(vertex))
        return [(f'-v {vertex}', (), sorted(expired)) for vertex, expired in lonely.items()]


def _vertex_comes(vertex: int, label: str, row: int) -> Update:
    return f'+v {vertex}' if label == NO_LABEL else f'+v {vertex} {label}', (row,), ()


def _edge_goes(change: Change) -> Update:
    pair, _, _, rows, expired = change
    return f'-e {pair >> ID_BITS} {pair & ID_MASK}', rows, expired


def _edge_comes(change: Change) -> Update:
    """The edge is added, or gets another label."""
    pair, before, label, rows, expired = change
    if before is not None:
        line = f'~e {pair >> ID_BITS} {pair & ID_MASK} {label}'
    elif label != NO_LABEL:
        line = f'+e {pair >> ID_BITS} {pair & ID_MASK} {label}'
    else:
        line = f'+e {pair >> ID_BITS} {pair & ID_MASK}'
    return line, rows, expired


class _Degrees:
    """The vertices that are there, by name, and how many edges each has."""

    def __init__(self) -> None:
        self._names: Dict[int, str] = {}
        self._degrees: Dict[int, int] = {}

    def add(self, vertex: int, name: str) -> None:
        self._names[vertex] = name
        self._degrees[vertex] = 0

    def take(self, changes: List[Change]) -> None:
        for pair, before, after, _, _ in changes:
            for vertex in ends_of(pair):
                self._degrees[vertex] += (after is not None) - (before is not None)

    def is_lonely(self, vertex: int) -> bool:
        return self._degrees[vertex] == 0

    def remove(self, vertex: int) -> str:
        """Takes out a vertex, and gives its name."""
        del self._degrees[vertex]
        return self._names.pop(vertex)
