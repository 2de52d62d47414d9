"""Made tables of events, and a plain recount of the graph that they leave at any moment."""

from __future__ import annotations

import random
from dataclasses import dataclass
from typing import Dict, FrozenSet, List, NamedTuple, Optional, Tuple

from tests.running import Graph, Streamed

NAMES = ['alice', 'bob', 'shop 17', 'Emil "the Clerk"', 'Roth, Zoë', 'fay', 'g']
KINDS = ['wire', 'cash', '']
BANDS = {'few': 2, 'some': 3, 'many': 5}


class Event(NamedTuple):
    time: int
    source: str
    target: str
    kind: str


@dataclass(frozen=True)
class Table:
    """A made table, and how tools/stream is to read it."""

    events: Tuple[Event, ...]
    keep: Optional[int]
    forgets: bool
    has_kinds: bool
    has_bands: bool

    @property
    def text(self) -> str:
        rows = [f'{e.time},{_cell(e.source)},{_cell(e.target)},{e.kind}\n' for e in self.events]
        return ''.join(['time,from,to,kind\n', *rows])

    @property
    def words(self) -> List[str]:
        words = ['--keep', f'{self.keep}s'] if self.keep else []
        words += ['--forget'] * self.forgets + ['--label', 'kind'] * self.has_kinds
        return words + ['--bands', ','.join(f'{label}:{bound}' for label, bound in BANDS.items())] * self.has_bands

    def moments(self) -> List[int]:
        """The times at which something may change, up to the last event."""
        times = {event.time for event in self.events}
        expiries = {time + self.keep for time in times} if self.keep else set()
        return sorted(time for time in times | expiries if time <= max(times))

    def vertices_at(self, moment: int) -> FrozenSet[str]:
        """The names that are there."""
        named = self._live(moment) if self.forgets else [event for event in self._joins() if event.time <= moment]
        return frozenset(name for event in named for name in (event.source, event.target))

    def edges_at(self, moment: int) -> Dict[FrozenSet[str], str]:
        """The labels of the pairs that have live events."""
        by_pair: Dict[FrozenSet[str], List[Event]] = {}
        for event in self._live(moment):
            by_pair.setdefault(frozenset((event.source, event.target)), []).append(event)
        return {pair: self._label(events) for pair, events in by_pair.items()}

    def _live(self, moment: int) -> List[Event]:
        return [event for event in self._joins()
                if event.time <= moment and (self.keep is None or moment < event.time + self.keep)]

    def _joins(self) -> List[Event]:
        return [event for event in self.events if event.source != event.target]

    def _label(self, events: List[Event]) -> str:
        bands = [label for label, bound in BANDS.items() if bound <= len(events)]
        if self.has_bands and bands:
            return bands[-1]
        return self.has_kinds and events[-1].kind or '_'


def made_table(seed: int) -> Table:
    """A table of some sixty events, at times that often meet one another and the expiries."""
    draw = random.Random(seed)
    time = 0
    events = []
    for _ in range(60):
        time += draw.choice((0, 0, 1, 1, 2, 9))
        events.append(Event(time, draw.choice(NAMES), draw.choice(NAMES), draw.choice(KINDS)))
    keep = draw.choice((None, 1, 3, 10, 25))
    return Table(tuple(events), keep, draw.random() < 0.5, draw.random() < 0.5, draw.random() < 0.5)


def named(graph: Graph, made: Streamed) -> Tuple[FrozenSet[str], Dict[FrozenSet[str], str]]:
    """The vertices and edges of a graph by names."""
    names = {int(vertex): name for vertex, name in made.ids}
    edges = {frozenset(names[end] for end in edge): label for edge, label in graph.edges.items()}
    return frozenset(names[vertex] for vertex in graph.vertices), edges


def _cell(name: str) -> str:
    return '"' + name.replace('"', '""') + '"'
