"""Jobs, and what their updates leave of some vertices."""

from __future__ import annotations

from typing import Dict, Iterable, List, NamedTuple, Set, Tuple

from common.ending import REFUSED, Stop, whole_number
from events.event import NO_LABEL

Edge = Tuple[int, int]

_HEADER = ('mode', 'size', 'filter', 'match', 'begin')
# How many ids and labels may stand after the verb of an update.
_FORMS = {'+v': (1, (0, 1)), '-v': (1, (0,)), '~v': (1, (1,)), '+e': (2, (0, 1)), '-e': (2, (0,)), '~e': (2, (1,))}


class Update(NamedTuple):
    """An update: its verb, one id or two in ascending order, and its label."""

    verb: str
    ids: Tuple[int, ...]
    label: str


class Part(NamedTuple):
    """A part of a graph: labels of vertices, and of edges by their ends, the lower first."""

    vertices: Dict[int, str]
    edges: Dict[Edge, str]


def part_at(lines: Iterable[str], timestamp: int, wanted: Set[int], where: str) -> Part:
    """The wanted vertices and the edges between them, as a job has them after so many updates.

    Memory: that part alone. Lines are only looked at as far as the timestamp.
    """
    part = Part({}, {})
    count = 0
    for update in _updates(lines, where):
        if count == timestamp:
            break
        count += 1
        if wanted.issuperset(update.ids):
            _apply(part, update)
    if count < timestamp:
        raise Stop(REFUSED, f'{where}: there are {count} updates, and no timestamp {timestamp}')
    return part


def _apply(part: Part, update: Update) -> None:
    if update.verb == '-v':
        _remove(part, update.ids[0])
    elif update.verb == '-e':
        part.edges.pop(update.ids, None)
    elif len(update.ids) == 1:
        part.vertices[update.ids[0]] = update.label
    else:
        part.edges[update.ids] = update.label


def _remove(part: Part, vertex: int) -> None:
    part.vertices.pop(vertex, None)
    for edge in [edge for edge in part.edges if vertex in edge]:
        del part.edges[edge]


def _updates(lines: Iterable[str], where: str) -> Iterable[Update]:
    """The updates after the header."""
    awaited = list(_HEADER)
    for number, line in enumerate(lines, 1):
        words = line.split()
        if not words or words[0].startswith('#'):
            continue
        if awaited:
            if words[0] != awaited.pop(0):
                raise Stop(REFUSED, f'{where}: line {number}: it is not the awaited line of a header')
        elif words != ['commit']:
            yield _update(words, f'{where}: line {number}')


def _update(words: List[str], where: str) -> Update:
    verb, *rest = words
    ids, labels = _FORMS.get(verb, (0, ()))
    if len(rest) - ids not in labels:
        raise Stop(REFUSED, f'{where}: it is no update')
    try:
        numbers = tuple(sorted(whole_number(word) for word in rest[:ids]))
    except ValueError as error:
        raise Stop(REFUSED, f'{where}: {error}') from None
    return Update(verb, numbers, rest[ids] if len(rest) > ids else NO_LABEL)
