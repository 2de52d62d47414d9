"""Names of vertices, and their ids."""

from __future__ import annotations

from typing import Dict, Mapping, Optional

from common.ending import LIMIT, Stop
from common.maps import IdsWriter
from events.event import NO_LABEL

MOST_IDS = 2**32


class Vertices:
    """The ids of names, from 0 in the order in which the names come.

    An id is given once: a name that was forgotten and comes again gets another one.
    """

    def __init__(self, labels: Mapping[str, str], ids: Optional[IdsWriter], first: int = 0):
        self.ids: Dict[str, int] = {}
        self._labels = labels
        self._writer = ids
        self._next = first

    def label(self, name: str) -> str:
        return self._labels.get(name, NO_LABEL)

    def check_room(self, new: int, where: str) -> None:
        """Stops where there aren't so many new ids left."""
        if self._next + new > MOST_IDS:
            raise Stop(LIMIT, f'{where}: one vertex too many: there are {MOST_IDS:,} ids')

    def give(self, name: str) -> int:
        """A new id for a name that has none."""
        vertex = self._next
        self._next += 1
        self.ids[name] = vertex
        if self._writer:
            self._writer.write(vertex, name)
        return vertex

    def forget(self, name: str) -> None:
        """Takes the id from a name."""
        del self.ids[name]
