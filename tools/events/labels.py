"""The labels of a job, and how many it may have."""

from __future__ import annotations

import re
from typing import Iterable

from common.ending import LIMIT, Stop
from events.event import NO_LABEL

MOST_LABELS = 4_096

_LABEL = r'[ \t]*([A-Za-z_][A-Za-z0-9_-]*)[ \t]*'
_TERM = re.compile(rf'\b(?:vertices|edges|joins)[ \t]*\({_LABEL}(?:,{_LABEL})?\)')


class Labels:
    """The different labels so far. The program counts those of its header too, and '_' always."""

    def __init__(self, header: Iterable[str] = ()):
        self.known = {NO_LABEL}
        for line in header:
            if not line.lstrip().startswith('#'):
                self.known.update(label for term in _TERM.findall(line) for label in term if label)

    def note(self, label: str, where: str) -> None:
        """Counts a label, or stops where it is one too many."""
        if label in self.known:
            return
        if len(self.known) >= MOST_LABELS:
            raise Stop(LIMIT, f"{where}: {label!r} is one label too many: a job has {MOST_LABELS:,}, '_' among them")
        self.known.add(label)
