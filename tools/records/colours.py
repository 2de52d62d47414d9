"""Colours of labels."""

from __future__ import annotations

from typing import Dict, Iterable, Sequence

from events.event import NO_LABEL

# Light ones, to be written on, and strong ones, for lines; both by Cynthia Brewer (Set3, Dark2).
FILLS = ('#8dd3c7', '#ffffb3', '#bebada', '#fb8072', '#80b1d3', '#fdb462', '#b3de69', '#fccde5')
LINES = ('#1b9e77', '#d95f02', '#7570b3', '#e7298a', '#66a61e', '#e6ab02', '#a6761d', '#1f78b4')
OTHER_FILL = '#d9d9d9'
OTHER_LINE = '#999999'
NO_FILL = '#ffffff'
NO_LINE = '#333333'

FURTHER = 'other labels'
UNLABELLED = 'no label'


class Colours:
    """A colour for each of some labels, in the order of the alphabet; those past the last colour share one."""

    def __init__(self, labels: Iterable[str], colours: Sequence[str], other: str, none: str):
        self._other = other
        self._none = none
        self._colours: Dict[str, str] = dict(zip(sorted(set(labels) - {NO_LABEL}), colours))

    def of(self, label: str) -> str:
        return self._none if label == NO_LABEL else self._colours.get(label, self._other)

    def legend(self, labels: Iterable[str]) -> Dict[str, str]:
        """What each colour that these labels take stands for."""
        shown = dict(self._colours)
        rest = set(labels) - set(shown)
        if rest - {NO_LABEL}:
            shown[FURTHER] = self._other
        if NO_LABEL in rest:
            shown[UNLABELLED] = self._none
        return shown
