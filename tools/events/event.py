"""An event, and the form of a label."""

from __future__ import annotations

import re
from typing import Tuple

# Its time in microseconds since 1970, its row, the two names, and its label. Events are ordered by time, then by row.
Event = Tuple[int, int, str, str, str]

NO_LABEL = '_'
_LABEL = re.compile(r'[A-Za-z_][A-Za-z0-9_-]{0,31}')


def is_label(text: str) -> bool:
    """Whether the program takes a text for a label."""
    return _LABEL.fullmatch(text) is not None
