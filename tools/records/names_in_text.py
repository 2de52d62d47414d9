"""Names as they stand among others in a line of text."""

from __future__ import annotations

import re

from common.maps import Names
from records.record_lines import Member, Piece

# What would be taken for more than one name, or for no name.
_UNCLEAR = re.compile(r'^\s|\s$|^$|[,"]|--')
_CONTROL = re.compile('[\x00-\x1f\x7f-\x9f\u2028\u2029]')


def plain_name(name: str) -> str:
    """A name as it stands, or quoted as in CSV where it couldn't be told from what is around it.

    What would end or change the line, as an LF, is shown as a mark.
    """
    shown = _CONTROL.sub('\ufffd', name)
    return '"' + shown.replace('"', '""') + '"' if _UNCLEAR.search(shown) else shown


def member_text(member: Member, names: Names) -> str:
    """A vertex by its name, an edge by the names of its ends."""
    if isinstance(member, tuple):
        return ' -- '.join(plain_name(names.of(vertex)) for vertex in member)
    return plain_name(names.of(member))


def piece_text(piece: Piece, names: Names) -> str:
    return ', '.join(member_text(member, names) for member in piece)
