"""The header of a job: the lines of a mining program, up to 'begin'."""

from __future__ import annotations

from typing import Iterable, List, Optional

from common.ending import USAGE, Stop, lines_of


def header_of(path: Optional[str], program: Optional[str]) -> List[str]:
    """The header in a file, or in an option with ';' between its lines; 'begin' is added where it is missing.

    Without either there is none.
    """
    if path is not None:
        return _ended((line.rstrip('\r\n') for line in lines_of(path)), path)
    if program is not None:
        return _ended((part.strip() for part in program.split(';')), '--program')
    return []


def _ended(lines: Iterable[str], where: str) -> List[str]:
    header: List[str] = []
    begun = False
    for line in lines:
        words = line.split()
        if begun and words and not words[0].startswith('#'):
            raise Stop(USAGE, f'{where}: {line!r} stands after begin')
        begun = begun or words == ['begin']
        if words:
            header.append(line)
    return header if begun else [*header, 'begin']
