"""The two maps that lead from a job back to its table, as CSV.

The ids:  id,name                      in the order in which ids were given
The map:  timestamp,time,rows,expired  a line a timestamp; rows and expired are row numbers, parted by blanks
"""

from __future__ import annotations

import csv
from typing import Callable, Container, Dict, NamedTuple, Optional, Sequence, TextIO, Tuple

from common.ending import REFUSED, Stop, lines_of, whole_number

IDS_TITLES = ['id', 'name']
MAP_TITLES = ['timestamp', 'time', 'rows', 'expired']


class Origin(NamedTuple):
    """What made a timestamp: a time, the rows that came at it, and the rows that expired."""

    time: str
    rows: str
    expired: str


class IdsWriter:
    """Writes which name an id has."""

    def __init__(self, file: TextIO):
        self._rows = csv.writer(file, lineterminator='\n')
        self._rows.writerow(IDS_TITLES)

    def write(self, vertex: int, name: str) -> None:
        self._rows.writerow((vertex, name))


class MapWriter:
    """Writes what made each timestamp, with times as `time_text` writes them."""

    def __init__(self, file: TextIO, time_text: Callable[[int], str]):
        self._file = file
        self._time_text = time_text
        file.write(','.join(MAP_TITLES) + '\n')

    def write(self, first: int, time: int, origins: Sequence[Tuple[Sequence[int], Sequence[int]]]) -> None:
        """The timestamps of a moment, from the first one on: for each the rows that came, and that expired."""
        text = self._time_text(time)
        lines = [
            f'{timestamp},{text},{_numbers(rows)},{_numbers(expired)}\n'
            for timestamp, (rows, expired) in enumerate(origins, first)
        ]
        self._file.write(''.join(lines))


def _numbers(rows: Sequence[int]) -> str:
    return str(rows[0]) if len(rows) == 1 else ' '.join(map(str, rows))


class Names:
    """Names by ids; of those alone that are wanted, where that is said. Without a file an id is its own name."""

    def __init__(self, path: Optional[str], wanted: Optional[Container[int]] = None):
        self._path = path
        self._names: Dict[int, str] = {}
        if path is None:
            return
        for number, (vertex, name) in _rows(path, IDS_TITLES):
            vertex = _number(path, number, vertex)
            if wanted is None or vertex in wanted:
                self._names[vertex] = name

    def of(self, vertex: int) -> str:
        if self._path is None:
            return str(vertex)
        if vertex not in self._names:
            raise Stop(REFUSED, f'{self._path}: id {vertex} has no name')
        return self._names[vertex]


class Origins:
    """What made each timestamp, read in step with timestamps that ascend."""

    def __init__(self, path: str):
        self._path = path
        self._rows = _rows(path, MAP_TITLES)
        self._last = 0
        self._origin: Optional[Origin] = None

    def of(self, timestamp: int) -> Origin:
        while self._last < timestamp:
            number, row = next(self._rows, (0, None))
            if row is None:
                raise Stop(REFUSED, f'{self._path}: timestamp {timestamp} is not there')
            self._last = _number(self._path, number, row[0])
            self._origin = Origin(*row[1:])
        if self._origin is None or self._last != timestamp:
            raise Stop(REFUSED, f'{self._path}: timestamp {timestamp} is not in its place')
        return self._origin


def _rows(path: str, titles: Sequence[str]):
    """The rows of a map after its first one, each with its number."""
    reader = csv.reader(lines_of(path), strict=True)
    try:
        for number, row in enumerate(reader, 1):
            if number == 1 and row != titles:
                raise Stop(REFUSED, f'{path}: row 1: it is not {",".join(titles)}')
            if len(row) != len(titles):
                raise Stop(REFUSED, f'{path}: row {number}: it has {len(row)} columns, not {len(titles)}')
            if number > 1:
                yield number, row
    except csv.Error as error:
        raise Stop(REFUSED, f'{path}: line {reader.line_num}: {error}') from error


def _number(path: str, row: int, text: str) -> int:
    try:
        return whole_number(text)
    except ValueError as error:
        raise Stop(REFUSED, f'{path}: row {row}: {error}') from error
