"""Tables of CSV and TSV, row by row, and the events and labels in them.

Rows are counted as a spreadsheet counts them: from 1, the row of titles and empty ones among them.
"""

from __future__ import annotations

import csv
from dataclasses import dataclass
from typing import Dict, Iterator, List, NamedTuple, Optional, Tuple

from common.ending import REFUSED, USAGE, Stop, lines_of
from events.event import NO_LABEL, Event, is_label
from events.ordering import by_time, unless_backwards
from events.times import Form, form_of, read_time, time_text


class BadRow(Exception):
    """A row out of form: its number, the column's title or number, and what is wrong."""

    def __init__(self, row: int, column: Optional[str], wrong: str):
        super().__init__(f'row {row}{f", column {column}" if column else ""}: {wrong}')


class BadRows:
    """What happens with rows out of form: the first one ends the script, or all are skipped and counted."""

    def __init__(self, skips: bool):
        self._skips = skips
        self._first = ''
        self._count = 0

    def refuse(self, path: str, fault: BadRow) -> None:
        if not self._skips:
            raise Stop(REFUSED, f'{path}: {fault}')
        self._first = self._first or f'{path}: {fault}'
        self._count += 1

    def summary(self) -> str:
        """How many were skipped, in words; nothing where none was."""
        return f'rows out of form that were skipped: {self._count}; the first: {self._first}' if self._count else ''


class Column(NamedTuple):
    """Where a column stands, from 0, and how it is called in a message."""

    index: int
    title: str

    def cell(self, row: int, cells: List[str]) -> str:
        """What stands there, which must be something."""
        try:
            cell = cells[self.index]
        except IndexError:
            raise BadRow(row, self.title, f'the row has {len(cells)} columns') from None
        if not cell:
            raise BadRow(row, self.title, 'it is empty')
        return cell


class Table:
    """The rows of a file or of standard input. Without a separator it is a tab for a .tsv file, else a comma."""

    def __init__(self, path: Optional[str], bad_rows: BadRows, separator: Optional[str] = None, titled: bool = True):
        self.path = path or 'standard input'
        self._bad_rows = bad_rows
        if separator is None:
            separator = '\t' if self.path.endswith('.tsv') else ','
        self._reader = csv.reader(lines_of(path), delimiter=separator, strict=True)
        self.titles = self._first_row() if titled else None

    def _first_row(self) -> List[str]:
        """The titles; none where the table is empty."""
        try:
            return next(self._reader, [])
        except csv.Error as error:
            raise Stop(REFUSED, f'{self.path}: row 1: {error}') from error

    def column(self, wanted: str) -> Column:
        """The column of a title, or of a number from 1. In an empty table there is no title to look for."""
        if wanted.isascii() and wanted.isdigit() and int(wanted) > 0:
            index = int(wanted) - 1
            titled = self.titles is not None and index < len(self.titles)
            return Column(index, self.titles[index] if titled else wanted)
        if self.titles is None:
            raise Stop(USAGE, f'without titles a column is a number, not {wanted!r}')
        if self.titles and self.titles.count(wanted) != 1:
            count = 'no column' if wanted not in self.titles else 'several columns'
            raise Stop(REFUSED, f'{self.path}: row 1: {count} {wanted!r} among {", ".join(self.titles)}')
        return Column(self.titles.index(wanted) if self.titles else 0, wanted)

    def refuse(self, fault: BadRow) -> None:
        """Ends the script, or counts the row."""
        self._bad_rows.refuse(self.path, fault)

    def rows(self) -> Iterator[Tuple[int, List[str]]]:
        """Each row that has something in it, with its number."""
        row = 1 if self.titles is not None else 0
        while True:
            try:
                for cells in self._reader:
                    row += 1
                    if cells:
                        yield row, cells
                return
            except csv.Error as error:
                row += 1
                self.refuse(BadRow(row, None, str(error)))


@dataclass
class EventTable:
    """A table of events, and which of its columns say what."""

    table: Table
    time: Column
    source: Column
    target: Column
    label: Optional[Column]
    form: Optional[Form] = None

    def events(self) -> Iterator[Event]:
        """The events in the order of the rows. The first one's time says in which form times are written."""
        time_at, source_at, target_at = self.time.index, self.source.index, self.target.index
        text, time, label = '', 0, NO_LABEL
        for row, cells in self.table.rows():
            try:
                if cells[time_at] != text or not text:
                    time = read_time(cells[time_at].strip())
                    text = cells[time_at]
                source, target = cells[source_at], cells[target_at]
                if not source or not target:
                    raise ValueError
                if self.label:
                    label = label_in(self.label, row, cells)
            except (IndexError, ValueError, BadRow):
                self.table.refuse(self._fault(row, cells))
                continue
            if self.form is None:
                self.form = form_of(text.strip())
            yield time, row, source, target, label

    def events_by_time(self, sorts: bool) -> Iterator[Event]:
        """The events in the order of their times: sorted, or as they come up to one that goes backwards."""
        return by_time(self.events()) if sorts else unless_backwards(self.events(), self._tell_backwards)

    def time_text(self, time: int) -> str:
        """A time in the form of the table."""
        return time_text(time, self.form or Form.TIME)

    def _tell_backwards(self, event: Event, last: Event) -> str:
        times = f'{self.time_text(event[0])} is before {self.time_text(last[0])} of row {last[1]}'
        return f'{self.table.path}: row {event[1]}, column {self.time.title}: {times}; --sort takes rows in any order'

    def _fault(self, row: int, cells: List[str]) -> BadRow:
        """What is wrong in a row out of form, in the first of the columns where something is."""
        try:
            read_time(self.time.cell(row, cells).strip())
            self.source.cell(row, cells)
            self.target.cell(row, cells)
            label_in(self.label, row, cells)
        except ValueError as error:
            return BadRow(row, self.time.title, str(error))
        except BadRow as fault:
            return fault
        raise AssertionError(f'row {row} is in form')


def label_in(column: Column, row: int, cells: List[str]) -> str:
    """The label in a column; an empty cell has none."""
    text = cells[column.index].strip() if column.index < len(cells) else column.cell(row, cells)
    if not text:
        return NO_LABEL
    if not is_label(text):
        raise BadRow(row, column.title, f'{text!r} is no label')
    return text


def read_vertex_labels(table: Table, name: Column, label: Column) -> Dict[str, str]:
    """The labels of a second table by names. A name that comes again has to have the same label."""
    labels: Dict[str, str] = {}
    for row, cells in table.rows():
        try:
            vertex = name.cell(row, cells)
            text = label_in(label, row, cells)
            if labels.setdefault(vertex, text) != text:
                raise BadRow(row, label.title, f'{vertex!r} has the label {labels[vertex]} already')
        except BadRow as fault:
            table.refuse(fault)
    return labels
