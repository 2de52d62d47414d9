"""Lines of records, and the pieces that they leave."""

from __future__ import annotations

from typing import Iterable, Iterator, List, NamedTuple, Optional, Set, Tuple, Union

from common.ending import REFUSED, Stop, whole_number

# A vertex, or an edge by its ends.
Member = Union[int, Tuple[int, int]]
Piece = Tuple[Member, ...]

NEW = 'NEW'
REM = 'REM'
DONE = 'DONE'

# The first line of records whose DONE lines say how many pieces stand.
HEAD = ['records', '2']


class Record(NamedTuple):
    """A line of records: NEW and REM have a piece, DONE has none."""

    verb: str
    timestamp: int
    piece: Piece


def read_records(lines: Iterable[str], where: str) -> Iterator[Record]:
    """The records of lines; empty ones and those that begin with '#' say nothing.

    Where the first other line is 'records 2', each DONE has to say how many pieces stand, and else none may.
    Timestamps have to begin with 1 and to ascend one by one, each up to its DONE.
    """
    timestamp = 1
    counted: Optional[bool] = None
    for number, line in enumerate(lines, 1):
        words = line.split()
        if not words or words[0].startswith('#'):
            continue
        if counted is None:
            counted = words == HEAD
            if counted:
                continue
        record = _record(words, counted)
        if record is None:
            raise Stop(REFUSED, f'{where}: line {number}: it is no record')
        if record.timestamp != timestamp:
            raise Stop(REFUSED, f'{where}: line {number}: the timestamp is not {timestamp}')
        timestamp += record.verb == DONE
        yield record


def _record(words: List[str], counted: bool) -> Optional[Record]:
    verb, *rest = words
    try:
        if verb == DONE and len(rest) == 1 + counted:
            timestamp, *_count = (whole_number(word) for word in rest)
            return Record(verb, timestamp, ())
        if verb in (NEW, REM) and len(rest) > 1:
            return Record(verb, whole_number(rest[0]), tuple(_member(word) for word in rest[1:]))
        return None
    except ValueError:
        return None


def _member(word: str) -> Member:
    if '-' not in word:
        return whole_number(word)
    one, other = word.split('-')
    return whole_number(one), whole_number(other)


def vertices_of(piece: Piece) -> List[int]:
    """The vertices of a piece, or the ends of its edges, ascending."""
    return sorted({vertex for member in _ends_of_members(piece) for vertex in member})


class Standing(NamedTuple):
    """The pieces that stand at a timestamp, ascending."""

    timestamp: int
    pieces: List[Piece]


def standing_at(records: Iterable[Record], timestamp: Optional[int], where: str) -> Standing:
    """The pieces at a timestamp, or at the last DONE. Memory: the pieces that stand."""
    pieces: Set[Piece] = set()
    last = 0
    pending: List[Record] = []
    if timestamp == 0:
        return Standing(0, [])
    for record in records:
        if record.verb != DONE:
            pending.append(record)
            continue
        for verb, _, piece in pending:
            (pieces.add if verb == NEW else pieces.discard)(piece)
        pending.clear()
        last = record.timestamp
        if last == timestamp:
            break
    if timestamp is not None and last != timestamp:
        raise Stop(REFUSED, f'{where}: DONE {timestamp} is not there; the last is DONE {last}')
    return Standing(last, sorted(pieces, key=_ends_of_members))


def _ends_of_members(piece: Piece) -> List[Tuple[int, ...]]:
    """A key by which pieces of either mode ascend."""
    return [member if isinstance(member, tuple) else (member,) for member in piece]
