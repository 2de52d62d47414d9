"""Runs the scripts and the program as a user does, and reads what they write."""

from __future__ import annotations

import csv
import io
import subprocess
import sys
import tempfile
import unittest
from pathlib import Path
from typing import Dict, Iterator, List, NamedTuple, Set, Tuple

TOOLS = Path(__file__).resolve().parent.parent
TOP = TOOLS.parent
EXAMPLES = TOP / 'examples' / 'events'
PROGRAM = TOP / 'crates' / 'tesseract' / 'out' / 'tesseract'

needs_program = unittest.skipUnless(PROGRAM.exists(), 'the program is not built')


class Ran(NamedTuple):
    """How a run ended: its status, and what it wrote."""

    status: int
    output: str
    errors: str


def run(script: str, *words: str, text: str = '', folder: Path = TOP) -> Ran:
    """Runs a script of tools/ with a text on standard input, to the byte."""
    return _run([sys.executable, str(TOOLS / script), *words], text, folder)


def mine(job: str) -> Ran:
    return _run([str(PROGRAM), 'mine'], job, TOP)


def fold(records: str, timestamp: int) -> Ran:
    return _run([str(PROGRAM), 'fold', '--at', str(timestamp)], records, TOP)


def _run(command: List[str], text: str, folder: Path) -> Ran:
    bytes_in = text.encode('utf-8', 'surrogateescape')
    done = subprocess.run(command, input=bytes_in, capture_output=True, cwd=folder)
    output, errors = (part.decode('utf-8', 'surrogateescape') for part in (done.stdout, done.stderr))
    return Ran(done.returncode, output, errors)


class Streamed(NamedTuple):
    """What tools/stream made of a table: the job, and the rows of both maps without their titles."""

    ran: Ran
    ids: List[List[str]]
    map: List[List[str]]

    @property
    def job(self) -> str:
        return self.ran.output


def stream(table: str, *words: str) -> Streamed:
    """Runs tools/stream with both maps."""
    with tempfile.TemporaryDirectory() as folder:
        ids, origins = Path(folder) / 'ids.csv', Path(folder) / 'map.csv'
        ran = run('stream', *words, '--ids', str(ids), '--map', str(origins), text=table)
        return Streamed(ran, _rows(ids)[1:], _rows(origins)[1:])


def _rows(path: Path) -> List[List[str]]:
    text = path.read_text(encoding='utf-8', errors='surrogateescape') if path.exists() else ''
    return list(csv.reader(io.StringIO(text)))


class Graph:
    """A simple graph by its rules: an update that the program would refuse is a KeyError here."""

    def __init__(self) -> None:
        self.vertices: Dict[int, str] = {}
        self.edges: Dict[Tuple[int, int], str] = {}

    def take(self, line: str) -> None:
        verb, *rest = line.split()
        ids = tuple(map(int, rest[: 2 if verb[1] == 'e' else 1]))
        label = rest[len(ids)] if len(rest) > len(ids) else '_'
        if len(ids) == 2:
            self._take_edge(verb[0], (min(ids), max(ids)), label)
        else:
            self._take_vertex(verb[0], ids[0], label)

    def _take_vertex(self, sign: str, vertex: int, label: str) -> None:
        _unless((vertex in self.vertices) == (sign == '+'), vertex)
        if sign == '-':
            _unless(any(vertex in edge for edge in self.edges), vertex)
            del self.vertices[vertex]
        else:
            self.vertices[vertex] = label

    def _take_edge(self, sign: str, edge: Tuple[int, int], label: str) -> None:
        _unless(edge[0] == edge[1] or not self.vertices.keys() >= set(edge), edge)
        _unless((edge in self.edges) == (sign == '+'), edge)
        if sign == '-':
            del self.edges[edge]
        else:
            _unless(self.edges.get(edge) == label, edge)
            self.edges[edge] = label


def _unless(refused: bool, what: object) -> None:
    if refused:
        raise KeyError(what)


def moments(updates: str) -> Iterator[Tuple[int, Graph]]:
    """The graph at the end of each moment, with the last timestamp of it. It is one graph that changes."""
    graph = Graph()
    timestamp = 0
    for line in updates.splitlines():
        if line == 'commit':
            yield timestamp, graph
        else:
            graph.take(line)
            timestamp += 1


def labels_of(job: str) -> Set[str]:
    """The labels of the edges in a job."""
    words = [line.split() for line in job.splitlines()]
    return {line[3] if len(line) > 3 else '_' for line in words if line[0] in ('+e', '~e')}
