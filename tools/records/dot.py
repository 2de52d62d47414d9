"""Pieces as a graph in Graphviz's language, DOT: each in a frame of its own, and a legend of the labels."""

from __future__ import annotations

import html
import re
from collections import deque
from itertools import combinations
from typing import Dict, Iterator, List, NamedTuple, Sequence

from common.maps import Names
from records.colours import FILLS, LINES, NO_FILL, NO_LINE, OTHER_FILL, OTHER_LINE, Colours
from records.jobs import Edge, Part
from records.record_lines import Piece, vertices_of

_NOT_SHOWN = re.compile('[\x00-\x1f\x7f\ud800-\udfff\ufffe\uffff]')

_STYLE = """\
  graph [labelloc=t, fontname="Helvetica", fontsize=14, style=rounded, color="#bbbbbb", pack=24, packmode=array_u]
  node [shape=box, style="rounded,filled", fontname="Helvetica", fontsize=12, color="#555555", fontcolor="#111111"]
  edge [penwidth=2.5]
"""


class Frame(NamedTuple):
    """A piece as it is drawn: its number from 1, its vertices, and its edges, each from its upper end down."""

    number: int
    vertices: List[int]
    edges: List[Edge]


def frames_of(pieces: Sequence[Piece], part: Part) -> List[Frame]:
    """A piece of edges has these alone, and one of vertices all edges between them."""
    frames = []
    for number, piece in enumerate(pieces, 1):
        vertices = vertices_of(piece)
        if isinstance(piece[0], tuple):
            edges = list(piece)
        else:
            edges = [pair for pair in combinations(vertices, 2) if pair in part.edges]
        frames.append(Frame(number, vertices, _downwards(vertices, edges)))
    return frames


def _downwards(vertices: List[int], edges: List[Edge]) -> List[Edge]:
    """Edges from the end that is nearer to the first vertex, which dot draws higher: so a ring opens."""
    places = {vertices[0]: 0}
    waiting = deque([vertices[0]])
    while waiting:
        vertex = waiting.popleft()
        for one, other in edges:
            if vertex in (one, other):
                neighbour = other if vertex == one else one
                if neighbour not in places:
                    places[neighbour] = len(places)
                    waiting.append(neighbour)
    return [edge if places[edge[0]] < places[edge[1]] else edge[::-1] for edge in edges]


def dot_text(title: str, frames: List[Frame], part: Part, names: Names) -> str:
    """The whole graph. Its lines end with LF."""
    vertex_labels = [part.vertices[vertex] for frame in frames for vertex in frame.vertices]
    edge_labels = [_edge_label(edge, part) for frame in frames for edge in frame.edges]
    fills = Colours(vertex_labels, FILLS, OTHER_FILL, NO_FILL)
    lines = Colours(edge_labels, LINES, OTHER_LINE, NO_LINE)
    text = [f'graph pieces {{\n{_STYLE}  label={_quoted(title)}\n']
    for frame in frames:
        text += _frame_lines(frame, part, names, fills, lines)
    if frames:
        text.append(_legend(len(frames) + 1, fills.legend(vertex_labels), lines.legend(edge_labels)))
    return ''.join([*text, '}\n'])


def _frame_lines(frame: Frame, part: Part, names: Names, fills: Colours, lines: Colours) -> Iterator[str]:
    yield f'  subgraph cluster_{frame.number} {{\n    label={frame.number} sortv={frame.number}\n'
    for vertex in frame.vertices:
        fill = fills.of(part.vertices[vertex])
        yield f'    {_node(frame, vertex)} [label={_quoted(names.of(vertex))}, fillcolor="{fill}"]\n'
    for upper, lower in frame.edges:
        line = lines.of(_edge_label((upper, lower), part))
        yield f'    {_node(frame, upper)} -- {_node(frame, lower)} [color="{line}"]\n'
    yield '  }\n'


def _edge_label(edge: Edge, part: Part) -> str:
    return part.edges[min(edge), max(edge)]


def _node(frame: Frame, vertex: int) -> str:
    """A vertex may stand in several frames."""
    return f'piece_{frame.number}_vertex_{vertex}'


def _legend(place: int, fills: Dict[str, str], lines: Dict[str, str]) -> str:
    rows = ''.join(_legend_row(f'bgcolor="{colour}"', '', label) for label, colour in fills.items())
    rows += ''.join(_legend_row('', f'<font color="{colour}"><b>&#9473;&#9473;</b></font>', label)
                    for label, colour in lines.items())
    table = f'<table border="0" cellborder="0" cellspacing="4">{rows}</table>'
    legend = f'legend [shape=plain, style="", label=<{table}>]'
    return f'  subgraph cluster_legend {{\n    label="labels" sortv={place}\n    {legend}\n  }}\n'


def _legend_row(attributes: str, sample: str, label: str) -> str:
    return f'<tr><td width="28" border="1" {attributes}>{sample}</td><td align="left">{html.escape(label)}</td></tr>'


def _quoted(text: str) -> str:
    """A text as a string of DOT. What an SVG can't have is shown as a mark."""
    shown = _NOT_SHOWN.sub('\ufffd', text)
    return '"' + shown.replace('\\', '\\\\').replace('"', '\\"') + '"'
