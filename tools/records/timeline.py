"""How many pieces came, went and stood over the timestamps, as an SVG."""

from __future__ import annotations

import html
from typing import Iterator, List, NamedTuple, Optional

from common.maps import Origins
from records.record_lines import DONE, NEW, Record

# Timestamps are gathered in steps, of which there are at most so many: an even number.
MOST_STEPS = 400

CAME, WENT, STOOD, GREY = '#1b9e77', '#d95f02', '#1f78b4', '#bbbbbb'

# The picture in pixels: an upper chart of what stood, and a lower one of what came and went.
WIDTH, HEIGHT = 900, 470
LEFT, RIGHT = 70, 830
UPPER_TOP, UPPER_BOTTOM = 70, 240
LOWER_TOP, LOWER_BOTTOM = 280, 410


class Step(NamedTuple):
    """Some timestamps that follow one another: what came and went in them, and what stood after the last."""

    came: int
    went: int
    stood: int


class Timeline:
    """Counts of pieces, over steps of `span` timestamps each, of which the last may have fewer.

    Where there would be too many steps, two at a time become one, so memory doesn't grow with the records.
    """

    def __init__(self) -> None:
        self.steps: List[Step] = []
        self.span = 1
        self.last = 0
        self._came = 0
        self._went = 0
        self._stood = 0

    def take(self, record: Record) -> None:
        """Counts a record; those after the last DONE don't show."""
        if record.verb == DONE:
            self._close()
        elif record.verb == NEW:
            self._came += 1
        else:
            self._went += 1

    def _close(self) -> None:
        self._stood += self._came - self._went
        step = Step(self._came, self._went, self._stood)
        self._came = self._went = 0
        if self.last % self.span:
            self.steps[-1] = joined(self.steps[-1], step)
        else:
            if len(self.steps) == MOST_STEPS:
                self._halve()
            self.steps.append(step)
        self.last += 1

    def _halve(self) -> None:
        self.steps = [joined(*self.steps[place : place + 2]) for place in range(0, MOST_STEPS, 2)]
        self.span *= 2


def joined(first: Step, second: Step) -> Step:
    return Step(first.came + second.came, first.went + second.went, second.stood)


def timeline_svg(timeline: Timeline, origins: Optional[Origins]) -> str:
    """The timeline as a whole SVG. With the map the axis has times too."""
    parts = [
        f'<svg xmlns="http://www.w3.org/2000/svg" width="{WIDTH}" height="{HEIGHT}" '
        f'viewBox="0 0 {WIDTH} {HEIGHT}" font-family="Helvetica, Arial, sans-serif" font-size="12">',
        f'<rect width="{WIDTH}" height="{HEIGHT}" fill="#ffffff"/>',
        *_title(timeline),
        *_stood(timeline),
        *_came_and_went(timeline),
        *_axis(timeline, origins),
        '</svg>',
    ]
    return '\n'.join(parts) + '\n'


def _title(timeline: Timeline) -> Iterator[str]:
    came = sum(step.came for step in timeline.steps)
    went = sum(step.went for step in timeline.steps)
    span = f', {timeline.span} to a bar' if timeline.span > 1 else ''
    yield _text(LEFT, 26, f'Pieces over {timeline.last} timestamps{span}', 'start', 16)
    for left, colour, words in (
        (LEFT, STOOD, f'{came - went} stand at the end'),
        (LEFT + 190, CAME, f'{came} came'),
        (LEFT + 330, WENT, f'{went} went'),
    ):
        yield _box(left, 40, 12, 12, colour)
        yield _text(left + 18, 51, words, 'start')


def _stood(timeline: Timeline) -> Iterator[str]:
    highest = max((step.stood for step in timeline.steps), default=0)
    tick = _tick(highest)
    top = max(tick, highest)
    for count in range(0, top + 1, tick):
        yield from _grid_line(_place(count, top, UPPER_BOTTOM, UPPER_TOP), count)
    if timeline.steps:
        yield f'<path d="{_outline(timeline, top)}" fill="{STOOD}" fill-opacity="0.35" stroke="{STOOD}"/>'


def _outline(timeline: Timeline, top: int) -> str:
    """The stair of what stood, down to the axis at both ends."""
    path = [f'M{LEFT} {UPPER_BOTTOM}']
    for place, step in enumerate(timeline.steps):
        path.append(f'V{_place(step.stood, top, UPPER_BOTTOM, UPPER_TOP):.1f}')
        path.append(f'H{_left(timeline, place + 1):.1f}')
    return ' '.join([*path, f'V{UPPER_BOTTOM} Z'])


def _came_and_went(timeline: Timeline) -> Iterator[str]:
    highest = max((max(step.came, step.went) for step in timeline.steps), default=0)
    tick = _tick(highest)
    top = max(tick, highest)
    middle = (LOWER_TOP + LOWER_BOTTOM) / 2
    yield from _grid_line(middle, 0)
    for count in range(tick, top + 1, tick):
        yield from _grid_line(_place(count, top, middle, LOWER_TOP), count)
        yield from _grid_line(_place(count, top, middle, LOWER_BOTTOM), count)
    for place, step in enumerate(timeline.steps):
        left, right = _left(timeline, place), _left(timeline, place + 1)
        width = max(1.0, (right - left) * 0.8)
        for count, end, colour in ((step.came, LOWER_TOP, CAME), (step.went, LOWER_BOTTOM, WENT)):
            if count:
                height = abs(_place(count, top, middle, end) - middle)
                yield _box(left, middle - height if end == LOWER_TOP else middle, width, height, colour)


def _axis(timeline: Timeline, origins: Optional[Origins]) -> Iterator[str]:
    """Some timestamps, each where its step begins."""
    tick = max(_tick(timeline.last, 6), timeline.span)
    for timestamp in [1, *range(tick, timeline.last + 1, tick)] if timeline.last else []:
        if timestamp == 1 and tick == 1:
            continue
        across = _left(timeline, (timestamp - 1) / timeline.span)
        yield f'<path d="M{across:.1f} {LOWER_BOTTOM} v6" stroke="{GREY}"/>'
        yield _text(across, LOWER_BOTTOM + 20, str(timestamp), 'middle')
        if origins:
            yield _text(across, LOWER_BOTTOM + 36, origins.of(timestamp).time, 'middle', 10)


def _left(timeline: Timeline, place: float) -> float:
    """Where a step begins."""
    return LEFT + (RIGHT - LEFT) * place / max(1, len(timeline.steps))


def _place(count: int, top: int, zero: float, end: float) -> float:
    return zero + (end - zero) * count / top


def _tick(highest: int, most: int = 4) -> int:
    """A round distance at which at most so many lines lie up to the highest count."""
    power = 1
    while True:
        for tick in (power, 2 * power, 5 * power):
            if highest <= most * tick:
                return tick
        power *= 10


def _grid_line(height: float, count: int) -> Iterator[str]:
    yield f'<path d="M{LEFT} {height:.1f} H{RIGHT}" stroke="{GREY}" stroke-width="0.5"/>'
    yield _text(LEFT - 8, height + 4, str(count), 'end')


def _box(left: float, top: float, width: float, height: float, colour: str) -> str:
    return f'<rect x="{left:.1f}" y="{top:.1f}" width="{width:.1f}" height="{height:.1f}" fill="{colour}"/>'


def _text(left: float, base: float, words: str, anchor: str, size: int = 12) -> str:
    place = f'x="{left:.1f}" y="{base:.1f}" text-anchor="{anchor}" font-size="{size}"'
    return f'<text {place} fill="#333333">{html.escape(words)}</text>'
