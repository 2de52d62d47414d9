"""Events in the order of their times, where they are more than are sorted in memory at a time."""

import random
import unittest
from unittest import mock

from common.ending import REFUSED, Stop
from events.ordering import by_time


def made_events(count):
    draw = random.Random(count)
    return [(draw.randrange(20), row, f'a{row}', '\udcff', '_') for row in range(2, count + 2)]


class Ordering(unittest.TestCase):
    def test_events_of_many_chunks_are_sorted_by_time_and_row(self):
        for count in (0, 1, 6, 7, 8, 14, 100):
            with self.subTest(count), mock.patch('events.ordering.CHUNK', 7):
                self.assertEqual(list(by_time(made_events(count))), sorted(made_events(count)))

    def test_events_before_a_stop_come_before_it(self):
        def stopping():
            yield from made_events(25)
            raise Stop(REFUSED, 'row 27')

        with mock.patch('events.ordering.CHUNK', 7):
            events = by_time(stopping())
            self.assertEqual([next(events) for _ in range(25)], sorted(made_events(25)))
            with self.assertRaisesRegex(Stop, 'row 27'):
                next(events)
