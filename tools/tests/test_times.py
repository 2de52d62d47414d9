"""Times and spans."""

import unittest

from events.times import DAY, SECOND, Form, form_of, read_span, read_time, time_text

MARCH_2 = 1_772_409_600 * SECOND  # 2026-03-02, midnight in UTC

READ = {
    '1772409600': MARCH_2,
    '1772409600.5': MARCH_2 + SECOND // 2,
    '0': 0,
    '-1.25': -SECOND - SECOND // 4,
    '2026-03-02': MARCH_2,
    '1970-01-01': 0,
    '1969-12-31': -DAY,
    '2024-02-29': 1_709_164_800 * SECOND,
    '2026-03-02T00:00': MARCH_2,
    '2026-03-02 00:00:01': MARCH_2 + SECOND,
    '2026-03-02T00:00:01Z': MARCH_2 + SECOND,
    '2026-03-02t00:00:01z': MARCH_2 + SECOND,
    '2026-03-02T00:00:00.000001Z': MARCH_2 + 1,
    '2026-03-02T00:00:00.000001999Z': MARCH_2 + 1,
    '2026-03-02T00:00:00,5': MARCH_2 + SECOND // 2,
    '2026-03-02T01:30:00+01:30': MARCH_2,
    '2026-03-02T01:30+0130': MARCH_2,
    '2026-03-01T19:00:00-05': MARCH_2,
}

NO_TIMES = (
    'monday', '2026-3-2', '2026-02-30', '2026-13-01', '0000-01-01', '2026-03-02T', '2026-03-02T24:00',
    '2026-03-02T10', '2026-03-02T10:60', '2026-03-02T10:00:60', '2026-03-02T10:00:00.', '2026-03-02T10:00+24:00',
    '2026-03-02 10:00 pm', '2026-03-02x10:00', '1e9', '+5', '1.', '２０２６-03-02', '12 ',
)

TEXTS = {
    ('2026-03-02', MARCH_2): '2026-03-02',
    ('2026-03-02', MARCH_2 + 90 * SECOND): '2026-03-02T00:01:30Z',
    ('2026-03-02T10:00', MARCH_2): '2026-03-02T00:00:00Z',
    ('2026-03-02T10:00', MARCH_2 + SECOND // 4): '2026-03-02T00:00:00.25Z',
    ('5', MARCH_2): '1772409600',
    ('5', MARCH_2 + 1): '1772409600.000001',
    ('5', -SECOND // 2): '-0.5',
}

SPANS = {'45s': 45 * SECOND, '30m': 1_800 * SECOND, '12h': DAY // 2, '30d': 30 * DAY, '2w': 14 * DAY}
NO_SPANS = ('', '30', 'd', '0d', '-1d', '1.5h', '30 d', '1y', '30D')


class Times(unittest.TestCase):
    def test_times_in_their_three_forms_are_read(self):
        for text, time in READ.items():
            with self.subTest(text):
                self.assertEqual(read_time(text), time)

    def test_what_is_no_time_is_told(self):
        for text in NO_TIMES:
            with self.subTest(text), self.assertRaisesRegex(ValueError, 'is no time'):
                read_time(text)

    def test_times_are_written_in_the_form_of_the_table(self):
        for (first, time), text in TEXTS.items():
            with self.subTest(text):
                self.assertEqual(time_text(time, form_of(first)), text)

    def test_a_time_that_is_written_is_read_back(self):
        for time in READ.values():
            for form in Form:
                self.assertEqual(read_time(time_text(time, form)), time)

    def test_spans_are_read(self):
        for text, span in SPANS.items():
            with self.subTest(text):
                self.assertEqual(read_span(text), span)
        for text in NO_SPANS:
            with self.subTest(text), self.assertRaises(ValueError):
                read_span(text)
