"""What ends tools/stream, and what it says then."""

import tempfile
import unittest
from pathlib import Path
from typing import NamedTuple

from common.ending import LIMIT, READ_FAULT, REFUSED, USAGE, WRITE_FAULT, Stop
from events.vertices import MOST_IDS, Vertices
from tests.running import run

TITLES = 'time,from,to,kind\n'
FIRST = '1,a,b,x\n'
WRITTEN = '+v 0\n+v 1\n+e 0 1 x\ncommit\n'


class Bad(NamedTuple):
    """A row, which stands after the first one, and what is said of it."""

    row: str
    message: str
    ends: bool = True  # whether another row can stand after it


BAD_ROWS = [
    Bad('soon,a,b,x\n', "row 3, column time: 'soon' is no time"),
    Bad('2026-02-30,a,b,x\n', "row 3, column time: '2026-02-30' is no time"),
    Bad(',a,b,x\n', 'row 3, column time: it is empty'),
    Bad('2,,b,x\n', 'row 3, column from: it is empty'),
    Bad('2,a,,x\n', 'row 3, column to: it is empty'),
    Bad('2\n', 'row 3, column from: the row has 1 columns'),
    Bad('2,a,b\n', 'row 3, column kind: the row has 3 columns'),
    Bad('2,a,b,by wire\n', "row 3, column kind: 'by wire' is no label"),
    Bad('2,a,b,1st\n', "row 3, column kind: '1st' is no label"),
    Bad(f'2,a,b,{"x" * 33}\n', f"row 3, column kind: '{'x' * 33}' is no label"),
    Bad('2,"a"b,c,x\n', "row 3: ',' expected after '\"'"),
    Bad('\n2,"a,b,x\n', 'row 4: unexpected end of data', ends=False),
]

WRONG_WORDS = {
    '--keep 30': 'is no span',
    '--keep 0d': 'is no span',
    '--bands few': 'has no bound above 0',
    '--bands few:0': 'has no bound above 0',
    '--bands few:1,many:1': 'two bands have one bound',
    '--bands a+b:1': 'is no label',
    '--no-titles': 'without titles a column is a number',
    '--header a --program b': 'not allowed with',
    '--kep 30d': 'unrecognized arguments',
    'a b': 'unrecognized arguments',
}


class Refusals(unittest.TestCase):
    def test_a_row_out_of_form_ends_the_script_once_what_came_before_is_written(self):
        for bad in BAD_ROWS:
            with self.subTest(bad.row):
                ran = run('stream', '--label', 'kind', text=TITLES + FIRST + bad.row + '9,c,d,x\n' * bad.ends)
                self.assertEqual((ran.status, ran.output), (REFUSED, WRITTEN))
                self.assertEqual(ran.errors, f'stream: standard input: {bad.message}\n')

    def test_rows_out_of_form_are_skipped_and_counted_where_that_is_asked_for(self):
        rows = ''.join(bad.row for bad in BAD_ROWS[:-1])
        ran = run('stream', '--label', 'kind', '--skip-bad', text=f'{TITLES}{FIRST}{rows}9,a,c,x\n')
        self.assertEqual((ran.status, ran.output), (0, WRITTEN + '+v 2\n+e 0 2 x\ncommit\n'))
        self.assertEqual(ran.errors, f'stream: rows out of form that were skipped: {len(BAD_ROWS) - 1}; '
                                     f'the first: standard input: {BAD_ROWS[0].message}\n')

    def test_a_time_that_goes_backwards_is_refused_unless_rows_are_sorted(self):
        table = TITLES + '2026-03-02,a,b,x\n2026-03-01,a,c,x\n'
        for words in ((), ('--skip-bad',)):
            ran = run('stream', '--label', 'kind', *words, text=table)
            self.assertEqual((ran.status, ran.output), (REFUSED, WRITTEN))
            self.assertEqual(ran.errors, 'stream: standard input: row 3, column time: 2026-03-01 is before 2026-03-02 '
                                         'of row 2; --sort takes rows in any order\n')
        ran = run('stream', '--label', 'kind', '--sort', text=table)
        self.assertEqual((ran.status, ran.errors), (0, ''))
        self.assertEqual(ran.output, '+v 0\n+v 1\n+e 0 1 x\ncommit\n+v 2\n+e 0 2 x\ncommit\n')

    def test_rows_before_one_out_of_form_are_sorted_and_written(self):
        ran = run('stream', '--label', 'kind', '--sort', text=TITLES + '2,a,c,x\n' + FIRST + 'soon,a,b,x\n')
        self.assertEqual(ran.status, REFUSED)
        self.assertEqual(ran.errors, "stream: standard input: row 4, column time: 'soon' is no time\n")
        self.assertEqual(ran.output, WRITTEN + '+v 2\n+e 0 2 x\ncommit\n')

    def test_a_name_of_the_second_table_has_one_label(self):
        path = self.file('name,label\na,person\nb,shop\na,shop\n')
        ran = run('stream', '--vertices', path, text='time,from,to\n' + '1,a,b\n')
        self.assertEqual((ran.status, ran.output), (REFUSED, ''))
        self.assertEqual(ran.errors, f"stream: {path}: row 4, column label: 'a' has the label person already\n")

    def test_a_column_that_is_not_there_is_told(self):
        ran = run('stream', '--from', 'payer', text=TITLES + FIRST)
        self.assertEqual((ran.status, ran.output), (REFUSED, ''))
        self.assertEqual(ran.errors, "stream: standard input: row 1: no column 'payer' among time, from, to, kind\n")

    def test_wrong_words_are_told(self):
        for words, message in WRONG_WORDS.items():
            with self.subTest(words):
                ran = run('stream', *words.split(), text=TITLES)
                self.assertEqual((ran.status, ran.output), (USAGE, ''))
                self.assertIn(message, ran.errors)

    def test_nothing_may_stand_after_begin_in_a_header(self):
        ran = run('stream', '--header', self.file('mode vertex\nbegin\n+v 1\n'), text='')
        self.assertEqual((ran.status, ran.output), (USAGE, ''))

    def test_what_cannot_be_read_or_written_is_told(self):
        ran = run('stream', '/no/such/table.csv')
        self.assertEqual(ran.status, READ_FAULT)
        self.assertEqual(ran.errors, 'stream: /no/such/table.csv: No such file or directory\n')
        ran = run('stream', '--ids', '/no/such/folder/ids.csv', text=TITLES)
        self.assertEqual(ran.status, WRITE_FAULT)
        self.assertIn('/no/such/folder/ids.csv', ran.errors)

    def file(self, text):
        """A file with a text, for as long as the test lasts."""
        folder = tempfile.TemporaryDirectory()
        self.addCleanup(folder.cleanup)
        path = Path(folder.name) / 'file.csv'
        path.write_text(text, encoding='utf-8')
        return str(path)


class Limits(unittest.TestCase):
    def test_a_job_has_4096_labels_with_the_one_that_stands_for_none(self):
        rows = ''.join(f'{number},a,b,label-{number}\n' for number in range(1, 4_098))
        ran = run('stream', '--label', 'kind', text=TITLES + rows)
        self.assertEqual(ran.status, LIMIT)
        self.assertEqual(ran.output.count('commit'), 4_095)
        self.assertEqual(ran.errors, "stream: row 4097: 'label-4096' is one label too many: "
                                     "a job has 4,096, '_' among them\n")

    def test_labels_of_the_header_and_of_bands_count(self):
        rows = ''.join(f'{number},a,b,label-{number}\n' for number in range(1, 4_096))
        header = 'match edges(paid) + vertices( shop ) + joins(person,shop) > 0 and vertices = 2 and (true)'
        words = ('--label', 'kind', '--program', header, '--bands', 'often:5000')
        ran = run('stream', *words, text=TITLES + rows)
        self.assertEqual((ran.status, ran.output.count('commit')), (LIMIT, 4_095 - 4))
        self.assertIn("row 4093: 'label-4092' is one label too many", ran.errors)

    def test_labels_of_vertices_count(self):
        folder = tempfile.TemporaryDirectory()
        self.addCleanup(folder.cleanup)
        path = Path(folder.name) / 'vertices.csv'
        path.write_text('name,label\n' + ''.join(f'{n},label-{n}\n' for n in range(4_098)), encoding='utf-8')
        table = TITLES + ''.join(f'1,0,{n},label-0\n' for n in range(1, 4_098))
        ran = run('stream', '--vertices', str(path), '--label', 'kind', text=table)
        self.assertEqual(ran.status, LIMIT)
        self.assertEqual(ran.output.count('+e'), 4_094, "'_' counts though nothing has it")
        self.assertIn("row 4096, '4095': 'label-4095' is one label too many", ran.errors)

    def test_there_are_ids_of_32_bits(self):
        vertices = Vertices({}, None, first=MOST_IDS - 1)
        vertices.check_room(1, 'row 2')
        self.assertEqual(vertices.give('last'), 2**32 - 1)
        with self.assertRaises(Stop) as caught:
            vertices.check_room(1, 'row 3')
        self.assertEqual(caught.exception.status, LIMIT)
        self.assertEqual(str(caught.exception), 'row 3: one vertex too many: there are 4,294,967,296 ids')
