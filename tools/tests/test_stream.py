"""What tools/stream makes of small tables."""

import tempfile
import unittest
from pathlib import Path
from typing import NamedTuple

from tests.running import run, stream


class Case(NamedTuple):
    name: str
    words: str
    table: str
    updates: str


# The updates of a moment stand in one line here, and '|' parts them; a commit follows each line.
CASES = [
    Case('an event adds two vertices and an edge', '', 'time,from,to\n1,a,b\n', '+v 0 | +v 1 | +e 0 1'),
    Case('pairs in both orders are one edge', '', 'time,from,to\n1,a,b\n2,b,a\n', '+v 0 | +v 1 | +e 0 1'),
    Case(
        'a vertex comes once, just before its first edge',
        '',
        'time,from,to\n1,a,b\n2,b,c\n3,a,c\n',
        '+v 0 | +v 1 | +e 0 1\n+v 2 | +e 1 2\n+e 0 2',
    ),
    Case(
        'an event expires at its very moment, which a row of that moment shows',
        '--keep 10s',
        'time,from,to\n1,a,b\n10,c,d\n11,c,e\n',
        '+v 0 | +v 1 | +e 0 1\n+v 2 | +v 3 | +e 2 3\n-e 0 1 | +v 4 | +e 2 4',
    ),
    Case(
        'an event is still live a microsecond before it expires',
        '--keep 10s',
        'time,from,to\n1,a,b\n10.999999,c,d\n',
        '+v 0 | +v 1 | +e 0 1\n+v 2 | +v 3 | +e 2 3',
    ),
    Case(
        'events that expire between two rows have moments of their own',
        '--keep 10s',
        'time,from,to\n1,a,b\n2,a,c\n100,b,c\n',
        '+v 0 | +v 1 | +e 0 1\n+v 2 | +e 0 2\n-e 0 1\n-e 0 2\n+e 1 2',
    ),
    Case('what is live at the end stays', '--keep 1s', 'time,from,to\n1,a,b\n', '+v 0 | +v 1 | +e 0 1'),
    Case(
        'an event at the moment at which the last one expires keeps the edge, and says nothing',
        '--keep 10s',
        'time,from,to\n1,a,b\n11,b,a\n20,a,c\n',
        '+v 0 | +v 1 | +e 0 1\n+v 2 | +e 0 2',
    ),
    Case(
        'further events change the label where the count reaches a bound, and expiry changes it back',
        '--keep 10s --bands few:1,many:3',
        'time,from,to\n1,a,b\n2,a,b\n3,b,a\n4,a,b\n50,c,d\n',
        '+v 0 | +v 1 | +e 0 1 few\n~e 0 1 many\n~e 0 1 few\n-e 0 1\n+v 2 | +v 3 | +e 2 3 few',
    ),
    Case(
        'events of one moment make one update',
        '--bands few:1,many:3',
        'time,from,to\n1,a,b\n1,b,a\n1,a,b\n',
        '+v 0 | +v 1 | +e 0 1 many',
    ),
    Case(
        'below the lowest bound the label is that of the column',
        '--bands many:2 --label kind',
        'time,from,to,kind\n1,a,b,wire\n2,a,b,cash\n',
        '+v 0 | +v 1 | +e 0 1 wire\n~e 0 1 many',
    ),
    Case(
        'without bands an edge has the label of its latest event, and none where that has none',
        '--label kind',
        'time,from,to,kind\n1,a,b,wire\n2,b,a,cash\n3,a,b,cash\n4,a,b,\n',
        '+v 0 | +v 1 | +e 0 1 wire\n~e 0 1 cash\n~e 0 1 _',
    ),
    Case(
        'a vertex that is to be forgotten goes with its last edge, and comes again as another',
        '--keep 10s --forget',
        'time,from,to\n1,a,b\n5,a,c\n30,a,b\n',
        '+v 0 | +v 1 | +e 0 1\n+v 2 | +e 0 2\n-e 0 1 | -v 1\n-e 0 2 | -v 0 | -v 2\n+v 3 | +v 4 | +e 3 4',
    ),
    Case(
        'a vertex that loses an edge and gets another at one moment stays',
        '--keep 10s --forget',
        'time,from,to\n1,a,b\n11,a,c\n',
        '+v 0 | +v 1 | +e 0 1\n-e 0 1 | -v 1 | +v 2 | +e 0 2',
    ),
    Case('names with spaces and quotes', '', 'time,from,to\n1,"shop 17, ""Roma""", b\n', '+v 0 | +v 1 | +e 0 1'),
    Case(
        'names that differ in a blank are two',
        '',
        'time,from,to\n1,a,b\n2,a, b\n',
        '+v 0 | +v 1 | +e 0 1\n+v 2 | +e 0 2',
    ),
    Case('an empty table', '', '', ''),
    Case('a table of titles alone', '', 'time,from,to\n', ''),
    Case('Windows line ends', '', 'time,from,to\r\n1,a,b\r\n2,b,c\r\n', '+v 0 | +v 1 | +e 0 1\n+v 2 | +e 1 2'),
    Case('no line end at the end', '', 'time,from,to\n1,a,b', '+v 0 | +v 1 | +e 0 1'),
    Case('a mark of UTF-8 before the titles', '', '\ufefftime,from,to\n1,a,b\n', '+v 0 | +v 1 | +e 0 1'),
    Case('empty rows say nothing', '', 'time,from,to\n\n1,a,b\n\n', '+v 0 | +v 1 | +e 0 1'),
    Case('a name over two lines', '', 'time,from,to\n1,"a\nb",c\n', '+v 0 | +v 1 | +e 0 1'),
    Case(
        'times in three forms are one scale',
        '--keep 1d',
        'time,from,to\n1772409600,a,b\n2026-03-03,a,c\n2026-03-03T01:00:00+01:00,a,d\n',
        '+v 0 | +v 1 | +e 0 1\n-e 0 1 | +v 2 | +v 3 | +e 0 2 | +e 0 3',
    ),
    Case(
        'columns by titles, in any places',
        '--time when --from payer --to payee',
        'payee,amount,when,payer\nb,10,1,a\n',
        '+v 0 | +v 1 | +e 0 1',
    ),
    Case('columns by numbers', '--no-titles --time 3 --from 1 --to 2', 'a,b,1\n', '+v 0 | +v 1 | +e 0 1'),
    Case('columns parted by tabs', '--separator tab', 'time\tfrom\tto\n1\ta,b\tc d\n', '+v 0 | +v 1 | +e 0 1'),
    Case('columns parted by semicolons', '--separator ;', 'time;from;to\n1;a;b\n', '+v 0 | +v 1 | +e 0 1'),
    Case(
        'rows in any order, those of one time as they stand',
        '--sort --label kind',
        'time,from,to,kind\n2,a,b,y\n1,c,d,x\n2,b,a,z\n',
        '+v 0 | +v 1 | +e 0 1 x\n+v 2 | +v 3 | +e 2 3 z',
    ),
]


def lines_of(updates: str) -> str:
    """The lines that stand for a case's updates."""
    return ''.join(line.replace(' | ', '\n') + '\ncommit\n' for line in updates.splitlines())


class Tables(unittest.TestCase):
    def test_small_tables(self):
        for case in CASES:
            with self.subTest(case.name):
                ran = run('stream', *case.words.split(), text=case.table)
                self.assertEqual((ran.status, ran.errors), (0, ''))
                self.assertEqual(ran.output, lines_of(case.updates))

    def test_events_of_a_name_with_itself_are_dropped_and_counted(self):
        ran = run('stream', text='time,from,to\n1,a,a\n2,a,b\n3,b,b\n')
        self.assertEqual(ran.output, lines_of('+v 0 | +v 1 | +e 0 1'))
        self.assertEqual((ran.status, ran.errors), (0, 'stream: events of a name with itself that were dropped: 2\n'))

    def test_labels_of_vertices_come_from_a_second_table(self):
        self.assert_second_table('name,label\nb,shop\n"a, b",person\nz,shop\n', 'time,from,to\n1,"a, b",b\n2,b,c\n',
                                 '+v 0 person | +v 1 shop | +e 0 1\n+v 2 | +e 1 2')
        self.assert_second_table('kind,who\nshop,b\n', 'time,from,to\n1,a,b\n', '+v 0 | +v 1 shop | +e 0 1',
                                 '--vertex', 'who', '--vertex-label', 'kind')

    def assert_second_table(self, vertices, events, updates, *words):
        ran = run('stream', '--vertices', self.file(vertices), *words, text=events)
        self.assertEqual((ran.status, ran.errors, ran.output), (0, '', lines_of(updates)))

    def test_a_header_makes_the_output_a_whole_job(self):
        lines = ['mode vertex', 'size 3', 'filter true', 'match true']
        header = ''.join(line + '\n' for line in lines)
        for words in (('--program', '; '.join(lines)), ('--program', '; '.join([*lines, 'begin'])),
                      ('--header', self.file(header)), ('--header', self.file(header + 'begin\n'))):
            with self.subTest(words):
                ran = run('stream', *words, text='time,from,to\n1,a,b\n')
                self.assertEqual(ran.output, f'{header}begin\n{lines_of("+v 0 | +v 1 | +e 0 1")}')

    def file(self, text: str) -> str:
        """A file with a text, for as long as the test lasts."""
        folder = tempfile.TemporaryDirectory()
        self.addCleanup(folder.cleanup)
        path = Path(folder.name) / 'file.csv'
        path.write_text(text, encoding='utf-8', newline='')
        return str(path)


class Maps(unittest.TestCase):
    def test_ids_lead_back_to_names(self):
        names = ['alice', 'shop 17, "Roma"', ' ', 'two\nlines', 'Zoë', '\udcff']
        rows = ''.join(f'{time},{quoted(name)},z\n' for time, name in enumerate(names))
        made = stream('time,from,to\n' + rows)
        self.assertEqual(made.ran.status, 0)
        self.assertEqual(dict(made.ids), {**dict(zip('023456', names)), '1': 'z'})

    def test_the_map_tells_times_and_rows_of_each_timestamp(self):
        made = stream('time,from,to\n2026-03-01,a,b\n\n2026-03-01,b,a\n2026-03-02,a,c\n2026-03-20,c,d\n',
                      '--keep', '2d', '--forget', '--bands', 'one:1,two:2')
        lines = [line for line in made.job.splitlines() if line != 'commit']
        self.assertEqual([[line, *row] for line, row in zip(lines, made.map)], [
            ['+v 0', '1', '2026-03-01', '2', ''],
            ['+v 1', '2', '2026-03-01', '2', ''],
            ['+e 0 1 two', '3', '2026-03-01', '2 4', ''],
            ['+v 2', '4', '2026-03-02', '5', ''],
            ['+e 0 2 one', '5', '2026-03-02', '5', ''],
            ['-e 0 1', '6', '2026-03-03', '', '2 4'],
            ['-v 1', '7', '2026-03-03', '', '2 4'],
            ['-e 0 2', '8', '2026-03-04', '', '5'],
            ['-v 0', '9', '2026-03-04', '', '5'],
            ['-v 2', '10', '2026-03-04', '', '5'],
            ['+v 3', '11', '2026-03-20', '6', ''],
            ['+v 4', '12', '2026-03-20', '6', ''],
            ['+e 3 4 one', '13', '2026-03-20', '6', ''],
        ])
        self.assertEqual(len(lines), len(made.map))

    def test_without_events_the_maps_have_titles_alone(self):
        self.assertEqual(stream('')[1:], ([], []))


def quoted(name: str) -> str:
    return '"' + name.replace('"', '""') + '"'
