"""Pictures of pieces, and timelines."""

import re
import shutil
import subprocess
import sys
import tempfile
import unittest
import xml.etree.ElementTree as xml
from pathlib import Path

from common.ending import REFUSED, USAGE
from records.colours import OTHER_FILL
from records.record_lines import read_records
from records.timeline import MOST_STEPS, Step, Timeline
from tests.running import TOOLS, run

IDS = 'id,name\n1,alice\n2,"Bob ""B"" \\n <&>"\n3,shop 17\n4,dov\n'
MAP = 'timestamp,time,rows,expired\n' + ''.join(f'{t},2026-03-{t:02},{t + 1},\n' for t in range(1, 12))
HEADER = 'mode {}\nsize 3\nfilter true\nmatch true\n# a note\nbegin\n'
JOB = '''\
+v 1 person
+v 2 person
+v 3 shop
commit
+e 2 1 often
+e 2 3
+e 3 1 once
commit
+v 4
+e 4 2 once
~e 1 2 once
-e 1 3
-v 3
'''
RECORDS = (
    'DONE 1\nDONE 2\nDONE 3\nDONE 4\nDONE 5\nNEW 6 1 2 3\nDONE 6\nDONE 7\nNEW 8 1 2 4\nDONE 8\nDONE 9\n'
    'REM 10 1 2 3\nDONE 10\nDONE 11\n'
)
EDGES = 'DONE 1\nDONE 2\nDONE 3\nDONE 4\nNEW 5 1-2 2-3\nDONE 5\nDONE 6\n'

WRONG = {
    'DONE 1\nDONE 2\n': ('1', '+v 1\n', '{job}: there are 1 updates, and no timestamp 2'),
    'DONE 1\n': ('2', '+v 1\n', 'standard input: DONE 2 is not there; the last is DONE 1'),
    'DONE 1\nDONE 2': (None, '+v 1\n+v x\n', "{job}: line 8: 'x' is no whole number"),
    'DONE 1\nDONE 2\n\n': (None, '+v 1\n+e 1\n', '{job}: line 8: it is no update'),
}


class Draw(unittest.TestCase):
    def setUp(self):
        folder = tempfile.TemporaryDirectory()
        self.addCleanup(folder.cleanup)
        self.folder = Path(folder.name)
        self.maps = ('--ids', self.file('ids.csv', IDS), '--map', self.file('map.csv', MAP))
        self.job = self.file('a.job', HEADER.format('vertex') + JOB)

    def file(self, name, text):
        path = self.folder / name
        path.write_text(text, encoding='utf-8')
        return str(path)

    def dot(self, records, *words):
        ran = run('draw', '--job', self.job, '--dot', *words, text=records)
        self.assertEqual((ran.status, ran.errors), (0, ''))
        return ran.output

    def test_a_piece_has_its_vertices_and_all_edges_between_them_as_they_are_then(self):
        dot = self.dot(RECORDS, '--at', '6', *self.maps)
        self.assertIn('label="1 piece at timestamp 6, 2026-03-06"', dot)
        self.assertIn('piece_1_vertex_1 [label="alice", fillcolor="#8dd3c7"]', dot)
        self.assertIn('piece_1_vertex_2 [label="Bob \\"B\\" \\\\n <&>", fillcolor="#8dd3c7"]', dot)
        self.assertIn('piece_1_vertex_3 [label="shop 17", fillcolor="#ffffb3"]', dot)
        self.assertIn('piece_1_vertex_1 -- piece_1_vertex_2 [color="#1b9e77"]', dot)
        self.assertIn('piece_1_vertex_1 -- piece_1_vertex_3 [color="#d95f02"]', dot)
        self.assertIn('piece_1_vertex_2 -- piece_1_vertex_3 [color="#333333"]', dot)
        self.assertEqual(legend_of(dot), ['person', 'shop', 'often', 'once', 'no label'])
        dot = self.dot(RECORDS, '--at', '8', '--most', '1')
        self.assertEqual(legend_of(dot), ['person', 'shop', 'often', 'once', 'no label'])
        dot = self.dot(RECORDS, '--at', '11')
        self.assertIn('piece_1_vertex_1 -- piece_1_vertex_2 [color="#1b9e77"]', dot)
        self.assertEqual(legend_of(dot), ['person', 'no label', 'once'])

    def test_edges_go_with_their_vertices(self):
        updates = '+v 1\n+v 2\n+v 3\n+e 1 2\n+e 1 3\n-v 2\n+v 2\n+e 2 3\n'
        self.job = self.file('e.job', HEADER.format('vertex') + updates)
        dot = self.dot(''.join(f'DONE {t}\n' for t in range(1, 8)) + 'NEW 8 1 2 3\nDONE 8\n')
        self.assertEqual(dot.count(' -- '), 2)

    def test_a_piece_of_edges_has_these_alone(self):
        self.job = self.file('b.job', HEADER.format('edge') + JOB)
        dot = self.dot(EDGES, '--at', '6')
        self.assertEqual(dot.count(' -- '), 2, 'the third edge is there too')
        self.assertIn('piece_1_vertex_1 [label="1"', dot)

    def test_pieces_past_the_most_are_counted(self):
        dot = self.dot(RECORDS, '--at', '8', '--most', '1')
        self.assertIn('label="2 pieces at timestamp 8; 1 drawn, 1 not drawn"', dot)
        self.assertEqual(dot.count('subgraph cluster_'), 2, 'one piece and the legend')

    def test_without_a_timestamp_it_is_the_last(self):
        dot = self.dot(RECORDS)
        self.assertIn('label="1 piece at timestamp 11"', dot)
        self.assertEqual(dot.count(' -- '), 2)

    def test_where_no_piece_stands_the_picture_says_so(self):
        self.assertIn('label="no pieces at timestamp 5"', self.dot(RECORDS, '--at', '5'))
        self.assertIn('label="no pieces at timestamp 0"', self.dot('', '--at', '0'))

    def test_labels_past_the_last_colour_share_one(self):
        job = ''.join(f'+v {vertex} label{vertex}\n' for vertex in range(10))
        self.job = self.file('c.job', HEADER.format('vertex') + job)
        dot = self.dot(''.join(f'NEW {v + 1} {v}\nDONE {v + 1}\n' for v in range(10)))
        self.assertEqual(dot.count(f'fillcolor="{OTHER_FILL}"'), 2)
        self.assertIn('>other labels<', dot)

    @unittest.skipUnless(shutil.which('dot'), 'Graphviz is not installed')
    def test_graphviz_makes_an_svg_of_it(self):
        ran = run('draw', '--job', self.job, '--at', '6', *self.maps, text=RECORDS)
        self.assertEqual((ran.status, ran.errors), (0, ''))
        self.assertLessEqual({'alice', 'Bob "B" \\n <&>', 'shop 17', 'person', 'often'}, words_of(ran.output))

    def test_without_graphviz_it_is_dot(self):
        ran = subprocess.run([sys.executable, str(TOOLS / 'draw'), '--job', self.job], input=RECORDS, text=True,
                             capture_output=True, env={'PATH': str(self.folder)})
        self.assertEqual((ran.returncode, ran.stderr), (0, "draw: Graphviz's dot is not installed, so this is DOT\n"))
        self.assertEqual(ran.stdout, self.dot(RECORDS))

    def test_a_job_that_is_not_that_of_the_records_is_refused(self):
        for records, (timestamp, job, message) in WRONG.items():
            with self.subTest(message):
                path = self.file('d.job', HEADER.format('vertex') + job)
                ran = run('draw', '--job', path, *(('--at', timestamp) if timestamp == '2' else ()), text=records)
                self.assertEqual((ran.status, ran.output), (REFUSED, ''))
                self.assertEqual(ran.errors, f'draw: {message.format(job=path)}\n')

    def test_either_pieces_or_the_timeline(self):
        self.assertEqual(run('draw', text='').status, USAGE)
        self.assertEqual(run('draw', '--timeline', '--job', self.job, text='').status, USAGE)


class Timelines(unittest.TestCase):
    def test_steps_tell_what_came_went_and_stood(self):
        self.assertEqual(timeline_of(RECORDS).steps[5:10], [
            Step(1, 0, 1), Step(0, 0, 1), Step(1, 0, 2), Step(0, 0, 2), Step(0, 1, 1),
        ])

    def test_many_timestamps_are_gathered(self):
        many = 5 * MOST_STEPS + 3
        timeline = timeline_of(''.join(f'NEW {t} {t}\nDONE {t}\n' for t in range(1, many + 1)))
        self.assertEqual((timeline.span, timeline.last, len(timeline.steps)), (8, many, many // 8 + 1))
        self.assertEqual(timeline.steps[0], Step(8, 0, 8))
        self.assertEqual(timeline.steps[-1], Step(many % 8, 0, many))

    def test_records_after_the_last_done_do_not_show(self):
        self.assertEqual(timeline_of('DONE 1\nNEW 2 5\n').steps, [Step(0, 0, 0)])

    def test_the_svg_is_whole(self):
        with tempfile.TemporaryDirectory() as folder:
            path = Path(folder) / 'map.csv'
            path.write_text(MAP, encoding='utf-8')
            ran = run('draw', '--timeline', '--map', str(path), text=RECORDS)
        self.assertEqual((ran.status, ran.errors), (0, ''))
        self.assertLessEqual({'Pieces over 11 timestamps', '2 came', '1 went', '1 stand at the end', '2026-03-10'},
                             words_of(ran.output))

    def test_no_records_have_a_timeline_too(self):
        ran = run('draw', '--timeline', text='')
        self.assertEqual(ran.status, 0)
        self.assertIn('Pieces over 0 timestamps', words_of(ran.output))


def timeline_of(records):
    timeline = Timeline()
    for record in read_records(records.splitlines(), 'records'):
        timeline.take(record)
    return timeline


def legend_of(dot):
    """The labels in the legend, those of vertices first."""
    return re.findall('<td align="left">([^<]*)</td>', dot)


def words_of(svg):
    """The texts of an SVG, which must be one."""
    root = xml.fromstring(svg)
    return {element.text.strip() for element in root.iter() if element.text and element.text.strip()}
