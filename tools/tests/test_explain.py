"""Records in names and times."""

import tempfile
import unittest
from pathlib import Path

from common.ending import REFUSED, USAGE
from tests.running import run

IDS = 'id,name\n0,alice\n1,bob\n2,shop 17\n3,"Emil ""the Clerk"" Roth"\n4,"Roth, Zoë"\n5," "\n6,"two\nlines"\n7,a--b\n'
MAP = 'timestamp,time,rows,expired\n1,2026-03-01,2,\n2,2026-03-02,3 5,\n3,2026-04-01,,2 3\n4,2026-04-01,6,4\n'
RECORDS = 'DONE 1\nNEW 2 0 1 2\nNEW 2 3 4\nDONE 2\nREM 3 0 1 2\nNEW 3 5 6 7\nDONE 3\nDONE 4\n'

COUNTED = 'records 2\nDONE 1 0\nNEW 2 0 1 2\nNEW 2 3 4\nDONE 2 2\nREM 3 0 1 2\nNEW 3 5 6 7\nDONE 3 2\nDONE 4 2\n'

EXPLAINED = '''\
2026-03-01 done
2026-03-02 appeared: alice, bob, shop 17
2026-03-02 appeared: "Emil ""the Clerk"" Roth", "Roth, Zoë"
2026-03-02 done
2026-04-01 vanished: alice, bob, shop 17
2026-04-01 appeared: " ", two\ufffdlines, "a--b"
2026-04-01 done
2026-04-01 done
'''

WITH_ROWS = '''\
2026-03-02 appeared: alice, bob, shop 17 (rows 3 5)
2026-03-02 appeared: "Emil ""the Clerk"" Roth", "Roth, Zoë" (rows 3 5)
2026-04-01 vanished: alice, bob, shop 17 (expired: rows 2 3)
2026-04-01 appeared: " ", two\ufffdlines, "a--b" (expired: rows 2 3)
'''

BAD_RECORDS = {
    'NEW 1\n': 'line 1: it is no record',
    'DONE 1 2\n': 'line 1: it is no record',
    'new 1 2\n': 'line 1: it is no record',
    'DONE 1\n\nNEW 2 x\n': 'line 3: it is no record',
    'DONE 1\nNEW 2 1-2-3\n': 'line 2: it is no record',
    'DONE 1\nDONE 3\n': 'line 2: the timestamp is not 2',
    'NEW 2 1\n': 'line 1: the timestamp is not 1',
    'records 2\nDONE 1\n': 'line 2: it is no record',
    'DONE 1\nrecords 2\n': 'line 2: it is no record',
    'records 2\nDONE 1 x\n': 'line 2: it is no record',
    'records 02\nDONE 1 0\n': 'line 1: it is no record',
}


class Explain(unittest.TestCase):
    def setUp(self):
        folder = tempfile.TemporaryDirectory()
        self.addCleanup(folder.cleanup)
        self.ids, self.map = Path(folder.name) / 'ids.csv', Path(folder.name) / 'map.csv'
        self.ids.write_text(IDS, encoding='utf-8')
        self.map.write_text(MAP, encoding='utf-8')
        self.maps = ('--ids', str(self.ids), '--map', str(self.map))

    def test_records_are_told_line_for_line(self):
        for records in (RECORDS, COUNTED):
            ran = run('explain', *self.maps, text=records)
            self.assertEqual((ran.status, ran.errors, ran.output), (0, '', EXPLAINED))

    def test_rows_are_told_and_done_is_left_out_where_that_is_asked_for(self):
        ran = run('explain', *self.maps, '--rows', '--no-done', text=RECORDS)
        self.assertEqual((ran.status, ran.errors, ran.output), (0, '', WITH_ROWS))

    def test_edges_are_told_by_the_names_of_their_ends(self):
        ran = run('explain', *self.maps, '--no-done', text='DONE 1\nNEW 2 0-1 1-4\n')
        self.assertEqual(ran.output, '2026-03-02 appeared: alice -- bob, bob -- "Roth, Zoë"\n')

    def test_without_maps_ids_and_timestamps_stand(self):
        ran = run('explain', text='NEW 1 7 8\nDONE 1\n')
        self.assertEqual((ran.status, ran.output), (0, '1 appeared: 7, 8\n1 done\n'))

    def test_lines_that_are_no_records_are_refused_after_those_before(self):
        for records, message in BAD_RECORDS.items():
            with self.subTest(records):
                ran = run('explain', text=records)
                self.assertEqual((ran.status, ran.errors), (REFUSED, f'explain: standard input: {message}\n'))
                self.assertEqual(ran.output, '1 done\n' if records.startswith('DONE 1\n') else '')

    def test_maps_that_belong_to_others_are_refused(self):
        for records, message in {
            'DONE 1\nNEW 2 8\n': f'{self.ids}: id 8 has no name',
            'DONE 1\nDONE 2\nDONE 3\nDONE 4\nDONE 5\n': f'{self.map}: timestamp 5 is not there',
        }.items():
            with self.subTest(records):
                ran = run('explain', *self.maps, text=records)
                self.assertEqual((ran.status, ran.errors), (REFUSED, f'explain: {message}\n'))
        ran = run('explain', '--ids', str(self.map), text='')
        self.assertEqual((ran.status, ran.errors), (REFUSED, f'explain: {self.map}: row 1: it is not id,name\n'))

    def test_rows_want_a_map(self):
        self.assertEqual(run('explain', '--rows', text='').status, USAGE)
