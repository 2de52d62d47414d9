"""That the tables of examples/events/ lead to the files beside them, by the commands that their page gives.

The step from jobs to records is the program's, and among the acceptance cases.
"""

import os
import re
import shutil
import tempfile
import unittest
import xml.etree.ElementTree as xml
from pathlib import Path

from tests.running import EXAMPLES, run

PAGE = EXAMPLES.parent / 'README.md'


def commands(script):
    """The words of each command of the page that runs a script of tools/, and the file that it writes."""
    lines = re.findall(rf'^ +\.\./\.\./tools/{script} (.*) > (\S+)$', PAGE.read_text(encoding='utf-8'), re.MULTILINE)
    return [(words.split(), made) for words, made in lines]


class Examples(unittest.TestCase):
    def setUp(self):
        room = tempfile.TemporaryDirectory()
        self.addCleanup(room.cleanup)
        self.folder = Path(room.name) / 'events'
        shutil.copytree(EXAMPLES, self.folder)

    def test_tables_lead_to_jobs_and_maps(self):
        self.assertEqual([made for _, made in commands('stream')], ['payments.job', 'contacts.job'])
        for words, made in commands('stream'):
            maps = [Path(made).with_suffix(suffix) for suffix in ('.ids.csv', '.map.csv')]
            for name in maps:
                os.remove(self.folder / name)
            ran = run('stream', *words, folder=self.folder)
            self.assertEqual(ran.status, 0)
            self.assert_same(made, ran.output)
            for name in maps:
                self.assert_same(name, (self.folder / name).read_text(encoding='utf-8'))

    def test_records_lead_to_sentences(self):
        self.assertEqual([made for _, made in commands('explain')], ['payments.txt'])
        for words, made in commands('explain'):
            self.assert_same(made, run('explain', *words, folder=self.folder).output)

    def test_records_lead_to_pictures_with_the_same_words(self):
        drawn = [made for _, made in commands('draw')]
        self.assertEqual(drawn, ['payments.svg', 'contacts.svg', '../../docs/timeline.svg'])
        for words, made in commands('draw'):
            ran = run('draw', *words, folder=self.folder)
            self.assertEqual(ran.status, 0)
            if ran.output.startswith('graph'):
                continue  # without Graphviz it is no SVG
            self.assertEqual(words_of(ran.output), words_of((EXAMPLES / made).read_text(encoding='utf-8')))

    def assert_same(self, name, text):
        self.assertEqual((EXAMPLES / name).read_text(encoding='utf-8'), text, name)


def words_of(svg):
    """The texts of an SVG in alphabetical order: where they stand follows from the release of Graphviz."""
    return sorted(element.text.strip() for element in xml.fromstring(svg).iter('{http://www.w3.org/2000/svg}text'))
