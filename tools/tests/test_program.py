"""That the program takes what tools/stream writes, whole, and finds the same edges and vertices in it."""

import unittest

from records.record_lines import read_records, standing_at
from tests.recounting import made_table
from tests.running import fold, labels_of, mine, needs_program, stream


@needs_program
class Program(unittest.TestCase):
    def test_each_label_has_the_edges_of_the_recount_at_each_moment(self):
        for seed in range(100, 106):
            with self.subTest(seed=seed):
                table = made_table(seed)
                made = stream(table.text, *table.words)
                for label in labels_of(made.job):
                    self.compare(table, made, 'edge', f'edges({label}) = 1', lambda moment: {
                        pair for pair, its_label in table.edges_at(moment).items() if its_label == label
                    })
                self.compare(table, made, 'vertex', 'true', lambda moment: {
                    frozenset([name]) for name in table.vertices_at(moment)
                })

    def compare(self, table, made, mode, match, wanted):
        """Mines the pieces of one member, and compares those that stand at the end of each moment."""
        mined = mine(f'mode {mode}\nsize 1\nfilter true\nmatch {match}\nbegin\n{made.job}')
        self.assertEqual((mined.status, mined.errors), (0, ''))
        records = mined.output.splitlines()
        self.assertEqual(records.count('commit'), 0)
        self.assertEqual(sum(line.startswith('DONE') for line in records), len(made.map))
        last_of = {int(time): int(timestamp) for timestamp, time, _, _ in made.map}
        names = {int(vertex): name for vertex, name in made.ids}
        for moment, timestamp in last_of.items():
            standing = standing_at(read_records(records, 'records'), timestamp, 'records')
            members = [member if mode == 'edge' else (member,) for member, in standing.pieces]
            self.assertEqual({frozenset(names[end] for end in member) for member in members}, wanted(moment))
        self.assertEqual(self.folded(mined.output, timestamp), members)

    def folded(self, records, timestamp):
        """The members that the program's own fold tells of."""
        ran = fold(records, timestamp)
        self.assertEqual((ran.status, ran.errors), (0, ''))
        return [tuple(map(int, line.split('-'))) for line in ran.output.splitlines()]
