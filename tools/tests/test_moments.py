"""That the updates leave the graph of the live events at each moment, by a plain recount."""

import unittest

from tests.recounting import made_table, named
from tests.running import moments, stream


class Moments(unittest.TestCase):
    def test_updates_fold_to_the_graph_of_the_live_events(self):
        for seed in range(24):
            with self.subTest(seed=seed):
                self.compare(made_table(seed))

    def test_many_events_expire_one_after_another(self):
        rows = ''.join(f'{time},a {time},b {time}\n' for time in range(5_000))
        made = stream('time,from,to\n' + rows, '--keep', '10s', '--forget')
        sizes = [(len(graph.vertices), len(graph.edges)) for _, graph in moments(made.job)]
        self.assertEqual(sizes, [(2 * edges, edges) for edges in (*range(1, 10), *[10] * 4_991)])

    def compare(self, table):
        made = stream(table.text, *table.words)
        self.assertEqual(made.ran.status, 0)
        changes = moments(made.job)
        change = next(changes, None)
        graph = (frozenset(), {})
        for moment in table.moments():
            if change is not None and self.time_of(change, made) == moment:
                self.assertNotEqual(graph, named(change[1], made), 'a moment at which nothing changes')
                graph = named(change[1], made)
                change = next(changes, None)
            self.assertEqual(graph, (table.vertices_at(moment), table.edges_at(moment)), f'at {moment}')
        self.assertIsNone(change)

    def time_of(self, change, made):
        """The time of a moment, which the map tells."""
        timestamp, time, _, _ = made.map[change[0] - 1]
        self.assertEqual(int(timestamp), change[0])
        return int(time)
