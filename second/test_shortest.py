"""Tests of shortest.py: figures worked out by hand, and the witness among all rows."""

import random
import unittest

from case_files import Rng
from case_grammars import (
    CLASSICS, COURSE, CYCLE, GOOD_ROWS, ROWS, small_random, spelled, triples_in,
)
from certificates import witness_fault
from robot_grammars import grown, table_of
from shortest import distances, shortest_witness
from small_grammars import every_table
from triples import index_of, is_potential, reached, steps, triple_at
from ways import longer
from ways import shortest as from_the_front

MOST = 5000               # rows that are looked at for one grammar


def targets(triples, index):
    """The next index of each step record."""
    records = steps(triples.automaton, triple_at(triples.states, index))
    return [index_of(triples.states, record.next) for record in records]


def rows_of_the_least_length(triples):
    """Every such row from (0,0,0) to (1,1,1), ascending, once for each row of records.

    None if there are more than MOST beginnings of them.
    """
    ahead = {index: targets(triples, index) for index in reached(triples)}
    rows = [(triples.first,)]
    while all(row[-1] != triples.last for row in rows):
        rows = [row + (target,) for row in rows for target in ahead[row[-1]]]
        if len(rows) > MOST:
            return None
    return sorted(row for row in rows if row[-1] == triples.last)


def potential(tables):
    """The triples of those tables that have a witness."""
    found = map(triples_in, tables)
    return [triples for triples in found if is_potential(triples)]


class FiguresTest(unittest.TestCase):
    def test_the_cycle(self):
        self.assertEqual(shortest_witness(triples_in(CYCLE)), (0, 2, 4, 20, 29, 75, 73))

    def test_lengths(self):
        lengths = [len(shortest_witness(triples_in(row))) for row in ROWS[6:9]]
        self.assertEqual(lengths, [7, 13, 12])

    def test_the_length_tells_nonterminals_shifted_in_layer_1(self):
        triples = triples_in(spelled("S: | S a S"))
        self.assertEqual((triples.states, len(shortest_witness(triples))), (9, 17))

    def test_an_unambiguous_grammar_has_none(self):
        for row in ROWS[1:5] + ROWS[9:] + [COURSE]:
            self.assertIsNone(shortest_witness(triples_in(row)))
            self.assertEqual(distances(triples_in(row)), {})


class AllRowsTest(unittest.TestCase):
    """Against every row of the least length."""

    def least(self, tables, fewest):
        tried = 0
        for triples in potential(tables):
            rows = rows_of_the_least_length(triples)
            if rows is not None:
                tried += 1
                self.assertEqual(shortest_witness(triples), rows[0])
                self.assertEqual(rows.count(rows[0]), 1)
        self.assertGreaterEqual(tried, fewest)

    def test_all_small_grammars(self):
        self.least(every_table(2, 2, 9), 134)
        self.least(every_table(1, 2, 10), 702)
        self.least(every_table(1, 1, 11), 214)

    def test_random_grammars(self):
        rng = random.Random(1)
        self.least([small_random(rng) for _ in range(100)], 10)


class WitnessTest(unittest.TestCase):
    """Against the witness check, other witnesses, and the search from the front."""

    def least(self, triples, rng):
        row = shortest_witness(triples)
        self.assertIsNone(witness_fault(triples, row))
        self.assertEqual(list(row), from_the_front(triples))
        for more in (0, 1, 2, 5, 20):
            other = longer(rng, triples, more)
            self.assertLessEqual((len(row), row), (len(other), tuple(other)))

    def test_small_grammars(self):
        rng = random.Random(2)
        tables = list(every_table(2, 2, 9)) + list(every_table(1, 1, 11))
        tables += [small_random(rng) for _ in range(150)]
        found = potential(tables)
        self.assertGreater(len(found), 500)
        for triples in found:
            self.least(triples, rng)

    def test_classic_and_grown_grammars(self):
        rng = Rng(3)
        tables = GOOD_ROWS + list(CLASSICS.values())
        tables += [table_of(grown(rng, 4, 48)) for _ in range(40)]
        found = potential(tables)
        self.assertGreater(len(found), 25)
        for triples in found:
            self.least(triples, rng)


class DistancesTest(unittest.TestCase):
    def test_one_more_than_the_nearest_successor(self):
        rng = random.Random(4)
        for triples in potential(small_random(rng) for _ in range(100)):
            found = distances(triples)
            self.assertEqual(found[triples.last], 0)
            for index in reached(triples) - {triples.last}:
                ahead = [found[to] for to in triples.successors(index) if to in found]
                self.assertEqual(found.get(index), 1 + min(ahead) if ahead else None)


if __name__ == "__main__":
    unittest.main()
