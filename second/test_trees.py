"""Tests of trees.py: counts, also against trees written out, and random sentences."""

import random
import unittest
from collections import Counter
from itertools import product
from math import prod

from case_grammars import (
    CLASSICS, ENDLESS, GOOD_ROWS, NO_RULES, ROWS, good, grammar_of, small_random, triples_in,
)
from dead_grammars import dead_tables
from tables import START
from trees import random_row, some_sentences, tree_count
from triples import is_potential

MOST = 3000               # trees of one grammar that are written out


def written_out(grammar, depth):
    """By nonterminal the rows of all trees of at most this depth, or None if too many."""
    rows = {rule.left: [] for rule in grammar.rules}
    for _ in range(depth):
        deeper = {left: [] for left in rows}
        for rule in grammar.rules:
            parts = [rows.get(code, []) if code >= START else [(code,)]
                     for code in rule.right]
            if prod(map(len, parts)) > MOST:
                return None
            deeper[rule.left] += [sum(row, ()) for row in product(*parts)]
        rows = deeper
    return rows.get(START, [])


class CountTest(unittest.TestCase):
    def count(self, table, sentence):
        return tree_count(grammar_of(table), tuple(sentence))

    def test_rows(self):
        self.assertEqual(self.count(ROWS[0], []), 0)
        self.assertEqual(self.count(ROWS[1], []), 1)
        self.assertEqual([self.count(ROWS[2], [1] * n) for n in range(3)], [0, 1, 0])
        self.assertEqual([self.count(ROWS[3], [1] * n) for n in range(4)], [0, 1, 1, 1])
        self.assertEqual(self.count(ROWS[4], [1, 1, 2, 2]), 1)
        self.assertEqual(self.count(ROWS[4], [1, 2, 2]), 0)
        self.assertEqual(self.count(ROWS[5], []), 0)
        self.assertEqual(self.count(ROWS[6], [1]), 2)
        self.assertEqual([self.count(ROWS[7], [1] * n) for n in range(6)], [0, 1, 0, 1, 0, 1])
        self.assertEqual(self.count(ROWS[8], []), 2)

    def test_classics(self):
        sums = CLASSICS["expressions-ambiguous"]       # + is 1, * is 2, x is 5
        self.assertEqual(self.count(sums, [5, 1, 5]), 1)
        self.assertEqual(self.count(sums, [5, 1, 5, 2, 5]), 2)
        self.assertEqual(self.count(sums, [5, 1]), 0)
        ifs = CLASSICS["dangling-else"]                # if is 1, else is 2, x is 3
        self.assertEqual(self.count(ifs, [1, 1, 3, 2, 3]), 2)
        self.assertEqual(self.count(ifs, [1, 1, 3, 2, 3, 2, 3]), 1)

    def test_against_trees_written_out(self):
        rng = random.Random(6)
        single = double = 0
        tables = [small_random(rng) for _ in range(300)] + list(dead_tables(rng, 25))
        for table in tables:
            rows = written_out(good(table), 4) or []
            for row, count in list(Counter(rows).items())[:20]:
                if len(row) > 20:
                    continue
                found = tree_count(good(table), row)
                self.assertGreaterEqual(found, min(2, count))
                single += count == found == 1
                double += count > 1
                if not is_potential(triples_in(table)):
                    self.assertEqual(found, 1)
        self.assertGreater(single, 100)
        self.assertGreater(double, 50)


class SentencesTest(unittest.TestCase):
    def test_each_has_a_tree(self):
        rng = random.Random(7)
        for table in GOOD_ROWS + list(CLASSICS.values()):
            for sentence in some_sentences(rng, good(table), 5, 8):
                self.assertGreater(tree_count(good(table), sentence), 0)

    def test_no_tree(self):
        for table in (NO_RULES, ENDLESS):
            self.assertEqual(some_sentences(random.Random(1), grammar_of(table), 5, 8), [])

    def test_many(self):
        rng = random.Random(8)
        rows = {random_row(rng, good(CLASSICS["json"]), 12) for _ in range(200)}
        self.assertGreater(len(rows), 30)
        self.assertGreater(max(map(len, rows)), 9)


if __name__ == "__main__":
    unittest.main()
