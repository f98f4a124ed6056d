"""Tests of looked.py: figures, choices one by one, the bound of [6], misreadings."""

import random
import unittest

import corpus_cases
import search_cases
from case_grammars import (
    CYCLE, EIGHT_CHANNELS, GOOD_ROWS, MUCH_LOOKED_AT, NESTED, ONE_A, dense, good, small_random,
    spelled, triples_in,
)
from dead_grammars import dead_tables
from looked import choices_of, looked_at, most_looked_at
from looked_misreadings import DEAD, FIGURES, TOLD, told_by_figure
from robot_grammars import grown, table_of
from rooms import letter_moves
from searches import Potential, Unambiguous, needed, search
from sentence_grammars import nearly_sentenceless
from small_grammars import every_table
from tables import Refusal, check_table
from triples import (
    LAST, choice_count, is_potential, reached, triple_at,
    unordered_steps,
)

TWO_EMPTY = spelled("S: | S S")


def passing(tables):
    """The tables among these that are not refused, none twice."""
    return [table for table in dict.fromkeys(tables)
            if not isinstance(check_table(*table), Refusal)]


class FiguresTest(unittest.TestCase):
    def figures(self, table):
        """Q, M, the figure and the most that it can be."""
        triples = triples_in(table)
        automaton = triples.automaton
        return (triples.states, len(letter_moves(automaton)), looked_at(triples),
                most_looked_at(automaton))

    def test_known_ones(self):
        self.assertEqual(self.figures(ONE_A), (6, 6, 14, 108))
        self.assertEqual(self.figures(EIGHT_CHANNELS), (27, 49, 163, 5047))
        self.assertEqual(self.figures(TWO_EMPTY)[::2], (8, 235))
        self.assertEqual(len(reached(triples_in(EIGHT_CHANNELS))), 90)

    def test_document_01s_rows(self):
        self.assertEqual([self.figures(row)[2] for row in GOOD_ROWS],
                         [13, 14, 48, 46, 55, 140, 85, 145])
        self.assertEqual([self.figures(row)[1] for row in GOOD_ROWS],
                         [5, 6, 14, 14, 13, 15, 13, 25])

    def test_by_hand(self):
        """S→, Q = 5: 0 opens 0 to 2, 2 opens 1 to 4, and both sides shift S at (0,2,2).

        Beside (0,3,3) and (0,4,4), where the closings are equal, 3 and 4 close only
        in layer 1, which is not reached.
        """
        triples = triples_in(spelled("S:"))
        found = {tuple(triple_at(5, index)): choices_of(triples.automaton, triple_at(5, index))
                 for index in reached(triples)}
        self.assertEqual(found, {
            (0, 0, 0): 2, (0, 0, 2): 2, (0, 2, 0): 2, (0, 2, 2): 3, (0, 0, 4): 1, (0, 4, 0): 1,
            (0, 2, 4): 1, (0, 4, 2): 1, (0, 4, 4): 0, (0, 3, 3): 0})
        self.assertEqual(looked_at(triples), 13)


class ChoicesTest(unittest.TestCase):
    def test_one_for_each_step_record(self):
        """Of all triples, reached or not."""
        rng = random.Random(3)
        tables = passing(every_table(1, 2, 8)) + list(dead_tables(rng, 3))
        for table in tables + [small_random(rng) for _ in range(40)] + [EIGHT_CHANNELS]:
            triples = triples_in(table)
            for index in range(triples.count):
                triple = triple_at(triples.states, index)
                self.assertEqual(choices_of(triples.automaton, triple),
                                 len(unordered_steps(triples.automaton, triple)))

    def test_the_last_triple_has_none(self):
        """So the figure is the same whether (1,1,1) is taken up or not."""
        rng = random.Random(4)
        for table in [*GOOD_ROWS, *dead_tables(rng, 20), *(dense(rng) for _ in range(100))]:
            self.assertEqual(choices_of(triples_in(table).automaton, LAST), 0)

    def test_equal_successors_are_the_triple_itself(self):
        rng = random.Random(5)
        twice = 0
        tables = GOOD_ROWS + [dense(rng) for _ in range(60)]
        for table in tables + [small_random(rng) for _ in range(60)]:
            triples = triples_in(table)
            for index in reached(triples):
                triple = triple_at(triples.states, index)
                following = [step.next for step in unordered_steps(triples.automaton, triple)]
                again = {other for other in following if following.count(other) > 1}
                self.assertLessEqual(again, {triple})
                self.assertLessEqual(following.count(triple), 2)
                twice += len(again)
        self.assertGreater(twice, 100)


class BoundTest(unittest.TestCase):
    """"It is at most M² + 2×Q×M"."""

    def shares(self, tables):
        """By table what part of its bound the figure is."""
        found = {}
        for table in passing(tables):
            triples = triples_in(table)
            figure, most = looked_at(triples), most_looked_at(triples.automaton)
            self.assertEqual(figure, choice_count(triples))
            self.assertLessEqual(figure, most)
            found[table] = figure / most
        return found

    def largest(self, tables):
        return max(self.shares(tables).values())

    def test_all_search_cases(self):
        found = self.shares(case[:3] for case in search_cases.KIND.all() if case.m == 0)
        self.assertGreater(len(found), 2000)
        self.assertEqual(max(found, key=found.get), MUCH_LOOKED_AT)
        self.assertAlmostEqual(found[MUCH_LOOKED_AT], 0.6026, 4)

    def test_the_corpus_and_grown_grammars(self):
        found = self.largest(case[:3] for case in corpus_cases.KIND.all())
        self.assertAlmostEqual(found, 0.3970, 4)

    def test_random_grammars(self):
        rng = random.Random(6)
        tables = [small_random(rng) for _ in range(1500)] + [dense(rng) for _ in range(1000)]
        tables += dead_tables(rng, 100)
        tables += nearly_sentenceless(rng, 200)
        tables += [table_of(grown(rng, 4, 48)) for _ in range(60)]
        self.assertAlmostEqual(self.largest(tables), 0.4777, 4)

    def test_all_small_grammars(self):
        tables = [*every_table(1, 2, 9), *every_table(0, 1, 11), *every_table(2, 1, 8)]
        self.assertAlmostEqual(self.largest(tables), 0.4453, 4)

    def test_it_is_reported_with_either_verdict(self):
        rng = random.Random(7)
        kinds = set()
        for table in GOOD_ROWS + [small_random(rng) for _ in range(100)]:
            triples = triples_in(table)
            result = search(*table, needed(triples.states))
            self.assertEqual(result.looked, looked_at(triples))
            self.assertEqual(isinstance(result, Potential), is_potential(triples))
            kinds.add(type(result))
        self.assertEqual(kinds, {Potential, Unambiguous})


class MisreadingsTest(unittest.TestCase):
    def test_figures(self):
        for table, right, figures in [
            (ONE_A, 14, [8, 14, 14, 10, 14, 14, 14, 14]),
            (CYCLE, 55, [32, 54, 45, 25, 55, 50, 55, 49]),
            (NESTED, 46, [25, 46, 46, 29, 46, 46, 46, 44]),
            (TWO_EMPTY, 235, [133, 230, 197, 70, 239, 64, 89, 103]),
            (EIGHT_CHANNELS, 163, [94, 161, 145, 89, 163, 163, 163, 163]),
        ]:
            triples = triples_in(table)
            self.assertEqual(looked_at(triples), right)
            self.assertEqual([figure(triples) for figure in FIGURES.values()], figures)

    def test_each_is_told_from_6(self):
        rng = random.Random(8)
        told = set()
        for table in [*dead_tables(rng, 5), *(dense(rng) for _ in range(20))]:
            told.update(told_by_figure(good(table)))
        self.assertEqual(told, set(TOLD.values()))

    def test_dead_rules(self):
        self.assertIn(TOLD[DEAD], told_by_figure(good(spelled("S: a | A", "A: A"))))
        self.assertNotIn(TOLD[DEAD], told_by_figure(good(ONE_A)))


if __name__ == "__main__":
    unittest.main()
