"""Tests of searches.py: what must be lent, the order of faults, the answers."""

import random
import unittest

from case_grammars import CLASSICS, COURSE, GOOD_ROWS, ONE_A, ONE_A_BYTES, states_of
from certificates import check_certificate
from searches import Lent, Potential, Unambiguous, needed, search
from sentence_grammars import nearly_sentenceless, sentenceless
from tables import START, Refusal

PLENTY = Lent(20000, 140000, 140000, 140000)


class LentTest(unittest.TestCase):
    def test_needed(self):
        self.assertEqual(needed(4), Lent(4, 32, 32, 32))
        self.assertEqual(needed(9), Lent(21, 162, 162, 162))
        self.assertEqual(needed(256), Lent(16384, 131072, 131072, 131072))
        self.assertEqual(needed(1024), Lent(262144, 2097152, 2097152, 2097152))

    def test_each_too_short(self):
        for row in GOOD_ROWS:
            need = needed(states_of(row))
            self.assertNotIsInstance(search(*row, need), Refusal)
            for place in range(4):
                lent = list(PLENTY)
                lent[place] = need[place] - 1
                self.assertEqual(search(*row, Lent(*lent)), Refusal(14, 0))

    def test_nothing_lent(self):
        self.assertEqual(search(*ONE_A, Lent(0, 0, 0, 0)), Refusal(14, 0))

    def test_table_faults_come_first(self):
        for lent in (PLENTY, Lent(0, 0, 0, 0)):
            self.assertEqual(search(2001, 1, (), lent), Refusal(1, 0))
            self.assertEqual(search(1, 1, (START, 1), lent), Refusal(2, 0))
            self.assertEqual(search(1, 1, ONE_A[2] * 2, lent), Refusal(6, 3))

    def test_without_a_sentence(self):
        """19 "before anything about [...] lent rows"."""
        for table in sentenceless(random.Random(1), 10):
            need = needed(states_of(table))
            for lent in (PLENTY, need, Lent(0, 0, 0, 0), need._replace(queue=need.queue - 1)):
                self.assertEqual(search(*table, lent), Refusal(19, 0))

    def test_nearly_without_a_sentence(self):
        for table in nearly_sentenceless(random.Random(2), 10):
            self.assertNotIsInstance(search(*table, PLENTY), Refusal)
            self.assertEqual(search(*table, Lent(0, 0, 0, 0)), Refusal(14, 0))


class VerdictTest(unittest.TestCase):
    def test_one_a(self):
        for lent in (needed(6), PLENTY):
            self.assertEqual(search(*ONE_A, lent), Unambiguous(11, 14, ONE_A_BYTES))

    def test_rows(self):
        results = [search(*row, PLENTY) for row in GOOD_ROWS]
        self.assertEqual([result.size for result in results[:4] + results[7:]],
                         [10, 11, 24, 30, 82])
        self.assertEqual([type(result) for result in results[4:7]], [Potential] * 3)
        self.assertEqual(results[4].witness, (0, 2, 4, 20, 29, 75, 73))

    def test_the_course(self):
        result = search(*COURSE, PLENTY)
        self.assertEqual((result.size, len(result.certificate)), (11, 25))

    def test_the_certificate_is_accepted(self):
        for table in GOOD_ROWS + list(CLASSICS.values()):
            result = search(*table, PLENTY)
            if isinstance(result, Unambiguous):
                self.assertIsNone(check_certificate(*table, result.certificate))


class ClassicsTest(unittest.TestCase):
    def verdict(self, name):
        return type(search(*CLASSICS[name], PLENTY))

    def test_two_trees_are_always_potential(self):
        for name in ("expressions-ambiguous", "expressions-unary", "dangling-else",
                     "list-both", "brackets-both", "two-counts", "unit-cycle",
                     "hidden-left", "robot-loose"):
            self.assertIs(self.verdict(name), Potential, name)

    def test_unambiguous(self):
        for name in ("expressions-stratified", "expressions-right", "expressions-prefix",
                     "closed-else", "palindromes-marked", "list-left", "list-right",
                     "brackets-one", "json", "robot", "robot-channels", "never-opened",
                     "no-finite-tree", "left-in-a-course", "behind-an-endless-one",
                     "dead-rules-of-all-kinds"):
            self.assertIs(self.verdict(name), Unambiguous, name)

    def test_potential_though_truly_unambiguous(self):
        for name in ("palindromes-even", "palindromes-odd"):
            self.assertIs(self.verdict(name), Potential, name)


if __name__ == "__main__":
    unittest.main()
