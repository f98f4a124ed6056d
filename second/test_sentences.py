"""Tests of document 02's [4]: sentences against trees, the grammars, misreadings and reasons."""

import random
import unittest
from collections import Counter

from case_grammars import (
    CLASSICS, COURSE, ENDLESS, GOOD_ROWS, NO_RULES, ONE_A, ROWS, grammar_of, larger_random,
    small_random, spelled, triples_in,
)
from dead_grammars import chains, dead_tables
from derivations import finite_roots
from random_tables import A, B, S, a, encode
from sentence_grammars import (
    BY_HAND, NEAR, NEAR_BY_HAND, NONE, faulty_sentenceless, large_sentenceless,
    nearly_sentenceless, sentenceless,
)
from sentence_misreadings import HAS_SENTENCE, TOLD, TOLD_BY_RULES, a_longer_sentence, told
from sentence_reasons import NEAR_REASONS, NONE_REASONS, REASONS, has_tree, loose_rules, of_table
from small_grammars import every_table
from tables import (
    MAX_RULES, MAX_STATES, Grammar, Refusal, check_rules, check_table, codes_of,
    finite_nonterminals, has_sentence,
)
from test_live import sets_of_rules
from test_trees import written_out
from trees import tree_count
from triples import reached

WITHOUT = Refusal(19, 0)


def rules_in(table):
    return codes_of(grammar_of(table))


class DefinitionTest(unittest.TestCase):
    """"A grammar in which S has no finite tree"."""

    def as_defined(self, tables, fewest):
        counts = Counter()
        for table in tables:
            grammar = grammar_of(table)
            found = {code for code, sets in sets_of_rules(grammar).items() if sets}
            self.assertEqual(finite_nonterminals(codes_of(grammar)), found)
            self.assertEqual(check_table(*table), grammar if S in found else WITHOUT)
            counts[S in found] += 1
        self.assertGreaterEqual(min(counts.values()), fewest, counts)

    def test_all_small_grammars(self):
        self.as_defined(list(every_table(1, 2, 10)) + list(every_table(0, 3, 9)), 1000)

    def test_random_grammars(self):
        rng = random.Random(1)
        tables = [*dead_tables(rng, 30), *chains(rng, (2, 5)), *sentenceless(rng, 20)]
        tables += [*nearly_sentenceless(rng, 20)] + [small_random(rng) for _ in range(100)]
        self.as_defined([table for table in tables if table[1] < 40], 100)

    def test_rows_of_trees(self):
        """Trees written out, if there are any; and sentences counted."""
        rng = random.Random(2)
        tables = [*sentenceless(rng, 8), *nearly_sentenceless(rng, 20)]
        for table in tables + [small_random(rng) for _ in range(60)]:
            grammar = grammar_of(table)
            rows = written_out(grammar, 5)
            if rows is not None:
                passed = isinstance(check_table(*table), Grammar)
                self.assertTrue(passed or not rows)
                self.assertTrue(all(tree_count(grammar, row) for row in rows[:3]))

    def test_the_empty_sentence(self):
        for table in [(0, 1, encode([(S, ())])), spelled("S: A A", "A: B |", "B: A"),
                      spelled("S: a W | ", "W: W")]:
            self.assertEqual(tree_count(grammar_of(table), ()) > 0, True)
            self.assertIsInstance(check_table(*table), Grammar)
            self.assertFalse(a_longer_sentence(rules_in(table)))

    def test_more_rules_never_take_the_sentence_away(self):
        rng = random.Random(3)
        for table in [small_random(rng) for _ in range(200)]:
            rules = rules_in(table)
            fronts = [has_sentence(rules[:end]) for end in range(len(rules) + 1)]
            self.assertEqual(fronts, sorted(fronts))

    def test_both_ways_to_find_finite_trees(self):
        rng = random.Random(4)
        for table in [larger_random(rng, 200), *large_sentenceless(rng, 4), *ROWS]:
            rules = rules_in(table)
            found = sorted(finite_roots(rules))
            self.assertEqual(finite_nonterminals(rules), set(found))

    def test_finite_nonterminals(self):
        rules = rules_in(spelled("S: A B", "A: a", "B: B | A C", "C:", "D: D"))
        self.assertEqual(finite_nonterminals(rules), {S, S + 1, S + 2, S + 3})
        self.assertEqual(finite_nonterminals([]), set())


class GrammarsTest(unittest.TestCase):
    """The grammars of sentence_grammars.py."""

    def test_without_a_sentence(self):
        rng = random.Random(5)
        tables = list(sentenceless(rng, 12))
        self.assertEqual(len(tables), len(BY_HAND) + 12 * len(NONE))
        for table in tables:
            self.assertEqual(check_table(*table), WITHOUT)
            self.assertEqual(reached(triples_in(table)), {0})

    def test_nearly_without_a_sentence(self):
        tables = list(nearly_sentenceless(random.Random(6), 12))
        self.assertEqual(len(tables), len(NEAR_BY_HAND) + 12 * len(NEAR))
        for table in tables:
            self.assertIsInstance(check_table(*table), Grammar)
        first, last = tables[-24:-12], tables[-12:]
        for table in first:
            self.assertFalse(has_tree(rules_in(table)[1:]))
        for table in last:
            self.assertFalse(has_tree(rules_in(table)[:-1]))
        for table in tables[len(NEAR_BY_HAND):-24]:
            self.assertFalse(a_longer_sentence(rules_in(table)))

    def test_large(self):
        tables = list(large_sentenceless(random.Random(7), 20))
        grammars = [grammar_of(table) for table in tables]
        self.assertTrue(all(len(grammar.rules) == MAX_RULES or grammar.states == MAX_STATES
                            for grammar in grammars))
        self.assertEqual({check_table(*table) for table in tables}, {WITHOUT})

    def test_faulty(self):
        counts = Counter()
        for table in faulty_sentenceless(random.Random(8), 3):
            refusal = check_table(*table)
            self.assertEqual(refusal, check_rules(*table))
            counts[refusal.cause] += 1
            self.assertFalse(has_tree(loose_rules(table[2])))
        self.assertEqual(counts, {cause: 3 for cause in range(1, 9)})


class MisreadingsTest(unittest.TestCase):
    def test_by_hand(self):
        for table, names in [
            (NO_RULES, ["19-is-never-given"]),
            (ENDLESS, ["19-is-never-given", "a-rule-of-S-is-enough"]),
            ((1, 2, encode([(A, (a,)), (S, (S,))])), [
                "19-is-never-given", "a-rule-of-S-is-enough",
                "a-finite-tree-of-another-is-enough"]),
            ((0, 1, encode([(S, ())])), ["the-empty-sentence-is-none"]),
            (COURSE, ["every-nonterminal-needs-a-finite-tree"]),
            (spelled("S: A", "A: a"), [
                "each-rule-is-looked-at-once", "S-needs-a-rule-without-nonterminals"]),
            ((1, 2, encode([(A, (a,)), (S, (A,))])), [
                "S-needs-a-rule-without-nonterminals"]),
            (ONE_A, []),
        ]:
            self.assertEqual(told(rules_in(table)), [TOLD[name] for name in names])

    def test_each_is_told(self):
        rng = random.Random(9)
        found = Counter()
        for table in [*sentenceless(rng, 8), *nearly_sentenceless(rng, 8), *dead_tables(rng, 4)]:
            found.update(told(rules_in(table)))
        self.assertEqual(set(found), set(TOLD_BY_RULES))
        self.assertEqual(len(TOLD_BY_RULES), len(HAS_SENTENCE))
        self.assertGreater(min(found.values()), 5)

    def test_a_longer_sentence(self):
        rng = random.Random(10)
        for table in [small_random(rng) for _ in range(150)] + [*nearly_sentenceless(rng, 20)]:
            grammar = grammar_of(table)
            rows = written_out(grammar, 5)
            if rows is not None and any(rows):
                self.assertTrue(a_longer_sentence(rules_in(table)))


class ReasonsTest(unittest.TestCase):
    def reasons(self, table, *names):
        found = of_table(*table)
        self.assertEqual([name for name in found if not name.startswith("told-")], list(names))
        self.assertLessEqual(set(found), set(REASONS))

    def test_without_a_sentence(self):
        self.reasons(NO_RULES, "19-no-rules")
        self.reasons(ENDLESS, "19-every-rule-of-S-needs-S")
        self.reasons((1, 2, encode([(A, (a,))])), "19-no-rule-of-S",
                     "19-though-another-has-a-finite-tree")
        self.reasons((1, 2, encode([(A, (S,))])), "19-no-rule-of-S",
                     "19-S-on-right-sides-only")
        self.reasons(spelled("S: A", "A: S"), "19-S-needs-another")
        self.reasons((0, 3, encode([(S, (A, B)), (A, ())])), "19-S-needs-another",
                     "19-though-another-has-a-finite-tree")

    def test_with_a_sentence(self):
        self.reasons(ONE_A)
        self.reasons(spelled("S: S |"), "only-the-empty-sentence",
                     "a-sentence-by-the-last-rule-alone")
        self.reasons(spelled("S: S | a"), "a-sentence-by-the-last-rule-alone")
        self.reasons(spelled("S: a | S"))
        for table in GOOD_ROWS + list(CLASSICS.values()):
            self.assertTrue(set(of_table(*table)).isdisjoint(NONE_REASONS))

    def test_other_faults(self):
        self.reasons((2001, 1, ()), "order-1-to-7-before-19")
        self.reasons((0, 1, (S, 1)), "order-1-to-7-before-19")
        self.reasons((0, 1, (S, 0, S, 0)))
        long = [(A, (1 + place,) * 12) for place in range(80)]
        self.reasons((80, 2, encode(long)), "order-8-before-19")
        self.assertIn("told-from-19-comes-before-8", of_table(80, 2, encode(long)))
        self.reasons((80, 2, encode([(S, ())] + long)))

    def test_loose_rules(self):
        self.assertEqual(loose_rules((S, 1, 7, 0, 0, S, 2, S)),
                         [(S, (7,)), (0, ())])
        self.assertEqual(loose_rules((S,)), [])

    def test_names(self):
        self.assertEqual(len(set(REASONS)), len(REASONS))
        self.assertTrue(set(NEAR_REASONS).isdisjoint(NONE_REASONS))


if __name__ == "__main__":
    unittest.main()
