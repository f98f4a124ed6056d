"""Tests of triples.py: document 01's figures, step records, successors."""

import random
import unittest

from automaton import after_dot, automaton_of, items_of, move_count
from case_grammars import (
    CLASSICS, COURSE, GOOD_ROWS, ONE_A, ONE_A_BYTES, ROWS, small_random, spelled, triples_in,
)
from dead_grammars import dead_tables
from random_tables import S, a
from tables import START, check_table
from test_live import by_definition
from triples import (
    STILL, Step, Triple, Triples, certificate_length, certificate_of, choice_count,
    held_indices, index_of, is_potential, reached, steps, triple_at,
)


def opening(rule):
    return ("opening", rule)


def closing(rule):
    return ("closing", rule)


def symbol(code):
    return ("symbol", code)


class FiguresTest(unittest.TestCase):
    """Document 01, "Grammars on file", those with a sentence; document 02's course."""

    def test_verdicts(self):
        verdicts = [is_potential(triples_in(row)) for row in GOOD_ROWS]
        self.assertEqual(verdicts, [False] * 4 + [True] * 3 + [False])

    def test_sizes(self):
        sizes = [len(reached(triples_in(row))) for row in ROWS[1:5]]
        self.assertEqual(sizes, [10, 11, 24, 30])

    def test_the_course(self):
        triples = triples_in(COURSE)
        self.assertEqual((triples.states, is_potential(triples), len(reached(triples))),
                         (10, False, 11))

    def test_size_of_the_row_with_17_states(self):
        triples = triples_in(ROWS[9])
        self.assertEqual((triples.states, len(reached(triples))), (17, 82))

    def test_moves_and_choices_of_one_a(self):
        triples = triples_in(ONE_A)
        self.assertEqual(move_count(triples.automaton), 6)
        self.assertEqual(choice_count(triples), 14)

    def test_certificate_of_one_a(self):
        triples = triples_in(ONE_A)
        certificate = certificate_of(triples.states, reached(triples))
        self.assertEqual(certificate, ONE_A_BYTES)

    def test_a_nonterminal_shift_is_not_forgotten(self):
        self.assertIn(3 * 6 + 3, reached(triples_in(ONE_A)))


class IndexTest(unittest.TestCase):
    def test_index(self):
        self.assertEqual(index_of(6, Triple(1, 1, 1)), 43)
        self.assertEqual(index_of(256, Triple(1, 255, 255)), 131071)
        self.assertEqual(index_of(1024, Triple(1, 1023, 1023)), 2097151)

    def test_triple_of_an_index(self):
        for index in range(2 * 7 * 7):
            self.assertEqual(index_of(7, triple_at(7, index)), index)
        self.assertEqual(triple_at(7, 98), Triple(2, 0, 0))

    def test_certificate_lengths(self):
        lengths = [certificate_length(states) for states in (4, 5, 6, 9, 27, 256, 1024)]
        self.assertEqual(lengths, [4, 7, 9, 21, 183, 16384, 262144])

    def test_bits(self):
        self.assertEqual(certificate_of(4, [0, 9, 31]), bytes([1, 2, 0, 128]))
        self.assertEqual(held_indices(bytes([1, 2, 0, 128])), [0, 9, 31])


class StepsTest(unittest.TestCase):
    def steps(self, lines, triple, *expected):
        automaton = automaton_of(check_table(*spelled(*lines)))
        self.assertEqual(steps(automaton, Triple(*triple)), [
            Step(Triple(*following), left, right) for following, left, right in expected])

    def test_the_start(self):
        self.steps(["S: a"], (0, 0, 0),
                   ((0, 0, 2), STILL, opening(0)), ((0, 2, 0), opening(0), STILL))

    def test_layer_0_opens_and_shifts_a_nonterminal(self):
        self.steps(["S: a"], (0, 2, 2),
                   ((0, 2, 4), STILL, opening(1)), ((0, 3, 3), symbol(S), symbol(S)),
                   ((0, 4, 2), opening(1), STILL))

    def test_layer_0_shifts_a_terminal(self):
        self.steps(["S: a"], (0, 4, 4), ((0, 5, 5), symbol(a), symbol(a)))

    def test_layer_1_shifts_no_nonterminal(self):
        self.steps(["S: a"], (1, 2, 2),
                   ((1, 2, 4), STILL, opening(1)), ((1, 4, 2), opening(1), STILL))

    def test_layer_1_shifts_a_terminal(self):
        self.steps(["S: a"], (1, 4, 4), ((1, 5, 5), symbol(a), symbol(a)))

    def test_unequal_symbols_do_not_shift(self):
        # 4 and 5 S→a, 6 and 7 S→b
        self.steps(["S: a | b"], (0, 4, 6))
        self.steps(["S: a | b"], (1, 4, 6))

    def test_equal_closings_do_not_part(self):
        # 4 to 6 S→a S, 7 S→: rule 2 returns to 3 and to 6
        self.steps(["S: a S |"], (0, 7, 7))
        self.steps(["S: a"], (0, 3, 3))

    def test_both_close(self):
        self.steps(["S: a S |"], (0, 6, 7),
                   ((1, 3, 3), closing(1), closing(2)), ((1, 3, 6), closing(1), closing(2)),
                   ((1, 6, 3), closing(1), closing(2)), ((1, 6, 6), closing(1), closing(2)))

    def test_rule_0_closes_too(self):
        self.steps(["S: a"], (0, 3, 5), ((1, 1, 3), closing(0), closing(1)))
        self.steps(["S: a"], (1, 3, 5),
                   ((1, 1, 5), closing(0), STILL), ((1, 3, 3), STILL, closing(1)))

    def test_one_closes_and_the_other_stands_before_a_terminal(self):
        self.steps(["S: a"], (0, 5, 4), ((1, 3, 4), closing(1), STILL))
        self.steps(["S: a"], (0, 4, 5), ((1, 4, 3), STILL, closing(1)))

    def test_no_parting_beside_a_nonterminal(self):
        self.steps(["S: a"], (0, 5, 2), ((0, 5, 4), STILL, opening(1)))
        self.steps(["S: a"], (0, 5, 1))

    def test_layer_1_closes_alone(self):
        self.steps(["S: a"], (1, 5, 5),
                   ((1, 3, 5), closing(1), STILL), ((1, 5, 3), STILL, closing(1)))
        self.steps(["S: a"], (1, 5, 4), ((1, 3, 4), closing(1), STILL))

    def test_the_end_has_none(self):
        for triple in ((0, 1, 1), (1, 1, 1)):
            self.steps(["S: a"], triple)

    def test_back_to_itself_by_openings(self):
        # 4 and 5 S→S, 6 and 7 S→a
        self.steps(["S: S | a"], (0, 4, 4),
                   ((0, 4, 4), opening(1), STILL), ((0, 4, 4), STILL, opening(1)),
                   ((0, 4, 6), STILL, opening(2)), ((0, 5, 5), symbol(S), symbol(S)),
                   ((0, 6, 4), opening(2), STILL))

    def test_back_to_itself_stands_before_a_lower_index(self):
        self.steps(["S: S | a"], (1, 5, 5),
                   ((1, 5, 5), closing(1), STILL), ((1, 5, 5), STILL, closing(1)),
                   ((1, 3, 5), closing(1), STILL), ((1, 5, 3), STILL, closing(1)))
        self.steps(["S: S | a"], (1, 0, 5),
                   ((1, 0, 5), STILL, closing(1)), ((1, 0, 3), STILL, closing(1)),
                   ((1, 2, 5), opening(0), STILL))

    def test_items_of_dead_rules_stay_and_part_nothing(self):
        # 4 and 5 S→a, 6 and 7 S→A, 8 and 9 A→A
        course = ["S: a | A", "A: A"]
        self.steps(course, (0, 2, 6), ((0, 4, 6), opening(1), STILL))
        self.steps(course, (0, 2, 2), ((0, 2, 4), STILL, opening(1)),
                   ((0, 3, 3), symbol(S), symbol(S)), ((0, 4, 2), opening(1), STILL))
        self.steps(course, (1, 5, 9), ((1, 3, 9), closing(1), STILL))
        for triple in ((0, 5, 9), (0, 6, 6), (0, 9, 8), (1, 8, 8)):
            self.steps(course, triple)
        # 4 and 5 S→a, 6 to 8 S→a W, 9 and 10 W→W
        endless = ["S: a | a W", "W: W"]
        self.steps(endless, (0, 4, 6))
        self.steps(endless, (0, 5, 6))
        self.steps(endless, (1, 6, 5), ((1, 6, 3), STILL, closing(1)))

    def test_out_of_range_has_none(self):
        for triple in ((2, 0, 0), (0, 6, 0), (0, 0, 6), (0, 0, 36), (2 ** 32 - 1,) * 3):
            self.steps(["S: a"], triple)


class OrderTest(unittest.TestCase):
    def test_order_of_all_records(self):
        for table in GOOD_ROWS + list(CLASSICS.values()):
            triples = triples_in(table)
            for index in range(triples.count):
                self.in_order(triples, triple_at(triples.states, index))

    def in_order(self, triples: Triples, triple: Triple):
        """Those back to itself first, left before right; the others ascend."""
        records = steps(triples.automaton, triple)
        back = [record for record in records if record.next == triple]
        self.assertEqual(records[:len(back)], back)
        self.assertLessEqual(len(back), 2)
        if len(back) == 2:
            self.assertEqual((back[0].right, back[1].left), (STILL, STILL))
        rest = [index_of(triples.states, record.next) for record in records[len(back):]]
        self.assertEqual(rest, sorted(set(rest)))


class DefinitionTest(unittest.TestCase):
    """Successors, found by asking of every pair of triples what the documents say.

    An item of a rule that is not live is None here: it has no moves, stands before
    no terminal, and no move leads to it.
    """

    def follows(self, items, one, other):
        if one.layer == 0 and other.layer == 0:
            return (self.alone(self.opens, items, one, other)
                    or self.shift(items, one, other, 65536))
        if one.layer == 0:
            return self.parts(items, one, other)
        return other.layer == 1 and (
            self.alone(self.opens, items, one, other)
            or self.alone(self.closes, items, one, other)
            or self.shift(items, one, other, START))

    def alone(self, moves, items, one, other):
        left, right = (one.left, other.left), (one.right, other.right)
        return (moves(items, *left) and right[0] == right[1]
                or moves(items, *right) and left[0] == left[1])

    def shift(self, items, one, other, limit):
        codes = after_dot(items[one.left]), after_dot(items[one.right])
        return (codes[0] is not None and codes[0] == codes[1] and codes[0] < limit
                and other.left == one.left + 1 and other.right == one.right + 1)

    def parts(self, items, one, other):
        left = self.closes(items, one.left, other.left)
        right = self.closes(items, one.right, other.right)
        if left and right:
            return items[one.left].rule != items[one.right].rule
        return (left and one.right == other.right and self.at_terminal(items, one.right)
                or right and one.left == other.left and self.at_terminal(items, one.left))

    def opens(self, items, state, to):
        if items[to] is None or items[to].dot != 0:
            return False
        return (state, to) == (0, 2) or after_dot(items[state]) == items[to].left

    def closes(self, items, state, to):
        item, past = items[state], items[to]
        if item is None or after_dot(item) is not None:
            return False
        if state == 3:
            return to == 1
        return past is not None and past.dot > 0 and past.right[past.dot - 1] == item.left

    def at_terminal(self, items, state):
        code = after_dot(items[state])
        return code is not None and code < START

    def test_all_pairs_of_small_grammars(self):
        rng = random.Random(7)
        tables = GOOD_ROWS[:-1] + [small_random(rng) for _ in range(60)]
        tables += dead_tables(rng, 5, lambda grammar: grammar.states <= 10)
        for table in tables:
            grammar = check_table(*table)
            if grammar.states > 10:
                continue
            live = by_definition(grammar)
            items = [item if item is not None and live[item.rule] else None
                     for item in items_of(grammar)]
            triples = triples_in(table)
            every = [triple_at(grammar.states, index) for index in range(triples.count)]
            for index, one in enumerate(every):
                following = [place for place, other in enumerate(every)
                             if self.follows(items, one, other)]
                self.assertEqual(triples.successors(index), tuple(following))


if __name__ == "__main__":
    unittest.main()
