"""Tests of automaton.py: states, items and moves of document 01; live rules of document 02, [3]."""

import random
import unittest

from automaton import Item, automaton_of, automaton_with, items_of, move_count
from case_grammars import (
    CLASSICS, COURSE, NO_RULES, ROWS, good, grammar_of, spelled, triples_in,
)
from dead_grammars import chains, dead_tables
from dead_rules import KINDS, NO_SENTENCE, kind_of
from random_tables import A, S, a, b, encode
from sentence_grammars import sentenceless
from shortest import shortest_witness
from small_grammars import every_table
from tables import check_table
from test_live import by_definition
from test_tables import STATES
from triples import index_of, reached, triple_at


def automaton(*lines):
    return automaton_of(check_table(*spelled(*lines)))


class StatesTest(unittest.TestCase):
    def test_states_of_the_grammars_on_file(self):
        counts = [automaton_of(grammar_of(row)).states for row in ROWS]
        self.assertEqual(counts, STATES)

    def test_items_come_rule_by_rule_and_dot_by_dot(self):
        grammar = check_table(*spelled("S: a S |", "A: b"))
        self.assertEqual(items_of(grammar), [
            None, None, Item(0, 0, (S,), 0), Item(0, 0, (S,), 1),
            Item(1, S, (a, S), 0), Item(1, S, (a, S), 1),
            Item(1, S, (a, S), 2), Item(2, S, (), 0),
            Item(3, A, (b,), 0), Item(3, A, (b,), 1)])


class MovesTest(unittest.TestCase):
    def test_one_rule(self):
        moves = automaton("S: a")
        self.assertEqual(moves.openings, (((0, 2),), (), ((1, 4),), (), (), ()))
        self.assertEqual(moves.closings, ((), (), (), ((0, 1),), (), ((1, 3),)))
        self.assertEqual(moves.shifts, (None, None, (S, 3), None, (a, 5), None))
        self.assertEqual(moves.before_terminal, (False,) * 4 + (True, False))

    def test_the_one_rule_has_6_moves(self):
        self.assertEqual(move_count(automaton("S: a")), 6)

    def test_a_state_opens_each_rule_of_its_nonterminal(self):
        moves = automaton("S: A b S | a", "A: S |")
        # 4 to 7 S→A b S, 8 and 9 S→a, 10 and 11 A→S, 12 A→
        self.assertEqual(moves.openings[4], ((3, 10), (4, 12)))
        self.assertEqual(moves.openings[6], ((1, 4), (2, 8)))
        self.assertEqual(moves.openings[10], ((1, 4), (2, 8)))
        self.assertEqual([moves.openings[state] for state in (5, 7, 8, 12)], [()] * 4)

    def test_a_rule_closes_to_every_item_just_past_its_nonterminal(self):
        moves = automaton("S: A b S | a", "A: S |")
        self.assertEqual(moves.closings[7], ((1, 3), (1, 7), (1, 11)))
        self.assertEqual(moves.closings[9], ((2, 3), (2, 7), (2, 11)))
        self.assertEqual(moves.closings[11], ((3, 5),))
        self.assertEqual(moves.closings[12], ((4, 5),))
        self.assertEqual([moves.closings[state] for state in (2, 4, 5, 6, 8, 10)], [()] * 6)

    def test_the_dot_passes_terminals_and_nonterminals(self):
        moves = automaton("S: A b S | a", "A: S |")
        self.assertEqual(moves.shifts[4:8], ((A, 5), (1, 6), (S, 7), None))



class LiveTest(unittest.TestCase):
    """Document 02, [3]."""

    def nothing(self, moves, states):
        for state in states:
            self.assertEqual((moves.openings[state], moves.closings[state]), ((), ()))
            self.assertIsNone(moves.shifts[state])
            self.assertFalse(moves.before_terminal[state])

    def test_without_a_sentence_nothing_moves(self):
        """No entry shows it, since [4] refuses these."""
        for table in sentenceless(random.Random(3), 8):
            moves = automaton_of(grammar_of(table))
            self.assertEqual(move_count(moves), 0)
            self.nothing(moves, range(moves.states))

    def test_the_course(self):
        moves = automaton_of(good(COURSE))
        # 4 and 5 S→a, 6 and 7 S→A, 8 and 9 A→A
        self.assertEqual(moves.states, 10)
        self.nothing(moves, range(6, 10))
        self.assertEqual(tuple(column[:6] for column in moves[1:]), automaton("S: a")[1:])

    def test_unreachable_rules(self):
        moves = automaton_of(good(CLASSICS["never-opened"]))
        # 4 to 6 S→a S, 7 S→, 8 to 10 U→S b, 11 to 13 U→U a
        self.assertEqual(moves.closings[7], ((2, 3), (2, 6)))
        self.nothing(moves, range(8, 14))

    def test_unproductive_rules(self):
        moves = automaton("S: a | b W S", "W: W S")
        # 4 and 5 S→a, 6 to 9 S→b W S, 10 to 12 W→W S
        self.assertEqual(moves.openings[2], ((1, 4),))
        self.assertEqual(moves.closings[5], ((1, 3),))
        self.nothing(moves, range(6, 13))

    def test_rules_behind_unproductive_ones(self):
        moves = automaton("S: a | W V", "W: W", "V: S")
        # 4 and 5 S→a, 6 to 8 S→W V, 9 and 10 W→W, 11 and 12 V→S
        self.assertEqual(moves.closings[5], ((1, 3),))
        self.nothing(moves, range(6, 13))

    def test_a_nonterminal_without_rules(self):
        moves = automaton_of(check_table(1, 2, (S, 1, A, S, 1, a)))
        self.assertEqual(moves.openings[2], ((2, 6),))
        self.nothing(moves, [4, 5])

    def test_document_01s_automaton_takes_every_rule(self):
        moves = automaton_with(good(CLASSICS["never-opened"]), [True] * 5)
        self.assertEqual(moves.closings[7], ((2, 3), (2, 6), (2, 9)))
        self.assertEqual(moves.closings[13], ((4, 12),))
        self.assertEqual(moves.openings[11], ((3, 8), (4, 11)))
        moves = automaton_with(grammar_of(NO_RULES), [True])
        self.assertEqual(moves.openings, (((0, 2),), (), (), ()))
        self.assertEqual(moves.closings, ((), (), (), ((0, 1),)))
        self.assertEqual(moves.shifts, (None, None, (S, 3), None))

    def test_each_move_of_small_grammars(self):
        """All moves of document 01's automaton between states that are no items of dead rules."""
        rng = random.Random(1)
        for table in list(every_table(1, 2, 9)) + list(dead_tables(rng, 30)):
            grammar = grammar_of(table)
            live, items = by_definition(grammar), items_of(grammar)
            there = [item is None or live[item.rule] for item in items]
            moves, every = automaton_of(grammar), automaton_with(grammar, [True] * len(live))
            for state, stays in enumerate(there):
                for found, all_moves in ((moves.openings, every.openings),
                                         (moves.closings, every.closings)):
                    kept = tuple(arrow for arrow in all_moves[state] if stays and there[arrow[1]])
                    self.assertEqual(found[state], kept)
                self.assertEqual(moves.shifts[state], every.shifts[state] if stays else None)
                self.assertEqual(moves.before_terminal[state],
                                 stays and every.before_terminal[state])


class PrunedTest(unittest.TestCase):
    """The automaton is that of the grammar without its dead rules, but for the numbers."""

    def pruned(self, grammar):
        """The table without dead rules, and by state of the grammar its state there."""
        live, items = by_definition(grammar), items_of(grammar)
        rules = [rule[1:] for rule, stays in zip(grammar.rules, live[1:]) if stays]
        there = [state for state, item in enumerate(items) if item is None or live[item.rule]]
        table = grammar.terminals, grammar.nonterminals, encode(rules)
        return table, {state: place for place, state in enumerate(there)}

    def renumbered(self, states, numbers, indices):
        """These indices with the other states, in the same order."""
        found = []
        for layer, left, right in (triple_at(states, index) for index in indices):
            triple = triple_at(states, 0)._replace(
                layer=layer, left=numbers[left], right=numbers[right])
            found.append(index_of(len(numbers), triple))
        return found

    def test_same_sets_and_witnesses(self):
        rng = random.Random(2)
        counts = {kind: 0 for kind in KINDS}
        tables = list(dead_tables(rng, 40)) + list(chains(rng, (2, 9)))
        for table in tables + list(every_table(0, 3, 9)):
            grammar = grammar_of(table)
            kind = kind_of(grammar)
            if kind in (None, NO_SENTENCE):
                continue
            counts[kind] += 1
            triples = triples_in(table)
            other, numbers = self.pruned(grammar)
            self.assertIsNone(kind_of(good(other)))
            found = self.renumbered(triples.states, numbers, sorted(reached(triples)))
            self.assertEqual(found, sorted(reached(triples_in(other))))
            witness = shortest_witness(triples)
            if witness is not None:
                found = self.renumbered(triples.states, numbers, witness)
                self.assertEqual(tuple(found), shortest_witness(triples_in(other)))
        self.assertGreater(min(counts.values()), 40)


if __name__ == "__main__":
    unittest.main()
