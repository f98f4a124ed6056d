"""Figures that tell misreadings apart: of document 01's steps, and of document 02's [3].

The steps are told by grammars all of whose rules are live and that have a sentence.
"""

import random
import unittest

from case_grammars import (
    CLASSICS, COURSE, ENDLESS, NO_RULES, good, grammar_of, small_random, spelled, triples_in,
)
from dead_grammars import dead_tables, telling_tables
from live_misreadings import (
    FORMER, MISREAD, REACHED, TOLD, WRONG_STEPS, former_triples, misread_triples, told_by_search,
    wrong_steps,
)
from shortest import shortest_witness
from small_grammars import every_table
from tables import START
from triples import (
    CLOSING, FIRST, LAST, OPENING, Triple, choice_count, is_potential, reached, steps, triple_at,
    triples_of, unordered_steps,
)


# Steps misread.

def one_of_two_closings_moves(automaton, triple):
    """A parting by two closings, of which either moves and the other stays."""
    found = []
    for step in unordered_steps(automaton, triple):
        if triple.layer < step.next.layer and step.left[0] == step.right[0] == CLOSING:
            found.append(step.next._replace(left=triple.left))
            found.append(step.next._replace(right=triple.right))
        else:
            found.append(step.next)
    return found


def layer_1_forgets_openings(automaton, triple):
    return [step.next for step in unordered_steps(automaton, triple)
            if triple.layer == 0 or OPENING not in (step.left[0], step.right[0])]


def layer_1_shifts_nonterminals(automaton, triple):
    found = [step.next for step in unordered_steps(automaton, triple)]
    left, right = automaton.shifts[triple.left], automaton.shifts[triple.right]
    if triple.layer == 1 and left and right and left[0] == right[0] >= START:
        found.append(Triple(1, left[1], right[1]))
    return found


def all_reached(automaton, following):
    """The triples reached from (0,0,0), in order of their distance."""
    row = {FIRST: 1}
    waiting = [FIRST]
    for triple in waiting:
        for other in following(automaton, triple):
            if other not in row:
                row[other] = row[triple] + 1
                waiting.append(other)
    return row


class StepsTest(unittest.TestCase):
    def figures(self, lines):
        """Q, whether potential, and the size."""
        triples = triples_in(spelled(*lines))
        return triples.states, is_potential(triples), len(reached(triples))

    def misread(self, lines, following):
        """Whether potential, and the size."""
        row = all_reached(triples_in(spelled(*lines)).automaton, following)
        return LAST in row, len(row)

    def test_only_one_of_two_closings_moves(self):
        lines = ["S: | A a", "A:"]
        self.assertEqual(self.figures(lines), (9, False, 32))
        self.assertEqual(self.misread(lines, one_of_two_closings_moves), (False, 38))

    def test_layer_1_forgets_openings(self):
        lines = ["S: | a S a"]
        self.assertEqual(self.figures(lines)[:2], (9, True))
        self.assertEqual(self.misread(lines, layer_1_forgets_openings), (False, 38))

    def test_nonterminals_shifted_in_layer_1_change_the_shortest_witness(self):
        triples = triples_in(spelled("S: | S a S"))
        self.assertEqual((triples.states, len(shortest_witness(triples))), (9, 17))
        row = all_reached(triples.automaton, layer_1_shifts_nonterminals)
        self.assertEqual(row[LAST], 16)

    def test_nonterminals_shifted_in_layer_1_change_the_number_of_choices(self):
        triples = triples_in(spelled("S: | S S"))
        self.assertEqual((triples.states, choice_count(triples)), (8, 235))
        count = sum(len(layer_1_shifts_nonterminals(triples.automaton, triple_at(8, index)))
                    for index in reached(triples))
        self.assertEqual(count, 239)

    def test_nonterminals_shifted_in_layer_1_change_no_set(self):
        rng = random.Random(1)
        tables = list(every_table(1, 2, 9)) + list(dead_tables(rng, 20))
        for table in tables + [small_random(rng) for _ in range(100)]:
            triples = triples_in(table)
            row = all_reached(triples.automaton, layer_1_shifts_nonterminals)
            self.assertEqual(len(row), len(reached(triples)))


class LiveTest(unittest.TestCase):
    """The misreadings of live_misreadings.py."""

    def found(self, table, name):
        """Potential or the size, in a misreading."""
        triples = misread_triples(grammar_of(table), name)
        return "potential" if is_potential(triples) else len(reached(triples))

    def test_figures(self):
        for table, right, names in [
            (COURSE, 11, {FORMER: "potential", "unproductive-rules-are-taken": "potential",
                          "dead-items-are-entered": 18}),
            (spelled("S: a S |", "U: S"), 29,
             {FORMER: 31, "unreachable-rules-are-taken": 31, "dead-items-are-entered": 31}),
            (CLASSICS["behind-an-endless-one"], 30,
             {FORMER: "potential", "unreachable-rules-are-taken": "potential",
              "unproductive-rules-are-taken": "potential",
              "rules-behind-unproductive-ones-are-taken": "potential",
              "dead-items-are-entered": 43}),
            (spelled("S: A", "A: a"), 19, {"live-rules-are-found-in-one-round": 1}),
        ]:
            triples = triples_in(table)
            self.assertEqual((is_potential(triples), len(reached(triples))), (False, right))
            for name in MISREAD:
                self.assertEqual(self.found(table, name), names.get(name, right), name)
            self.assertEqual(set(told_by_search(good(table))), {TOLD[name] for name in names})

    def test_document_01s_figures(self):
        """Before [3]: "none" 5, S→S potential; both are refused since [4]."""
        self.assertEqual(self.found(NO_RULES, FORMER), 5)
        self.assertEqual(shortest_witness(former_triples(grammar_of(ENDLESS))),
                         (0, 2, 4, 16, 23, 45, 43))

    def different(self, lines, name):
        """The triples whose step records are others in a misreading."""
        grammar = good(spelled(*lines))
        right, wrong = triples_of(grammar), misread_triples(grammar, name)
        every = [triple_at(right.states, index) for index in range(right.count)]
        return [tuple(triple) for triple in every
                if steps(right.automaton, triple) != steps(wrong.automaton, triple)]

    def test_dead_items_before_a_terminal(self):
        # 4 and 5 S→a, 6 to 8 S→a W, 9 and 10 W→W; rules 0 and 1 close at 3 and 5.
        found = self.different(["S: a | a W", "W: W"], "dead-items-stand-before-terminals")
        self.assertEqual(found, [(0, 3, 6), (0, 5, 6), (0, 6, 3), (0, 6, 5)])

    def test_dead_items_that_move(self):
        found = self.different(["S: a | A", "A: A"], "dead-items-move")
        self.assertEqual(len(found), 114)
        self.assertTrue(all(max(triple[1:]) >= 6 for triple in found))

    def test_each_is_told_by_a_search(self):
        seen = set()
        for table in telling_tables(random.Random(2), 2):
            seen.update(told_by_search(good(table)))
        self.assertEqual(seen, {TOLD[name] for name in REACHED})

    def test_others_are_not(self):
        rng = random.Random(3)
        for table in dead_tables(rng, 20):
            right = reached(triples_in(table))
            for name in set(MISREAD) - set(REACHED):
                self.assertEqual(reached(misread_triples(good(table), name)), right)

    def test_wrong_steps(self):
        # 4 and 5 S→a, 6 to 8 S→W V, 9 and 10 W→W, 11 and 12 V→S, 13 and 14 U→S; Q = 15
        grammar = good(spelled("S: a | W V", "W: W", "V: S", "U: S"))

        def index(layer, left, right):
            return layer * 225 + left * 15 + right

        for before, after, name in [
            ((0, 2, 2), (0, 2, 6), WRONG_STEPS[0]), ((1, 5, 1), (1, 12, 1), WRONG_STEPS[3]),
            ((1, 5, 1), (1, 14, 1), WRONG_STEPS[2]), ((0, 5, 4), (1, 12, 4), WRONG_STEPS[3]),
        ]:
            self.assertEqual(wrong_steps(grammar, index(*before), index(*after)), [name])
        for before, after in [
            ((0, 2, 2), (0, 2, 4)), ((0, 6, 6), (0, 6, 9)), ((0, 2, 2), (0, 2, 9)),
        ]:
            self.assertEqual(wrong_steps(grammar, index(*before), index(*after)), [])
        self.assertEqual(wrong_steps(grammar, 450, 2), [])
        # 4 and 5 S→a, 6 to 8 S→S W: rule 1 closes to 7
        self.assertEqual(wrong_steps(good((1, 2, (START, 1, 1, START, 2, START, START + 1))),
                                     81 + 5 * 9 + 1, 81 + 7 * 9 + 1), WRONG_STEPS[1:2])


if __name__ == "__main__":
    unittest.main()
