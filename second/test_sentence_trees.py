"""Tests of sentence_trees.py: answers by hand and against trees written out, lists, refusals, what is changed."""

import random
import unittest
from itertools import product

from case_grammars import (
    CLASSICS, CYCLE, EIGHT_CHANNELS, ENDLESS, GOOD_ROWS, NO_RULES, ONE_A, ROWS, dense, good, grammar_of, small_random,
    spelled, states_of, triples_in,
)
from corpus import AMBIGUOUS, coded, entries, found_in, text_in
from dead_grammars import dead_tables
from sentence_grammars import sentenceless
from sentence_trees import (
    NONE, ONE, SEVERAL, Forest, Lent, Trees, find_trees, row_fault, rows_after, trees_of, trees_room, work_entries,
)
from small_grammars import every_table
from tables import START, Grammar, Refusal, check_table
from tree_grammars import (
    ALL_EMPTY, AMBIGUOUS_BESIDE, CYCLE_BY_EMPTY, CYCLE_ELSEWHERE, CYCLE_OF_EMPTY, EMPTY_PARTS, EMPTY_POWERS, HIDDEN_ONE,
    HIDDEN_RIGHT, ONE_ORDER, POWERS, POWERS_AND_ONE, TWO_BEFORE_A_FALSE_END, beside_ambiguous, doubled, every_row, long_sentences, long_units, sentence,
    sentences, with_more, word_lists,
)
from tree_inputs import held_before
from tree_reasons import applied, number_of_trees
from trees import tree_count
from triples import is_potential

NODES = 7                 # of the trees that are written out
MORE_NODES = 11           # of those of a row that has several, but not among these
MOST = 4000               # of these trees by nonterminal and number of nodes
PLENTY = Lent(10 ** 7, 10 ** 6)


def written_out(grammar, nodes, longest):
    """By row the lists of rules of all trees of at most so many nodes; None if they are too many."""
    # By number of nodes and nonterminal: rules and row of every tree of it.
    trees = [{}]
    for size in range(1, nodes + 1):
        found = {}
        for number, rule in enumerate(grammar.rules, 1):
            found.setdefault(rule.left, [])
            found[rule.left] += [((number, *rules), row) for rules, row in of_right(trees, rule.right, size - 1)
                                 if len(row) <= longest]
            if len(found[rule.left]) > MOST:
                return None
        trees.append(found)
    rows = {}
    for found in trees:
        for rules, row in found.get(START, []):
            rows.setdefault(row, []).append(rules)
    return rows


def of_right(trees, right, nodes):
    """Rules and row of every choice of trees of a right side with so many nodes together."""
    if not right:
        return [((), ())] if nodes == 0 else []
    code, *others = right
    if code < START:
        return [(rules, (code, *row)) for rules, row in of_right(trees, others, nodes)]
    return [(rules + more, row + rest)
            for size in range(1, nodes + 1) for rules, row in trees[size].get(code, [])
            for more, rest in of_right(trees, others, nodes - size)]


class AnswerTest(unittest.TestCase):
    def trees(self, table, row, *rules):
        """One tree with these rules; none or several are their words."""
        found = find_trees(*table, tuple(row), PLENTY)
        if rules in ((NONE,), (SEVERAL,)):
            self.assertEqual(found, Trees(rules[0], (), 65 * 65 * states_of(table)))
        else:
            self.assertEqual(found, Trees(ONE, rules, 65 * 65 * states_of(table)))

    def test_rows(self):
        self.trees(ROWS[1], [], 1)
        for count, rules in enumerate([(NONE,), (1,), (NONE,)]):
            self.trees(ONE_A, [1] * count, *rules)
        self.trees(ROWS[3], [], NONE)
        self.trees(ROWS[3], [1] * 64, *[1] * 63, 2)
        self.trees(ROWS[4], [], 2)
        self.trees(ROWS[4], [1] * 32 + [2] * 32, *[1] * 32, 2)
        self.trees(ROWS[4], [1] * 31 + [2] * 32, NONE)
        self.trees(ROWS[7], [1] * 63, *[1] * 31, 2)
        self.trees(ROWS[7], [1] * 64, NONE)
        self.trees(ROWS[8], [], SEVERAL)
        self.trees(ROWS[9], [1, 1], 2, 5)
        self.trees(ROWS[9], [1, 1, 1], 1, 3, 4)
        self.trees(ROWS[9], [1] * 4, NONE)

    def test_order(self):
        """"listed from the root, children left to right": a node before its children's subtrees."""
        self.trees(ONE_ORDER, [2, 1], 1, 2, 4, 3)
        self.trees(CLASSICS["expressions-prefix"], [1, 2, 3, 3, 3], 1, 2, 3, 3, 3)
        self.trees(CLASSICS["expressions-postfix"], [3, 3, 3, 2, 1], 1, 3, 2, 3, 3)

    def test_eight_channels(self):
        """[14]: take, vol, give, repeat, num, close, ch, sep have codes 1 to 8 in their order in the rules."""
        self.assertEqual(EIGHT_CHANNELS[:2], (8, 3))
        take, vol, give, repeat, num, close, ch, sep = 1, 2, 3, 4, 5, 6, 7, 8
        self.trees(EIGHT_CHANNELS, [], 1)
        self.trees(EIGHT_CHANNELS, [take, ch, vol], 2, 1, 3, 6)
        self.trees(EIGHT_CHANNELS, [repeat, num, give, ch, sep, ch, vol, close], 2, 1, 5, 2, 1, 4, 7, 6)
        self.trees(EIGHT_CHANNELS, [repeat, num], NONE)

    def test_cycles(self):
        """"also where S→S makes that count infinite"."""
        self.trees(CYCLE, [1], SEVERAL)
        self.trees(CYCLE, [], NONE)
        self.trees(CYCLE, [1, 1], NONE)
        self.trees(CLASSICS["unit-cycle"], [1], SEVERAL)
        self.trees(CYCLE_ELSEWHERE, [2], 2)
        self.trees(CYCLE_ELSEWHERE, [1, 3], SEVERAL)
        self.trees(CYCLE_BY_EMPTY, [1], SEVERAL)
        self.trees(CYCLE_OF_EMPTY, [1], SEVERAL)
        self.trees(ALL_EMPTY, [], SEVERAL)

    def test_empty_parts(self):
        self.trees(EMPTY_PARTS, [1, 2], 1, 2, 2, 2)
        self.trees(EMPTY_PARTS, [], NONE)
        self.trees(HIDDEN_ONE, [2, 1, 1], 1, 3, 1, 3, 2)
        self.trees(HIDDEN_RIGHT, [1, 2], 1, 2, 3)
        self.trees(HIDDEN_RIGHT, [1, 1, 2, 3], SEVERAL)
        hidden = CLASSICS["hidden-left"]
        self.trees(hidden, [3, 2], NONE)                   # x is 1, y is 2, n is 3
        self.trees(hidden, [2, 1], 1, 4, 2)
        self.trees(hidden, [3, 2, 1], 1, 3, 2)
        self.trees(hidden, [3, 2, 1, 1], SEVERAL)
        self.trees(hidden, [3, 3, 2, 1, 1], 1, 3, 1, 3, 2)

    def test_parts_that_no_tree_has(self):
        self.trees(TWO_BEFORE_A_FALSE_END, [2, 3], 2)
        self.trees(TWO_BEFORE_A_FALSE_END, [2, 1], SEVERAL)
        self.trees(AMBIGUOUS_BESIDE, [3, 3, 3, 2], 2, 5, 5, 5, 6)
        self.trees(AMBIGUOUS_BESIDE, [3, 3, 3, 1], SEVERAL)
        self.trees(AMBIGUOUS_BESIDE, [3, 3, 1], 1, 3, 4, 4)

    def test_corpus(self):
        for entry in entries():
            if entry.truth == AMBIGUOUS:
                found = found_in(text_in(entry.name))
                row = coded(found, entry.sentence)
                self.assertEqual(trees_of(found.grammar, row)[0], SEVERAL, entry.name)


class WrittenOutTest(unittest.TestCase):
    """Against all trees of few nodes, one after another."""

    def compare(self, table, longest, tally):
        grammar = good(table)
        rows = written_out(grammar, NODES, longest)
        if rows is None:
            return
        for length in range(longest + 1):
            for row in every_row(table[0], length):
                lists = rows.get(row, [])
                answer, tree, size = trees_of(grammar, row)
                if answer == NONE or size > NODES:
                    self.assertEqual(lists, [], (table, row))
                elif answer == ONE:
                    self.assertEqual(lists, [tree.rules()], (table, row))
                    self.assertEqual(len(lists[0]), size)
                tally[answer] = tally.get(answer, 0) + 1
                if answer == SEVERAL:
                    if len(lists) < 2:
                        lists = (written_out(grammar, MORE_NODES, length) or {}).get(row, [])
                    tally["seen"] = tally.get("seen", 0) + (len(lists) > 1)

    def test_every_small_grammar(self):
        tally = {}
        for t, n, most in ((1, 1, 10), (1, 2, 9), (2, 1, 9), (0, 3, 8)):
            for table in every_table(t, n, most):
                if isinstance(check_table(*table), Grammar):
                    self.compare(table, 3, tally)
        self.assertGreater(min(tally[NONE], tally[ONE], tally[SEVERAL]), 300, tally)
        self.assertEqual(tally[SEVERAL], tally["seen"])

    def test_random_grammars(self):
        rng, tally = random.Random(1), {}
        tables = [small_random(rng) for _ in range(150)] + [with_more(rng) for _ in range(150)]
        for table in tables + [dense(rng) for _ in range(40)] + list(dead_tables(rng, 10)):
            self.compare(table, 3 if table[0] < 3 else 2, tally)
        self.assertGreater(min(tally[NONE], tally[ONE], tally[SEVERAL]), 150, tally)
        self.assertGreater(tally["seen"], 0.95 * tally[SEVERAL])      # not where trees are too many


class CountTest(unittest.TestCase):
    """Against trees counted by depth, and exactly."""

    def test_by_depth(self):
        rng, tally = random.Random(2), {}
        for place in range(600):
            table = [small_random, with_more, dense][place % 3](rng)
            rows = sentences(rng, good(table), 3, 12, 12) + [()]
            if table[0]:
                rows += [tuple(1 + rng.randrange(table[0]) for _ in range(rng.randrange(6))) for _ in range(2)]
            for row in rows:
                answer = trees_of(good(table), row)[0]
                self.assertEqual(answer, [NONE, ONE, SEVERAL][tree_count(good(table), row)], (table, row))
                tally[answer] = tally.get(answer, 0) + 1
        self.assertGreater(min(tally.values()), 300, tally)

    def number(self, table, row):
        return number_of_trees(Forest(good(table), tuple(row)))

    def test_exactly(self):
        catalan = [1, 1, 2, 5, 14, 42, 132, 429]
        double = spelled("S: S S | a")
        self.assertEqual([self.number(double, [1] * (1 + k)) for k in range(8)], catalan)
        sums = CLASSICS["expressions-ambiguous"]
        self.assertEqual([self.number(sums, ([5, 1] * 9)[:2 * k + 1]) for k in range(8)], catalan)
        self.assertEqual(self.number(spelled("S: S S S | a"), [1] * 9), 55)
        for table, row in ((CYCLE, [1]), (CYCLE_BY_EMPTY, [1]), (CYCLE_OF_EMPTY, [1]), (ALL_EMPTY, [])):
            self.assertIsNone(self.number(table, row))
        self.assertEqual(self.number(CYCLE_ELSEWHERE, [2]), 1)
        for length in (0, 1, 2, 16):
            self.assertEqual(self.number(POWERS, [1] * length), 2 ** length)
            self.assertEqual(self.number(POWERS_AND_ONE, [1] * length), 2 ** length + (length > 0))
        self.assertEqual(self.number(EMPTY_POWERS, []), 2 ** 32)
        self.assertEqual(self.number(CYCLE, []), 0)

    def test_against_written_out(self):
        """Where rules shorten nothing, all trees of a row have few nodes."""
        rng, tally = random.Random(3), 0
        while tally < 150:
            table = small_random(rng)
            if all(len(rule.right) > 1 or rule.right and rule.right[0] < START for rule in good(table).rules):
                rows = written_out(good(table), NODES, 4)
                if rows is None:
                    continue
                for row, lists in rows.items():
                    self.assertEqual(self.number(table, row), len(lists))
                    tally += len(lists) > 1

    def test_after_an_accepted_certificate(self):
        """"With an accepted certificate, several never occurs"."""
        rng, tally = random.Random(4), 0
        for _ in range(500):
            table = small_random(rng)
            if not is_potential(triples_in(table)):
                for row in sentences(rng, good(table), 4, 14, 40):
                    self.assertEqual(trees_of(good(table), row)[0], ONE)
                    tally += 1
        self.assertGreater(tally, 100)


class SentenceTest(unittest.TestCase):
    def test_each_has_a_tree(self):
        rng = random.Random(5)
        for table in GOOD_ROWS + list(CLASSICS.values()) + [with_more(rng) for _ in range(60)]:
            for row in sentences(rng, good(table), 4, 20) + long_sentences(rng, good(table), 1, 40):
                self.assertNotEqual(trees_of(good(table), row)[0], NONE)
                self.assertLessEqual(len(row), 66)

    def test_they_end(self):
        """Also where the number of nodes that wait would grow by itself."""
        rng = random.Random(6)
        for _ in range(50):
            self.assertEqual(set(sentence(rng, good(ALL_EMPTY), 300, True)) - {1}, set())

    def test_beside(self):
        rng = random.Random(7)
        for _ in range(20):
            table, x, y = beside_ambiguous(rng)
            row = tuple(1 + rng.randrange(x - 1) for _ in range(6))
            self.assertEqual(trees_of(good(table), row + (y,))[0], ONE)


class ListTest(unittest.TestCase):
    def test_lists_are_trees(self):
        rng = random.Random(8)
        for place in range(200):
            table = [with_more, small_random][place % 2](rng)
            for row in sentences(rng, good(table), 3, 20, 64):
                _, tree, size = trees_of(good(table), row)
                if tree is not None:
                    self.assertEqual(applied(good(table), tree.rules()), row)
                    self.assertEqual(len(tree.rules()), size)

    def test_applied(self):
        grammar = good(ONE_ORDER)
        self.assertEqual(applied(grammar, (1, 2, 4, 3)), (2, 1))
        for wrong in ((), (1, 2, 4), (1, 2, 3, 4), (1, 2, 4, 3, 3), (0,), (5,), (2,)):
            self.assertIsNone(applied(grammar, wrong))

    def test_many_rules(self):
        """A tree can have more rules than any list holds, for the empty row too."""
        for levels, k, units, size in [
            (3, 2, 0, 15), (15, 2, 0, 2 ** 16 - 1), (15, 2, 1, 2 ** 16), (31, 2, 2, 2 ** 32 + 1), (63, 2, 1, 2 ** 64),
            (3, 12, 0, 1 + 12 + 144 + 1728), (70, 12, 0, (12 ** 71 - 1) // 11),
        ]:
            grammar = good(doubled(levels, k, units))
            answer, tree, found = trees_of(grammar, ())
            self.assertEqual((answer, found), (ONE, size))
            if size < 10 ** 5:
                self.assertEqual(applied(grammar, tree.rules()), ())
        table = doubled(63, 2, 1)
        for length in (0, 1, 10 ** 6):
            self.assertEqual(find_trees(*table, (), Lent(10 ** 7, length)),
                             Trees(Refusal(14, 0), (), 65 * 65 * states_of(table)))
        self.assertEqual(trees_of(good(doubled(3, 2, 1, 1)), (1,))[2], 16)
        self.assertEqual(trees_of(good(long_units(120)), (1,) * 64)[2], 64 * 121)

    def test_word_lists(self):
        grammar = good(word_lists(400))
        self.assertEqual((grammar.states, len(grammar.rules)), (1024, 400))
        _, tree, size = trees_of(grammar, (398,) * 64)
        self.assertEqual((tree.rules(), size), ((1, 400) * 64 + (2,), 129))


class RefusalTest(unittest.TestCase):
    def refused(self, cause, place, table, row, lent=PLENTY, cleared=0):
        self.assertEqual(find_trees(*table, tuple(row), lent), Trees(Refusal(cause, place), (), cleared))

    def test_tables(self):
        for lent, row in product((PLENTY, Lent(0, 0)), ((), (1,), (0,), (1,) * 65)):
            self.refused(1, 0, (2001, 1, ()), row, lent)
            self.refused(2, 0, (1, 1, (START, 1)), row, lent)
            self.refused(6, 3, (1, 1, ONE_A[2] * 2), row, lent)
            self.refused(19, 0, NO_RULES, row, lent)
            self.refused(19, 0, ENDLESS, row, lent)
        for table in sentenceless(random.Random(1), 3):
            self.refused(19, 0, table, (0,), Lent(0, 0))

    def test_rows(self):
        """22, "after table faults and before 14"."""
        for lent in (PLENTY, Lent(0, 0), Lent(65 * 65 * 6 - 1, 9)):
            for code in (0, 2, 2001, START, START + 1, 65535, 257):
                self.refused(22, 0, ONE_A, [code], lent)
                self.refused(22, 63, ONE_A, [1] * 63 + [code], lent)
                self.refused(22, 64, ONE_A, [1] * 64 + [code], lent)
                self.refused(22, 64, ONE_A, [1] * 65 + [code], lent)
                self.refused(22, 7, ONE_A, [1] * 7 + [code] * 90, lent)
            self.refused(22, 64, ONE_A, [1] * 65, lent)
            self.refused(22, 64, ONE_A, [1] * 70000, lent)
            self.refused(22, 64, ROWS[3], [1] * 65, lent)
        self.refused(22, 0, ROWS[1], [1])
        self.assertIsNone(row_fault(1, (1,) * 64))

    def test_14(self):
        need = 65 * 65 * 6
        self.refused(14, 0, ONE_A, [1], Lent(need - 1, 1))
        self.refused(14, 0, ONE_A, [1], Lent(0, 0))
        self.refused(14, 0, ONE_A, [], Lent(need - 1, 0))
        self.refused(14, 0, ONE_A, [1], Lent(need, 0), need)
        self.refused(14, 0, ONE_A, [1], Lent(need + 9, 0), need)
        self.assertEqual(find_trees(*ONE_A, (1,), Lent(need, 1)), Trees(ONE, (1,), need))
        self.assertEqual(find_trees(*ONE_A, (1, 1), Lent(need, 0)), Trees(NONE, (), need))
        self.assertEqual(find_trees(*CYCLE, (1,), Lent(65 * 65 * 8, 0)), Trees(SEVERAL, (), 65 * 65 * 8))

    def test_dead_rules_need_entries_too(self):
        table = spelled("S: a | A", "A: A")
        self.assertEqual(trees_room(*table), 65 * 65 * 10)
        self.refused(14, 0, table, [1], Lent(65 * 65 * 10 - 1, 9))


class RoomTest(unittest.TestCase):
    def test_rooms(self):
        self.assertEqual(trees_room(*ONE_A), 25350)
        self.assertEqual(trees_room(*EIGHT_CHANNELS), 114075)
        self.assertEqual(trees_room(*word_lists(400)), 65 * 65 * 1024)
        self.assertEqual(trees_room(*NO_RULES), Refusal(19, 0))
        self.assertEqual(trees_room(1, 0, ()), Refusal(1, 0))

    def test_it_is_what_is_needed(self):
        rng = random.Random(9)
        for _ in range(50):
            table = small_random(rng)
            room = trees_room(*table)
            self.assertEqual(room, work_entries(grammar_of(table)))
            self.assertNotIsInstance(find_trees(*table, (), Lent(room, 10 ** 6)).answer, Refusal)
            self.assertEqual(find_trees(*table, (), Lent(room - 1, 10 ** 6)), Trees(Refusal(14, 0)))


class ChangedTest(unittest.TestCase):
    def after(self, table, row, lent, fill=37):
        work, rules = (tuple(held_before(fill, place) for place in range(length)) for length in lent)
        return rows_after(find_trees(*table, row, lent), work, rules), work, rules

    def test_changed(self):
        need = 65 * 65 * 6
        for length in (1, 2, 9):
            (work, rules), old_work, old = self.after(ONE_A, (1,), Lent(need + 40, length))
            self.assertEqual((work, rules), ((0,) * need + old_work[need:], (1,) + old[1:]))
        for row, lent in (((), Lent(need + 3, 4)), ((1,), Lent(need + 3, 0))):      # none; the second 14
            (work, rules), old_work, old = self.after(ONE_A, row, lent)
            self.assertEqual((work, rules), ((0,) * need + old_work[need:], old))
        for table, row, lent in (
                (ONE_A, (1,), Lent(need - 1, 5)), (ONE_A, (2,), Lent(need, 5)), (ENDLESS, (), Lent(need, 5))):
            (work, rules), old_work, old = self.after(table, row, lent)
            self.assertEqual((work, rules), (old_work, old))

    def test_before(self):
        self.assertEqual([held_before(fill, 7) for fill in (0, 1, 2, 3, 255)], [0, 1, 2, 3, 2 ** 32 - 1])
        self.assertEqual({held_before(30, place) for place in range(200)}, {0, 1, 2, 3})
        self.assertEqual(held_before(64, 0), 64 * 2654435761 % 2 ** 32)


if __name__ == "__main__":
    unittest.main()
