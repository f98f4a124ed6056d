"""Tests of live.py and dead_rules.py against document 02's definition: trees, and what they use."""

import random
import unittest
from itertools import product

from case_grammars import (
    CLASSICS, COURSE, ENDLESS, GOOD_ROWS, NO_RULES, ONE_A, good, grammar_of, keywords,
    larger_random, small_random, spelled,
)
from corpus_texts import grown_live
from dead_grammars import MOST as MOST_STATES
from dead_grammars import chains, dead_larger, dead_named, dead_tables
from dead_rules import BEHIND, KINDS, NO_SENTENCE, UNPRODUCTIVE, UNREACHABLE, kind_of, rule_kinds
from derivations import used_rules
from live import live_rules
from named_grammars import text_of
from random_tables import encode
from sentence_grammars import sentenceless
from small_grammars import every_table
from tables import START
from text import AMPLE, read_text
from trees import tree_count

MOST = 400                # trees of one grammar that are written out


def sets_of_rules(grammar):
    """By nonterminal, for each finite subtree with this root, the set of rules that it applies.

    They are those of the subtrees of depth 1, 2, 3 and so on, until no set is new:
    then none is at any greater depth.
    """
    sets = {START + place: set() for place in range(grammar.nonterminals)}
    while True:
        deeper = {left: set(known) for left, known in sets.items()}
        for number, rule in enumerate(grammar.rules, 1):
            found = {frozenset([number])}
            for code in rule.right:
                if code >= START:
                    found = {one | other for one in found for other in sets[code]}
            deeper[rule.left] |= found
        if deeper == sets:
            return sets
        sets = deeper


def by_definition(grammar):
    """"A rule is live if some sentence has a tree that uses it; rule 0 [...]"."""
    of_trees = sets_of_rules(grammar)[START]
    used = frozenset().union(*of_trees)
    return (bool(of_trees), *(number in used for number in range(1, len(grammar.rules) + 1)))


def written_out(grammar, depth):
    """Subtrees of at most this depth by root, at most MOST of each: rule and children."""
    trees = {START + place: [] for place in range(grammar.nonterminals)}
    for _ in range(depth):
        deeper = {left: [] for left in trees}
        for number, rule in enumerate(grammar.rules, 1):
            below = [trees[code][:6] for code in rule.right if code >= START]
            deeper[rule.left] += [(number, children) for children in product(*below)]
        trees = {left: found[:MOST] for left, found in deeper.items()}
    return trees


def row_of(grammar, tree):
    """The tree's terminals, left to right."""
    number, children = tree
    rest = list(children)
    parts = [(code,) if code < START else row_of(grammar, rest.pop(0))
             for code in grammar.rules[number - 1].right]
    return sum(parts, ())


def rules_of(tree):
    number, children = tree
    return {number}.union(*map(rules_of, children))


class FiguresTest(unittest.TestCase):
    def live(self, table, *expected):
        self.assertEqual(live_rules(grammar_of(table)), expected)

    def test_the_course(self):
        self.live(COURSE, True, True, False, False)

    def test_no_sentence(self):
        self.live(NO_RULES, False)
        self.live(ENDLESS, False, False)
        for table in sentenceless(random.Random(9), 10):
            self.assertFalse(any(live_rules(grammar_of(table))))

    def test_all_live(self):
        self.live(ONE_A, True, True)
        for row in GOOD_ROWS:
            self.assertTrue(all(live_rules(good(row))))

    def test_a_rule_with_one_symbol_that_has_no_tree(self):
        self.live(spelled("S: a | S W | W S", "W: a W"), True, True, False, False, False)

    def test_a_nonterminal_without_rules(self):
        self.live((1, 2, (START, 1, 1, START, 1, START + 1)), True, True, False)

    def test_unreachable(self):
        self.live(CLASSICS["never-opened"], True, True, True, False, False)

    def test_behind_an_unproductive_rule(self):
        self.live(CLASSICS["behind-an-endless-one"],
                  True, True, True, False, False, False, False)

    def test_reachable_in_another_way_too(self):
        self.live(spelled("S: W V | V", "W: W", "V: a"), True, False, True, False, True)


class DefinitionTest(unittest.TestCase):
    def as_defined(self, tables, fewest):
        counts = {kind: 0 for kind in [None, NO_SENTENCE] + KINDS}
        for table in tables:
            grammar = grammar_of(table)
            self.assertEqual(live_rules(grammar), by_definition(grammar))
            counts[kind_of(grammar)] += 1
        self.assertGreaterEqual(min(counts.values()), fewest, counts)

    def test_all_small_grammars(self):
        self.as_defined(list(every_table(1, 2, 10)) + list(every_table(0, 3, 9)), 24)

    def test_random_grammars(self):
        rng = random.Random(1)
        tables = list(dead_tables(rng, 60)) + [small_random(rng) for _ in range(300)]
        self.as_defined(tables + list(chains(rng, (2, 5))) + list(sentenceless(rng, 10)), 60)

    def test_trees_written_out(self):
        """The rules of trees are live, their rows are sentences, and most live rules occur."""
        rng = random.Random(2)
        occurred = live_count = sentences = 0
        for table in list(dead_tables(rng, 30)) + [small_random(rng) for _ in range(60)]:
            grammar = good(table)
            live, found = live_rules(grammar), set()
            for tree in written_out(grammar, 4)[START]:
                found |= rules_of(tree)
                self.assertTrue(live[0])
            self.assertTrue(all(live[number] for number in found))
            for tree in written_out(grammar, 3)[START][:3]:
                sentences += 1
                self.assertGreaterEqual(tree_count(grammar, row_of(grammar, tree)), 1)
            occurred += len(found)
            live_count += sum(live[1:])
        self.assertGreater(sentences, 150)
        self.assertGreater(occurred, 0.9 * live_count)

    def test_nothing_is_a_sentence_where_rule_0_is_not_live(self):
        rng = random.Random(3)
        for table in [*dead_tables(rng, 8), *sentenceless(rng, 4)]:
            grammar = grammar_of(table)
            if grammar.terminals > 4:
                continue
            rows = [tuple(row) for length in range(4)
                    for row in product(range(1, 1 + grammar.terminals), repeat=length)]
            found = any(tree_count(grammar, row) for row in rows)
            self.assertTrue(live_rules(grammar)[0] or not found)

    def test_the_order_of_rules_does_not_matter(self):
        rng = random.Random(4)
        for table in dead_tables(rng, 30):
            grammar = good(table)
            order = rng.sample(range(len(grammar.rules)), len(grammar.rules))
            rules = [grammar.rules[place][1:] for place in order]
            first, *others = live_rules(good((*table[:2], encode(rules))))
            live = live_rules(grammar)
            self.assertEqual((first, others), (live[0], [live[place + 1] for place in order]))


class GrammarsTest(unittest.TestCase):
    """The grammars of dead_grammars.py."""

    def test_small_ones(self):
        rng = random.Random(6)
        tables = list(dead_tables(rng, 12))
        self.assertEqual(len(set(tables)), 12 * len(KINDS))
        for place, table in enumerate(tables):
            self.assertEqual(kind_of(good(table)), KINDS[place // 12])
            self.assertLessEqual(good(table).states, MOST_STATES)
        wanted = dead_tables(rng, 2, lambda grammar: grammar.states == 11)
        self.assertEqual([good(table).states for table in wanted], [11] * 2 * len(KINDS))

    def test_larger_ones(self):
        rng = random.Random(7)
        for kind in KINDS:
            for states in (90, 256):
                grammar = good(dead_larger(rng, kind, states))
                self.assertEqual(kind_of(grammar), kind)
                self.assertTrue(states - 24 <= grammar.states <= states)

    def test_texts(self):
        rng = random.Random(8)
        for kind in KINDS:
            base = grown_live(rng)
            grammar = dead_named(rng, base, kind, 48)
            found = read_text(text_of(grammar), AMPLE)
            table = found.terminals, found.nonterminals, found.table
            self.assertEqual(kind_of(good(table)), kind)
            self.assertEqual(grammar.names[:base.t + base.n], base.names)


class KindsTest(unittest.TestCase):
    def test_rule_kinds(self):
        for lines, kinds in [
            (["S: a | A", "A: A"], (None, None, UNPRODUCTIVE, UNPRODUCTIVE)),
            (["S: a", "U: S | U W", "W: W"], (None, None) + (UNREACHABLE,) * 3),
            (["S: a | W V", "W: W", "V: a"], (None, None, UNPRODUCTIVE, UNPRODUCTIVE, BEHIND)),
            (["S: S a", "V: a"], (UNPRODUCTIVE, UNPRODUCTIVE, UNREACHABLE)),
            (["S: W V", "W: W", "V: a"], (UNPRODUCTIVE,) * 3 + (BEHIND,)),
        ]:
            self.assertEqual(rule_kinds(grammar_of(spelled(*lines))), kinds)

    def test_kinds_of_grammars(self):
        for kind, tables in {
            None: GOOD_ROWS + [CLASSICS["json"]],
            UNPRODUCTIVE: [COURSE, CLASSICS["no-finite-tree"]],
            UNREACHABLE: [CLASSICS["never-opened"]],
            BEHIND: [CLASSICS["behind-an-endless-one"]],
            NO_SENTENCE: [NO_RULES, ENDLESS, *sentenceless(random.Random(10), 5)],
            "mixed": [CLASSICS["dead-rules-of-all-kinds"], spelled("S: a | S W", "U: a", "W: W")],
        }.items():
            for table in tables:
                self.assertEqual(kind_of(grammar_of(table)), kind)

    def test_as_live_rules_has_it(self):
        rng = random.Random(5)
        tables = list(dead_tables(rng, 40)) + list(chains(rng, (9, 97)))
        tables += [keywords(rng, 30, 200), larger_random(rng, 200)]
        for table in tables:
            grammar = good(table)
            live = live_rules(grammar)
            self.assertEqual(live, tuple(kind is None for kind in rule_kinds(grammar)))
            self.assertEqual(list(live[1:]), used_rules(grammar))


if __name__ == "__main__":
    unittest.main()
