"""Tests of tables.py: the documents' figures, every refusal, the order of tests."""

import unittest

from random_tables import FIGURES, A, S, a, b, encode
from tables import Grammar, Refusal, Rule, check_rules, check_table

# Q of document 01's "Grammars on file", of which two have no sentence.
STATES = [4, 5, 6, 9, 9, 6, 8, 10, 10, 17]
WITHOUT = 0, 5


def table(*rules):
    """The table of rules given as [left, code, ...]."""
    return tuple(code for rule in rules for code in [rule[0], len(rule) - 1] + rule[1:])


def terminal_rules(count):
    """S→1, S→2, ...: `count` unequal rules of 3 entries and 2 states each."""
    return table(*([S, 1 + i] for i in range(count)))


def empty_rules(count):
    """`count` unequal empty rules of 2 entries and 1 state each."""
    return table(*([S + i] for i in range(count)))


def full_table():
    """Q = 4 + 78×13 + 6 = 1,024: 78 rules of 14 entries, then one of 7; 1,099 entries."""
    return table(*([S] + [1 + i] * 12 for i in range(78)), [S, a, a, a, a, a])


class TableTest(unittest.TestCase):
    def refused(self, t, n, data, cause, position):
        self.assertEqual(check_table(t, n, data), Refusal(cause, position))

    def passed(self, t, n, data, states, rules):
        grammar = check_table(t, n, data)
        self.assertIsInstance(grammar, Grammar)
        self.assertEqual((grammar.terminals, grammar.nonterminals), (t, n))
        self.assertEqual(grammar.states, states)
        self.assertEqual(len(grammar.rules), rules)


class FiguresTest(TableTest):
    """Document 01, "Grammars on file", and its line on the limits, by document 02's [8]."""

    def test_states_of_the_grammars_on_file(self):
        self.assertEqual(len(FIGURES), len(STATES))
        for place, ((t, n, rules), states) in enumerate(zip(FIGURES, STATES)):
            self.assertEqual(check_rules(t, n, encode(rules)).states, states)
            if place in WITHOUT:
                self.refused(t, n, encode(rules), 19, 0)
            else:
                self.passed(t, n, encode(rules), states, len(rules))

    def test_k_of_12_passes_and_13_does_not(self):
        self.passed(1, 1, (S, 12) + (a,) * 12, 17, 1)
        self.refused(1, 1, (S, 13) + (a,) * 13, 4, 0)
    def test_400_rules_pass_and_401_do_not(self):
        self.passed(2000, 1, terminal_rules(400), 804, 400)
        self.refused(2000, 1, terminal_rules(401), 7, 1200)

    def test_1024_states_pass_and_1025_do_not(self):
        self.passed(78, 2, full_table(), 1024, 79)
        self.refused(78, 2, full_table() + table([A]), 8, 1099)


class PassedTest(TableTest):
    def test_rules_lie_end_to_end(self):
        rules = check_table(2, 2, table([A, a, S, b], [S], [S, A])).rules
        self.assertEqual(rules, (
            Rule(0, A, (a, S, b)), Rule(5, S, ()), Rule(7, S, (A,))))

    def test_rules_that_no_sentence_uses_pass(self):
        self.passed(1, 2, table([A, a], [S]), 7, 2)
        self.passed(0, 2, table([S, A], [A, A], [S]), 9, 3)

    def test_last_codes_are_declared(self):
        self.passed(2000, 2000, table([34767, 2000, 34767], [S, 1]), 9, 2)

    def test_rules_that_differ_in_one_place_are_unequal(self):
        self.passed(2, 2, table([S, a], [A, a], [S, b], [S], [S, a, a]), 14, 5)


class RangeTest(TableTest):
    """Cause 1 at 0."""

    def test_t(self):
        self.passed(0, 1, table([S]), 5, 1)
        self.passed(2000, 1, table([S]), 5, 1)
        for t in (2001, 2002, 32768, 65535, 65536, 65537, 2 ** 16 + 2000, 2 ** 32, 2 ** 32 + 1, 2 ** 64 - 1):
            self.refused(t, 1, (), 1, 0)

    def test_n(self):
        self.passed(0, 1, table([S]), 5, 1)
        self.passed(0, 2000, table([S]), 5, 1)
        for n in (0, 2001, 2002, 34768, 65536, 65537, 2 ** 32 + 1, 2 ** 64 - 2000, 2 ** 64 - 1):
            self.refused(0, n, (), 1, 0)

    def test_before_every_fault_of_the_table(self):
        faulty = [(S,), (S, 1), (0, 0), (S, 13),
                  (S, 1, 0), table([S], [S]), terminal_rules(401),
                  full_table() + table([S])]
        for data in faulty:
            self.refused(2001, 1, data, 1, 0)
            self.refused(2000, 2001, data, 1, 0)
            self.refused(2000, 0, data, 1, 0)


class OneFaultTest(TableTest):
    """Causes 2 to 8 by themselves, in the first rule and behind others."""

    def test_table_ends_inside_a_rule(self):
        self.refused(1, 1, (S,), 2, 0)
        self.refused(1, 1, table([S, a]) + (S,), 2, 3)
        self.refused(1, 1, (S, 1), 2, 0)
        self.refused(1, 1, (S, 12) + (a,) * 11, 2, 0)
        self.refused(1, 1, table([S, a], [S]) + (S, 2, a), 2, 5)

    def test_left_code_no_declared_nonterminal(self):
        for left in (0, 1, 2, 128, 2000, 2001, 32767, 32769, 34767, 34768, 65535):
            self.refused(1, 1, (left, 0), 3, 0)
        for left in (0, 1, 2000, 2001, 32767, 34768, 65535):
            self.refused(2000, 2000, (left, 0), 3, 0)
        self.refused(1, 1, table([S, a], [A]), 3, 3)

    def test_k_above_12(self):
        for k in (13, 255, 256, 268, 32768, 65535):
            self.refused(1, 1, (S, k) + (a,) * k, 4, 0)
            self.refused(1, 1, (S, k), 4, 0)
        self.refused(1, 1, table([S, a]) + (S, 13) + (a,) * 13, 4, 3)

    def test_right_code_undeclared(self):
        for code in (0, 2, 128, 257, 2000, 2001, 32767, 32769, 33024, 34767, 34768, 65535):
            self.refused(1, 1, (S, 1, code), 5, 2)
        self.refused(0, 1, table([S, a]), 5, 2)
        for code in (0, 2001, 32767, 34768, 65535):
            self.refused(2000, 2000, table([S, code]), 5, 2)
        self.refused(1, 1, table([S], [S, a, S, A, 0]), 5, 6)

    def test_rule_equals_an_earlier_one(self):
        self.refused(1, 1, table([S], [S]), 6, 2)
        self.refused(1, 2, table([S, a], [A], [A, a], [S, a]), 6, 8)
        self.refused(2000, 1, terminal_rules(399) + table([S, 1]), 6, 1197)

    def test_401st_rule(self):
        self.refused(0, 2000, empty_rules(401), 7, 800)

    def test_states_pass_1024(self):
        rules = table(*([S] + [1 + i] * 12 for i in range(79)))
        self.refused(79, 1, rules, 8, 1092)
        self.refused(79, 1, rules + table([S]), 8, 1092)


class SentenceTest(TableTest):
    """Cause 19 at 0: document 02, [4]."""

    def test_no_finite_tree(self):
        for n, data in [(1, ()), (2000, ()), (1, table([S, S])), (1, table([S, a, S])),
                        (1, table([S, S, S], [S, a, S])), (2, table([S, A])),
                        (2, table([S, A], [A, S])), (2, table([S, A], [A, A, a], [A, S])),
                        (2, table([A, a])), (2, table([A], [A, S, a])),
                        (3, table([S, A, A + 1], [A]))]:
            self.refused(1, n, data, 19, 0)

    def test_the_empty_sentence_is_one(self):
        self.passed(0, 1, table([S]), 5, 1)
        self.passed(0, 1, table([S, S], [S]), 7, 2)
        self.passed(0, 2, table([S, A, A], [A]), 8, 2)
        self.passed(1, 2, table([S, a, A], [S], [A, A]), 10, 3)

    def test_a_sentence_by_the_last_rule(self):
        for n, data, states in [(1, table([S, S]), 6), (1, table([S, a, S], [S, S, S]), 10),
                                (2, table([A, S], [S, A]), 8), (2, table([A, a]), 6)]:
            self.refused(1, n, data, 19, 0)
            self.passed(1, n, data + table([S]), states + 1, len(check_rules(1, n, data).rules) + 1)

    def test_the_order_of_rules_does_not_matter(self):
        chain = [[S + place, S + place + 1] for place in range(40)]
        for rules in (chain + [[S + 40, a]], [[S + 40, a]] + chain[::-1]):
            self.passed(1, 41, table(*rules), 4 + 41 * 2, 41)
        for rules in (chain, chain[::-1], chain + [[S + 40, S]], chain[1:] + [[S + 40, a]]):
            self.refused(1, 41, table(*rules), 19, 0)

    def test_400_rules_and_1024_states(self):
        rules = [[A, 1 + i] for i in range(400)]
        self.refused(2000, 2, table(*rules), 19, 0)
        self.passed(2000, 2, table(*rules[1:], [S, A]), 804, 400)
        full = tuple(A if code == S else code for code in full_table())
        self.refused(78, 2, full, 19, 0)

    def test_after_every_other_fault(self):
        endless = table([S, S])
        many = table(*([A, 1 + i] for i in range(400)))
        full = tuple(A if code == S else code for code in full_table())
        for t, n, data, cause, position in [
            (2001, 1, endless, 1, 0), (1, 0, endless, 1, 0), (1, 1, endless + (S,), 2, 3),
            (1, 1, endless + (S, 2, S), 2, 3), (1, 1, endless + table([a]), 3, 3),
            (1, 1, endless + (S, 13), 4, 3), (1, 1, endless + table([S, 2]), 5, 5),
            (1, 1, endless + endless, 6, 3), (2000, 2, many + table([A]), 7, 1200),
            (78, 2, full + table([A]), 8, 1099), (1, 1, (0,), 2, 0),
        ]:
            self.refused(t, n, data, cause, position)

    def test_a_fault_behind_a_sentence_and_before_one(self):
        self.refused(1, 1, table([S]) + table([a]), 3, 2)
        self.refused(1, 1, table([S, S]) + table([a]) + table([S]), 3, 3)


class OrderTest(TableTest):
    """The order "7, 2 (under two bytes left), 3, 4, 2 (body short), 5, 6, 8", in entries."""

    def test_7_before_all_others(self):
        many = terminal_rules(400)
        self.refused(2000, 1, many + (S,), 7, 1200)
        self.refused(2000, 1, many + (0, 0), 7, 1200)
        self.refused(2000, 1, many + (S, 13), 7, 1200)
        self.refused(2000, 1, many + (S, 1), 7, 1200)
        self.refused(2000, 1, many + (S, 1, 0), 7, 1200)
        self.refused(2000, 1, many + table([S, 1]), 7, 1200)

    def test_7_before_8(self):
        rules = table(*([S, 1 + i, a] for i in range(220))) + terminal_rules(180)
        self.passed(2000, 1, rules, 4 + 220 * 3 + 180 * 2, 400)
        self.refused(2000, 1, rules + table([S]), 7, 1420)

    def test_under_two_entries_before_3(self):
        self.refused(1, 1, (0,), 2, 0)
        self.refused(1, 1, table([S, a]) + (65535,), 2, 3)

    def test_3_before_4_and_short_and_5_and_8(self):
        self.refused(1, 1, (A, 13), 3, 0)
        self.refused(1, 1, (A, 1), 3, 0)
        self.refused(1, 1, (A, 1, 0), 3, 0)
        self.refused(78, 1, full_table() + table([A]), 3, 1099)

    def test_4_before_short_and_5_and_8(self):
        self.refused(1, 1, (S, 13), 4, 0)
        self.refused(1, 1, (S, 13, 0), 4, 0)
        self.refused(1, 1, (S, 13) + (0,) * 13, 4, 0)
        self.refused(78, 1, full_table() + (S, 13) + (a,) * 13, 4, 1099)

    def test_short_before_5_and_8(self):
        self.refused(1, 1, (S, 2, 0), 2, 0)
        self.refused(78, 1, full_table() + (S, 1), 2, 1099)

    def test_5_before_8(self):
        self.refused(78, 1, full_table() + table([S, S, 0]), 5, 1102)

    def test_6_before_8(self):
        self.refused(78, 1, full_table() + table([S, a, a, a, a, a]), 6, 1099)

    def test_the_first_rule_at_fault_decides(self):
        later = [(S,), (0, 0), (S, 13), (S, 1),
                 (S, 1, 0), table([S])]
        for rest in later:
            self.refused(1, 1, table([S], [A]) + rest, 3, 2)
            self.refused(1, 1, table([S], [S, a, 0]) + rest, 5, 5)
            self.refused(1, 1, table([S], [S]) + rest, 6, 2)
            self.refused(78, 2, full_table() + table([A]) + rest, 8, 1099)

    def test_6_before_a_later_7_and_8_before_a_later_7(self):
        self.refused(2000, 1, table([S, 1]) + terminal_rules(401), 6, 3)
        full = table(*([S, 1 + i, a] for i in range(340)))
        self.passed(2000, 1, full, 1024, 340)
        self.refused(2000, 2000, full + empty_rules(70), 8, 1360)


if __name__ == "__main__":
    unittest.main()
