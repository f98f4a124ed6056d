"""Tests of the case file, the answer lines and the sorting by reasons."""

import unittest

from derivations import used_rules
from file_tests import TABLE, TABLE_BYTES, FileTests
from random_tables import A, B, S, a
from table_cases import KIND, answer
from table_reasons import REASONS, reasons_of
from tables import check_rules
from test_tables import full_table, terminal_rules

FULL = full_table()
FULL_OF_A = tuple(A if code == S else code for code in FULL)
MOST = terminal_rules(400)


class FileTest(FileTests, unittest.TestCase):
    KIND = KIND
    DIGEST = "f63cc340502cb79ca57e36c3ae38c91ef1c0700fa94a912504a6e22542239168"
    CASE = TABLE
    BYTES = TABLE_BYTES

    def test_answer_lines(self):
        self.assertEqual(
            answer((1, 2, (S, 2, A, a, A, 0))),
            "passed states=8 offsets=0,4 lefts=32768,32769 lengths=2,0 codes=32769,1")
        self.assertEqual(
            answer((0, 1, (S, 0))), "passed states=5 offsets=0 lefts=32768 lengths=0 codes=")
        self.assertEqual(answer((0, 1, (S, 1, a))), "refused=5 at=2")
        self.assertEqual(answer((0, 1, ())), "refused=19 at=0")
        self.assertEqual(answer((0, 1, (S, 1, S))), "refused=19 at=0")


class UsedRulesTest(unittest.TestCase):
    def used(self, t, n, data):
        return used_rules(check_rules(t, n, data))

    def test_used(self):
        self.assertEqual(self.used(1, 1, (S, 1, S, S, 1, a)), [True, True])
        self.assertEqual(self.used(0, 2, (A, 0, S, 1, A)), [True, True])

    def test_no_finite_tree(self):
        self.assertEqual(self.used(0, 1, (S, 1, S)), [False])
        self.assertEqual(
            self.used(0, 2, (S, 0, S, 1, A, A, 1, A)), [True, False, False])

    def test_never_opened(self):
        self.assertEqual(self.used(0, 2, (S, 0, A, 0)), [True, False])
        self.assertEqual(self.used(0, 2, (A, 0)), [False])

    def test_opened_only_beside_what_has_no_tree(self):
        rules = (S, 0, S, 2, A, B, A, 0)
        self.assertEqual(self.used(0, 3, rules), [True, False, False])


class ReasonsTest(unittest.TestCase):
    def reasons(self, t, n, data, *names):
        found = reasons_of(t, n, data)
        self.assertEqual(found, list(names))
        self.assertLessEqual(set(found), set(REASONS))

    def test_passed(self):
        self.reasons(78, 1, FULL, "passed", "passed-k-of-12", "passed-1024-states",
                     "passed-every-rule-used")
        self.reasons(400, 1, MOST, "passed", "passed-400-rules",
                     "passed-every-rule-used")
        self.reasons(1, 2, (S, 1, a, A, 0), "passed", "passed-a-rule-no-sentence-uses")
        self.reasons(0, 1, (S, 1, S, S, 0), "passed", "passed-every-rule-used",
                     "only-the-empty-sentence", "a-sentence-by-the-last-rule-alone",
                     "told-from-the-empty-sentence-is-none")

    def test_the_last_codes(self):
        self.reasons(2000, 2000, (S, 1, 2000, 34767, 0), "passed", "passed-2000-terminals",
                     "passed-2000-nonterminals", "passed-code-2000", "passed-code-34767",
                     "passed-left-code-34767", "passed-a-rule-no-sentence-uses")

    def test_19(self):
        never, by_rule = "told-from-19-is-never-given", "told-from-a-rule-of-S-is-enough"
        self.reasons(0, 1, (), "19", "19-no-rules", never)
        self.reasons(0, 1, (S, 1, S), "19", "19-every-rule-of-S-needs-S", never, by_rule)
        self.reasons(0, 2, (A, 1, S, A, 0), "19", "19-no-rule-of-S",
                     "19-S-on-right-sides-only", "19-though-another-has-a-finite-tree", never,
                     "told-from-a-finite-tree-of-another-is-enough")
        self.reasons(78, 2, FULL_OF_A, "19", "19-k-of-12",
                     "19-1024-states", "19-no-rule-of-S", "19-though-another-has-a-finite-tree",
                     never, "told-from-a-finite-tree-of-another-is-enough")

    def test_19_that_the_order_hides(self):
        self.reasons(0, 1, (S, 1, S, S, 1, S), "6-next-to-the-earlier-rule",
                     "order-6-before-19")
        self.reasons(78, 2, FULL_OF_A + (A, 0),
                     "8-by-one-state", "order-8-before-19", "told-from-19-comes-before-8")
        self.reasons(0, 1, (S, 0, S, 0), "6-next-to-the-earlier-rule")

    def test_1(self):
        self.reasons(2002, 1, (), "1-t-too-large", "order-1-before-19")
        self.reasons(0, 0, (), "1-n-of-0", "order-1-before-19")
        self.reasons(0, 2002, (S, 0), "1-n-too-large")
        self.reasons(2001, 2000, (S, 0), "1-t-of-2001")
        self.reasons(2000, 2001, (S, 0), "1-n-of-2001")
        self.reasons(2001, 0, (S,), "1-both-t-and-n", "order-1-before-a-faulty-table",
                     "order-1-before-19")

    def test_2_and_3_and_4(self):
        self.reasons(0, 1, (S,), "2-under-two-entries", "order-2-before-19")
        self.reasons(0, 1, (S, 1), "2-body-short", "order-2-before-19")
        self.reasons(0, 1, (S, 0, S, 1), "2-body-short")
        self.reasons(0, 1, (2000, 0), "3-below-the-nonterminals", "order-3-before-19")
        self.reasons(0, 1, (A, 0), "3-above-the-declared", "order-3-before-19")
        for left in (2001, 32767):
            self.reasons(0, 1, (left, 0), "3-between-the-kinds", "3-code-%d" % left,
                         "order-3-before-19")
        self.reasons(0, 1, (34767, 0), "3-above-the-declared", "3-code-34767", "order-3-before-19")
        self.reasons(0, 1, (34768, 0), "3-above-34767", "3-code-34768", "order-3-before-19")
        self.reasons(0, 1, (65535, 0), "3-above-34767", "order-3-before-19")
        self.reasons(0, 1, (S, 13) + (S,) * 13, "4-k-of-13", "order-4-before-19")
        self.reasons(0, 1, (S, 14) + (S,) * 14, "4-k-above-13", "order-4-before-19")
        self.reasons(0, 1, (S, 268) + (S,) * 268, "4-k-whose-low-byte-passes", "order-4-before-19")

    def test_5_and_6(self):
        self.reasons(0, 1, (S, 0, S, 2, S, 0), "5-zero")
        self.reasons(0, 1, (S, 1, a), "5-terminal-undeclared")
        self.reasons(0, 1, (S, 1, A), "5-nonterminal-undeclared", "order-5-before-19")
        for code in (2001, 32767):
            self.reasons(2000, 1, (S, 1, code), "5-between-the-kinds", "5-code-%d" % code)
        self.reasons(0, 1999, (S, 0, S, 1, 34767), "5-nonterminal-undeclared", "5-code-34767")
        self.reasons(0, 2000, (S, 1, 34768), "5-above-34767", "5-code-34768", "order-5-before-19")
        self.reasons(0, 2000, (S, 1, 65535), "5-above-34767", "order-5-before-19")
        self.reasons(0, 1, (S, 0, S, 0), "6-next-to-the-earlier-rule")
        self.reasons(0, 1, (S, 0, S, 1, S, S, 0), "6-further-away")

    def test_7_and_8(self):
        self.reasons(400, 1, MOST + (S, 0), "7-whole-rule")
        self.reasons(400, 1, MOST + (S, 1), "7-body-short",
                     "order-7-before-2-body-short")
        self.reasons(400, 1, MOST + (S,), "7-stray-entry",
                     "order-7-before-2-under-two-entries")
        self.reasons(78, 1, FULL + (S, 0), "8-by-one-state")
        self.reasons(78, 1, FULL + (S, 1, S), "8-by-more")

    def test_faults_that_the_order_hides(self):
        self.reasons(0, 1, (A, 13), "3-above-the-declared",
                     "order-3-before-4", "order-3-before-2-body-short", "order-3-before-19")
        self.reasons(78, 1, FULL + (S, 5) + (a,) * 5,
                     "6-next-to-the-earlier-rule", "order-6-before-8")
        self.reasons(0, 1, (S, 1, 0, A), "5-zero",
                     "order-5-before-2-to-5-of-a-later-rule")


if __name__ == "__main__":
    unittest.main()
