"""Tests of the cases of the trees of one row: their bytes, the lines, the reasons, the misreadings."""

import unittest

from case_files import decode_all
from case_grammars import COURSE, CYCLE, ENDLESS, ONE_A, ROWS, spelled, states_of
from file_tests import TABLE, TABLE_BYTES, FileTests
from random_tables import S, a
from sentence_trees import Lent
from tree_cases import ROOM, ROOM_REASONS, TREES, answer, room_answer, room_reasons_of
from tree_grammars import (
    ALL_EMPTY, AMBIGUOUS_BESIDE, CYCLE_ELSEWHERE, EMPTY_PARTS, HIDDEN_ONE, ONE_ORDER, TWO_BEFORE_A_FALSE_END, doubled,
)
from tree_inputs import Case
from tree_misreadings import TOLD, told
from tree_reasons import ENOUGH, REASONS, reasons_of

NEED = 65 * 65 * 6        # of S→a
DOUBLE = spelled("S: S S | a")


def need(table):
    return 65 * 65 * states_of(table)


class TreesFileTest(FileTests, unittest.TestCase):
    KIND = TREES
    DIGEST = "eeead7ef669b5136f4ade2c1909fceb1466ad841b6faf0ea3cefd4eaf7e03530"
    CASE = Case(*TABLE, (1, 258), Lent(259, 3), 255)
    BYTES = TABLE_BYTES + b"\2\0\0\0" + b"\1\0\2\1" + b"\3\1\0\0" + b"\3\0\0\0" + b"\xff"

    def test_too_large_numbers_are_refused(self):
        front = TABLE_BYTES
        for data in (front + b"\xff" * 999999, front + bytes(4) + b"\xff" * 999, front + bytes(8) + b"\xff" * 999):
            with self.assertRaises(ValueError):
                list(decode_all(TREES, data))


class RoomFileTest(FileTests, unittest.TestCase):
    KIND = ROOM
    DIGEST = "a9e6634a68185de58c5298309d7124268289a3e41b17792dfcd96dffc96935b9"
    CASE = TABLE
    BYTES = TABLE_BYTES


class AnswerTest(unittest.TestCase):
    def test_lines(self):
        self.assertEqual(answer(Case(*ONE_A, (1,), Lent(NEED, 1), 7)), "one rules=1 cleared=25350")
        self.assertEqual(answer(Case(*ONE_A, (), Lent(NEED + 5, 1), 7)), "none cleared=25350")
        self.assertEqual(answer(Case(*CYCLE, (1,), Lent(NEED * 2, 0), 7)), "several cleared=33800")
        self.assertEqual(answer(Case(*ONE_ORDER, (2, 1), Lent(NEED * 3, 9), 7)), "one rules=1,2,4,3 cleared=54925")
        self.assertEqual(answer(Case(*ONE_A, (1,), Lent(NEED, 0), 7)), "refused=14 at=0 cleared=25350")
        self.assertEqual(answer(Case(*ONE_A, (1,), Lent(NEED - 1, 0), 7)), "refused=14 at=0")
        self.assertEqual(answer(Case(*ONE_A, (1, 2), Lent(0, 0), 7)), "refused=22 at=1")
        self.assertEqual(answer(Case(*ENDLESS, (2,), Lent(0, 0), 7)), "refused=19 at=0")

    def test_rooms(self):
        self.assertEqual(room_answer(ONE_A), "entries=25350")
        self.assertEqual(room_answer(COURSE), "entries=42250")
        self.assertEqual(room_answer(ENDLESS), "refused=19 at=0")
        self.assertEqual(room_answer((0, 1, (S, 1, a))), "refused=5 at=2")


class ReasonsTest(unittest.TestCase):
    def reasons(self, case, *names):
        """Those of these reasons alone that begin as one of them does, up to its first hyphen."""
        found = reasons_of(case)
        self.assertLessEqual(set(found), set(REASONS))
        self.assertEqual(len(found), len(set(found)))
        heads = tuple({name.partition("-")[0] + "-" for name in names} | {"22-"})
        self.assertEqual(sorted(name for name in found if (name + "-").startswith(heads)), sorted(names))

    def test_one(self):
        self.reasons(Case(*ONE_A, (1,), Lent(NEED, 1), 7),
                     "one", "one-of-1-terminal", "one-with-every-rule-used", "one-of-an-unambiguous-grammar",
                     "one-with-exactly-the-work-row", "one-filled-with-a-mixture", "one-list-exactly-enough",
                     "one-of-the-corpus")
        self.reasons(Case(*EMPTY_PARTS, (1, 2), Lent(need(EMPTY_PARTS) + 1, 5), 0),
                     "one", "one-of-2-to-15-terminals", "one-with-every-rule-used", "one-with-empty-parts",
                     "one-of-an-unambiguous-grammar", "one-with-a-longer-work-row", "one-filled-with-0",
                     "one-list-longer", "one-empty-part-in-front", "one-empty-part-between",
                     "one-empty-part-at-the-end")
        self.reasons(Case(*HIDDEN_ONE, (2,) + (1,) * 63, Lent(need(HIDDEN_ONE), 127), 255),
                     "one", "one-of-64-terminals", "one-with-every-rule-used", "one-with-empty-parts",
                     "one-with-hidden-left-recursion", "one-of-a-potential-grammar", "one-with-exactly-the-work-row",
                     "one-filled-with-the-largest", "one-list-exactly-enough", "one-empty-part-in-front",
                     "one-over-64-rules")
        self.reasons(Case(*TWO_BEFORE_A_FALSE_END, (2, 3), Lent(need(TWO_BEFORE_A_FALSE_END), 2), 1),
                     "one", "one-of-2-to-15-terminals", "one-with-every-rule-used", "one-of-a-potential-grammar",
                     "one-with-exactly-the-work-row", "one-filled-with-a-small-number", "one-list-longer",
                     "one-though-a-part-in-no-tree-has-two-ways")

    def test_several_and_none(self):
        self.reasons(Case(*CYCLE, (1,), Lent(need(CYCLE), 0), 3),
                     "several", "several-of-1-terminal", "several-with-a-cyclic-grammar", "several-with-left-recursion",
                     "several-with-every-rule-used", "several-with-exactly-the-work-row",
                     "several-with-a-list-of-no-entry", "several-filled-with-a-small-number", "several-endless",
                     "several-by-two-rules-at-the-root",
                     "several-of-the-corpus")
        self.reasons(Case(*DOUBLE, (1,) * 3, Lent(need(DOUBLE), 1), 3),
                     "several", "several-of-2-to-15-terminals", "several-with-left-recursion",
                     "several-with-every-rule-used", "several-with-exactly-the-work-row",
                     "several-with-a-list-that-is-kept", "several-filled-with-a-small-number", "several-exactly-two",
                     "several-by-two-splits-alone")
        self.reasons(Case(*CYCLE_ELSEWHERE, (1, 3), Lent(need(CYCLE_ELSEWHERE), 1), 0),
                     "several", "several-of-2-to-15-terminals", "several-with-a-cyclic-grammar",
                     "several-with-left-recursion", "several-with-every-rule-used", "several-with-exactly-the-work-row",
                     "several-with-a-list-that-is-kept", "several-filled-with-0", "several-endless",
                     "several-below-the-root-alone")
        self.reasons(Case(*ONE_A, (1, 1), Lent(NEED, 1), 0),
                     "none", "none-of-2-to-15-terminals", "none-with-every-rule-used", "none-of-an-unambiguous-grammar",
                     "none-with-exactly-the-work-row", "none-with-a-list-that-is-kept", "none-filled-with-0",
                     "none-a-front-of-it-is-a-sentence", "none-of-the-corpus")

    def test_14(self):
        self.reasons(Case(*ONE_ORDER, (2, 1), Lent(need(ONE_ORDER) + 1, 3), 1),
                     "14-list-one-too-short", "14-list-filled", "14-list-with-a-longer-work-row")
        table = doubled(63, 2, 1)
        self.reasons(Case(*table, (), Lent(need(table), 0), 0),
                     "14-list-empty", "14-list-filled-with-0", "14-list-though-enough-for-the-low-16-bits",
                     "14-list-though-enough-for-the-low-32-bits", "14-list-though-enough-for-the-low-64-bits",
                     "14-list-rules-past-64-bits")
        self.reasons(Case(*ONE_A, (1,), Lent(NEED - 1, 0), 1),
                     "14-work-one-too-short", "14-work-and-the-list-too-short", "14-work-of-one")
        self.reasons(Case(*ONE_A, (), Lent(0, 0), 1), "14-work-empty", "14-work-of-none")
        self.reasons(Case(*CYCLE, (1,), Lent(9, 0), 1), "14-work-shorter", "14-work-of-several")

    def test_22(self):
        def row(codes, *names, lent=Lent(NEED, 9)):
            self.reasons(Case(*ONE_A, tuple(codes), lent, 0), "22", *names)
        row([0], "22-at-0", "22-code-0")
        row([1, 2, 65535], "22-at-1-to-62", "22-at-the-first-of-two-codes", "22-code-one-past-t")
        row([1] * 63 + [257], "22-at-63", "22-code-further-past-t", "22-code-whose-low-byte-passes")
        row([1] * 65, "22-at-64", "22-a-row-of-65")
        row([1] * 64 + [S, 1], "22-at-64", "22-at-64-with-no-terminal-there", "22-a-row-of-66", "22-code-a-nonterminal")
        row([1] * 65 + [S + 1], "22-at-64", "22-at-64-with-no-terminal-behind", "22-a-row-of-66")
        row([S + 5] + [1] * 69, "22-at-0", "22-at-a-code-of-a-row-that-is-too-long", "22-a-longer-row",
            "22-code-an-undeclared-nonterminal")
        row([1] * 65537, "22-at-64", "22-a-longer-row", "22-length-whose-low-8-bits-pass",
            "22-length-whose-low-16-bits-pass")
        self.reasons(Case(*ROWS[1], (65535,), Lent(0, 0), 0), "22", "22-at-0", "22-code-65535", "22-without-terminals",
                     "order-22-before-14")
        self.reasons(Case(*ROWS[3], (1,) * 65, Lent(10 ** 6, 0), 0), "22", "22-at-64", "22-at-64-of-a-sentence",
                     "22-a-row-of-65")

    def test_tables(self):
        self.reasons(Case(*ENDLESS, (), Lent(NEED, 9), 0), "19", "19-every-rule-of-S-needs-S")
        self.reasons(Case(*ENDLESS, (2,), Lent(NEED - 1, 9), 0), "19", "19-every-rule-of-S-needs-S",
                     "order-19-before-22", "order-19-before-14", "order-19-before-22-and-14")
        self.reasons(Case(0, 1, ONE_A[2], (), Lent(0, 9), 0), "5", "order-1-to-8-before-14")
        self.reasons(Case(0, 1, ONE_A[2], (1,), Lent(NEED, 9), 0), "5", "order-1-to-8-before-22")

    def test_names(self):
        self.assertEqual(len(REASONS), len(set(REASONS)))
        self.assertLessEqual(set(ENOUGH), set(REASONS))
        self.assertEqual(len(ROOM_REASONS), len(set(ROOM_REASONS)))
        self.assertEqual(room_reasons_of(ONE_A), ["entries"])


class MisreadingsTest(unittest.TestCase):
    def told(self, case, *names):
        self.assertEqual(sorted(told(case)), sorted(TOLD[name] for name in names))

    def test_answers(self):
        sized = "there-are-64-times-64-entries-by-state", "entries-are-counted-by-the-row"
        self.told(Case(*CYCLE, (1,), Lent(need(CYCLE), 1), 9), "a-part-within-itself-has-no-tree", *sized)
        self.told(Case(*DOUBLE, (1,) * 3, Lent(need(DOUBLE), 1), 9), "where-symbols-end-does-not-matter", *sized)
        table = spelled("S: a S | A", "A: B | C", "B: b", "C: b")
        self.told(Case(*table, (2,), Lent(need(table), 1), 9), "only-the-root-is-looked-at", *sized)
        listed = "rules-are-numbered-from-0", "rule-0-is-listed"
        self.told(Case(*TWO_BEFORE_A_FALSE_END, (2, 3), Lent(need(TWO_BEFORE_A_FALSE_END), 1), 9),
                  "parts-in-no-tree-of-the-row-are-looked-at", *sized, *listed)
        self.told(Case(*ROWS[1], (), Lent(need(ROWS[1]), 1), 9), "the-empty-row-has-no-tree", *sized, *listed)
        self.told(Case(*ONE_ORDER, (2, 1), Lent(need(ONE_ORDER), 5), 0), *listed, "a-node-stands-behind-its-children",
                  "children-stand-right-to-left", "rules-are-listed-level-by-level")
        self.told(Case(*ROWS[3], (1,) * 3, Lent(need(ROWS[3]), 5), 0), *listed, "a-node-stands-behind-its-children",
                  "each-rule-is-listed-once")
        self.told(Case(*AMBIGUOUS_BESIDE, (3, 3, 3, 1), Lent(need(AMBIGUOUS_BESIDE), 5), 0),
                  "where-symbols-end-does-not-matter", "only-the-root-is-looked-at")
        self.told(Case(*ALL_EMPTY, (), Lent(need(ALL_EMPTY), 0), 0), "the-empty-row-has-no-tree",
                  "none-and-several-need-a-list", "a-part-within-itself-has-no-tree")

    def test_lent(self):
        self.told(Case(*ONE_A, (1,), Lent(NEED + 1, 0), 1), "14-for-the-list-leaves-the-work-row",
                  "the-whole-work-row-is-cleared", "there-are-64-times-64-entries-by-state",
                  "entries-are-counted-by-the-row")
        self.told(Case(*ONE_ORDER, (2, 1), Lent(need(ONE_ORDER), 2), 0), "a-short-list-is-begun")
        self.told(Case(*ONE_A, (1,), Lent(NEED - 1, 1), 1), "every-14-clears-the-work-row",
                  "there-are-64-times-64-entries-by-state", "entries-are-counted-by-the-row")
        self.told(Case(*COURSE, (1,), Lent(need(COURSE) - 1, 1), 0), "dead-rules-need-no-entries",
                  "there-are-64-times-64-entries-by-state", "entries-are-counted-by-the-row")

    def test_refusals(self):
        self.told(Case(*ONE_A, (2,), Lent(NEED - 1, 1), 0), "places-are-counted-from-1", "14-comes-before-22")
        self.told(Case(*ONE_A, (1,) * 65, Lent(NEED, 1), 0), "places-are-counted-from-1", "65-terminals-pass")
        self.told(Case(*ONE_A, (1, 2) + (1,) * 65, Lent(NEED, 1), 0), "places-are-counted-from-1",
                  "a-long-row-comes-before-its-codes")
        self.told(Case(*ONE_A, (1,) * 66 + (2,), Lent(NEED, 1), 0), "places-are-counted-from-1",
                  "codes-past-place-64-come-first")
        self.told(Case(*ENDLESS, (2,), Lent(0, 1), 0), "22-comes-before-the-table")


if __name__ == "__main__":
    unittest.main()
