"""Tests of the step cases: their bytes, the answer lines, the sorting by reasons."""

import unittest

from case_grammars import COURSE, CYCLE, ENDLESS, NO_RULES, ONE_A, spelled
from file_tests import M, M_BYTES, TABLE, TABLE_BYTES, FileTests, without_sentences
from step_cases import KIND, REASONS, Case, answer, reasons_of
from triples import Triple


class FileTest(FileTests, unittest.TestCase):
    KIND = KIND
    DIGEST = "061b033846083c1ecb1c62e3411de3ece7f70e2c0c7e63a6fac8e3b421925b13"
    CASE = Case(*TABLE, Triple(1, 2, 258), M)
    BYTES = TABLE_BYTES + M_BYTES + b"\x01\0\0\0" + b"\x02\0\0\0" + b"\x02\x01\0\0"


class AnswerTest(unittest.TestCase):
    def line(self, table, triple, line):
        self.assertEqual(answer(Case(*table, Triple(*triple))), line)

    def test_records(self):
        self.line(ONE_A, (0, 0, 0), "records=2 0,0,2,-,o0 0,2,0,o0,-")
        self.line(ONE_A, (0, 2, 2), "records=3 0,2,4,-,o1 0,3,3,s32768,s32768 0,4,2,o1,-")
        self.line(ONE_A, (0, 5, 4), "records=1 1,3,4,c1,-")
        self.line(ONE_A, (0, 3, 5), "records=1 1,1,3,c0,c1")
        self.line(ONE_A, (1, 4, 4), "records=1 1,5,5,s1,s1")
        self.line(CYCLE, (0, 4, 4), "records=5 0,4,4,o1,- 0,4,4,-,o1 0,4,6,-,o2"
                                    " 0,5,5,s32768,s32768 0,6,4,o2,-")
        self.line(COURSE, (0, 2, 6), "records=1 0,4,6,o1,-")

    def test_no_records(self):
        self.line(ONE_A, (1, 1, 1), "records=0")
        self.line(ONE_A, (2, 0, 0), "records=0")
        self.line(ONE_A, (0, 6, 0), "records=0")
        self.line(ONE_A, (0, 0, 2 ** 32 - 1), "records=0")
        self.line(COURSE, (0, 6, 6), "records=0")

    def test_refused(self):
        self.line((0, 1, ONE_A[2]), (0, 0, 0), "refused=5 at=2")
        self.line((0, 0, b""), (2, 0, 0), "refused=1 at=0")
        self.line(ENDLESS, (0, 0, 0), "refused=19 at=0")
        self.line(NO_RULES, (1, 3, 3), "refused=19 at=0")
        self.line(NO_RULES, (2, 9, 9), "refused=19 at=0")


class ReasonsTest(unittest.TestCase):
    def reasons(self, table, triple, *names):
        found = reasons_of(Case(*table, Triple(*triple)))
        self.assertEqual(without_sentences(found), sorted(names))
        self.assertLessEqual(set(found), set(REASONS))

    def test_layer_0(self):
        self.reasons(ONE_A, (0, 0, 0), "layer-0-left-opens", "layer-0-right-opens",
                     "rule-0-opens")
        self.reasons(ONE_A, (0, 2, 2), "layer-0-left-opens", "layer-0-right-opens",
                     "layer-0-nonterminal")
        self.reasons(ONE_A, (0, 4, 4), "layer-0-terminal")
        self.reasons(ONE_A, (0, 2, 4), "layer-0-left-opens", "unequal-symbols-do-not-shift")

    def test_partings(self):
        self.reasons(ONE_A, (0, 3, 5), "parting-both-close", "rule-0-closes")
        self.reasons(ONE_A, (0, 5, 4), "parting-left-closes")
        self.reasons(ONE_A, (0, 4, 5), "parting-right-closes")
        self.reasons(ONE_A, (0, 5, 5), "no-records-in-range", "equal-closings-do-not-part")
        self.reasons(ONE_A, (0, 2, 5), "layer-0-left-opens",
                     "closing-beside-a-nonterminal-does-not-part")

    def test_layer_1(self):
        self.reasons(ONE_A, (1, 2, 2), "layer-1-left-opens", "layer-1-right-opens",
                     "layer-1-equal-nonterminals-do-not-shift")
        self.reasons(ONE_A, (1, 4, 4), "layer-1-terminal")
        self.reasons(ONE_A, (1, 5, 1), "layer-1-left-closes")
        self.reasons(ONE_A, (1, 1, 3), "layer-1-right-closes", "rule-0-closes")

    def test_back_to_itself(self):
        self.reasons(CYCLE, (1, 5, 5), "layer-1-left-closes", "layer-1-right-closes",
                     "back-to-itself-both", "back-to-itself-with-a-lower-next")
        self.reasons(CYCLE, (1, 5, 1), "layer-1-left-closes", "back-to-itself-left-only",
                     "back-to-itself-with-a-lower-next")
        self.reasons(CYCLE, (1, 1, 4), "layer-1-right-opens", "back-to-itself-right-only")

    def test_out_of_range(self):
        self.reasons(ONE_A, (2, 0, 0), "out-of-range-layer")
        self.reasons(ONE_A, (0, 6, 0), "out-of-range-left",
                     "out-of-range-though-its-index-is-below-2QQ")
        self.reasons(ONE_A, (0, 99, 99), "out-of-range-left", "out-of-range-right")

    def test_table_faults(self):
        self.reasons((0, 1, ONE_A[2]), (0, 0, 0), "5")

    def test_many_records(self):
        table = spelled("S: " + " ".join("A" * 12), "A: | A")
        # 17 is A→·, 18 and 19 A→·A and A→A·: both close to 13 items each.
        self.reasons(table, (0, 17, 19), "parting-both-close", "many-records",
                     "told-from-live-rules-are-found-in-one-round")

    def test_dead_rules(self):
        # 4 and 5 S→a, 6 and 7 S→A, 8 and 9 A→A
        taken = ["told-from-every-rule-is-taken", "told-from-unproductive-rules-are-taken"]
        self.reasons(COURSE, (0, 0, 0), "layer-0-left-opens", "layer-0-right-opens",
                     "rule-0-opens", "dead-unproductive")
        self.reasons(COURSE, (0, 2, 6), "layer-0-left-opens", "dead-unproductive",
                     "dead-item-right-only", "a-dead-item-beside-one-that-moves",
                     "a-dead-item-does-not-open", "no-opening-of-an-unproductive-rule",
                     "told-from-dead-items-move", "told-from-dead-items-are-entered", *taken)
        self.reasons(COURSE, (0, 8, 8), "no-records-in-range", "dead-unproductive",
                     "dead-items-on-both-sides", "a-dead-item-does-not-open",
                     "a-dead-item-does-not-shift", "told-from-dead-items-move", *taken)
        self.reasons(COURSE, (1, 7, 1), "no-records-in-range", "dead-unproductive",
                     "dead-item-left-only", "a-dead-item-does-not-close",
                     "told-from-dead-items-move", *taken)

    def test_a_dead_item_before_a_terminal(self):
        # 4 and 5 S→a, 6 and 7 U→a
        self.reasons(spelled("S: a", "U: a"), (0, 5, 6), "no-records-in-range",
                     "dead-unreachable", "dead-item-right-only",
                     "no-parting-beside-a-dead-item-before-a-terminal",
                     "told-from-every-rule-is-taken", "told-from-unreachable-rules-are-taken",
                     "told-from-dead-items-stand-before-terminals")

    def test_closings_into_dead_rules(self):
        # 4 and 5 S→a, 6 to 8 S→W V, 9 and 10 W→W, 11 and 12 V→S, 13 and 14 U→S
        table = spelled("S: a | W V", "W: W", "V: S", "U: S")
        taken = [name for name in REASONS if name.startswith("told-from-") and "-taken" in name]
        self.reasons(table, (1, 5, 1), "layer-1-left-closes", "dead-mixed",
                     "no-closing-into-an-unreachable-rule",
                     "no-closing-into-a-rule-behind-unproductive-ones",
                     "told-from-dead-items-are-entered", *taken)

    def test_without_a_sentence(self):
        self.reasons(ENDLESS, (0, 0, 0), "19", "19-though-it-had-records-before")
        self.reasons(ENDLESS, (0, 1, 1), "19")
        self.reasons(ENDLESS, (0, 6, 1), "19", "19-out-of-range")


if __name__ == "__main__":
    unittest.main()
