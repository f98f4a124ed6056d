"""Tests of the cases of room told beforehand: bytes, answer lines, reasons."""

import unittest

from case_grammars import COURSE, EIGHT_CHANNELS, ENDLESS, ONE_A, spelled
from file_tests import M, M_BYTES, TABLE, TABLE_BYTES, FileTests, without_sentences
from random_tables import S, a, encode
from room_cases import KIND, Case, answer
from room_reasons import REASONS, reasons_of

ALWAYS = "room", "told-from-nonterminal-shifts-are-left-out"
ODD = "room-odd-states", "told-from-bytes-are-rounded-down"
EVEN = "room-even-states", "told-from-there-is-always-a-byte-more"
CLOSINGS = "told-from-a-closing-is-counted-once"
OPENINGS = "told-from-openings-before-a-nonterminal-are-counted-once"


class FileTest(FileTests, unittest.TestCase):
    KIND = KIND
    DIGEST = "f149afb4272a4849edbaba4ab022fd46070edcfb01f3e6b8a81ff4593ec50122"
    CASE = Case(*TABLE, M)
    BYTES = TABLE_BYTES + M_BYTES


class AnswerTest(unittest.TestCase):
    def test_rooms(self):
        self.assertEqual(answer(ONE_A), "room states=6 certificate=9 entries=72 moves=6")
        self.assertEqual(answer(EIGHT_CHANNELS), "room states=27 certificate=183 entries=1458 moves=49")
        self.assertEqual(answer(COURSE), "room states=10 certificate=25 entries=200 moves=6")

    def test_refusals(self):
        self.assertEqual(answer((0, 1, (S, 1, a))), "refused=5 at=2")
        self.assertEqual(answer((2001, 1, ())), "refused=1 at=0")
        self.assertEqual(answer(ENDLESS), "refused=19 at=0")
        self.assertEqual(answer((0, 1, (S, 0, S, 1, S, S, 0))), "refused=6 at=5")


class ReasonsTest(unittest.TestCase):
    def reasons(self, table, *names):
        found = reasons_of(Case(*table))
        self.assertEqual(without_sentences(found), sorted(names))
        self.assertLessEqual(set(found), set(REASONS))

    def test_rooms(self):
        self.reasons((1, 1, encode([(S, (a,) * 3)])), *ALWAYS, *EVEN, "room-every-rule-used")
        self.reasons(spelled("S: | a"), *ALWAYS, *ODD, OPENINGS, "room-every-rule-used")
        self.reasons(spelled("S: a a S b |"), *ALWAYS, *EVEN, CLOSINGS, OPENINGS,
                     "room-every-rule-used")
        self.reasons(ONE_A, *ALWAYS, *EVEN, "room-every-rule-used", "room-of-the-corpus")

    def test_many(self):
        rules = [(S, (1 + i,) + (S,) * 5) for i in range(35)] + [(S, (a,) * 6)]
        self.reasons((35, 1, encode(rules)), *ALWAYS, *EVEN, CLOSINGS, OPENINGS,
                     "room-256-states", "room-over-60-states", "room-over-255-moves",
                     "room-over-4096-moves", "room-every-rule-used")
        rules = [(S, (1 + i,)) for i in range(399)] + [(S, ())]
        self.reasons((399, 1, encode(rules)), *ALWAYS, *ODD, OPENINGS, "room-400-rules",
                     "room-code-past-255",
                     "room-over-60-states", "room-over-255-moves", "room-every-rule-used")

    def test_dead_rules(self):
        taken = ["told-from-every-rule-is-taken", "told-from-unproductive-rules-are-taken",
                 "told-from-dead-items-move", "told-from-dead-items-are-entered"]
        self.reasons(spelled("S: a | A", "A: A b"), *ALWAYS, *ODD, "dead-unproductive",
                     "told-from-dead-rules-have-no-states", *taken)
        self.reasons(spelled("S: a", "U: b"), *ALWAYS, *EVEN, "dead-unreachable",
                     "told-from-dead-rules-have-no-states", "told-from-every-rule-is-taken",
                     "told-from-unreachable-rules-are-taken", "told-from-dead-items-move")

    def test_refusals(self):
        self.reasons((0, 1, (S, 1, a)), "5")
        self.reasons((0, 0, ()), "1")
        self.reasons(ENDLESS, "19")


if __name__ == "__main__":
    unittest.main()
