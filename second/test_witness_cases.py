"""Tests of the witness cases: their bytes, the lines, the sorting by reasons."""

import unittest

from case_files import LARGEST, Rng
from case_grammars import COURSE, CYCLE, ENDLESS, ONE_A, ROWS, triples_in
from certificates import witness_fault
from file_tests import M, M_BYTES, TABLE, TABLE_BYTES, WAY, FileTests, without_sentences
from random_tables import S
from ways import longer, shortest, wander
from witness_cases import KIND, Case, answer
from witness_reasons import REASONS, reasons_of


FORMER_WAY = 0, 2, 4, 16, 23, 45, 43      # the shortest witness of S→S before [3], Q = 6


class FileTest(FileTests, unittest.TestCase):
    KIND = KIND
    DIGEST = "a9b53aa028542b9cc543b4060556c7c91f4c94f9c205ba594261a3cae8710d64"
    CASE = Case(*TABLE, (258, LARGEST), M)
    BYTES = TABLE_BYTES + M_BYTES + b"\x02\0\0\0" + b"\x02\x01\0\0" + b"\xff" * 4

    def test_answer_lines(self):
        self.assertEqual(answer(Case(*CYCLE, WAY)), "accepted")
        self.assertEqual(answer(Case(*CYCLE, WAY[:4])), "refused=15 at=4")
        self.assertEqual(answer(Case(*CYCLE, (0, 1) + WAY)), "refused=15 at=1")
        self.assertEqual(answer(Case(0, 0, b"", WAY)), "refused=1 at=0")
        self.assertEqual(answer(Case(*ENDLESS, FORMER_WAY)), "refused=19 at=0")
        self.assertEqual(answer(Case(*ENDLESS, ())), "refused=19 at=0")


class WaysTest(unittest.TestCase):
    def test_shortest_and_longer_are_witnesses(self):
        for row in ROWS[6:9]:
            triples = triples_in(row)
            least = len(shortest(triples))
            for more in range(30):
                way = longer(Rng(more), triples, more)
                self.assertIsNone(witness_fault(triples, way))
                self.assertGreaterEqual(len(way), least)

    def test_wander_follows_successors(self):
        triples = triples_in(ONE_A)
        for seed in range(30):
            way = wander(Rng(seed), triples, 12)
            self.assertEqual(witness_fault(triples, way), (15, len(way)))


class ReasonsTest(unittest.TestCase):
    def reasons(self, table, entries, *names):
        found = reasons_of(*table, entries)
        self.assertEqual(without_sentences(found), sorted(names))
        self.assertLessEqual(set(found), set(REASONS))

    def test_accepted(self):
        self.reasons(CYCLE, WAY, "accepted-shortest")
        self.reasons(CYCLE, WAY[:4] + WAY[3:], "accepted-longer",
                     "accepted-with-a-triple-repeated",
                     "accepted-with-a-triple-repeated-at-once")
        self.reasons(CYCLE, WAY[:5] + (77,) + WAY[5:], "accepted-longer")

    def test_table_faults(self):
        self.reasons((0, 0, b""), WAY, "1")
        self.reasons((0, 0, b""), (), "1", "1-to-8-with-an-empty-row")

    def test_rows_that_do_not_end(self):
        self.reasons(CYCLE, (), "15-empty-row")
        self.reasons(CYCLE, WAY[:-1], "15-only-the-end-fails")
        self.reasons(ONE_A, (0,), "15-only-the-end-fails", "15-of-an-unambiguous-grammar")

    def test_first_entry(self):
        self.reasons(CYCLE, (1,) + WAY[1:], "15-first-entry", "15-first-of-several",
                     "15-first-entry-though-the-rest-is-right")
        self.reasons(CYCLE, (73,), "15-first-entry", "15-last-entry")

    def test_after_the_end(self):
        self.reasons(CYCLE, WAY + (73,), "15-after-the-end", "15-last-entry")

    def test_large_entries(self):
        self.reasons(CYCLE, WAY[:-1] + (128,), "15-entry-of-2QQ", "15-last-entry")
        self.reasons(CYCLE, WAY[:-1] + (129,), "15-entry-above-2QQ", "15-last-entry")
        self.reasons(CYCLE, WAY[:2] + (LARGEST,) + WAY[3:], "15-entry-above-2QQ",
                     "15-entry-of-32-ones", "15-inner-entry", "15-first-of-several")

    def test_misreadings(self):
        # (0,3,5) to (1,3,5), not moved; (0,2,4) to (1,2,4) by an opening.
        self.reasons(CYCLE, WAY[:5] + (64 + 29,), "15-no-successor-and-not-reached",
                     "15-last-entry", "15-parting-without-the-closing-move")
        self.reasons(CYCLE, WAY[:4] + (64 + 20,), "15-no-successor-and-not-reached",
                     "15-last-entry", "15-parting-on-an-opening")
        self.reasons(CYCLE, WAY[:3] + (36,), "15-no-successor-though-reached",
                     "15-last-entry", "15-both-open-at-once")

    def test_dead_rules(self):
        # (0,2,2), index 22, to (0,2,6): S→·A is 6.
        told = ["told-from-every-rule-is-taken", "told-from-unproductive-rules-are-taken",
                "told-from-dead-items-are-entered"]
        self.reasons(COURSE, (0, 2, 22, 26), "15-no-successor-and-not-reached", "15-last-entry",
                     "15-of-an-unambiguous-grammar", "15-opening-of-an-unproductive-rule",
                     "dead-unproductive", *told)
        table = 1, 2, CYCLE[2] + (S, 1, S + 1)         # S→A put behind
        way = 0, 2, 22, 24, 35, 113, 111
        self.reasons(table, way, "accepted-shortest", "dead-unproductive",
                     "accepted-dead-unproductive")

    def test_without_a_sentence(self):
        self.reasons(ENDLESS, FORMER_WAY, "19", "19-though-accepted-by-document-01")
        self.reasons(ENDLESS, FORMER_WAY[1:], "19", "order-19-before-15")
        self.reasons(ENDLESS, (), "19", "19-with-an-empty-row", "order-19-before-15")


if __name__ == "__main__":
    unittest.main()
