"""Tests of the record cases: their bytes, the lines, the sorting by reasons."""

import unittest

import file_tests
from case_files import LARGEST
from case_grammars import CYCLE, ENDLESS
from file_tests import M, M_BYTES, TABLE, TABLE_BYTES, FileTests, without_sentences
from record_cases import KIND, REASONS, Case, answer, reasons_of, records_of

WAY = records_of(8, file_tests.WAY)


class FileTest(FileTests, unittest.TestCase):
    KIND = KIND
    DIGEST = "63e10368dbcadb8c5dd476c5b57f5be65bd837d00e32cd03dc03484a662a4a1d"
    CASE = Case(*TABLE, ((2, 258, LARGEST),), M)
    BYTES = TABLE_BYTES + M_BYTES + b"\x01\0\0\0" + b"\x02\0\0\0" + b"\x02\x01\0\0" + b"\xff" * 4

    def test_answer_lines(self):
        self.assertEqual(answer(Case(*CYCLE, WAY)), "accepted")
        self.assertEqual(answer(Case(*CYCLE, WAY[:4])), "refused=15 at=4")
        self.assertEqual(answer(Case(*CYCLE, ())), "refused=15 at=0")
        self.assertEqual(answer(Case(0, 0, b"", WAY)), "refused=1 at=0")
        self.assertEqual(answer(Case(*ENDLESS, ((0, 0, 0),))), "refused=19 at=0")
        self.assertEqual(answer(Case(*ENDLESS, ())), "refused=19 at=0")

    def test_records_outside_the_ranges(self):
        for record in ((2, 0, 2), (0, 8, 2), (0, 0, 8), (LARGEST, 0, 2)):
            self.assertEqual(answer(Case(*CYCLE, WAY[:1] + (record,) + WAY[2:])),
                             "refused=15 at=1")


class ReasonsTest(unittest.TestCase):
    def reasons(self, records, *names, table=CYCLE):
        found = reasons_of(*table, records)
        self.assertEqual(without_sentences(found), sorted(names))
        self.assertLessEqual(set(found), set(REASONS))

    def test_reasons(self):
        self.reasons(WAY, "accepted")
        self.reasons((), "15-no-records")
        self.reasons(WAY[:4], "15-only-the-end-fails")
        self.reasons(WAY[:1] + WAY[2:], "15-in-range", "15-inner-record")
        self.reasons(((2, 0, 0),), "15-layer-of-2", "15-first-record", "15-last-record")
        # WAY goes on with (0,2,2): its index is also that of (0,1,10)
        self.reasons(WAY[:2] + ((0, 1, 10),) + WAY[3:], "15-right-above-Q",
                     "15-right-index-though-outside", "15-inner-record")
        self.reasons(WAY[:2] + ((0, 8, LARGEST),), "15-left-of-Q", "15-right-above-Q",
                     "15-of-32-ones", "15-last-record")

    def test_without_a_sentence(self):
        self.reasons(WAY[:1], "19", table=ENDLESS)
        self.reasons((), "19", "19-no-records", table=ENDLESS)
        self.reasons(((0, 0, 6),), "19", "19-with-a-record-outside", table=ENDLESS)


if __name__ == "__main__":
    unittest.main()
