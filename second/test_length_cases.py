"""Tests of the cases of the writer's length: bytes, answer lines, reasons."""

import unittest

from case_files import decode_all
from file_tests import TABLE, TABLE_BYTES, FileTests, without_sentences
from length_cases import KIND, answer
from length_reasons import ABOUT_ROOM, REASONS, Case, reasons_of
from random_tables import S
from rooms import text_length
from tables import Refusal
from test_text import EMPTY, WORD
from text import write_text
from text_write_inputs import all_cases

ONE = Case(1, 1, (S, 1, 1), b"aS", (0, 1), (1, 1))


class FileTest(FileTests, unittest.TestCase):
    KIND = KIND
    DIGEST = "1c9908ccda6636ff7919ca7d3d21929e50c0ff9a180baa17f23d8e15136a592d"
    CASE = Case(*TABLE, b"ab", (WORD - 1, 1), (3,))
    BYTES = (TABLE_BYTES + b"\2\0\0\0ab" + b"\2\0\0\0\xff\xff\xff\xff\1\0\0\0"
             + b"\1\0\0\0\3\0\0\0")

    def test_too_large_numbers_are_refused(self):
        with self.assertRaises(ValueError):
            list(decode_all(KIND, b"\xff" * 999999))

    def test_all_inputs_of_the_writer_are_among_them(self):
        cases = set(KIND.all())
        self.assertLessEqual({Case(*case[:-1]) for case in all_cases()}, cases)


class AnswerTest(unittest.TestCase):
    def test_lengths(self):
        self.assertEqual(answer(Case(0, 1, EMPTY, b"S", (0,), (1,))), "length=34")
        self.assertEqual(answer(ONE), "length=37")
        self.assertEqual(answer(ONE._replace(names=b"ab-S", lengths=(3, 1), starts=(0, 3, 9))),
                         "length=41")

    def test_refusals(self):
        self.assertEqual(answer(ONE._replace(starts=(0,))), "refused=16 at=1")
        self.assertEqual(answer(ONE._replace(names=b"aa")), "refused=18 at=1")
        self.assertEqual(answer(ONE._replace(names=b"aA")), "refused=18 at=1")
        self.assertEqual(answer(ONE._replace(t=0)), "refused=5 at=2")
        self.assertEqual(answer(ONE._replace(table=(), names=b"")), "refused=19 at=0")

    def test_the_writer_needs_so_much_and_no_less(self):
        found = 0
        for place, case in enumerate(KIND.all()):
            told = text_length(*case)
            if isinstance(told, Refusal):
                self.assertNotEqual(told.cause, 14)
                self.assertEqual(write_text(*case, 0), told)
            elif place % 3 == 0:
                found += 1
                self.assertEqual(len(write_text(*case, told)), told)
                self.assertEqual(write_text(*case, told - 1), Refusal(14, 0))
        self.assertGreater(found, 500)


class ReasonsTest(unittest.TestCase):
    def reasons(self, changes, *names):
        found = reasons_of(ONE._replace(**changes))
        self.assertEqual(without_sentences(found), sorted(names))
        self.assertLessEqual(set(found), set(REASONS))

    def test_lengths(self):
        told = ("written", "written-a-name-at-the-end-of-the-bytes", "length-up-to-255",
                "written-capitals-and-small-letters")
        self.reasons({}, *told, "length-every-rule-used")
        self.reasons({"n": 2, "table": (S, 1, 1, S + 1, 0), "names": b"aSU",
                      "starts": (0, 1, 2), "lengths": (1, 1, 1)}, *told, "written-an-empty-rule",
                     "length-a-rule-no-sentence-uses")

    def test_names(self):
        self.reasons({"starts": (0,)}, "16", "16-starts-end")
        self.reasons({"lengths": (0, 0)}, "16", "16-length-0", "order-lowest-16-of-several")
        self.reasons({"names": b"aa"}, "18", "18-across-the-kinds", "18-equal-bytes-elsewhere")
        self.reasons({"names": b"aA"}, "18", "18-across-the-kinds", "18-by-case-across-the-kinds",
                     "18-by-case-in-the-first-letter-alone")

    def test_tables(self):
        self.reasons({"t": 0}, "table-5")
        self.reasons({"table": (S,), "names": b"aa"}, "table-2", "order-table-before-18")
        none = {"table": (S, 1, S)}
        self.reasons(none, "table-19", "19-alone")
        self.reasons({**none, "names": b"a:"}, "table-19", "order-19-before-16",
                     "told-from-names-come-before-19")

    def test_none_is_about_the_room(self):
        self.assertEqual(len(ABOUT_ROOM), 11)
        self.assertFalse(set(ABOUT_ROOM) & set(REASONS))


if __name__ == "__main__":
    unittest.main()
