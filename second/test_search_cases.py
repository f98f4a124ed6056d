"""Tests of the search cases: their bytes, the lines, the reasons, `witness-ok`."""

import os
import tempfile
import unittest
from contextlib import redirect_stderr, redirect_stdout
from io import StringIO

from case_files import encode_entries
from case_grammars import COURSE, CYCLE, ENDLESS, NO_RULES, ONE_A, ROWS, good, spelled
from file_tests import M, M_BYTES, TABLE, TABLE_BYTES, WAY, FileTests, without_sentences
from looked_misreadings import TOLD, told_by_figure
from random_tables import A
from search_cases import KIND, REASONS, Case, answer, encode_case, reasons_of, run
from searches import Lent

ENOUGH = Lent(9, 72, 72, 72)           # of S→a
CYCLE_ENOUGH = Lent(16, 128, 128, 128)


class FileTest(FileTests, unittest.TestCase):
    KIND = KIND
    DIGEST = "d686f350e4a51770f9e755a1552d071ab67f86063ad3179a4277010e14a90dfa"
    CASE = Case(*TABLE, Lent(258, 3, 4, 5), 255, M)
    BYTES = (TABLE_BYTES + M_BYTES + b"\x02\x01\0\0" + b"\x03\0\0\0" + b"\x04\0\0\0" + b"\x05\0\0\0"
             + b"\xff")

    def test_answer_lines(self):
        self.assertEqual(answer(Case(*ONE_A, ENOUGH, 7)),
                         "unambiguous size=11 looked=14 certificate=155021150800000000")
        self.assertEqual(answer(Case(*CYCLE, CYCLE_ENOUGH, 7)),
                         "potential looked=55 witness=0,2,4,20,29,75,73")
        for short in ENOUGH._fields:
            lent = CYCLE_ENOUGH._replace(**{short: getattr(CYCLE_ENOUGH, short) - 1})
            self.assertEqual(answer(Case(*CYCLE, lent, 7)), "refused=14 at=0")
        self.assertEqual(answer(Case(*ENDLESS, ENOUGH, 7)), "refused=19 at=0")
        self.assertEqual(answer(Case(*NO_RULES, Lent(0, 0, 0, 0), 7)), "refused=19 at=0")
        self.assertEqual(answer(Case(0, 1, ONE_A[2], Lent(0, 0, 0, 0), 7)), "refused=5 at=2")


class ReasonsTest(unittest.TestCase):
    def reasons(self, table, lent, *names):
        """The reasons but those of sentences and figures, which other tests are about."""
        found = reasons_of(Case(*table, lent, 0))
        others = [name for name in found if name not in TOLD.values()]
        self.assertEqual(without_sentences(others), sorted(names))
        self.assertLessEqual(set(found), set(REASONS))

    def test_figures(self):
        for table, lent in [(ONE_A, ENOUGH), (CYCLE, CYCLE_ENOUGH)]:
            told = told_by_figure(good(table))
            self.assertNotEqual(told, ())
            self.assertLessEqual(set(told), set(reasons_of(Case(*table, lent, 0))))
            short = reasons_of(Case(*table, lent._replace(queue=0), 0))
            self.assertFalse(set(TOLD.values()) & set(short))

    def test_verdicts(self):
        self.reasons(ONE_A, ENOUGH, "unambiguous-exactly-enough",
                     "unambiguous-every-rule-used", "unambiguous-even-states")
        self.reasons(CYCLE, CYCLE_ENOUGH._replace(queue=129), "potential-longer",
                     "potential-every-rule-used", "potential-even-states")
        self.reasons(ROWS[4], Lent(21, 162, 162, 162), "unambiguous-exactly-enough",
                     "unambiguous-every-rule-used", "unambiguous-odd-states",
                     "unambiguous-with-layer-1")

    def test_without_a_sentence(self):
        self.reasons(NO_RULES, ENOUGH, "19", "19-lent-enough")
        self.reasons(ENDLESS, ENOUGH, "19", "19-lent-enough")
        self.reasons(ENDLESS, ENOUGH._replace(witness=71), "19", "order-19-before-14",
                     "told-from-14-comes-before-19")
        self.reasons(ENDLESS, Lent(0, 0, 0, 0), "19", "19-with-nothing-lent",
                     "order-19-before-14", "told-from-14-comes-before-19")

    def test_dead_rules(self):
        self.reasons(COURSE, Lent(25, 200, 200, 200), "unambiguous-exactly-enough",
                     "unambiguous-a-rule-no-sentence-uses", "unambiguous-even-states",
                     "dead-unproductive", "unambiguous-dead-unproductive",
                     "unambiguous-formerly-potential", "told-from-every-rule-is-taken",
                     "told-from-unproductive-rules-are-taken", "told-from-dead-items-are-entered")
        self.reasons(COURSE, ENOUGH, "14-several", "14-of-an-unambiguous-grammar",
                     "dead-unproductive", "14-with-dead-rules")
        unused = 1, 2, ONE_A[2] + (A, 0)             # S→a; A→
        self.reasons(unused, ENOUGH._replace(certificate=13, queue=98, parents=98, witness=98),
                     "unambiguous-exactly-enough", "unambiguous-a-rule-no-sentence-uses",
                     "unambiguous-odd-states", "dead-unreachable", "unambiguous-dead-unreachable",
                     "unambiguous-formerly-of-the-same-set")
        unused = 1, 2, (A, 0) + CYCLE[2]             # A→; S→S; S→a
        self.reasons(unused, Lent(21, 162, 162, 162), "potential-exactly-enough",
                     "potential-a-rule-no-sentence-uses", "potential-odd-states",
                     "dead-unreachable", "potential-dead-unreachable",
                     "potential-formerly-with-the-same-witness")
        later = spelled("S: A | S", "A: a")
        self.reasons(later, Lent(25, 200, 200, 200), "potential-exactly-enough",
                     "potential-every-rule-used", "potential-even-states",
                     "told-from-live-rules-are-found-in-one-round")

    def test_14(self):
        self.reasons(ONE_A, ENOUGH._replace(queue=71), "14-queue-one-too-short",
                     "14-of-an-unambiguous-grammar")
        self.reasons(CYCLE, CYCLE_ENOUGH._replace(witness=0), "14-one-empty",
                     "14-of-a-potential-grammar")
        self.reasons(ONE_A, Lent(0, 0, 0, 0), "14-several", "14-nothing-lent",
                     "14-of-an-unambiguous-grammar")

    def test_table_faults(self):
        self.reasons((0, 1, ONE_A[2]), ENOUGH, "5")
        self.reasons((0, 1, ONE_A[2]), Lent(0, 0, 0, 0), "5", "1-to-8-with-nothing-lent")


class WitnessOkTest(unittest.TestCase):
    CASES = [Case(*ONE_A, ENOUGH, 0), Case(*CYCLE, CYCLE_ENOUGH, 0),
             Case(2001, 1, (), ENOUGH, 0), Case(*CYCLE, Lent(0, 0, 0, 0), 0),
             Case(*CYCLE, CYCLE_ENOUGH, 1)]

    def found(self, *rows):
        return b"".join(map(encode_entries, rows))

    def verb(self, found):
        """Exit code, output and complaints of `witness-ok`."""
        with tempfile.TemporaryDirectory() as folder:
            paths = [os.path.join(folder, name) for name in "ab"]
            for path, data in zip(paths, (b"".join(map(encode_case, self.CASES)), found)):
                with open(path, "wb") as file:
                    file.write(data)
            with redirect_stdout(StringIO()) as out, redirect_stderr(StringIO()) as errors:
                code = run(["witness-ok"] + paths)
        return code, out.getvalue(), errors.getvalue()

    def test_accepted(self):
        longer = WAY[:4] + WAY[3:]
        self.assertEqual(self.verb(self.found(WAY, longer)), (0, "accepted 2 wrong 0\n", ""))

    def test_wrong(self):
        self.assertEqual(self.verb(self.found(WAY[:3], WAY)), (
            1, "accepted 1 wrong 1\n", "case 1: refused=15 at=3\n"))
        self.assertEqual(self.verb(self.found((), WAY + (0,))), (
            1, "accepted 0 wrong 2\n",
            "case 1: refused=15 at=0\ncase 4: refused=15 at=7\n"))

    def test_cut_or_left_over_or_too_long(self):
        found = self.found(WAY, WAY)
        for end in range(len(found)):
            self.assertEqual(self.verb(found[:end])[0], 1)
        self.assertEqual(self.verb(found + b"\0")[0], 1)
        self.assertEqual(self.verb(self.found(WAY, WAY, WAY))[0], 1)
        self.assertEqual(self.verb(self.found(WAY, WAY[:3] + (20,) * 122 + WAY[4:]))[0], 0)
        self.assertEqual(self.verb(self.found(WAY, WAY[:3] + (20,) * 123 + WAY[4:]))[0], 1)


if __name__ == "__main__":
    unittest.main()
