"""Tests of the report cases: their bytes, the lines, the sorting by reasons."""

import unittest

from file_tests import FileTests, without_sentences
from report_cases import ENOUGH, KIND, REASONS, Case, answer, expected, reasons_of

TEXT = b"terminals=a\nnonterminals=S\nrule=S: a\n"
REPORT = b"states=6\nverdict=unambiguous\nreached=11\n"
CYCLE = b"terminals=a\nnonterminals=S\nrule=S: S\nrule=S: a\n"
READINGS = b"states=8\nverdict=potential\nleft=(0 S )0\nright=(0 (1 S )1 )0\n"
ENDLESS = b"terminals=\nnonterminals=S\nrule=S: S\n"
NOTHING = b"refused=19\nat=0\n"
SHORT = "refused=14 at=0"


class FileTest(FileTests, unittest.TestCase):
    KIND = KIND
    DIGEST = "70ae43e68266754afa2e7024a3b92990f6f68098661a31ad4bd601f1fd82da54"
    CASE = Case(b"ab", 258)
    BYTES = b"\x02\0\0\0" + b"ab" + b"\x02\x01\0\0"

    def test_answer_lines(self):
        line = "written=%d text=%s" % (len(REPORT), REPORT.hex())
        self.assertEqual(answer(Case(TEXT, len(REPORT))), line)
        self.assertEqual(answer(Case(TEXT, ENOUGH)), line)
        self.assertEqual(answer(Case(TEXT, len(REPORT) - 1)), SHORT)
        self.assertEqual(answer(Case(TEXT, 0)), SHORT)
        self.assertEqual(answer(Case(b"", 16)), "written=16 text=" + b"refused=16\nat=1\n".hex())
        self.assertEqual(answer(Case(b"", 15)), SHORT)
        line = "written=%d text=%s" % (len(READINGS), READINGS.hex())
        self.assertEqual(answer(Case(CYCLE, len(READINGS))), line)
        for room in (27, 40, len(READINGS) - 1):
            self.assertEqual(answer(Case(CYCLE, room)), SHORT)
        line = "written=%d text=%s" % (len(NOTHING), NOTHING.hex())
        self.assertEqual(answer(Case(ENDLESS, len(NOTHING))), line)

    def test_so_much_is_always_enough(self):
        self.assertLessEqual(max(len(expected(case.text)) for case in KIND.all()), ENOUGH)


class ReasonsTest(unittest.TestCase):
    def reasons(self, text, room, *names):
        found = reasons_of(Case(text, room))
        self.assertEqual(without_sentences(found), sorted(names))
        self.assertLessEqual(set(found), set(REASONS))

    def test_reasons(self):
        self.reasons(TEXT, len(REPORT), "unambiguous", "exactly-enough")
        self.reasons(TEXT, ENOUGH, "unambiguous", "longer")
        self.reasons(TEXT, len(REPORT) - 1, "14-one-byte-short")
        self.reasons(TEXT, 0, "14-no-room", "14-shorter")
        self.reasons(b"", 16, "refused-16", "exactly-enough")
        self.reasons(b"", 15, "14-one-byte-short", "14-for-a-text-that-is-refused")

    def test_reasons_of_readings(self):
        readings = ("readings-with-a-nonterminal", "readings-of-unequal-length",
                    "readings-with-capitals")
        self.reasons(CYCLE, len(READINGS), "potential", "exactly-enough", *readings)
        self.reasons(CYCLE, ENOUGH, "potential", "longer", *readings)
        self.reasons(CYCLE, len(READINGS) - 1, "14-one-byte-short",
                     "14-room-for-the-verdict-and-left")
        for room, name in [(27, "14-room-for-the-verdict"), (39, "14-room-for-the-verdict"),
                           (40, "14-room-for-the-verdict-and-left")]:
            self.reasons(CYCLE, room, "14-shorter", name)
        self.reasons(CYCLE, 26, "14-shorter")

    def test_case(self):
        """The report is in the declared spelling."""
        other = CYCLE.replace(b"rule=S: S", b"rule=s: s").replace(b"rule=S: a", b"rule=s: A")
        self.assertEqual(answer(Case(other, ENOUGH)), answer(Case(CYCLE, ENOUGH)))
        self.reasons(other, ENOUGH, "potential", "longer", "readings-with-a-nonterminal",
                     "readings-of-unequal-length", "readings-with-capitals",
                     "potential-with-a-use-in-another-case",
                     "readings-with-a-name-that-no-rule-spells-so")
        self.reasons(TEXT.replace(b": a", b": A"), ENOUGH, "unambiguous", "longer",
                     "unambiguous-with-a-use-in-another-case")
        twice = b"terminals=a\nnonterminals=S,A\nrule=S: a\n"
        self.assertEqual(answer(Case(twice, 16)), "written=16 text=%s" % b"refused=18\nat=2\n".hex())
        self.reasons(twice, ENOUGH, "refused-18", "refused-18-by-case", "longer")
        self.reasons(b"terminals=a,A,A\n", ENOUGH, "refused-18", "longer")

    def test_dead_rules(self):
        unused = b"terminals=a\nnonterminals=S,U\nrule=S: a\nrule=U: a\n"
        self.reasons(unused, ENOUGH, "unambiguous", "longer", "dead-unreachable")

    def test_without_a_sentence(self):
        self.reasons(ENDLESS, len(NOTHING), "refused-19", "exactly-enough")
        self.reasons(ENDLESS, len(NOTHING) - 1, "14-one-byte-short",
                     "14-for-a-text-that-is-refused", "14-for-a-text-without-a-sentence")


if __name__ == "__main__":
    unittest.main()
