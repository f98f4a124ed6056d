"""Tests of the reader's and writer's case files, answers and reasons."""

import random
import unittest

import text_read_inputs
import text_read_reasons
import text_write_inputs
import text_write_reasons
from case_files import decode_all
from file_tests import TABLE, TABLE_BYTES, FileTests, without_sentences
from named_grammars import text_of
from random_tables import S
from spelling_reasons import as_declared
from tables import Refusal
from test_text import AMPLE, EMPTY, FRONT, WORD
from text import Lent, Text, read_lines, read_text, write_text
from text_cases import READ, WRITE, read_answer, write_answer
from text_write_reasons import Case


GOOD = FRONT + b"rule=S:\n"


class ReadFileTest(FileTests, unittest.TestCase):
    KIND = READ
    DIGEST = "99735c3af078ea7f4bc4342ee881ee1688fc58c42d3292f9ed4371660beafae7"
    CASE = b"a\n", Lent(258, 3, 0)
    BYTES = b"\2\0\0\0a\n\2\1\0\0\3\0\0\0\0\0\0\0"


class WriteFileTest(FileTests, unittest.TestCase):
    KIND = WRITE
    DIGEST = "50cb74bb46ce71ea2b5f153b997ab8a25298817853333b10e383853c3c1d518e"
    CASE = Case(*TABLE, b"ab", (WORD - 1, 1), (3,), 513)
    BYTES = (TABLE_BYTES + b"\2\0\0\0ab" + b"\2\0\0\0\xff\xff\xff\xff\1\0\0\0"
             + b"\1\0\0\0\3\0\0\0" + b"\1\2\0\0")


class InputsTest(unittest.TestCase):
    def test_too_large_numbers_are_refused(self):
        for kind in (READ, WRITE):
            with self.assertRaises(ValueError):
                list(decode_all(kind, b"\xff" * 999999))

    def test_sizes_of_long_texts(self):
        for size in (262143, 262144, 262145, 280000):
            for text in text_read_inputs.long_texts_of(random.Random(size), size):
                self.assertEqual(len(text), size)

    def test_first_faults_of_long_texts(self):
        texts = text_read_inputs.long_texts_of(random.Random(1), 262144)
        causes = [read_lines(text).cause for text in texts]
        self.assertEqual(causes, [1, 18, 16, 1, 18, 6, 17, 16, 4, 7, 8])


class AnswerTest(unittest.TestCase):
    def test_read_answers(self):
        self.assertEqual(
            read_answer((FRONT + b"rule=W: b S\nrule=S:\n", AMPLE)),
            "read terminals=2 nonterminals=2 states=8 table=32769,2,2,32768,32768,0 "
            "starts=10,12,27,29 lengths=1,1,1,1")
        self.assertEqual(
            read_answer((b"terminals=\nnonterminals=Start\nrule=Start:\n", Lent(2, 1, 1))),
            "read terminals=0 nonterminals=1 states=5 table=32768,0 starts=24 lengths=5")
        self.assertEqual(read_answer((b"", AMPLE)), "refused=16 at=1")
        self.assertEqual(read_answer((FRONT, AMPLE)), "refused=19 at=0")

    def test_write_answers(self):
        case = Case(0, 1, EMPTY, b"S", (0,), (1,), 34)
        self.assertEqual(
            write_answer(case), "written=34 text=7465726d696e616c733d0a"
            "6e6f6e7465726d696e616c733d530a72756c653d533a0a")
        self.assertEqual(write_answer(case._replace(room=33)), "refused=14 at=0")
        self.assertEqual(write_answer(case._replace(table=(), starts=())), "refused=19 at=0")

    def test_what_is_read_is_written_back(self):
        """Each use as declared; what is so spelled comes back unchanged."""
        other = 0
        for text, lent in text_read_inputs.all_cases():
            result = read_text(text, lent)
            if isinstance(result, Text):
                declared = as_declared(text)
                other += declared != text
                self.assertEqual(
                    write_text(result.terminals, result.nonterminals, result.table, text,
                               result.starts, result.lengths, len(text)), declared)
        self.assertGreater(other, 400)

    def test_uses_in_another_case_are_read_alike(self):
        for text, lent in text_read_inputs.used_in_another_case(random.Random(1)):
            self.assertEqual(read_text(text, lent), read_text(as_declared(text), lent))

    def test_what_is_written_is_read_back(self):
        for case in text_write_inputs.all_cases():
            text = write_text(*case)
            if isinstance(text, Refusal):
                continue
            result = read_text(text, AMPLE)
            self.assertEqual(result[:3], (case.t, case.n, case.table))
            self.assertEqual(
                [text[s:s + k] for s, k in zip(result.starts, result.lengths)],
                [case.names[s:s + k] for s, k in zip(case.starts, case.lengths)]
                [:case.t + case.n])


class ReadReasonsTest(unittest.TestCase):
    def reasons(self, text, *names, lent=AMPLE):
        found = text_read_reasons.reasons_of(text, lent)
        self.assertEqual(without_sentences(found), sorted(names))
        self.assertLessEqual(set(found), set(text_read_reasons.REASONS))

    def test_read(self):
        self.reasons(GOOD, "read", "read-an-empty-rule", "read-rows-all-longer",
                     "read-with-capitals-as-declared")
        self.reasons(b"terminals=\nnonterminals=s\nrule=s:\n", "read", "read-no-terminals",
                     "read-an-empty-rule", "read-rows-exactly-enough", lent=Lent(2, 1, 1))

    def test_16(self):
        self.reasons(b"", "16-line-1-missing")
        self.reasons(b"terminals=\n", "16-line-2-missing")
        self.reasons(b"terminals=", "16-in-line-1", "16-last-line-without-byte-10")
        self.reasons(b"\n", "16-in-line-1", "16-blank-line")
        self.reasons(b"terminals=\nrule=S:\n", "16-in-line-2", "16-key-of-another-line")
        self.reasons(GOOD + b" rule=S:\n", "16-in-a-rule-line",
                     "16-key-in-wrong-case-or-with-spaces")
        self.reasons(GOOD + b"rule=S: a  b \n", "16-in-a-rule-line",
                     "16-rule-with-double-space", "16-rule-with-space-at-its-end")
        self.reasons(b"a" * 262145, "16-text-of-262145-bytes", "order-16-at-0-before-a-line")
        self.reasons(b"\n" * 262144, "text-of-262144-bytes", "16-in-line-1", "16-blank-line")

    def test_17_and_18_and_1_and_4(self):
        self.reasons(GOOD + b"rule=a: c\n", "17-left-a-terminal", "17-right-unknown")
        self.reasons(GOOD + b"rule=x:\n", "17-left-unknown")
        self.reasons(b"terminals=a,a\n", "18-among-terminals",
                     "order-18-before-a-missing-line")
        self.reasons(b"terminals=a\nnonterminals=a,S,S\n", "18-among-nonterminals",
                     "18-across-the-lists")
        self.reasons(b"terminals=\nnonterminals=\n", "1-no-nonterminals")
        names = b",".join(b"n%d" % number for number in range(2000))
        missing, both = "order-18-before-a-missing-line", "order-18-before-1-in-a-line"
        self.reasons(b"terminals=%s,n7\n" % names, "18-among-terminals", "18-before-1-on-line-1",
                     missing, both)
        self.reasons(b"terminals=a\nnonterminals=%s,n7\n" % names, "18-among-nonterminals",
                     "18-before-1-on-line-2", both)
        self.reasons(b"terminals=a\nnonterminals=%s,a\n" % names, "18-across-the-lists",
                     "18-before-1-across-both-lines", both)
        self.reasons(b"terminals=a\nnonterminals=%s,b\n" % names, "1-2001-nonterminals")
        self.reasons(GOOD + b"rule=S:" + b" S" * 13 + b"\n", "4-k-of-13")

    def test_case(self):
        longer = "read", "read-rows-all-longer"
        every = "read-every-use-in-another-case", "read-a-use-that-differs-in-its-first-letter-alone"
        self.reasons(FRONT + b"rule=s: A w\nrule=W:\n", *longer, every[1], "read-an-empty-rule",
                     "read-a-left-name-in-another-case", "read-a-terminal-in-another-case",
                     "read-a-nonterminal-in-another-case")
        self.reasons(b"terminals=take\nnonterminals=00\nrule=00: tAKE\n", *longer, every[0],
                     "read-a-terminal-in-another-case",
                     "read-a-use-that-differs-behind-its-first-letter")
        self.reasons(b"terminals=0,P\nnonterminals=x\nrule=X:\n", *longer, *every,
                     "read-an-empty-rule", "read-a-left-name-in-another-case",
                     "read-names-that-differ-by-32")
        self.reasons(FRONT + b"rule=s: A\n", "14-and-a-use-in-another-case", "14-otherwise",
                     lent=Lent(0, 0, 0))
        self.reasons(FRONT + b"rule=s: s\n", "19", "19-and-a-use-in-another-case")
        self.reasons(GOOD + b"Rule=S: a\n", "16-in-a-rule-line", "16-key-in-wrong-case",
                     "16-key-in-wrong-case-or-with-spaces")
        self.reasons(b"terminals=x@,x`\n", "16-in-line-1", "16-bad-byte-in-a-name",
                     "16-byte-next-to-the-letters", "16-bytes-next-to-the-letters-in-two-names")
        self.reasons(GOOD + b"rule=A: b\n", "17-left-a-terminal",
                     "17-left-a-terminal-in-another-case")
        self.reasons(b"terminals=m-\nnonterminals=S\nrule=S:\nrule=S: MM\n", "17-right-unknown",
                     "17-differs-by-32-from-a-name")
        self.reasons(GOOD + b"rule=s:\n", "6-equal-but-for-case", "6-next-to-the-earlier-rule")

    def test_18_by_case(self):
        first = "18-by-case-in-the-first-letter-alone"
        self.reasons(b"terminals=a,A\nnonterminals=S\n", "18-among-terminals",
                     "18-by-case-among-terminals", first)
        self.reasons(b"terminals=aB\nnonterminals=S,ab\n", "18-across-the-lists",
                     "18-by-case-across-the-lists", "18-by-case-behind-the-first-letter")
        self.reasons(b"terminals=\nnonterminals=%s,%s\n" % (b"a" * 15, b"A" * 15),
                     "18-among-nonterminals", "18-by-case-among-nonterminals", "18-by-case-of-15-bytes")
        self.reasons(b"terminals=a,A,b,b\nnonterminals=S\n", "18-among-terminals")
        self.reasons(b"terminals=a,A,\nnonterminals=S\n", "16-in-line-1", "16-name-empty-in-a-list",
                     "order-16-before-18-in-a-line", "order-16-before-18-by-case-in-a-line")
        names = b",".join(b"n%d" % number for number in range(2003))
        self.reasons(b"terminals=%s,N7\nnonterminals=S\n" % names, "18-among-terminals", first,
                     "18-before-1-on-line-1", "18-in-a-line-of-thousands", "order-18-before-1-in-a-line",
                     "18-by-case-among-terminals", "18-by-case-before-1-on-line-1",
                     "18-by-case-in-a-line-of-thousands")

    def test_14(self):
        self.reasons(GOOD, "14-only-the-starts-by-one", lent=Lent(2, 3, 4))
        self.reasons(GOOD, "14-only-the-lengths-by-one", lent=Lent(2, 9, 3))
        self.reasons(GOOD, "14-only-the-table-by-one", lent=Lent(1, 4, 4))
        self.reasons(GOOD, "14-otherwise", lent=Lent(2, 3, 3))
        self.reasons(GOOD + b"rule=S: x\n", "17-right-unknown", "order-17-before-14",
                     lent=Lent(9, 0, 9))

    def test_19(self):
        self.reasons(FRONT, "19")
        self.reasons(FRONT + b"rule=S: S\n", "19", "order-19-before-14",
                     "told-from-14-comes-before-19", lent=Lent(2, 4, 4))
        self.reasons(FRONT + b"rule=S: S\nrule=W: c\n", "17-right-unknown",
                     "order-17-before-19")
        self.reasons(FRONT + b"rule=W:\nrule=W:\n", "6-next-to-the-earlier-rule",
                     "order-6-before-19")

    def test_faults_that_the_order_hides(self):
        equal = b"rule=S:\nrule=S:\n"
        self.reasons(FRONT + equal, "6-next-to-the-earlier-rule")
        self.reasons(FRONT + equal + b"rule=S: c\n", "17-right-unknown",
                     "order-17-before-6-of-an-earlier-rule")
        self.reasons(GOOD + b"rule=S: c" + b" a" * 12 + b"\nrule\n", "17-right-unknown",
                     "order-17-before-4-in-a-line", "order-17-before-16-on-a-later-line")
        self.reasons(b"terminals=a,,a\n", "16-in-line-1", "16-name-empty-in-a-list",
                     "order-16-before-18-in-a-line")


class WriteReasonsTest(unittest.TestCase):
    CASE = Case(1, 1, (S, 1, 1), b"aS", (0, 1), (1, 1), 99)

    def reasons(self, changes, *names):
        case = self.CASE._replace(**changes)
        found = text_write_reasons.reasons_of(case)
        self.assertEqual(without_sentences(found), sorted(names))
        self.assertLessEqual(set(found), set(text_write_reasons.REASONS))

    def test_written(self):
        self.reasons({}, "written", "written-a-name-at-the-end-of-the-bytes",
                     "written-capitals-and-small-letters", "written-more-room")
        self.reasons({"starts": (1, 0, 0), "lengths": (1, 2), "room": 39, "names": b"as"}, "written",
                     "written-names-that-overlap", "written-names-not-in-order",
                     "written-a-name-at-the-end-of-the-bytes", "written-longer-rows",
                     "written-exact-room")

    def test_16(self):
        self.reasons({"starts": (0,)}, "16-starts-end")
        self.reasons({"lengths": (1,)}, "16-lengths-end")
        self.reasons({"starts": (0, 2)}, "16-one-byte-past-the-names")
        self.reasons({"starts": (0, WORD - 1)}, "16-start-plus-length-past-32-bits")
        self.reasons({"lengths": (WORD - 1, 1)}, "16-length-of-32-ones")
        self.reasons({"lengths": (0, 0), "room": 0}, "16-length-0",
                     "order-lowest-16-of-several", "order-16-before-14")
        self.reasons({"names": b"a:"}, "16-bad-byte")

    def test_18_and_14(self):
        self.reasons({"names": b"aa"}, "18-across-the-kinds", "18-equal-bytes-elsewhere")
        self.reasons({"starts": (1, 1), "room": 5}, "18-across-the-kinds",
                     "18-one-span-twice", "order-18-before-14")
        self.reasons({"room": 36}, "14-by-one")
        self.reasons({"room": 0}, "14-by-more", "14-no-room")

    def test_case(self):
        first, across = "18-by-case-in-the-first-letter-alone", "18-by-case-across-the-kinds"
        self.reasons({"names": b"aA"}, "18-across-the-kinds", across, first)
        self.reasons({"names": b"aA", "room": 0}, "18-across-the-kinds", across, first,
                     "order-18-before-14", "order-18-by-case-before-14")
        self.reasons({"names": b"xyxY", "starts": (0, 2), "lengths": (2, 2)}, "18-across-the-kinds",
                     across, "18-by-case-behind-the-first-letter")
        three = {"t": 2, "starts": (0, 1, 2), "lengths": (1, 1, 1)}
        self.reasons({**three, "names": b"aAa"}, "18-among-terminals", first,
                     "18-by-case-among-terminals", "order-lowest-18-of-several",
                     "18-by-case-before-an-equal-name")
        self.reasons({**three, "names": b"aaA"}, "18-among-terminals", "18-equal-bytes-elsewhere",
                     "order-lowest-18-of-several", "18-by-case-behind-an-equal-name")
        self.reasons({**three, "names": b"aA_"}, "16-bad-byte", "order-16-before-18-by-case",
                     "order-16-before-18-of-a-lower-symbol")
        self.reasons({"names": b"0P"}, "written", "written-a-name-at-the-end-of-the-bytes",
                     "written-names-that-differ-by-32", "written-more-room")

    def test_table(self):
        self.reasons({"t": 0, "room": 0}, "table-5", "order-table-before-14")
        self.reasons({"table": (S,), "names": b"aa"}, "table-2", "order-table-before-18")
        self.reasons({"n": 2 ** 64 - 1}, "table-1", "order-table-before-16")

    def test_table_19(self):
        told = "told-from-14-comes-before-19", "told-from-names-come-before-19"
        none = {"table": (S, 1, S)}
        self.reasons(none, "table-19", "19-alone")
        self.reasons({**none, "room": 36}, "table-19", "order-19-before-14", told[0])
        self.reasons({**none, "names": b"aa"}, "table-19", "order-19-before-18", told[1])
        self.reasons({**none, "names": b"a:", "room": 0}, "table-19", "order-19-before-16",
                     "order-19-before-14", *told)


class LengthTest(unittest.TestCase):
    def test_length_of_text(self):
        rng = random.Random(1)
        for grammar in text_write_inputs.figures_named():
            case = text_write_inputs.make(
                grammar, text_write_inputs.laid(rng, grammar), 0)
            self.assertEqual(text_write_reasons.length_of_text(case), len(text_of(grammar)))


if __name__ == "__main__":
    unittest.main()
