"""Tests of the cases of reading back: their bytes, the lines, the sorting by reasons."""

import unittest

from back_cases import KIND, answer
from back_inputs import Case
from back_reasons import REASONS, known_in, reasons_of
from case_files import decode_all
from file_tests import FileTests, without_sentences
from readings import LentStrings, Pair, named_in, pair_lines, read_back
from spelling_reasons import declared_in
from text import MAX_TEXT

FRONT = b"terminals=a,b\nnonterminals=S,Ab\n"
TEXT = FRONT + b"rule=S: a Ab\nrule=Ab:\n"      # rules 0, 1 and 2
CYCLE = b"terminals=a\nnonterminals=S\nrule=S: S\nrule=S: a\n"
ENDLESS = b"terminals=\nnonterminals=S\nrule=S: S\n"
AMPLE = LentStrings(99, 99)
NONE = LentStrings(0, 0)


def two(left, right=b""):
    """The two lines of these values."""
    return b"left=" + left + b"\nright=" + right + b"\n"


def spelled(text, lines):
    """Good lines with each name as the text declares it."""
    names = {name.lower(): name for name in declared_in(text)}
    rows = [line.partition(b"=") for line in lines.split(b"\n")[:2]]
    return b"".join(key + b"=" + b" ".join(names.get(word.lower(), word) for word in value.split(b" "))
                    + b"\n" for key, _, value in rows)


class FileTest(FileTests, unittest.TestCase):
    KIND = KIND
    DIGEST = "1f8c55d8cad4d8d6cf1dabe42f1812af9cef7e92b922291401cbc7ad5b5514dc"
    CASE = Case(b"ab", b"left=\n", LentStrings(258, 3))
    BYTES = b"\2\0\0\0ab" + b"\6\0\0\0left=\n" + b"\2\1\0\0" + b"\3\0\0\0"

    def test_too_large_numbers_are_refused(self):
        with self.assertRaises(ValueError):
            list(decode_all(KIND, b"\xff" * 999999))
        with self.assertRaises(ValueError):
            list(decode_all(KIND, bytes(8) + b"\xff" * 8))


class AnswerTest(unittest.TestCase):
    def test_read(self):
        for lines, line in [
            (two(b""), "read left= right="),
            (two(b"(0 )2", b"a"), "read left=65536,131074 right=196609"),
            (two(b"", b"b S Ab )0 (1"), "read left= right=196610,229376,229377,131072,65537"),
        ]:
            self.assertEqual(answer(Case(TEXT, lines, AMPLE)), line)

    def test_refused(self):
        for text, lines, lent, line in [
            (TEXT, two(b"(01"), AMPLE, "refused=16 at=1"),
            (TEXT, two(b"a", b"c"), AMPLE, "refused=17 at=2"),
            (TEXT, two(b"a"), NONE, "refused=14 at=0"),
            (TEXT[:-1], two(b"(01"), NONE, "grammar-refused=16 at=4"),
            (b"", b"", AMPLE, "grammar-refused=16 at=1"),
            (TEXT, b"", AMPLE, "refused=16 at=1"),
            (TEXT + b"rule=S: c\n", two(b"c"), AMPLE, "grammar-refused=17 at=5"),
            (TEXT + b"rule=Ab:\n", two(b"a"), NONE, "grammar-refused=6 at=6"),
            (ENDLESS, two(b"(0 S )0"), AMPLE, "grammar-refused=19 at=0"),
            (FRONT, b"", NONE, "grammar-refused=19 at=0"),
        ]:
            self.assertEqual(answer(Case(text, lines, lent)), line)


class InputsTest(unittest.TestCase):
    def test_what_is_read_gives_the_same_lines(self):
        """Each name in its declared spelling; lines so spelled come back unchanged."""
        longest = other = 0
        for case in KIND.all():
            result = read_back(*case)
            if isinstance(result, Pair):
                longest = max(longest, len(case.lines))
                declared = spelled(case.text, case.lines)
                other += declared != case.lines
                self.assertEqual(pair_lines(named_in(case.text), result), declared)
        self.assertGreater(longest, MAX_TEXT)
        self.assertGreater(other, 150)


class ReasonsTest(unittest.TestCase):
    def reasons(self, lines, *names, text=TEXT, lent=AMPLE):
        found = reasons_of(text, lines, lent)
        self.assertEqual(without_sentences(found), sorted(names))
        self.assertLessEqual(set(found), set(REASONS))

    def test_known(self):
        self.assertEqual(known_in(TEXT), (2, [b"a", b"b", b"S", b"Ab"]))
        self.assertEqual(known_in(b"terminals=\nnonterminals=S\nrule=S:\n"), (1, [b"S"]))

    def test_read(self):
        longer = ["read", "read-left-row-longer", "read-right-row-longer"]
        self.reasons(two(b""), "read-both-empty", *longer)
        self.reasons(two(b""), "read", "read-both-empty", "read-rows-exactly-enough", lent=NONE)
        self.reasons(two(b"(0", b""), "read-only-right-empty", "read-rule-0", *longer)
        self.reasons(two(b"", b"b (2"), "read-only-left-empty", "read-the-last-rule",
                     "read-a-terminal", "read-not-opened-first", *longer)
        self.reasons(two(b"(0 S )0", b"(0 (1 S )1 )0"), "read", "read-what-the-program-adds",
                     "read-rule-0", "read-a-nonterminal", "read-rows-exactly-enough",
                     text=CYCLE, lent=LentStrings(3, 5))
        self.reasons(two(b"(0 (3", b""), "read-only-right-empty", "read-rule-0",
                     "read-the-last-rule", "read-a-dead-rule", *longer,
                     text=b"terminals=\nnonterminals=S,U\nrule=S:\nrule=S: S\nrule=U:\n")
        self.reasons(two(b" ".join([b"S"] * 50), b""), "read-only-right-empty",
                     "read-a-nonterminal", "read-more-letters-than-a-witness-has",
                     "read-not-opened-first", *longer,
                     text=b"terminals=\nnonterminals=S\nrule=S:\n")
        self.reasons(two(b"0 " + b"x" * 15, b""), "read-only-right-empty", "read-a-terminal",
                     "read-a-nonterminal", "read-a-name-of-15", "read-a-name-of-digits",
                     "read-not-opened-first", *longer,
                     text=b"terminals=0\nnonterminals=%s\nrule=%s:\n" % (b"x" * 15, b"x" * 15))

    def test_case(self):
        longer = ["read", "read-left-row-longer", "read-right-row-longer", "read-only-right-empty"]
        every = ["read-every-name-in-another-case", "read-not-opened-first", *longer]
        self.reasons(two(b"A"), "read-a-terminal", "read-a-terminal-in-another-case",
                     "read-a-name-that-differs-in-its-first-letter-alone", *every)
        self.reasons(two(b"AB"), "read-a-nonterminal", "read-a-nonterminal-in-another-case",
                     "read-a-name-that-differs-behind-its-first-letter", *every)
        used = FRONT + b"rule=s: a Ab\nrule=Ab:\n"
        self.reasons(two(b"s"), "read-a-nonterminal", "read-a-nonterminal-in-another-case",
                     "read-a-name-that-differs-in-its-first-letter-alone",
                     "read-a-name-spelled-as-a-rule-uses-it", *every, text=used)
        self.reasons(two(b"a"), "read-a-terminal", "read-not-opened-first",
                     "read-as-declared-though-rules-use-another-case", *longer, text=used)
        self.reasons(two(b"(0 s )0", b"(0 (1 S )1 )0"), "read", "read-rule-0", "read-a-nonterminal",
                     "read-what-the-program-adds-in-another-case", "read-rows-exactly-enough",
                     "read-a-nonterminal-in-another-case",
                     "read-a-name-that-differs-in-its-first-letter-alone",
                     text=CYCLE, lent=LentStrings(3, 5))
        self.reasons(two(b"0 P"), "read-a-terminal", "read-a-nonterminal", "read-a-name-of-digits",
                     "read-names-that-differ-by-32", "read-not-opened-first", *longer,
                     text=b"terminals=0\nnonterminals=P\nrule=P: 0\n")
        for text in (b"terminals=a,A\n", b"terminals=a\nnonterminals=S,A\n"):
            self.reasons(two(b"a"), "grammar-18", "grammar-18-by-case", text=text)
        self.reasons(two(b"a"), "grammar-18", text=b"terminals=a,A,a\n")

    def test_14(self):
        lines = two(b"a a", b"b")
        for lent, names in [
            ((1, 1), ["14-only-left-by-one"]),
            ((2, 0), ["14-only-right-by-one", "14-no-right-row"]),
            ((1, 0), ["14-both-by-one", "14-no-right-row"]),
            ((1, 2), ["14-only-left-by-one", "14-left-short-right-longer", "14-rows-exchanged"]),
            ((3, 0), ["14-only-right-by-one", "14-left-longer-right-short", "14-no-right-row"]),
            ((0, 1), ["14-no-left-row"]),
            ((0, 0), ["14-neither-row"]),
        ]:
            self.reasons(lines, *names, lent=LentStrings(*lent))

    def test_missing_and_more_lines(self):
        for lines, line, name in [
            (b"", 1, "16-no-lines"), (b"left=a", 1, "16-no-byte-10"),
            (b"left=a\n", 2, "16-line-2-missing"),
            (b"left=a\nright=", 2, "16-line-2-without-byte-10"),
            (two(b"a") + b"\n", 2, "16-past-line-2-byte-10"),
            (two(b"a") + b"right=\n", 2, "16-past-line-2-a-line"),
            (two(b"a") + b"\0", 2, "16-past-line-2-no-whole-line"),
        ]:
            self.reasons(lines, "16-at-%d" % line, name)
        self.reasons(two(b"a") * 2, "16-at-2", "16-past-line-2-a-line",
                     "16-past-line-2-both-lines-again")

    def test_keys_and_spaces(self):
        for line, name in [
            (b"", "16-blank-line"), (b"left", "16-no-equals-sign"),
            (b"left==", "16-two-equals-signs"), (b"right=", "16-right-twice"),
            (b" left=a", "16-key-in-wrong-case-or-with-spaces"),
            (b"left =a", "16-key-in-wrong-case-or-with-spaces"), (b"rule=a", "16-key-unknown"),
            (b"left= a", "16-space-first"), (b"left=a ", "16-space-last"),
            (b"left=a  b", "16-space-double"), (b"left= ", "16-space-alone"),
        ]:
            others = ["16-other-byte"] if name == "16-two-equals-signs" else []
            self.reasons(line + b"\nright=\n", "16-at-1", name, *others)
        for key in (b"Left", b"LEFT", b"lefT"):
            self.reasons(key + b"=a\nright=\n", "16-at-1", "16-key-in-wrong-case",
                         "16-key-in-wrong-case-or-with-spaces")
        self.reasons(b"left=\nleft=\n", "16-at-2", "16-left-twice")
        self.reasons(b"right=\nleft=\n", "16-at-1", "16-lines-exchanged",
                     "order-16-at-1-before-16-at-2")

    def test_words(self):
        wraps = ["16-rule-that-wraps-at-%d-bits" % bits for bits in (8, 16, 32, 64, 128)]
        for word, names in [
            (b"(", ["16-bare-opening"]), (b")", ["16-bare-closing"]),
            (b"(01", ["16-leading-zeros"]), (b")00", ["16-zeros-alone"]),
            (b"(" + b"0" * 99 + b"1", ["16-hundreds-of-zeros"]),
            (b"(3", ["16-rule-above-by-one"]), (b")4", ["16-rule-above"]),
            (b"(258", ["16-rule-above"] + wraps[:1]), (b"(65536", ["16-rule-above"] + wraps[:2]),
            (b"(4294967297", ["16-rule-above"] + wraps[:3]),
            (b"(18446744073709551618", ["16-rule-above"] + wraps[:4]),
            (b"(%d" % 2 ** 128, ["16-rule-above"] + wraps),
            (b"(" + b"9" * 100, ["16-rule-of-hundreds-of-digits"]),
            (b"(-1", ["16-signed-number", "16-name-in-a-bracket"]),
            (b"(+1", ["16-signed-number", "16-other-byte"]), (b"(S", ["16-name-in-a-bracket"]),
            (b"(1a", ["16-more-after-a-number"]), (b"(1)1", ["16-two-brackets"]),
            (b"((1", ["16-two-brackets"]), (b"1)", ["16-bracket-behind"]),
            (b"a" * 16, ["16-name-of-16"]), (b"a" * 17, ["16-name-longer"]),
            (b"a\tb", ["16-tab"]), (b"a\r", ["16-byte-13"]), (b"a\0", ["16-byte-0"]),
            (b"a\xe4", ["16-byte-above-127"]), (b"a,b", ["16-other-byte"]),
            (b"a@", ["16-other-byte", "16-byte-next-to-the-letters"]),
            (b"{", ["16-other-byte", "16-byte-next-to-the-letters"]),
            (b"(1\r", ["16-byte-13", "16-more-after-a-number"]),
        ]:
            self.reasons(two(b"a " + word), "16-at-1", *names)
            self.reasons(two(b"a", word + b" S"), "16-at-2", *names)

    def test_unknown_names(self):
        for word, names in [
            (b"c", []), (b"AbC", ["17-a-name-and-more"]), (b"3", ["17-digits", "17-differs-by-32-from-a-name"]),
            (b"bc", ["17-a-name-and-more"]), (b"aBc", ["17-a-name-and-more"]), (b"1", ["17-digits"]), (b"left", ["17-a-key"]),
            (b"c" * 15, ["17-of-15-bytes"]),
        ]:
            self.reasons(two(word + b" a"), "17-at-1", *names)
            self.reasons(two(b"a", b"(0 " + word), "17-at-2", *names)

    def test_order(self):
        for lines, names in [
            (two(b"c ("), ["16-at-1", "16-bare-opening",
                           "order-16-before-an-earlier-17-in-line-1"]),
            (two(b"a", b"( c"), ["16-at-2", "16-bare-opening",
                                 "order-16-before-a-later-17-in-line-2"]),
            (two(b"c", b"("), ["17-at-1", "order-17-at-1-before-16-at-2"]),
            (two(b"c", b"c"), ["17-at-1", "order-17-at-1-before-17-at-2"]),
            (two(b"(", b"c"), ["16-at-1", "16-bare-opening", "order-16-at-1-before-17-at-2"]),
            (two(b"(", b")"), ["16-at-1", "16-bare-opening", "order-16-at-1-before-16-at-2"]),
            (b"left=c\n", ["17-at-1", "order-17-at-1-before-a-missing-line-2"]),
            (two(b"c") + b"\n", ["17-at-1", "order-17-at-1-before-16-at-2",
                                 "order-17-at-1-before-16-past-line-2"]),
            (two(b"", b"c") + b"\n", ["16-at-2", "16-past-line-2-byte-10",
                                      "order-16-past-line-2-before-17-at-2"]),
        ]:
            self.reasons(lines, *names)
            self.reasons(lines, *names, "order-%s-before-14" % names[0], lent=NONE)

    def test_grammars(self):
        for text, names in [
            (b"", ["grammar-16", "grammar-16-at-1"]),
            (b"a" * 262145, ["grammar-16", "grammar-16-at-0"]),
            (b"terminals=\n", ["grammar-16", "grammar-16-at-2"]),
            (TEXT[:-1], ["grammar-16", "grammar-16-at-a-rule"]),
            (TEXT + b"rule=Ab:\n", ["grammar-6"]), (ENDLESS, ["grammar-19"]),
            (FRONT, ["grammar-19"]),
        ]:
            cause = names[0].split("-")[1]
            self.reasons(two(b"c"), *names, text=text)
            self.reasons(two(b"("), *names, "order-grammar-%s-before-the-lines" % cause, text=text)
            self.reasons(b"", *names, "order-grammar-%s-before-the-lines" % cause, text=text)
            told = ["told-from-14-comes-before-19"] * (cause == "19")
            self.reasons(two(b"(9"), *names, "order-grammar-%s-before-14" % cause, *told,
                         text=text, lent=NONE)


if __name__ == "__main__":
    unittest.main()
