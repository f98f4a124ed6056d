"""Tests of text.py: the documents' figures, every refusal, the order of tests."""

import random
import unittest

from named_grammars import (
    Named, ample_lent, exact_lent, figures_named, full_named, join_lines,
    large_named, lines_of, longest_named, random_names, small_named, text_of,
)
from random_tables import A, S, encode, some_rules
from rooms import text_length
from sentence_grammars import named_table, nearly_sentenceless, sentenceless
from spelling import lettered, respelled, ways_to_respell
from spelling_reasons import as_declared
from tables import Refusal
from test_tables import STATES, WITHOUT
from text import Lent, Text, is_name, read_text, without_case, write_text
from text_write_inputs import overlapping, packed, scattered

AMPLE = Lent(1500, 4000, 4000)
FRONT = b"terminals=a,b\nnonterminals=S,W\n"
LETTERS = b"ABCDEFGHIJKLMNOPQRSTUVWXYZabcdefghijklmnopqrstuvwxyz"
WORD = 2 ** 32
EMPTY = S, 0              # the table of S→ (empty)


def text(*lines):
    """The lines, each ended by byte 10."""
    return b"".join(line + b"\n" for line in lines)


def rules(*values):
    """A text with these rules after FRONT."""
    return FRONT + text(*(b"rule=" + value for value in values))


def names(count):
    """Different names n0, n1, ... separated by commas."""
    return b",".join(b"n%d" % i for i in range(count))


def many(count, front=b""):
    """A text with `count` unequal rules of 3 entries and 2 states each."""
    return (b"terminals=" + names(count) + b"\nnonterminals=S\n" + front
            + b"".join(b"rule=S: n%d\n" % i for i in range(count)))


def full(*more):
    """Q = 1,024: 78 rules of 14 entries, then one of 7; 1,099 entries; then more lines."""
    twelve = [b"rule=S:" + b" n%d" % i * 12 for i in range(78)]
    return text(b"terminals=" + names(78), b"nonterminals=S,W", *twelve,
                b"rule=S: n0 n0 n0 n0 n0", *more)


class ReaderTest(unittest.TestCase):
    def refused(self, data, cause, position, lent=AMPLE):
        self.assertEqual(read_text(data, lent), Refusal(cause, position))

    def read(self, data, t, n, table, states, lent=AMPLE):
        result = read_text(data, lent)
        self.assertIsInstance(result, Text)
        self.assertEqual(result[:4], (t, n, tuple(table), states))
        return result


class FiguresTest(ReaderTest):
    """Document 01, "Grammars on file", its example and its line on the limits."""

    def test_the_example(self):
        result = self.read(b"terminals=a\nnonterminals=S\nrule=S: a\n", 1, 1, [S, 1, 1], 6)
        self.assertEqual((result.starts, result.lengths), ((10, 25), (1, 1)))

    def test_states_of_the_grammars_on_file(self):
        for place, (grammar, states) in enumerate(zip(figures_named(), STATES)):
            table = encode(grammar.rules)
            if place in WITHOUT:
                self.refused(text_of(grammar), 19, 0)
            else:
                self.read(text_of(grammar), grammar.t, grammar.n, table, states)

    def test_k_of_12_passes_and_13_does_not(self):
        self.read(rules(b"S:" + b" a" * 12), 2, 2, [S, 12] + [1] * 12, 17)
        self.refused(rules(b"S:" + b" a" * 13), 4, 3)

    def test_400_rules_pass_and_401_do_not(self):
        table = [entry for i in range(400) for entry in (S, 1, 1 + i)]
        self.read(many(400), 400, 1, table, 804)
        self.refused(many(401), 7, 1200)

    def test_1024_states_pass_and_1025_do_not(self):
        self.assertEqual(read_text(full(), AMPLE).states, 1024)
        self.refused(full(b"rule=W:"), 8, 1099)

    def test_the_longest_text_that_is_read(self):
        grammar = longest_named(random.Random(1))
        self.assertEqual(len(text_of(grammar)), 82743)
        table = encode(grammar.rules)
        self.read(text_of(grammar), 2000, 2000, table, 1024, exact_lent(grammar))


class ReadingsTest(ReaderTest):
    """The ten readings of document 01's open words on tables and text."""

    def test_01_all_lines_before_7_6_8(self):
        self.refused(text(b"terminals=a", b"nonterminals=S", b"rule=S: a", b"rule=S: a",
                          b"rule=S: b"), 17, 5)
        long = b"rule=S:" + b" S" * 13
        for line, cause in ((b"rule=S: x", 17), (b"rule", 16), (long, 4)):
            self.refused(rules(b"S:", b"S:") + line + b"\n", cause, 5)
            self.refused(many(401) + line + b"\n", cause, 404)
            self.refused(full(b"rule=W:", line), cause, 83)
        self.refused(rules(b"S:", b"S:"), 6, 2)

    def test_02_16_in_the_whole_line_then_18_then_the_count(self):
        equal = b",".join([b"a"] * 2001)
        self.refused(text(b"terminals=" + equal), 18, 1)
        self.refused(text(b"terminals=", b"nonterminals=" + equal), 18, 2)
        self.refused(text(b"terminals=" + equal + b","), 16, 1)
        self.refused(text(b"terminals=a,a,b_"), 16, 1)
        self.refused(text(b"terminals=" + names(2001)), 1, 1)
        self.refused(text(b"terminals=" + names(9000)), 1, 1)
        self.refused(text(b"terminals=" + names(9000) + b",n8999"), 18, 1)
        self.refused(text(b"terminals=" + names(9000) + b",n8999,"), 16, 1)
        self.refused(text(b"terminals=n8999", b"nonterminals=" + names(9000)), 18, 2)
        self.refused(text(b"terminals=x", b"nonterminals=" + names(9000)), 1, 2)

    def test_03_empty_lists(self):
        self.refused(text(b"terminals=", b"nonterminals="), 1, 2)
        self.read(text(b"terminals=", b"nonterminals=S", b"rule=S:"), 0, 1, EMPTY, 5)
        for value in (b",", b"a,", b",a", b"a,,b"):
            self.refused(text(b"terminals=" + value), 16, 1)
            self.refused(text(b"terminals=", b"nonterminals=" + value), 16, 2)

    def test_04_7_before_2_and_4_before_2_and_17_before_4(self):
        most = tuple(entry for i in range(400) for entry in (S, 1, 1 + i))
        stray = most + (0,)
        self.assertEqual(write_text(400, 1, stray, b"", [], [], 0), Refusal(7, 1200))
        self.assertEqual(write_text(1, 1, (S, 13), b"", [], [], 0), Refusal(4, 0))
        self.refused(rules(b"S:" + b" a" * 13 + b" x"), 17, 3)
        self.refused(rules(b"a:" + b" a" * 13), 17, 3)

    def test_05_t_and_n_of_any_size(self):
        for t, n in ((2001, 1), (0, 0), (0, 2001), (WORD, 1), (65536, 65537), (0, WORD + 1),
                     (2 ** 64 - 1, 2 ** 64 - 1), (2 ** 64 - 1, 2)):
            self.assertEqual(write_text(t, n, b"\0", b"", [], [], 0), Refusal(1, 0))

    def test_06_too_long_before_everything_and_missing_lines(self):
        for data in (b"", text(b"terminals=a,a"), FRONT, text(b"terminals=" + names(200)),
                     rules(b"S:", b"S:")):
            self.refused(data + b"\n" * (262145 - len(data)), 16, 0, Lent(0, 0, 0))
        self.refused(b"\n" * 262144, 16, 1)
        self.refused(FRONT + b"rule=S:\n" * ((262144 - len(FRONT)) // 8), 6, 2)
        self.refused(b"", 16, 1)
        self.refused(text(b"terminals=a"), 16, 2)
        self.refused(text(b"nonterminals=S", b"rule=S:"), 16, 1)
        self.refused(text(b"terminals=a", b"rule=S:"), 16, 2)
        self.refused(FRONT, 19, 0)

    def test_07_blank_lines_and_byte_13(self):
        lines = [b"terminals=a", b"nonterminals=S", b"rule=S:", b"rule=S: a"]
        for place in range(5):
            self.refused(text(*lines[:place], b"", *lines[place:]), 16, place + 1)
        for place in range(4):
            ended = lines[:place] + [lines[place] + b"\r"] + lines[place + 1:]
            self.refused(text(*ended), 16, place + 1)
        self.refused(text(*lines).replace(b"\n", b"\r"), 16, 1)

    def test_08_starts_are_offsets_in_the_whole_text(self):
        data = text(b"terminals=ab,c", b"nonterminals=Start,T-1,u", b"rule=Start: ab")
        result = self.read(data, 2, 3, [S, 1, 1], 6)
        self.assertEqual(result.starts, (10, 13, 28, 34, 38))
        self.assertEqual(result.lengths, (2, 1, 5, 3, 1))

    def test_09_a_name_not_lent_whole(self):
        def answer(starts, lengths):
            return write_text(1, 2, EMPTY, b"aST", starts, lengths, 99)
        self.assertIsInstance(answer([0, 1, 2], [1, 1, 1]), bytes)
        self.assertEqual(answer([0, 1, 3], [1, 1, 1]), Refusal(16, 2))
        self.assertEqual(answer([0, WORD - 1, 2], [1, 1, 1]), Refusal(16, 1))
        self.assertEqual(answer([0, 1, 1], [1, 1, WORD - 1]), Refusal(16, 2))
        self.assertEqual(answer([0, 1], [1, 1, 1]), Refusal(16, 2))
        self.assertEqual(answer([0, 1, 2], [1]), Refusal(16, 1))
        self.assertEqual(answer([], []), Refusal(16, 0))
        self.assertEqual(answer([0, 0, 3], [1, 1, 1]), Refusal(16, 2))
        self.assertEqual(answer([0, 0, 2], [1, 1, 1]), Refusal(18, 1))

    def test_10_offsets_for_6_7_8_and_lines_for_all_else(self):
        self.refused(rules(b"S: a", b"W:", b"S: a"), 6, 5)
        self.refused(many(401), 7, 1200)
        self.refused(full(b"rule=W: W W"), 8, 1099)
        self.refused(rules(b"S: a", b"W:", b"S: c"), 17, 5)
        self.refused(rules(b"S: a", b"W:", b"S: c "), 16, 5)
        self.refused(rules(b"S: a", b"W:", b"S:" + b" a" * 13), 4, 5)


class ListTest(ReaderTest):
    """16, 18 and 1 on lines 1 and 2, each by itself."""

    def test_keys(self):
        for key in (b"Terminals", b"TERMINALS", b" terminals", b"terminals ", b"terminal",
                    b"terminalss", b"", b"nonterminals", b"rule", b"terminals\0"):
            self.refused(text(key + b"=a", b"nonterminals=S"), 16, 1)
        for key in (b"Nonterminals", b"nonterminals ", b"nonterminal", b"terminals", b""):
            self.refused(text(b"terminals=a", key + b"=S"), 16, 2)

    def test_equals_sign(self):
        self.refused(text(b"terminals", b"nonterminals=S"), 16, 1)
        self.refused(text(b"terminals:a", b"nonterminals=S"), 16, 1)
        self.refused(text(b"terminals==a", b"nonterminals=S"), 16, 1)
        self.refused(text(b"terminals=a", b"nonterminals"), 16, 2)
        self.refused(text(b"terminals=a", b"nonterminals=S="), 16, 2)

    def test_last_line_without_byte_10(self):
        self.refused(b"terminals=a", 16, 1)
        self.refused(b"terminals=a\nnonterminals=S", 16, 2)
        self.refused(b"terminals=a\nnonterminals=", 16, 2)
        self.refused(FRONT + b"rule=S: a", 16, 3)

    def test_lengths_of_names(self):
        fifteen = text(b"terminals=" + b"a" * 15, b"nonterminals=" + b"b" * 15,
                       b"rule=" + b"b" * 15 + b":")
        self.read(fifteen, 1, 1, EMPTY, 5)
        self.refused(text(b"terminals=" + b"a" * 16, b"nonterminals=S"), 16, 1)
        self.refused(text(b"terminals=a", b"nonterminals=S," + b"b" * 16), 16, 2)

    def test_bytes_of_names(self):
        good = LETTERS + b"0123456789-"
        for value in range(256):
            self.assertEqual(is_name(bytes([value])), value in good)
            line = b"terminals=x" + bytes([value]) + b"y"
            result = read_text(text(line, b"nonterminals=S", b"rule=S:"), AMPLE)
            well = value in good or value == ord(",")
            self.assertEqual(isinstance(result, Text), well, value)

    def test_declared_twice(self):
        self.refused(text(b"terminals=a,b,a", b"nonterminals=S"), 18, 1)
        self.refused(text(b"terminals=a", b"nonterminals=S,T,S"), 18, 2)
        self.refused(text(b"terminals=a,S", b"nonterminals=S"), 18, 2)
        self.read(text(b"terminals=a,aa,a-,-a", b"nonterminals=S,SS", b"rule=S:"), 4, 2, EMPTY, 5)

    def test_counts(self):
        self.read(text(b"terminals=" + names(2000), b"nonterminals=S", b"rule=S:"),
                  2000, 1, EMPTY, 5)
        self.read(text(b"terminals=", b"nonterminals=" + names(2000), b"rule=n0:"),
                  0, 2000, EMPTY, 5)
        self.refused(text(b"terminals=" + names(2001), b"nonterminals=S"), 1, 1)
        self.refused(text(b"terminals=", b"nonterminals=" + names(2001)), 1, 2)
        self.refused(text(b"terminals=a", b"nonterminals="), 1, 2)


class RuleTest(ReaderTest):
    """16, 17, 4, 6, 7 and 8, each by itself."""

    def test_good_rules(self):
        self.read(rules(b"S:"), 2, 2, [S, 0], 5)
        self.read(rules(b"W: b S a", b"S:"), 2, 2, [A, 3, 2, S, 1, S, 0], 9)
        self.read(rules(b"S: S", b"W: b", b"S: W"), 2, 2, [S, 1, S, A, 1, 2, S, 1, A], 10)

    def test_malformed(self):
        for value in (b"", b"S", b"S a", b"S: ", b"S:a", b"S:  a", b"S: a ", b"S: a  b",
                      b"S::", b"S: a:", b"S: : a", b": a", b" S: a", b"S : a", b"S: a,b",
                      b"S:\ta", b"S: a\r", b"S= a", b"S: " + b"a" * 16, b"a" * 16 + b":"):
            self.refused(rules(value), 16, 3)
            self.refused(rules(b"S:", value, b"W:"), 16, 4)

    def test_wrong_key(self):
        for line in (b"Rule=S:", b"rules=S:", b"rule =S:", b" rule=S:", b"S: a", b"=S:",
                     b"terminals=a,b", b"nonterminals=S,W", b"rule"):
            self.refused(FRONT + text(line), 16, 3)

    def test_unknown_or_wrong_kind(self):
        for value in (b"a:", b"A: b", b"T:", b"t:", b"SW:", b"S: c", b"S: C", b"S: a ab",
                      b"S: W WW", b"S: a b a b c"):
            self.refused(rules(value), 17, 3)
            self.refused(rules(b"S:", value, b"W:"), 17, 4)

    def test_k_above_12(self):
        for k in (13, 14, 100, 256, 268, 5000):
            self.refused(rules(b"S:" + b" a" * k), 4, 3)

    def test_equal_rules(self):
        self.refused(rules(b"S:", b"S:"), 6, 2)
        self.refused(rules(b"S: a", b"S: b", b"W: a", b"S: a"), 6, 9)
        self.read(rules(b"S: a", b"W: a", b"S: a a", b"S:"), 2, 2,
                  [S, 1, 1, A, 1, 1, S, 2, 1, 1, S, 0], 12)

    def test_states_pass_256(self):
        self.refused(full(b"rule=S: n1"), 8, 1099)
        self.refused(full(b"rule=S:", b"rule=W:"), 8, 1099)


class ReaderOrderTest(ReaderTest):
    """Lines in order; "within a line 16, 18, 1, or 16, 17, 4; then 7, 6, 8"."""

    def test_lines_in_order(self):
        self.refused(text(b"terminals=a,a", b"nonterminals"), 18, 1)
        self.refused(text(b"terminals=" + names(2001), b"x"), 1, 1)
        self.refused(text(b"terminals=a,a"), 18, 1)
        self.refused(text(b"terminals=a", b"nonterminals=", b"rule"), 1, 2)
        self.refused(text(b"terminals=a", b"nonterminals=a", b"rule"), 18, 2)
        self.refused(rules(b"S: x", b""), 17, 3)
        self.refused(rules(b"S:" + b" a" * 13, b"S: x"), 4, 3)
        self.refused(rules(b"S: x")[:-1] + b"\nrule=S:", 17, 3)

    def test_16_before_18_and_1(self):
        self.refused(text(b"terminals=a,a,"), 16, 1)
        self.refused(b"terminals=a,a", 16, 1)
        self.refused(text(b"terminals=" + names(2001) + b",_"), 16, 1)
        self.refused(text(b"terminals=a", b"nonterminals=a,"), 16, 2)
        self.refused(b"terminals=a\nnonterminals=", 16, 2)

    def test_18_before_1(self):
        self.refused(text(b"terminals=" + names(2001) + b",n0"), 18, 1)
        self.refused(text(b"terminals=x", b"nonterminals=x," + names(2000)), 18, 2)

    def test_16_before_17_and_4(self):
        self.refused(rules(b"x: "), 16, 3)
        self.refused(rules(b"S: x  a"), 16, 3)
        self.refused(rules(b"S:" + b" a" * 13 + b" "), 16, 3)
        self.refused(FRONT + b"rule=x:", 16, 3)

    def test_7_before_6_before_8(self):
        self.refused(many(400) + b"rule=S: n5\n", 7, 1200)
        self.refused(full(b"rule=S: n0 n0 n0 n0 n0"), 6, 1099)
        self.refused(full(b"rule=W:", b"rule=W:"), 8, 1099)
        self.refused(many(401, b"rule=S: n0\n"), 6, 3)

    def test_14_comes_last(self):
        none = Lent(0, 0, 0)
        self.refused(b"", 16, 1, none)
        self.refused(text(b"terminals=a,a"), 18, 1, none)
        self.refused(text(b"terminals=", b"nonterminals="), 1, 2, none)
        self.refused(rules(b"S: x"), 17, 3, none)
        self.refused(rules(b"S:" + b" a" * 13), 4, 3, none)
        self.refused(rules(b"S:", b"S:"), 6, 2, none)
        self.refused(many(401), 7, 1200, none)
        self.refused(full(b"rule=W:"), 8, 1099, none)
        self.refused(rules(b"S: S"), 19, 0, none)
        self.refused(rules(b"S:"), 14, 0, none)

    def test_14_by_each_row(self):
        data = rules(b"S: a", b"W:")
        table = [S, 1, 1, A, 0]
        self.read(data, 2, 2, table, 7, Lent(5, 4, 4))
        self.read(data, 2, 2, table, 7, Lent(50, 40, 40))
        self.refused(data, 14, 0, Lent(4, 4, 4))
        self.refused(data, 14, 0, Lent(5, 3, 4))
        self.refused(data, 14, 0, Lent(5, 4, 3))
        self.read(text(b"terminals=", b"nonterminals=S", b"rule=S:"), 0, 1, EMPTY, 5,
                  Lent(2, 1, 1))


class CaseTest(ReaderTest):
    """Document 02, [9]: case does not tell names apart."""

    def test_what_is_the_same(self):
        """All pairs of bytes of names; only a letter's two cases are one name."""
        good = LETTERS + b"0123456789-"
        for one in good:
            for other in good:
                data = b"terminals=%c,%c\nnonterminals=00\nrule=00:\n" % (one, other)
                same = one == other or (abs(one - other) == 32 and {one, other} <= set(LETTERS))
                self.assertEqual(read_text(data, AMPLE) == Refusal(18, 1), same)
                use = b"terminals=%c\nnonterminals=00\nrule=00: %c\n" % (one, other)
                self.assertEqual(isinstance(read_text(use, AMPLE), Text), same)
        for value in range(256):
            self.assertEqual(without_case(bytes([value])), bytes([value]).lower())

    def test_bytes_next_to_the_letters(self):
        for value in (64, 91, 96, 123):
            self.refused(b"terminals=x%c,x%c\nnonterminals=S\n" % (value, value ^ 32), 16, 1)
            self.refused(b"terminals=a\nnonterminals=S,%c\n" % value, 16, 2)
            self.refused(rules(b"S: %c" % value), 16, 3)
            self.refused(rules(b"%c:" % value), 16, 3)

    def test_digits_and_hyphens_32_below_a_letter(self):
        for low, high in zip(b"-0123456789", b"MPQRSTUVWXY"):
            self.assertEqual(high - low, 32)
            self.read(b"terminals=%c,%c\nnonterminals=zz\nrule=ZZ: %c\n" % (low, high, low),
                      2, 1, [S, 1, 1], 6)
            self.refused(b"terminals=%c\nnonterminals=zz\nrule=zz: %c\n" % (low, high), 17, 3)

    def test_declared_in_two_cases(self):
        for one, other in ((b"take", b"Take"), (b"TAKE", b"take"), (b"takE", b"take"),
                           (b"a", b"A"), (b"a-1b", b"a-1B"), (b"abcdefghijklmno", b"abcdefghijklmnO")):
            self.refused(text(b"terminals=%s,x,%s" % (one, other), b"nonterminals=S"), 18, 1)
            self.refused(text(b"terminals=%s" % one, b"nonterminals=S,%s" % other), 18, 2)
            self.refused(text(b"terminals=x", b"nonterminals=%s,%s" % (one, other)), 18, 2)
            self.refused(text(b"terminals=%s,%s" % (one, other)), 18, 1)
        self.refused(text(b"terminals=a,A,"), 16, 1)
        self.refused(text(b"terminals=a", b"nonterminals=A,_"), 16, 2)
        self.refused(text(b"terminals=a", b"nonterminals=S,A", b"rule=S: a"), 18, 2)

    def test_long_lines(self):
        self.refused(text(b"terminals=" + names(2001) + b",N0"), 18, 1)
        self.refused(text(b"terminals=" + names(9000) + b",N8999"), 18, 1)
        self.refused(text(b"terminals=" + names(9000) + b",m8999"), 1, 1)
        self.refused(text(b"terminals=x", b"nonterminals=" + names(2000) + b",N1999"), 18, 2)
        self.refused(text(b"terminals=N2000", b"nonterminals=" + names(2001)), 18, 2)

    def test_uses_in_another_case(self):
        lists = b"terminals=take,UL\nnonterminals=Step,volume\n"
        declared = lists + text(b"rule=Step: take volume", b"rule=volume: UL UL", b"rule=volume:")
        table = [S, 2, 1, A, A, 2, 2, 2, A, 0]
        found = self.read(declared, 2, 2, table, 11)
        for other in (declared.replace(b"rule=Step: take", b"rule=STEP: Take"),
                      declared.replace(b"UL UL", b"ul Ul"),
                      declared.replace(b"rule=volume", b"rule=Volume"),
                      lists + text(b"rule=sTEP: tAKE vOLUME", b"rule=VOLUME: uL Ul", b"rule=volumE:")):
            self.assertNotEqual(other, declared)
            self.assertEqual(read_text(other, AMPLE), found)
            self.assertEqual(write_text(2, 2, found.table, other, found.starts, found.lengths, 200),
                             declared)
        self.assertEqual(write_text(2, 2, found.table, declared, found.starts, found.lengths, 200),
                         declared)
        self.assertEqual((found.starts, found.lengths), ((10, 15, 31, 36), (4, 2, 4, 6)))

    def test_rules_and_kinds(self):
        self.refused(rules(b"S: a", b"s: A"), 6, 3)
        self.refused(rules(b"S: a b", b"W: a", b"S: A B"), 6, 7)
        self.refused(rules(b"A: b"), 17, 3)
        self.refused(rules(b"S: b", b"B:"), 17, 4)
        self.refused(rules(b"s: S"), 19, 0)
        self.refused(rules(b"s: W", b"w: s", b"w:" + b" A" * 13), 4, 5)
        self.refused(rules(b"s: A"), 14, 0, Lent(2, 4, 4))
        self.read(rules(b"s: A w", b"W: B"), 2, 2, [S, 2, 1, A, A, 1, 2], 9)

    def test_keys_are_no_names(self):
        good = rules(b"S: a")
        for key in (b"terminals=", b"nonterminals=", b"rule="):
            line = [b"terminals=", b"nonterminals=", b"rule="].index(key) + 1
            for other in (key.capitalize(), key.upper(), key.swapcase(), key[:-2] + key[-2:].upper()):
                changed = b"\n".join(other + row[len(key):] if number == line else row
                                     for number, row in enumerate(good.split(b"\n"), 1))
                self.refused(changed, 16, line)
        self.read(text(b"terminals=Rule,Terminals", b"nonterminals=NonTerminals",
                       b"rule=nonterminals: RULE terminals"), 2, 1, [S, 2, 1, 2], 7)

    def test_the_writer(self):
        def answer(data, lengths=(4, 4, 1), room=99):
            return write_text(2, 1, (S, 2, 1, 2), data, (0, 4, 8), lengths, room)
        self.assertEqual(answer(b"TakeGiveS"), text(
            b"terminals=Take,Give", b"nonterminals=S", b"rule=S: Take Give"))
        self.assertEqual(answer(b"TaketakeS"), Refusal(18, 1))
        self.assertEqual(answer(b"takeTakeS", room=0), Refusal(18, 1))
        self.assertEqual(answer(b"Takegivet", (4, 4, 1)), text(
            b"terminals=Take,give", b"nonterminals=t", b"rule=t: Take give"))
        self.assertEqual(answer(b"Takegivet", (1, 4, 1)), Refusal(18, 2))
        self.assertEqual(answer(b"Take_aket", (1, 4, 1)), Refusal(16, 1))
        self.assertEqual(answer(b"0-1zP-1zS"), text(
            b"terminals=0-1z,P-1z", b"nonterminals=S", b"rule=S: 0-1z P-1z"))

    def test_the_lowest_of_several(self):
        def answer(data):
            return write_text(3, 1, EMPTY, data, (0, 1, 2, 3), (1, 1, 1, 1), 99)
        self.assertEqual(answer(b"aAbb"), Refusal(18, 1))
        self.assertEqual(answer(b"abBb"), Refusal(18, 2))
        self.assertEqual(answer(b"abcC"), Refusal(18, 3))
        self.assertEqual(answer(b"abcA"), Refusal(18, 3))
        self.assertEqual(answer(b"aA_b"), Refusal(16, 2))
        many = random_names(random.Random(5), 2000)
        name = next(name for name in many[1234:] if name.lower() != name.upper())
        data, starts, lengths = packed(many + [name.swapcase()])
        self.assertEqual(write_text(2000, 1, EMPTY, data, starts, lengths, 99999), Refusal(18, 2000))

    def test_the_length_told_beforehand(self):
        for data in (b"TakeGiveS", b"TaketakeS", b"takegiveg", b"tAkEgIvET"):
            for lengths in ((4, 4, 1), (1, 4, 1)):
                rows = 2, 1, (S, 2, 1, 2), data, (0, 4, 8), lengths
                told, written = text_length(*rows), write_text(*rows, 99)
                self.assertEqual(told, written if isinstance(written, Refusal) else len(written))
        self.assertEqual(text_length(2, 1, (S, 2, 1, 2), b"TaketakeS", (0, 4, 8), (4, 4, 1)),
                         Refusal(18, 1))

    def test_round_trip(self):
        """Each use comes back in its declared spelling; as declared, the text comes back unchanged."""
        rng = random.Random(6)
        changed = 0
        for grammar in [lettered(rng, 8) for _ in range(200)] + [longest_named(rng)]:
            declared = text_of(grammar)
            for respell in ways_to_respell(grammar):
                data = join_lines(respelled(rng, lines_of(grammar), respell))
                changed += data != declared
                found = read_text(data, exact_lent(grammar))
                self.assertEqual(found.table, encode(grammar.rules))
                self.assertEqual(found, read_text(declared, exact_lent(grammar)))
                written = write_text(found.terminals, found.nonterminals, found.table, data,
                                     found.starts, found.lengths, len(data))
                self.assertEqual(written, declared)
                self.assertEqual(as_declared(data), declared)
        self.assertGreater(changed, 600)


class SentenceTest(ReaderTest):
    """19 at 0, "after 8 and before anything about [...] lent rows": document 02, [4]."""

    def test_no_sentence(self):
        for values in ([], [b"S: S"], [b"S: a S", b"S: S S"], [b"W:"], [b"W: S"],
                       [b"S: W"], [b"S: W", b"W: S b"], [b"W: a", b"S: S W"]):
            for lent in (AMPLE, Lent(0, 0, 0)):
                self.refused(rules(*values), 19, 0, lent)
            self.assertNotIsInstance(read_text(rules(*values, b"S: b"), AMPLE), Refusal)

    def test_after_all_faults_of_the_text(self):
        self.refused(rules(b"S: S", b"S: S"), 6, 3)
        self.refused(rules(b"S: S", b"S: c"), 17, 4)
        self.refused(rules(b"S: S", b"S"), 16, 4)
        self.refused(rules(b"S: S") + b"\n", 16, 4)
        self.refused(rules(b"S: S", b"S:" + b" a" * 13), 4, 4)
        self.refused(many(401).replace(b"=S:", b"=W:").replace(b"s=S", b"s=S,W"), 7, 1200)
        self.refused(full(b"rule=S:").replace(b"=S:", b"=W:"), 8, 1099)
        self.refused(FRONT + b"rule=S: S\n" * 32000, 16, 0)

    def test_many(self):
        rng = random.Random(3)
        for table in sentenceless(rng, 8):
            grammar = named_table(rng, table)
            for lent in (AMPLE, exact_lent(grammar), Lent(0, 0, 0)):
                self.refused(text_of(grammar), 19, 0, lent)
        for table in nearly_sentenceless(rng, 8):
            grammar = named_table(rng, table)
            self.assertEqual(read_text(text_of(grammar), exact_lent(grammar))[:3], table)

    def test_the_writer(self):
        rng = random.Random(4)
        for table in sentenceless(rng, 8):
            count = table[0] + table[1]
            good = packed(random_names(rng, count))
            for rows in (good, (b"", [], []), (b"a", [0] * count, [1] * count)):
                for room in (9000, 0):
                    self.assertEqual(write_text(*table, *rows, room), Refusal(19, 0))


class WriterTest(unittest.TestCase):
    TABLE = S, 2, 1, A, A, 0
    NAMES = b"abSW"
    STARTS = (0, 1, 2, 3)
    ONES = (1, 1, 1, 1)
    WRITTEN = FRONT + b"rule=S: a W\nrule=W:\n"

    def answer(self, table=TABLE, data=NAMES, starts=STARTS, lengths=ONES, room=99):
        return write_text(2, 2, table, data, starts, lengths, room)

    def test_written(self):
        self.assertEqual(self.answer(), self.WRITTEN)
        self.assertEqual(write_text(0, 1, EMPTY, b"-", [0], [1], 34),
                         b"terminals=\nnonterminals=-\nrule=-:\n")

    def test_names_that_overlap_or_lie_in_any_order(self):
        self.assertEqual(
            self.answer(data=b"xyz", starts=[1, 0, 0, 2], lengths=[1, 1, 2, 1]),
            text(b"terminals=y,x", b"nonterminals=xy,z", b"rule=xy: y z", b"rule=z:"))

    def test_longer_rows(self):
        self.assertEqual(self.answer(starts=self.STARTS + (WORD - 1,)), self.WRITTEN)
        self.assertEqual(self.answer(lengths=self.ONES + (0, 16)), self.WRITTEN)

    def test_room(self):
        size = len(self.WRITTEN)
        self.assertEqual(self.answer(room=size), self.WRITTEN)
        self.assertEqual(self.answer(room=size - 1), Refusal(14, 0))
        self.assertEqual(self.answer(room=0), Refusal(14, 0))

    def test_table_faults(self):
        for table, cause, position in (
                ([S], 2, 0), ([S, 0, 1, 0], 3, 2), ([S, 13], 4, 0), ([S, 0, S, 1, 3], 5, 4),
                ([S, 0, S, 0], 6, 2)):
            self.assertEqual(self.answer(table=tuple(table)), Refusal(cause, position))
            self.assertEqual(
                self.answer(table=tuple(table), starts=(), lengths=(0, 16), room=0),
                Refusal(cause, position))
        more = tuple(entry for i in range(401) for entry in (S, 1, 1 + i))
        self.assertEqual(write_text(401, 1, more, b"", [], [], 0), Refusal(7, 1200))
        twelve = tuple(entry for i in range(79) for entry in (S, 12) + (1 + i,) * 12)
        self.assertEqual(write_text(100, 1, twelve, b"", [], [], 0), Refusal(8, 1092))

    def test_malformed_names(self):
        for length in (0, 16, 17, 256, WORD - 1):
            self.assertEqual(
                self.answer(data=b"a" * 300, lengths=[1, 2, length, 3]), Refusal(16, 2))
        for value in range(256):
            if value not in LETTERS + b"0123456789-":
                data = b"ab" + bytes([value]) + b"W"
                self.assertEqual(self.answer(data=data), Refusal(16, 2))

    def test_past_the_name_bytes(self):
        for start, length in ((3, 2), (4, 1), (0, 5), (WORD - 1, 1), (WORD - 1, 2),
                              (1, WORD - 1), (WORD - 1, WORD - 1), (WORD - 15, 15)):
            self.assertEqual(
                self.answer(starts=[0, start, 2, 3], lengths=[1, length, 1, 1]),
                Refusal(16, 1))

    def test_equal_names(self):
        self.assertEqual(self.answer(data=b"aaSW"), Refusal(18, 1))
        self.assertEqual(self.answer(data=b"abSS"), Refusal(18, 3))
        self.assertEqual(self.answer(data=b"abSa"), Refusal(18, 3))
        self.assertEqual(self.answer(data=b"abba"), Refusal(18, 2))
        self.assertEqual(self.answer(data=b"aaaa"), Refusal(18, 1))

    def test_lowest_16_before_18_before_14(self):
        self.assertEqual(self.answer(data=b"aa_W", room=0), Refusal(16, 2))
        self.assertEqual(self.answer(data=b"aa__"), Refusal(16, 2))
        self.assertEqual(self.answer(data=b"aaSW", starts=self.STARTS[:3]), Refusal(16, 3))
        self.assertEqual(self.answer(data=b"aaSW", lengths=self.ONES[:3]), Refusal(16, 3))
        self.assertEqual(self.answer(data=b"aaSW", room=0), Refusal(18, 1))


class RoundTripTest(unittest.TestCase):
    """What is read is written back, and what is written is read back."""

    def grammars(self, seed):
        rng = random.Random(seed)
        for _ in range(300):
            yield small_named(rng, 8)
        for _ in range(20):
            yield full_named(rng)
            yield large_named(rng, some_rules(rng), 1018 + rng.randrange(7))
        yield longest_named(rng)

    def test_read_then_write(self):
        for grammar in self.grammars(1):
            data = text_of(grammar)
            result = read_text(data, exact_lent(grammar))
            self.assertEqual(result.table, encode(grammar.rules))
            self.assertEqual(
                write_text(result.terminals, result.nonterminals, result.table, data,
                           result.starts, result.lengths, len(data)), data)

    def test_write_then_read(self):
        rng = random.Random(2)
        for grammar in self.grammars(2):
            count = grammar.t + grammar.n
            for rows in (packed(random_names(rng, count)), overlapping(rng, count),
                         scattered(rng, random_names(rng, count))):
                self.written_and_read(grammar, rows, ample_lent(rng))

    def written_and_read(self, grammar: Named, rows, lent):
        data, starts, lengths = rows
        table = encode(grammar.rules)
        written = write_text(grammar.t, grammar.n, table, data, starts, lengths, 82743)
        result = read_text(written, lent)
        self.assertEqual(result[:3], (grammar.t, grammar.n, table))
        self.assertEqual(
            [written[s:s + k] for s, k in zip(result.starts, result.lengths)],
            [data[s:s + k] for s, k in zip(starts, lengths)])


if __name__ == "__main__":
    unittest.main()
