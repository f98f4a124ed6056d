"""Tests of readings.py: both sides of witnesses, damaged forms, both round trips."""

import random
import re
import unittest
from itertools import product

from case_grammars import CYCLE, GOOD_ROWS, ROWS, good, small_random, triples_in
from dead_grammars import dead_small
from dead_rules import KINDS
from live import live_rules
from named_grammars import figures_named, good_figures, small_named, text_of, with_names
from program import printed
from random_tables import FIGURES, S, a, encode
from readings import (
    GRAMMAR, LINES, LentStrings, Pair, Refused, named_in, pair_lines, read_back, reading_lines,
    records_of, sides,
)
from robot_grammars import grown
from shortest import shortest_witness
from small_grammars import every_table
from tables import Refusal
from test_partings import accepts, strings_of
from test_triples import closing, opening, symbol
from triples import is_potential

AMPLE = LentStrings(2 * 1024 * 1024, 2 * 1024 * 1024)
FRONT = b"terminals=a,b\nnonterminals=S,W\n"
TWO = FRONT + b"rule=S: a W\nrule=W:\n"      # rules 0, 1 and 2
ODD = text_of(figures_named()[7])            # S→a S a; S→a
ODD_LINES = b"left=(0 (2 a )2 a )1 )0\nright=(0 (1 a (2 a )2 )0\n"
NAME = re.compile(rb"[-0-9A-Za-z]{1,15}")
WORD = re.compile(rb"[()](0|[1-9][0-9]*)")


def lines_of(text):
    """The lines that are added for a good grammar text."""
    return reading_lines(named_in(text))


def two(left, right=b""):
    """The two lines of these values."""
    return b"left=" + left + b"\nright=" + right + b"\n"


def verdict_of_line(line, key, known, rules):
    """0, 16 or 17 for a line without its byte 10, by patterns."""
    if not line.startswith(key):
        return 16
    value = line[len(key):]
    words = value.split(b" ") if value else []
    for word in words:
        bracket = WORD.fullmatch(word)
        if bracket is None and NAME.fullmatch(word) is None:
            return 16
        if bracket is not None and int(bracket.group(1)) > rules:
            return 16
    return 17 if any(WORD.fullmatch(w) is None and w.lower() not in known for w in words) else 0


class SidesTest(unittest.TestCase):
    def test_the_example(self):
        triples = triples_in(ROWS[7])
        pair = sides(triples, shortest_witness(triples))
        self.assertEqual(pair.left, (
            opening(0), opening(2), symbol(a), closing(2), symbol(a), closing(1), closing(0)))
        self.assertEqual(pair.right, (
            opening(0), opening(1), symbol(a), opening(2), symbol(a), closing(2), closing(0)))

    def test_the_cycle(self):
        triples = triples_in(CYCLE)
        self.assertEqual(sides(triples, shortest_witness(triples)), Pair(
            (opening(0), symbol(S), closing(0)),
            (opening(0), opening(1), symbol(S), closing(1), closing(0))))

    def test_each_pair_has_one_record_and_both_strings_are_accepted(self):
        rng = random.Random(1)
        tables = list(every_table(1, 2, 10)) + [small_random(rng) for _ in range(300)]
        tried = 0
        for triples in map(triples_in, tables):
            witness = shortest_witness(triples)
            if witness is not None:
                tried += 1
                pair = sides(triples, witness)
                x, z, y, w = strings_of(triples, witness)
                self.assertEqual(pair, Pair(tuple(x + z), tuple(y + w)))
                self.assertEqual(len(records_of(triples, witness)), len(witness) - 1)
                self.assertLess(max(map(len, pair)), triples.count)
                self.assertTrue(all(accepts(triples.automaton, string) for string in pair))
        self.assertGreater(tried, 300)

    def test_a_pair_without_one_record(self):
        triples = triples_in(CYCLE)
        for entries in ([0, 1], [4 * 8 + 4] * 2):
            with self.assertRaises(ValueError):
                sides(triples, entries)


class LinesTest(unittest.TestCase):
    def test_the_example(self):
        self.assertEqual(lines_of(ODD), ODD_LINES)
        self.assertEqual(printed(ODD), b"states=10\nverdict=potential\n" + ODD_LINES)

    def test_the_other_potential_rows(self):
        lines = [lines_of(text_of(figures_named()[place])) for place in (6, 8)]
        self.assertEqual(lines, [
            b"left=(0 S )0\nright=(0 (1 S )1 )0\n",
            b"left=(0 (2 (4 )4 )2 )0\nright=(0 (1 (3 )3 )1 )0\n"])

    def test_only_after_a_potential_verdict(self):
        for row, grammar in zip(GOOD_ROWS, good_figures()):
            lines = lines_of(text_of(grammar))
            self.assertEqual(lines != b"", is_potential(triples_in(row)))

    def test_no_space_after_the_equals_sign(self):
        self.assertEqual(pair_lines(named_in(TWO), Pair((), ())), b"left=\nright=\n")
        self.assertEqual(pair_lines(named_in(TWO), Pair((opening(2),), (symbol(S), symbol(2)))),
                         b"left=(2\nright=S b\n")

    def test_rule_numbers_of_several_digits(self):
        lengths = b"".join(b"rule=S:%s\n" % (b" a" * k) for k in range(1, 11))
        text = FRONT + lengths + b"rule=S: S\n"
        self.assertEqual(lines_of(text), b"left=(0 S )0\nright=(0 (11 S )11 )0\n")

    def test_dead_rules(self):
        course = FRONT + b"rule=S: a\nrule=S: W\nrule=W: W\n"
        self.assertEqual(lines_of(course), b"")
        self.assertEqual(printed(course), b"states=10\nverdict=unambiguous\nreached=11\n")
        cycle = FRONT + b"rule=S: S W\nrule=W: W\nrule=S: S\nrule=S: a\n"
        self.assertEqual(lines_of(cycle), b"left=(0 S )0\nright=(0 (3 S )3 )0\n")

    def test_the_declared_spelling(self):
        """Document 02, [9]: whatever case the rules use."""
        for text in (ODD, ODD.replace(b"rule=S", b"rule=s"), ODD.replace(b": a", b": A"),
                     ODD.replace(b"rule=S: a S a", b"rule=s: A s A")):
            self.assertEqual(printed(text), b"states=10\nverdict=potential\n" + ODD_LINES)
        text = b"terminals=Go\nnonterminals=Start\nrule=START: start\nrule=start: GO\n"
        self.assertEqual(lines_of(text), b"left=(0 Start )0\nright=(0 (1 Start )1 )0\n")
        self.assertEqual(printed(text), b"states=8\nverdict=potential\n" + lines_of(text))

    def test_a_refused_text(self):
        self.assertEqual(named_in(b""), Refusal(16, 1))
        self.assertEqual(named_in(FRONT + b"rule=S: c\n"), Refusal(17, 3))
        self.assertEqual(named_in(FRONT + b"rule=S: a S\n"), Refusal(19, 0))
        self.assertEqual(printed(ODD[:-1]), b"refused=16\nat=4\n")


class ReadBackTest(unittest.TestCase):
    def read(self, lines, left, right, lent=AMPLE):
        self.assertEqual(read_back(TWO, lines, lent), Pair(tuple(left), tuple(right)))

    def refused(self, lines, cause, position, text=TWO, lent=AMPLE, part=LINES):
        self.assertEqual(read_back(text, lines, lent), Refused(part, Refusal(cause, position)))

    def test_good_lines(self):
        self.read(two(b""), [], [])
        self.read(two(b"", b"a"), [], [symbol(1)])
        self.read(two(b"(0 (2 )1 )0", b"S W b a"),
                  [opening(0), opening(2), closing(1), closing(0)],
                  [symbol(S), symbol(S + 1), symbol(2), symbol(1)])

    def test_strings_that_the_automaton_does_not_accept(self):
        self.read(two(b")2 )2", b"(1"), [closing(2), closing(2)], [opening(1)])

    def test_dead_rules_are_rules_of_the_grammar(self):
        text = FRONT + b"rule=S: a\nrule=W: W\n"
        self.assertEqual(read_back(text, two(b"(2 )2", b""), AMPLE),
                         Pair((opening(2), closing(2)), ()))
        self.refused(two(b"(3"), 16, 1, text)

    def test_malformed_values(self):
        for value in (b" ", b" a", b"a ", b"a  b", b"(", b")", b"(01", b"(00", b")02", b"(3",
                      b")3", b"(10", b"(-1", b"(+1", b"(1a", b"( 1", b"(1)1", b"((1", b"1)",
                      b"(a", b"a,b", b"a\tb", b"a\r", b"=", b"a=", b"left=", b"a" * 16, b"\0",
                      b"a_b", b"(1\x00", b"(\xb2", b"\xc3\xa4", b"(4294967297",
                      b"(18446744073709551617", b"(" + b"9" * 5000, b"(1 " + b")" * 9):
            self.refused(two(value), 16, 1)
            self.refused(two(b"a " + value), 16, 1)
            self.refused(two(b"", value), 16, 2)

    def test_wrong_keys(self):
        for line in (b"", b"left", b"left:", b"left a", b" left=", b"Left=", b"LEFT=", b"lef=",
                     b"left =", b"right=", b"rule=", b"=", b"a", b"xleft="):
            self.refused(line + b"\nright=\n", 16, 1)
        for line in (b"", b"right", b" right=", b"Right=", b"left=", b"left=a", b"rightright="):
            self.refused(b"left=\n" + line + b"\n", 16, 2)

    def test_missing_and_cut_lines(self):
        for lines in (b"", b"left=", b"left=a", b"left=a b", b"\n", b"\nleft=\nright=\n"):
            self.refused(lines, 16, 1)
        for lines in (b"left=\n", b"left=\nright", b"left=\nright=", b"left=\nright=a",
                      b"left=\n\nright=\n"):
            self.refused(lines, 16, 2)

    def test_anything_past_line_2(self):
        for past in (b"\n", b" ", b"a", b"\0", b"right=\n", b"left=\nright=\n"):
            self.refused(two(b"a", b"b") + past, 16, 2)
            self.refused(two(b"a", b"c") + past, 16, 2)
            self.refused(two(b"c", b"b") + past, 17, 1)

    def test_unknown_names(self):
        for value in (b"c", b"C", b"SW", b"a-", b"-", b"0", b"1", b"a" * 15, b"left", b"a b c"):
            self.refused(two(value), 17, 1)
            self.refused(two(b"a", value), 17, 2)

    def test_names_in_another_case(self):
        """Document 02, [9]."""
        text = b"terminals=Take,b\nnonterminals=S,Volume-1\nrule=s: TAKE volume-1\nrule=VOLUME-1: B\n"
        pair = Pair((opening(0), symbol(1), symbol(S + 1)), (symbol(S), symbol(2), closing(2)))
        declared = two(b"(0 Take Volume-1", b"S b )2")
        self.assertEqual(pair_lines(named_in(text), pair), declared)
        for lines in (declared, two(b"(0 take volume-1", b"s B )2"), two(b"(0 TAKE VOLUME-1", b"S b )2"),
                      two(b"(0 tAKE Volume-1", b"s b )2")):
            self.assertEqual(read_back(text, lines, AMPLE), pair)
            self.assertEqual(read_back(text, lines, LentStrings(3, 2)), Refused(LINES, Refusal(14, 0)))
        for word in (b"tak", b"take-", b"VolumeQ1", b"Volume-Q", b"VolumeM1", b"0", b"c"):
            self.refused(two(word), 17, 1, text)
            self.refused(two(b"TAKE", word), 17, 2, text)
        for word in (b"T@ke", b"take`", b"[", b"{", b"(0a", b"(O"):
            self.refused(two(b"b", b"B " + word), 16, 2, text)
        for lines in (b"Left=\nright=\n", b"LEFT=take\nright=\n", b"lefT=\nRIGHT=\n"):
            self.refused(lines, 16, 1, text)
        for lines in (b"left=\nRight=\n", b"left=\nrighT=b\n"):
            self.refused(lines, 16, 2, text)
        for twice in (b"terminals=a,A\n", b"terminals=a,S\nnonterminals=s\nrule=s:\n"):
            self.refused(declared, 18, twice.count(b"\n") // 3 + 1, twice, part=GRAMMAR)

    def test_16_before_17_in_a_line_and_line_1_before_line_2(self):
        self.refused(two(b"c ("), 16, 1)
        self.refused(two(b"( c"), 16, 1)
        self.refused(two(b"c", b"("), 17, 1)
        self.refused(b"left=c\n", 17, 1)
        self.refused(b"left=c\nright=", 17, 1)
        self.refused(b"left=c", 16, 1)
        self.refused(two(b"a", b"c (9"), 16, 2)

    def test_the_grammars_own_faults_come_first(self):
        for lines in (b"", two(b"c"), two(b"a"), two(b"(", b"(")):
            for text, cause, position in [
                (b"", 16, 1), (b"a" * 262145, 16, 0), (b"terminals=a\n", 16, 2),
                (b"terminals=a\nnonterminals=a\n", 18, 2),
                (b"terminals=\nnonterminals=\n", 1, 2), (FRONT + b"rule=S: c\n", 17, 3),
                (FRONT + b"rule=S:" + b" a" * 13 + b"\n", 4, 3),
                (FRONT + b"rule=S:\nrule=S:\n", 6, 2), (FRONT, 19, 0),
                (FRONT + b"rule=S: S\nrule=W:\n", 19, 0),
            ]:
                self.refused(lines, cause, position, text, LentStrings(0, 0), GRAMMAR)

    def test_the_text_and_the_lines_exchanged(self):
        self.assertEqual(read_back(two(b""), TWO, AMPLE), Refused(GRAMMAR, Refusal(16, 1)))
        self.refused(TWO, 16, 1)

    def test_14_comes_last(self):
        none = LentStrings(0, 0)
        self.refused(two(b"("), 16, 1, lent=none)
        self.refused(two(b"a", b"c"), 17, 2, lent=none)
        self.refused(two(b"a"), 14, 0, lent=none)
        self.refused(two(b"", b"a"), 14, 0, lent=none)
        self.read(two(b""), [], [], none)
        self.read(two(b"a a", b"b"), [symbol(1)] * 2, [symbol(2)], LentStrings(2, 1))
        self.refused(two(b"a a", b"b"), 14, 0, lent=LentStrings(1, 1))
        self.refused(two(b"a a", b"b"), 14, 0, lent=LentStrings(2, 0))

    def test_the_number_of_rules_is_the_grammars(self):
        one = b"terminals=\nnonterminals=S\nrule=S:\n"
        self.assertEqual(read_back(one, two(b"(0", b")1"), AMPLE),
                         Pair((opening(0),), (closing(1),)))
        self.refused(two(b"(2"), 16, 1, one)
        many = (b"terminals=%s\nnonterminals=S\n" % b",".join(b"%d" % i for i in range(400))
                + b"".join(b"rule=S: %d\n" % i for i in range(400)))
        self.assertEqual(read_back(many, two(b")400 399"), AMPLE),
                         Pair((closing(400), symbol(400)), ()))
        self.refused(two(b"(401"), 16, 1, many)


class RoundTripTest(unittest.TestCase):
    def back(self, text, pair, lines):
        need = LentStrings(*map(len, pair))
        self.assertEqual(read_back(text, lines, need), pair)
        for short in (need._replace(left=need.left - 1), need._replace(right=need.right - 1)):
            if min(short) >= 0:
                self.assertEqual(read_back(text, lines, short), Refused(LINES, Refusal(14, 0)))

    def grammars(self, rng):
        yield from good_figures()
        for _ in range(300):
            yield small_named(rng)
        for kind in KINDS:
            for _ in range(15):
                rules = dead_small(rng, kind)
                yield with_names(rng, rules.t, rules.n, list(rules.rules))
        for _ in range(40):
            yield grown(rng, 4, 48)

    def test_the_lines_of_many_grammars(self):
        tried = 0
        for grammar in self.grammars(random.Random(2)):
            text = text_of(grammar)
            lines = lines_of(text)
            if lines:
                tried += 1
                self.assertTrue(printed(text).endswith(b"verdict=potential\n" + lines))
                table = grammar.t, grammar.n, encode(grammar.rules)
                triples, live = triples_in(table), live_rules(good(table))
                pair = sides(triples, shortest_witness(triples))
                self.back(text, pair, lines)
                self.assertTrue(all(live[number] for string in pair for kind, number in string
                                    if kind != "symbol"))
        self.assertGreater(tried, 100)

    def test_random_strings(self):
        rng = random.Random(3)
        for grammar in self.grammars(rng):
            letters = [move(rule) for rule in range(len(grammar.rules) + 1)
                       for move in (opening, closing)]
            letters += [symbol(code) for code in range(1, 1 + grammar.t)]
            letters += [symbol(S + place) for place in range(grammar.n)]
            text = text_of(grammar)
            pair = Pair(*(tuple(rng.choice(letters) for _ in range(rng.randrange(30)))
                          for _ in range(2)))
            self.back(text, pair, pair_lines(named_in(text), pair))

    def test_damaged_lines(self):
        """One byte changed, dropped or added: the answer by patterns, or the same lines."""
        rng = random.Random(4)
        named, good = named_in(TWO), two(b"(0 a )2 S", b"(1 W b )0")
        known, spare = [b"a", b"b", b"s", b"w"], b"()0123abSAcw \n=left-_"
        causes = {0: 0, 16: 0, 17: 0}
        for _ in range(3000):
            place, drop = rng.randrange(len(good) + 1), rng.randrange(2)
            added = bytes([rng.choice(spare)]) if rng.randrange(4) else b""
            lines = good[:place] + added + good[place + drop:]
            first, *others = lines.split(b"\n")
            cause = verdict_of_line(first, b"left=", known, 2) if others else 16
            line = 1
            if cause == 0:
                line = 2
                ended = len(others) == 2 and others[1] == b""
                cause = verdict_of_line(others[0], b"right=", known, 2) if ended else 16
            causes[cause] += 1
            found = read_back(TWO, lines, AMPLE)
            if cause == 0:
                declared = lines.translate(bytes.maketrans(b"ABsw", b"abSW"))
                self.assertEqual(pair_lines(named, found), declared)
            else:
                self.assertEqual(found, Refused(LINES, Refusal(cause, line)))
        self.assertGreater(min(causes.values()), 200)


class InjectivityTest(unittest.TestCase):
    """"different pairs of strings never give the same lines"."""

    def strings(self, letters, longest):
        return [string for length in range(longest + 1)
                for string in product(letters, repeat=length)]

    def different(self, text, letters, longest):
        named = named_in(text)
        strings = self.strings(letters, longest)
        seen = {pair_lines(named, Pair(*pair)) for pair in product(strings, repeat=2)}
        self.assertEqual(len(seen), len(strings) ** 2)

    def test_all_pairs_of_short_strings(self):
        letters = [move(rule) for rule in range(3) for move in (opening, closing)]
        letters += [symbol(code) for code in (1, 2, S, S + 1)]
        self.different(TWO, letters, 2)
        self.different(TWO, [opening(1), closing(1), symbol(1), symbol(S)], 3)

    def test_names_like_numbers_and_joined_names(self):
        text = b"terminals=1,11,0,01\nnonterminals=-,--\nrule=-:\nrule=--: 1\n"
        letters = [opening(0), closing(0), opening(1), closing(1)]
        letters += [symbol(code) for code in (1, 2, 3, 4, S, S + 1)]
        self.different(text, letters, 2)

    def test_other_names_give_other_lines_of_the_same_grammar(self):
        rng = random.Random(5)
        for t, n, rules in FIGURES[6:9]:
            one, other = (text_of(with_names(rng, t, n, rules)) for _ in range(2))
            pair = read_back(one, lines_of(one), AMPLE)
            self.assertIsInstance(pair, Pair)
            self.assertEqual(read_back(other, lines_of(other), AMPLE), pair)


if __name__ == "__main__":
    unittest.main()
