"""Tests of carry.py: byte tables, step records and texts carried over by document 02's [8]."""

import os
import random
import sys
import tempfile
import unittest
from contextlib import redirect_stderr, redirect_stdout
from io import StringIO
from itertools import islice

from carry import KINDS, SHIFT, byte_table, carried, compared, main, old
from case_files import write_cases
from case_grammars import EIGHT_CHANNELS, ROWS
from corpus import entries, text_in
from tables import START, Grammar, check_table
from text import AMPLE, read_text
from triples import Triple, steps, triples_of


# Byte tables.

def small_tables(rng):
    """Document 01's rows, classic grammars, small random ones, ones with dead rules."""
    made = old.case_grammars
    yield from made.ROWS
    yield from made.CLASSICS.values()
    yield from (made.EIGHT_CHANNELS, made.MUCH_LOOKED_AT, made.STATEMENTS)
    for _ in range(1500):
        yield made.small_random(rng)
    for _ in range(300):
        yield made.dense(rng)
    yield from old.dead_grammars.dead_tables(rng, 60)
    yield from old.dead_grammars.chains(rng, (2, 9))
    yield from old.sentence_grammars.nearly_sentenceless(rng, 40)
    yield from old.sentence_grammars.sentenceless(rng, 40)


def larger_tables(rng):
    """Grammars of up to 256 states and 100 rules, with the most symbols."""
    made = old.case_grammars
    for states in (60, 80, 100):
        yield made.larger_random(rng, states)
        yield made.keywords(rng, 16, states)
    yield made.keywords(rng, 40, 256)
    yield from map(made.operators, (4, 9))
    for count in (100, 60, 30):
        parts = old.random_tables
        lengths = parts.random_lengths(rng, count, 256)
        rules = parts.with_sentence(rng, 127, parts.random_rules(rng, 127, 127, lengths))
        yield 127, 127, parts.encode(rules)
    yield 127, 127, (128, 2, 127, 254, 254, 0)


class CarryTest(unittest.TestCase):
    def test_the_limits_are_document_01s(self):
        self.assertEqual(old.tables.START + SHIFT, START)
        for t, n, table, expected in [
                (127, 127, (128, 0), (5,)), (128, 1, (128, 0), (1, 0)), (1, 128, (128, 0), (1, 0)),
                (1, 1, (128, 1, 128), (19, 0)), (1, 1, (127, 0), (3, 0)), (1, 1, (128, 1, 129), (5, 2)),
                (100, 1, old.random_tables.encode([(128, (1 + i,)) for i in range(100)]), (204,)),
                (101, 1, old.random_tables.encode([(128, (1 + i,)) for i in range(101)]), (7, 300)),
                (20, 1, old.random_tables.encode([(128, (1 + i,) * 12) for i in range(20)]), (8, 266))]:
            found = old.tables.check_table(t, n, table)
            self.assertEqual(found[-len(expected):], expected)

    def test_the_modules_in_use_stay(self):
        self.assertEqual((sys.modules["tables"].START, old.tables.START), (32768, 128))
        self.assertEqual(old.triples.START, 128)
        self.assertEqual([carried(row) for row in old.case_grammars.ROWS], ROWS)
        self.assertEqual(carried(old.case_grammars.EIGHT_CHANNELS), EIGHT_CHANNELS)

    def test_there_and_back(self):
        for table in islice(small_tables(random.Random(8)), 200):
            self.assertEqual(byte_table(carried(table)), table)
        for table in ((128, 1, (START, 0)), (1, 128, (START, 0)), (1, 1, (START, 1, START + 127)),
                      (1, 1, (START, 13)), (2000, 1, (START, 1, 2000))):
            self.assertIsNone(byte_table(table))

    def test_small_tables(self):
        verdicts = list(map(compared, dict.fromkeys(small_tables(random.Random(8)))))
        self.assertGreater(len(verdicts), 2000)
        for verdict in ("unambiguous", "potential", "without-a-sentence"):
            self.assertGreater(verdicts.count(verdict), 200)

    def test_larger_tables(self):
        verdicts = list(map(compared, larger_tables(random.Random(9))))
        self.assertNotIn("without-a-sentence", verdicts)
        self.assertGreater(verdicts.count("unambiguous"), 3)

    def test_a_difference_is_told(self):
        """The same with a search that is one off, and with too few tables."""
        class Kind:
            def __init__(self, kind, cases):
                self.all, self.encode = lambda: cases, kind.encode

        after = old.searches.search
        with tempfile.TemporaryDirectory() as folder:
            for name, (kind, _) in KINDS.items():
                cases = list(islice(kind.all(), 3))
                write_cases(Kind(kind, cases), os.path.join(folder, name + ".cases"))
            for changed in (after, lambda *words: after(*words)._replace(looked=0)):
                old.searches.search = changed
                try:
                    with redirect_stdout(StringIO()) as out, redirect_stderr(StringIO()) as err:
                        self.assertEqual(main([folder]), 1)
                finally:
                    old.searches.search = after
                self.assertEqual("different 0\n" in out.getvalue(), changed is after)
                self.assertEqual("the search's answer was" in err.getvalue(), changed is not after)
        with redirect_stderr(StringIO()):
            self.assertEqual(main([]), 2)

    def test_step_records_but_for_codes(self):
        def seen(step):
            return [tuple(step.next)] + [
                (kind, code + SHIFT if kind == "symbol" and code >= 128 else code)
                for kind, code in (step.left, step.right)]

        for table in islice(small_tables(random.Random(10)), 90):
            before, after = old.tables.check_table(*table), check_table(*carried(table))
            if isinstance(after, Grammar) and after.states <= 20:
                one, other = old.triples.triples_of(before), triples_of(after)
                for index in range(0, other.count, 3):
                    triple = Triple(*old.triples.triple_at(before.states, index))
                    found = old.triples.steps(one.automaton, old.triples.Triple(*triple))
                    expected = [[tuple(step.next), step.left, step.right]
                                for step in steps(other.automaton, triple)]
                    self.assertEqual(list(map(seen, found)), expected)

    def test_texts(self):
        """A text that was read is read alike, its table carried over."""
        tried = 0
        for entry in entries():
            text = text_in(entry.name)
            before = old.text.read_text(text, old.text.AMPLE)
            after = read_text(text, AMPLE)
            if isinstance(before, old.text.Text):
                table = before.terminals, before.nonterminals, before.table
                self.assertEqual(after, before._replace(table=carried(table)[2]))
                tried += 1
        self.assertGreater(tried, 90)


if __name__ == "__main__":
    unittest.main()
