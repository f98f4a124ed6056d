"""Tests of rooms.py: figures, every move by hand, what a search and the writer need."""

import random
import unittest

from automaton import after_dot, automaton_of, before_dot, items_of, move_count
from case_grammars import (
    CLASSICS, COURSE, EIGHT_CHANNELS, ENDLESS, GOOD_ROWS, NO_RULES, ONE_A, ROWS, faulty_tables,
    good, larger_random, small_random, spelled, triples_in,
)
from dead_grammars import chains, dead_tables
from derivations import used_rules
from live_misreadings import former_automaton
from named_grammars import full_named, large_named, longest_named, random_names, small_named
from random_tables import FIGURES, encode, some_rules
from room_reasons import moves_by_rules
from rooms import Room, letter_moves, room_of, text_length
from searches import Lent, Potential, Unambiguous, needed, search
from sentence_grammars import faulty_sentenceless, sentenceless
from small_grammars import every_table
from tables import NO_SENTENCE, START, Grammar, Refusal, check_rules, check_table
from text import write_text
from text_write_inputs import overlapping, packed, scattered
from triples import (
    BYTE, CLOSING, OPENING, SYMBOL, Triple, certificate_of, index_of, is_potential, triple_at,
)

PLENTY = 200000           # more than any search or text needs


# The moves, asked one by one of two items alone.

def items_by_use(grammar):
    """By state its item if some sentence uses its rule; rule 0 is used by all."""
    used = [True] + used_rules(grammar)
    return [item if item is not None and used[item.rule] else None for item in items_of(grammar)]


def is_move(items, state, letter, target):
    """Whether documents 01 and 02 have this move."""
    one, other = items[state], items[target]
    kind, number = letter
    if kind == SYMBOL:
        return after_dot(one) == number and target == state + 1
    if number == 0:
        return (kind, state, target) in ((OPENING, 0, 2), (CLOSING, 3, 1))
    if kind == OPENING:
        return (other is not None and (other.rule, other.dot) == (number, 0)
                and after_dot(one) == other.left)
    return (one is not None and (one.rule, one.dot) == (number, len(one.right))
            and before_dot(other) == one.left)


def letters_of(grammar):
    """Every opening, closing and symbol of a grammar."""
    rules = range(len(grammar.rules) + 1)
    codes = list(range(1, 1 + grammar.terminals))
    codes += range(START, START + grammar.nonterminals)
    return ([(OPENING, rule) for rule in rules] + [(CLOSING, rule) for rule in rules]
            + [(SYMBOL, code) for code in codes])


def listed_moves(grammar):
    """Every (state, letter, target) that is a move."""
    items, states = items_by_use(grammar), range(grammar.states)
    return {(state, letter, target) for state in states for letter in letters_of(grammar)
            for target in states if is_move(items, state, letter, target)}


class FiguresTest(unittest.TestCase):
    def test_one_a(self):
        self.assertEqual(room_of(*ONE_A), Room(6, 9, 72, 6))
        self.assertEqual(listed_moves(good(ONE_A)), {
            (0, (OPENING, 0), 2), (2, (OPENING, 1), 4), (2, (SYMBOL, START), 3),
            (4, (SYMBOL, 1), 5), (5, (CLOSING, 1), 3), (3, (CLOSING, 0), 1)})

    def test_the_eight_channels(self):
        self.assertEqual(room_of(*EIGHT_CHANNELS), Room(27, 183, 1458, 49))
        self.assertEqual(len(listed_moves(good(EIGHT_CHANNELS))), 49)

    def test_grammars_on_file(self):
        self.assertEqual([room_of(*row).moves for row in GOOD_ROWS],
                         [5, 6, 14, 14, 13, 15, 13, 25])
        for table in (NO_RULES, ENDLESS):
            self.assertEqual(room_of(*table), Refusal(NO_SENTENCE, 0))

    def test_dead_rules_have_states_but_no_moves(self):
        self.assertEqual(room_of(*COURSE), Room(10, 25, 200, 6))
        self.assertEqual(move_count(former_automaton(good(COURSE))), 14)

    def test_the_largest_and_the_smallest(self):
        self.assertEqual(room_of(0, 1, (START, 0)), Room(5, 7, 50, 5))
        rules = [(START, (1 + i,) * 12) for i in range(78)] + [(START, (1,) * 5)]
        self.assertEqual(room_of(78, 1, encode(rules)),
                         Room(1024, 262144, 2097152, 2 * (1 + 79) + 1 + 78 * 12 + 5))


class MovesTest(unittest.TestCase):
    def check(self, table):
        grammar = good(table)
        found = listed_moves(grammar)
        self.assertEqual(letter_moves(automaton_of(grammar)), found)
        self.assertEqual(room_of(*table).moves, len(found))

    def test_all_small_grammars_move_by_move(self):
        refused = 0
        for table in list(every_table(1, 2, 8)) + list(every_table(1, 1, 9)):
            if check_table(*table) == Refusal(NO_SENTENCE, 0):
                self.assertEqual(room_of(*table), Refusal(NO_SENTENCE, 0))
                refused += 1
            else:
                self.check(table)
        self.assertGreater(refused, 100)

    def test_others_move_by_move(self):
        rng = random.Random(7)
        for table in list(CLASSICS.values()) + list(dead_tables(rng, 12)):
            self.check(table)
        for _ in range(100):
            self.check(small_random(rng))

    def test_twice_the_openings_and_the_shifts(self):
        rng = random.Random(1)
        tables = [table for table in every_table(2, 2, 8)
                  if isinstance(check_table(*table), Grammar)]
        tables += GOOD_ROWS + list(CLASSICS.values()) + [EIGHT_CHANNELS]
        tables += [small_random(rng) for _ in range(500)]
        tables += [larger_random(rng, 40 + rng.randrange(216)) for _ in range(20)]
        tables += list(dead_tables(rng, 20)) + list(chains(rng, (2, 9)))
        for table in tables:
            automaton = automaton_of(good(table))
            kinds = [letter[0] for _, letter, _ in letter_moves(automaton)]
            self.assertEqual(kinds.count(OPENING), kinds.count(CLOSING))
            twice = 2 * kinds.count(OPENING) + kinds.count(SYMBOL)
            self.assertEqual(
                [room_of(*table).moves, moves_by_rules(good(table)), move_count(automaton)],
                [twice] * 3)

    def test_dead_rules_had_moves_before(self):
        for table in dead_tables(random.Random(8), 12):
            grammar = good(table)
            former = letter_moves(former_automaton(grammar))
            self.assertLess(letter_moves(automaton_of(grammar)), former)


class RoomTest(unittest.TestCase):
    def lent(self, room):
        return Lent(room.certificate, room.row, room.row, room.row)

    def tables(self, rng, count):
        yield from GOOD_ROWS + list(CLASSICS.values()) + [EIGHT_CHANNELS]
        yield from (small_random(rng) for _ in range(count))
        yield from dead_tables(rng, 5)

    def test_rows_and_bytes_hold_every_triple(self):
        """The rows have an entry, and the bytes a bit, for each triple and no more."""
        rng = random.Random(9)
        for table in self.tables(rng, 200):
            room, triples = room_of(*table), triples_in(table)
            self.assertEqual((room.states, room.row), (triples.states, triples.count))
            highest = Triple(1, room.states - 1, room.states - 1)
            self.assertEqual(index_of(room.states, highest), room.row - 1)
            self.assertEqual(triple_at(room.states, room.row - 1), highest)
            self.assertGreater(triple_at(room.states, room.row).layer, 1)
            self.assertEqual(len(certificate_of(room.states, [room.row - 1])), room.certificate)
            self.assertEqual((room.row - 1) // BYTE, room.certificate - 1)
            self.assertEqual(self.lent(room), needed(triples.states))

    def test_what_the_search_gives_fits(self):
        verdicts = set()
        for table in self.tables(random.Random(10), 150):
            room = room_of(*table)
            result = search(*table, self.lent(room))
            verdicts.add(type(result))
            if isinstance(result, Unambiguous):
                self.assertEqual(len(result.certificate), room.certificate)
            else:
                self.assertTrue(is_potential(triples_in(table)))
                self.assertLessEqual(len(result.witness), room.row)
                self.assertLess(max(result.witness), room.row)
        self.assertEqual(verdicts, {Unambiguous, Potential})

    def test_so_much_is_never_14_and_less_always_is(self):
        rng = random.Random(2)
        small = [table for table in every_table(1, 1, 8)
                 if isinstance(check_table(*table), Grammar)]
        for table in small + list(self.tables(rng, 150)):
            exact = self.lent(room_of(*table))
            self.assertNotIsInstance(search(*table, exact), Refusal)
            for place in range(len(exact)):
                for less in (exact[place] - 1, 0, rng.randrange(exact[place])):
                    lent = [PLENTY] * len(exact)
                    lent[place] = less
                    self.assertEqual(search(*table, Lent(*lent)), Refusal(14, 0))

    def test_table_faults(self):
        rng = random.Random(3)
        tables = faulty_tables(rng, 20) + list(faulty_sentenceless(rng, 5))
        for table in tables + list(sentenceless(rng, 8)) + [ROWS[0], ROWS[5]]:
            fault = check_table(*table)
            self.assertIsInstance(fault, Refusal)
            self.assertEqual(room_of(*table), fault)
            self.assertEqual(text_length(*table, b"", [], []), fault)
            if fault.cause == NO_SENTENCE:
                self.assertIsInstance(check_rules(*table), Grammar)


class TextLengthTest(unittest.TestCase):
    def grammars(self, rng):
        for _ in range(300):
            yield small_named(rng, 8)
        for _ in range(15):
            yield full_named(rng)
            yield large_named(rng, some_rules(rng), 1018 + rng.randrange(7))
        yield longest_named(rng)

    def test_exactly_what_is_written(self):
        rng = random.Random(4)
        for grammar in self.grammars(rng):
            table = grammar.t, grammar.n, encode(grammar.rules)
            count = grammar.t + grammar.n
            for rows in (packed(grammar.names), overlapping(rng, count),
                         scattered(rng, random_names(rng, count))):
                length = text_length(*table, *rows)
                self.assertEqual(len(write_text(*table, *rows, length)), length)
                self.assertEqual(write_text(*table, *rows, length - 1), Refusal(14, 0))

    def test_figures(self):
        self.assertEqual(text_length(0, 1, (START, 0), b"-", [0], [1]), 34)
        self.assertEqual(text_length(0, 1, (), b"-", [0], [1]), Refusal(NO_SENTENCE, 0))
        self.assertEqual(text_length(*ONE_A, b"aS", [0, 1], [1, 1]),
                         len(b"terminals=a\nnonterminals=S\nrule=S: a\n"))
        self.assertEqual(
            text_length(*spelled("S: a", "U: a b"), b"abSU", [0, 1, 2, 3], [1] * 4),
            len(b"terminals=a,b\nnonterminals=S,U\nrule=S: a\nrule=U: a b\n"))

    def test_the_longest(self):
        longest = longest_named(random.Random(1))
        table = longest.t, longest.n, encode(longest.rules)
        self.assertEqual(text_length(*table, *packed(longest.names)), 82743)

    def test_the_writers_refusals(self):
        rng = random.Random(5)
        causes = set()
        for _ in range(2000):
            t, n, rules = rng.choice(FIGURES)
            data = bytes(rng.choice(b"abcdSAB_") for _ in range(6))
            rows = [[rng.randrange(8) for _ in range(t + n - (rng.randrange(9) == 0))]
                    for _ in range(2)]
            case = t, n, encode(rules), data, rows[0], [min(2, entry) for entry in rows[1]]
            length, written = text_length(*case), write_text(*case, PLENTY)
            if isinstance(written, Refusal):
                causes.add(written.cause)
                self.assertEqual(length, written)
            else:
                self.assertEqual(length, len(written))
        self.assertEqual(causes, {16, 18, 19})


if __name__ == "__main__":
    unittest.main()
