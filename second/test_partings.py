"""The triples against the "Parting strings" that document 01's verdict is about.

A witness is turned into two strings and these are tried against the definition;
and all short strings that an automaton accepts are searched for a pair.
"""

import random
import unittest
from collections import defaultdict

from automaton import BEGIN, END
from case_grammars import CLASSICS, GOOD_ROWS, small_random, triples_in
from tables import START
from triples import CLOSING, OPENING, STILL, SYMBOL, is_potential, steps, triple_at
from ways import shortest

MOST = 4000               # strings that are looked at for one grammar


def moves_of(automaton, state):
    """Every move of a state, as (move, next state)."""
    found = [((OPENING, rule), to) for rule, to in automaton.openings[state]]
    found += [((CLOSING, rule), to) for rule, to in automaton.closings[state]]
    shift = automaton.shifts[state]
    return found + ([((SYMBOL, shift[0]), shift[1])] if shift else [])


def accepts(automaton, string):
    """Whether a way from the start to the end makes these moves."""
    states = {BEGIN}
    for move in string:
        states = {to for state in states for made, to in moves_of(automaton, state)
                  if made == move}
    return END in states


def symbols(string):
    return [move for move in string if move[0] == SYMBOL]


def is_front(string):
    """"x and y hold only openings and shifts"."""
    return all(move[0] in (OPENING, SYMBOL) for move in string)


def is_back(string):
    """"z and w hold no nonterminals"; here also: they begin as one of them must."""
    return (all(code < START for _, code in symbols(string))
            and string != [] and string[0][0] in (CLOSING, SYMBOL))


def part(one, other):
    """"closing i; the other begins with a terminal or with closing j, j ≠ i"."""
    return CLOSING in (one[0], other[0]) and one != other


def strings_of(triples, entries):
    """x, z, y, w of a witness: what either side did, before the parting and after."""
    parts = [[], [], [], []]
    for entry, following in zip(entries, entries[1:]):
        target = triple_at(triples.states, following)
        records = steps(triples.automaton, triple_at(triples.states, entry))
        step = next(record for record in records if record.next == target)
        for side, move in enumerate((step.left, step.right)):
            if move != STILL:
                parts[2 * side + target.layer].append(move)
    return parts


def accepted_strings(automaton, longest):
    """The accepted strings of at most `longest` moves, at most MOST of them."""
    row = [((), BEGIN)]
    found = set()
    for string, state in row:
        if state == END:
            found.add(string)
        if len(string) < longest and len(row) < 20 * MOST and len(found) < MOST:
            row += [(string + (move,), to) for move, to in moves_of(automaton, state)]
    return sorted(found)


def has_pair(strings):
    """Whether two of the strings are parting strings."""
    groups = defaultdict(set)
    for string in strings:
        for place in range(len(string)):
            front, back = list(string[:place]), list(string[place:])
            if is_front(front) and is_back(back):
                key = tuple(symbols(front)), tuple(symbols(back))
                groups[key].add(back[0])
    return any(part(one, other) for group in groups.values()
               for one in group for other in group)


class WitnessTest(unittest.TestCase):
    def test_a_witness_gives_parting_strings(self):
        rng = random.Random(3)
        tables = GOOD_ROWS + list(CLASSICS.values()) + [small_random(rng) for _ in range(150)]
        potential = [table for table in tables if is_potential(triples_in(table))]
        self.assertGreater(len(potential), 50)
        for table in potential:
            triples = triples_in(table)
            x, z, y, w = strings_of(triples, shortest(triples))
            self.assertTrue(accepts(triples.automaton, x + z))
            self.assertTrue(accepts(triples.automaton, y + w))
            self.assertTrue(is_front(x) and is_front(y) and is_back(z) and is_back(w))
            self.assertEqual(symbols(x), symbols(y))
            self.assertEqual(symbols(z), symbols(w))
            self.assertTrue(part(z[0], w[0]))


class StringsTest(unittest.TestCase):
    def test_rows(self):
        for row in GOOD_ROWS:
            triples = triples_in(row)
            pair = has_pair(accepted_strings(triples.automaton, 11))
            self.assertEqual(pair, is_potential(triples))

    def test_random_grammars(self):
        rng = random.Random(4)
        found = 0
        for _ in range(120):
            triples = triples_in(small_random(rng))
            pair = has_pair(accepted_strings(triples.automaton, 9))
            found += pair
            self.assertTrue(is_potential(triples) or not pair)
        self.assertGreater(found, 15)


if __name__ == "__main__":
    unittest.main()
