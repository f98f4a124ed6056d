"""Tests of document 02's [11]: figures, states and moves by hand, refusals, misreadings, verdicts at each m."""

import random
import unittest
from itertools import product

from automaton import automaton_of
from caller_grammars import (
    BIOLOGY, BY_HAND, ONE_CALLER_MORE, SMALL, TOO_LARGE, TWO_CALLERS_MORE, alike_in_states, edge_pairs,
    most_chains, parted_by_callers, polish, verdicts, wrapped_round,
)
from caller_misreadings import MISREAD, REFUSALS, told, told_by_refusal
from caller_reasons import counted_states
from callers import automaton_at, chains_at, live_items, remembering, states_at
from case_grammars import (
    EIGHT_CHANNELS, ENDLESS, NO_RULES, ONE_A, dense, good, live_small, small_random, spelled, states_of,
    triples_in,
)
from certificates import check_certificate, check_records, check_witness
from dead_grammars import dead_tables
from looked import looked_at, most_looked_at
from random_tables import encode
from rooms import Room, room_of
from searches import Lent, needed, search
from tables import MAX_STATES, START, Refusal
from trees import tree_count
from triples import certificate_of, reached, triple_at

EACH_M = range(3)
NOTHING = Lent(0, 0, 0, 0)


def small_grammars(seed, count):
    """Random grammars of at most SMALL states at m=2."""
    rng = random.Random(seed)
    found = []
    while len(found) < count:
        table = rng.choice([small_random, dense, live_small])(rng)
        if states_at(good(table), 2) <= SMALL:
            found.append(table)
    return found


class FigureTest(unittest.TestCase):
    def rooms(self, table, *rooms):
        self.assertEqual([room_of(*table, m) for m in EACH_M], [Room(*room) for room in rooms])

    def test_biology(self):
        self.rooms(BIOLOGY, (17, 73, 578, 22), (19, 91, 722, 23), (19, 91, 722, 23))
        self.assertEqual(verdicts(BIOLOGY), (True, False, False))
        for m in (1, 2):
            self.assertEqual(search(*BIOLOGY, needed(19), m).size, 58)

    def test_eight_channels(self):
        self.rooms(EIGHT_CHANNELS, (27, 183, 1458, 49), (47, 553, 4418, 89), (93, 2163, 17298, 173))
        results = [search(*EIGHT_CHANNELS, needed(states_at(good(EIGHT_CHANNELS), m)), m) for m in EACH_M]
        self.assertEqual([result.size for result in results], [90, 214, 694])
        self.assertEqual([result.looked for result in results], [163, 443, 1369])

    def test_how_many_callers_part(self):
        self.assertEqual(verdicts(ONE_CALLER_MORE), (True, True, False))
        self.assertEqual(verdicts(TWO_CALLERS_MORE), (True, True, True))
        rng = random.Random(1)
        for levels, expected in ((1, (True, False, False)), (2, (True, True, False)), (3, (True, True, True))):
            for _ in range(5):
                self.assertEqual(verdicts(parted_by_callers(rng, levels)), expected)

    def test_fewer_states_than_at_0(self):
        self.assertEqual([states_at(good(BY_HAND["fewer-states-than-at-0"]), m) for m in EACH_M], [14, 6, 6])


class ByHandTest(unittest.TestCase):
    # items 2, 3 of rule 0; 4 to 6 S→A x; 7 to 9 S→y A; 10, 11 A→B; 12, 13 B→b
    TABLE = spelled("S: A x | y A", "A: B", "B: b")

    def test_chains(self):
        live = live_items(good(self.TABLE))
        self.assertEqual(chains_at(live, 1), [
            (2,), (3,), (4, 2), (5, 2), (6, 2), (7, 2), (8, 2), (9, 2),
            (10, 4), (10, 8), (11, 4), (11, 8), (12, 10), (13, 10)])
        self.assertEqual(chains_at(live, 2)[8:], [
            (10, 4, 2), (10, 8, 2), (11, 4, 2), (11, 8, 2),
            (12, 10, 4), (12, 10, 8), (13, 10, 4), (13, 10, 8)])

    def test_moves_at_1(self):
        automaton = automaton_at(good(self.TABLE), 1)
        self.assertEqual(automaton.openings[:3], (((0, 2),), (), ((1, 4), (2, 7))))
        self.assertEqual(automaton.openings[4], ((3, 10),))      # before A: A→·B called from there
        self.assertEqual(automaton.openings[8], ((3, 11),))
        self.assertEqual(automaton.openings[10], ((4, 14),))     # the farther caller is forgotten
        self.assertEqual(automaton.openings[11], ((4, 14),))
        self.assertEqual(automaton.closings[15], ((4, 12), (4, 13)))    # and filled in again
        self.assertEqual(automaton.closings[12], ((3, 5),))
        self.assertEqual(automaton.closings[13], ((3, 9),))
        self.assertEqual(automaton.closings[3], ((0, 1),))
        self.assertEqual(automaton.shifts[10], (START + 2, 12))
        self.assertEqual([state for state in range(automaton.states) if automaton.before_terminal[state]], [5, 7, 14])

    def test_moves_at_2(self):
        automaton = automaton_at(good(self.TABLE), 2)
        self.assertEqual(automaton.openings[10], ((4, 14),))
        self.assertEqual(automaton.openings[11], ((4, 15),))
        self.assertEqual(automaton.closings[16], ((4, 12),))
        self.assertEqual(automaton.closings[17], ((4, 13),))

    def test_a_farther_caller_is_none_where_rule_0_calls(self):
        table = spelled("S: a S b |")
        live = live_items(good(table))
        # items 4 to 7 S→a S b, 8 S→
        self.assertEqual(chains_at(live, 2)[2:5], [(4, 2), (4, 5, 2), (4, 5, 5)])
        automaton = automaton_at(good(table), 2)
        number = {chain: 2 + place for place, chain in enumerate(chains_at(live, 2))}
        self.assertEqual(automaton.closings[number[8, 2]], ((2, 3),))
        self.assertEqual(automaton.closings[number[8, 5, 2]], ((2, number[6, 2]),))
        self.assertEqual(automaton.closings[number[8, 5, 5]], ((2, number[6, 5, 2]), (2, number[6, 5, 5])))


class AutomatonTest(unittest.TestCase):
    def test_at_0_it_is_todays(self):
        rng = random.Random(2)
        for _ in range(150):
            table = live_small(rng)
            self.assertEqual(remembering(good(table), 0), automaton_of(good(table)))
        for table in dead_tables(rng, 10):
            self.assertEqual(automaton_at(good(table), 0), automaton_of(good(table)))

    def test_states_are_counted(self):
        for table, m in product(small_grammars(3, 150), (1, 2)):
            self.assertEqual(remembering(good(table), m).states, states_at(good(table), m))
            self.assertEqual(counted_states(good(table), m), states_at(good(table), m))
        for m, states in ((1, 871889), (2, 748078349)):
            self.assertEqual(states_at(good(most_chains()), m), states)

    def test_what_is_reached_at_m_is_reached_with_fewer_callers(self):
        for table in small_grammars(4, 120):
            live = live_items(good(table))
            for m in (1, 2):
                above, below = triples_in(table, m), triples_in(table, m - 1)
                fewer = {chain: 2 + place for place, chain in enumerate(chains_at(live, m - 1))}
                if m == 1:
                    fewer = {chain: chain[0] for chain in fewer}
                cut = [0, 1] + [fewer[chain[:m]] for chain in chains_at(live, m)]
                for index in reached(above):
                    layer, left, right = triple_at(above.states, index)
                    self.assertIn((layer * below.states + cut[left]) * below.states + cut[right], reached(below))

    def test_the_bound_of_looks(self):
        for table, m in product(small_grammars(5, 80), EACH_M):
            triples = triples_in(table, m)
            self.assertLessEqual(looked_at(triples), most_looked_at(triples.automaton))


class VerdictTest(unittest.TestCase):
    def test_unambiguous_stays_so(self):
        for table in small_grammars(6, 300) + alike_in_states(random.Random(6), 20):
            found = verdicts(table)
            self.assertEqual(list(found), sorted(found, reverse=True), table)

    def test_two_trees_are_never_unambiguous(self):
        several = 0
        for table in small_grammars(7, 300):
            t = table[0]
            rows = [row for size in range(4) for row in product(range(1, t + 1), repeat=size)]
            if any(tree_count(good(table), row) > 1 for row in rows):
                several += 1
                self.assertEqual(verdicts(table), (True, True, True), table)
        self.assertGreater(several, 20)

    def test_polish_notation(self):
        for places in (1, 2, 3):
            self.assertEqual(verdicts(polish(random.Random(8), places)), (False, False, False))


class RefusalTest(unittest.TestCase):
    def everywhere(self, table, m, refusal):
        """Every entry that takes m refuses alike, whatever else is wrong."""
        expected = Refusal(*refusal)
        self.assertEqual(room_of(*table, m), expected)
        self.assertEqual(search(*table, NOTHING, m), expected)
        for certificate in (b"", b"\xff" * 9):
            self.assertEqual(check_certificate(*table, certificate, m), expected)
        for row in ((), (0,)):
            self.assertEqual(check_witness(*table, row, m), expected)
        self.assertEqual(check_records(*table, ((2, 0, 0),), m), expected)

    def test_21(self):
        for m in TOO_LARGE:
            self.everywhere(ONE_A, m, (21, 0))
            self.everywhere(most_chains(), m, (21, 0))
            self.everywhere(ENDLESS, m, (19, 0))
            self.everywhere(NO_RULES, m, (19, 0))
            self.everywhere((0, 1, ONE_A[2]), m, (5, 2))

    def test_too_many_chains(self):
        for m in (1, 2):
            self.everywhere(most_chains(), m, (8, 0))
        self.assertEqual(room_of(*most_chains(), 0).states, 1019)
        rng = random.Random(9)
        for states in (MAX_STATES, MAX_STATES + 1):
            for table, m in edge_pairs(rng, states, 2):
                if states > MAX_STATES:
                    self.everywhere(table, m, (8, 0))
                else:
                    self.assertEqual(room_of(*table, m).states, states)
        for table, m in wrapped_round(rng, 2):
            self.everywhere(table, m, (8, 0))

    def test_the_tables_own_8(self):
        table = 79, 1, encode([(START, (1 + i, *(START,) * 11)) for i in range(79)])
        for m in (0, 1, 2, 3):
            self.everywhere(table, m, (8, 78 * 14))

    def test_then_9_to_15(self):
        right = certificate_of(19, reached(triples_in(BIOLOGY, 1)))
        self.assertIsNone(check_certificate(*BIOLOGY, right, 1))
        self.assertIsNone(check_certificate(*BIOLOGY, right, 2))
        self.assertEqual(check_certificate(*BIOLOGY, right, 0), Refusal(9, 0))
        self.assertEqual(check_certificate(*BIOLOGY, right[:-1], 1), Refusal(9, 0))
        self.assertEqual(check_certificate(*BIOLOGY, b"\1" + bytes(90), 1), Refusal(13, 0))
        self.assertEqual(search(*BIOLOGY, needed(17), 1), Refusal(14, 0))
        witness = search(*BIOLOGY, needed(17), 0).witness
        self.assertIsNone(check_witness(*BIOLOGY, witness, 0))
        self.assertEqual(check_witness(*BIOLOGY, witness, 1).cause, 15)

    def test_certificates_of_another_m(self):
        # all rules live, each nonterminal in one place: one automaton at each m
        table = spelled("S: a A | b", "A: c")
        right = certificate_of(states_of(table), reached(triples_in(table)))
        for m in EACH_M:
            self.assertIsNone(check_certificate(*table, right, m))
        # U→a, S→a A b, S→c A d, A→b: U→a is dead, Q is 16 at each m, but other states
        S, A, U = START, START + 1, START + 2
        table = 4, 3, encode([(U, (1,)), (S, (1, A, 2)), (S, (3, A, 4)), (A, (2,))])
        self.assertEqual([states_at(good(table), m) for m in EACH_M], [16, 16, 16])
        certificates = [certificate_of(16, reached(triples_in(table, m))) for m in EACH_M]
        self.assertEqual(check_certificate(*table, certificates[0], 1).cause, 13)
        self.assertEqual(check_certificate(*table, certificates[1], 0).cause, 13)
        self.assertIsNone(check_certificate(*table, certificates[1], 2))


class MisreadingTest(unittest.TestCase):
    TELLING = {
        "a-closing-drops-all-callers": ("biology", 1),
        "a-closing-drops-farther-callers": ("unambiguous-at-2-alone", 2),
        "a-farther-caller-is-not-filled-in": ("rule-0-alone-calls", 1),
        "a-dead-rule-is-in-a-chain": ("dead-rule-that-calls", 1),
        "dead-items-keep-their-states": ("fewer-states-than-at-0", 1),
        "callers-are-ordered-from-the-farthest": ("recursion-in-the-middle", 2),
        "callers-are-ordered-before-items": ("eight-channels", 1),
        "one-caller-is-taken-for-two": ("unambiguous-at-2-alone", 1),
    }

    def test_each_is_told(self):
        self.assertEqual(set(self.TELLING), set(MISREAD))
        for name, (grammar, m) in self.TELLING.items():
            self.assertIn(name, told(good(BY_HAND[grammar]), m))

    def test_each_refusal_is_told(self):
        past = 79, 1, encode([(START, (1 + i, *(START,) * 11)) for i in range(79)])
        telling = {
            "21-before-19": (ENDLESS, 3),
            "too-many-chains-at-a-rule": (most_chains(), 1),
            "the-tables-own-8-at-0": (past, 1),
            "too-many-chains-before-21": (most_chains(), 3),
            "m-cut-to-32-bits": (ONE_A, 2 ** 32),
        }
        self.assertEqual(set(telling), set(REFUSALS))
        for name, (table, m) in telling.items():
            self.assertIn(name, told_by_refusal(*table, m))


if __name__ == "__main__":
    unittest.main()
