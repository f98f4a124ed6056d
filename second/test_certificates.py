"""Tests of certificates.py: document 01's five cases, each refusal, both witness checks."""

import random
import unittest

from case_files import cases_of
from case_grammars import (
    CLASSICS, COURSE, CYCLE, ENDLESS, GOOD_ROWS, LEFT_LIST, NESTED, NO_RULES, ONE_A, ONE_A_BYTES,
    ROWS, good, grammar_of, spelled, triples_in,
)
from certificate_cases import closed_superset, flipped, former_smallest, had_another, smallest
from certificates import certificate_fault, check_certificate, check_records, check_witness
from dead_grammars import dead_tables
from live_misreadings import former_triples
from misreadings import NAMES, misread_indices
from sentence_grammars import nearly_sentenceless, sentenceless
from small_grammars import every_table
from tables import START, Refusal, codes_of, has_sentence
from triples import certificate_of, held_indices, is_potential, reached, triple_at
from ways import largest_set, shortest, way_to
from witness_cases import cut, extended, first_entries, wrong_entries

TWO_WAYS = ROWS[8]        # S→A; S→B; A→; B→, Q = 10


class CertificateTest(unittest.TestCase):
    def accepted(self, table, certificate):
        self.assertIsNone(check_certificate(*table, certificate))

    def refused(self, table, certificate, cause, position):
        self.assertEqual(check_certificate(*table, certificate), Refusal(cause, position))


class DocumentTest(CertificateTest):
    """Document 01's certificate of S→a and the cases after it."""

    def test_certificate_of_one_a(self):
        self.accepted(ONE_A, ONE_A_BYTES)

    def test_first_eight_bytes(self):
        self.refused(ONE_A, ONE_A_BYTES[:8], 9, 0)

    def test_all_zero(self):
        self.refused(ONE_A, bytes(9), 11, 0)

    def test_all_ones(self):
        self.refused(ONE_A, b"\xff" * 9, 12, 43)

    def test_only_bit_0(self):
        self.refused(ONE_A, b"\x01" + bytes(8), 13, 0)

    def test_bit_162_of_9_states(self):
        for table in (LEFT_LIST, NESTED):
            right = smallest(table)
            self.accepted(table, right)
            self.refused(table, flipped(right, 162), 10, 162)

    def test_smallest_sets_of_the_rows(self):
        for row in ROWS[1:5] + ROWS[9:]:
            self.accepted(row, smallest(row))
        for row in ROWS[6:9]:
            self.refused(row, smallest(row), 12, triples_in(row).last)


class FaultsTest(CertificateTest):
    def test_table_faults_come_first(self):
        for certificate in (b"", ONE_A_BYTES, b"\xff" * 9):
            self.refused((2001, 1, ONE_A[2]), certificate, 1, 0)
            self.refused((0, 1, ONE_A[2]), certificate, 5, 2)
            self.refused((1, 1, ONE_A[2] * 2), certificate, 6, 3)
            self.refused((1, 1, ONE_A[2] + (START,)), certificate, 2, 3)

    def test_9_too_long_and_empty(self):
        self.refused(ONE_A, ONE_A_BYTES + b"\0", 9, 0)
        self.refused(ONE_A, b"", 9, 0)
        self.refused(ROWS[1], b"", 9, 0)

    def test_10_gives_the_lowest_bit(self):
        right = smallest(ROWS[1])                      # Q = 5: bits 50 to 55 are spare
        self.refused(ROWS[1], flipped(right, 52, 55), 10, 52)
        self.refused(ROWS[1], flipped(right, 55), 10, 55)
        self.refused(ROWS[1], b"\xff" * 7, 10, 50)
        self.refused(ROWS[1], bytes(6) + b"\x80", 10, 55)

    def test_11_before_12_and_12_before_13(self):
        self.refused(ONE_A, flipped(bytes(9), 43), 11, 0)
        self.refused(ONE_A, flipped(bytes(9), 0, 43), 12, 43)

    def test_13_gives_the_holder(self):
        # (0,3,3), index 21, is the successor of (0,2,2), index 14, alone.
        self.refused(ONE_A, flipped(ONE_A_BYTES, 21), 13, 14)
        # (0,5,3), index 33, leads to (1,3,1), index 36+19, which is not held.
        self.refused(ONE_A, flipped(ONE_A_BYTES, 33), 13, 33)

    def test_13_gives_the_lowest_holder(self):
        # (0,2,2) follows (0,0,2), index 2, and (0,2,0), index 12.
        self.refused(ONE_A, flipped(ONE_A_BYTES, 14), 13, 2)
        self.refused(ONE_A, flipped(ONE_A_BYTES, 21, 35), 13, 14)

    def test_13_in_layer_1(self):
        # (1,5,1), index 67, closes to (1,3,1), index 55, and that to (1,1,1).
        self.refused(ONE_A, flipped(ONE_A_BYTES, 67), 13, 67)
        self.refused(ONE_A, flipped(ONE_A_BYTES, 55, 67), 13, 55)

    def test_larger_closed_sets_are_accepted(self):
        self.accepted(ONE_A, flipped(ONE_A_BYTES, 7))   # (0,1,1), no successors
        for row in ROWS[1:5]:
            triples = triples_in(row)
            self.accepted(row, certificate_of(triples.states, largest_set(triples)))

    def test_nothing_is_accepted_for_a_potential_grammar(self):
        triples = triples_in(CYCLE)
        without = reached(triples) - {triples.last}
        fault = check_certificate(*CYCLE, certificate_of(triples.states, without))
        self.assertEqual(fault.cause, 13)
        self.assertIn(triples.last, triples.successors(fault.position))


class LiveTest(CertificateTest):
    """Document 02, [3]."""

    def test_the_course(self):
        # Q = 10: (0,0,0) (0,0,2) (0,0,4) (0,2,0) and so on, those of S→a
        held = [0, 2, 4, 20, 22, 24, 33, 40, 42, 44, 55]
        self.accepted(COURSE, certificate_of(10, held))
        self.assertEqual(smallest(COURSE), certificate_of(10, held))

    def test_items_of_dead_rules_need_no_successors(self):
        # 4 and 5 S→a, 6 to 8 S→a W, 9 and 10 W→W; Q = 11
        table = spelled("S: a | a W", "W: W")
        right = smallest(table)
        for triple in ((0, 6, 6), (0, 5, 6), (0, 6, 5), (1, 9, 9), (0, 8, 6)):
            layer, left, p = triple
            self.accepted(table, flipped(right, (layer * 11 + left) * 11 + p))
        # (0,2,6) opens rule 1 on its left: (0,4,6); (1,5,6) closes it: (1,3,6), (1,1,6).
        self.refused(table, flipped(right, 2 * 11 + 6), 13, 28)
        self.accepted(table, flipped(right, 2 * 11 + 6, 4 * 11 + 6))
        self.refused(table, flipped(right, 121 + 61), 13, 182)
        self.accepted(table, flipped(right, 121 + 61, 121 + 39, 121 + 17))


class SentenceTest(CertificateTest):
    """Document 02, [4]: "and so does any certificate accepted for such a grammar before"."""

    def test_whatever_the_certificate_is(self):
        rng = random.Random(3)
        for table in sentenceless(rng, 10):
            right, former = smallest(table), former_smallest(table)
            self.assertEqual(held_indices(right), [0])
            for certificate in (right, former, b"", right[:-1], right + b"\0", bytes(len(right)),
                                b"\xff" * len(right), flipped(right, triples_in(table).last)):
                self.refused(table, certificate, 19, 0)

    def test_those_accepted_before(self):
        """By document 01's automaton, and by that of live rules."""
        rng = random.Random(4)
        formerly = 0
        for table in sentenceless(rng, 10):
            triples, former = triples_in(table), former_triples(grammar_of(table))
            self.assertIsNone(certificate_fault(triples, smallest(table)))
            self.refused(table, smallest(table), 19, 0)
            if not is_potential(former):
                formerly += 1
                self.assertIsNone(certificate_fault(former, former_smallest(table)))
                self.refused(table, former_smallest(table), 19, 0)
        self.assertGreater(formerly, 40)

    def test_every_certificate_without_rules(self):
        """Q = 4: every set of triples of layer 0 with (0,0,0) in it."""
        for bits in range(1, 1 << 16, 64):
            self.refused(NO_RULES, bits.to_bytes(4, "little"), 19, 0)

    def test_nearly_without_a_sentence(self):
        for table in nearly_sentenceless(random.Random(5), 10):
            fault = check_certificate(*table, smallest(table))
            potential = is_potential(triples_in(table))
            self.assertEqual(fault is not None and fault.cause, 12 if potential else False)

    def test_witnesses(self):
        # What was the shortest witness of S→S, and its front.
        for entries in ([0, 2, 4, 16, 23, 45, 43], [0, 12], [0], []):
            records = [tuple(triple_at(6, entry)) for entry in entries]
            self.assertEqual(check_witness(*ENDLESS, entries), Refusal(19, 0))
            self.assertEqual(check_records(*ENDLESS, records), Refusal(19, 0))


class FormerTest(CertificateTest):
    """"Certificates accepted so far are still accepted", where there is a sentence."""

    def test_smallest_and_larger_ones(self):
        rng = random.Random(1)
        for table in dead_tables(rng, 30, had_another):
            former = former_triples(good(table))
            self.assertNotEqual(former_smallest(table), smallest(table))
            self.accepted(table, former_smallest(table))
            self.accepted(table, certificate_of(former.states, largest_set(former)))
            for adding in (1, 2, 5, 20):
                self.accepted(table, closed_superset(rng, former, adding))

    def test_random_sets(self):
        rng = random.Random(2)
        formerly = now = 0
        for table in list(every_table(1, 2, 9))[::5] + list(dead_tables(rng, 10)):
            if not has_sentence(codes_of(grammar_of(table))):
                continue
            triples, former = triples_in(table), former_triples(good(table))
            for _ in range(12):
                base = rng.choice([smallest(table), former_smallest(table)])
                held = [rng.randrange(triples.count) for _ in range(rng.randrange(3))]
                certificate = flipped(base, *set(held) - {triples.last})
                now += certificate_fault(triples, certificate) is None
                if certificate_fault(former, certificate) is None:
                    formerly += 1
                    self.accepted(table, certificate)
        self.assertGreater(formerly, 150)
        self.assertGreater(now, formerly + 150)

    def test_accepted_for_what_was_potential(self):
        self.assertTrue(is_potential(former_triples(good(COURSE))))
        self.accepted(COURSE, smallest(COURSE))
        self.refused(COURSE, former_smallest(COURSE), 12, triples_in(COURSE).last)


class WitnessTest(unittest.TestCase):
    def both(self, table, entries):
        """The answer of both witness checks, which must be the same."""
        answer = check_witness(*table, entries)
        states = triples_in(table).states
        records = [tuple(triple_at(states, entry)) for entry in entries]
        self.assertEqual(check_records(*table, records), answer)
        return answer

    def accepted(self, table, entries):
        self.assertIsNone(self.both(table, entries))

    def refused(self, table, entries, position):
        self.assertEqual(self.both(table, entries), Refusal(15, position))

    # S→A; S→B; A→; B→: 4 to 7 are S→·A, S→A·, S→·B, S→B·; 8 is A→·, 9 is B→·.
    # (0,0,0) (0,0,2) (0,0,6) (0,0,9) (0,2,9) (0,4,9) (0,8,9)
    # (1,5,7) (1,3,7) (1,1,7) (1,1,3) (1,1,1)
    WAY = [0, 2, 6, 9, 29, 49, 89, 157, 137, 117, 113, 111]

    def test_accepted(self):
        self.accepted(TWO_WAYS, self.WAY)
        self.assertEqual(len(shortest(triples_in(TWO_WAYS))), len(self.WAY))
        for row in ROWS[6:9]:
            self.accepted(row, shortest(triples_in(row)))

    def test_only_the_end_fails(self):
        for end in range(len(self.WAY)):
            self.refused(TWO_WAYS, self.WAY[:end], end)

    def test_first_entry(self):
        for first in (1, 2, 100, 111, 200, 2 ** 32 - 1):
            self.refused(TWO_WAYS, [first] + self.WAY[1:], 0)
        self.refused(TWO_WAYS, [111], 0)

    def test_a_wrong_entry_at_each_place(self):
        for place in range(len(self.WAY)):
            for entry in (1, 199, 200, 2 ** 32 - 1):
                entries = self.WAY[:place] + [entry] + self.WAY[place + 1:]
                self.refused(TWO_WAYS, entries, place)

    def test_past_the_end(self):
        for entry in (0, 111, 200):
            self.refused(TWO_WAYS, self.WAY + [entry], len(self.WAY))
        self.refused(TWO_WAYS, self.WAY + [0, 0, 0], len(self.WAY))

    def test_a_missing_entry(self):
        self.refused(TWO_WAYS, self.WAY[1:], 0)
        self.refused(TWO_WAYS, self.WAY[:6] + self.WAY[7:], 6)

    def test_a_parting_must_move_both_closings(self):
        # (1,5,9) and (1,8,7): one closes and the other, at its end too, stays.
        self.refused(TWO_WAYS, self.WAY[:7] + [159] + self.WAY[8:], 7)
        self.refused(TWO_WAYS, self.WAY[:7] + [187] + self.WAY[8:], 7)

    def test_repeated_triples(self):
        # S→S; S→a, 4 and 5 S→·S, S→S·: (0,2,4), index 20, opens to itself and
        # (1,1,5), index 77, closes to itself; (0,0,2), index 2, does not.
        self.accepted(CYCLE, [0, 2, 18, 20, 29, 75, 73])
        self.accepted(CYCLE, [0, 2, 18, 20, 20, 20, 29, 77, 77, 75, 73])
        self.refused(CYCLE, [0, 2, 2, 18, 20, 29, 75, 73], 2)
        self.refused(CYCLE, [0, 2, 18, 20, 29, 75, 75, 73], 6)

    def test_unambiguous(self):
        self.refused(ONE_A, [], 0)
        self.refused(ONE_A, [0], 1)
        self.refused(ONE_A, [0, 2, 14, 21], 4)
        self.refused(ONE_A, [0, 2, 14, 21, 43], 4)

    def test_steps_to_items_of_dead_rules(self):
        # Q = 10: S→A is 6 and 7; (0,2,2), index 22, to (0,2,6) and (0,6,2).
        self.refused(COURSE, [0, 2, 22, 26], 3)
        self.refused(COURSE, [0, 2, 22, 62], 3)
        self.refused(COURSE, [0, 2, 6], 2)
        former = former_triples(good(COURSE))
        way = shortest(former)
        self.assertEqual(way, way_to(former, former.last))
        self.assertEqual(check_witness(*COURSE, way).cause, 15)

    def test_table_faults_come_first(self):
        for entries in ([], [0], self.WAY):
            records = [(0, 0, entry) for entry in entries]
            for table, refusal in (((1, 1, (START,)), Refusal(2, 0)),
                                   ((1, 0, ()), Refusal(1, 0)),
                                   ((0, 1, (START, 0, START, 0)), Refusal(6, 2))):
                self.assertEqual(check_witness(*table, entries), refusal)
                self.assertEqual(check_records(*table, records), refusal)

    def test_records_out_of_range(self):
        way = [tuple(triple_at(10, entry)) for entry in self.WAY]
        self.assertIsNone(check_records(*TWO_WAYS, way))
        for record in ((2, 0, 2), (0, 10, 0), (0, 0, 10), (0, 0, 12), (256, 0, 2),
                       (0, 256, 2), (2 ** 32 - 1,) * 3):
            for place in (0, 1, 5):
                records = way[:place] + [record] + way[place + 1:]
                self.assertEqual(check_records(*TWO_WAYS, records), Refusal(15, place))

    def test_a_record_whose_index_would_be_right(self):
        # (0,0,10) has index 10, as (0,1,0); (0,1,10) has that of (0,2,0).
        way = [tuple(triple_at(10, entry)) for entry in [0, 20]]
        self.assertEqual(check_records(*TWO_WAYS, way), Refusal(15, 2))
        way[1] = (0, 1, 10)
        self.assertEqual(check_records(*TWO_WAYS, way), Refusal(15, 1))

    def test_records_answer_alike(self):
        for case in cases_of([cut, extended, wrong_entries, first_entries]):
            self.both(case[:3], case.entries)


class MisreadingsTest(unittest.TestCase):
    """Document 01, "Misreadings of the method", as wrong entries."""

    def refused(self, lines, entries, position):
        table = spelled(*lines)
        self.assertEqual(check_witness(*table, entries), Refusal(15, position))

    def test_equal_closings_that_return_to_different_items(self):
        # S→a S | b S |: Q = 11; (0,10,10) to (1,6,9), the ends of rules 1 and 2.
        self.refused(["S: a S | b S |"], [0, 2, 24, 32, 120, 121 + 66 + 9], 5)

    def test_layer_1_without_the_closing_move(self):
        # S→S; S→a: (0,5,3), index 43, closes 1 and 0; (1,5,3) has not moved.
        self.refused(["S: S | a"], [0, 2, 18, 34, 43, 64 + 43], 5)

    def test_an_opening_is_no_parting(self):
        # S→S a | a: Q = 9; (0,2,2), index 20, to (1,2,4), not to (0,2,4).
        self.refused(["S: S a | a"], [0, 2, 20, 81 + 22], 3)

    def test_what_follows_in_a_misreading_does_not_follow(self):
        found = set()
        for table in GOOD_ROWS + list(CLASSICS.values()):
            triples = triples_in(table)
            for index in sorted(reached(triples)):
                wrong = misread_indices(triples, index)
                self.assertFalse(set(wrong) & set(triples.successors(index)))
                self.assertLess(max(wrong, default=0), triples.count)
                found.update(wrong.values())
        self.assertEqual(found, set(NAMES))


if __name__ == "__main__":
    unittest.main()
