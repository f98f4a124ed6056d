"""Tests of the certificate cases: their bytes, the lines, the sorting by reasons."""

import unittest

from case_files import Rng, cases_of
from case_grammars import COURSE, CYCLE, ENDLESS, NO_RULES, ONE_A, ROWS, spelled, triples_in
from certificate_cases import (
    KIND, Case, answer, branching, closed_superset, end_pairs, ends_of, flipped, former,
    former_smallest, kept_apart, smallest,
)
from certificate_reasons import REASONS, reasons_of
from certificates import check_certificate
from file_tests import M, M_BYTES, TABLE, TABLE_BYTES, FileTests, without_sentences
from random_tables import S
from triples import certificate_of, closure, held_indices, reached
from ways import largest_set

EMPTY = ROWS[1]           # S→, Q = 5: bits 50 to 55 are spare


class FileTest(FileTests, unittest.TestCase):
    KIND = KIND
    DIGEST = "eb9318e8e9976fe4cc51e1c8b122e8a0d4b8f007984a346519fd54f180688233"
    CASE = Case(*TABLE, b"\x15\x50\x21", M)
    BYTES = TABLE_BYTES + M_BYTES + b"\x03\0\0\0" + b"\x15\x50\x21"

    def test_answer_lines(self):
        right = smallest(ONE_A)
        self.assertEqual(answer(Case(*ONE_A, right)), "accepted")
        self.assertEqual(answer(Case(*ONE_A, right[:8])), "refused=9 at=0")
        self.assertEqual(answer(Case(*ONE_A, b"\xff" * 9)), "refused=12 at=43")
        self.assertEqual(answer(Case(0, 0, (), right)), "refused=1 at=0")
        for table in (NO_RULES, ENDLESS):
            for certificate in (smallest(table), former_smallest(table), b"", bytes(4), bytes(9)):
                self.assertEqual(answer(Case(*table, certificate)), "refused=19 at=0")


class SetsTest(unittest.TestCase):
    def test_flipped(self):
        self.assertEqual(flipped(b"\x01\x00", 0, 9), b"\x00\x02")

    def test_closed_supersets(self):
        triples = triples_in(ONE_A)
        for seed in range(30):
            certificate = closed_superset(Rng(seed), triples, 2)
            held = set(held_indices(certificate))
            self.assertLessEqual(reached(triples), held)
            self.assertLessEqual(held, largest_set(triples))
            self.assertTrue(all(set(triples.successors(index)) <= held for index in held))
        self.assertIsNone(closed_superset(Rng(0), triples_in(CYCLE), 2))

    def test_the_largest_set_lacks_what_leads_to_the_end(self):
        triples = triples_in(ONE_A)
        # Only closings lead to (1,1,1) from (1,1,3), (1,3,1), (1,1,5), (1,5,1).
        for index in (43, 45, 55, 47, 67):
            self.assertNotIn(index, largest_set(triples))
        self.assertIn(0, largest_set(triples))
        self.assertNotIn(0, largest_set(triples_in(CYCLE)))


class ReasonsTest(unittest.TestCase):
    def reasons(self, table, certificate, *names):
        found = reasons_of(*table, certificate)
        self.assertEqual(without_sentences(found), sorted(names))
        self.assertLessEqual(set(found), set(REASONS))

    def test_accepted(self):
        self.reasons(ONE_A, smallest(ONE_A), "accepted-smallest")
        self.reasons(ONE_A, flipped(smallest(ONE_A), 7), "accepted-larger")
        self.reasons(EMPTY, smallest(EMPTY), "accepted-smallest",
                     "accepted-with-spare-bits-there")
        triples = triples_in(ONE_A)
        self.reasons(ONE_A, certificate_of(6, largest_set(triples)), "accepted-larger",
                     "accepted-largest-possible")

    def test_table_faults(self):
        self.reasons((0, 1, ONE_A[2]), smallest(ONE_A), "5")
        self.reasons((0, 1, ONE_A[2]), b"", "5", "1-to-8-with-an-empty-certificate")

    def test_9(self):
        right = smallest(ONE_A)
        self.reasons(ONE_A, right[:8], "9-one-byte-short")
        self.reasons(ONE_A, b"", "9-empty", "9-shorter")
        self.reasons(ONE_A, right + b"\0", "9-one-byte-long", "9-though-its-front-is-right")
        self.reasons(ONE_A, bytes(18), "9-longer")

    def test_10_and_11_and_12(self):
        right = smallest(EMPTY)
        self.reasons(EMPTY, flipped(right, 50), "10-lowest-spare-bit")
        self.reasons(EMPTY, flipped(right, 51), "10-a-later-spare-bit")
        self.reasons(EMPTY, flipped(bytes(7), 55), "10-a-later-spare-bit",
                     "order-10-before-11")
        self.reasons(EMPTY, flipped(right, 31, 55), "10-a-later-spare-bit",
                     "order-10-before-12")
        self.reasons(ONE_A, flipped(bytes(9), 43), "11", "order-11-before-12")
        self.reasons(ONE_A, flipped(smallest(ONE_A), 43), "12")
        self.reasons(CYCLE, smallest(CYCLE), "12", "12-of-a-potential-grammar")

    def test_13(self):
        self.reasons(ONE_A, b"\x01" + bytes(8), "13-at-0",
                     "13-opening-or-shift-of-layer-0-missing",
                     "13-missing-index-above-its-holder")
        self.reasons(ONE_A, flipped(smallest(ONE_A), 33), "13-parting-missing",
                     "13-missing-index-above-its-holder")
        self.reasons(ONE_A, flipped(smallest(ONE_A), 67), "13-successor-in-layer-1-missing",
                     "13-missing-index-below-its-holder")
        self.reasons(ONE_A, flipped(smallest(ONE_A), 33, 67), "13-parting-missing",
                     "13-missing-index-above-its-holder", "13-lowest-of-several")

    def test_chequered_ends(self):
        """S→t S S for ten t: 13 at (1,1,3), whose right side closes rule 0 to (1,1,1)."""
        table = branching(10)
        triples = triples_in(table)
        half, states = triples.count // 2, triples.states
        self.assertEqual((states, [end for _, _, end in ends_of(table, False)]),
                         (46, [*range(7, 44, 4), 45]))
        pairs = end_pairs(table, [(S, S)], False, 0)
        self.assertEqual(pairs[:2], [7 * states + 7, 7 * states + 15])
        held = (reached(triples) | set(pairs) | set(range(half, triples.count))) - {triples.last}
        certificate = certificate_of(states, held)
        self.assertEqual(check_certificate(*table, certificate), (13, half + states + 3))
        self.assertIn("chequered-ends-13-in-layer-1", reasons_of(*table, certificate))
        # (1,6,7) follows (0,7,15), and no lower index: 6 and 7 are past the S of rule 1.
        less = flipped(certificate, half + 6 * states + 7)
        self.assertEqual(check_certificate(*table, less), (13, pairs[1]))
        self.assertIn("chequered-ends-13-at-such-a-pair", reasons_of(*table, less))

    def test_chequered_ends_that_are_accepted(self):
        """The ends of A and of B are never ends of one sentence."""
        table = kept_apart(5)
        triples = triples_in(table)
        pairs = end_pairs(table, [(S + 1, S + 2)], True, 0)
        self.assertEqual(len(pairs), 18)
        certificate = certificate_of(triples.states, closure(triples, pairs, reached(triples)))
        self.assertEqual(answer(Case(*table, certificate)), "accepted")
        self.assertIn("chequered-ends-accepted", reasons_of(*table, certificate))
        after = triples.successors(pairs[0])[-1]
        less = flipped(certificate, after)
        self.assertEqual(answer(Case(*table, less)), "refused=13 at=%d" % pairs[0])

    def test_dead_rules(self):
        taken = ["told-from-every-rule-is-taken", "told-from-unproductive-rules-are-taken"]
        self.reasons(COURSE, smallest(COURSE), "accepted-smallest", "dead-unproductive",
                     "accepted-though-formerly-refused", "accepted-though-formerly-potential",
                     "told-from-dead-items-are-entered", *taken)
        # (1,9,9) is A→A· on both sides.
        self.reasons(COURSE, flipped(smallest(COURSE), 199), "accepted-larger",
                     "dead-unproductive", "accepted-with-a-dead-item",
                     "accepted-though-formerly-refused", "accepted-though-formerly-potential",
                     "told-from-dead-items-are-entered", "told-from-dead-items-move", *taken)
        # (0,2,6) opens rule 1 on its left.
        self.reasons(COURSE, flipped(smallest(COURSE), 26), "13-with-a-dead-item",
                     "13-opening-or-shift-of-layer-0-missing", "dead-unproductive",
                     "13-missing-index-above-its-holder", "13-elsewhere-than-formerly",
                     "told-from-dead-items-are-entered", *taken)
        self.reasons(COURSE, former_smallest(COURSE), "12", "dead-unproductive")

    def test_former_certificates(self):
        unreachable = spelled("S: a S |", "U: S")
        self.reasons(unreachable, former_smallest(unreachable), "accepted-larger",
                     "dead-unreachable", "former-certificate-unreachable",
                     "accepted-and-formerly-too", "accepted-with-a-dead-item")

    def test_without_a_sentence(self):
        right = smallest(NO_RULES)
        self.assertEqual(held_indices(right), [0])
        self.reasons(NO_RULES, right, "19", "19-though-accepted-before", "order-19-before-13")
        self.reasons(NO_RULES, former_smallest(NO_RULES), "19", "19-though-accepted-before",
                     "19-though-accepted-by-document-01")
        self.reasons(ENDLESS, former_smallest(ENDLESS), "19", "order-19-before-12")
        self.reasons(NO_RULES, b"", "19", "order-19-before-9")
        self.reasons(NO_RULES, bytes(4), "19", "order-19-before-11")
        odd = spelled("S: S a")
        self.reasons(odd, flipped(smallest(odd), 98), "19", "order-19-before-10")

    def test_every_former_certificate_is_accepted(self):
        count = 0
        for case in cases_of([former]):
            if any(name.startswith("former-certificate-") for name in reasons_of(*case)):
                count += 1
                self.assertEqual(answer(case), "accepted")
        self.assertGreater(count, 200)


if __name__ == "__main__":
    unittest.main()
