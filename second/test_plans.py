"""Tests of the eight-channel commands: every sentence of document 02's [14] by hand, and against other ways."""

import random
import unittest
from itertools import product

from callers import states_at
from case_grammars import EIGHT_CHANNELS, good
from certificates import check_certificate
from looked import most_looked_at
from plan_inputs import any_row, changed, followed, is_length, sentence, sentences
from plans import (
    AFTER_A_CHANNEL, A_CHANNEL, A_NUM, CERTIFICATE_BYTES, INSIDE, NONE, OUTSIDE, PLAN, RULES, STATES, TABLE, TERMINALS,
    WORDS, WORK_ENTRIES, Lent, Reply, certificate, certificate_byte, plan_of, read_plan, rows_after, row_fault, stopped_at,
)
from rooms import room_of
from searches import needed, search
from sentence_trees import NONE as NO_TREE
from sentence_trees import ONE, find_trees, trees_of, trees_room
from sentence_trees import Lent as TreesLent
from tables import START, Grammar, Refusal, check_table
from tree_inputs import held_before
from trees import tree_count
from triples import held_indices, triples_of
from ways import largest_set

PLENTY = Lent(WORK_ENTRIES, 64)

# The certificate, 16 bytes a line but for the last.
HEX = """
    350000000000400d0000902202500340
    801a0002204524001000004811090010
    00050001400010008014910000105000
    000104001000481109000010000c0001
    80221200000001001150000000014004
    14004400010000100000000100000010
    11000000000000000000000000000000
    00000000000004000000000000000000
    00000040000000000000000000000000
    00040000000000000000000000000000
    00000000000000000000000000000000
    00000000000000"""


def row_of(words):
    """"take ch vol" as codes."""
    return tuple(1 + WORDS.index(word) for word in words.split())


class CommandsTest(unittest.TestCase):
    def test_codes(self):
        """"Codes run from 1 for take, vol, give, repeat, num, close, ch, sep, and from 32,768 for P, K, L."."""
        self.assertEqual(row_of("take vol give repeat num close ch sep"), (1, 2, 3, 4, 5, 6, 7, 8))
        self.assertEqual(tuple(TERMINALS), (1, 2, 3, 4, 5, 6, 7, 8))
        self.assertEqual(TABLE[:2], (8, 3))

    def test_rules(self):
        """"These seven rules, in that order, give 27 states."."""
        self.assertEqual(len(RULES), 7)
        self.assertEqual(TABLE[2], (
            32768, 0,                           # P → empty
            32768, 2, 32768, 32769,             # P → P K
            32769, 3, 1, 32770, 2,              # K → take L vol
            32769, 3, 3, 32770, 2,              # K → give L vol
            32769, 4, 4, 5, 32768, 6,           # K → repeat num P close
            32770, 1, 7,                        # L → ch
            32770, 3, 32770, 8, 7))             # L → L sep ch
        self.assertEqual(len(TABLE[2]), 30)
        self.assertEqual(STATES, 27)
        grammar = check_table(*TABLE)
        self.assertIsInstance(grammar, Grammar)
        self.assertEqual(grammar.states, 27)
        self.assertEqual(TABLE, EIGHT_CHANNELS)

    def test_room(self):
        self.assertEqual(WORK_ENTRIES, 114075)
        self.assertEqual(trees_room(*TABLE), 114075)


class PlanTest(unittest.TestCase):
    def plan(self, words, *rules):
        self.assertEqual(plan_of(row_of(words)), rules)
        self.assertIsNone(stopped_at(row_of(words)))

    def test_p(self):
        """"P is empty, or P K."."""
        self.plan("", 1)
        self.plan("take ch vol", 2, 1, 3, 6)
        self.plan("take ch vol give ch vol", 2, 2, 1, 3, 6, 4, 6)
        self.plan("give ch vol take ch vol give ch vol", 2, 2, 2, 1, 4, 6, 3, 6, 4, 6)

    def test_k(self):
        """"K is take L vol, give L vol, or repeat num P close."."""
        self.plan("give ch vol", 2, 1, 4, 6)
        self.plan("repeat num close", 2, 1, 5, 1)
        self.plan("repeat num take ch vol close", 2, 1, 5, 2, 1, 3, 6)
        self.plan("repeat num repeat num close close", 2, 1, 5, 2, 1, 5, 1)
        self.plan("repeat num close repeat num close", 2, 2, 1, 5, 1, 5, 1)
        self.plan("repeat num take ch vol give ch vol close take ch vol",
                  2, 2, 1, 5, 2, 2, 1, 3, 6, 4, 6, 3, 6)

    def test_l(self):
        """"L is ch, or L sep ch."."""
        self.plan("take ch sep ch vol", 2, 1, 3, 7, 6)
        self.plan("give ch sep ch sep ch vol", 2, 1, 4, 7, 7, 6)
        self.plan("take ch sep ch vol repeat num give ch vol close", 2, 2, 1, 3, 7, 6, 5, 2, 1, 4, 6)
        self.plan("take" + " ch sep" * 8 + " ch vol", 2, 1, 3, *(7,) * 8, 6)       # nine channels

    def test_none(self):
        for words in (
                "take", "vol", "take ch", "take vol", "ch", "take ch vol vol", "take ch sep vol", "take sep ch vol",
                "take ch ch vol", "take give ch vol", "repeat num", "repeat close", "repeat num num close",
                "repeat num close close", "close", "num", "take ch vol close", "repeat take ch vol close",
                "repeat num take ch close vol", "sep", "take ch sep ch sep vol", "repeat num vol close"):
            self.assertIsNone(plan_of(row_of(words)), words)

    def test_up_to_64(self):
        """"A row of up to 64 terminals is read to its rule list"."""
        self.plan("take ch vol " * 21, *(2,) * 21, 1, *(3, 6) * 21)
        self.plan("repeat num " * 21 + "close " * 21, *(2, 1, 5) * 21, 1)
        self.plan("give" + " ch sep" * 30 + " ch vol", 2, 1, 4, *(7,) * 30, 6)
        self.plan("take ch sep ch vol " * 2 + "give ch vol " * 18, *(2,) * 20, 1, *(3, 7, 6) * 2, *(4, 6) * 18)

    def test_most_rules(self):
        """A command has three rules and three terminals, a channel more one rule and two terminals: at most 64 rules."""
        rng = random.Random(1)
        for _ in range(2000):
            row = sentence(rng, rng.choice([0, 3, *range(5, 65)]))
            commands, more = sum(code in (1, 3, 4) for code in row), row.count(8)
            self.assertEqual(len(plan_of(row)), 1 + 3 * commands + more)
            self.assertEqual(len(row), 3 * commands + 2 * more)
            self.assertLessEqual(len(plan_of(row)), 64)
        self.assertEqual(len(plan_of((1, 7, 2) * 21)), 64)


class StoppedTest(unittest.TestCase):
    def stopped(self, words, place, wanted):
        found = stopped_at(row_of(words))
        self.assertEqual((found.place, found.wanted), (place, wanted))
        self.assertIsNone(plan_of(row_of(words)))

    def test_by_hand(self):
        self.stopped("vol", 0, OUTSIDE)
        self.stopped("take ch vol close", 3, OUTSIDE)
        self.stopped("take ch vol num take", 3, OUTSIDE)
        self.stopped("repeat num", 2, INSIDE)
        self.stopped("repeat num ch close", 2, INSIDE)
        self.stopped("repeat num take ch vol", 5, INSIDE)
        self.stopped("repeat", 1, A_NUM)
        self.stopped("repeat repeat num", 1, A_NUM)
        self.stopped("take", 1, A_CHANNEL)
        self.stopped("give ch sep sep", 3, A_CHANNEL)
        self.stopped("give ch", 2, AFTER_A_CHANNEL)
        self.stopped("give ch ch vol", 2, AFTER_A_CHANNEL)

    def test_it_is_the_longest_front(self):
        """Up to its place some sentence begins with the row, with the terminal there none does."""
        fronts = {row[:end] for row in sentences(12) for end in range(len(row) + 1)}
        for length in range(6):
            for row in product(TERMINALS, repeat=length):
                found = stopped_at(row)
                end = length if found is None else found.place
                self.assertIn(row[:end], fronts)
                if end < length:
                    self.assertNotIn(row[:end + 1], fronts)


def written_out(longest):
    """By row of up to so many terminals the lists of its trees, expanded from the rules."""
    least = {32768: 0, 32769: 3, 32770: 1}
    found, waiting = {}, [((START,), ())]
    while waiting:
        row, rules = waiting.pop()
        place = next((place for place, code in enumerate(row) if code >= START), None)
        if place is None:
            found.setdefault(row, []).append(rules)
            continue
        for number, (left, right) in enumerate(RULES, 1):
            if left == row[place]:
                longer = row[:place] + right + row[place + 1:]
                if sum(least.get(code, 1) for code in longer) <= longest:
                    waiting.append((longer, rules + (number,)))
    return found


class OtherWaysTest(unittest.TestCase):
    def test_all_rows(self):
        """All rows of up to six terminals, against trees written out by the rules."""
        found, tally = written_out(6), 0
        for length in range(7):
            for row in product(TERMINALS, repeat=length):
                rules = plan_of(row)
                self.assertEqual([rules] if rules is not None else [], found.get(row, []))
                tally += rules is not None
        self.assertEqual((tally, len(found)), (18, 18))

    def test_all_sentences(self):
        """Each sentence of up to twelve terminals has one tree, and is made by the cases."""
        found = written_out(12)
        self.assertEqual(sorted(found), sorted(sentences(12)))
        self.assertEqual([sum(len(row) == length for row in found) for length in range(13)],
                         [1, 0, 0, 3, 0, 2, 12, 2, 14, 59, 18, 94, 322])
        for row, lists in found.items():
            self.assertEqual([plan_of(row)], lists)

    def compare(self, row):
        """Against the program for any table, and trees counted by depth."""
        answer, tree, size = trees_of(good(TABLE), row)
        rules = plan_of(row)
        if rules is None:
            self.assertEqual(answer, NO_TREE)
        else:
            self.assertEqual((answer, tree.rules(), size), (ONE, rules, len(rules)))
        if len(row) <= 12:
            self.assertEqual(tree_count(good(TABLE), row), rules is not None)
        return rules is not None

    def test_the_part_for_single_sentences(self):
        """"by the part for single sentences"; "several is proved never to be the answer"."""
        for length in range(4):
            for row in product(TERMINALS, repeat=length):
                self.compare(row)
        rng, tally = random.Random(2), [0, 0]
        for place in range(2500):
            row = sentence(rng, rng.choice([0, 3, *range(5, 65)]))
            for other in (row, changed(rng, row)[:64], followed(rng, rng.randrange(1, 65)), any_row(rng, rng.randrange(9))):
                if place % 5 == 0 or len(other) < 12:
                    tally[self.compare(other)] += 1
        self.assertGreater(min(tally), 500, tally)

    def test_sentences(self):
        rng = random.Random(3)
        for length in range(90):
            if is_length(length):
                for _ in range(20):
                    row = sentence(rng, length)
                    self.assertEqual(len(row), length)
                    self.assertIsNotNone(plan_of(row))
        self.assertFalse(any(len(row) in (1, 2, 4) for row in sentences(12)))


class ReplyTest(unittest.TestCase):
    def reply(self, row, lent, *expected):
        self.assertEqual(read_plan(row, lent), Reply(*expected))
        trees = find_trees(*TABLE, row, TreesLent(*lent))
        answer = PLAN if trees.answer == ONE else trees.answer
        self.assertEqual((answer, trees.rules, trees.cleared), Reply(*expected))

    def test_answers(self):
        self.reply((), Lent(114075, 1), PLAN, (1,), 114075)
        self.reply((1, 7, 2), Lent(114075, 4), PLAN, (2, 1, 3, 6), 114075)
        self.reply((1, 7, 2), Lent(120000, 99), PLAN, (2, 1, 3, 6), 114075)
        self.reply((1, 7), Lent(114075, 0), NONE, (), 114075)
        self.reply((1,) * 64, Lent(114076, 3), NONE, (), 114075)
        self.reply((1, 7, 2) * 21, Lent(114075, 64), PLAN, (2,) * 21 + (1,) + (3, 6) * 21, 114075)

    def test_14(self):
        for length in (0, 1, 3):
            self.reply((1, 7, 2), Lent(114075, length), Refusal(14, 0), (), 114075)      # the list
            self.reply((1, 7, 2), Lent(119999, length), Refusal(14, 0), (), 114075)
        self.reply((), Lent(114075, 0), Refusal(14, 0), (), 114075)
        self.reply((1, 7, 2) * 21, Lent(114075, 63), Refusal(14, 0), (), 114075)
        for row in ((), (1, 7, 2), (1, 7), (1,) * 64):
            for work in (0, 1, 114074):
                for length in (0, 9, 64):
                    self.reply(row, Lent(work, length), Refusal(14, 0))                 # the work row

    def test_22(self):
        for lent in (PLENTY, Lent(0, 0), Lent(114074, 99)):
            for code in (0, 9, 10, 255, 256, 257, 263, 32767, 32768, 32769, 32770, 32771, 65535):
                self.reply((code,), lent, Refusal(22, 0))
                for place in (1, 2, 30, 62, 63):
                    self.reply((1, 7, 2) * 21 + (1,), lent._replace(rules=0), *(
                        (NONE, (), 114075) if lent.work >= 114075 else (Refusal(14, 0),)))
                    row = ((1, 7, 2) * 22)[:64]
                    self.reply(row[:place] + (code,) + row[place + 1:], lent, Refusal(22, place))
                self.reply((1, 7, 2) * 21 + (1, code), lent, Refusal(22, 64))
                self.reply((1, 7, 2) * 22 + (code,), lent, Refusal(22, 64))
                self.reply((1, 7, code) * 22, lent, Refusal(22, 2))
            self.reply((1, 7, 2) * 22, lent, Refusal(22, 64))
            self.reply((1,) * 65, lent, Refusal(22, 64))
            self.reply((1,) * 65537, lent, Refusal(22, 64))
        self.assertIsNone(row_fault((8,) * 64))

    def test_no_other_refusal(self):
        """The table is never at fault."""
        rng = random.Random(4)
        for _ in range(3000):
            row = tuple(rng.choice([*range(10), 32768, 65535][:rng.choice((9, 12))]) for _ in range(rng.randrange(70)))
            answer = read_plan(row, Lent(rng.choice([0, 114074, 114075, 120000]), rng.randrange(70))).answer
            if isinstance(answer, Refusal):
                self.assertIn(answer.cause, (14, 22))

    def after(self, row, lent, fill=37):
        work, rules = (tuple(held_before(fill, place) for place in range(length)) for length in lent)
        return rows_after(read_plan(row, lent), work, rules), work, rules

    def test_rows_after(self):
        need = 114075
        for length in (4, 5, 9):
            (work, rules), old_work, old = self.after((1, 7, 2), Lent(need + 40, length))
            self.assertEqual((work, rules), ((0,) * need + old_work[need:], (2, 1, 3, 6) + old[4:]))
        for row, lent in (((1,), Lent(need + 3, 4)), ((1, 7, 2), Lent(need + 3, 3))):      # none; the second 14
            (work, rules), old_work, old = self.after(row, lent)
            self.assertEqual((work, rules), ((0,) * need + old_work[need:], old))
        for row, lent in (((1, 7, 2), Lent(need - 1, 5)), ((9,), Lent(need, 5)), ((1,) * 65, Lent(need, 5))):
            (work, rules), old_work, old = self.after(row, lent)
            self.assertEqual((work, rules), (old_work, old))


class CertificateTest(unittest.TestCase):
    """"The certificate of 183 bytes at m=0 is held as a constant table, and its closedness is shown"."""

    def test_bytes(self):
        self.assertEqual(CERTIFICATE_BYTES, 183)
        self.assertEqual(certificate(), bytes.fromhex("".join(HEX.split())))
        self.assertEqual([certificate_byte(place) for place in range(183)], list(certificate()))
        for place in (183, 184, 256, 439, 2 ** 16, 2 ** 32 + 6, 2 ** 64 - 1):
            self.assertEqual(certificate_byte(place), 0)

    def test_by_hand(self):
        """One side alone opens rule 0, then 1 or 2 of P: states 2, 4 and 5. State 0 closes and shifts nothing."""
        held = held_indices(certificate())
        for state in range(27):
            self.assertEqual((state in held, 27 * state in held), (state in (0, 2, 4, 5),) * 2)
            self.assertNotIn(27 + state, held)                                 # (0,1,q)
            self.assertNotIn(27 * 27 + state, held)                            # (1,0,q)
        self.assertEqual(certificate()[:8].hex(), "350000000000400d")          # (0,2,q): 54, 56, 58, 59
        self.assertNotIn(27 * 27 + 27 + 1, held)                               # (1,1,1)
        self.assertEqual(len(held), 90)

    def test_acceptable(self):
        self.assertIsNone(check_certificate(*TABLE, certificate()))
        self.assertEqual(check_certificate(*TABLE, certificate()[:-1]), Refusal(9, 0))
        for m in (1, 2):
            self.assertEqual(check_certificate(*TABLE, certificate(), m), Refusal(9, 0))

    def test_closed_and_smallest(self):
        """Every successor of each of the 90 triples is held, and without any of them it is refused."""
        triples, held = triples_of(good(TABLE)), held_indices(certificate())
        for index in held:
            self.assertLessEqual(set(triples.successors(index)), set(held))
            without = bytearray(certificate())
            without[index // 8] -= 1 << index % 8
            self.assertEqual(check_certificate(*TABLE, bytes(without)).cause, 13 if index else 11)
        self.assertLess(set(held), largest_set(triples))

    def test_figures(self):
        """Q, sizes, M and what the search looks at."""
        states, sizes = (27, 47, 93), (90, 214, 694)
        for m in range(3):
            self.assertEqual(states_at(good(TABLE), m), states[m])
            found = search(*TABLE, needed(states[m]), m)
            self.assertEqual(found.size, sizes[m])
            self.assertIsNone(check_certificate(*TABLE, found.certificate, m))
        self.assertEqual(room_of(*TABLE), (27, 183, 1458, 49))
        self.assertEqual(search(*TABLE, needed(27)).looked, 163)
        self.assertEqual(most_looked_at(triples_of(good(TABLE)).automaton), 49 * 49 + 2 * 27 * 49)


if __name__ == "__main__":
    unittest.main()
