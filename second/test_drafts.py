"""Tests of drafts.py: each sentence of [13] by hand, over plain values and over rows; every entry of a row."""

import random
import unittest
from array import array

from case_files import LAST
from case_grammars import EIGHT_CHANNELS, ENDLESS, NO_RULES, ONE_A, ROWS, faulty_tables
from draft_lists import Reading
from draft_steps import add, add_entries, back, mark, new, withdraw
from drafts import (
    ADD, BLOCK, CALLS, COUNTS, ENTRIES, MARK, MARKS, NEW, RETURN, STEPS, TABLE, WITHDRAW, Counted, Draft, Place, Reply,
    Step, added, block_of, block_place, call, changes, draft_in, history, new_draft, rules_in, states_of, table_of,
    taken, withdrawn, write,
)
from random_tables import A, S, a, b, large_grammar, random_rule, small_grammar
from tables import Refusal, check_rules, check_table

RULE_A, RULE_B, EMPTY, NEST = (S, (a,)), (S, (b,)), (S, ()), (S, (a, S, b))
NO_MARKS = (None,) * 8


def draft_of(*rules, t=2, n=1, **marks):
    """A draft with these rules and marks m1 to m8."""
    return Draft(t, n, rules, tuple(marks.get("m%d" % number) for number in range(1, 9)))


def rules_after(*steps, t=2, n=1, table=()):
    """The rules that a history gives from a new draft."""
    return history(new_draft(t, n, table), steps).rules


class NewTest(unittest.TestCase):
    """"A new draft begins from t, n and a table, perhaps without rules"."""

    def test_begins(self):
        self.assertEqual(new_draft(2, 1, (S, 1, a, S, 1, b)), draft_of(RULE_A, RULE_B))
        self.assertEqual(new_draft(0, 1, ()), draft_of(t=0))
        last = 34767, (2000, 34767)
        self.assertEqual(new_draft(2000, 2000, table_of([last])), draft_of(last, t=2000, n=2000))

    def test_marks_are_empty(self):
        """"Eight marks, 1 to 8, all empty in a new draft"."""
        draft = new_draft(*ONE_A)
        self.assertEqual(draft.marks, NO_MARKS)
        for number in range(1, 9):
            self.assertEqual(taken(draft, back(number)), Refusal(23, number))

    def test_table_order(self):
        """"A new draft's table [is] tried against the table order": 1, then 7, 2, 3, 4, 2, 5, 6, 8."""
        rule, bad = (S, 1, a), (A, 13, 0)
        for t, n in ((2001, 1), (1, 0), (1, 2001), (LAST, 1), (0, LAST), (2 ** 16, 1), (0, 2 ** 32 + 1)):
            self.assertEqual(new_draft(t, n, bad), Refusal(1, 0))
        self.assertEqual(new_draft(1, 1, rule + (A,)), Refusal(2, 3))
        self.assertEqual(new_draft(1, 1, rule + bad), Refusal(3, 3))
        self.assertEqual(new_draft(1, 1, rule + (S, 13)), Refusal(4, 3))
        self.assertEqual(new_draft(1, 1, rule + (S, 2, 9)), Refusal(2, 3))
        self.assertEqual(new_draft(1, 1, rule + (S, 3, a, 2, 0)), Refusal(5, 6))
        self.assertEqual(new_draft(1, 1, rule + (S, 0) + rule), Refusal(6, 5))
        many = table_of((S, (1 + place,)) for place in range(400))
        self.assertEqual(len(new_draft(400, 1, many).rules), 400)
        self.assertEqual(new_draft(400, 1, many + (0,)), Refusal(7, 1200))
        long = table_of((S, (1 + place,) * 12) for place in range(78))
        self.assertEqual(states_of(new_draft(99, 1, long).rules), 1018)
        self.assertEqual(states_of(new_draft(99, 1, long + (S, 5, a, a, a, a, a)).rules), 1024)
        self.assertEqual(new_draft(99, 1, long + (S, 6, a, a, a, a, a, a)), Refusal(8, 78 * 14))

    def test_lacks_sentences(self):
        """"except that a draft may lack sentences until it is checked": never 19."""
        for table in (NO_RULES, ENDLESS):
            self.assertEqual(check_table(*table), Refusal(19, 0))
            self.assertIsInstance(new_draft(*table), Draft)

    def test_as_the_table_check(self):
        for table in faulty_tables(random.Random(1), 6):
            self.assertEqual(new_draft(*table), check_rules(*table))
        for table in ROWS + [EIGHT_CHANNELS]:
            self.assertEqual(table_of(new_draft(*table).rules), table[2])


class EditTest(unittest.TestCase):
    def test_added_at_the_end(self):
        """"a rule is added at the end"."""
        draft = new_draft(2, 1, (S, 1, a))
        self.assertEqual(taken(draft, add(S, b)), draft_of(RULE_A, RULE_B))
        self.assertEqual(rules_after(add(S), add(S, a, S, b), add(S, a)), (EMPTY, NEST, RULE_A))

    def test_withdrawn_by_number(self):
        """"or withdrawn by number"; "A withdrawal moves later rules down by one number"."""
        draft = draft_of(RULE_A, RULE_B, EMPTY)
        self.assertEqual(taken(draft, withdraw(1)).rules, (RULE_B, EMPTY))
        self.assertEqual(taken(draft, withdraw(2)).rules, (RULE_A, EMPTY))
        self.assertEqual(taken(draft, withdraw(3)).rules, (RULE_A, RULE_B))
        self.assertEqual(history(draft, [withdraw(1), withdraw(1)]).rules, (EMPTY,))
        self.assertEqual(history(draft, [withdraw(1), withdraw(3)]).rules, (RULE_B, EMPTY))
        self.assertEqual(history(draft, [withdraw(1)] * 3).rules, ())

    def test_rule_number_not_present(self):
        """"a rule number not present is refused with 23, the number given being its position"."""
        for rules in ((), (RULE_A,), (RULE_A, RULE_B, EMPTY)):
            for number in (0, len(rules) + 1, 400, 401, 2 ** 16 + 1, 2 ** 32 + 1, 2 ** 63, LAST):
                self.assertEqual(taken(draft_of(*rules), withdraw(number)), Refusal(23, number))

    def test_withdrawn_can_be_added_again(self):
        self.assertEqual(rules_after(add(S, a), add(S, b), withdraw(1), add(S, a)), (RULE_B, RULE_A))

    def test_entries_past_the_last_code(self):
        """"Entries past an added rule's last code are not read"."""
        for behind in ((), (0,), (65535, 65535), (S, 1, a), (S, 13), (7,) * 900):
            self.assertEqual(taken(draft_of(), add_entries((S, 1, b) + behind)), draft_of(RULE_B))
        self.assertEqual(taken(draft_of(), add_entries((S, 0, S, 1, a))), draft_of(EMPTY))

    def test_added_rule_in_table_order(self):
        """"an added rule [is] tried against the table order, the added rule's offsets counted on from the end"."""
        for rules, end in (((), 0), ((EMPTY,), 2), ((NEST, RULE_A), 8)):
            draft = draft_of(*rules)
            for entries, cause, offset in [
                ((), 2, 0), ((S,), 2, 0), ((0,), 2, 0), ((S + 1, 0), 3, 0), ((a, 13), 3, 0), ((S - 1, 0), 3, 0),
                ((S, 13), 4, 0), ((S, 65535, a), 4, 0), ((S, 1), 2, 0), ((S, 12) + (a,) * 11, 2, 0), ((S, 2, 9), 2, 0),
                ((S, 1, 0), 5, 2), ((S, 1, 3), 5, 2), ((S, 3, a, S, S + 1), 5, 4),
                ((S, 12) + (b,) * 11 + (2001,), 5, 13),
            ]:
                self.assertEqual(taken(draft, add_entries(entries)), Refusal(cause, end + offset))
        self.assertEqual(taken(draft_of(RULE_A), add_entries((S, 1, a, 0))), Refusal(6, 3))
        self.assertEqual(taken(draft_of(RULE_A, NEST), add(S, a)), Refusal(6, 8))

    def test_most_rules(self):
        """A 401st rule is 7 before all else, "and 7 there with the most rules" for no entries."""
        table = table_of((S, (1 + place,)) for place in range(400))
        draft = new_draft(400, 1, table)
        for entries in ((), (0,), (S, 1, 7), (A, 13), (S, 0), (S, 3, 0)):
            self.assertEqual(taken(draft, add_entries(entries)), Refusal(7, 1200))
        less = taken(draft, withdraw(400))
        self.assertEqual(taken(less, add_entries(())), Refusal(2, 1197))
        self.assertEqual(len(taken(less, add(S)).rules), 400)

    def test_most_states(self):
        draft = new_draft(99, 1, table_of((S, (1 + place,) * 12) for place in range(78)))
        for k in range(13):
            after = taken(draft, add(S, *(b,) * (k - 1), *(a,) * (k > 0)))
            if k < 6:
                self.assertEqual(states_of(after.rules), 1019 + k)
            else:
                self.assertEqual(after, Refusal(8, 78 * 14))
        self.assertEqual(taken(draft, add(S, *(b,) * 12)), Refusal(6, 78 * 14))      # 6 before 8
        self.assertIsInstance(taken(taken(draft, withdraw(9)), add(S, *(b,) * 11, a)), Draft)

    def test_lacks_sentences(self):
        self.assertEqual(rules_after(add(S, S)), ((S, (S,)),))
        self.assertEqual(rules_after(add(S, a), withdraw(1)), ())


class MarkTest(unittest.TestCase):
    def test_keeps_the_rules(self):
        """"each keep the rules as they were"; "Returning restores those rules"."""
        for number in range(1, 9):
            for edits in ([add(S, b)], [withdraw(1)], [withdraw(1), add(S), add(S, b), withdraw(1)]):
                marked = taken(draft_of(RULE_A), mark(number))
                after = history(marked, edits)
                self.assertNotEqual(after.rules, marked.rules)
                self.assertEqual(taken(after, back(number)), marked)

    def test_marking_changes_no_rules(self):
        self.assertEqual(taken(draft_of(RULE_A), mark(1)), draft_of(RULE_A, m1=(RULE_A,)))
        self.assertEqual(taken(draft_of(RULE_A, m8=()), mark(3)), draft_of(RULE_A, m3=(RULE_A,), m8=()))

    def test_marking_again(self):
        """"marking again replaces that mark", and no other."""
        draft = draft_of(RULE_B, m1=(RULE_A,), m2=(NEST,))
        self.assertEqual(taken(draft, mark(1)), draft_of(RULE_B, m1=(RULE_B,), m2=(NEST,)))

    def test_returning_leaves_all_marks(self):
        """"and leaves all marks in being"."""
        draft = draft_of(RULE_B, EMPTY, m1=(RULE_A,), m2=(NEST,), m8=())
        for number, rules in ((1, (RULE_A,)), (2, (NEST,)), (8, ())):
            after = taken(draft, back(number))
            self.assertEqual(after, draft._replace(rules=rules))
            self.assertEqual(taken(after, back(number)), after)
            edited = history(after, [add(S, b), withdraw(1)])
            self.assertEqual(edited.marks, draft.marks)

    def test_unknown_mark(self):
        """"An unknown mark [...] is refused with 23, the number given being its position"."""
        draft = draft_of(RULE_A, **{"m%d" % number: (RULE_B,) for number in range(1, 9)})
        for number in (0, 9, 10, 256 + 1, 2 ** 16 + 1, 2 ** 32 + 8, 2 ** 63 + 1, LAST):
            for step in (mark(number), back(number)):
                self.assertEqual(taken(draft, step), Refusal(23, number))

    def test_empty_mark(self):
        """"a return to an empty mark" is 23; "A mark of a draft without rules is no empty mark"."""
        draft = new_draft(*ONE_A)
        self.assertEqual(taken(draft, back(4)), Refusal(23, 4))
        none = history(draft, [withdraw(1), mark(4), add(S)])
        self.assertEqual(none, draft_of(EMPTY, t=1, m4=()))
        self.assertEqual(taken(none, back(4)), draft_of(t=1, m4=()))
        self.assertEqual(taken(none, back(5)), Refusal(23, 5))


class HistoryTest(unittest.TestCase):
    """"the rules are those the history gives, refused steps changing nothing"."""

    def test_by_hand(self):
        draft = history(new_draft(2, 1, ()), [
            add(S, a), mark(1), add(S, b), mark(2), withdraw(1), mark(8), back(1), add(S), withdraw(9), back(3),
            mark(1), back(2), add(S, a), mark(0)])
        self.assertEqual(draft, draft_of(RULE_A, RULE_B, m1=(RULE_A, EMPTY), m2=(RULE_A, RULE_B), m8=(RULE_B,)))

    def test_refused_steps(self):
        rng = random.Random(2)
        for _ in range(60):
            draft = new_draft(2, 1, (S, 1, a))
            kept = []
            for _ in range(30):
                step = rng.choice([add(S, rng.choice([a, b, 0, S])), add(S), withdraw(rng.randrange(5)),
                                   mark(rng.randrange(10)), back(rng.randrange(10)), add_entries((S, 2, a))])
                after = taken(draft, step)
                if not isinstance(after, Refusal):
                    draft = after
                    kept.append(step)
            self.assertEqual(history(new_draft(2, 1, (S, 1, a)), kept), draft)

    def test_always_passes_the_check(self):
        """What a history gives has none of the faults 1 to 8."""
        rng = random.Random(3)
        for _ in range(40):
            t, n, rules = small_grammar(rng, 4)
            draft = new_draft(t, n, table_of(rules))
            for _ in range(40):
                draft = history(draft, [rng.choice([
                    add(*(lambda rule: (rule[0], *rule[1]))(random_rule(rng, t, n, rng.randrange(4)))),
                    withdraw(1 + rng.randrange(4)), mark(1 + rng.randrange(3)), back(1 + rng.randrange(3))])])
                self.assertEqual(new_draft(t, n, table_of(draft.rules)), draft._replace(marks=NO_MARKS))


class Rows(unittest.TestCase):
    """What the tests of rows share."""

    def row(self, draft=None, size=ENTRIES, rest=7):
        """A row that holds a draft, and elsewhere `rest`."""
        row = array("H", [rest] * size)
        if draft is not None:
            row[0], row[1] = draft.t, draft.n
            write(row, block_of(0, draft.rules))
            for number, rules in enumerate(draft.marks, 1):
                write(row, [(block_place(number), (0,))] if rules is None else block_of(number, rules))
        return row

    def after(self, row, step, lent=None):
        """The row after a call that is done."""
        reply = call(row, len(row) if lent is None else lent, step)
        self.assertIsNone(reply.answer)
        found = row[:]
        write(found, reply.writes)
        other = row[:]
        write(other, changes(row, reply.writes))
        self.assertEqual(found, other)
        return found

    def refused(self, row, step, cause, position, lent=None):
        self.assertEqual(call(row, len(row) if lent is None else lent, step), Reply(Refusal(cause, position), ()))


class LayoutTest(Rows):
    def test_sizes(self):
        self.assertEqual((BLOCK, ENTRIES, MARKS), (1425, 12827, 8))
        self.assertEqual([block_place(block) for block in range(9)],
                         [2, 1427, 2852, 4277, 5702, 7127, 8552, 9977, 11402])
        self.assertEqual(block_place(9), ENTRIES)

    def test_a_draft_in_a_row(self):
        draft = draft_of(RULE_A, EMPTY, m1=(NEST,), m8=())
        row = self.row(draft)
        self.assertEqual(list(row[:9]), [2, 1, 3, S, 1, a, S, 0, 7])
        self.assertEqual(list(row[1427:1434]), [2, S, 3, a, S, b, 7])
        self.assertEqual((row[2852], row[11402], row[11403]), (0, 1, 7))
        self.assertEqual(draft_in(row), draft)
        self.assertEqual(draft_in(list(row) + [9, 9]), draft)
        self.assertIsNone(draft_in(row[:-1]))
        self.assertIsNone(draft_in(()))

    def test_the_largest_drafts_fit(self):
        """1,420 entries at most, beside 1,424 behind the first one."""
        t, n, rules = large_grammar(random.Random(4), 400, 1024)
        self.assertEqual(len(table_of(rules)), 1420)
        draft = Draft(t, n, tuple(rules), (tuple(rules),) * 8)
        self.assertEqual(draft_in(self.row(draft)), draft)

    def test_holds_rules(self):
        """Any entries hold rules or none: the first is not 0, and each rule lies whole in the block."""
        def held(*block):
            row = self.row(rest=0)
            write(row, [(2, block)])
            rules = rules_in(row, 0)
            return None if rules is None else len(rules)
        self.assertIsNone(held(0, S, 0))
        self.assertEqual(held(1, 65535, 65535), 0)
        self.assertEqual(held(2, 65535, 1, 65535), 1)
        self.assertEqual(held(2, 5, 1422), 1)
        self.assertIsNone(held(2, 5, 1423))
        self.assertIsNone(held(2, 5, 65535))
        self.assertEqual(held(3, 5, 1420), 2)
        self.assertIsNone(held(3, 5, 1421))
        self.assertIsNone(held(3, 5, 1422))
        self.assertEqual(held(713), 712)
        self.assertIsNone(held(714))
        self.assertIsNone(held(65535))

    def test_a_block_does_not_read_the_next(self):
        row = self.row(rest=0)
        write(row, [(block_place(4), (2, 5, 1422))])
        self.assertEqual(rules_in(row, 4), ((5, (0,) * 1422),))
        write(row, [(block_place(4), (2, 5, 1423))])
        self.assertIsNone(rules_in(row, 4))


class CallTest(Rows):
    def test_new(self):
        row = self.after(self.row(rest=9), new(*ONE_A))
        expected = [9] * ENTRIES
        expected[:6] = [1, 1, 2, S, 1, a]
        for number in range(1, 9):
            expected[block_place(number)] = 0
        self.assertEqual(list(row), expected)
        self.assertEqual(list(self.after(row, new(3, 2, ()))[:7]), [3, 2, 1, S, 1, a, 9])

    def test_new_refused(self):
        """The table's faults, then 14 at 0."""
        for lent in (0, 1, ENTRIES - 1, ENTRIES):
            self.refused(self.row(), new(2001, 1, ()), 1, 0, lent)
            self.refused(self.row(), new(1, 1, (S, 1)), 2, 0, lent)
            self.refused(self.row(), new(1, 1, ONE_A[2] * 2), 6, 3, lent)
            if lent < ENTRIES:
                self.refused(self.row(), new(*ONE_A), 14, 0, lent)
                self.refused(self.row(), new(*ENDLESS), 14, 0, lent)

    def test_add(self):
        draft = draft_of(RULE_A, m2=(RULE_B,))
        row = self.row(draft)
        after = self.after(row, add_entries((S, 2, a, b, 5, 5)))
        expected = list(row)
        expected[2:11] = [3, S, 1, a, S, 2, a, b, 7]
        self.assertEqual(list(after), expected)
        self.refused(row, add_entries((S, 1, 0, 5)), 5, 5)
        self.refused(row, add_entries(()), 2, 3)

    def test_withdraw(self):
        """Later rules move down, and what lies behind the table stays as it was."""
        row = self.row(draft_of(RULE_A, NEST, RULE_B, EMPTY))
        self.assertEqual(list(row[2:17]), [5, S, 1, a, S, 3, a, S, b, S, 1, b, S, 0, 7])
        after = self.after(row, withdraw(2))
        self.assertEqual(list(after[2:17]), [4, S, 1, a, S, 1, b, S, 0, S, 1, b, S, 0, 7])
        self.assertEqual(after[17:], row[17:])
        after = self.after(row, withdraw(4))
        self.assertEqual(list(after), list(row[:2]) + [4] + list(row[3:]))
        only = self.row(draft_of(NEST))
        self.assertEqual(list(self.after(only, withdraw(1))), list(only[:2]) + [1] + list(only[3:]))
        self.refused(row, withdraw(5), 23, 5)
        self.refused(row, withdraw(0), 23, 0)
        self.refused(row, withdraw(LAST), 23, LAST)

    def test_mark_and_return(self):
        row = self.row(draft_of(RULE_A, RULE_B, m3=(NEST, EMPTY)))
        after = self.after(row, mark(3))
        place = block_place(3)
        self.assertEqual(list(row[place:place + 9]), [3, S, 3, a, S, b, S, 0, 7])
        self.assertEqual(list(after[place:place + 9]), [3, S, 1, a, S, 1, b, 0, 7])
        self.assertEqual((after[:place], after[place + 9:]), (row[:place], row[place + 9:]))
        after = self.after(row, back(3))
        self.assertEqual(list(after[:11]), [2, 1, 3, S, 3, a, S, b, S, 0, 7])
        self.assertEqual(after[11:], row[11:])
        for number in (0, 9, 2 ** 16 + 3, LAST):
            self.refused(row, mark(number), 23, number)
            self.refused(row, back(number), 23, number)
        self.refused(row, back(4), 23, 4)

    def test_a_mark_without_rules(self):
        row = self.after(self.row(draft_of()), mark(8))
        self.assertEqual(row[block_place(8)], 1)
        row = self.after(self.after(row, add(S)), back(8))
        self.assertEqual(draft_in(row), draft_of(m8=()))

    def test_told(self):
        for rules, counted in (((), (2, 1, 0, 0, 4)), ((RULE_A, NEST), (2, 1, 2, 8, 10))):
            row = self.row(draft_of(*rules))
            self.assertEqual(call(row, ENTRIES, Step(COUNTS)), Reply(Counted(*counted)))
            self.assertEqual(call(row, ENTRIES, Step(TABLE)), Reply(Place(3, counted[3])))

    def test_too_short(self):
        """14 at 0 before all else but a new draft's table."""
        row = self.row(draft_of(RULE_A, m1=()))
        for lent in (0, 1, 3, BLOCK, ENTRIES - 1):
            for step in (add(S), add_entries(()), withdraw(1), withdraw(0), mark(1), mark(9), back(1), back(0),
                         Step(COUNTS), Step(TABLE)):
                self.refused(row, step, 14, 0, lent)

    def test_no_draft(self):
        """23 at 0, before a number or a rule is looked at."""
        for block in ((0, S, 1, a), (2, S, 1423), (65535,)):
            row = self.row(draft_of(RULE_A, m1=()))
            write(row, [(2, block)])
            for step in (add(S), add_entries(()), withdraw(1), withdraw(5), mark(1), mark(9), back(1), back(9),
                         Step(COUNTS), Step(TABLE)):
                self.refused(row, step, 23, 0)
            self.assertEqual(draft_in(self.after(row, new(*ONE_A))), new_draft(*ONE_A))

    def test_longer(self):
        """Entries past the needed ones are neither read nor written."""
        row = self.row(draft_of(RULE_A), ENTRIES + 5)
        for step in (new(*ONE_A), add(S), withdraw(1), mark(8)):
            self.assertEqual(list(self.after(row, step)[ENTRIES:]), [7] * 5)
            self.assertEqual(self.after(row, step)[:ENTRIES], self.after(row[:ENTRIES], step))


class OtherRowsTest(Rows):
    """Rows that no new draft made: only what is added is looked at."""

    def garbage(self, t, n, *block):
        row = self.row(rest=0)
        write(row, [(0, (t, n)), (2, block)])
        return row

    def test_more_rules_than_the_most(self):
        row = self.garbage(2, 1, 713)
        self.refused(row, add(S, a), 7, 1424)
        self.refused(row, add_entries(()), 7, 1424)
        self.assertEqual(call(row, ENTRIES, Step(COUNTS)).answer, (2, 1, 712, 1424, 716))
        after = self.after(row, withdraw(712))
        self.assertEqual(after[2], 712)
        self.assertEqual(rules_in(self.after(row, mark(8)), 8), rules_in(row, 0))
        self.refused(self.garbage(2, 1, 401), add(S, a), 7, 800)
        after = self.after(self.garbage(2, 1, 400), add(S, a))      # 399 equal rules
        self.assertEqual((after[2], list(after[801:804])), (401, [S, 1, a]))

    def test_more_states_than_the_most(self):
        row = self.garbage(2, 1, 2, S, 1422)
        self.assertEqual(call(row, ENTRIES, Step(COUNTS)).answer, (2, 1, 1, 1424, 1427))
        self.refused(row, add(S), 8, 1424)
        self.refused(row, add(S, 3), 5, 1426)
        self.refused(self.garbage(2, 1, 2, S, 1018), add(S, a), 8, 1020)
        after = self.after(self.garbage(2, 1, 2, S, 1018), add(S))
        self.assertEqual((after[2], list(after[1023:1025])), (3, [S, 0]))

    def test_codes(self):
        self.refused(self.garbage(2, 0, 1), add(S), 3, 0)
        after = self.after(self.garbage(0, 65535, 1), add(65535, 65535, S))
        self.assertEqual(rules_in(after, 0), ((65535, (65535, S)),))
        self.refused(self.garbage(0, 65535, 1), add(S, 1), 5, 2)
        after = self.after(self.garbage(65535, 1, 1), add(S, 65535, 2001))
        self.assertEqual(rules_in(after, 0), ((S, (65535, 2001)),))

    def test_equal_rules(self):
        row = self.garbage(2, 1, 3, 9, 0, 9, 0)
        self.assertEqual(rules_in(self.after(row, withdraw(1)), 0), ((9, ()),))
        self.assertEqual(rules_in(self.after(row, add(S)), 0), ((9, ()), (9, ()), (S, ())))

    def test_marks(self):
        row = self.row(draft_of(RULE_A, m5=(RULE_B,)))
        write(row, [(block_place(5), (2, 0, 1423))])
        self.refused(row, back(5), 23, 5)
        self.assertEqual(call(row, ENTRIES, Step(COUNTS)).answer, (2, 1, 1, 3, 6))
        place = block_place(5)
        write(row, [(place, (3, 0, 1420)), (place + BLOCK - 2, (9, 0))])
        after = self.after(row, back(5))
        self.assertEqual(after[2:2 + BLOCK], row[place:place + BLOCK])
        self.assertEqual(after[2 + BLOCK:], row[2 + BLOCK:])
        self.assertEqual(rules_in(self.after(row, mark(5)), 5), (RULE_A,))


class BothTest(Rows):
    """Rows beside plain drafts, and beside lists, on random histories."""

    def test_all_three(self):
        rng = random.Random(5)
        kinds = {kind: 0 for kind in CALLS}
        for _ in range(60):
            t, n, rules = small_grammar(rng, 4)
            row, reading, draft = self.row(rest=rng.randrange(4)), Reading(), new_draft(t, n, table_of(rules))
            row = self.after(row, new(t, n, table_of(rules)))
            self.assertIsNone(reading.take(new(t, n, table_of(rules)), ENTRIES))
            for _ in range(25):
                rule = random_rule(rng, t, n, rng.randrange(4))
                step = rng.choice([add(rule[0], *rule[1]), add(rule[0], *rule[1], 0), withdraw(rng.randrange(6)),
                                   mark(rng.randrange(10)), back(rng.randrange(10)), Step(COUNTS), Step(TABLE)])
                reply = call(row, ENTRIES, step)
                self.assertEqual(reading.take(step, ENTRIES), reply.answer)
                write(row, reply.writes)
                if step.kind in STEPS:
                    after = taken(draft, step)
                    draft = draft if isinstance(after, Refusal) else after
                    self.assertEqual(reply.answer, after if isinstance(after, Refusal) else None)
                self.assertEqual(draft_in(row), draft)
                self.assertEqual(tuple(reading.rules), draft.rules)
                kinds[step.kind] += 1
        self.assertGreater(min(count for kind, count in kinds.items() if kind != NEW), 100)

    def test_parts(self):
        self.assertEqual(added(2, 1, (RULE_A,), (S, 1, b, 9)), (RULE_A, RULE_B))
        self.assertEqual(withdrawn((RULE_A, RULE_B), 1), (RULE_B,))
        self.assertEqual([ADD, WITHDRAW, MARK, RETURN], STEPS)
        self.assertEqual(changes([1, 2, 3, 4], [(0, (1,)), (1, (5, 3, 6))]), [(1, (5, 3, 6))])


if __name__ == "__main__":
    unittest.main()
