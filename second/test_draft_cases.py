"""Tests of the cases of drafts: their bytes, the lines, the reasons, the misreadings."""

import unittest

from case_files import LAST, decode_all
from draft_cases import DRAFTS, answer
from draft_lists import Reading, parts
from draft_misreadings import PLAIN, ROWS, TOLD
from draft_reasons import ENOUGH, REASONS, reasons_of, walked
from draft_steps import Case, add, add_entries, back, lend, mark, new, put, withdraw
from drafts import COUNTS, ENTRIES, TABLE, Step, block_place
from file_tests import FileTests
from random_tables import S, a, b

NONE = new(2, 1, ())
ONE = new(2, 1, (S, 1, a))
TWO = new(2, 1, (S, 1, a, S, 1, b))
MANY = new(400, 1, tuple(code for place in range(400) for code in (S, 1, 1 + place)))
LONG = new(99, 1, tuple(code for place in range(78) for code in (S, 12, *(1 + place,) * 12)))     # 1,018 states
HEX = {"S": "0080", "a": "0100", "b": "0200"}


def case(*steps, size=ENTRIES, fill=255):
    return Case(size, fill, steps)


def hexed(*words):
    """Entries as a line has them: names of HEX, or small numbers."""
    return "".join(HEX.get(word, "%s00" % ("%02x" % word if isinstance(word, int) else word)) for word in words)


class DraftsFileTest(FileTests, unittest.TestCase):
    KIND = DRAFTS
    DIGEST = "8c817cda4b1ec6ef38da1cca9e56408d096a2325cb358c5e4705dd27a28bb227"
    CASE = Case(ENTRIES, 255, (
        new(1, 258, (S,)), add_entries((258, 3)), withdraw(LAST), mark(8), back(258), Step(COUNTS), Step(TABLE),
        put(3, 1, 65535), lend(258)))
    BYTES = (b"\x1b\x32\0\0" + b"\xff" + b"\x09\0\0\0"
             + b"\0" + b"\1" + bytes(7) + b"\2\1" + bytes(6) + b"\1\0\0\0" + b"\0\x80"
             + b"\1" + b"\2\0\0\0" + b"\2\1\3\0"
             + b"\2" + b"\xff" * 8 + b"\3" + b"\x08" + bytes(7) + b"\4" + b"\2\1" + bytes(6)
             + b"\5" + b"\6" + b"\7" + b"\3\0\0\0" + b"\2\0\0\0" + b"\1\0\xff\xff" + b"\x08" + b"\2\1\0\0")

    def test_wrong_files_are_refused(self):
        front = b"\x1b\x32\0\0" + b"\xff" + b"\x01\0\0\0"
        for data in (
            b"\xff" * 99,                                           # a row that is too long
            b"\x1b\x32\0\0" + b"\xff" * 99,                         # too many steps
            front + b"\x09" + bytes(99),                            # no kind of step
            front + b"\1" + b"\xff" * 99,                           # too many entries
            front + b"\7" + b"\x1a\x32\0\0" + b"\2\0\0\0" + bytes(4),     # put past the row
            front + b"\x08" + b"\x1c\x32\0\0",                      # more lent than there is
        ):
            with self.assertRaises(ValueError):
                list(decode_all(DRAFTS, data))


class AnswerTest(unittest.TestCase):
    def lines(self, found, *expected):
        self.assertEqual(answer(found).split("\n"), list(expected))

    def test_lines(self):
        heads = "".join(",%d:0000" % block_place(number) for number in range(1, 9))
        self.lines(case(ONE, add(S), Step(COUNTS), Step(TABLE), withdraw(1), withdraw(2), mark(0)),
                   "done changed=0:02000100,2:0200,3:" + hexed("S", 1, "a") + heads,
                   "done changed=2:0300,6:" + hexed("S", 0),
                   "terminals=2 nonterminals=1 rules=2 entries=5 states=7",
                   "start=3 entries=5",
                   "done changed=2:0200,4:" + hexed(0),
                   "refused=23 at=2",
                   "refused=23 at=0")

    def test_what_does_not_change_is_not_told(self):
        self.lines(case(ONE, mark(2), mark(2), back(2), NONE, ONE, fill=0),
                   "done changed=0:02000100,2:0200,3:" + hexed("S", 1, "a"),
                   "done changed=2852:0200,2853:" + hexed("S", 1, "a"),
                   "done changed=", "done changed=", "done changed=2:0100,2852:0000", "done changed=2:0200")

    def test_put_and_lend_have_no_line(self):
        self.lines(case(put(2, 1), lend(5), Step(TABLE), lend(ENTRIES), Step(TABLE)),
                   "refused=14 at=0", "start=3 entries=0")
        self.lines(case(put(2, 0), add(S), fill=3), "refused=23 at=0")


class ReasonsTest(unittest.TestCase):
    def reasons(self, found, *names):
        """The reasons of the last call alone, but for told-from- and those of every call."""
        one_less = reasons_of(found._replace(steps=found.steps[:-1])) if len(found.steps) > 1 else []
        names_found = reasons_of(found)
        self.assertLessEqual(set(names_found), set(REASONS))
        for name in one_less:
            if not name.startswith("told-from-"):
                names_found.remove(name)
        self.assertIn("calls", names_found)
        apart = ("told-from-", "on-", "calls", "as-the-history-gives")
        self.assertEqual(sorted(name for name in names_found if not name.startswith(apart)), sorted(names))

    def test_new(self):
        self.reasons(case(NONE), "new-done", "new-done-without-rules", "new-done-without-a-sentence",
                     "new-done-over-set-marks", "new-done-over-no-draft")
        self.reasons(case(ONE, ONE), "new-done", "new-done-over-a-draft")
        self.reasons(case(MANY, fill=0), "new-done", "new-done-400-rules", "new-done-over-no-draft")
        self.reasons(case(new(2000, 2000, (S, 0)), fill=0), "new-done", "new-done-2000-terminals",
                     "new-done-2000-nonterminals", "new-done-over-no-draft")
        self.reasons(case(new(2001, 1, ())), "new-1")
        self.reasons(case(new(2, 1, (S,))), "new-2-under-two-entries")
        self.reasons(case(new(2, 1, (S, 1))), "new-2-body-short")
        self.reasons(case(lend(9), new(2, 1, (S, 0, S, 0))), "new-6", "order-new-6-before-14")
        self.reasons(case(lend(0), NONE), "new-14-no-entry")
        self.reasons(case(lend(ENTRIES - 1), NONE), "new-14-one-too-short")

    def test_add(self):
        self.reasons(case(NONE, add(S)), "add-done", "add-done-to-no-rules")
        self.reasons(case(NONE, add_entries((S, 1, S, 0))), "add-done", "add-done-to-no-rules",
                     "add-done-entries-behind", "add-done-without-a-sentence")
        self.reasons(case(ONE, add(S, *(b,) * 12)), "add-done", "add-done-k-of-12")
        self.reasons(case(MANY, withdraw(7), add(S)), "add-done", "add-done-the-400th-rule")
        self.reasons(case(MANY, add_entries(())), "add-7-nothing", "add-7-past-offset-0")
        self.reasons(case(MANY, add_entries((0,))), "add-7-a-rule", "add-7-past-offset-0",
                     "order-add-7-before-2-under-two-entries", "order-add-7-before-3")
        self.reasons(case(NONE, add_entries(())), "add-2-nothing")
        self.reasons(case(ONE, add_entries(())), "add-2-nothing", "add-2-past-offset-0")
        self.reasons(case(ONE, add_entries((S,))), "add-2-one-entry", "add-2-past-offset-0")
        self.reasons(case(NONE, add_entries((S, 2, 3))), "add-2-body-short", "order-add-2-body-short-before-5")
        self.reasons(case(NONE, add_entries((a, 13))), "add-3", "order-add-3-before-4",
                     "order-add-3-before-2-body-short")
        self.reasons(case(NONE, add_entries((S, 13))), "add-4-k-of-13", "order-add-4-before-2-body-short")
        self.reasons(case(NONE, add(S, *(a,) * 14)), "add-4-k-above-13")
        self.reasons(case(NONE, add(S, 3)), "add-5", "add-5-past-offset-0")
        self.reasons(case(TWO, add(S, a)), "add-6-the-first-rule", "add-6-past-offset-0")
        self.reasons(case(TWO, add(S, b)), "add-6-the-last-rule", "add-6-past-offset-0")
        self.reasons(case(LONG, add(S, a, a, a, a, a)), "add-done", "add-done-to-1024-states")
        self.reasons(case(LONG, add(S, *(a, b) * 3)), "add-8-by-one-state", "add-8-past-offset-0")
        self.reasons(case(LONG, add(S, *(2,) * 12)), "add-6-another-rule", "add-6-past-offset-0",
                     "order-add-6-before-8")

    def test_withdraw(self):
        self.reasons(case(ONE, withdraw(1)), "withdraw-done", "withdraw-done-the-first", "withdraw-done-the-last",
                     "withdraw-done-the-only-one")
        self.reasons(case(MANY, withdraw(2)), "withdraw-done", "withdraw-done-between", "withdraw-done-of-400-rules")
        for number, how in ((0, "number-0"), (2, "one-past"), (3, "more"), (2 ** 16 + 1, "low-16-bits-pass"),
                            (2 ** 32 + 1, "low-32-bits-pass"), (2 ** 32 + 2 ** 16 + 1, "more"), (LAST, "the-largest")):
            self.reasons(case(ONE, withdraw(number)), "withdraw-23-" + how)
        self.reasons(case(NONE, withdraw(1)), "withdraw-23-one-past", "withdraw-23-of-no-rules")

    def test_marks(self):
        self.reasons(case(NONE, mark(3)), "mark-done", "mark-done-3", "mark-done-an-empty-mark",
                     "mark-done-without-rules")
        self.reasons(case(ONE, mark(3), withdraw(1), mark(3)), "mark-done", "mark-done-3", "mark-done-again",
                     "mark-done-again-with-fewer-entries", "mark-done-without-rules")
        self.reasons(case(MANY, *map(mark, range(1, 9))), "mark-done", "mark-done-8", "mark-done-400-rules",
                     "mark-done-an-empty-mark", "mark-done-the-eighth-to-be-set")
        self.reasons(case(ONE, mark(9)), "mark-23-one-past")
        self.reasons(case(ONE, mark(8), back(8)), "return-done", "return-done-8", "return-done-to-the-same-rules")
        self.reasons(case(NONE, *map(mark, range(1, 9)), add(S), back(2)), "return-done", "return-done-2",
                     "return-done-to-other-rules", "return-done-with-fewer-entries", "return-done-to-no-rules",
                     "return-done-with-all-marks-set")
        self.reasons(case(ONE, back(4)), "return-23-an-empty-mark", "return-23-empty-4")
        self.reasons(case(ONE, back(2 ** 32 + 4)), "return-23-low-32-bits-pass")

    def test_rows(self):
        self.reasons(case(ONE, lend(ENTRIES - 1), back(9)), "return-14-one-too-short")
        self.reasons(case(put(2, 0), add(S)), "add-23-no-draft-first-entry-0")
        self.reasons(case(Step(COUNTS)), "counts-23-no-draft-not-whole")
        self.reasons(case(ONE, put(2, 2, S, 1423), Step(TABLE)), "table-23-no-draft-not-whole",
                     "another-row-one-entry-past-the-block")
        self.reasons(case(ONE, put(2, 2, S, 1422), Step(TABLE)), "table-done", "table-done-of-another-row",
                     "another-row-past-1024-states", "another-row-a-length-above-12",
                     "another-row-rules-up-to-the-blocks-end",
                     "another-row-a-table-that-does-not-pass")
        self.reasons(case(put(0, 0, 0, 1), add(S)), "add-3", "add-refused-of-another-row",
                     "another-row-t-or-n-out-of-range", "another-row-3-without-nonterminals",
                     "another-row-a-table-that-does-not-pass")
        self.reasons(case(ONE, put(block_place(2), 1), back(2)), "return-done", "return-done-2",
                     "return-done-to-other-rules", "return-done-with-fewer-entries", "return-done-to-no-rules",
                     "return-done-of-another-row")
        self.reasons(case(ONE, put(block_place(2), 2), back(2)), "return-23-a-mark-that-is-not-whole")

    def test_names(self):
        self.assertEqual(len(REASONS), len(set(REASONS)))
        self.assertLessEqual(set(ENOUGH), set(REASONS))
        self.assertGreaterEqual(ENOUGH["calls"], 100000)


# By misreading a history that tells it, and one that does not.
TELLING = {
    "returning-empties-all-marks": (case(ONE, mark(1), mark(2), back(1), back(2)), case(ONE, mark(1), back(1))),
    "returning-empties-that-mark": (case(ONE, mark(1), back(1), back(1)),
                                    case(ONE, mark(1), mark(2), back(1), back(2))),
    "returning-empties-later-marks": (case(ONE, mark(2), mark(1), back(2), back(1)),
                                      case(ONE, mark(1), mark(2), back(2), back(1))),
    "marking-shares-the-rules": (case(ONE, mark(1), add(S), back(1), Step(TABLE)), case(ONE, mark(1), back(1), add(S))),
    "returning-shares-the-rules": (case(ONE, mark(1), back(1), add(S), back(1), Step(TABLE)),
                                   case(ONE, mark(1), add(S), back(1), Step(TABLE))),
    "marking-replaces-all-marks": (case(ONE, mark(1), mark(2), back(1)), case(ONE, mark(1), mark(2), back(2))),
    "marking-again-keeps-the-first": (case(ONE, mark(1), add(S), mark(1), withdraw(1), back(1), Step(TABLE)),
                                      case(ONE, mark(1), mark(1), back(1), Step(TABLE))),
    "marking-again-is-refused": (case(ONE, mark(1), mark(1)), case(ONE, mark(1), mark(2))),
    "an-empty-mark-is-no-rules": (case(ONE, back(3)), case(ONE, back(9))),
    "an-empty-mark-is-returned-to-as-nothing": (case(ONE, back(3)), case(ONE, back(0))),
    "a-mark-without-rules-is-empty": (case(NONE, mark(1), back(1)), case(ONE, mark(1), back(1))),
    "mark-0-is-taken": (case(ONE, mark(0)), case(ONE, mark(9))),
    "mark-9-is-taken": (case(ONE, mark(9)), case(ONE, mark(0))),
    "marks-are-numbered-from-0": (case(ONE, mark(8)), case(ONE, mark(7))),
    "numbers-are-cut-to-16-bits": (case(ONE, withdraw(2 ** 16 + 1)), case(ONE, withdraw(2 ** 16))),
    "numbers-are-cut-to-32-bits": (case(ONE, mark(2 ** 32 + 8)), case(ONE, mark(2 ** 16 + 8))),
    "a-new-draft-keeps-the-marks": (case(ONE, mark(1), NONE, back(1)), case(ONE, mark(1), NONE, back(2))),
    "23-is-at-0": (case(ONE, back(1)), case(ONE, back(0))),
    "a-withdrawal-leaves-a-hole": (case(TWO, withdraw(1), withdraw(1)), case(TWO, withdraw(2), withdraw(1))),
    "the-last-rule-takes-the-place": (case(new(2, 1, (S, 0, S, 1, a, S, 1, b)), withdraw(1), Step(TABLE)),
                                      case(TWO, withdraw(1), Step(TABLE))),
    "rules-are-numbered-from-0": (case(ONE, withdraw(1)), case(ONE, withdraw(2))),
    "a-rule-is-added-in-front": (case(ONE, add(S), withdraw(1), Step(TABLE)), case(NONE, add(S), Step(TABLE))),
    "offsets-of-an-added-rule-begin-at-0": (case(ONE, add(S, a)), case(NONE, add_entries(()))),
    "a-new-draft-needs-a-sentence": (case(new(0, 1, (S, 1, S))), case(ONE)),
    "an-added-rule-needs-a-sentence": (case(NONE, add(S, S)), case(NONE, add(S))),
    "a-withdrawal-needs-a-sentence": (case(ONE, withdraw(1)), case(TWO, withdraw(1))),
    "a-new-draft-needs-rules": (case(NONE), case(ONE)),
    "14-comes-before-the-table": (case(ONE, lend(9), new(2, 1, (0,))), case(ONE, lend(9), NONE)),
    "entries-behind-an-added-rule-are-added": (case(ONE, add_entries((S, 0, S, 1, b)), Step(TABLE)),
                                               case(ONE, add_entries((S, 0, 9)), Step(TABLE))),
    "entries-behind-an-added-rule-are-refused": (case(ONE, add_entries((S, 0, 9))), case(ONE, add(S))),
    "adding-nothing-is-done": (case(ONE, add_entries(())), case(ONE, add_entries((S,)))),
    "adding-nothing-is-2-before-7": (case(MANY, add_entries(())), case(ONE, add_entries(()))),
    "an-added-rule-is-tried-alone": (case(ONE, add(S, a)), case(ONE, add(S, 0))),
    "an-equal-rule-is-passed-over": (case(ONE, add(S, a)), case(ONE, add(S, b))),
    "a-withdrawn-rule-still-counts-for-6": (case(ONE, withdraw(1), add(S, a)), case(ONE, withdraw(1), add(S, b))),
    "rules-of-marks-count-for-6": (case(ONE, mark(1), withdraw(1), add(S, a)),
                                   case(ONE, withdraw(1), mark(1), add(S, a))),
    "withdrawn-states-still-count-for-8": (case(LONG, withdraw(1), add(S, a, a, a, a, a, a)),
                                           case(LONG, withdraw(1), add(S, a, a))),
    "a-401st-rule-passes": (case(MANY, add(S)), case(MANY, withdraw(1), add(S))),
    "a-withdrawal-moves-what-is-behind-the-table": (case(ONE, withdraw(1), fill=7), case(ONE, mark(1), fill=7)),
    "a-withdrawal-clears-what-it-frees": (case(ONE, withdraw(1)), case(TWO, mark(1))),
    "marking-and-returning-copy-the-whole-block": (case(ONE, mark(1), fill=7), case(ONE, mark(1), fill=3)),
    "a-new-draft-clears-the-marks-blocks": (case(ONE, fill=3), case(ONE, fill=0)),
    "a-new-draft-clears-behind-its-table": (case(ONE, fill=3), case(ONE, fill=0)),
    "a-new-draft-clears-behind-the-last-block": (case(ONE, size=ENTRIES + 1), case(ONE)),
    "a-row-needs-only-what-is-used": (case(ONE, lend(ENTRIES - 1), add(S)), case(ONE, lend(9), add(S))),
    "a-mark-is-empty-by-its-first-entry-alone": (case(ONE, put(block_place(1), 65535), back(1)),
                                                 case(ONE, put(block_place(1), 1), back(1))),
    "a-damaged-mark-makes-the-row-no-draft": (case(ONE, put(block_place(1), 65535), add(S)),
                                              case(ONE, put(block_place(1), 1), add(S))),
    "an-unknown-mark-comes-before-the-row": (case(ONE, lend(9), mark(0)), case(ONE, lend(9), mark(1))),
    "a-draft-is-none-with-t-or-n-out-of-range": (case(ONE, put(0, 2001), mark(1)), case(ONE, put(0, 2000), mark(1))),
    "a-draft-is-none-with-more-than-400-rules": (case(put(2, 402), mark(1), fill=0),
                                                 case(put(2, 401), mark(1), fill=0)),
    "a-draft-is-none-with-a-length-above-12": (case(ONE, put(4, 13), mark(1)), case(ONE, put(4, 12), mark(1))),
    "a-draft-is-none-with-equal-rules": (case(TWO, put(8, a), mark(1)), case(TWO, put(8, S), mark(1))),
}


class MisreadingsTest(unittest.TestCase):
    def test_each(self):
        """Each is told by a history of few steps, and not by one that hardly differs."""
        self.assertEqual(set(TELLING), set(PLAIN) | set(ROWS))
        for name, (telling, other) in TELLING.items():
            self.assertIn(TOLD[name], reasons_of(telling), name)
            self.assertNotIn(TOLD[name], reasons_of(other), name)

    def test_the_reading_itself(self):
        for pair in TELLING.values():
            for found in pair:
                self.assertFalse(parts(Reading, walked(found)))


if __name__ == "__main__":
    unittest.main()
