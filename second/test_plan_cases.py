"""Tests of the cases of the eight-channel commands: their bytes, the lines, the reasons, the misreadings."""

import random
import unittest

from case_files import decode_all
from file_tests import FileTests
from plan_cases import PLANS, answer
from plan_inputs import (
    FAULTY_CODES, Case, Place, Room, all_cases, changed, every_change, faulty_rows, sentence,
)
from plan_misreadings import (
    TOLD, behind_children, certificates, first_command_outside, level_by_level, right_to_left, told, tree_of,
)
from plan_reasons import ENOUGH, REASONS, reasons_of
from plans import WORK_ENTRIES, Lent, certificate, plan_of, read_plan

NEED = WORK_ENTRIES
TAKE = 1, 7, 2
MOST = TAKE * 21
SIZED = "there-are-64-times-64-entries-by-state", "entries-are-counted-by-the-row"


class PlansFileTest(FileTests, unittest.TestCase):
    KIND = PLANS
    DIGEST = "ee3e9b4b5ed434981881fc6dfd5a001026790eb19885f63900d5daf77ff288a1"
    CASE = Case((1, 258), Lent(259, 3), 255)
    BYTES = b"\0" + b"\2\0\0\0" + b"\1\0\2\1" + b"\3\1\0\0" + b"\3\0\0\0" + b"\xff"

    def test_layout_of_the_others(self):
        data = b"\1" + b"\2" + b"\7\1" + bytes(6) + b"\1"
        self.assertEqual(list(decode_all(PLANS, data)), [Room(), Place(263), Room()])
        self.assertEqual(b"".join(map(PLANS.encode, [Room(), Place(263), Room()])), data)

    def test_wrong_files_are_refused(self):
        for data in (b"\3" + bytes(99), b"\0" + b"\xff" * 999999, b"\0" + bytes(4) + b"\xff" * 99,
                     b"\0" + bytes(8) + b"\xff" * 99, b"\2" + bytes(7)):
            with self.assertRaises(ValueError):
                list(decode_all(PLANS, data))

    def test_faulty_codes_are_at_every_place(self):
        """Each code at each place, the first that is at fault, in rows that are long enough and in such that are too long."""
        seen = set()
        for case in faulty_rows(random.Random(1)):
            refusal = read_plan(*case[:2]).answer
            if refusal.position < 64:
                seen.add((refusal.position, case.row[refusal.position], len(case.row) > 64))
        for place in range(64):
            for code in FAULTY_CODES:
                self.assertLessEqual({(place, code, False), (place, code, True)}, seen)
        self.assertEqual(FAULTY_CODES, (0, 9, 32768, 65535))

    def test_every_length(self):
        lengths = {len(case.row) for case in all_cases() if isinstance(case, Case)}
        self.assertLessEqual(set(range(67)), lengths)


class AnswerTest(unittest.TestCase):
    def test_lines(self):
        self.assertEqual(answer(Case((), Lent(NEED, 1), 7)), "plan rules=1 cleared=114075")
        self.assertEqual(answer(Case(TAKE, Lent(NEED + 9, 9), 7)), "plan rules=2,1,3,6 cleared=114075")
        self.assertEqual(answer(Case((1, 7), Lent(NEED, 0), 7)), "none cleared=114075")
        self.assertEqual(answer(Case(TAKE, Lent(NEED, 3), 7)), "refused=14 at=0 cleared=114075")
        self.assertEqual(answer(Case(TAKE, Lent(NEED - 1, 3), 7)), "refused=14 at=0")
        self.assertEqual(answer(Case((1, 9), Lent(0, 0), 7)), "refused=22 at=1")
        self.assertEqual(answer(Case(TAKE * 22, Lent(NEED, 99), 7)), "refused=22 at=64")
        self.assertEqual(answer(Room()), "entries=114075")
        self.assertEqual([answer(Place(place)) for place in (0, 1, 6, 7, 182, 183, 256)],
                         ["byte=53", "byte=0", "byte=64", "byte=13", "byte=0", "byte=0", "byte=0"])


class ReasonsTest(unittest.TestCase):
    def reasons(self, case, *names):
        """All reasons but those of misreadings."""
        found = reasons_of(case)
        self.assertLessEqual(set(found), set(REASONS))
        self.assertEqual(len(found), len(set(found)))
        rows = ["rows"] if isinstance(case, Case) else []
        self.assertEqual(sorted(name for name in found if not name.startswith("told-from-")), sorted([*rows, *names]))

    def test_plans(self):
        self.reasons(Case((), Lent(NEED, 1), 0), "plan", "plan-of-0-terminals", "plan-with-exactly-the-work-row",
                     "plan-filled-with-0", "plan-list-exactly-enough", "plan-more-rules-than-terminals")
        self.reasons(Case((3, 7, 8, 7, 2), Lent(NEED + 1, 9), 1), "plan", "plan-of-5-terminals",
                     "plan-with-a-longer-work-row", "plan-filled-with-a-small-number", "plan-list-longer",
                     "plan-1-command", "plan-a-give")
        self.reasons(Case((4, 5, 6) + TAKE, Lent(NEED, 9), 255), "plan", "plan-of-6-terminals",
                     "plan-with-exactly-the-work-row", "plan-filled-with-the-largest", "plan-list-longer",
                     "plan-2-commands", "plan-a-take", "plan-a-repeat", "plan-a-repeat-of-no-command",
                     "plan-a-command-behind-a-repeat", "plan-more-rules-than-terminals")
        self.reasons(Case((4, 5, 4, 5, *TAKE, *TAKE, 6, 6), Lent(NEED, 99), 7), "plan", "plan-of-12-terminals",
                     "plan-with-exactly-the-work-row", "plan-filled-with-a-mixture", "plan-list-longer",
                     "plan-1-command", "plan-a-take", "plan-a-repeat", "plan-a-repeat-within-a-repeat",
                     "plan-a-repeat-of-two-commands", "plan-more-rules-than-terminals")
        self.reasons(Case((1, *(7, 8) * 30, 7, 2), Lent(NEED, 34), 7), "plan", "plan-of-63-terminals",
                     "plan-with-exactly-the-work-row", "plan-filled-with-a-mixture", "plan-list-exactly-enough",
                     "plan-1-command", "plan-a-take", "plan-31-channels-of-a-command", "plan-fewer-rules-than-terminals")
        channels = (1, *(7, 8) * 7, 7, 2) + (1, *(7, 8) * 8, 7, 2)
        self.assertIn("plan-8-channels-of-a-command", reasons_of(Case(channels, Lent(NEED, 99), 7)))
        self.assertIn("plan-9-channels-of-a-command", reasons_of(Case(channels, Lent(NEED, 99), 7)))
        self.assertIn("plan-21-commands", reasons_of(Case(MOST, Lent(NEED, 64), 7)))
        self.assertIn("plan-64-rules", reasons_of(Case(MOST, Lent(NEED, 64), 7)))
        deep = (4, 5) * 21 + (6,) * 21
        self.assertIn("plan-21-repeats-within-each-other", reasons_of(Case(deep, Lent(NEED, 64), 7)))

    def test_none(self):
        kept = "none-with-exactly-the-work-row", "none-filled-with-0", "none-with-a-list-that-is-kept"
        empty = "none-with-exactly-the-work-row", "none-filled-with-0", "none-with-a-list-of-no-entry"
        self.reasons(Case((6,), Lent(NEED, 1), 0), "none", "none-of-1-terminals", *kept, "none-outside-at-close",
                     "none-at-the-first-terminal")
        self.reasons(Case((4, 5), Lent(NEED, 0), 0), "none", "none-of-2-terminals", *empty, "none-inside-at-end")
        self.reasons(Case((4, 6), Lent(NEED, 0), 0), "none", "none-of-2-terminals", *empty, "none-num-at-close")
        self.reasons(Case((1, 8), Lent(NEED, 0), 0), "none", "none-of-2-terminals", *empty, "none-channel-at-sep")
        self.reasons(Case((1, 7), Lent(NEED, 0), 0), "none", "none-of-2-terminals", *empty,
                     "none-after-a-channel-at-end")

    def test_14(self):
        self.reasons(Case(TAKE, Lent(NEED, 3), 0), "14-list-one-too-short", "14-list-filled-with-0")
        self.reasons(Case(TAKE, Lent(NEED + 1, 0), 1), "14-list-empty", "14-list-filled", "14-list-with-a-longer-work-row")
        self.reasons(Case(TAKE, Lent(NEED, 1), 1), "14-list-shorter", "14-list-filled")
        self.reasons(Case(TAKE, Lent(NEED - 1, 3), 1), "14-work-one-too-short", "14-work-and-the-list-too-short",
                     "14-work-of-plan")
        self.reasons(Case((1,), Lent(0, 3), 1), "14-work-empty", "14-work-of-none")
        self.reasons(Case((), Lent(9, 3), 1), "14-work-shorter", "14-work-of-plan")

    def test_22(self):
        def row(codes, *names, lent=Lent(NEED, 9)):
            self.reasons(Case(tuple(codes), lent, 0), "22", *names)
        row([0], "22-at-0", "22-code-0")
        row([1, 9, 2], "22-at-1", "22-code-9", "22-of-a-sentence-but-for-one-code")
        row([1, 7, 65535, 0], "22-at-2", "22-code-65535", "22-at-the-first-of-two-codes")
        row([1] * 63 + [257], "22-at-63", "22-code-further-past-8", "22-code-whose-low-byte-passes")
        row([32768, 7, 2], "22-at-0", "22-code-32768", "22-of-a-sentence-but-for-one-code")
        row([32770], "22-at-0", "22-code-of-K-or-L", "22-code-whose-low-byte-passes")
        row([33000], "22-at-0", "22-code-past-L")
        row([1] * 65, "22-at-64", "22-a-row-of-65", "order-22-before-14", lent=Lent(NEED - 1, 9))
        row([1] * 64 + [0, 1], "22-at-64", "22-code-0", "22-at-64-with-no-terminal-there", "22-a-row-of-66")
        row([1] * 65 + [0], "22-at-64", "22-at-64-with-no-terminal-behind", "22-a-row-of-66")
        row(TAKE * 22, "22-at-64", "22-at-64-of-a-sentence", "22-a-row-of-66")
        row([9] + [1] * 69, "22-at-0", "22-code-9", "22-at-a-code-of-a-row-that-is-too-long", "22-a-longer-row")
        row([1] * 65537, "22-at-64", "22-a-longer-row", "22-length-whose-low-8-bits-pass",
            "22-length-whose-low-16-bits-pass")

    def test_others(self):
        self.reasons(Room(), "room")
        self.reasons(Place(0), "byte-of-the-certificate", "byte-not-0")
        self.reasons(Place(182), "byte-of-the-certificate")
        self.reasons(Place(183), "byte-past-its-end", "byte-right-past-its-end")
        self.reasons(Place(262), "byte-past-its-end", "byte-whose-low-8-bits-are-a-place")
        self.reasons(Place(2 ** 32 + 6), "byte-past-its-end", "byte-whose-low-8-bits-are-a-place",
                     "byte-whose-low-16-bits-are-a-place", "byte-whose-low-32-bits-are-a-place")

    def test_names(self):
        self.assertEqual(len(REASONS), len(set(REASONS)))
        self.assertLessEqual(set(ENOUGH), set(REASONS))

    def test_changes(self):
        """A row of three terminals has each of its changes once: seven, dropped, doubled, exchanged at each place; any put in."""
        rows = list(every_change(TAKE))
        self.assertEqual(len(rows), 3 * 10 + 4 * 8)
        for row in ((1, 7, 3), (1, 2), (1, 7, 7, 2), (7, 1, 2), (6, 1, 7, 2), (1, 7, 2, 6)):
            self.assertIn(row, rows)
        rng = random.Random(1)
        lengths = [len(changed(rng, sentence(rng, 9))) - 9 for _ in range(300)]
        self.assertLessEqual({-9, -1, 0, 1}, set(lengths))


class MisreadingsTest(unittest.TestCase):
    def told(self, case, *names):
        self.assertEqual(sorted(told(case)), sorted(TOLD[name] for name in names))

    def test_each_is_told(self):
        """By some of a few cases, and not by all of them."""
        cases = [Case(row, Lent(work, length), 255) for work in (NEED - 1, NEED, NEED + 1) for length in (0, 3, 63, 99) for row in (
            (), TAKE, TAKE * 2, (4, 5, 6), (4, 5, 4, 5, 6, 6), (4, 5), (*TAKE, 6), (1, *(7, 8) * 8, 7, 2), (0,), (32768,), (9,) * 66,
            TAKE * 22, (1,) * 65, (1,) * 66 + (9,))] + [Place(place) for place in range(300)] + [Place(2 ** 32 + 6)]
        found = [name for case in cases for name in told(case)]
        self.assertEqual(set(found), set(TOLD.values()))
        self.assertLess(max(map(found.count, TOLD.values())), len(cases))

    def test_trees(self):
        rules = plan_of((1, 7, 8, 7, 2, 4, 5, 3, 7, 2, 6))
        self.assertEqual(rules, (2, 2, 1, 3, 7, 6, 5, 2, 1, 4, 6))
        root = tree_of(rules)
        self.assertEqual((root.rule, [child.rule for child in root.children]), (2, [2, 5]))
        self.assertEqual(behind_children(rules), (1, 6, 7, 3, 2, 1, 6, 4, 2, 5, 2))
        self.assertEqual(right_to_left(rules), (2, 5, 2, 4, 6, 1, 2, 3, 7, 6, 1))
        self.assertEqual(level_by_level(rules), (2, 2, 5, 1, 3, 2, 7, 1, 4, 6, 6))
        self.assertEqual(first_command_outside(rules), (2, 3, 7, 6, 2, 5, 2, 4, 6, 1, 1))

    def test_plans(self):
        listed = "rules-are-numbered-from-0", "rule-0-is-listed", "commands-alone-are-listed"
        self.told(Case((), Lent(NEED, 1), 0), "the-empty-row-has-no-plan", *listed, "a-list-is-long-enough-for-every-plan")
        orders = ("a-node-stands-behind-its-children", "children-stand-right-to-left", "P-is-K-P")
        zero = "codes-run-from-0", *listed
        self.told(Case((4, 5, 6), Lent(NEED, 64), 0), *zero, *orders, "each-rule-is-listed-once",
                  "a-repeat-needs-a-command")
        self.told(Case(TAKE, Lent(NEED, 64), 0), *zero, *orders)
        self.told(Case(TAKE * 2, Lent(NEED, 64), 0), *zero, *orders, "each-rule-is-listed-once", "rules-are-listed-level-by-level")
        self.told(Case((4, 5, 4, 5, *TAKE, 6, 6), Lent(NEED, 64), 0), *zero, *orders, "each-rule-is-listed-once",
                  "no-repeat-stands-within-a-repeat")
        self.told(Case((1, *(7, 8) * 7, 7, 2), Lent(NEED, 64), 0), *zero, *orders, "each-rule-is-listed-once")
        self.told(Case((1, *(7, 8) * 8, 7, 2), Lent(NEED, 64), 0), *zero, *orders, "each-rule-is-listed-once",
                  "there-are-at-most-eight-channels")
        self.told(Case((*TAKE, 6), Lent(NEED, 64), 0), "a-front-of-the-row-is-enough")
        self.told(Case((4, 5, *TAKE), Lent(NEED, 64), 0), "the-end-closes-every-repeat")
        self.told(Case((4, 5, 1), Lent(NEED, 64), 0))

    def test_lent(self):
        self.told(Case(TAKE, Lent(NEED + 1, 0), 1), "14-for-the-list-leaves-the-work-row", "the-whole-work-row-is-cleared",
                  *SIZED, "codes-run-from-0")
        self.told(Case((1,) * 64, Lent(NEED, 0), 1), "none-needs-a-list", "none-leaves-the-work-row", SIZED[0])
        self.told(Case(TAKE, Lent(NEED, 3), 0), "a-short-list-is-begun", "codes-run-from-0", "commands-alone-are-listed")
        self.told(Case(TAKE, Lent(NEED - 1, 9), 1), "every-14-clears-the-work-row", *SIZED)
        self.told(Case((2,), Lent(NEED - 1, 9), 0), *SIZED)
        self.told(Case(TAKE, Lent(NEED, 63), 0), "codes-run-from-0", "rules-are-numbered-from-0", "rule-0-is-listed",
                  "commands-alone-are-listed", "a-node-stands-behind-its-children", "children-stand-right-to-left", "P-is-K-P",
                  "a-list-is-long-enough-for-every-plan")

    def test_refusals(self):
        self.told(Case((9,), Lent(NEED - 1, 1), 0), "places-are-counted-from-1", "14-comes-before-22")
        self.told(Case((0,), Lent(NEED, 1), 0), "places-are-counted-from-1", "codes-run-from-0")
        self.told(Case((1, 32769), Lent(NEED, 1), 0), "places-are-counted-from-1", "nonterminals-pass")
        self.told(Case((1,) * 65, Lent(NEED, 1), 0), "places-are-counted-from-1", "a-long-row-is-at-fault-at-65",
                  "65-terminals-pass")
        self.told(Case((1,) * 66, Lent(NEED, 1), 0), "places-are-counted-from-1", "a-long-row-is-at-fault-at-65",
                  "a-long-row-is-at-fault-at-its-end")
        self.told(Case((1, 9) + (1,) * 65, Lent(NEED, 1), 0), "places-are-counted-from-1",
                  "a-long-row-comes-before-its-codes")
        self.told(Case((1,) * 66 + (9,), Lent(NEED, 1), 0), "places-are-counted-from-1", "a-long-row-is-at-fault-at-65",
                  "a-long-row-is-at-fault-at-its-end", "codes-past-place-64-come-first")

    def test_certificates(self):
        """The other rule orders are unambiguous too, with as many bytes; L → ch sep L lists the same rules."""
        for name, size in (("L-is-ch-sep-L", 98), ("P-is-K-P", 126)):
            other = certificates()[name]
            self.assertEqual(len(other), 183)
            self.assertEqual(sum(bin(byte).count("1") for byte in other), size)
        differing = sum(one != other for one, other in zip(certificate(), certificates()["L-is-ch-sep-L"]))
        found = [name for place in range(183) for name in told(Place(place))]
        self.assertEqual(found.count(TOLD["L-is-ch-sep-L"]), differing)
        self.assertEqual(differing, 13)
        self.told(Place(400))
        self.told(Place(2 ** 32 + 6), "a-place-is-cut-to-8-bits", "a-place-is-cut-to-16-bits", "a-place-is-cut-to-32-bits")
        self.told(Room())


if __name__ == "__main__":
    unittest.main()
