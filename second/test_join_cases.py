"""Tests of the cases of joins: their bytes, the lines, the sorting by reasons."""

import random
import unittest

import join_faults
import join_limits
import join_pairs
from case_files import decode_all
from file_tests import FileTests
from join_cases import JOIN, SHOWN, TEXT, join_answer, shown_answer, text_answer
from join_inputs import MOST_ENTRIES, MOST_ROOM, Case
from join_misreadings import MISREADINGS
from join_pair_reasons import pair_reasons
from join_pairs import HEATING, ROBOT
from join_reasons import ENOUGH, JOIN_REASONS, PART_REASONS, TEXT_REASONS
from joining import Joined, join_texts, joined_list, joined_rules, sources, text_of
from tables import Refusal
from test_joining import ENDLESS, FEW, JOINED, SMALL, TABLE
from test_text import full, many, names

WORD = 2 ** 32
LAST = 2 ** 64 - 1


class LentTests(FileTests):
    CASE = Case(b"ab", b"\n", 258)
    BYTES = b"\2\0\0\0ab" + b"\1\0\0\0\n" + b"\2\1\0\0"

    def test_too_large_numbers_are_refused(self):
        for data in (b"\xff" * 999999, bytes(4) + b"\xff" * 999999, bytes(8) + b"\xff" * 4):
            with self.assertRaises(ValueError):
                list(decode_all(self.KIND, data))


class JoinFileTest(LentTests, unittest.TestCase):
    KIND = JOIN
    DIGEST = "192dab5851ebad56bdc6ce274c7c2f2367a6253190651884d5c39a075c2842c7"


class TextFileTest(LentTests, unittest.TestCase):
    KIND = TEXT
    DIGEST = "319581668a9dbb8853d526a04b57ca7d2bd6966b0938d34cab558b746bb5d173"


class ShownFileTest(FileTests, unittest.TestCase):
    KIND = SHOWN
    DIGEST = "514c2a43a4b309d4a7d350cae1406406d17230fd5798c94e177e9235241be80e"
    CASE = Case(b"ab", b"\n", LAST - 1)
    BYTES = b"\2\0\0\0ab" + b"\1\0\0\0\n" + b"\xfe" + b"\xff" * 7


class AnswerTest(unittest.TestCase):
    def test_joins(self):
        line = "joined terminals=5 nonterminals=3 states=22 table=" + ",".join(map(str, TABLE))
        self.assertEqual(join_answer(Case(ROBOT, HEATING, 25)), line)
        self.assertEqual(join_answer(Case(ROBOT, HEATING, 24)), "refused=14 at=0")
        self.assertEqual(join_answer(Case(SMALL, b"terminals=S\nnonterminals=a\n", 0)), "refused=20 at=1")
        self.assertEqual(join_answer(Case(ENDLESS, SMALL, 9)), "refused=19 at=0")
        self.assertEqual(join_answer(Case(SMALL, ENDLESS, 9)),
                         "joined terminals=1 nonterminals=1 states=8 table=32768,1,1,32768,1,32768")

    def test_texts(self):
        self.assertEqual(text_answer(Case(ROBOT, HEATING, 147)), "written=147 text=" + JOINED.hex())
        self.assertEqual(text_answer(Case(ROBOT, HEATING, 146)), "refused=14 at=0")
        self.assertEqual(text_answer(Case(SMALL, SMALL[:-1], 0)), "refused=16 at=3")

    def test_parts(self):
        for symbol, line in [
            (2, "text=1 start=20 length=3"), (3, "text=2 start=10 length=4"), (6, "text=1 start=39 length=1"),
            (7, "text=2 start=41 length=1"), (8, "text=0 start=0 length=0"), (WORD, "text=0 start=0 length=0"),
        ]:
            self.assertEqual(shown_answer(Case(ROBOT, HEATING, symbol)), "shown " + line)
        self.assertEqual(shown_answer(Case(ENDLESS, SMALL, 0)), "shown text=0 start=0 length=0")


class InputsTest(unittest.TestCase):
    def test_good_pairs_are_joined(self):
        for group in join_pairs.GROUPS[1:]:
            for pair in group(random.Random(1)):
                self.assertIsInstance(join_texts(*pair), Joined, group.__name__)

    def test_pairs_at_fault(self):
        def causes(group):
            return {join_texts(*pair).cause for pair in group(random.Random(1))}
        alone = {1, 4, 6, 16, 17, 18}
        self.assertEqual(causes(join_faults.names_of_two_kinds), {20})
        self.assertEqual(causes(join_faults.module_at_fault), alone)
        self.assertEqual(causes(join_faults.undeclared), {17})
        self.assertEqual(causes(join_faults.robot_at_fault), alone)
        self.assertEqual(causes(join_faults.both_at_fault), alone)
        self.assertEqual(causes(join_faults.too_long), {16})

    def test_pairs_at_the_limits(self):
        def causes(group):
            results = [join_texts(*pair) for pair in group(random.Random(1))]
            return {result.cause if isinstance(result, Refusal) else 0 for result in results}
        for group, found in [
            (join_limits.many_names, {0, 1}), (join_limits.many_of_both_kinds, {0, 1}),
            (join_limits.many_and_of_two_kinds, {20}), (join_limits.many_rules, {0, 7}),
            (join_limits.many_states, {0, 8}), (join_limits.many_rules_and_states, {7, 8}),
            (join_limits.names_and_rules, {1, 20}), (join_limits.each_alone, {1, 7, 8}),
            (join_limits.longest, {0, 1, 7}),
        ]:
            self.assertEqual(causes(group), found, group.__name__)

    def test_the_longest_joined_text(self):
        pairs = list(join_limits.longest(random.Random(1)))
        joined = join_texts(*pairs[0])
        self.assertEqual((len(joined.text), len(joined.read.table)), (82743, MOST_ENTRIES))
        self.assertLess(len(joined.text), MOST_ROOM)

    def test_no_joined_text_is_too_long(self):
        """Both texts with 2,000 names of 15 bytes in each list, 400 rules and 1,024 states, nothing shared."""
        pair = list(join_limits.longest(random.Random(1)))[-1]
        robot, module = sources(*pair)
        both = [joined_list(robot.terminals, module.terminals), joined_list(robot.nonterminals, module.nonterminals),
                joined_rules(robot.rules, module.rules)]
        self.assertEqual(list(map(len, both)), [4000, 4000, 800])
        self.assertEqual(len(text_of(*both)), 165463)
        self.assertEqual(join_texts(*pair), Refusal(1, 1))


class PairReasonsTest(unittest.TestCase):
    def reasons(self, robot, module, *names):
        self.assertEqual(sorted(pair_reasons(robot, module)), sorted(names))

    def joined(self, robot, module, *names):
        self.reasons(robot, module, "joined", *("joined-" + name for name in names))

    def test_refused(self):
        crossed = b"terminals=S\nnonterminals=a\n"
        self.reasons(ENDLESS, SMALL, "robot-19")
        self.reasons(ENDLESS, crossed[:-1], "robot-19", "order-robot-19-before-the-module", "order-robot-before-20")
        self.reasons(b"a" * 262145, SMALL, "robot-16", "robot-16-at-0")
        self.reasons(SMALL, b"", "module-16")
        self.reasons(SMALL, crossed + b"rule=b:\n", "module-17", "order-module-17-before-20")
        self.reasons(SMALL, crossed, "20-at-1", "order-20-at-1-before-20-at-2")
        self.reasons(SMALL, crossed.lower(), "20-at-1", "20-by-case-at-1", "order-20-at-1-before-20-at-2")
        self.reasons(SMALL, b"terminals=\nnonterminals=A\n", "20-at-2", "20-by-case-at-2")
        self.reasons(SMALL, b"terminals=%s\nnonterminals=a\n" % names(2000), "20-at-2", "order-20-before-1-at-1")

    def test_limits(self):
        two = b"terminals=%s\nnonterminals=%s\n" % (names(2000), names(2000).replace(b"n", b"m"))
        self.reasons(SMALL, two, "1-at-1-by-one", "order-1-at-1-before-1-at-2")
        self.reasons(many(400), FEW + b"rule=W:\n", "7-the-first-rule-that-is-added")
        self.reasons(many(399), b"terminals=n0\nnonterminals=S\nrule=S:\nrule=S: n0\nrule=S: S\n",
                     "7-behind-rules-that-are-added", "7-and-a-rule-that-is-there")
        self.reasons(full(), FEW + b"rule=W:\n", "8-by-one-state")
        self.reasons(full(), FEW + b"rule=W: W\nrule=W:\n", "8-by-more")

    def test_joined(self):
        self.joined(SMALL, SMALL, "nothing-is-added", "the-robots-own-text", "the-modules-start-is-the-robots",
                    "a-shared-terminal", "a-shared-nonterminal", "a-rule-that-is-there",
                    "every-rule-of-the-module-is-there")
        self.joined(SMALL, FEW, "only-names-are-added", "a-module-without-rules", "a-module-without-terminals",
                    "the-modules-start-is-added", "no-name-is-shared", "an-added-nonterminal")
        self.joined(SMALL, b"terminals=\nnonterminals=s\nrule=S: s\n", "only-rules-are-added",
                    "a-module-without-a-sentence", "a-module-without-terminals", "the-modules-start-is-the-robots",
                    "a-shared-nonterminal", "a-shared-name-in-another-case", "every-shared-name-in-another-case",
                    "an-added-rule-that-differs-in-one-symbol")
        self.joined(ROBOT, HEATING, "the-modules-start-is-added", "a-shared-terminal", "a-shared-nonterminal",
                    "a-shared-name-in-another-case", "every-shared-name-in-another-case", "an-added-terminal",
                    "an-added-nonterminal", "an-added-name-before-a-shared-one", "a-rule-that-is-there",
                    "a-rule-that-is-there-in-another-case", "a-rule-that-is-there-with-other-codes",
                    "a-rule-that-is-there-behind-an-added-one")


class ReasonsTest(unittest.TestCase):
    def reasons(self, kind, case, *names):
        """Reasons beside those of the pair and of misreadings."""
        found = [name for name in kind.reasons_of(case) if not name.startswith("told-from-")]
        self.assertEqual(sorted(set(found) - set(pair_reasons(case.robot, case.module))), sorted(names))

    def test_lent(self):
        for kind, needed in ((JOIN, 25), (TEXT, 147)):
            for number, names in [
                (needed, ["exactly-enough"]), (needed + 1, ["longer"]), (needed - 1, ["14-by-one"]),
                (0, ["14-nothing-lent"]), (7, ["14-otherwise"]),
            ]:
                self.reasons(kind, Case(ROBOT, HEATING, number), *names)
            self.reasons(kind, Case(ENDLESS, b"", 0), "order-robot-before-14")
            self.reasons(kind, Case(SMALL, b"", 0), "order-module-before-14")
            self.reasons(kind, Case(SMALL, b"terminals=S\nnonterminals=W\n", 0), "order-20-before-14")
            self.reasons(kind, Case(many(400), FEW + b"rule=W:\n", 0), "order-7-before-14")
            self.reasons(kind, Case(many(400), FEW + b"rule=W:\n", 9))

    def parts(self, case, *names):
        found = [name for name in SHOWN.reasons_of(case) if name.startswith(("shown-", "empty-"))]
        self.assertEqual(sorted(found), sorted(names))

    def test_parts(self):
        for symbol, names in [
            (0, ["shown-a-terminal-of-both-in-another-case", "shown-symbol-0"]),
            (1, ["shown-a-terminal-of-the-robot"]),
            (4, ["shown-a-terminal-of-the-module", "shown-the-last-terminal"]),
            (5, ["shown-a-nonterminal-of-the-robot", "shown-the-first-nonterminal"]),
            (7, ["shown-a-nonterminal-of-the-module", "shown-the-last-symbol"]),
            (8, ["empty-one-past-the-last"]), (9, ["empty-further-past-the-last"]),
            (65536 + 7, ["empty-that-wraps-at-16-bits"]), (65536 + 8, []), (LAST, ["empty-the-largest-number"]),
            (WORD, ["empty-2-to-the-32", "empty-that-wraps-at-16-bits", "empty-that-wraps-at-32-bits"]),
        ]:
            self.parts(Case(ROBOT, HEATING, symbol), *names)
        self.parts(Case(SMALL, SMALL, 0), "shown-a-terminal-of-both", "shown-symbol-0", "shown-the-last-terminal")
        for robot, module, what in [
            (ENDLESS, SMALL, "robot"), (SMALL, b"", "module"), (SMALL, b"terminals=S\nnonterminals=W\n", "20"),
            (many(400), FEW + b"rule=W:\n", "7"), (full(), FEW + b"rule=W:\n", "8"),
        ]:
            self.parts(Case(robot, module, 1), "empty-a-name-of-the-robot-with-%s-refused" % what)
            self.parts(Case(robot, module, 5000))

    def test_misreadings(self):
        every = {"told-from-" + name for name in MISREADINGS}
        for reasons in (JOIN_REASONS, TEXT_REASONS, PART_REASONS):
            self.assertEqual(len(reasons), len(set(reasons)))
            self.assertLessEqual({name for name in reasons if name.startswith("told-from-")}, every)
        self.assertLessEqual(set(ENOUGH), {*JOIN_REASONS, *TEXT_REASONS, *PART_REASONS})
        self.assertEqual(every, {name for name in (*TEXT_REASONS, *PART_REASONS) if name in every})
        told = TEXT.reasons_of(Case(SMALL, b"terminals=A\nnonterminals=S\n", 99))
        self.assertIn("told-from-the-modules-spelling-is-taken", told)
        self.assertIn("told-from-names-are-compared-byte-for-byte", told)


if __name__ == "__main__":
    unittest.main()
