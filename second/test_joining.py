"""Tests of joining.py: figures by hand, every refusal, their order, names shown, misreadings."""

import random
import unittest

from join_misreadings import MISREADINGS
from join_pairs import HEATING, ROBOT, couple, couples, itself
from joining import EMPTY, Joined, Part, join, join_texts, join_written, shown
from spelling_reasons import as_declared
from tables import Refusal, check_table
from test_text import full, many, names, text
from text import AMPLE, Text, read_text
from trees import some_sentences, tree_count

P, K, T = 32768, 32769, 32770
MANY = 99999
LARGE = 2 ** 32, 2 ** 64 - 1
# By hand: the robot's rules with its own codes, then K→heat T, T→deg and T→T deg.
TABLE = (P, 0, P, 2, P, K, K, 2, 1, 3, K, 2, 2, 3, K, 2, 4, T, T, 1, 5, T, 2, T, 5)
JOINED = (b"terminals=take,give,vol,heat,deg\nnonterminals=P,K,T\nrule=P:\nrule=P: P K\n"
          b"rule=K: take vol\nrule=K: give vol\nrule=K: heat T\nrule=T: deg\nrule=T: T deg\n")
PARTS = [Part(1, 10, 4), Part(1, 15, 4), Part(1, 20, 3), Part(2, 10, 4), Part(2, 24, 3),
         Part(1, 37, 1), Part(1, 39, 1), Part(2, 41, 1)]

SMALL = b"terminals=a\nnonterminals=S\nrule=S: a\n"
ENDLESS = b"terminals=a\nnonterminals=S\nrule=S: S\n"
FEW = b"terminals=\nnonterminals=W\n"


class JoinTest(unittest.TestCase):
    def refused(self, robot, module, cause, position, entries=MANY):
        """All three answers for a pair that is refused otherwise than with 14."""
        refusal = Refusal(cause, position)
        for lent in {entries, 0}:
            self.assertEqual(join(robot, module, lent), refusal)
            self.assertEqual(join_written(robot, module, lent), refusal)
        for symbol in (0, 1, *LARGE):
            self.assertEqual(shown(robot, module, symbol), EMPTY)

    def joined(self, robot, module, written, t, n, states):
        result = join(robot, module, MANY)
        self.assertEqual(join_written(robot, module, MANY), written)
        self.assertEqual((result.terminals, result.nonterminals, result.states), (t, n, states))
        return result.table


class HeatingTest(JoinTest):
    """A heating module that has take and vol in another case, and one of the robot's rules."""

    def test_table_and_text(self):
        self.assertEqual(self.joined(ROBOT, HEATING, JOINED, 5, 3, 22), TABLE)
        self.assertEqual((len(TABLE), len(JOINED)), (25, 147))
        self.assertEqual(read_text(JOINED, AMPLE).table, TABLE)

    def test_names_shown(self):
        self.assertEqual([shown(ROBOT, HEATING, symbol) for symbol in range(8)], PARTS)
        names_shown = [(b"", ROBOT, HEATING)[part.text][part.start:part.start + part.length]
                       for part in PARTS]
        self.assertEqual(b" ".join(names_shown), b"take give vol heat deg P K T")
        for symbol in (8, 9, 65536, *LARGE):
            self.assertEqual(shown(ROBOT, HEATING, symbol), EMPTY)

    def test_14(self):
        self.assertIsInstance(join(ROBOT, HEATING, 25), Text)
        self.assertEqual(join_written(ROBOT, HEATING, 147), JOINED)
        for entries, room in ((24, 146), (0, 0)):
            self.assertEqual(join(ROBOT, HEATING, entries), Refusal(14, 0))
            self.assertEqual(join_written(ROBOT, HEATING, room), Refusal(14, 0))

    def test_the_other_way_round(self):
        """The start is T, names come as Take and Vol, and P has no way from T."""
        table = self.joined(HEATING, ROBOT, text(
            b"terminals=heat,Vol,Take,deg,give", b"nonterminals=T,k,P", b"rule=k: heat T", b"rule=T: deg",
            b"rule=k: Take Vol", b"rule=T: T deg", b"rule=P:", b"rule=P: P k", b"rule=k: give Vol"), 5, 3, 22)
        self.assertEqual(table[-4:], (K, 2, 5, 2))
        self.assertEqual(shown(HEATING, ROBOT, 4), Part(2, 15, 4))


class JoinedTest(JoinTest):
    def test_nothing_is_added(self):
        for module in (ROBOT, ROBOT.replace(b"take", b"Take").replace(b"P", b"p"),
                       b"terminals=VOL,take\nnonterminals=k\nrule=K: Take vol\n",
                       b"terminals=\nnonterminals=p\n", b"terminals=\nnonterminals=k,P\nrule=p: p K\nrule=P:\n"):
            self.joined(ROBOT, module, ROBOT, 3, 2, 14)

    def test_only_names(self):
        self.joined(SMALL, b"terminals=b,A\nnonterminals=W,s,X\n", text(
            b"terminals=a,b", b"nonterminals=S,W,X", b"rule=S: a"), 2, 3, 6)

    def test_lists_without_terminals(self):
        none = b"terminals=\nnonterminals=S\nrule=S:\n"
        self.joined(none, SMALL, text(b"terminals=a", b"nonterminals=S", b"rule=S:", b"rule=S: a"), 1, 1, 7)
        self.joined(SMALL, none, text(b"terminals=a", b"nonterminals=S", b"rule=S: a", b"rule=S:"), 1, 1, 7)
        self.joined(none, FEW, text(b"terminals=", b"nonterminals=S,W", b"rule=S:"), 0, 2, 5)

    def test_uses_are_written_as_declared(self):
        self.joined(b"terminals=Ab\nnonterminals=Sx\nrule=sX: AB\n", b"terminals=aB,q\nnonterminals=sx\nrule=SX: ab Q\n",
                    text(b"terminals=Ab,q", b"nonterminals=Sx", b"rule=Sx: Ab", b"rule=Sx: Ab q"), 2, 1, 9)

    def test_names_that_are_not_the_same(self):
        """0 and P differ by 32, as - and m do; they are two names."""
        self.joined(b"terminals=0\nnonterminals=S-\nrule=S-: 0\n", b"terminals=P\nnonterminals=Sm\nrule=Sm: P\n", text(
            b"terminals=0,P", b"nonterminals=S-,Sm", b"rule=S-: 0", b"rule=Sm: P"), 2, 2, 8)

    def test_a_module_may_lack_sentences(self):
        self.joined(SMALL, ENDLESS, text(b"terminals=a", b"nonterminals=S", b"rule=S: a", b"rule=S: S"), 1, 1, 8)

    def test_the_joined_text_and_either_text_give_it_again(self):
        for pair in couples(random.Random(1)):
            joined = join_texts(*pair)
            for module in (*pair, joined.text):
                self.assertEqual(join_texts(joined.text, module).text, joined.text)

    def test_a_text_joined_to_itself(self):
        for robot, module in itself(random.Random(1)):
            self.assertEqual(join_written(robot, module, MANY), as_declared(robot))

    def test_trees_of_the_robot_are_trees_of_the_joined_one(self):
        rng = random.Random(1)
        for _ in range(150):
            robot, module = couple(rng)
            first, joined = read_text(robot, AMPLE), join(robot, module, MANY)
            own, other = check_table(*first[:3]), check_table(*joined[:3])
            self.assertEqual(other.rules[:len(own.rules)], own.rules)
            for sentence in some_sentences(rng, own, 3, 6):
                self.assertGreaterEqual(tree_count(other, sentence), tree_count(own, sentence))


class RefusalTest(JoinTest):
    """Most pairs also have faults that come after the one that is given."""

    def test_the_robots_text(self):
        crossed = b"terminals=S\nnonterminals=a\n"
        for robot, cause, position in [
            (b"", 16, 1), (SMALL[:-1], 16, 3), (b"\0" * 262145, 16, 0), (SMALL + b"rule=S: b\n", 17, 4),
            (b"terminals=a,A\nnonterminals=S\n", 18, 1), (b"terminals=a\nnonterminals=S,A\n", 18, 2),
            (b"terminals=a\nnonterminals=\n", 1, 2), (SMALL + b"rule=S:" + b" a" * 13 + b"\n", 4, 4),
            (SMALL + b"rule=s: A\n", 6, 3), (ENDLESS, 19, 0), (FEW, 19, 0), (many(401), 7, 1200),
            (full(b"rule=W:"), 8, 1099), (b"terminals=" + names(2001) + b"\nnonterminals=S\n", 1, 1),
        ]:
            for module in (SMALL, b"", robot, crossed, crossed[:-1]):
                self.refused(robot, module, cause, position)

    def test_the_modules_text(self):
        """Never 19; there are names of two kinds beside most of these faults."""
        front = b"terminals=s\nnonterminals=a,W\n"
        for module, cause, position in [
            (b"", 16, 1), (b"terminals=s\n", 16, 2), (front[:-1], 16, 2), (front + b"rule", 16, 3),
            (b"\0" * 262145, 16, 0), (b"terminals=s,S\nnonterminals=a\n", 18, 1),
            (b"terminals=s\nnonterminals=a,A\n", 18, 2), (b"terminals=s\nnonterminals=\n", 1, 2),
            (front + b"rule=W: x\n", 17, 3), (front + b"rule=W:" + b" s" * 13 + b"\n", 4, 3),
            (front + b"rule=W:\nrule=w:\n", 6, 2), (many(401), 7, 1200), (full(b"rule=W:"), 8, 1099),
            (b"terminals=s," + names(2000) + b"\nnonterminals=a\n", 1, 1),
        ]:
            self.refused(SMALL, module, cause, position)

    def test_20(self):
        for module, line in [
            (b"terminals=S\nnonterminals=W\n", 1), (b"terminals=b,s\nnonterminals=W\n", 1),
            (b"terminals=\nnonterminals=a\n", 2), (b"terminals=b\nnonterminals=S,W,A\n", 2),
            (b"terminals=s\nnonterminals=A\n", 1), (b"terminals=S\nnonterminals=a\n", 1),
        ]:
            self.refused(SMALL, module, 20, line)

    def test_20_before_the_faults_of_the_joined_text(self):
        self.refused(SMALL, b"terminals=s," + names(1999) + b"\nnonterminals=W\n", 20, 1)
        self.refused(SMALL, b"terminals=" + names(2000) + b"\nnonterminals=A\n", 20, 2)
        self.refused(SMALL, b"terminals=s\nnonterminals=" + names(2000) + b"\n", 20, 1)
        self.refused(many(400), b"terminals=\nnonterminals=W,n7\nrule=W:\n", 20, 2)
        self.refused(full(), b"terminals=w\nnonterminals=V\nrule=V:\n", 20, 1)

    def test_1_of_the_joined_text(self):
        robot = b"terminals=" + names(1999) + b"\nnonterminals=S,W\nrule=S:\n"
        others = names(2000).replace(b"n", b"m")
        self.refused(robot, b"terminals=x,N7,y\nnonterminals=W\n", 1, 1)
        self.refused(robot, b"terminals=x,y\nnonterminals=" + others + b"\n", 1, 1)
        self.refused(robot, b"terminals=x\nnonterminals=" + others + b"\n", 1, 2)
        self.assertEqual(join(robot, b"terminals=N7,x,n8\nnonterminals=s\nrule=s: x\n", 5).table, (P, 0, P, 1, 2000))
        robot = b"terminals=x,y\nnonterminals=" + names(1999) + b"\nrule=n0:\n"
        self.refused(robot, b"terminals=x\nnonterminals=W,N7,V\nrule=W: x\n", 1, 2)
        self.assertEqual(join(robot, b"terminals=\nnonterminals=W,N7\nrule=W: n7 w\n", 6).table,
                         (P, 0, P + 1999, 2, P + 7, P + 1999))

    def test_7_of_the_joined_text(self):
        lists = b"terminals=N2,N1,N0\nnonterminals=s\n"
        self.refused(many(400), lists + b"rule=S: n2 n1\n", 7, 1200)
        self.refused(many(400), lists + b"rule=S: n0\nrule=S:\nrule=S: n1\n", 7, 1200)
        self.refused(many(399), lists + b"rule=S: n0 n0\nrule=S: n0\nrule=S:\n", 7, 1201)
        self.assertEqual(join(many(400), lists + b"rule=S: n0\nrule=S: N2\n", 1200).states, 804)
        self.assertEqual(join(many(400), many(400), 1200).states, 804)

    def test_8_of_the_joined_text(self):
        front = b"terminals=n0\nnonterminals=s\n"
        self.refused(full(), b"terminals=\nnonterminals=s,W\nrule=w:\n", 8, 1099)
        self.refused(full(), front + b"rule=s: N0 N0 N0 N0 n0\nrule=S:\n", 8, 1099)
        short = full().replace(b"rule=S: n0 n0 n0 n0 n0\n", b"rule=S: n0\n")      # 1,095 entries, Q = 1,020
        self.assertEqual(join(short, front + b"rule=s: s s s\n", 1100).states, 1024)
        self.refused(short, front + b"rule=s: s s s s\nrule=S:\n", 8, 1095)
        self.refused(short, front + b"rule=s: s s\nrule=S: n0\nrule=S: S\nrule=S:\n", 8, 1099)
        self.assertEqual(join(full(), full(), 1099).states, 1024)

    def test_7_and_8_in_order(self):
        """399 rules of 20 × 14 + 379 × 3 = 1,417 entries, Q = 4 + 20 × 13 + 379 × 2 = 1,022."""
        robot = many(379, b"".join(b"rule=S:" + b" n%d" % i * 12 + b"\n" for i in range(20)))
        self.assertEqual(join(robot, FEW, 1417).states, 1022)
        self.refused(robot, FEW + b"rule=W: W W\nrule=W:\nrule=W: W\n", 8, 1417)
        self.refused(robot, FEW + b"rule=W:\nrule=W: W\n", 7, 1419)
        self.refused(robot, FEW + b"rule=W: W\nrule=W:\n", 7, 1420)


class MisreadingsTest(JoinTest):
    """For each misreading a pair that it answers otherwise, by hand."""

    PAIRS = {
        "the-modules-names-come-first": (ROBOT, HEATING),
        "names-are-compared-byte-for-byte": (SMALL, b"terminals=A\nnonterminals=S\n"),
        "the-modules-rules-come-first": (SMALL, b"terminals=\nnonterminals=S\nrule=S:\n"),
        "rules-that-are-there-are-added-again": (SMALL, SMALL),
        "rules-are-compared-by-each-texts-codes": (SMALL, b"terminals=b\nnonterminals=S\nrule=S: b\n"),
        "the-start-is-the-modules": (SMALL, b"terminals=\nnonterminals=W\nrule=W:\n"),
        "the-modules-spelling-is-taken": (SMALL, b"terminals=A\nnonterminals=S\n"),
        "rules-are-written-as-they-were-spelled": (SMALL, b"terminals=\nnonterminals=S\nrule=s:\n"),
        "symbols-are-numbered-text-by-text": (SMALL, b"terminals=b\nnonterminals=S\n"),
        "20-is-at-2-for-a-terminal": (SMALL, b"terminals=S\nnonterminals=W\n"),
        "20-is-at-the-robots-line": (SMALL, b"terminals=\nnonterminals=A\n"),
        "20-comes-before-the-modules-faults": (SMALL, b"terminals=S\nnonterminals=W\nrule\n"),
        "the-modules-faults-come-first": (SMALL[:-1], b""),
        "a-module-may-use-the-robots-names": (SMALL, FEW + b"rule=W: a\n"),
        "a-module-needs-a-sentence": (SMALL, FEW),
        "the-robot-may-lack-sentences": (ENDLESS, SMALL),
        "20-comes-after-1-7-and-8": (SMALL, b"terminals=" + names(2000) + b"\nnonterminals=A\n"),
        "shared-names-are-counted-twice": (many(400), b"terminals=" + names(1601) + b"\nnonterminals=S\n"),
        "equal-rules-are-counted": (many(400), many(1)),
        "offsets-are-counted-from-the-robots-end": (many(400), many(1).replace(b" n", b" n0 n")),
    }

    def test_each_is_told(self):
        self.assertEqual(list(self.PAIRS), list(MISREADINGS))
        for name, pair in self.PAIRS.items():
            self.assertNotEqual(MISREADINGS[name](*pair), join_texts(*pair), name)

    def test_what_they_answer(self):
        for name, answer in [
            ("names-are-compared-byte-for-byte", (18, 1)), ("rules-that-are-there-are-added-again", (6, 3)),
            ("20-is-at-2-for-a-terminal", (20, 2)), ("20-is-at-the-robots-line", (20, 1)),
            ("20-comes-before-the-modules-faults", (20, 1)), ("the-modules-faults-come-first", (16, 1)),
            ("a-module-needs-a-sentence", (19, 0)), ("20-comes-after-1-7-and-8", (1, 1)),
            ("shared-names-are-counted-twice", (1, 1)), ("equal-rules-are-counted", (7, 1200)),
            ("offsets-are-counted-from-the-robots-end", (7, 0)),
        ]:
            self.assertEqual(MISREADINGS[name](*self.PAIRS[name]), answer, name)
        for name, written in [
            ("a-module-may-use-the-robots-names", b"terminals=a\nnonterminals=S,W\nrule=S: a\nrule=W: a\n"),
            ("the-modules-rules-come-first", SMALL.replace(b"rule=", b"rule=S:\nrule=")),
            ("rules-are-compared-by-each-texts-codes", b"terminals=a,b\nnonterminals=S\nrule=S: a\n"),
            ("the-modules-spelling-is-taken", SMALL.replace(b"a\n", b"A\n")),
            ("rules-are-written-as-they-were-spelled", SMALL + b"rule=s:\n"),
        ]:
            self.assertEqual(MISREADINGS[name](*self.PAIRS[name]).text, written, name)

    def test_good_pairs_are_joined_alike(self):
        """A module that shares nothing and adds one rule is told from few of them."""
        pair = SMALL, b"terminals=b\nnonterminals=W\nrule=W: b b\n"
        self.assertIsInstance(join_texts(*pair), Joined)
        told = [name for name, misread in MISREADINGS.items() if misread(*pair) != join_texts(*pair)]
        self.assertEqual(told, ["the-modules-names-come-first", "the-modules-rules-come-first",
                                "the-start-is-the-modules", "symbols-are-numbered-text-by-text"])


if __name__ == "__main__":
    unittest.main()
