"""Tests of two_trees.py and explained.py."""

import re
import unittest
from unittest.mock import patch

from corpus import AMBIGUOUS, FALSE_ALARM, entries, found_in, text_in
from explained import explained, folded, is_mirrored, of_strings, of_trees, row_of, smallest
from judge import certified, judged_at
from readings import named_in, sides
from searches import needed, search
from tables import START
from trees import MOST, tree_count
from triples import triples_of
from two_trees import two_trees

IF = b"terminals=if,else,x\nnonterminals=S\nrule=S: if S\nrule=S: if S else S\nrule=S: x\n"
TOLD = """ambiguous: `if if S else S` has two trees, for example `if if x else x`
after `if if S`: left goes on with `else`, right ends `S: if S`, line 3
left tree:
S: if S  (line 3)
  if
  S: if S else S  (line 4)
right tree:
S: if S else S  (line 4)
  if
  S: if S  (line 3)
  else S
"""
LISTS = b"terminals=x,sep,end\nnonterminals=S,L\nrule=S: L end\nrule=L: L sep L\nrule=L: x\n"
FEW = 3000                # pairs of stacks


def row_by_rules(grammar, tree, code=START):
    """The row of a tree, by another way than explained.py: it is read from the left."""
    row, expected = [], [code]
    for node in tree:
        code = expected.pop()
        if node > 0:
            rule = grammar.rules[node - 1]
            assert rule.left == code
            expected += reversed(rule.right)
        else:
            assert -node == code
            row.append(code)
    assert not expected
    return row


def strings_of(found):
    return sides(triples_of(found.grammar), search(*found.table, needed(found.grammar.states)).witness)


class TwoTreesTest(unittest.TestCase):
    def test_corpus(self):
        """Every ambiguous grammar has its two trees, which are trees of one sentence and differ."""
        count = 0
        for entry in entries():
            if entry.truth == AMBIGUOUS:
                found = found_in(text_in(entry.name))
                trees = two_trees(found.grammar)
                self.assertIsNotNone(trees, entry.name)
                self.assertNotEqual(trees.left, trees.right)
                for tree in trees.left, trees.right:
                    self.assertEqual(tuple(row_by_rules(found.grammar, tree)), trees.sentence)
                self.assertEqual(tree_count(found.grammar, trees.sentence), MOST)
                self.part(found, trees)
                count += 1
        self.assertEqual(count, 36)

    def part(self, found, trees):
        """The smallest part has one row and two trees, also when it is folded; left is the strings' left."""
        grammar, strings = found.grammar, strings_of(found)
        code, left, right = smallest(grammar, trees.left, trees.right)
        self.assertEqual(row_by_rules(grammar, left, code), row_by_rules(grammar, right, code))
        short = folded(grammar, left, right), folded(grammar, right, left)
        self.assertNotEqual(*short)
        self.assertEqual(row_by_rules(grammar, short[0], code), row_by_rules(grammar, short[1], code))
        letters = of_strings(strings)
        if is_mirrored(of_trees(grammar, code, *short), letters):
            short = short[::-1]
        trees = of_trees(grammar, code, *short)
        self.assertFalse(is_mirrored(trees, letters))
        ends = [[side.move[0] for side in (parting.left, parting.right)] for parting in (letters, trees)]
        self.assertTrue(len(set(ends[0])) == 1 or len(set(ends[1])) == 1 or ends[0] == ends[1])

    def test_false_alarms(self):
        """Where there are no two trees none are found, however little is looked at."""
        for entry in entries():
            if entry.truth == FALSE_ALARM:
                self.assertIsNone(two_trees(found_in(text_in(entry.name)).grammar, FEW))

    def test_explanation(self):
        found = found_in(IF)
        trees = two_trees(found.grammar)
        self.assertEqual(explained(named_in(IF), trees, strings_of(found)).lines, TOLD)
        mirrored = trees._replace(left=trees.right, right=trees.left)
        self.assertEqual(explained(named_in(IF), mirrored, strings_of(found)).lines, TOLD)

    def test_places(self):
        """The place of the rule to look at, with two trees and without them."""
        self.assertEqual(certified(IF).parting,
                         (3, 6, "ambiguous: after 'if if S' this rule ends, or line 4 goes on with 'else'"))
        self.assertEqual(certified(text_in("row-odd-a")).parting[2].split(":")[0], "potential")
        self.assertIsNone(certified(text_in("row-a")).parting)
        cycle = b"terminals=a\nnonterminals=S\nrule=S: S\nrule=S: a\n"
        self.assertEqual(certified(cycle).parting, (3, 6, "ambiguous: after 'a' this rule ends, or the sentence ends"))

    def test_the_declared_spelling(self):
        """Document 02, [9]: the trees have each name as it is declared."""
        other = IF.replace(b"rule=S: if S\n", b"rule=s: IF S\n").replace(b"S else S", b"s Else s")
        other = other.replace(b": x", b": X")
        self.assertEqual(certified(other), certified(IF))
        self.assertIn(TOLD, certified(other).printed)

    def test_phrase(self):
        """A phrase of another nonterminal stands in a sentence."""
        answer = certified(LISTS)
        self.assertEqual(answer.status, 1)
        told = "ambiguous: the L `L sep L sep L` has two trees, in a sentence: `x sep x sep x end`\n"
        self.assertIn(told, answer.printed)
        self.assertEqual(len(re.findall(r"(?m)^left tree:$|^right tree:$", answer.printed)), 2)

    def test_two_trees_end_the_search(self):
        """Two trees leave no certificate with any callers, so that 1 and 2 are not tried."""
        operators = b"terminals=o,p,n\nnonterminals=E\nrule=E: E o E\nrule=E: E p E\nrule=E: n E\nrule=E: n\n"
        asked = []
        with patch("judge.judged_at", side_effect=lambda found, m: asked.append(m) or judged_at(found, m)):
            self.assertEqual(certified(operators).status, 1)
            self.assertEqual(asked, [0])
            self.assertEqual(certified(text_in("left-and-right")).status, 0)
            self.assertEqual(asked, [0, 0, 1])

    def test_empty(self):
        answer = certified(b"terminals=\nnonterminals=S,A,B\nrule=S: A\nrule=S: B\nrule=A:\nrule=B:\n")
        self.assertIn("ambiguous: the empty sentence has two trees\n", answer.printed)
        self.assertIn("  A: (empty)  (line 5)\n", answer.printed)

    def test_row(self):
        self.assertEqual(row_of((1, -3, 2, -4)), [3, 4])


if __name__ == "__main__":
    unittest.main()
