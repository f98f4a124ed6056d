"""Tests of spelling.py and spelling_reasons.py."""

import random
import unittest

from named_grammars import join_lines, lines_of, text_of
from spelling import (
    APART, apart, in_another_case, lettered, lettered_names, letters_in, places_apart, respelled,
    respelled_rule, ways_to_respell,
)
from spelling_reasons import (
    as_declared, declared_in, differ_by_32, differ_in_case, has_apart, uses_in,
)
from text import NAME_BYTES, is_name, without_case

TEXT = b"terminals=Take,b-1\nnonterminals=S,Vol\nrule=S: Take Vol\nrule=Vol:\n"


class SpellingTest(unittest.TestCase):
    def test_in_another_case(self):
        rng = random.Random(1)
        seen = {in_another_case(rng, b"a1-Zq") for _ in range(300)}
        self.assertEqual(len(seen), 7)
        self.assertEqual({name.lower() for name in seen}, {b"a1-zq"})
        self.assertNotIn(b"a1-Zq", seen)
        self.assertEqual(in_another_case(rng, b"01-"), b"01-")

    def test_apart(self):
        rng = random.Random(2)
        self.assertEqual(len(APART), 22)
        self.assertEqual({apart(rng, b"a0") for _ in range(9)}, {b"aP"})
        self.assertEqual({apart(rng, b"Y-") for _ in range(30)}, {b"9-", b"YM"})
        self.assertEqual(apart(rng, b"aZ"), b"aZ")
        self.assertEqual((places_apart(b"a0P-m"), letters_in(b"a0P-m")), ([1, 2, 3], [0, 2, 4]))

    def test_lettered(self):
        rng = random.Random(3)
        names = lettered_names(rng, 500)
        self.assertEqual(len({without_case(name) for name in names}), 500)
        self.assertTrue(all(is_name(name) and letters_in(name) for name in names))
        for _ in range(50):
            grammar = lettered(rng)
            self.assertTrue(grammar.t > 0 and grammar.rules and all(map(letters_in, grammar.names)))

    def test_respelled(self):
        rng = random.Random(4)
        line = b"rule=S: Take Vol"
        self.assertEqual(respelled_rule(rng, line, lambda rng, name: b"x"), b"rule=x: x x")
        self.assertEqual(respelled_rule(rng, line, lambda rng, name: b"x", right=False), b"rule=x: Take Vol")
        self.assertEqual(respelled_rule(rng, line, lambda rng, name: b"x", left=False), b"rule=S: x x")
        self.assertEqual(respelled_rule(rng, b"rule=S:", lambda rng, name: b"x"), b"rule=x:")
        for _ in range(50):
            grammar = lettered(rng)
            for respell in ways_to_respell(grammar):
                lines = respelled(rng, lines_of(grammar), respell)
                self.assertEqual(lines[:2], lines_of(grammar)[:2])
                self.assertEqual(join_lines(lines).lower(), text_of(grammar).lower())


class ReasonsTest(unittest.TestCase):
    def test_all_pairs_of_bytes(self):
        for one in NAME_BYTES:
            for other in NAME_BYTES:
                pair = b"x%c" % one, b"x%c" % other
                same = without_case(pair[0]) == without_case(pair[1])
                self.assertEqual(differ_in_case(*pair), same and one != other)
                self.assertEqual(differ_by_32(*pair), abs(one - other) == 32 and not same)

    def test_names(self):
        self.assertTrue(differ_in_case(b"Take", b"tAKE"))
        self.assertFalse(differ_in_case(b"Take", b"Take"))
        self.assertFalse(differ_in_case(b"Take", b"tak"))
        self.assertTrue(differ_by_32(b"aP", b"A0"))
        self.assertFalse(differ_by_32(b"aP", b"AP"))
        self.assertFalse(differ_by_32(b"ap", b"a0"))
        self.assertTrue(has_apart([b"b", b"a-1", b"c", b"AM1"]))
        self.assertFalse(has_apart([b"b", b"a-1", b"c", b"am1", b"A-1"]))

    def test_texts(self):
        self.assertEqual(declared_in(TEXT), [b"Take", b"b-1", b"S", b"Vol"])
        self.assertEqual(declared_in(b"terminals=\nnonterminals=S\n"), [b"S"])
        self.assertEqual(uses_in(b"rule=S: Take Vol"), [b"S", b"Take", b"Vol"])
        self.assertEqual(uses_in(b"rule=Vol:"), [b"Vol"])
        self.assertEqual(as_declared(TEXT), TEXT)
        self.assertEqual(as_declared(TEXT.replace(b"rule=S: Take Vol", b"rule=s: TAKE vol")), TEXT)


if __name__ == "__main__":
    unittest.main()
