"""Grammars and rows of terminals for the cases of document 02's [12].

Grammars with cycles, empty and hidden parts, with ambiguous parts that no tree of a row has,
and with trees of more rules than any list holds; sentences, rows that nearly are some.
"""

from functools import lru_cache
from typing import Dict, Iterator, List, NamedTuple, Set, Tuple

from case_files import Rng
from case_grammars import CLASSICS, CYCLE, EIGHT_CHANNELS, ROWS, Table, live_small, small_random, spelled
from dead_grammars import Rules, put_in, rules_of, some_left, table_of
from derivations import used_rules
from random_tables import Rule, encode
from sentence_trees import MOST_TERMINALS
from tables import FIXED_STATES, MAX_LENGTH, MAX_STATES, START, Codes, Grammar
from trees import ENDLESS, depth_of, least_depths

A_FEW = 26                # states of a small grammar that rules were added to
LONGER = MOST_TERMINALS + 2


# Sentences.

class Choice(NamedTuple):
    """A rule with a finite tree: the least depth of one, whether it has trees of any size, its right side."""

    depth: int
    grows: bool
    right: Codes


@lru_cache(maxsize=64)
def choices_of(grammar: Grammar) -> Dict[int, List[Choice]]:
    """By nonterminal its rules with a finite tree."""
    depths = least_depths(grammar)
    whole = [(rule, depth_of(depths, rule)) for rule in grammar.rules if depth_of(depths, rule) < ENDLESS]
    below = closed({(rule.left, code) for rule, _ in whole for code in rule.right if code >= START})
    again = {code for code, other in below if code == other}
    growing = again | {code for code, other in below if other in again}
    found: Dict[int, List[Choice]] = {}
    for rule, depth in whole:
        found.setdefault(rule.left, []).append(Choice(depth, bool(growing.intersection(rule.right)), rule.right))
    return found


def sentence(rng: Rng, grammar: Grammar, nodes: int, eager: bool = False) -> Codes:
    """The row of a random tree, of the shallowest subtrees once it has so many nodes.

    It ends also where rules are empty or cyclic, as a random choice alone may not. If it is
    eager, it seldom ends before.
    """
    rules = choices_of(grammar)
    row: List[int] = []
    waiting = [START]
    while waiting:
        code = waiting.pop()
        if code < START:
            row.append(code)
            continue
        nodes -= 1
        choices = rules[code]
        if nodes < len(waiting):
            least = min(choice.depth for choice in choices)
            choices = [choice for choice in choices if choice.depth == least]
        elif eager and rng.randrange(8):
            choices = [choice for choice in choices if choice.grows] or choices
        waiting += reversed(rng.choice(choices).right)
    return tuple(row)


def sentences(rng: Rng, grammar: Grammar, count: int, nodes: int, most: int = LONGER) -> List[Codes]:
    """Up to `count` different sentences of at most `most` terminals, found in a few tries."""
    found: Dict[Codes, None] = {}
    for _ in range(3 * count):
        row = sentence(rng, grammar, 1 + rng.randrange(nodes))
        if len(row) <= most and len(found) < count:
            found[row] = None
    return list(found)


def long_sentences(rng: Rng, grammar: Grammar, count: int, fewest: int) -> List[Codes]:
    """The same of at least `fewest` terminals, where there are some soon."""
    found: Dict[Codes, None] = {}
    nodes = fewest
    for _ in range(8 * count):
        row = sentence(rng, grammar, nodes, True)
        if len(row) > LONGER:
            nodes = max(2, nodes - 1 - nodes // 8)
        elif len(row) < fewest:
            nodes = min(400, nodes + 1 + nodes // 5)
        elif len(found) < count:
            found[row] = None
    return list(found)


def changed(rng: Rng, t: int, row: Codes) -> Codes:
    """A row with a terminal replaced, left out, put in or swapped with the next, or cut at an end."""
    kind, place = rng.randrange(6), rng.randrange(len(row) + 1)
    some = (1 + rng.randrange(t),) if t else ()
    if kind == 0:
        return row[:place] + some + row[place + 1:]
    if kind == 1:
        return row[:place] + row[place + 1:]
    if kind == 2:
        return row[:place] + some + row[place:]
    if kind == 3:
        return row[:place] + row[place:place + 2][::-1] + row[place + 2:]
    return row[:place] if kind == 4 else row[place:]


def any_row(rng: Rng, t: int, length: int) -> Codes:
    """Random terminals; none if there are none."""
    return tuple(1 + rng.randrange(t) for _ in range(length)) if t else ()


# By hand.

def rows(*texts: str) -> List[Codes]:
    """Rows by the digits of their codes."""
    return [tuple(map(int, text)) for text in texts]


EMPTY_PARTS = spelled("S: N a N b N", "N:")
ALL_EMPTY = spelled("S: S S | | a")
HIDDEN_ONE = spelled("S: N S x | y", "N:")
HIDDEN_RIGHT = spelled("S: x S N | y", "N: | n")
CYCLE_ELSEWHERE = spelled("S: a A | b", "A: A | c")
CYCLE_BY_EMPTY = spelled("S: S E | x", "E: | e")
CYCLE_OF_EMPTY = spelled("S: a E", "E: | E E")
TWO_BEFORE_A_FALSE_END = spelled("S: A x | a y", "A: B | C", "B: a", "C: a")
AMBIGUOUS_BESIDE = spelled("S: E x | U y", "E: E E | a", "U: a U |")
ONE_ORDER = spelled("S: A B", "A: C", "B: b", "C: c")
FIRST_RULES_LAST = spelled("S: B | A", "A: a A |", "B: b B | C", "C: c")
POWERS = spelled("S: A S |", "A: B | C", "B: a", "C: a")              # a row has 2 to the power of its length
POWERS_AND_ONE = spelled("T: S | U", "S: A S |", "A: B | C", "B: a", "C: a", "U: a U | a")
EMPTY_POWERS = spelled("S: A A A A A A A A", "A: B B B B", "B: C | D", "C:", "D:")       # 2 to the power of 32

BY_HAND: List[Tuple[Table, List[Codes]]] = [
    (ROWS[1], rows("")), (ROWS[2], rows("", "1", "11")), (ROWS[3], rows("", "1", "11", "1" * 63, "1" * 64)),
    (ROWS[4], rows("", "12", "1122", "122", "21", "1" * 32 + "2" * 32, "1" * 31 + "2" * 33)),
    (CYCLE, rows("", "1", "11")), (ROWS[7], rows("1", "11", "111", "1" * 63, "1" * 64)), (ROWS[8], rows("")),
    (ROWS[9], rows("1", "11", "111", "1111", "1" * 63)),
    (EIGHT_CHANNELS, rows("", "172", "17872", "1723787872", "45172378726", "4545172617266", "17", "45", "1" * 64)),
    (ONE_ORDER, rows("21", "12", "2")), (FIRST_RULES_LAST, rows("", "1", "3", "223", "11", "2")),
    (EMPTY_PARTS, rows("12", "1", "")), (ALL_EMPTY, rows("", "1", "11", "1" * 64)),
    (HIDDEN_ONE, rows("2", "21", "211", "1", "2" + "1" * 63)), (HIDDEN_RIGHT, rows("2", "12", "123", "1123", "3")),
    (CLASSICS["hidden-left"], rows("2", "21", "321", "3211", "3321", "33211")),
    (CYCLE_ELSEWHERE, rows("2", "13", "1")), (CYCLE_BY_EMPTY, rows("1", "12", "2")),
    (CYCLE_OF_EMPTY, rows("1", "", "11")), (CLASSICS["unit-cycle"], rows("1", "")),
    (TWO_BEFORE_A_FALSE_END, rows("21", "23", "2", "1")),
    (AMBIGUOUS_BESIDE, rows("31", "331", "3331", "32", "3332", "2", "3" * 63 + "2", "3" * 63 + "1")),
    (POWERS, rows("", "1", "11", *("1" * length for length in (8, 16, 31, 32, 33, 63, 64)))),
    (POWERS_AND_ONE, rows("", "1", "11", *("1" * length for length in (8, 16, 31, 32, 33, 63, 64)))),
    (EMPTY_POWERS, rows("")),
    (CLASSICS["expressions-ambiguous"], rows("5", "515", "51525", "35154", "")),
    (CLASSICS["dangling-else"], rows("3", "13", "11323", "1132323", "132323")),
    (CLASSICS["list-both"], rows("2", "212", "21212")),
    (CLASSICS["palindromes-even"], rows("", "11", "1221", "12" * 16 + "21" * 16, "12" * 32)),
]


# Rules that are added.

def with_cycle(rng: Rng, base: Rules) -> Rules:
    """X→Y, Y→Z and so on back to X, of nonterminals of the grammar and maybe a new one."""
    around = [some_left(rng, base) for _ in range(1 + rng.randrange(2))]
    around += [START + base.n] * rng.randrange(2)
    around = list(dict.fromkeys(around))
    return put_in(rng, base, 1, list(zip(around, [(code,) for code in around[1:] + around[:1]])))


def with_empty_parts(rng: Rng, base: Rules) -> Rules:
    """A new nonterminal, with an empty rule and maybe another, put into right sides."""
    new = START + base.n
    found: List[Rule] = []
    for left, right in base.rules:
        for _ in range(rng.randrange(3)):
            place = rng.randrange(len(right) + 1)
            right = right[:place] + (new,) + right[place:]
        found.append((left, right))
    more: List[Rule] = [(new, ())]
    if base.t and rng.randrange(3) == 0:
        more.append((new, (1 + rng.randrange(base.t),)))
    return put_in(rng, base._replace(rules=tuple(dict.fromkeys(found))), 1, more)


def with_hidden_recursion(rng: Rng, base: Rules) -> Rules:
    """X→N X, with terminals or not, on the left or on the right, where N may be empty."""
    new, left = START + base.n, some_left(rng, base)
    right = (new, left) + (1 + rng.randrange(base.t),) * rng.randrange(3) if base.t else (new, left)
    more: List[Rule] = [(left, right if rng.randrange(4) else right[::-1]), (new, ())]
    if base.t and rng.randrange(3) == 0:
        more.append((new, (1 + rng.randrange(base.t),)))
    return put_in(rng, base, 1, more)


def with_twin(rng: Rng, base: Rules) -> Rules:
    """A nonterminal that has a right side of another, beside it: two ways for what they share."""
    left, right = rng.choice(base.rules)
    new = START + base.n
    return put_in(rng, base, 1, [(new, right), (left, (new,))])


ADD = [with_cycle, with_empty_parts, with_hidden_recursion, with_twin]


def with_more(rng: Rng) -> Table:
    """A small grammar with one or two of these, which has a sentence by its own rules."""
    while True:
        base = rules_of(live_small(rng) if rng.randrange(2) else small_random(rng))
        for _ in range(1 + rng.randrange(2)):
            base = rng.choice(ADD)(rng, base)
        table = table_of(base)
        if FIXED_STATES + sum(1 + len(right) for _, right in base.rules) <= A_FEW:
            return table


def beside_ambiguous(rng: Rng) -> Tuple[Table, int, int]:
    """S→E x; S→U y, E a small grammar and U every row of its terminals, once; and the codes of x and y.

    What E has in several ways is on the way to a tree of U too, but in none.
    """
    while True:
        base = rules_of(small_random(rng))
        if base.t:
            break
    x, y, shift = base.t + 1, base.t + 2, 2
    def moved(code: int) -> int:
        return code + shift if code >= START else code
    def moved_rule(rule: Rule) -> Rule:
        return moved(rule[0]), tuple(map(moved, rule[1]))
    own, other = START + shift, START + 1
    first: List[Rule] = [(START, (own, x)), (START, (other, y))]
    if rng.randrange(2):
        first = [(START, (own, x)), (START, (own, other, x)), (START, (other, y))]
    rules = first + [(other, ())] + [(other, (code, other)) for code in range(1, 1 + base.t)]
    rules += [moved_rule(rule) for rule in base.rules]
    return (y, base.n + shift, encode(list(dict.fromkeys(rules)))), x, y


# Trees with very many rules.

def doubled(levels: int, k: int, units: int, terminals: int = 0) -> Table:
    """A chain of unit rules, then N0→N1 N1, N1→N2 N2 and so on, k of them, the last one empty.

    With k=2 the one tree of the empty row has 2 to the power levels+1, less 1 and more `units`, rules. With a
    terminal in front S has it, and the row is that terminal.
    """
    codes = [START + place for place in range(units + levels + 1)]
    rules: List[Rule] = [(code, (code + 1,)) for code in codes[:units]]
    rules += [(code, (code + 1,) * k) for code in codes[units:-1]]
    rules.append((codes[-1], ()))
    if terminals:
        left, right = rules[0]
        rules[0] = left, (1,) * terminals + right
    return terminals and 1, len(codes), encode(rules)


# Large grammars.

def word_lists(count: int, states: int = MAX_STATES) -> Table:
    """So many rules and states: lists of words, each a rule of its own, the first ones of 12 equal terminals."""
    rules: List[Rule] = [(START, (START + 1, START)), (START, ())]
    rules += [(START + 1, (code,)) for code in range(1, count - 1)]
    room = states - FIXED_STATES - sum(1 + len(right) for _, right in rules)
    for place in range(2, len(rules)):
        left, word = rules[place]
        more = min(MAX_LENGTH - len(word), room)
        rules[place] = left, word * (1 + more)
        room -= more
    return count - 2, 2, encode(rules)


def crowded(rng: Rng, t: int, n: int, k: int, states: int, empty: bool) -> Table:
    """Each nonterminal has a terminal, S maybe the empty row, and as many rules of k nonterminals as fit: many trees."""
    rules: Dict[Rule, None] = dict.fromkeys([(START, ())] if empty else [])
    rules.update(dict.fromkeys((START + place, (1 + place % t,)) for place in range(n)))
    count = (states - FIXED_STATES - 2 * n - empty) // (k + 1)
    assert 2 * count < n ** (k + 1), "unequal rules are found soon"
    most = len(rules) + count
    while len(rules) < most:
        rules[START + rng.randrange(n), tuple(START + rng.randrange(n) for _ in range(k))] = None
    return t, n, encode(list(rules))


def long_units(length: int) -> Table:
    """S→X0, X0→X1 and so on, the last one a or a S: each terminal has so many rules above it."""
    last = START + length
    rules: List[Rule] = [(START + place, (START + place + 1,)) for place in range(length)]
    return 1, length + 1, encode(rules + [(last, (1,)), (last, (1, START))])


# What a grammar is like, of the rules that sentences use.

def live_rules_of(grammar: Grammar) -> List[Rule]:
    return [(rule.left, rule.right) for rule, used in zip(grammar.rules, used_rules(grammar)) if used]


def empty_ones(rules: List[Rule]) -> Set[int]:
    """The nonterminals that have the empty row."""
    found: Set[int] = set()
    count = -1
    while count < len(found):
        count = len(found)
        found.update(left for left, right in rules if found.issuperset(right))
    return found


def closed(pairs: Set[Tuple[int, int]]) -> Set[Tuple[int, int]]:
    """Pairs that lead from one to another in steps."""
    after: Dict[int, Set[int]] = {}
    for one, other in pairs:
        after.setdefault(one, set()).add(other)
    found = set(pairs)
    waiting = list(pairs)
    while waiting:
        one, other = waiting.pop()
        for third in after.get(other, ()):
            if (one, third) not in found:
                found.add((one, third))
                waiting.append((one, third))
    return found


def recursion(rules: List[Rule], empty: Set[int]) -> Set[str]:
    """Which of these there are: cyclic, left-recursive, hidden-left-recursive."""
    alone, corners, plain = set(), set(), set()
    for left, right in rules:
        for place, code in enumerate(right):
            if code >= START:
                if empty.issuperset(right[:place] + right[place + 1:]):
                    alone.add((left, code))
                if empty.issuperset(right[:place]):
                    corners.add((left, code))
                if place == 0:
                    plain.add((left, code))
    def turns(pairs: Set[Tuple[int, int]]) -> Set[int]:
        return {one for one, other in closed(pairs) if one == other}
    found = {"cyclic"} if turns(alone) else set()
    found |= {"left-recursive"} if turns(plain) else set()
    return found | ({"hidden-left-recursive"} if turns(corners) - turns(plain) else set())


def every_row(t: int, length: int) -> Iterator[Codes]:
    """All rows of so many terminals."""
    if length == 0:
        yield ()
        return
    for row in every_row(t, length - 1):
        for code in range(1, 1 + t):
            yield (*row, code)
