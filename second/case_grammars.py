"""Grammars for the cases: document 01's rows, classic, random and faulty ones.

A grammar is given as t, n and its table. Those without a sentence, which document
02's [4] refuses, are in sentence_grammars.py; here are two of document 01's rows.
"""

from functools import lru_cache
from typing import Callable, Dict, List, Sequence, Tuple

from case_files import LAST, Rng
from derivations import used_rules
from random_tables import (
    FIGURES, Rule, base_grammar, encode, faulty_rule, random_code, random_lengths,
    random_rules,
)
from table_reasons import rule_start
from tables import (
    FIXED_STATES, MAX_LENGTH, MAX_NONTERMINALS, MAX_STATES, MAX_TERMINALS, OUT_OF_RANGE, START,
    TOO_MANY_STATES, Codes, Grammar, Refusal, check_rules, check_table,
)
from triples import Triples, triples_of

Table = Tuple[int, int, Codes]

MANY_STATES = 256              # of a grammar whose triples are looked at one by one in many cases

# Document 01, "Grammars on file", in its order.
ROWS: List[Table] = [(t, n, encode(rules)) for t, n, rules in FIGURES]
ONE_A = ROWS[2]                # S→a
ONE_A_BYTES = bytes.fromhex("15 50 21 15 08 00 00 00 00")    # its certificate
LEFT_LIST, NESTED = ROWS[3:5]  # the two rows with Q = 9
NO_RULES = ROWS[0]             # Q = 4, without a sentence
ENDLESS = ROWS[5]              # S→S, Q = 6, without a sentence
CYCLE = ROWS[6]                # S→S; S→a, Q = 8, potential
GOOD_ROWS = [row for row in ROWS if row not in (NO_RULES, ENDLESS)]


def spelled(*lines: str) -> Table:
    """The grammar of lines "left: symbol symbol | symbol", alternatives by "|".

    Names left of a colon are the nonterminals, the first of them S; all other
    names are terminals. Either kind is numbered in the order of the lines.
    """
    parts = [line.split(":", 1) for line in lines]
    names = [left.strip() for left, _ in parts]
    nonterminals = list(dict.fromkeys(names))
    codes = {name: START + place for place, name in enumerate(nonterminals)}
    t = 0
    rules: List[Rule] = []
    for name, (_, rights) in zip(names, parts):
        for right in rights.split("|"):
            for symbol in right.split():
                if symbol not in codes:
                    t += 1
                    codes[symbol] = t
            rules.append((codes[name], tuple(codes[symbol] for symbol in right.split())))
    return t, len(nonterminals), encode(rules)


# Classic grammars.

CLASSICS: Dict[str, Table] = {
    "expressions-ambiguous": spelled("E: E + E | E * E | ( E ) | x"),
    "expressions-stratified": spelled("E: E + T | T", "T: T * F | F", "F: ( E ) | x"),
    "expressions-right": spelled("E: T + E | T", "T: F * T | F", "F: ( E ) | x"),
    "expressions-unary": spelled("E: - E | E + E | x"),
    "expressions-prefix": spelled("E: + E E | * E E | x"),
    "expressions-postfix": spelled("E: E E + | E E * | x"),
    "dangling-else": spelled("S: if S | if S else S | x"),
    "matched-else": spelled(
        "S: M | U", "M: if M else M | x", "U: if S | if M else U"),
    "closed-else": spelled("S: if S fi | if S else S fi | x"),
    "palindromes-even": spelled("S: a S a | b S b |"),
    "palindromes-odd": spelled("S: a S a | b S b | a | b"),
    "palindromes-marked": spelled("S: a S a | b S b | c"),
    "list-left": spelled("L: L , x | x"),
    "list-right": spelled("L: x , L | x"),
    "list-both": spelled("L: L , L | x"),
    "list-empty-left": spelled("L: L x |"),
    "list-empty-right": spelled("L: x L |"),
    "list-of-lists": spelled("L: [ ] | [ I ]", "I: L | x | I , L | I , x"),
    "brackets-one": spelled("S: ( S ) S |"),
    "brackets-both": spelled("S: S S | ( S ) |"),
    "brackets-nested": spelled("S: ( S ) | [ S ] |"),
    "calls": spelled("T: ( T T ) | fn x . T | x"),
    "patterns": spelled("R: R or C | C", "C: C K | K", "K: K star | ( R ) | a"),
    "two-counts": spelled(
        "S: A C | D B", "A: a A b |", "C: c C |", "D: a D |", "B: b B c |"),
    "unit-cycle": spelled("S: A | x", "A: S"),
    "hidden-left": spelled("S: N S x | y", "N: n |"),
    "never-opened": spelled("S: a S |", "U: S b | U a"),
    "no-finite-tree": spelled("S: a | b W", "W: a W | W"),
    "left-in-a-course": spelled("S: a | A", "A: A"),
    "behind-an-endless-one": spelled("S: a S b | | W V", "W: W a", "V: S | V V b"),
    "dead-rules-of-all-kinds": spelled(
        "S: S a | W V | b", "W: a W | W S", "V: S | S b", "U: S a | U U"),
    "json": spelled(
        "V: str | num | true | false | null | { } | { M } | [ ] | [ E ]",
        "M: P | M , P", "P: str : V", "E: V | E , V"),
    "json-right": spelled(
        "V: str | num | { M } | [ E ]",
        "M: P T |", "T: , P T |", "P: str : V", "E: V U |", "U: , V U |"),
    "robot": spelled(
        "P: P C | C", "C: move D N ; | turn D ; | stop ; | repeat N { P }",
        "D: left | right", "N: one | two | three"),
    "robot-loose": spelled(
        "P: P P | C", "C: move D | move D N | stop", "D: left | right | back",
        "N: N digit | digit"),
    "robot-channels": spelled(
        "S: S C |", "C: set H V end | read H end",
        "H: h0 | h1 | h2 | h3 | h4 | h5 | h6 | h7", "V: on | off"),
}

COURSE = CLASSICS["left-in-a-course"]      # document 02, [3]
EIGHT_CHANNELS = spelled(                  # document 02, [14]
    "P: | P K", "K: take L vol | give L vol | repeat num P close", "L: ch | L sep ch")
MUCH_LOOKED_AT = spelled(                  # of the bound of [6] 0.60, found by changing grammars
    "S: A a a a", "A: B | A S a a a a | a S a a a a a | | a | a a | a a a | a a a a",
    "B: A | S S | | a | a a a | a a a a")


def operators(levels: int) -> Table:
    """Expressions with so many strata, Q = 10 + 6×levels."""
    lines = ["E%d: E%d o%d E%d | E%d" % (i, i, i, i + 1, i + 1) for i in range(levels)]
    return spelled(*lines, "E%d: ( E0 ) | x" % levels)


STATEMENTS = spelled(
    "P: P S | S",
    "S: name = E ; | if E then B fi | if E then B else B fi | while E do B od"
    " | call name ( ) ; | call name ( A ) ; | return E ; | skip ;",
    "B: B S | S",
    "A: A , E | E",
    "E: E < T | T",
    "T: T + F | T - F | F",
    "F: name | number | ( E )",
)


def keywords(rng: Rng, count: int, states: int, fewest: int = 2) -> Table:
    """`count` rules, each begun by a terminal of its own; Q = `states`.

    After a terminal both sides stand on the same rule, so that nothing parts:
    unambiguous. All rules are live. There are at least `fewest` nonterminals; with
    many of them few triples are reached.
    """
    while True:
        table = any_keywords(rng, count, states, fewest)
        if all(used_rules(grammar_of(table))):
            return table


def any_keywords(rng: Rng, count: int, states: int, fewest: int) -> Table:
    """The same, though rules may be dead."""
    t, n = count + rng.randrange(3), fewest + rng.randrange(count // 3)
    lengths = [1] * count
    while FIXED_STATES + sum(lengths) + count < states:
        place = rng.randrange(count)
        lengths[place] += lengths[place] < MAX_LENGTH
    rules: List[Rule] = []
    for place, k in enumerate(lengths):
        left = START + (place if place < n else rng.randrange(n))
        rest = tuple(random_code(rng, t, n) for _ in range(k - 1))
        rules.append((left, (1 + place,) + rest))
    return t, n, encode(rules)


def most_keywords(rng: Rng) -> Table:
    """The same with the most states, and few reached triples for that."""
    return keywords(rng, 260, MAX_STATES, 50)


def most_potential(rng: Rng) -> Table:
    """The most states, and potential: S→x, and S→A, A→x with a terminal and a nonterminal of their own.

    No right side has S, so that few triples are reached.
    """
    t, n, table = keywords(rng, 258, MAX_STATES - 6, 50)
    x, other = t + 1, START + n
    rules = [(rule.left, tuple(START + 1 if code == START else code for code in rule.right))
             for rule in grammar_of((t, n, table)).rules]
    return x, n + 1, encode(rules + [(START, (x,)), (START, (other,)), (other, (x,))])


# Random grammars.

def small_random(rng: Rng) -> Table:
    """1 to 3 nonterminals, 0 to 3 terminals, 1 to 6 rules of length 0 to 4, a sentence."""
    while True:
        t, n = rng.randrange(4), 1 + rng.randrange(3)
        lengths = [rng.randrange(5) for _ in range(1 + rng.randrange(6))]
        table = t, n, encode(random_rules(rng, t, n, lengths))
        if any(used_rules(grammar_of(table))):
            return table


def dense(rng: Rng) -> Table:
    """Few short rules of nonterminals alone, with a sentence: much to look at."""
    while True:
        n = 1 + rng.randrange(3)
        lengths = [rng.randrange(4) for _ in range(1 + rng.randrange(6))]
        table = 0, n, encode(random_rules(rng, 0, n, lengths))
        if any(used_rules(grammar_of(table))):
            return table


def live_small(rng: Rng) -> Table:
    """A small random grammar all of whose rules are live, of at most 16 states."""
    while True:
        table = small_random(rng)
        if all(used_rules(good(table))) and states_of(table) <= 16:
            return table


def larger_random(rng: Rng, states: int) -> Table:
    """Q of about `states`; few symbols for so many rules, all of them live."""
    while True:
        table = any_larger(rng, states)
        if all(used_rules(grammar_of(table))):
            return table


def any_larger(rng: Rng, states: int) -> Table:
    """The same, each nonterminal with a rule, though rules may be dead."""
    t, n = 6 + rng.randrange(20), 3 + rng.randrange(12)
    lengths = random_lengths(rng, states // 4, states)
    rules = random_rules(rng, t, n, lengths)
    rules[:n] = [(START + place, right) for place, (_, right) in enumerate(rules[:n])]
    return t, n, encode(list(dict.fromkeys(rules)))


def exact_random(rng: Rng, states: int) -> Table:
    """Q of exactly `states`, all rules live."""
    while True:
        table = larger_random(rng, states)
        if states_of(table) == states:
            return table


@lru_cache(maxsize=1024)
def grammar_of(table: Table) -> Grammar:
    """The grammar of a table without faults 1 to 8; it may lack sentences."""
    grammar = check_rules(*table)
    assert isinstance(grammar, Grammar)
    return grammar


@lru_cache(maxsize=1024)
def good(table: Table) -> Grammar:
    """The grammar of a table that passes its check."""
    grammar = check_table(*table)
    assert isinstance(grammar, Grammar)
    return grammar


def states_of(table: Table) -> int:
    """Q of a table without faults 1 to 8."""
    return grammar_of(table).states


def triples_in(table: Table, m: int = 0) -> Triples:
    """The triples of a table without faults 1 to 8; without a sentence none has a successor."""
    return triples_of(grammar_of(table), m)


def some(rng: Rng, count: int, wanted: Callable[[Triples], bool], most: int) -> List[Table]:
    """Small random grammars with Q of at most `most` that are as wanted, none twice."""
    found: List[Table] = []
    while len(found) < count:
        table = small_random(rng)
        if states_of(table) <= most and table not in found:
            if wanted(triples_in(table)):
                found.append(table)
    return found


# Faulty tables.

def out_of_range(rng: Rng) -> Table:
    """A small table whose t, n or both are out of range."""
    t, n, table = small_random(rng)
    kind = rng.randrange(3)
    if kind != 0:
        t = rng.choice([MAX_TERMINALS + 1, MAX_TERMINALS + 2, 2 ** 16 + t, 2 ** 32, 2 ** 32 + t, LAST])
    if kind != 1:
        n = rng.choice([0, MAX_NONTERMINALS + 1, MAX_NONTERMINALS + 2, 2 ** 16 + n, 2 ** 32 + n, LAST])
    return t, n, table


def damaged_table(rng: Rng, bases: Sequence[Tuple[int, int, List[Rule]]]) -> Table:
    """A table whose last rules may be at fault: a small one, or one of these and more."""
    t, n, rules = rng.choice(bases) if rng.randrange(3) == 0 else base_grammar(rng, 0)
    return t, n, encode(rules) + faulty_rule(rng, t, n, rules, 1 << rng.randrange(6))


def faulty_tables(rng: Rng, each: int) -> List[Table]:
    """`each` tables that are refused for each of causes 1 to 8, cause by cause.

    Some have the most rules or states before the fault.
    """
    found: Dict[int, List[Table]] = {cause: [] for cause in range(1, TOO_MANY_STATES + 1)}
    found[OUT_OF_RANGE] = [out_of_range(rng) for _ in range(each)]
    bases = [base_grammar(rng, base) for base in (1, 2) * 5]
    while any(len(tables) < each for tables in found.values()):
        table = damaged_table(rng, bases)
        refusal = check_rules(*table)
        if isinstance(refusal, Refusal) and len(found[refusal.cause]) < each:
            found[refusal.cause].append(table)
    return [table for cause in sorted(found) for table in found[cause]]


def rules_before_the_fault(table: Table) -> Table:
    """The rules in front of the refused one, as a grammar without faults 1 to 8."""
    t, n, data = table
    refusal = check_rules(t, n, data)
    assert isinstance(refusal, Refusal)
    if refusal.cause == OUT_OF_RANGE:
        return ONE_A
    return t, n, data[:rule_start(data, refusal.position)]
