"""Grammars with names, from which the cases of texts are made.

All have a sentence, but for two of document 01's rows. The texts here are put
together without the writer of text.py.
"""

from typing import Dict, List, NamedTuple, Sequence

from case_files import Rng
from random_tables import (
    FIGURES, Rule, encode, large_grammar, random_rules, small_grammar, with_sentence,
)
from tables import (
    FIXED_STATES, MAX_LENGTH, MAX_NONTERMINALS, MAX_RULES, MAX_STATES, MAX_TERMINALS, START,
    has_sentence,
)
from text import MAX_NAME, NAME_BYTES, Lent

MAX_BYTES = 280000       # bytes of the longest text, or names, of a case
MAX_LENT = 280000        # entries of the longest row that a case lends


DIGITS = b"0123456789abcdefghijklmnopqrstuvwxyz"
COUNTED: List[bytes] = []      # what `counted_names` has made so far


class Named(NamedTuple):
    """A grammar without faults; `names` in order of symbol numbers."""

    t: int
    n: int
    rules: List[Rule]
    names: List[bytes]


# Names.

def random_name(rng: Rng, length: int) -> bytes:
    return bytes(rng.choice(NAME_BYTES) for _ in range(length))


def random_length(rng: Rng) -> int:
    """The length of a name, often short, often 15."""
    kind = rng.randrange(6)
    if kind == 0:
        return MAX_NAME
    return 1 + rng.randrange(MAX_NAME if kind == 1 else 4)


def random_names(rng: Rng, count: int) -> List[bytes]:
    """Different names of many lengths, in any case; no two differ in case alone."""
    names: Dict[bytes, bytes] = {}
    while len(names) < count:
        name = random_name(rng, random_length(rng))
        names.setdefault(name.lower(), name)
    return list(names.values())


def long_names(rng: Rng, count: int) -> List[bytes]:
    """The same, of 15 bytes each."""
    names: Dict[bytes, bytes] = {}
    while len(names) < count:
        name = random_name(rng, MAX_NAME)
        names.setdefault(name.lower(), name)
    return list(names.values())


def counted_names(count: int) -> List[bytes]:
    """Different names of 4 digits or letters each, for long lists."""
    while len(COUNTED) < count:
        number, name = len(COUNTED), b""
        for _ in range(4):
            number, place = divmod(number, len(DIGITS))
            name = DIGITS[place:place + 1] + name
        COUNTED.append(name)
    return COUNTED[:count]


def name_of(grammar: Named, code: int) -> bytes:
    """The name of a code: "Symbol numbers run over the terminals, then [...]"."""
    if code < START:
        return grammar.names[code - 1]
    return grammar.names[grammar.t + code - START]


# Texts.

def rule_line(grammar: Named, rule: Rule) -> bytes:
    left, right = rule
    return b"rule=%s:%s" % (
        name_of(grammar, left), b"".join(b" " + name_of(grammar, code) for code in right))


def lines_of(grammar: Named) -> List[bytes]:
    """The lines of the grammar's text, without their byte 10."""
    return [b"terminals=" + b",".join(grammar.names[:grammar.t]),
            b"nonterminals=" + b",".join(grammar.names[grammar.t:])
            ] + [rule_line(grammar, rule) for rule in grammar.rules]


def join_lines(lines: Sequence[bytes]) -> bytes:
    """The lines, each ended by byte 10."""
    return b"".join(line + b"\n" for line in lines)


def text_of(grammar: Named) -> bytes:
    return join_lines(lines_of(grammar))


# Grammars.

def with_names(rng: Rng, t: int, n: int, rules: List[Rule]) -> Named:
    return Named(t, n, rules, random_names(rng, t + n))


def small_named(rng: Rng, most: int = 6) -> Named:
    """A grammar of few symbols and rules."""
    return with_names(rng, *small_grammar(rng, most))


def large_named(rng: Rng, count: int, states: int) -> Named:
    """A grammar of `count` rules and Q = `states`."""
    return with_names(rng, *large_grammar(rng, count, states))


def full_named(rng: Rng) -> Named:
    """A grammar at some limit: symbols, rules, states or all of them."""
    t = rng.choice([0, 1, 300, MAX_TERMINALS - 1, MAX_TERMINALS])
    n = rng.choice([1, 2, 300, MAX_NONTERMINALS - 1, MAX_NONTERMINALS])
    lengths = [rng.randrange(5) for _ in range(rng.randrange(40))]
    return with_names(rng, t, n, with_sentence(rng, t, random_rules(rng, t, n, lengths)))


def longest_named(rng: Rng) -> Named:
    """All limits at once, with names of 15 bytes: the longest text there is."""
    t, n = MAX_TERMINALS, MAX_NONTERMINALS
    rules = random_rules(rng, t, n, [MAX_LENGTH] * 21 + [1] * 368 + [0] * 11)
    return Named(t, n, with_sentence(rng, t, rules), long_names(rng, t + n))


def figures_named() -> List[Named]:
    """Document 01's "Grammars on file", W and X in the place of A and B.

    With A and a one name would be declared twice.
    """
    return [Named(t, n, rules, [b"a", b"b"][:t] + [b"S", b"W", b"X"][:n])
            for t, n, rules in FIGURES]


def good_figures() -> List[Named]:
    """Those of them that have a sentence."""
    return [grammar for grammar in figures_named() if has_sentence(grammar.rules)]


# Lent rows.

# The longest table, each rule having two entries more than right codes, and all names.
SYMBOLS = MAX_TERMINALS + MAX_NONTERMINALS
LONGEST_ROWS = Lent(MAX_STATES - FIXED_STATES + MAX_RULES, SYMBOLS, SYMBOLS)


def exact_lent(grammar: Named) -> Lent:
    """Rows exactly as long as the reader's outputs."""
    symbols = grammar.t + grammar.n
    return Lent(len(encode(grammar.rules)), symbols, symbols)


def ample_lent(rng: Rng) -> Lent:
    """Rows long enough for every grammar."""
    return Lent(*(size + rng.randrange(200) for size in LONGEST_ROWS))


def any_lent(rng: Rng, grammar: Named) -> Lent:
    """Rows of all sizes, enough in most cases."""
    kind = rng.randrange(8)
    exact = exact_lent(grammar)
    if kind < 4:
        return ample_lent(rng)
    if kind < 6:
        return exact
    if kind == 6:
        return Lent(*(rng.choice([0, size, max(0, size - 1)]) for size in exact))
    return Lent(*(size + rng.randrange(3) for size in exact))
