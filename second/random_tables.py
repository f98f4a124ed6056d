"""What the tables of the cases are made of: document 01's grammars, random rules, faults."""

from itertools import chain
from typing import Dict, List, Sequence, Tuple

from case_files import Rng
from tables import (
    FIXED_STATES, MAX_ENTRY, MAX_LENGTH, MAX_NONTERMINALS, MAX_RULES, MAX_STATES, MAX_TERMINALS,
    START, Codes, RuleCodes, has_sentence,
)

Rule = RuleCodes               # left code and right codes
TRIES = 8                      # random rows of rules that are looked at for one with a sentence
FIRST_ABOVE = START + MAX_NONTERMINALS      # no code from here on is ever declared

S, A, B = START, START + 1, START + 2
a, b = 1, 2

# Document 01, "Grammars on file": t, n and the rules.
FIGURES: List[Tuple[int, int, List[Rule]]] = [
    (0, 1, []),
    (0, 1, [(S, ())]),
    (1, 1, [(S, (a,))]),
    (1, 1, [(S, (S, a)), (S, (a,))]),
    (2, 1, [(S, (a, S, b)), (S, ())]),
    (0, 1, [(S, (S,))]),
    (1, 1, [(S, (S,)), (S, (a,))]),
    (1, 1, [(S, (a, S, a)), (S, (a,))]),
    (0, 3, [(S, (A,)), (S, (B,)), (A, ()), (B, ())]),
    (1, 3, [(S, (A,)), (S, (B,)), (A, (A, a, a)),
            (A, (a,)), (B, (a, a))]),
]


# Rules and grammars.

def encode(rules: Sequence[Rule]) -> Codes:
    """The table of these rules, end to end."""
    return tuple(chain.from_iterable((left, len(right), *right) for left, right in rules))


def random_bytes(rng: Rng, count: int) -> bytes:
    return bytes(rng.randrange(256) for _ in range(count))


def random_entry(rng: Rng) -> int:
    """Any entry of a table; lengths, and codes of either kind, more often."""
    kind = rng.randrange(4)
    if kind == 0:
        return rng.randrange(MAX_ENTRY + 1)
    return rng.choice([rng.randrange(MAX_LENGTH + 2), rng.randrange(256), START + rng.randrange(256)])


def random_entries(rng: Rng, count: int) -> Codes:
    return tuple(random_entry(rng) for _ in range(count))


def random_code(rng: Rng, t: int, n: int) -> int:
    """A declared symbol, of either kind alike."""
    if t > 0 and rng.randrange(2) == 0:
        return 1 + rng.randrange(t)
    return START + rng.randrange(n)


def random_rule(rng: Rng, t: int, n: int, k: int) -> Rule:
    left = START + rng.randrange(n)
    return left, tuple(random_code(rng, t, n) for _ in range(k))


def random_rules(rng: Rng, t: int, n: int, lengths: Sequence[int]) -> List[Rule]:
    """Unequal rules of these lengths; one that stays equal is left out."""
    rules: Dict[Rule, None] = {}
    for k in lengths:
        for _ in range(60):
            rule = random_rule(rng, t, n, k)
            if rule not in rules:
                rules[rule] = None
                break
    return list(rules)


def random_lengths(rng: Rng, count: int, states: int) -> List[int]:
    """The lengths of `count` rules that have Q = `states` together."""
    lengths = [0] * count
    for _ in range(states - FIXED_STATES - count):
        place = rng.randrange(count)
        while lengths[place] == MAX_LENGTH:
            place = rng.randrange(count)
        lengths[place] += 1
    return lengths


def with_sentence(rng: Rng, t: int, rules: Sequence[Rule]) -> List[Rule]:
    """The rules; if they have no sentence, one of them is changed so that they have.

    It becomes a rule of S without nonterminals, of the same length if there are
    terminals.
    """
    found = list(rules) or [(S, ())]
    if not has_sentence(found):
        place = rng.randrange(len(found))
        k = len(found[place][1]) if t > 0 else 0
        found[place] = S, tuple(1 + rng.randrange(t) for _ in range(k))
    return found


def small_rules(rng: Rng, t: int, n: int, most: int) -> List[Rule]:
    """At most `most` rules, which have a sentence."""
    for _ in range(TRIES):
        lengths = [rng.randrange(5) for _ in range(1 + rng.randrange(most))]
        rules = random_rules(rng, t, n, lengths)
        if has_sentence(rules):
            return rules
    return with_sentence(rng, t, rules)


def small_grammar(rng: Rng, most: int) -> Tuple[int, int, List[Rule]]:
    """A good grammar of at most `most` rules and few symbols."""
    t, n = rng.randrange(5), 1 + rng.randrange(5)
    return t, n, small_rules(rng, t, n, most)


def some_rules(rng: Rng, states: int = MAX_STATES) -> int:
    """A number of rules below the most; so many can have so many states together."""
    return states // 11 + rng.randrange(states // 5)


def large_grammar(rng: Rng, count: int, states: int) -> Tuple[int, int, List[Rule]]:
    """A grammar of `count` rules and Q = `states`, with many symbols and a sentence."""
    t, n = 200 + rng.randrange(200), 200 + rng.randrange(200)
    rules = random_rules(rng, t, n, random_lengths(rng, count, states))
    return t, n, with_sentence(rng, t, rules)


def bad_left(rng: Rng, t: int, n: int) -> int:
    """A left code that is no declared nonterminal, often one at an edge."""
    edges = [0, 1, t, MAX_TERMINALS, MAX_TERMINALS + 1, START - 1, START + n, FIRST_ABOVE,
             MAX_ENTRY]
    if rng.randrange(2) == 0:
        return rng.choice(edges)
    if rng.randrange(2) == 0:
        return rng.choice([rng.randrange(256), rng.randrange(START)])
    return rng.choice([START + n, FIRST_ABOVE]) + rng.randrange(MAX_NONTERMINALS - n + 1)


def bad_code(rng: Rng, t: int, n: int) -> int:
    """An undeclared code: zero, past t, between the kinds, past n, or past them all.

    It needs t and n below their limits.
    """
    past_t, past_n = MAX_TERMINALS - t, MAX_NONTERMINALS - n
    return rng.choice([
        0,
        t + 1 + rng.choice([0, rng.randrange(past_t), past_t - 1]),
        rng.choice([MAX_TERMINALS + 1, START - 1, rng.randrange(MAX_TERMINALS + 1, START)]),
        START + n + rng.choice([0, rng.randrange(past_n), past_n - 1]),
        rng.choice([FIRST_ABOVE, MAX_ENTRY, rng.randrange(FIRST_ABOVE, MAX_ENTRY + 1)]),
    ])


def base_grammar(rng: Rng, base: int) -> Tuple[int, int, List[Rule]]:
    """A good grammar: small, of the most rules, or of nearly or exactly the most states."""
    if base == 0:
        return small_grammar(rng, 4)
    if base == 1:
        return large_grammar(rng, MAX_RULES, MAX_STATES - rng.randrange(MAX_STATES // 2))
    return large_grammar(rng, some_rules(rng), MAX_STATES - rng.randrange(7))


def faulty_rule(rng: Rng, t: int, n: int, earlier: Sequence[Rule], faults: int) -> Codes:
    """The entries of a rule with a fault for each bit of `faults`."""
    left, right = random_rule(rng, t, n, rng.randrange(13))
    if faults & 1 and earlier:
        left, right = rng.choice(earlier)
    if faults & 2:
        left = bad_left(rng, t, n)
    codes = list(right)
    if faults & 4:
        while len(codes) <= MAX_LENGTH + rng.randrange(6):
            codes.append(random_code(rng, t, n))
    if faults & 8 and codes:
        codes[rng.randrange(len(codes))] = bad_code(rng, t, n)
    rule = tuple([left, len(codes)] + codes)
    if faults & 16:
        rule = rule[:2 + rng.randrange(max(1, len(codes)))]
    return rule[:1] if faults & 32 and rng.randrange(2) == 0 else rule
