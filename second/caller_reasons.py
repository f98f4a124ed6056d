"""Sorts cases by what m and the chains of callers are: what cases of document 02's [11] are counted by.

Chains are counted here in another way than in callers.py: one by one, up to a number
past the limit of states.
"""

from functools import lru_cache
from typing import Iterable, List, Tuple

from callers import MOST_CALLERS, TOO_MANY_CALLERS, check_at, states_at
from dead_rules import kind_of
from derivations import used_rules
from tables import (
    MAX_STATES, NO_SENTENCE, START, TOO_MANY_STATES, Codes, Grammar, Refusal, check_table,
)

REMEMBERED = range(1, MOST_CALLERS + 1)
MANY_CHAINS = 3 * MAX_STATES      # chains are counted up to this number
FEWEST = 50                       # cases of each m and of each of its refusals

ANSWERED = ["callers-%d" % m for m in range(MOST_CALLERS + 1)]
CHAINS = ["8-too-many-chains-at-%d" % m for m in REMEMBERED]
MAIN = ANSWERED + ["21"] + CHAINS + [
    "order-8-before-21",
    "order-19-before-21",
    "order-21-before-too-many-chains",
    "8-of-the-table-at-1",
    "8-of-the-table-at-2",
    "19-at-1",
    "19-at-2",
]
SOME = [
    "21-callers-3",
    "21-callers-above-3",
    "21-callers-past-16-bits",
    "21-callers-past-32-bits",
    "21-callers-whose-low-16-bits-pass",
    "21-callers-whose-low-32-bits-pass",
    "21-callers-of-64-ones",
    "order-1-to-7-before-21",
    "1-to-7-at-1",
    "1-to-7-at-2",
    "8-by-one-chain",
    "8-by-far",
    "8-at-2-though-1-fits",
    "8-of-chains-whose-low-16-bits-pass",
    "8-of-chains-with-dead-rules",
    "1023-or-1024-states-at-1",
    "1023-or-1024-states-at-2",
] + ["%s-at-%d" % (how, m) for m in REMEMBERED for how in (
    "fewer-states-than-at-0", "as-many-states-as-at-0", "more-states-than-at-0", "dead-rules",
    "a-dead-rule-would-call", "over-60-states")
] + [
    "as-many-states-at-2-as-at-1",
    "a-chain-of-rule-0-alone",
    "a-rule-that-calls-itself",
    "a-rule-that-calls-twice-the-same",
    "an-empty-rule",
]
REASONS = MAIN + SOME
ENOUGH = {
    **{name: FEWEST for name in MAIN},
    "21-callers-of-64-ones": 5, "1023-or-1024-states-at-1": 4, "1023-or-1024-states-at-2": 4,
    "8-of-chains-whose-low-16-bits-pass": 6, "8-of-chains-with-dead-rules": 6,
    # Grammars with cycles have many chains.
    "callers-2-back-to-itself-both": 10, "callers-2-accepted-with-a-triple-repeated-at-once": 10,
}


def prefixed(names: Iterable[str]) -> List[str]:
    """Reasons of one kind of cases, once for each m above 0."""
    return ["callers-%d-%s" % (m, name) for m in REMEMBERED for name in names]


def at(m: int, names: Iterable[str]) -> List[str]:
    """The reasons met at an m above 0."""
    return ["callers-%d-%s" % (m, name) for name in names]


# Chains one by one.

def calls(grammar: Grammar) -> List[Tuple[int, int]]:
    """Of live rules left code and nonterminal, for each place of one on a right side; rule 0's is S."""
    found = [(0, START)]
    for rule, used in zip(grammar.rules, used_rules(grammar)):
        found += [(rule.left, code) for code in rule.right if used and code >= START]
    return found


@lru_cache(maxsize=1024)
def counted_states(grammar: Grammar, m: int) -> int:
    """Q at m above 0, each chain one by one; not more than a little past MANY_CHAINS."""
    places = calls(grammar)
    lefts = [(0, 2)] + [(rule.left, len(rule.right) + 1)
                        for rule, used in zip(grammar.rules, used_rules(grammar)) if used]
    count = 2
    for left, items in lefts:
        ends = [left]
        for _ in range(m):
            ends = [farther for end in ends for farther in (
                [0] if end == 0 else [caller for caller, code in places if code == end])]
            if len(ends) > MANY_CHAINS:
                return MANY_CHAINS
        count += items * len(ends)
        if count > MANY_CHAINS:
            return MANY_CHAINS
    return count


# Reasons.

def refused_m(m: int) -> List[str]:
    """Which m above 2 it is."""
    met = [
        ("21-callers-3", m == 3),
        ("21-callers-above-3", m > 3),
        ("21-callers-past-16-bits", m >= 2 ** 16),
        ("21-callers-past-32-bits", m >= 2 ** 32),
        ("21-callers-whose-low-16-bits-pass", m % 2 ** 16 <= MOST_CALLERS),
        ("21-callers-whose-low-32-bits-pass", m % 2 ** 32 <= MOST_CALLERS),
        ("21-callers-of-64-ones", m == 2 ** 64 - 1),
    ]
    return ["21"] + [name for name, holds in met if holds]


def table_reasons(cause: int, m: int) -> List[str]:
    """A fault of the table, or 19, before what m is."""
    name = {NO_SENTENCE: "19", TOO_MANY_STATES: "8"}.get(cause, "1-to-7")
    if m > MOST_CALLERS:
        return ["order-%s-before-21" % name]
    return ["%s-at-%d" % (name + "-of-the-table" * (name == "8"), m)] if m else []


def chain_reasons(grammar: Grammar, m: int, states: int) -> List[str]:
    """By how many states there are too many; `states` is Q at m."""
    met = [
        ("8-by-one-chain", states == MAX_STATES + 1),
        ("8-by-far", counted_states(grammar, m) >= MANY_CHAINS),
        ("8-at-2-though-1-fits", m == 2 and counted_states(grammar, 1) <= MAX_STATES),
        ("8-of-chains-whose-low-16-bits-pass", states % 2 ** 16 <= MAX_STATES),
        ("8-of-chains-with-dead-rules", kind_of(grammar) is not None),
    ]
    return [CHAINS[m - 1]] + [name for name, holds in met if holds]


def a_dead_rule_would_call(grammar: Grammar) -> bool:
    """Whether a dead rule has a nonterminal that has live rules."""
    used = used_rules(grammar)
    live = {rule.left for rule, taken in zip(grammar.rules, used) if taken}
    return any(not taken and live.intersection(rule.right) for rule, taken in zip(grammar.rules, used))


@lru_cache(maxsize=4096)
def answered(grammar: Grammar, m: int) -> Tuple[str, ...]:
    """What the states at an m above 0 are like."""
    states = counted_states(grammar, m)
    live = [rule for rule, used in zip(grammar.rules, used_rules(grammar)) if used]
    called = {code for left, code in calls(grammar) if left != 0}
    met = [
        ("1023-or-1024-states-at-%d" % m, MAX_STATES - 1 <= states <= MAX_STATES),
        ("fewer-states-than-at-0-at-%d" % m, states < grammar.states),
        ("as-many-states-as-at-0-at-%d" % m, states == grammar.states),
        ("more-states-than-at-0-at-%d" % m, states > grammar.states),
        ("dead-rules-at-%d" % m, len(live) < len(grammar.rules)),
        ("a-dead-rule-would-call-at-%d" % m, a_dead_rule_would_call(grammar)),
        ("over-60-states-at-%d" % m, states > 60),
        ("as-many-states-at-2-as-at-1", m == 2 and states == counted_states(grammar, 1)),
        ("a-chain-of-rule-0-alone", START not in called),
        ("a-rule-that-calls-itself", any(rule.left in rule.right for rule in live)),
        ("a-rule-that-calls-twice-the-same", any(
            rule.right.count(code) > 1 for rule in live for code in rule.right if code >= START)),
        ("an-empty-rule", any(not rule.right for rule in live)),
    ]
    return (ANSWERED[m],) + tuple(name for name, holds in met if holds)


def of_case(t: int, n: int, table: Codes, m: int) -> List[str]:
    """Every reason of REASONS that a table with an m meets."""
    grammar = check_table(t, n, table)
    if isinstance(grammar, Refusal):
        return table_reasons(grammar.cause, m)
    if m == 0:
        return [ANSWERED[0]]
    refusal = check_at(t, n, table, m)
    if m > MOST_CALLERS:
        assert refusal == Refusal(TOO_MANY_CALLERS, 0)
        many = counted_states(grammar, MOST_CALLERS) > MAX_STATES
        return refused_m(m) + ["order-21-before-too-many-chains"] * many
    if counted_states(grammar, m) > MAX_STATES:
        assert refusal == Refusal(TOO_MANY_STATES, 0)
        return chain_reasons(grammar, m, states_at(grammar, m))
    assert refusal == grammar
    return list(answered(grammar, m))

