"""Sorts grammars by whether they have a sentence: what cases of document 02's [4] are counted by.

Sentences are found here by derivations.py, not by tables.py.
"""

from functools import lru_cache
from typing import List, Sequence, Tuple

from derivations import finite_roots
from sentence_misreadings import BEFORE_8, TOLD, TOLD_BY_RULES, a_longer_sentence, told
from tables import (
    HEADER, NO_SENTENCE, START, TOO_MANY_STATES, Codes, Refusal, RuleCodes, check_rules,
    codes_of,
)

# Why a grammar has no sentence, and what else it has.
NONE_REASONS = [
    "19-no-rules",
    "19-no-rule-of-S",
    "19-S-on-right-sides-only",
    "19-every-rule-of-S-needs-S",
    "19-S-needs-another",
    "19-though-another-has-a-finite-tree",
]
# Grammars that nearly have none.
NEAR_REASONS = [
    "only-the-empty-sentence",
    "a-sentence-by-the-last-rule-alone",
]
RULES_REASONS = NONE_REASONS + NEAR_REASONS + TOLD_BY_RULES
ORDER_REASONS = ["order-1-to-7-before-19", "order-8-before-19"]
REASONS = RULES_REASONS + ORDER_REASONS + [TOLD[BEFORE_8]]

FEWEST = 50                        # cases of 19 that a file must have
CAUSE = str(NO_SENTENCE)
ENOUGH = {CAUSE: FEWEST}


def has_tree(rules: Sequence[RuleCodes]) -> bool:
    """Whether S has a finite tree."""
    return START in finite_roots(rules)


def none_reasons(rules: Sequence[RuleCodes]) -> List[str]:
    """Why rules have no sentence."""
    own = [right for left, right in rules if left == START]
    seen = any(START in right for _, right in rules)
    met = [
        ("19-no-rules", not rules),
        ("19-no-rule-of-S", bool(rules) and not own),
        ("19-S-on-right-sides-only", seen and not own),
        ("19-every-rule-of-S-needs-S", bool(own) and all(START in right for right in own)),
        ("19-S-needs-another", any(START not in right for right in own)),
        ("19-though-another-has-a-finite-tree", bool(finite_roots(rules))),
    ]
    return [name for name, holds in met if holds]


def near_reasons(rules: Sequence[RuleCodes]) -> List[str]:
    """What is almost missing where there is a sentence."""
    met = [
        ("only-the-empty-sentence", not a_longer_sentence(rules)),
        ("a-sentence-by-the-last-rule-alone", len(rules) > 1 and not has_tree(rules[:-1])),
    ]
    return [name for name, holds in met if holds]


def of_rules(rules: Sequence[RuleCodes]) -> List[str]:
    """The reasons of rules without faults."""
    found = near_reasons(rules) if has_tree(rules) else none_reasons(rules)
    return found + told(rules)


def loose_rules(table: Codes) -> List[RuleCodes]:
    """The whole rules in front of a table, whatever else is wrong with them."""
    rules = []
    offset = 0
    while offset + HEADER <= len(table):
        body = offset + HEADER
        end = body + table[offset + 1]
        if end > len(table):
            break
        rules.append((table[offset], table[body:end]))
        offset = end
    return rules


def order_reasons(cause: int) -> List[str]:
    """The reasons of a table that is refused for this cause and has no sentence."""
    if cause == TOO_MANY_STATES:
        return ["order-8-before-19", TOLD[BEFORE_8]]
    return ["order-1-to-7-before-19"]


@lru_cache(maxsize=4096)
def of_table(t: int, n: int, table: Codes) -> Tuple[str, ...]:
    """Every reason of REASONS that a table meets."""
    result = check_rules(t, n, table)
    if not isinstance(result, Refusal):
        return tuple(of_rules(codes_of(result)))
    return () if has_tree(loose_rules(table)) else tuple(order_reasons(result.cause))
