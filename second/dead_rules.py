"""Rules that are not live, by kinds: what cases of document 02's [3] are counted by.

A dead rule is one that no sentence uses. It is found here by derivations.py, not
by live.py.
"""

from functools import lru_cache
from typing import Dict, FrozenSet, List, Optional, Set, Tuple

from automaton import items_of
from derivations import nonterminals_of, productive, used_rules
from tables import START, Grammar, Rule

# The kinds of a dead rule.
UNREACHABLE = "unreachable"       # no rules lead from S to it
UNPRODUCTIVE = "unproductive"     # reachable, but some symbol of it has no finite subtree
BEHIND = "behind-unproductive"    # productive, but reached through unproductive rules alone

# The kinds of a grammar with dead rules: unproductive ones alone; unreachable ones
# alone; unproductive ones and others behind them; unreachable ones beside other
# dead ones. A grammar without a sentence has no live rule, and is refused.
MIXED = "mixed"
KINDS = [UNPRODUCTIVE, UNREACHABLE, BEHIND, MIXED]
NO_SENTENCE = "no-sentence"

FEWEST = 50                       # cases of each kind that a file must have
REASONS = ["dead-" + kind for kind in KINDS]
ENOUGH = {name: FEWEST for name in REASONS}


def reachable(grammar: Grammar) -> Set[int]:
    """The nonterminals that rules lead to from S, whether productive or not."""
    found = {START}
    for _ in grammar.rules:
        for rule in grammar.rules:
            if rule.left in found:
                found.update(nonterminals_of(rule))
    return found


def is_complete(finite: FrozenSet[int], rule: Rule) -> bool:
    """Whether each nonterminal of the right side has a finite subtree."""
    return finite.issuperset(nonterminals_of(rule))


@lru_cache(maxsize=1024)
def rule_kinds(grammar: Grammar) -> Tuple[Optional[str], ...]:
    """By number the kind of a dead rule, None for a live one; rule 0 first.

    Rule 0 can only be unproductive. Where it is, no other rule is live either.
    """
    finite, near, used = productive(grammar), reachable(grammar), used_rules(grammar)
    kinds: List[Optional[str]] = [None if any(used) else UNPRODUCTIVE]
    for rule, live in zip(grammar.rules, used):
        if live:
            kinds.append(None)
        elif rule.left not in near:
            kinds.append(UNREACHABLE)
        else:
            kinds.append(BEHIND if is_complete(finite, rule) else UNPRODUCTIVE)
    return tuple(kinds)


def kind_of(grammar: Grammar) -> Optional[str]:
    """Which of KINDS a grammar is of, or NO_SENTENCE, or None if all its rules are live."""
    first, *others = rule_kinds(grammar)
    if first is not None:
        return NO_SENTENCE
    found = set(others) - {None}
    if UNREACHABLE in found:
        return UNREACHABLE if len(found) == 1 else MIXED
    if BEHIND in found:
        return BEHIND
    return UNPRODUCTIVE if found else None


def reasons_of(grammar: Grammar) -> List[str]:
    """The reason of REASONS that a grammar with a sentence meets, if any."""
    kind = kind_of(grammar)
    return [] if kind is None else ["dead-" + kind]


@lru_cache(maxsize=1024)
def dead_states(grammar: Grammar) -> Dict[int, str]:
    """The items of dead rules, with their rule's kind."""
    kinds = rule_kinds(grammar)
    found = {}
    for state, item in enumerate(items_of(grammar)):
        kind = None if item is None else kinds[item.rule]
        if kind is not None:
            found[state] = kind
    return found
