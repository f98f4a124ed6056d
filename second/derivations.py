"""Which rules the derivation trees of document 01, "Tables", apply.

Cases are counted by this, found in another way than in tables.py and live.py.
"""

from typing import Dict, FrozenSet, List, Sequence, Set

from tables import START, Grammar, Rule, RuleCodes, codes_of


def nonterminals_of(rule: Rule) -> List[int]:
    """The nonterminals of the right side, each of which "has a child"."""
    return [code for code in rule.right if code >= START]


def finite_roots(rules: Sequence[RuleCodes]) -> FrozenSet[int]:
    """The nonterminals that a finite subtree of these rules has at its root."""
    known: Set[int] = set()
    changed = True
    while changed:
        changed = False
        for left, right in rules:
            if left not in known and all(code < START or code in known for code in right):
                known.add(left)
                changed = True
    return frozenset(known)


def productive(grammar: Grammar) -> FrozenSet[int]:
    """The same of a grammar's rules."""
    return finite_roots(codes_of(grammar))


def used_rules(grammar: Grammar) -> List[bool]:
    """By rule: whether some tree applies it, and so some sentence uses it."""
    finite = productive(grammar)
    complete = [finite.issuperset(nonterminals_of(r)) for r in grammar.rules]
    below: Dict[int, Set[int]] = {}
    for rule, whole in zip(grammar.rules, complete):
        if whole:
            below.setdefault(rule.left, set()).update(nonterminals_of(rule))
    reached = {START}
    waiting = [START]
    while waiting:
        found = below.get(waiting.pop(), set()) - reached
        reached |= found
        waiting += found
    return [whole and r.left in reached for r, whole in zip(grammar.rules, complete)]
