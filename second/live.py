"""Which rules are live: document 02, [3].

"A rule is live if some sentence has a tree that uses it; rule 0 is live if there
is a sentence." By [4] a grammar without one is refused; here it has no live rule.

A tree that uses a rule has a finite subtree at each node of the way down to it,
beside that way and below the rule. So first those nonterminals are found that
have a finite subtree, then from S downwards what rules with only such
nonterminals lead to. `live_rules` says of each rule whether it is live.
"""

from typing import Dict, List, Tuple

from tables import START, Grammar, codes_of, finite_nonterminals


def live_rules(grammar: Grammar) -> Tuple[bool, ...]:
    """By number whether a rule is live, rule 0 first."""
    finite = finite_nonterminals(codes_of(grammar))
    live = [False] * len(grammar.rules)
    rules_of: Dict[int, List[int]] = {}
    for place, rule in enumerate(grammar.rules):
        rules_of.setdefault(rule.left, []).append(place)
    reached = set()
    waiting = [START] if START in finite else []
    while waiting:
        left = waiting.pop()
        if left not in reached:
            reached.add(left)
            for place in rules_of.get(left, []):
                below = [code for code in grammar.rules[place].right if code >= START]
                if finite.issuperset(below):
                    live[place] = True
                    waiting += below
    return (START in finite, *live)
