"""What document 02's [4] could be taken for.

A misreading says of some rules otherwise whether S has a finite tree, or takes 19
in another order. A case that is answered otherwise in one of them tells it from
[4], and is counted for that.
"""

from typing import Callable, Dict, List, Sequence, Set

from derivations import finite_roots
from tables import START, Codes, RuleCodes

Rules = Sequence[RuleCodes]


# Another answer to whether there is a sentence.

def nonterminals_in(right: Codes) -> List[int]:
    return [code for code in right if code >= START]


def any_rules(rules: Rules) -> bool:
    """As before [4]."""
    return True


def a_longer_sentence(rules: Rules) -> bool:
    """Whether there is a sentence that is not empty."""
    finite = finite_roots(rules)
    whole = [(left, right) for left, right in rules
             if finite.issuperset(nonterminals_in(right))]
    longer: Set[int] = set()
    count = -1
    while count < len(longer):
        count = len(longer)
        longer.update(left for left, right in whole
                      if any(code < START or code in longer for code in right))
    return START in longer


def a_rule_of_s(rules: Rules) -> bool:
    """Whether S has a rule, whatever it needs."""
    return any(left == START for left, _ in rules)


def a_finite_tree(rules: Rules) -> bool:
    """Whether any nonterminal has a finite subtree."""
    return bool(finite_roots(rules))


def finite_trees_of_all(rules: Rules) -> bool:
    """Whether S and every nonterminal of the rules has a finite subtree."""
    finite = finite_roots(rules)
    codes = {START}.union(*({left, *nonterminals_in(right)} for left, right in rules))
    return finite.issuperset(codes)


def in_one_round(rules: Rules) -> bool:
    """Whether S is found when each rule is looked at once, in order."""
    finite: Set[int] = set()
    for left, right in rules:
        if finite.issuperset(nonterminals_in(right)):
            finite.add(left)
    return START in finite


def without_nonterminals(rules: Rules) -> bool:
    """Whether S has a rule without nonterminals."""
    return any(left == START and not nonterminals_in(right) for left, right in rules)


HAS_SENTENCE: Dict[str, Callable[[Rules], bool]] = {
    "19-is-never-given": any_rules,
    "the-empty-sentence-is-none": a_longer_sentence,
    "a-rule-of-S-is-enough": a_rule_of_s,
    "a-finite-tree-of-another-is-enough": a_finite_tree,
    "every-nonterminal-needs-a-finite-tree": finite_trees_of_all,
    "each-rule-is-looked-at-once": in_one_round,
    "S-needs-a-rule-without-nonterminals": without_nonterminals,
}

# Another order.
BEFORE_8 = "19-comes-before-8"
AFTER_14 = "14-comes-before-19"
AFTER_NAMES = "names-come-before-19"       # the writer's 16 and 18

TOLD = {name: "told-from-" + name
        for name in [*HAS_SENTENCE, BEFORE_8, AFTER_14, AFTER_NAMES]}
TOLD_BY_RULES = [TOLD[name] for name in HAS_SENTENCE]


def told(rules: Rules) -> List[str]:
    """The reasons of those misreadings in which rules without faults are answered otherwise."""
    right = START in finite_roots(rules)
    return [TOLD[name] for name, misread in HAS_SENTENCE.items() if misread(rules) != right]
