"""Derivation trees of document 01, "Tables": how many a sentence has, and random ones.

`tree_count` counts the trees of a sentence up to two, `some_sentences` gives the
rows of random trees.
"""

from functools import lru_cache
from typing import Dict, List, Tuple

from case_files import Rng
from derivations import nonterminals_of, used_rules
from tables import START, Codes, Grammar, Rule

MOST = 2                  # "it has two trees": more need not be told apart
ENDLESS = 10 ** 6         # the depth of a subtree that there is not

Ends = Dict[int, int]     # by place where a part of the sentence ends, the number of ways
Parts = Dict[Tuple[int, int], Ends]    # the same by nonterminal and place of beginning


def passed(known: Parts, sentence: Codes, begins: Ends, code: int) -> Ends:
    """The ways that have one symbol more."""
    ends: Ends = {}
    for place, ways in begins.items():
        if code >= START:
            found = known.get((code, place), {})
        else:
            found = {place + 1: 1} if sentence[place:place + 1] == (code,) else {}
        for end, more in found.items():
            ends[end] = min(MOST, ends.get(end, 0) + ways * more)
    return ends


def deeper(grammar: Grammar, sentence: Codes, known: Parts) -> Parts:
    """The subtrees of one node more in depth than the known ones, counted up to two."""
    found: Parts = {}
    for rule in grammar.rules:
        for begin in range(len(sentence) + 1):
            ends: Ends = {begin: 1}
            for code in rule.right:
                ends = passed(known, sentence, ends, code)
            here = found.setdefault((rule.left, begin), {})
            for end, ways in ends.items():
                here[end] = min(MOST, here.get(end, 0) + ways)
    return found


def tree_count(grammar: Grammar, sentence: Codes) -> int:
    """The number of trees with this row, 2 if there are more.

    The trees of depth 1, 2, 3 and so on are counted until nothing changes: then
    no greater depth changes anything either.
    """
    known: Parts = {}
    while True:
        found = deeper(grammar, sentence, known)
        if found == known:
            return known.get((START, 0), {}).get(len(sentence), 0)
        known = found


# Random trees.

@lru_cache(maxsize=4)
def least_depths(grammar: Grammar) -> Dict[int, int]:
    """By nonterminal the least depth of a subtree with this root, where there is one."""
    depths: Dict[int, int] = {}
    changed = True
    while changed:
        changed = False
        for rule in grammar.rules:
            depth = depth_of(depths, rule)
            if depth < depths.get(rule.left, ENDLESS):
                depths[rule.left] = depth
                changed = True
    return depths


def depth_of(depths: Dict[int, int], rule: Rule) -> int:
    """The least depth of a subtree whose root applies this rule."""
    below = [depths.get(code, ENDLESS) for code in nonterminals_of(rule)]
    return min(ENDLESS, 1 + max(below, default=0))


def random_row(rng: Rng, grammar: Grammar, most: int) -> Codes:
    """The row of a random tree; only the shallowest subtrees once it has `most` symbols.

    The grammar has a sentence.
    """
    depths = least_depths(grammar)
    row: List[int] = []
    waiting = [START]
    while waiting:
        code = waiting.pop()
        if code < START:
            row.append(code)
            continue
        rules = [rule for rule in grammar.rules
                 if rule.left == code and depth_of(depths, rule) < ENDLESS]
        if len(row) + len(waiting) >= most:
            least = min(depth_of(depths, rule) for rule in rules)
            rules = [rule for rule in rules if depth_of(depths, rule) == least]
        waiting += reversed(rng.choice(rules).right)
    return tuple(row)


def some_sentences(rng: Rng, grammar: Grammar, count: int, most: int) -> List[Codes]:
    """The rows of `count` random trees, none if the grammar has no tree."""
    if not any(used_rules(grammar)):
        return []
    return [random_row(rng, grammar, most) for _ in range(count)]
