"""What document 02's [12] could be taken for.

A misreading answers a case otherwise, or changes other entries of what is lent. A case in
which it does tells it from [12], and is counted for that.
"""

from functools import lru_cache
from typing import Callable, Dict, List, Optional, Set, Tuple

from derivations import used_rules
from sentence_trees import (
    MOST_TERMINALS, NO_ROW, NONE, ONE, PLACES, ROW_TOO_SHORT, SEVERAL, Forest, Part, Tree, Trees, find_trees, row_fault,
    trees_of, work_entries,
)
from tables import FIXED_STATES, Codes, Grammar, Refusal, check_table, is_terminal
from tree_inputs import Case

SMALL_STATES, SMALL_ROW = 40, 20       # what ways are looked at one by one for
MOST_LISTED = 2000                     # rules of a tree that is listed in another order

Answer = Callable[[Grammar, Codes], Optional[str]]
Listing = Callable[[Tree], Codes]
Misreading = Callable[[Case, Trees, Grammar], Trees]


# Another answer.

def counted_once(grammar: Grammar, row: Codes) -> str:
    """Trees are counted part by part, and a part that is met within itself counts as none."""
    forest = Forest(grammar, row)
    known: Dict[Part, int] = {}
    def count(part: Part) -> int:
        if part not in known:
            known[part] = 0
            total = 0
            for way in forest.ways(part):
                product = 1
                for below in way.parts:
                    product *= count(below)
                total = min(2, total + product)
            known[part] = total
        return known[part]
    if not forest.has_tree(forest.root):
        return NONE
    return [NONE, ONE, SEVERAL][count(forest.root)]


def by_rules_alone(grammar: Grammar, row: Codes) -> str:
    """Trees with the same rule at a part are not told apart by where its symbols end."""
    forest = Forest(grammar, row)
    if not forest.has_tree(forest.root):
        return NONE
    seen: Set[Part] = set()
    waiting = [forest.root]
    while waiting:
        part = waiting.pop()
        if part in seen:
            continue
        seen.add(part)
        ways = list(forest.ways(part))
        if len({way.rule for way in ways}) > 1:
            return SEVERAL
        waiting += [below for way in ways for below in way.parts]
    return ONE


def at_the_root(grammar: Grammar, row: Codes) -> str:
    """There are several only if the root has two ways."""
    forest = Forest(grammar, row)
    if not forest.has_tree(forest.root):
        return NONE
    ways = forest.ways(forest.root)
    next(ways)
    return ONE if next(ways, None) is None else SEVERAL


def any_part(grammar: Grammar, row: Codes) -> str:
    """There are several if any part has two ways, whether a tree of the row has it or not."""
    answer, tree, _ = trees_of(grammar, row)
    if tree is None:
        return answer
    forest = Forest(grammar, row)
    for (code, begin), ends in forest.ends.items():
        for end in ends:
            ways = forest.ways((code, begin, end))
            if next(ways, None) is not None and next(ways, None) is not None:
                return SEVERAL
    return ONE


def none_if_empty(grammar: Grammar, row: Codes) -> str:
    """The empty row has no tree."""
    return trees_of(grammar, row)[0] if row else NONE


ANSWERS: Dict[str, Answer] = {
    "a-part-within-itself-has-no-tree": counted_once,
    "where-symbols-end-does-not-matter": by_rules_alone,
    "only-the-root-is-looked-at": at_the_root,
    "parts-in-no-tree-of-the-row-are-looked-at": any_part,
    "the-empty-row-has-no-tree": none_if_empty,
}


# Another list.

def behind_children(tree: Tree) -> Codes:
    """A node behind its children."""
    return tuple(way.rule for way in walked(tree, False))[::-1]


def right_to_left(tree: Tree) -> Codes:
    """Children right to left."""
    return tuple(way.rule for way in walked(tree, False))


def walked(tree: Tree, left_first: bool) -> list:
    """The ways of the nodes, a node before its children."""
    found, waiting = [], [tree.root]
    while waiting:
        way = tree.ways[waiting.pop()]
        found.append(way)
        waiting += way.parts[::-1] if left_first else way.parts
    return found


def level_by_level(tree: Tree) -> Codes:
    """All nodes of a depth before the deeper ones."""
    row = [tree.root]
    for part in row:                   # `row` grows
        row += tree.ways[part].parts
    return tuple(tree.ways[part].rule for part in row)


def once_each(tree: Tree) -> Codes:
    """A rule is listed where it is applied first."""
    return tuple(dict.fromkeys(tree.rules()))


LISTINGS: Dict[str, Listing] = {
    "a-node-stands-behind-its-children": behind_children,
    "children-stand-right-to-left": right_to_left,
    "rules-are-listed-level-by-level": level_by_level,
    "each-rule-is-listed-once": once_each,
    "rules-are-numbered-from-0": lambda tree: tuple(rule - 1 for rule in tree.rules()),
    "rule-0-is-listed": lambda tree: (0, *tree.rules()),
}


# Another order of refusals, or other entries that are needed or changed.

def with_room(case: Case, trees: Trees, needed: int) -> Trees:
    """As it would be if the work row had to have so many entries."""
    if isinstance(trees.answer, Refusal) and not trees.cleared and trees.answer.cause != ROW_TOO_SHORT:
        return trees
    if case.lent.work < needed:
        return Trees(Refusal(ROW_TOO_SHORT, 0))
    return enough(case)._replace(cleared=needed)


def enough(case: Case) -> Trees:
    """As it would be with a work row that is long enough."""
    return find_trees(*case[:4], case.lent._replace(work=10 ** 9))


def live_states(case: Case, trees: Trees, grammar: Grammar) -> Trees:
    used = zip(grammar.rules, used_rules(grammar))
    return with_room(case, trees, PLACES * PLACES * (
        FIXED_STATES + sum(len(rule.right) + 1 for rule, live in used if live)))


def by_64(case: Case, trees: Trees, grammar: Grammar) -> Trees:
    return with_room(case, trees, MOST_TERMINALS ** 2 * grammar.states)


def by_the_row(case: Case, trees: Trees, grammar: Grammar) -> Trees:
    return with_room(case, trees, (len(case.row) + 1) ** 2 * grammar.states)


def from_1(case: Case, trees: Trees, grammar: Grammar) -> Trees:
    place = row_fault(case.t, case.row)
    return trees if place is None else Trees(Refusal(NO_ROW, place + 1))


def long_first(case: Case, trees: Trees, grammar: Grammar) -> Trees:
    return Trees(Refusal(NO_ROW, MOST_TERMINALS)) if len(case.row) > MOST_TERMINALS else trees


def long_last(case: Case, trees: Trees, grammar: Grammar) -> Trees:
    """Codes past place 64 are looked at, and come before the length."""
    for place, code in enumerate(case.row):
        if not is_terminal(code, case.t):
            return Trees(Refusal(NO_ROW, place))
    return trees


def sixty_five(case: Case, trees: Trees, grammar: Grammar) -> Trees:
    """65 terminals pass, and have some answer."""
    place = row_fault(case.t, case.row)
    if place == MOST_TERMINALS and len(case.row) == PLACES and is_terminal(case.row[-1], case.t):
        return Trees(NONE, (), work_entries(grammar))
    return trees


def short_first(case: Case, trees: Trees, grammar: Grammar) -> Trees:
    return Trees(Refusal(ROW_TOO_SHORT, 0)) if case.lent.work < work_entries(grammar) else trees


def any_list(case: Case, trees: Trees, grammar: Grammar) -> Trees:
    """Also none and several need a list of an entry."""
    if trees.answer in (NONE, SEVERAL) and case.lent.rules == 0:
        return Trees(Refusal(ROW_TOO_SHORT, 0), (), trees.cleared)
    return trees


def second_unused(case: Case, trees: Trees, grammar: Grammar) -> Trees:
    """The 14 of the list leaves the work row as it was."""
    return trees._replace(cleared=0) if isinstance(trees.answer, Refusal) else trees


def first_cleared(case: Case, trees: Trees, grammar: Grammar) -> Trees:
    """Every 14 leaves 0 in the work row, as far as that goes."""
    if trees.answer == (ROW_TOO_SHORT, 0) and not trees.cleared:
        return trees._replace(cleared=case.lent.work)
    return trees


def list_begun(case: Case, trees: Trees, grammar: Grammar) -> Trees:
    """The list is written as far as it goes before it is found too short."""
    if trees.answer == (ROW_TOO_SHORT, 0) and trees.cleared:
        _, tree, size = trees_of(grammar, case.row)
        assert tree is not None
        if size <= MOST_LISTED:
            return trees._replace(rules=tree.rules()[:case.lent.rules])
    return trees


def whole_cleared(case: Case, trees: Trees, grammar: Grammar) -> Trees:
    """All of the work row is 0 afterwards."""
    return trees._replace(cleared=case.lent.work) if trees.cleared else trees


CHANGES: Dict[str, Misreading] = {
    "dead-rules-need-no-entries": live_states,
    "there-are-64-times-64-entries-by-state": by_64,
    "entries-are-counted-by-the-row": by_the_row,
    "places-are-counted-from-1": from_1,
    "a-long-row-comes-before-its-codes": long_first,
    "codes-past-place-64-come-first": long_last,
    "65-terminals-pass": sixty_five,
    "14-comes-before-22": short_first,
    "none-and-several-need-a-list": any_list,
    "14-for-the-list-leaves-the-work-row": second_unused,
    "every-14-clears-the-work-row": first_cleared,
    "a-short-list-is-begun": list_begun,
    "the-whole-work-row-is-cleared": whole_cleared,
}
FIRST = "22-comes-before-the-table"

TOLD = {name: "told-from-" + name for name in [*ANSWERS, *LISTINGS, *CHANGES, FIRST]}


# What is told.

@lru_cache(maxsize=64)
def told_answers(grammar: Grammar, row: Codes) -> Tuple[str, ...]:
    """The misreadings that answer otherwise, or list otherwise."""
    answer, tree, size = trees_of(grammar, row)
    found: List[str] = []
    if grammar.states <= SMALL_STATES and len(row) <= SMALL_ROW:
        found += [name for name, other in ANSWERS.items() if other(grammar, row) != answer]
    if tree is not None and size <= MOST_LISTED:
        found += [name for name, listing in LISTINGS.items() if listing(tree) != tree.rules()]
    return tuple(found)


def changes_alike(case: Case, one: Trees, other: Trees) -> bool:
    """Whether the same is answered, and lent rows hold the same afterwards."""
    same = one.cleared == other.cleared or case.fill == 0
    return same and (one.answer, one.rules) == (other.answer, other.rules)


def told(case: Case) -> List[str]:
    """The reasons of those misreadings in which a case is answered otherwise, or something else is changed."""
    trees, grammar = find_trees(*case[:5]), check_table(*case[:3])
    if isinstance(grammar, Refusal):
        return [TOLD[FIRST]] if row_fault(case.t, case.row) is not None else []
    found = [name for name, other in CHANGES.items() if not changes_alike(case, trees, other(case, trees, grammar))]
    if isinstance(trees.answer, str):
        found += told_answers(grammar, case.row)
    return [TOLD[name] for name in found]
