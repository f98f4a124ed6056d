"""Sorts the cases of document 02's [12] by reasons finer than the causes.

Trees are counted here in two other ways than in sentence_trees.py: by depth and up to two in
trees.py, and exactly, over the parts of a row. A list of rules is applied from the left.
"""

from functools import lru_cache
from typing import Dict, List, Optional, Set, Tuple

import dead_rules
import sentence_reasons
from case_files import TABLE_REASONS
from case_grammars import states_of
from corpus_cases import corpus_tables
from derivations import used_rules
from sentence_trees import (
    MOST_TERMINALS, NO_ROW, NONE, ONE, PLACES, ROW_TOO_SHORT, SEVERAL, Forest, Part, Tree, Trees, find_trees, row_fault,
    trees_of, work_entries,
)
from tables import (
    FIXED_STATES, MAX_ENTRY, MAX_NONTERMINALS, MAX_STATES, MAX_TERMINALS, NO_SENTENCE, START, Codes, Grammar, Refusal,
    check_table, is_nonterminal, is_terminal,
)
from tree_grammars import empty_ones, live_rules_of, recursion
from tree_inputs import Case
from tree_misreadings import SMALL_ROW, SMALL_STATES, TOLD, told
from trees import tree_count
from triples import is_potential, triples_of

FEW_STATES = 24           # of a grammar that is searched
COUNTED = 1500            # rules times places of the row, up to which trees are counted by depth
LISTED = 5000             # rules of a tree that is applied again
ANSWERS = [NONE, ONE, SEVERAL]

OF_ANSWERS = ["%s-%s" % (answer, how) for answer in ANSWERS for how in (
    "of-the-empty-row", "of-1-terminal", "of-2-to-15-terminals", "of-16-to-62-terminals",
    "of-63-terminals", "of-64-terminals", "with-a-cyclic-grammar", "with-empty-parts", "with-left-recursion",
    "with-hidden-left-recursion", "with-dead-rules", "with-every-rule-used", "over-60-states", "of-the-corpus",
    "with-exactly-the-work-row", "with-a-longer-work-row", "with-a-list-of-no-entry", "with-a-list-that-is-kept",
    "filled-with-0", "filled-with-a-small-number", "filled-with-the-largest", "filled-with-a-mixture")
    if (answer, how) not in ((ONE, "with-a-list-of-no-entry"), (ONE, "with-a-list-that-is-kept"))]
OF_ONE = [
    "one-list-exactly-enough",
    "one-list-longer",
    "one-of-an-unambiguous-grammar",
    "one-of-a-potential-grammar",
    "one-empty-part-in-front",
    "one-empty-part-between",
    "one-empty-part-at-the-end",
    "one-a-unit-rule",
    "one-though-a-part-in-no-tree-has-two-ways",
    "one-over-64-rules",
    "one-over-1000-rules",
    "one-over-65535-rules",
    "one-rule-past-255",
]
OF_SEVERAL = [
    "several-exactly-two",
    "several-more-than-two",
    "several-endless",
    "several-endless-of-the-empty-row",
    "several-by-two-rules-at-the-root",
    "several-by-two-splits-alone",
    "several-below-the-root-alone",
]
OF_NONE = [
    "none-of-an-unambiguous-grammar",
    "none-a-front-of-it-is-a-sentence",
    "none-a-part-of-S-elsewhere",
]
OF_LISTS = [
    "14-list-one-too-short",
    "14-list-empty",
    "14-list-shorter",
    "14-list-filled-with-0",
    "14-list-filled",
    "14-list-with-a-longer-work-row",
    "14-list-though-enough-for-the-low-16-bits",
    "14-list-though-enough-for-the-low-32-bits",
    "14-list-though-enough-for-the-low-64-bits",
    "14-list-rules-past-64-bits",
]
OF_WORK = [
    "14-work-one-too-short",
    "14-work-empty",
    "14-work-shorter",
    "14-work-and-the-list-too-short",
    "14-work-of-none",
    "14-work-of-one",
    "14-work-of-several",
]
OF_22 = [
    "22",
    "22-at-0",
    "22-at-1-to-62",
    "22-at-63",
    "22-at-64",
    "22-at-64-of-a-sentence",
    "22-at-64-with-no-terminal-there",
    "22-at-64-with-no-terminal-behind",
    "22-at-a-code-of-a-row-that-is-too-long",
    "22-at-the-first-of-two-codes",
    "22-a-row-of-65",
    "22-a-row-of-66",
    "22-a-longer-row",
    "22-length-whose-low-8-bits-pass",
    "22-length-whose-low-16-bits-pass",
    "22-code-0",
    "22-code-one-past-t",
    "22-code-further-past-t",
    "22-code-a-nonterminal",
    "22-code-an-undeclared-nonterminal",
    "22-code-65535",
    "22-code-whose-low-byte-passes",
    "22-without-terminals",
]
OF_ORDER = [
    "order-1-to-8-before-22",
    "order-1-to-8-before-14",
    "order-1-to-8-before-22-and-14",
    "order-19-before-22",
    "order-19-before-14",
    "order-19-before-22-and-14",
    "order-22-before-14",
]
AT_LIMITS = [
    "one-1024-states",
    "none-1024-states",
    "several-1024-states",
    "14-1024-states",
    "one-terminal-2000",
    "none-terminal-2000",
]
REASONS = ANSWERS + TABLE_REASONS + OF_ANSWERS + OF_ONE + OF_SEVERAL + OF_NONE + (
    OF_LISTS + OF_WORK + OF_22 + OF_ORDER + AT_LIMITS + dead_rules.REASONS + list(TOLD.values())
    + sentence_reasons.REASONS)

# Cases at the limits are large, and few.
ENOUGH = {
    **dead_rules.ENOUGH, **sentence_reasons.ENOUGH, "22": 50, **{name: 50 for name in TABLE_REASONS + ANSWERS},
    **{name: 2 for name in AT_LIMITS}, "several-1024-states": 1, "22-length-whose-low-16-bits-pass": 4, "one-over-65535-rules": 5,
    "14-list-rules-past-64-bits": 10, "14-list-though-enough-for-the-low-64-bits": 10, "one-rule-past-255": 3,
}


# Trees in other ways.

class Endless(Exception):
    """A part was met within itself."""


def number_of_trees(forest: Forest) -> Optional[int]:
    """Exactly how many trees a row has, None if there is no end of them.

    A part of a tree that has itself as a part, at any depth, has trees without end.
    """
    known: Dict[Part, int] = {}
    open_parts: Set[Part] = set()
    def count(part: Part) -> int:
        if part in open_parts:
            raise Endless
        if part not in known:
            open_parts.add(part)
            code, begin, end = part
            known[part] = sum(of_rule(right, begin, end) for _, right in forest.rules[code])
            open_parts.remove(part)
        return known[part]
    def of_rule(right: Codes, begin: int, end: int) -> int:
        places = forest.places(right, begin, end)
        numbers = {begin: 1} if begin in places[0] else {}
        for dot, code in enumerate(right):
            ahead: Dict[int, int] = {}
            for place, number in numbers.items():
                if code < START:
                    ahead[place + 1] = ahead.get(place + 1, 0) + number
                    continue
                for later in forest.ends[code, place] & places[dot + 1]:
                    ahead[later] = ahead.get(later, 0) + number * count((code, place, later))
            numbers = ahead
        return numbers.get(end, 0)
    if not forest.has_tree(forest.root):
        return 0
    try:
        return count(forest.root)
    except Endless:
        return None


def applied(grammar: Grammar, rules: Codes) -> Optional[Codes]:
    """The terminals of a list of rules, each applied to the leftmost nonterminal; None if that cannot be."""
    row: List[int] = []
    waiting = [START]
    for number in rules:
        while waiting and waiting[-1] < START:
            row.append(waiting.pop())
        if not waiting or not 1 <= number <= len(grammar.rules) or grammar.rules[number - 1].left != waiting[-1]:
            return None
        waiting.pop()
        waiting += reversed(grammar.rules[number - 1].right)
    row += reversed(waiting)
    return tuple(row) if all(code < START for code in row) else None


# Reasons of an answer.

@lru_cache(maxsize=64)
def grammar_reasons(grammar: Grammar) -> Tuple[str, ...]:
    """What live rules of a grammar are like."""
    rules = live_rules_of(grammar)
    empty = empty_ones(rules)
    kinds = recursion(rules, empty)
    met = [
        ("with-a-cyclic-grammar", "cyclic" in kinds),
        ("with-empty-parts", bool(empty)),
        ("with-left-recursion", "left-recursive" in kinds),
        ("with-hidden-left-recursion", "hidden-left-recursive" in kinds),
        ("with-dead-rules", not all(used_rules(grammar))),
        ("with-every-rule-used", all(used_rules(grammar))),
        ("over-60-states", grammar.states > 60),
    ]
    return tuple(name for name, holds in met if holds)


@lru_cache(maxsize=64)
def potential(grammar: Grammar) -> bool:
    return is_potential(triples_of(grammar))


@lru_cache(maxsize=256)
def row_reasons(grammar: Grammar, row: Codes) -> Tuple[str, ...]:
    """The reasons of an answer that nothing lent changes."""
    answer, tree, size = trees_of(grammar, row)
    if len(grammar.rules) * (len(row) + 1) ** 2 <= COUNTED:
        assert ANSWERS[tree_count(grammar, row)] == answer, "trees counted by depth"
    length = len(row)
    met = [
        ("of-the-empty-row", length == 0),
        ("of-1-terminal", length == 1),
        ("of-2-to-15-terminals", 2 <= length <= 15),
        ("of-16-to-62-terminals", 16 <= length <= 62),
        ("of-63-terminals", length == 63),
        ("of-64-terminals", length == MOST_TERMINALS),
    ]
    names = ["%s-%s" % (answer, name) for name in (*(name for name, holds in met if holds), *grammar_reasons(grammar))]
    if grammar.states <= FEW_STATES:
        unambiguous = not potential(grammar)
        assert not (unambiguous and answer == SEVERAL), "With an accepted certificate, several never occurs"
        if answer == ONE or unambiguous and answer == NONE:
            names.append("%s-of-%s-grammar" % (answer, "an-unambiguous" if unambiguous else "a-potential"))
    if tree is not None:
        names += one_reasons(grammar, row, tree, size)
    elif answer == SEVERAL:
        names += several_reasons(grammar, row)
    else:
        names += none_reasons(grammar, row)
    return tuple(names)


def close(grammar: Grammar, row: Codes) -> bool:
    """Whether every part and way is looked at."""
    return grammar.states <= SMALL_STATES and len(row) <= SMALL_ROW


def one_reasons(grammar: Grammar, row: Codes, tree: Tree, size: int) -> List[str]:
    """What the one tree is like."""
    if size <= LISTED:
        rules = tree.rules()
        assert len(rules) == size and applied(grammar, rules) == row, "the rules are those of a tree of the row"
    empty = {begin for _, begin, end in tree.ways if begin == end}
    units = any(len(way.parts) == 1 and len(grammar.rules[way.rule - 1].right) == 1 for way in tree.ways.values())
    beside = False
    if close(grammar, row):
        forest = Forest(grammar, row)
        assert number_of_trees(forest) == 1, "trees counted exactly"
        for (code, begin), ends in forest.ends.items():
            for end in ends:
                if not beside and (code, begin, end) not in tree.ways:
                    beside = len(list(zip(forest.ways((code, begin, end)), (0, 1)))) == 2
    met = [
        ("one-empty-part-in-front", bool(row) and 0 in empty),
        ("one-empty-part-between", any(0 < place < len(row) for place in empty)),
        ("one-empty-part-at-the-end", bool(row) and len(row) in empty),
        ("one-a-unit-rule", units),
        ("one-though-a-part-in-no-tree-has-two-ways", beside),
        ("one-over-64-rules", size > 64),
        ("one-over-1000-rules", size > 1000),
        ("one-over-65535-rules", size > 65535),
        ("one-rule-past-255", any(way.rule > 255 for way in tree.ways.values())),
    ]
    return [name for name, holds in met if holds]


def several_reasons(grammar: Grammar, row: Codes) -> List[str]:
    """How many trees there are, and where two of them differ first."""
    if not close(grammar, row):
        return []
    forest = Forest(grammar, row)
    number = number_of_trees(forest)
    assert number is None or number > 1, "trees counted exactly"
    ways = list(zip(forest.ways(forest.root), range(200)))
    met = [
        ("several-exactly-two", number == 2),
        ("several-more-than-two", number is not None and number > 2),
        ("several-endless", number is None),
        ("several-endless-of-the-empty-row", number is None and not row),
        ("several-by-two-rules-at-the-root", len({way.rule for way, _ in ways}) > 1),
        ("several-by-two-splits-alone", number is not None and splits_alone(forest)),
        ("several-below-the-root-alone", len(ways) == 1),
    ]
    return [name for name, holds in met if holds]


def splits_alone(forest: Forest) -> bool:
    """Whether no part that trees have is a part by two rules."""
    seen: Set[Part] = set()
    waiting = [forest.root]
    while waiting:
        part = waiting.pop()
        if part not in seen:
            seen.add(part)
            ways = list(forest.ways(part))
            if len({way.rule for way in ways}) > 1:
                return False
            waiting += [below for way in ways for below in way.parts]
    return True


def none_reasons(grammar: Grammar, row: Codes) -> List[str]:
    """How near a row without a tree is to one with a tree."""
    forest = Forest(grammar, row)
    if close(grammar, row):
        assert number_of_trees(forest) == 0
    fronts = forest.ends.get((START, 0), ())
    met = [
        ("none-a-front-of-it-is-a-sentence", any(0 < end < len(row) for end in fronts)),
        ("none-a-part-of-S-elsewhere", any(code == START and begin > 0 for code, begin in forest.ends)),
    ]
    return [name for name, holds in met if holds]


# Reasons of what is lent.

def filled_how(fill: int) -> str:
    if fill == 0:
        return "filled-with-0"
    return "filled-with-a-small-number" if fill < 4 else (
        "filled-with-the-largest" if fill == 255 else "filled-with-a-mixture")


def answered_reasons(case: Case, grammar: Grammar, trees: Trees) -> List[str]:
    """Of an answer, or of a list that is too short, which is known only then."""
    answer, _, size = trees_of(grammar, case.row)
    exact = case.lent.work == trees.cleared
    if isinstance(trees.answer, Refusal):
        assert answer == ONE and case.lent.rules < size
        met = [
            ("14-list-one-too-short", case.lent.rules == size - 1),
            ("14-list-empty", case.lent.rules == 0),
            ("14-list-shorter", 0 < case.lent.rules < size - 1),
            ("14-list-filled-with-0", case.fill == 0),
            ("14-list-filled", case.fill != 0),
            ("14-list-with-a-longer-work-row", not exact),
            ("14-list-though-enough-for-the-low-16-bits", case.lent.rules >= size % 2 ** 16),
            ("14-list-though-enough-for-the-low-32-bits", case.lent.rules >= size % 2 ** 32),
            ("14-list-though-enough-for-the-low-64-bits", case.lent.rules >= size % 2 ** 64),
            ("14-list-rules-past-64-bits", size >= 2 ** 64),
            ("14-1024-states", grammar.states == MAX_STATES),
        ]
        return [name for name, holds in met if holds]
    assert answer == trees.answer and len(trees.rules) == size
    ways = ["with-exactly-the-work-row" if exact else "with-a-longer-work-row", filled_how(case.fill)]
    if answer != ONE:
        ways.append("with-a-list-that-is-kept" if case.lent.rules else "with-a-list-of-no-entry")
    if case[:3] in corpus_tables():
        ways.append("of-the-corpus")
    names = [answer] + ["%s-%s" % (answer, how) for how in ways] + list(row_reasons(grammar, case.row))
    met = [
        ("one-list-exactly-enough", answer == ONE and case.lent.rules == size),
        ("one-list-longer", answer == ONE and case.lent.rules > size),
        ("%s-1024-states" % answer, grammar.states == MAX_STATES),
        ("%s-terminal-2000" % answer, MAX_TERMINALS in case.row and answer != SEVERAL),
    ]
    return names + [name for name, holds in met if holds]


def work_reasons(case: Case, grammar: Grammar) -> List[str]:
    """Of a work row that is too short."""
    answer, _, size = trees_of(grammar, case.row)
    met = [
        ("14-work-one-too-short", case.lent.work == work_entries(grammar) - 1),
        ("14-work-empty", case.lent.work == 0),
        ("14-work-shorter", 0 < case.lent.work < work_entries(grammar) - 1),
        ("14-work-and-the-list-too-short", case.lent.rules < size),
        ("14-work-of-" + answer, True),
        ("14-1024-states", grammar.states == MAX_STATES),
    ]
    return [name for name, holds in met if holds]


# Reasons of refusals.

def no_terminals_in(t: int, row: Codes) -> List[int]:
    """The places of codes that are no terminals."""
    return [place for place, code in enumerate(row) if not is_terminal(code, t)]


def row_fault_reasons(case: Case, grammar: Grammar, place: int) -> List[str]:
    """Where and why a row is refused with 22."""
    t, row, wrong = case.t, case.row, no_terminals_in(case.t, case.row)
    long = len(row) > MOST_TERMINALS
    assert place == min([*wrong, *[MOST_TERMINALS] * long]), "the first place at fault"
    met = [
        ("22", True),
        ("22-at-0", place == 0),
        ("22-at-1-to-62", 1 <= place <= 62),
        ("22-at-63", place == 63),
        ("22-at-64", place == 64),
        ("22-at-64-of-a-sentence", place == 64 and len(row) < 70 and not wrong and trees_of(grammar, row)[0] != NONE),
        ("22-at-64-with-no-terminal-there", place == 64 and 64 in wrong),
        ("22-at-64-with-no-terminal-behind", place == 64 and bool(wrong) and 64 not in wrong),
        ("22-at-a-code-of-a-row-that-is-too-long", long and place < 64),
        ("22-at-the-first-of-two-codes", place < 64 and len(wrong) > 1),
        ("22-a-row-of-65", len(row) == 65),
        ("22-a-row-of-66", len(row) == 66),
        ("22-a-longer-row", len(row) > 66),
        ("22-length-whose-low-8-bits-pass", long and place == 64 and len(row) % 256 <= 64),
        ("22-length-whose-low-16-bits-pass", long and place == 64 and len(row) % 65536 <= 64),
        ("22-without-terminals", t == 0),
        ("order-22-before-14", case.lent.work < work_entries(grammar)),
    ]
    if place in wrong:
        code = row[place]
        met += [
            ("22-code-0", code == 0),
            ("22-code-one-past-t", code == t + 1),
            ("22-code-further-past-t", t + 1 < code < START),
            ("22-code-a-nonterminal", is_nonterminal(code, case.n)),
            ("22-code-an-undeclared-nonterminal", START + case.n <= code < START + MAX_NONTERMINALS),
            ("22-code-65535", code == MAX_ENTRY),
            ("22-code-whose-low-byte-passes", t < 255 and is_terminal(code % 256, t)),
        ]
    return [name for name, holds in met if holds]


def table_fault_reasons(case: Case, refusal: Refusal) -> List[str]:
    """A fault of the table, and what else is at fault."""
    cause = "19" if refusal.cause == NO_SENTENCE else "1-to-8"
    rows = row_fault(case.t, case.row) is not None
    states = states_of(case[:3]) if refusal.cause == NO_SENTENCE else FIXED_STATES
    short = case.lent.work < PLACES * PLACES * states
    met = [
        (str(refusal.cause), True),
        ("order-%s-before-22" % cause, rows),
        ("order-%s-before-14" % cause, short),
        ("order-%s-before-22-and-14" % cause, rows and short),
    ]
    return [name for name, holds in met if holds]


def reasons_of(case: Case) -> List[str]:
    """Every reason of REASONS that this case meets."""
    names = list(sentence_reasons.of_table(*case[:3])) + told(case)
    grammar = check_table(*case[:3])
    trees = find_trees(*case[:5])
    if isinstance(grammar, Refusal):
        assert trees == Trees(grammar)
        return names + table_fault_reasons(case, grammar)
    names += dead_rules.reasons_of(grammar)
    if isinstance(trees.answer, Refusal) and trees.answer.cause == NO_ROW:
        assert trees == Trees(trees.answer)
        return names + row_fault_reasons(case, grammar, trees.answer.position)
    assert row_fault(case.t, case.row) is None
    if trees == Trees(Refusal(ROW_TOO_SHORT, 0)):
        assert case.lent.work < work_entries(grammar)
        return names + work_reasons(case, grammar)
    assert trees.cleared == work_entries(grammar) <= case.lent.work
    return names + answered_reasons(case, grammar, trees)
