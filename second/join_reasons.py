"""Sorts the cases of joins by reasons finer than the causes.

Those of their two texts are found in join_pair_reasons.py. Here come what is lent, which
symbol is asked for, and the misreadings that a case is told from.
"""

from functools import lru_cache
from typing import Callable, Dict, List, Sequence

from case_files import LAST
from join_codes import lists_in, small
from join_inputs import HALF, WORD, Case
from join_limits import LIMIT
from join_misreadings import AT_LIMITS, MISREADINGS
from join_pair_reasons import AT_LIMITS_OF_PAIRS, PAIR_REASONS, REFUSED_REASONS, pair_reasons
from joining import (
    EMPTY, MODULE, ROBOT, Joined, Outcome, join, join_texts, join_written, part_in, shown,
    table_in, text_in,
)
from tables import Refusal
from text import ROW_TOO_SHORT

LARGE = 3000               # bytes of a pair that few misreadings are tried with

LENT_REASONS = [
    "exactly-enough",
    "longer",
    "14-by-one",
    "14-nothing-lent",
    "14-otherwise",
] + ["order-%s-before-14" % what for what in ("robot", "module", "20", "1", "7", "8")]
SHOWN_REASONS = ["shown-a-%s-of-%s" % (kind, whose) for kind in ("terminal", "nonterminal") for whose in (
    "the-robot", "the-module", "both", "both-in-another-case")] + [
    "shown-symbol-0",
    "shown-the-last-terminal",
    "shown-the-first-nonterminal",
    "shown-the-last-symbol",
    "shown-at-2000-terminals",
    "shown-at-2000-nonterminals",
    "empty-one-past-the-last",
    "empty-further-past-the-last",
    "empty-that-wraps-at-16-bits",
    "empty-that-wraps-at-32-bits",
    "empty-2-to-the-32",
    "empty-the-largest-number",
] + ["empty-a-name-of-the-robot-with-%s-refused" % what for what in ("robot", "module", "20", "1", "7", "8")]

# Misreadings that some answers do not tell.
NOT_BY_TABLES = ["rules-are-written-as-they-were-spelled", "symbols-are-numbered-text-by-text",
                 "the-modules-spelling-is-taken"]
NOT_BY_TEXTS = ["symbols-are-numbered-text-by-text"]
NOT_BY_PARTS = [
    "the-modules-rules-come-first", "rules-are-written-as-they-were-spelled",
    "20-is-at-2-for-a-terminal", "20-is-at-the-robots-line", "20-comes-before-the-modules-faults",
    "the-modules-faults-come-first", "20-comes-after-1-7-and-8",
    "offsets-are-counted-from-the-robots-end",
]


def told_names(without: Sequence[str]) -> List[str]:
    return ["told-from-" + name for name in MISREADINGS if name not in without]


JOIN_REASONS = PAIR_REASONS + LENT_REASONS + told_names(NOT_BY_TABLES)
TEXT_REASONS = PAIR_REASONS + LENT_REASONS + told_names(NOT_BY_TEXTS)
PART_REASONS = REFUSED_REASONS + SHOWN_REASONS + told_names(NOT_BY_PARTS)

# Texts at the limits are long, and few.
AT_THE_LIMITS = AT_LIMITS_OF_PAIRS + [
    "order-1-before-14", "order-7-before-14", "order-8-before-14", "shown-at-2000-terminals",
    "shown-at-2000-nonterminals", "told-from-shared-names-are-counted-twice",
]
ENOUGH = {**{name: 4 for name in AT_THE_LIMITS}, "robot-16-at-0": 2, "module-16-at-0": 2}


@lru_cache(maxsize=4)
def misread(robot: bytes, module: bytes) -> Dict[str, Outcome]:
    """The outcomes of two texts in each misreading, of large texts in few of them."""
    tried = AT_LIMITS if len(robot) + len(module) > LARGE else MISREADINGS
    return {name: outcome(robot, module) for name, outcome in tried.items()}


def told(case: Case, answer: Callable[[Outcome, int], object], without: Sequence[str]) -> List[str]:
    """The misreadings in which a case is answered otherwise."""
    right = answer(join_texts(case.robot, case.module), case.number)
    found = [name for name, outcome in misread(case.robot, case.module).items()
             if answer(outcome, case.number) != right]
    assert not set(found) & set(without), "these are not told"
    return ["told-from-" + name for name in found]


def refused_what(names: Sequence[str]) -> str:
    """What is refused: robot, module, 20, 1, 7 or 8."""
    return names[0].partition("-")[0]


# What is lent.

def lent_reasons(case: Case, result: object, needed: int) -> List[str]:
    """The reasons of a pair whose answer needs so much."""
    names = list(pair_reasons(case.robot, case.module))
    if isinstance(result, Refusal) and result != (ROW_TOO_SHORT, 0):
        return names + ["order-%s-before-14" % refused_what(names)] * (case.number == 0)
    spare = case.number - needed
    assert isinstance(result, Refusal) == (spare < 0), "14 exactly if less is lent"
    if spare >= 0:
        return names + ["exactly-enough" if spare == 0 else "longer"]
    met = [("14-by-one", spare == -1), ("14-nothing-lent", case.number == 0),
           ("14-otherwise", spare < -1 and case.number > 0)]
    return [name for name, holds in met if holds]


def join_reasons_of(case: Case) -> List[str]:
    """Every reason of JOIN_REASONS that this case meets."""
    joined = join_texts(case.robot, case.module)
    needed = len(joined.read.table) if isinstance(joined, Joined) else 0
    return lent_reasons(case, join(*case), needed) + told(case, told_of_table, NOT_BY_TABLES)


def told_of_table(outcome: Outcome, entries: int) -> object:
    """The answer of a join: t, n, the table and Q, or a refusal."""
    result = table_in(outcome, entries)
    return result if isinstance(result, Refusal) else result[:4]


def text_reasons_of(case: Case) -> List[str]:
    """Every reason of TEXT_REASONS that this case meets."""
    joined = join_texts(case.robot, case.module)
    needed = len(joined.text) if isinstance(joined, Joined) else 0
    return lent_reasons(case, join_written(*case), needed) + told(case, text_in, NOT_BY_TEXTS)


# Which symbol is asked for.

def part_reasons_of(case: Case) -> List[str]:
    """Every reason of PART_REASONS that this case meets."""
    names = list(pair_reasons(case.robot, case.module))
    lists, others = lists_in(case.robot), lists_in(case.module)
    more = told(case, part_in, NOT_BY_PARTS)
    part = shown(*case)
    if isinstance(join_texts(case.robot, case.module), Refusal):
        assert part == EMPTY, "the texts are refused"
        hidden = "empty-a-name-of-the-robot-with-%s-refused" % refused_what(names)
        return names + [hidden] * (case.number < len(lists[0] + lists[1])) + more
    known = [set(small(names)) for names in lists]
    added = [[name for name in new if name.lower() not in old] for old, new in zip(known, others)]
    terminals, nonterminals = (old + new for old, new in zip(lists, added))
    if part == EMPTY:
        return empty_reasons(case.number, len(terminals + nonterminals)) + more
    name = (terminals + nonterminals)[case.number]
    text = {ROBOT: case.robot, MODULE: case.module}[part.text]
    assert text[part.start:part.start + part.length] == name, "the name as it is declared"
    assert text[part.start - 1:part.start] in (b"=", b","), "it is declared there"
    kind = case.number >= len(terminals)
    whose = "the-module" if name in added[kind] else "the-robot"
    assert (part.text == MODULE) == (whose == "the-module")
    if whose == "the-robot" and name.lower() in small(others[kind]):
        whose = "both" if name in others[kind] else "both-in-another-case"
    met = [
        ("shown-symbol-0", case.number == 0),
        ("shown-the-last-terminal", case.number == len(terminals) - 1),
        ("shown-the-first-nonterminal", case.number == len(terminals)),
        ("shown-the-last-symbol", case.number == len(terminals + nonterminals) - 1),
        ("shown-at-2000-terminals", len(terminals) == LIMIT),
        ("shown-at-2000-nonterminals", len(nonterminals) == LIMIT),
    ]
    return ["shown-a-%s-of-%s" % ("nonterminal" if kind else "terminal", whose)] + [
        name for name, holds in met if holds] + more


def empty_reasons(symbol: int, count: int) -> List[str]:
    """How far a symbol is past the last of so many."""
    assert symbol >= count, "it is a symbol of neither"
    met = [
        ("empty-one-past-the-last", symbol == count),
        ("empty-further-past-the-last", count < symbol < HALF),
        ("empty-that-wraps-at-16-bits", symbol >= HALF and symbol % HALF < count),
        ("empty-that-wraps-at-32-bits", symbol >= WORD and symbol % WORD < count),
        ("empty-2-to-the-32", symbol == WORD),
        ("empty-the-largest-number", symbol == LAST),
    ]
    return [name for name, holds in met if holds]
