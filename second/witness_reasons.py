"""Sorts witness cases by reasons finer than the causes.

The counts of these reasons show that a file of cases tries every way in which
a row is wrong, also as a misreading would have it.
"""

from typing import List, Optional, Sequence, Tuple

import caller_reasons
import dead_rules
import sentence_reasons
from caller_grammars import SMALL
from callers import MOST_CALLERS, states_at
from case_files import LARGEST, TABLE_REASONS
from case_grammars import good, grammar_of
from certificates import checked_triples, witness_fault
from dead_rules import KINDS, kind_of
from live_misreadings import (
    REACHED, TOLD_BY_SEARCH, WRONG_STEPS, former_triples, told, wrong_steps,
)
from misreadings import NAMES, misread_indices
from tables import MAX_STATES, NO_SENTENCE, TOO_MANY_STATES, Codes, Grammar, Refusal
from triples import Triples, is_potential, reached, triples_of
from ways import shortest

OF_ROWS = [
    "accepted-shortest",
    "accepted-longer",
    "accepted-with-a-triple-repeated",
    "accepted-with-a-triple-repeated-at-once",
    "accepted-over-60-states",
    "15-empty-row",
    "15-first-entry",
    "15-first-entry-though-the-rest-is-right",
    "15-only-the-end-fails",
    "15-after-the-end",
    "15-entry-of-2QQ",
    "15-entry-above-2QQ",
    "15-entry-of-32-ones",
    "15-no-successor-though-reached",
    "15-no-successor-and-not-reached",
    "15-last-entry",
    "15-inner-entry",
    "15-first-of-several",
    "15-of-an-unambiguous-grammar",
    "15-over-60-states",
] + ["15-" + name for name in NAMES]
REASONS = TABLE_REASONS + ["1-to-8-with-an-empty-row"] + OF_ROWS + [
    "accepted-1024-states",
    "15-1024-states",
] + dead_rules.REASONS + [
    "accepted-dead-" + kind for kind in KINDS
] + [
    "15-though-formerly-accepted",
    "15-though-formerly-accepted-and-potential-still",
] + ["15-" + name for name in WRONG_STEPS] + TOLD_BY_SEARCH + [
    "19-though-accepted-by-document-01",
    "19-with-an-empty-row",
    "order-19-before-15",
] + sentence_reasons.REASONS + caller_reasons.REASONS + caller_reasons.prefixed(OF_ROWS) + [
    "order-21-before-15",
    "order-too-many-chains-before-15",
    "21-though-accepted-at-0",
    "of-another-m-accepted",
    "of-another-m-refused-15",
    "of-m-0-accepted-above",
    "of-an-m-above-0-accepted-at-0",
    "of-an-m-above-0-refused-15-at-0",
]

# Cases of the most states are few.
ENOUGH_LARGEST = {"accepted-1024-states": 5}


def reasons_of(t: int, n: int, table: Codes, entries: Sequence[int], m: int = 0) -> List[str]:
    """Every reason of REASONS that this case meets."""
    names = caller_reasons.of_case(t, n, table, m) + other_m_reasons(t, n, table, entries, m)
    if m:
        return names + remembered_reasons(t, n, table, entries, m)
    return names + forgotten_reasons(t, n, table, entries)


def remembered_reasons(t: int, n: int, table: Codes, entries: Sequence[int], m: int) -> List[str]:
    """What a row at an m above 0 is, or would be at m=0 where m or the chains are refused."""
    former, triples = checked_triples(t, n, table), checked_triples(t, n, table, m)
    if isinstance(former, Refusal):
        return []
    if isinstance(triples, Refusal):
        accepted = witness_fault(former, entries) is None
        if triples.cause == TOO_MANY_STATES:
            return ["order-too-many-chains-before-15"] * (not accepted)
        return ["21-though-accepted-at-0" if accepted else "order-21-before-15"]
    fault = witness_fault(triples, entries)
    met = accepted_reasons(triples, entries) if fault is None else refused_reasons(
        triples, entries, fault.position)
    return caller_reasons.at(m, [name for name, holds in met if holds])


def other_m_reasons(t: int, n: int, table: Codes, entries: Sequence[int], m: int) -> List[str]:
    """What is said of a witness of another m."""
    triples = checked_triples(t, n, table, m)
    if isinstance(triples, Refusal) or triples.states > SMALL:
        return []
    grammar = good((t, n, table))
    others = [other for other in range(MOST_CALLERS + 1)
              if other != m and states_at(grammar, other) <= SMALL
              and witness_fault(triples_of(grammar, other), entries) is None]
    if not others:
        return []
    said = "accepted" if witness_fault(triples, entries) is None else "refused-15"
    above = ["of-an-m-above-0-%s-at-0" % said] if m == 0 else []
    return ["of-another-m-" + said] + above + ["of-m-0-accepted-above"] * (
        m > 0 and 0 in others and said == "accepted")


def forgotten_reasons(t: int, n: int, table: Codes, entries: Sequence[int]) -> List[str]:
    """Every reason that a case at m=0 meets."""
    triples = checked_triples(t, n, table)
    sentences = list(sentence_reasons.of_table(t, n, table))
    if isinstance(triples, Refusal):
        sentences.append(str(triples.cause))
        if triples.cause == NO_SENTENCE:
            return sentences + none_reasons(grammar_of((t, n, table)), entries)
        return sentences + ["1-to-8-with-an-empty-row"] * (not entries)
    fault = witness_fault(triples, entries)
    if fault is None:
        met = accepted_reasons(triples, entries)
    else:
        met = refused_reasons(triples, entries, fault.position)
    grammar = good((t, n, table))
    met.append(("accepted-1024-states" if fault is None else "15-1024-states",
                grammar.states == MAX_STATES))
    if kind_of(grammar) is not None:
        met += dead_reasons(grammar, triples, entries, fault)
    return sentences + [name for name, holds in met if holds] + told(
        grammar, REACHED, lambda other: witness_fault(other, entries))


def none_reasons(grammar: Grammar, entries: Sequence[int]) -> List[str]:
    """What was said of a row for a grammar without a sentence before document 02's [3]."""
    accepted = witness_fault(former_triples(grammar), entries) is None
    met = [
        ("19-though-accepted-by-document-01", accepted),
        ("19-with-an-empty-row", len(entries) == 0),
        ("order-19-before-15", not accepted),
    ]
    return [name for name, holds in met if holds]


def accepted_reasons(triples: Triples, entries: Sequence[int]) -> List[Tuple[str, bool]]:
    """How long an accepted witness is, and whether it repeats triples."""
    least = len(entries) == len(shortest(triples))
    at_once = any(one == other for one, other in zip(entries, entries[1:]))
    return [
        ("accepted-shortest", least),
        ("accepted-longer", not least),
        ("accepted-with-a-triple-repeated", len(set(entries)) < len(entries)),
        ("accepted-with-a-triple-repeated-at-once", at_once),
        ("accepted-over-60-states", triples.states > 60),
    ]


def dead_reasons(
    grammar: Grammar, triples: Triples, entries: Sequence[int], fault: Optional[Refusal]
) -> List[Tuple[str, bool]]:
    """What dead rules are there, and what the check said before document 02's [3]."""
    kind = kind_of(grammar)
    met = [("dead-%s" % kind, True)]
    if fault is None:
        return met + [("accepted-dead-%s" % kind, True)]
    before = witness_fault(former_triples(grammar), entries) is None
    met += [
        ("15-though-formerly-accepted", before),
        ("15-though-formerly-accepted-and-potential-still", before and is_potential(triples)),
    ]
    if 0 < fault.position < len(entries):
        step = entries[fault.position - 1], entries[fault.position]
        met += [("15-" + name, True) for name in sorted(set(wrong_steps(grammar, *step)))]
    return met


def refused_reasons(
    triples: Triples, entries: Sequence[int], place: int
) -> List[Tuple[str, bool]]:
    """How a witness is wrong."""
    met = [
        ("15-empty-row", len(entries) == 0),
        ("15-only-the-end-fails", 0 < len(entries) == place),
        ("15-of-an-unambiguous-grammar", not is_potential(triples)),
        ("15-over-60-states", triples.states > 60),
    ]
    if place == len(entries):
        return met
    return met + entry_reasons(triples, entries, place)


def entry_reasons(
    triples: Triples, entries: Sequence[int], place: int
) -> List[Tuple[str, bool]]:
    """How the first wrong entry is wrong."""
    entry, first = entries[place], place == 0
    before = triples.first if first else entries[place - 1]
    mended = [triples.first] + list(entries[1:])
    inside = not first and entry < triples.count and before != triples.last
    return [
        ("15-first-entry", first),
        ("15-first-entry-though-the-rest-is-right",
         first and witness_fault(triples, mended) is None),
        ("15-after-the-end", not first and before == triples.last),
        ("15-entry-of-2QQ", entry == triples.count),
        ("15-entry-above-2QQ", entry > triples.count),
        ("15-entry-of-32-ones", entry == LARGEST),
        ("15-no-successor-though-reached", inside and entry in reached(triples)),
        ("15-no-successor-and-not-reached", inside and entry not in reached(triples)),
        ("15-last-entry", place == len(entries) - 1),
        ("15-inner-entry", 0 < place < len(entries) - 1),
        ("15-first-of-several", wrong_later(triples, entries, place)),
    ] + misread_reasons(triples, before, entry, inside)


def wrong_later(triples: Triples, entries: Sequence[int], place: int) -> bool:
    """Whether a later entry does not follow the one before it either."""
    return any(one >= triples.count or other not in triples.successors(one)
               for one, other in zip(entries[place:], entries[place + 1:]))


def misread_reasons(
    triples: Triples, before: int, entry: int, inside: bool
) -> List[Tuple[str, bool]]:
    """The misreading in which the entry would be right."""
    found = misread_indices(triples, before) if inside else {}
    return [("15-" + found[entry], True)] if entry in found else []
