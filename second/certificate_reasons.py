"""Sorts certificate cases by reasons finer than the causes.

The counts of these reasons show that a file of cases tries every fault, every
way in which a successor is missing, and every place where the order shows.
"""

from functools import lru_cache
from typing import List, Optional, Set, Tuple

import caller_reasons
import dead_rules
import sentence_reasons
from caller_grammars import SMALL
from callers import MOST_CALLERS, states_at
from case_files import TABLE_REASONS
from case_grammars import MANY_STATES, Table, good, grammar_of
from certificates import (
    FIRST_MISSING, LAST_PRESENT, SPARE_BIT, SUCCESSOR_MISSING, WRONG_LENGTH,
    certificate_fault, checked_triples, successor_fault,
)
from dead_rules import KINDS, dead_states, kind_of
from live_misreadings import MISREAD, TOLD, former_triples, told
from tables import (
    FIXED_STATES, MAX_STATES, NO_SENTENCE, TOO_MANY_STATES, Codes, Grammar, Refusal,
)
from triples import (
    BYTE, Triples, certificate_length, certificate_of, held_indices, is_potential, reached, triple_at,
    triples_of,
)
from ways import largest_set

OF_ACCEPTED = [
    "accepted-smallest",
    "accepted-larger",
    "accepted-largest-possible",
    "accepted-with-spare-bits-there",
    "accepted-over-60-states",
]
OF_REFUSED = [
    "9-empty",
    "9-one-byte-short",
    "9-shorter",
    "9-one-byte-long",
    "9-longer",
    "9-though-its-front-is-right",
    "10-lowest-spare-bit",
    "10-a-later-spare-bit",
    "11",
    "12",
    "12-of-a-potential-grammar",
    "13-at-0",
    "13-opening-or-shift-of-layer-0-missing",
    "13-parting-missing",
    "13-successor-in-layer-1-missing",
    "13-missing-index-below-its-holder",
    "13-missing-index-above-its-holder",
    "13-lowest-of-several",
    "13-of-a-potential-grammar",
    "order-10-before-11",
    "order-10-before-12",
    "order-10-before-13",
    "order-11-before-12",
    "order-11-before-13",
    "order-12-before-13",
]
REASONS = OF_ACCEPTED + TABLE_REASONS + ["1-to-8-with-an-empty-certificate"] + OF_REFUSED + [
    "chequered-ends-accepted",
    "chequered-ends-13-at-such-a-pair",
    "chequered-ends-13-elsewhere-in-layer-0",
    "chequered-ends-13-in-layer-1",
    "256-states",
    "1024-states",
] + dead_rules.REASONS + ["former-certificate-" + kind for kind in KINDS] + [
    "accepted-and-formerly-too",
    "accepted-though-formerly-refused",
    "accepted-though-formerly-potential",
    "accepted-with-a-dead-item",
    "accepted-dead-rules-over-60-states",
    "12-of-a-potential-grammar-with-dead-rules",
    "13-with-a-dead-item",
    "13-elsewhere-than-formerly",
] + list(TOLD.values()) + [
    "19-though-accepted-before",
    "19-though-accepted-by-document-01",
] + ["order-19-before-%d" % cause for cause in range(WRONG_LENGTH, SUCCESSOR_MISSING + 1)] + [
    "19-256-states",
    "19-1024-states",
] + sentence_reasons.REASONS + caller_reasons.REASONS + caller_reasons.prefixed(OF_ACCEPTED + OF_REFUSED) + [
    "%s-before-%d" % (name, cause) for name in ("order-21", "order-too-many-chains")
    for cause in range(WRONG_LENGTH, SUCCESSOR_MISSING + 1)
] + [
    "21-though-accepted-at-0",
    "8-of-chains-though-accepted-at-0",
    "of-another-m-accepted",
    "of-another-m-refused-9",
    "of-another-m-refused-13",
    "of-m-0-accepted-above",
    "of-m-0-refused-13-above",
    "of-an-m-above-0-accepted-at-0",
    "of-an-m-above-0-refused-13-at-0",
]


CHEQUERED = 8             # pairs of ends that are some
# Cases of the most states: they are long. Most grammars of 61 to 120 states at m=2 are potential.
ENOUGH_LARGEST = {"1024-states": 12, "19-1024-states": 3, "callers-2-accepted-over-60-states": 5}


def reasons_of(t: int, n: int, table: Codes, certificate: bytes, m: int = 0) -> List[str]:
    """Every reason of REASONS that this case meets."""
    names = caller_reasons.of_case(t, n, table, m) + other_m_reasons(t, n, table, certificate, m)
    if m:
        return names + remembered_reasons(t, n, table, certificate, m)
    return names + forgotten_reasons(t, n, table, certificate)


def remembered_reasons(t: int, n: int, table: Codes, certificate: bytes, m: int) -> List[str]:
    """What a certificate at an m above 0 is, or would be at m=0 where m or the chains are refused."""
    former, triples = checked_triples(t, n, table), checked_triples(t, n, table, m)
    if isinstance(former, Refusal):
        return []
    if isinstance(triples, Refusal):
        many = triples.cause == TOO_MANY_STATES
        fault = certificate_fault(former, certificate)
        if fault is None:
            return ["8-of-chains-though-accepted-at-0" if many else "21-though-accepted-at-0"]
        return ["order-%s-before-%d" % ("too-many-chains" if many else "21", fault.cause)]
    return caller_reasons.at(m, certificate_reasons(triples, certificate, certificate_fault(triples, certificate)))


def other_m_reasons(t: int, n: int, table: Codes, certificate: bytes, m: int) -> List[str]:
    """What is said of the smallest certificate of another m."""
    triples = checked_triples(t, n, table, m)
    if isinstance(triples, Refusal) or triples.states > SMALL:
        return []
    grammar = good((t, n, table))
    others = [other for other in range(MOST_CALLERS + 1)
              if other != m and len(certificate) == certificate_length(states_at(grammar, other))
              and states_at(grammar, other) <= SMALL and is_smallest(triples_of(grammar, other), certificate)]
    if not others:
        return []
    fault = certificate_fault(triples, certificate)
    said = "accepted" if fault is None else "refused-%d" % fault.cause
    names = ["of-another-m-" + said]
    if said != "refused-9":
        names += ["of-an-m-above-0-%s-at-0" % said] if m == 0 else ["of-m-0-%s-above" % said] * (0 in others)
    return names


def is_smallest(triples: Triples, certificate: bytes) -> bool:
    """Whether it is the smallest certificate of an unambiguous grammar."""
    return not is_potential(triples) and certificate == certificate_of(triples.states, reached(triples))


def certificate_reasons(triples: Triples, certificate: bytes, fault: Optional[Refusal]) -> List[str]:
    """How a certificate is accepted or refused."""
    if fault is None:
        return accepted_reasons(triples, certificate)
    if fault.cause == WRONG_LENGTH:
        return length_reasons(triples, certificate)
    return later_reasons(triples, certificate, fault)


def forgotten_reasons(t: int, n: int, table: Codes, certificate: bytes) -> List[str]:
    """Every reason that a case at m=0 meets."""
    triples = checked_triples(t, n, table)
    names = list(sentence_reasons.of_table(t, n, table))
    if isinstance(triples, Refusal):
        names.append(str(triples.cause))
        if triples.cause == NO_SENTENCE:
            return names + none_reasons((t, n, table), certificate)
        return names + ["1-to-8-with-an-empty-certificate"] * (not certificate)
    fault = certificate_fault(triples, certificate)
    names += ["256-states"] * (triples.states == MANY_STATES)
    names += ["1024-states"] * (triples.states == MAX_STATES)
    grammar = good((t, n, table))
    if kind_of(grammar) is not None:
        names += dead_reasons(grammar, triples, certificate, fault)
    names += told(grammar, MISREAD, lambda other: certificate_fault(other, certificate))
    if fault is None or fault.cause == SUCCESSOR_MISSING:
        names += chequered_reasons(grammar, triples, certificate, fault)
    return names + certificate_reasons(triples, certificate, fault)


def none_reasons(table: Table, certificate: bytes) -> List[str]:
    """What was said of a certificate of a grammar without a sentence before document 02's [4].

    Before its [3] successors could be missing, since then nothing moves.
    """
    grammar = grammar_of(table)
    before, former = (certificate_fault(triples, certificate)
                      for triples in (triples_of(grammar), former_triples(grammar)))
    met = [
        ("19-though-accepted-before", before is None),
        ("19-though-accepted-by-document-01", former is None),
        ("order-19-before-13", former is not None and former.cause == SUCCESSOR_MISSING),
        ("19-256-states", grammar.states == MANY_STATES),
        ("19-1024-states", grammar.states == MAX_STATES),
    ]
    names = [] if before is None else ["order-19-before-%d" % before.cause]
    return names + [name for name, holds in met if holds]


def accepted_reasons(triples: Triples, certificate: bytes) -> List[str]:
    """How large an accepted certificate is."""
    size = len(held_indices(certificate))
    least = size == len(reached(triples))
    met = [
        ("accepted-smallest", least),
        ("accepted-larger", not least),
        ("accepted-largest-possible",
         not least and triples.states < 40 and size == len(largest_set(triples))),
        ("accepted-with-spare-bits-there", triples.states % 2 == 1),
        ("accepted-over-60-states", triples.states > 60),
    ]
    return [name for name, holds in met if holds]


@lru_cache(maxsize=256)
def end_pairs(grammar: Grammar) -> List[Tuple[int, bool, bool]]:
    """The index of each (0, end i, end j), i ≠ j, and whether i + j is even.

    i and j are first the numbers among all rules, then among those of their left codes.
    """
    ends, state, counts = [], FIXED_STATES - 1, {}
    for number, rule in enumerate(grammar.rules):
        state += len(rule.right) + 1
        counts[rule.left] = counts.get(rule.left, 0) + 1
        ends.append((state, number, counts[rule.left]))
    return [(p * grammar.states + q, (i + j) % 2 == 0, (k + m) % 2 == 0)
            for p, i, k in ends for q, j, m in ends if i != j]


def chequered_reasons(
    grammar: Grammar, triples: Triples, certificate: bytes, fault: Optional[Refusal]
) -> List[str]:
    """Whether pairs of ends are held beside the smallest set, some and all of one colour of a chequered board."""
    least = reached(triples)
    held = [pair for pair in end_pairs(grammar)
            if certificate[pair[0] // BYTE] >> pair[0] % BYTE & 1 and pair[0] not in least]
    if len(held) < CHEQUERED or all(len(set(colours)) > 1 for colours in list(zip(*held))[1:]):
        return []
    if fault is None:
        return ["chequered-ends-accepted"]
    if fault.position >= triples.count // 2:
        return ["chequered-ends-13-in-layer-1"]
    at_pair = any(pair[0] == fault.position for pair in held)
    return ["chequered-ends-13-" + ("at-such-a-pair" if at_pair else "elsewhere-in-layer-0")]


def dead_reasons(
    grammar: Grammar, triples: Triples, certificate: bytes, fault: Optional[Refusal]
) -> List[str]:
    """What dead rules are there, and what the check said before document 02's [3]."""
    former, items = former_triples(grammar), dead_states(grammar)
    before = certificate_fault(former, certificate)
    assert fault is None or before is not None, "Certificates accepted so far are still accepted."
    accepted, cause = fault is None, 0 if fault is None else fault.cause
    held = held_indices(certificate) if accepted else []
    holder = triple_at(triples.states, fault.position if fault else 0)
    met = [
        ("accepted-and-formerly-too", before is None),
        ("accepted-though-formerly-refused", accepted and before is not None),
        ("accepted-though-formerly-potential", accepted and is_potential(former)),
        ("accepted-with-a-dead-item", any(
            state in items for index in held for state in triple_at(triples.states, index)[1:])),
        ("accepted-dead-rules-over-60-states", accepted and triples.states > 60),
        ("12-of-a-potential-grammar-with-dead-rules",
         cause == LAST_PRESENT and is_potential(triples)),
        ("13-with-a-dead-item", cause == SUCCESSOR_MISSING
         and (holder.left in items or holder.right in items)),
        ("13-elsewhere-than-formerly", cause == SUCCESSOR_MISSING and before != fault),
    ]
    names = dead_rules.reasons_of(grammar) + [name for name, holds in met if holds]
    if is_former_certificate(triples, former, certificate):
        names.append("former-certificate-%s" % kind_of(grammar))
    return names


def is_former_certificate(triples: Triples, former: Triples, certificate: bytes) -> bool:
    """Whether it is the smallest one before [3], of an unambiguous grammar, and is not so now."""
    smallest = reached(former)
    if is_potential(former) or smallest == reached(triples):
        return False
    return certificate == certificate_of(former.states, smallest)


def length_reasons(triples: Triples, certificate: bytes) -> List[str]:
    """How the length is wrong, and whether it alone is."""
    size, need = len(certificate), certificate_length(triples.states)
    front = size > need and certificate_fault(triples, certificate[:need]) is None
    met = [
        ("9-empty", size == 0),
        ("9-one-byte-short", size == need - 1),
        ("9-shorter", size < need - 1),
        ("9-one-byte-long", size == need + 1),
        ("9-longer", size > need + 1),
        ("9-though-its-front-is-right", front),
    ]
    return [name for name, holds in met if holds]


def later_reasons(triples: Triples, certificate: bytes, fault: Refusal) -> List[str]:
    """How causes 10 to 13 show, and which later faults the order hides."""
    held = [index for index in held_indices(certificate) if index < triples.count]
    if fault.cause == SUCCESSOR_MISSING:
        return successor_reasons(triples, held, fault.position)
    later = [
        (FIRST_MISSING, triples.first not in held),
        (LAST_PRESENT, triples.last in held),
        (SUCCESSOR_MISSING, successor_fault(triples, held) is not None),
    ]
    names = ["order-%d-before-%d" % (fault.cause, cause)
             for cause, there in later if there and cause > fault.cause]
    if fault.cause == SPARE_BIT:
        lowest = fault.position == triples.count
        return names + ["10-lowest-spare-bit" if lowest else "10-a-later-spare-bit"]
    if fault.cause == LAST_PRESENT and is_potential(triples):
        names.append("12-of-a-potential-grammar")
    return names + [str(fault.cause)]


def successor_reasons(triples: Triples, held: List[int], holder: int) -> List[str]:
    """Which successors the lowest holder lacks, and whether others lack one."""
    holds = set(held)
    missing = [index for index in triples.successors(holder) if index not in holds]
    half = triples.count // 2
    later = [index for index in held if index > holder]
    met: List[Tuple[str, bool]] = [
        ("13-at-0", holder == 0),
        ("13-opening-or-shift-of-layer-0-missing", any(i < half for i in missing)),
        ("13-parting-missing", holder < half <= max(missing)),
        ("13-successor-in-layer-1-missing", holder >= half),
        ("13-missing-index-below-its-holder", max(missing) < holder),
        ("13-missing-index-above-its-holder", min(missing) > holder),
        ("13-lowest-of-several", lacks_one(triples, holds, later)),
        ("13-of-a-potential-grammar", is_potential(triples)),
    ]
    return [name for name, there in met if there]


def lacks_one(triples: Triples, holds: Set[int], indices: List[int]) -> bool:
    """Whether one of these has a successor that is not held."""
    return any(successor not in holds
               for index in indices for successor in triples.successors(index))
