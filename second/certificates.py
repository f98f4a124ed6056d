"""The certificate check and the witness check of document 01.

Each takes t, n and a table first and m last, and answers a Refusal, or None when it
accepts. "Table faults precede 9 to 15", and so do those of m.
"""

from functools import lru_cache
from typing import Optional, Sequence, Tuple, Union

from callers import check_at
from tables import Codes, Refusal
from triples import (
    FIRST, LAST, Triple, Triples, certificate_length, held_indices, in_range,
    steps, triples_of,
)

# The causes of refusal, by document 01's numbers.
WRONG_LENGTH = 9          # "certificate length wrong"
SPARE_BIT = 10            # "bit past 2Q² set"
FIRST_MISSING = 11        # "(0,0,0) missing"
LAST_PRESENT = 12         # "(1,1,1) present"
SUCCESSOR_MISSING = 13    # "successor missing"
WRONG_WITNESS = 15        # "witness wrong"

Record = Tuple[int, int, int]   # layer, left, right


@lru_cache(maxsize=256)
def known_triples(t: int, n: int, table: Codes, m: int) -> Union[Triples, Refusal]:
    grammar = check_at(t, n, table, m)
    return grammar if isinstance(grammar, Refusal) else triples_of(grammar, m)


def checked_triples(t: int, n: int, table: Codes, m: int = 0) -> Union[Triples, Refusal]:
    """The triples at m of a table that passes its check, or the fault of the table or of m."""
    return known_triples(t, n, table, m)


# The certificate check.

def check_certificate(
    t: int, n: int, table: Codes, certificate: bytes, m: int = 0
) -> Optional[Refusal]:
    """Table faults, then "The certificate check goes 9 to 13"."""
    triples = checked_triples(t, n, table, m)
    if isinstance(triples, Refusal):
        return triples
    return certificate_fault(triples, certificate)


@lru_cache(maxsize=4)
def certificate_fault(triples: Triples, certificate: bytes) -> Optional[Refusal]:
    """The first of causes 9 to 13 that a certificate has, or None."""
    if len(certificate) != certificate_length(triples.states):
        return Refusal(WRONG_LENGTH, 0)
    held = held_indices(certificate)
    for index in held:
        if index >= triples.count:
            return Refusal(SPARE_BIT, index)
    if triples.first not in held:
        return Refusal(FIRST_MISSING, 0)
    if triples.last in held:
        return Refusal(LAST_PRESENT, triples.last)
    return successor_fault(triples, held)


def successor_fault(triples: Triples, held: Sequence[int]) -> Optional[Refusal]:
    """Cause 13: of the held indices the "lowest index that lacks one"."""
    holds = set(held)
    for index in held:
        for successor in triples.successors(index):
            if successor not in holds:
                return Refusal(SUCCESSOR_MISSING, index)
    return None


# The witness check.

def check_witness(
    t: int, n: int, table: Codes, entries: Sequence[int], m: int = 0
) -> Optional[Refusal]:
    """Table faults, then cause 15."""
    triples = checked_triples(t, n, table, m)
    if isinstance(triples, Refusal):
        return triples
    return witness_fault(triples, entries)


def witness_fault(triples: Triples, entries: Sequence[int]) -> Optional[Refusal]:
    """Cause 15, or None.

    "a row of indices [...] from (0,0,0) to (1,1,1), each the successor of the
    one before"; "first wrong entry, from 0; the row's length if only the end
    fails". An index of 2Q² or more is the successor of none.
    """
    allowed: Sequence[int] = (triples.first,)
    for place, entry in enumerate(entries):
        if entry not in allowed:
            return Refusal(WRONG_WITNESS, place)
        allowed = triples.successors(entry)
    if len(entries) == 0 or entries[-1] != triples.last:
        return Refusal(WRONG_WITNESS, len(entries))
    return None


def check_records(
    t: int, n: int, table: Codes, records: Sequence[Record], m: int = 0
) -> Optional[Refusal]:
    """The witness check on "a lent list of records (layer, left, right)"."""
    triples = checked_triples(t, n, table, m)
    if isinstance(triples, Refusal):
        return triples
    return records_fault(triples, [Triple(*record) for record in records])


def records_fault(triples: Triples, records: Sequence[Triple]) -> Optional[Refusal]:
    """Cause 15 of records, which "answers alike", or None.

    "a record with a layer above 1 or a state of Q or more is a wrong entry".
    """
    allowed = [FIRST]
    for place, record in enumerate(records):
        if not in_range(triples.states, record) or record not in allowed:
            return Refusal(WRONG_WITNESS, place)
        allowed = [step.next for step in steps(triples.automaton, record)]
    if len(records) == 0 or records[-1] != LAST:
        return Refusal(WRONG_WITNESS, len(records))
    return None
