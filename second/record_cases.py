"""Test inputs for the witness check over records, and this program's answers.

    record_cases.py cases FILE                writes the inputs
    record_cases.py answers CASES OUT COUNTS  answers them and counts the reasons

README.md beside this file has the layout of a case.
"""

import sys
from typing import Iterator, List, NamedTuple, Optional, Sequence, Tuple

import caller_reasons
import dead_rules
import sentence_reasons
from caller_grammars import answered_pairs
from case_files import (
    LARGEST, TABLE_REASONS, Kind, Reader, Rng, accepted_or_refused, cases_of,
    encode_number, encode_table_at, main,
)
from case_grammars import good, states_of, triples_in
from certificates import Record, check_records, checked_triples, records_fault
from sentence_grammars import sentenceless
from tables import NO_SENTENCE, TOO_MANY_STATES, Codes, Refusal, check_rules
from triples import Triple, Triples, in_range, is_potential
from ways import longer, shortest, wander
from witness_cases import CALLER_GROUPS
from witness_cases import GROUPS as ROW_GROUPS
from witness_cases import potential_tables
from witness_cases import with_callers as WITH_CALLERS

MOST = 512                 # records of a case
SOME_STATES = 6            # for the records beside a faulty table
PER_GROUP = 250            # cases taken from each group of the witness cases


class Case(NamedTuple):
    t: int
    n: int
    table: Codes
    records: Tuple[Record, ...]
    m: int = 0


# Groups of cases.

def record_of(states: int, entry: int) -> Record:
    """The record of an index; of one of 2Q² or more its layer is above 1."""
    return entry // states ** 2, entry // states % states, entry % states


def records_of(states: int, entries: Sequence[int]) -> Tuple[Record, ...]:
    return tuple(record_of(states, entry) for entry in entries)


def rows(rng: Rng) -> Iterator[Case]:
    """The rows of the witness cases as records, some of each group."""
    for number, group in enumerate(ROW_GROUPS):
        if group in CALLER_GROUPS:
            continue
        found = [case for case in group(Rng(rng.randrange(2 ** 32) + number))
                 if len(case.entries) <= MOST]
        for case in rng.sample(found, min(PER_GROUP, len(found))):
            grammar = check_rules(*case[:3])
            states = SOME_STATES if isinstance(grammar, Refusal) else grammar.states
            yield Case(*case[:3], records_of(states, case.entries))


def with_callers(rng: Rng) -> Iterator[Case]:
    """The same at each m, all of those groups; records of Q as at m=0 where m or the chains are refused."""
    for number, group in enumerate(CALLER_GROUPS):
        found = [case for case in group(Rng(rng.randrange(2 ** 32) + number)) if len(case.entries) <= MOST]
        for case in found if group is not WITH_CALLERS else rng.sample(found, 5 * PER_GROUP):
            triples = checked_triples(*case[:3], case.m)
            grammar = check_rules(*case[:3])
            states = triples.states if not isinstance(triples, Refusal) else (
                SOME_STATES if isinstance(grammar, Refusal) else grammar.states)
            yield Case(*case[:3], records_of(states, case.entries), case.m)


def outside_with_callers(rng: Rng) -> Iterator[Case]:
    """A record outside the ranges in a right witness or way at m=1 or m=2, also of states that Q at m=0 has."""
    for table, m in answered_pairs(rng, 5):
        triples = triples_in(table, m)
        walk = longer if is_potential(triples) else wander
        way = list(records_of(triples.states, walk(rng, triples, 3)))
        place = rng.randrange(len(way))
        yield Case(*table, (), m)
        found = strangers(triples.states, *way[place])
        if m and states_of(table) > triples.states:
            found.append((way[place][0], states_of(table) - 1, way[place][2]))
        for record in found:
            yield Case(*table, tuple(way[:place] + [record] + way[place + 1:]), m)


def outside(rng: Rng) -> Iterator[Case]:
    """A record outside the ranges at each place of a right witness."""
    for table in potential_tables(rng, 12):
        triples = triples_in(table)
        way = list(records_of(triples.states, longer(rng, triples, rng.choice([0, 3]))))
        for place, (layer, left, right) in enumerate(way):
            for record in strangers(triples.states, layer, left, right):
                yield Case(*table, tuple(way[:place] + [record] + way[place + 1:]))


def strangers(states: int, layer: int, left: int, right: int) -> List[Record]:
    """The record with one number outside its range, or two, or all three.

    Among them those whose index, formed without a look at the ranges or in 32
    bits, would be the record's own.
    """
    found = [
        (2, left, right), (layer + 2 ** 31, left, right), (LARGEST, left, right),
        (layer, states, right), (layer, LARGEST, right), (layer, left + states, right),
        (layer, left, states), (layer, left, LARGEST), (layer, left, right + states),
        (2, states, states), (LARGEST, LARGEST, LARGEST),
    ]
    if layer == 1:
        found += [(0, left + states, right)]
    if left > 0:
        found += [(layer, left - 1, right + states)]
    return found


def ends(rng: Rng) -> Iterator[Case]:
    """A record outside the ranges first, last, alone, or after the end."""
    for table in potential_tables(rng, 12):
        triples = triples_in(table)
        states = triples.states
        way = list(records_of(states, shortest(triples)))
        for record in ((2, 0, 0), (0, states, 0), (0, 0, states), (LARGEST, LARGEST, LARGEST)):
            yield Case(*table, (record,))
            yield Case(*table, tuple([record] + way))
            yield Case(*table, tuple(way + [record]))
            yield Case(*table, tuple(way[:-1] + [record]))


def without_a_sentence(rng: Rng) -> Iterator[Case]:
    """No sentence: no records, or one outside the ranges, alone or after (0,0,0)."""
    for table in sentenceless(rng, 4):
        yield Case(*table, ())
        for record in rng.sample(strangers(states_of(table), 0, 0, 0), 2):
            yield Case(*table, rng.choice([(record,), ((0, 0, 0), record)]))


GROUPS = [rows, outside, ends, without_a_sentence, with_callers, outside_with_callers]


# Reasons.

OF_RECORDS = [
    "accepted",
    "15-no-records",
    "15-only-the-end-fails",
    "15-in-range",
    "15-layer-of-2",
    "15-layer-above-2",
    "15-left-of-Q",
    "15-left-above-Q",
    "15-right-of-Q",
    "15-right-above-Q",
    "15-of-32-ones",
    "15-right-index-though-outside",
    "15-first-record",
    "15-last-record",
    "15-inner-record",
]
REASONS = TABLE_REASONS + OF_RECORDS + dead_rules.REASONS + [
    "19-no-records",
    "19-with-a-record-outside",
] + sentence_reasons.REASONS + caller_reasons.REASONS + caller_reasons.prefixed(OF_RECORDS) + [
    "15-a-state-of-Q-at-m-that-is-below-Q-at-0",
    "accepted-a-state-that-is-Q-at-0-or-more",
    "21-with-a-record-outside",
    "order-21-before-15",
    "order-too-many-chains-before-15",
    "21-though-accepted-at-0",
]


def reasons_of(t: int, n: int, table: Codes, records: Sequence[Record], m: int = 0) -> List[str]:
    """Every reason of REASONS that this case meets."""
    names = caller_reasons.of_case(t, n, table, m)
    if m:
        return names + remembered_reasons(t, n, table, records, m)
    return names + forgotten_reasons(t, n, table, records)


def remembered_reasons(t: int, n: int, table: Codes, records: Sequence[Record], m: int) -> List[str]:
    """What records at an m above 0 are, or would be at m=0 where m or the chains are refused."""
    former, triples = checked_triples(t, n, table), checked_triples(t, n, table, m)
    if isinstance(former, Refusal):
        return []
    row = [Triple(*record) for record in records]
    if isinstance(triples, Refusal):
        accepted = records_fault(former, row) is None
        if triples.cause == TOO_MANY_STATES:
            return ["order-too-many-chains-before-15"] * (not accepted)
        outside = ["21-with-a-record-outside"] * any(not in_range(former.states, record) for record in row)
        return ["21-though-accepted-at-0" if accepted else "order-21-before-15"] + outside
    fault = records_fault(triples, row)
    between = range(triples.states, former.states)
    shrunk = fault is not None and fault.position < len(row) and any(
        state in between for state in row[fault.position][1:])
    grown = fault is None and any(max(record[1:]) >= former.states for record in row)
    return caller_reasons.at(m, row_reasons(triples, records, fault)) + [
        "15-a-state-of-Q-at-m-that-is-below-Q-at-0"] * shrunk + [
        "accepted-a-state-that-is-Q-at-0-or-more"] * grown


def row_reasons(triples: Triples, records: Sequence[Record], fault: Optional[Refusal]) -> List[str]:
    """How records are accepted or refused."""
    if fault is None:
        return ["accepted"]
    if len(records) == 0:
        return ["15-no-records"]
    if fault.position == len(records):
        return ["15-only-the-end-fails"]
    return [name for name, holds in refused_reasons(triples, records, fault.position) if holds]


def forgotten_reasons(t: int, n: int, table: Codes, records: Sequence[Record]) -> List[str]:
    """Every reason that a case at m=0 meets."""
    triples = checked_triples(t, n, table)
    names = list(sentence_reasons.of_table(t, n, table))
    if isinstance(triples, Refusal):
        none = triples.cause == NO_SENTENCE
        return names + [str(triples.cause)] + (
            none_reasons(states_of((t, n, table)), records) if none else [])
    fault = records_fault(triples, [Triple(*record) for record in records])
    return names + dead_rules.reasons_of(good((t, n, table))) + row_reasons(triples, records, fault)


def none_reasons(states: int, records: Sequence[Record]) -> List[str]:
    """What the records of a grammar without a sentence are."""
    met = [
        ("19-no-records", not records),
        ("19-with-a-record-outside",
         any(not in_range(states, Triple(*record)) for record in records)),
    ]
    return [name for name, holds in met if holds]


def refused_reasons(
    triples: Triples, records: Sequence[Record], place: int
) -> List[Tuple[str, bool]]:
    """How the first wrong record is wrong."""
    states = triples.states
    layer, left, right = records[place]
    inside = layer < 2 and left < states and right < states
    index = layer * states ** 2 + left * states + right
    allowed = [triples.first]
    if place > 0:
        before = records[place - 1]
        allowed = triples.successors(before[0] * states ** 2 + before[1] * states + before[2])
    return [
        ("15-in-range", inside),
        ("15-layer-of-2", layer == 2),
        ("15-layer-above-2", layer > 2),
        ("15-left-of-Q", left == states),
        ("15-left-above-Q", left > states),
        ("15-right-of-Q", right == states),
        ("15-right-above-Q", right > states),
        ("15-of-32-ones", LARGEST in (layer, left, right)),
        ("15-right-index-though-outside", not inside and index in allowed),
        ("15-first-record", place == 0),
        ("15-last-record", place == len(records) - 1),
        ("15-inner-record", 0 < place < len(records) - 1),
    ]


# Answers.

def answer(case: Case) -> str:
    """The line of one case, without its byte 10."""
    return accepted_or_refused(check_records(*case))


# Files.

def encode_case(case: Case) -> bytes:
    """One case of the file of inputs."""
    numbers = [number for record in case.records for number in record]
    return (encode_table_at(*case[:3], case.m) + encode_number(len(case.records))
            + b"".join(map(encode_number, numbers)))


def decode_case(reader: Reader) -> Case:
    """The next case of a file of inputs."""
    t, n, table, m = reader.table_at()
    numbers = reader.numbers(3 * reader.number())
    records = zip(numbers[0::3], numbers[1::3], numbers[2::3])
    return Case(t, n, table, tuple(records), m)


KIND = Kind(lambda: cases_of(GROUPS), encode_case, decode_case, answer,
            REASONS, lambda case: reasons_of(*case),
            enough={**dead_rules.ENOUGH, **sentence_reasons.ENOUGH, **caller_reasons.ENOUGH})

if __name__ == "__main__":
    sys.exit(main(__doc__, sys.argv[1:], KIND))
