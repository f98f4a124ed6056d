"""The inputs of the cases of document 02's [14], in groups; they depend on the seed alone.

A case is a row of codes with what is lent and a byte that says what the lent rows hold
before; or the room; or a place of the certificate. README.md beside this file has what each
byte stands for.
"""

from itertools import product
from typing import Dict, Iterator, List, NamedTuple, Union

from case_files import LAST, Rng, cases_of
from plans import (
    CERTIFICATE_BYTES, CH, CLOSE, GIVE, MOST_TERMINALS, NUM, REPEAT, SEP, STATES, TAKE, TERMINALS, VOL, WORK_ENTRIES,
    Lent, plan_of,
)
from tables import MAX_ENTRY, START, Codes

SEED = 14
MAX_ROW = 70000           # entries of the longest row of a case
MAX_WORK = 120000         # entries of the longest work row
MAX_LIST = 1000           # entries of the longest list
LONGER = MOST_TERMINALS + 2
FAULTY_CODES = 0, 9, START, MAX_ENTRY          # no terminals; each stands once at every place

FILLS = 0, 1, 2, 3, 255, 255, 7, 30, 37, 62, 94, 131, 200


class Case(NamedTuple):
    row: Codes
    lent: Lent
    fill: int


class Room(NamedTuple):
    """The entries of the work row are asked for."""


class Place(NamedTuple):
    """A byte of the certificate is asked for."""

    place: int


AnyCase = Union[Case, Room, Place]


# What is lent.

def rules_needed(row: Codes) -> int:
    """The rules of the plan; 0 where there is none."""
    return len(plan_of(row) or ()) if len(row) <= LONGER else 0


def lists(rng: Rng, needed: int) -> List[int]:
    """Lengths of a list: exactly enough, more, one too few, none, fewer, more by far."""
    return [needed, needed + 1 + rng.randrange(9), max(0, needed - 1), 0, rng.randrange(1 + needed), needed + 90]


def works(rng: Rng, row: Codes) -> List[int]:
    """Lengths of a work row: exactly enough, more, more by far, then too short ones."""
    places = len(row) + 1
    return [WORK_ENTRIES, WORK_ENTRIES + 1 + rng.randrange(20), WORK_ENTRIES + rng.randrange(5000),
            WORK_ENTRIES - 1, 0, 64 * 64 * STATES, 65 * 64 * STATES, min(WORK_ENTRIES - 2, places * places * STATES),
            rng.randrange(WORK_ENTRIES)]


def one_case(rng: Rng, row: Codes) -> Case:
    """A row with something lent, mostly enough."""
    work = rng.choice(works(rng, row)[:3]) if rng.randrange(30) else rng.choice(works(rng, row))
    found = lists(rng, rules_needed(row))
    return Case(row, Lent(work, rng.choice(found[:2] * 2 + found)), rng.choice(FILLS))


def every_lent(rng: Rng, row: Codes) -> Iterator[Case]:
    """A row with each length of the work row and enough in the list, and the other way round; both too short."""
    found_works, found_lists = works(rng, row), lists(rng, rules_needed(row))
    for work in found_works:
        yield Case(row, Lent(work, rng.choice(found_lists[:2])), rng.choice(FILLS))
    for length in found_lists:
        yield Case(row, Lent(rng.choice(found_works[:3]), length), rng.choice(FILLS))
    yield Case(row, Lent(WORK_ENTRIES - 1, found_lists[2]), rng.choice(FILLS))
    yield Case(row, Lent(0, 0), rng.choice(FILLS))


def at_fault(rng: Rng, row: Codes) -> Case:
    """A row that is refused with 22, lent enough, too little, or nothing."""
    more = Lent(WORK_ENTRIES + rng.randrange(99), rng.randrange(9))
    lent = rng.choice([Lent(WORK_ENTRIES, 200), more, Lent(WORK_ENTRIES - 1, 9), Lent(0, 0)])
    return Case(row, lent, rng.choice(FILLS))


# Sentences.

def is_length(length: int) -> bool:
    """Whether a sentence has so many terminals: a command has 3, and 2 for each channel more."""
    return length >= 0 and length not in (1, 2, 4)


def sentence(rng: Rng, length: int) -> Codes:
    """A random sentence of so many terminals."""
    row: Codes = ()
    while len(row) < length:
        left = length - len(row)
        sizes = [size for size in range(3, left + 1) if size != 4 and is_length(left - size)]
        row += command(rng, rng.choice([sizes[0], sizes[-1], rng.choice(sizes), rng.choice(sizes)]))
    return row


def command(rng: Rng, size: int) -> Codes:
    """A random command of so many terminals."""
    if size % 2 == 0 or is_length(size - 3) and rng.randrange(2):
        return (REPEAT, NUM) + sentence(rng, size - 3) + (CLOSE,)
    return (rng.choice((TAKE, GIVE)), CH) + (SEP, CH) * ((size - 3) // 2) + (VOL,)


def sentences(most: int) -> List[Codes]:
    """Every sentence of up to so many terminals, in order of their lengths."""
    found: Dict[int, List[Codes]] = {0: [()]}
    commands: Dict[int, List[Codes]] = {}
    for length in range(1, most + 1):
        own = [(REPEAT, NUM) + inner + (CLOSE,) for inner in found.get(length - 3, [])]
        if length % 2 and length > 1:
            own += [(word, CH) + (SEP, CH) * ((length - 3) // 2) + (VOL,) for word in (TAKE, GIVE)]
        commands[length] = own
        found[length] = [front + last for size in range(1, length + 1)
                         for front in found[length - size] for last in commands[size]]
    return [row for length in range(most + 1) for row in found[length]]


# Rows that nearly are sentences.

def put_at(row: Codes, place: int, code: int) -> Codes:
    return row[:place] + (code,) + row[place + 1:]


def every_change(row: Codes) -> Iterator[Codes]:
    """Each terminal changed into each other, dropped, doubled, exchanged with the next; each put in anywhere."""
    for place in range(len(row)):
        yield from (put_at(row, place, code) for code in TERMINALS if code != row[place])
        yield row[:place] + row[place + 1:]
        yield row[:place + 1] + row[place:]
        yield row[:place] + row[place:place + 2][::-1] + row[place + 2:]
    for place, code in product(range(len(row) + 1), TERMINALS):
        yield row[:place] + (code,) + row[place:]


def changed(rng: Rng, row: Codes) -> Codes:
    """One terminal changed, dropped, doubled, put in, two exchanged, the row cut at either end, or a part doubled."""
    place, other = sorted((rng.randrange(len(row) + 1), rng.randrange(len(row) + 1)))
    here = min(place, max(0, len(row) - 1))
    exchanged = list(row)
    if row:
        there = rng.choice([min(here + 1, len(row) - 1), rng.randrange(len(row))])
        exchanged[here], exchanged[there] = exchanged[there], exchanged[here]
    return rng.choice([
        put_at(row, here, rng.choice(TERMINALS)) if row else (rng.choice(TERMINALS),),
        row[:here] + row[here + 1:],
        row[:here + 1] + row[here:],
        row[:place] + (rng.choice(TERMINALS),) + row[place:],
        tuple(exchanged),
        row[:place],
        row[place:],
        row[:other] + row[place:],
    ])


def any_row(rng: Rng, length: int) -> Codes:
    """Random terminals."""
    return tuple(rng.choice(TERMINALS) for _ in range(length))


def followed(rng: Rng, length: int) -> Codes:
    """Random terminals, most of them such that could follow; so that rows stay sentences' fronts for long."""
    after = {TAKE: (CH,), GIVE: (CH,), REPEAT: (NUM,), NUM: (TAKE, GIVE, REPEAT, CLOSE), CH: (SEP, VOL, VOL),
             SEP: (CH,), VOL: (TAKE, GIVE, REPEAT, CLOSE), CLOSE: (TAKE, GIVE, REPEAT, CLOSE)}
    row = [rng.choice((TAKE, GIVE, REPEAT))]
    while len(row) < length:
        row.append(rng.choice(after[row[-1]]) if rng.randrange(20) else rng.choice(TERMINALS))
    return tuple(row[:length])


# Groups of cases.

def asked(rng: Rng) -> Iterator[AnyCase]:
    """The room; each byte of the certificate, and places past its end, also such whose low bits are a place of it."""
    yield Room()
    past = [CERTIFICATE_BYTES + place for place in range(90)]
    past += [2 ** bits + place for bits in (8, 16, 31, 32, 63) for place in (*range(41), 182, 183)]
    past += [2 ** 32 - 1, LAST, LAST - 182] + [rng.randrange(LAST) for _ in range(20)]
    yield from map(Place, [*range(CERTIFICATE_BYTES), *past])


def short_rows(rng: Rng) -> Iterator[Case]:
    """Every row of up to four terminals."""
    for length in range(5):
        for row in product(TERMINALS, repeat=length):
            yield one_case(rng, row)


def short_sentences(rng: Rng) -> Iterator[Case]:
    """Every sentence of up to twelve terminals: the list exactly long enough, one too short, anything lent."""
    for row in sentences(12):
        needed = rules_needed(row)
        yield Case(row, Lent(WORK_ENTRIES, needed), rng.choice(FILLS))
        yield Case(row, Lent(WORK_ENTRIES, needed - 1), rng.choice(FILLS))
        yield one_case(rng, row)


def near_short_sentences(rng: Rng) -> Iterator[Case]:
    """Every change of a sentence of up to eight terminals."""
    rows = dict.fromkeys(row for found in sentences(8) for row in every_change(found))
    for row in rows:
        yield one_case(rng, row)


def each_length(rng: Rng) -> Iterator[Case]:
    """Sentences of each length up to 66, and other rows of the same lengths."""
    for length in range(LONGER + 1):
        near: List[Codes] = []
        for place in range(40):
            row = sentence(rng, length) if is_length(length) else any_row(rng, length)
            yield one_case(rng, row)
            near += [changed(rng, row)] * (place < 28)
        yield from (one_case(rng, row) for row in near)
        yield from (one_case(rng, followed(rng, length)) for _ in range(8))
        yield one_case(rng, any_row(rng, length))


def by_hand() -> List[Codes]:
    """Rows with the most of something, and those with one thing more."""
    take, give = (TAKE, CH, VOL), (GIVE, CH, VOL)
    rows = [take * count for count in (1, 2, 20, 21, 22)] + [give * 21]
    for depth in (1, 2, 3, 20, 21, 22):
        front, back = (REPEAT, NUM) * depth, (CLOSE,) * depth
        rows += [front + back, front + back[1:], front + back + (CLOSE,), front[:-1] + back]
        rows += [front + take + back, front + back + take, front + (CLOSE, *give) * depth]
    for more in (1, 6, 7, 8, 29, 30, 31):
        channels = (CH,) + (SEP, CH) * more
        rows += [(TAKE, *channels, VOL), (GIVE, *channels, VOL), (TAKE, *channels), (GIVE, *channels[1:], VOL),
                 (TAKE, *channels[:-1], VOL), (REPEAT, NUM, TAKE, *channels, VOL, CLOSE)]
    rows += [(GIVE, *(CH, SEP) * 8, CH, VOL) + take * 15, take * 20 + (REPEAT, NUM, CLOSE), (TAKE, VOL), (REPEAT, CLOSE),
             (REPEAT, NUM, NUM, CLOSE), (TAKE, CH, CH, VOL), (TAKE, SEP, CH, VOL), (TAKE, CH, VOL, VOL)]
    return rows


def shapes(rng: Rng) -> Iterator[Case]:
    """These rows, lent in every manner; again those whose plans have 21 commands, 21 repeats or 31 channels."""
    for row in by_hand():
        for _ in range(3 if len(row) == 63 else 1):
            yield from every_lent(rng, row)


def near_long_sentences(rng: Rng) -> Iterator[Case]:
    """Long sentences with one or two changes."""
    for _ in range(2600):
        row = sentence(rng, rng.choice([*range(9, 65), 62, 63, 64, 64]))
        row = changed(rng, row)
        yield one_case(rng, row if rng.randrange(4) else changed(rng, row))


def any_rows(rng: Rng) -> Iterator[Case]:
    """Random terminals of any length."""
    for place in range(900):
        make = any_row if place % 3 == 0 else followed
        yield one_case(rng, make(rng, rng.randrange(1, LONGER)))


def lent_in_each_manner(rng: Rng) -> Iterator[Case]:
    """Sentences and other rows, lent in every manner."""
    for _ in range(90):
        row = sentence(rng, rng.choice([0, 3, *range(5, 65), 63, 64]))
        yield from every_lent(rng, row)
        if rng.randrange(3) == 0:
            yield from every_lent(rng, changed(rng, row))


def no_terminal(rng: Rng) -> int:
    """A code that is no terminal: near the limits, one of P, K, L, one whose low byte is a terminal's, any other."""
    return rng.choice([0, 9, 10, START - 1, START, START + 1, START + 2, START + 3, START + 7, 32761, MAX_ENTRY - 1, MAX_ENTRY,
                       256 * (1 + rng.randrange(255)) + rng.choice(TERMINALS), rng.randrange(9, MAX_ENTRY + 1)])


def faulty_rows(rng: Rng) -> Iterator[Case]:
    """Each of FAULTY_CODES at every place of sentences of 64 and of fewer terminals; then others, and two of them."""
    for place, code in product(range(LONGER), FAULTY_CODES):
        fewer = max(place + 1, rng.choice([3, 5, 30]))
        for length in (MOST_TERMINALS, fewer + (fewer == 4), MOST_TERMINALS + 1, LONGER):
            if place < length:
                yield at_fault(rng, put_at(sentence(rng, length), place, code))
    for place in range(LONGER):
        for length in (max(5, place + 1), MOST_TERMINALS, MOST_TERMINALS + 1, LONGER):
            if place < length:
                first = put_at(sentence(rng, length), place, no_terminal(rng))
                yield at_fault(rng, first)
                yield at_fault(rng, put_at(first, rng.randrange(length), no_terminal(rng)))


def too_long(rng: Rng) -> Iterator[Case]:
    """Sentences and other rows of more than 64 terminals; lengths whose low 8 or 16 bits would pass."""
    for length in [65, 66, 67, 69, 70, 100, 128, 129] * 12 + [256, 257, 300, 320, 321, 1000, 4096] * 5:
        row = sentence(rng, length) if rng.randrange(3) else any_row(rng, length)
        yield at_fault(rng, row)
        if length > MOST_TERMINALS + 1:
            yield at_fault(rng, put_at(row, rng.randrange(MOST_TERMINALS, length), no_terminal(rng)))
    for length in (65536, 65537, 65539, 65536 + 64, 65536 + 65):
        row = ((TAKE, CH, VOL) * (length // 3 + 1))[:length]
        yield at_fault(rng, row)
        yield at_fault(rng, put_at(row, rng.choice([3, 63, 64]), 9))


GROUPS = [
    asked, short_rows, short_sentences, near_short_sentences, each_length, shapes, near_long_sentences, any_rows,
    lent_in_each_manner, faulty_rows, too_long,
]


def all_cases() -> Iterator[AnyCase]:
    return cases_of(GROUPS, SEED)
