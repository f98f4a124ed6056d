"""Inputs of the cases of document 02's [13] in rows that no new draft made, or that are lent otherwise.

Rows of any entries, rules about the end of a block, and rows of drafts and marks in which
entries are changed.
"""

from typing import Iterator, List, Optional, Sequence, Tuple

from case_files import Rng
from draft_steps import (
    TELL, Case, add, add_entries, any_step, back, begun, edit, lend, mark, new, put, random_history, random_step,
    some_fill, some_size, withdraw,
)
from drafts import (
    ADD, BLOCK, CALLS, COUNTS, ENTRIES, MARK, MARKS, NEW, SYMBOLS, TABLE, WITHDRAW, Draft, Step, block_place,
    table_of,
)
from random_tables import Rule, S, a, large_grammar, random_entries, random_entry, small_grammar
from tables import HEADER, MAX_ENTRY, MAX_RULES, MAX_STATES, START, Codes


def garbage(rng: Rng) -> Iterator[Case]:
    """Rows of each filling as they are, and others with any entries; all calls on them."""
    for fill in [*range(4), 255, *rng.sample(range(4, 255), 30)]:
        steps = [Step(COUNTS), Step(TABLE), add(2, 1, 1), withdraw(1), withdraw(2), *map(mark, (1, 8, 9))]
        steps += [back(number) for number in range(10)] + [any_step(rng, None) for _ in range(10)]
        yield Case(some_size(rng), fill, tuple(steps))
    for place in range(150):
        steps = []
        for block in range(1 + MARKS):
            if block == 0 or rng.randrange(2):
                steps.append(put(block_place(block), *garbage_block(rng)))
        steps.append(put(0, *garbage_symbols(rng)))
        steps += [any_step(rng, None) for _ in range(20)]
        if place % 3 == 0:
            steps = [put(0, *(random_entry(rng) for _ in range(rng.choice([3, 40, 400]))))] + steps[-20:]
        yield Case(some_size(rng), some_fill(rng), tuple(without_new(steps)))


def without_new(steps: Sequence[Step]) -> List[Step]:
    """Most new drafts left out, which end what rows that none made are tried for."""
    return [step for place, step in enumerate(steps) if step.kind != NEW or place % 7 == 0]


def garbage_symbols(rng: Rng) -> Codes:
    """t and n, in range or not."""
    return rng.choice([(2, 2), (2, 2), (0, 0), (MAX_ENTRY, MAX_ENTRY), (MAX_ENTRY, 0), (0, MAX_ENTRY), (START + 9, 1),
                       (1, START + 9), (random_entry(rng), random_entry(rng))])


def garbage_block(rng: Rng) -> Codes:
    """A block of rules with any codes and lengths, that lie whole in it or nearly so."""
    kind = rng.randrange(8)
    if kind == 0:
        return (0, *random_entries(rng, 5))
    if kind == 1:
        return (rng.choice([1, 1, 2, 3, MAX_ENTRY]), *random_entries(rng, 9))
    entries: List[int] = []
    count = 0
    most = rng.choice([5, 20, 60, BLOCK - 1])
    lengths = rng.choice([[0], [0, 0, 0, 1], [0, 1, 2, 3], [12, 13, 20], [0, 300], [2], [7, 90]])
    while True:
        k = rng.choice(lengths)
        if len(entries) + HEADER + k > most:
            break
        entries += [random_entry(rng), k, *(random_entry(rng) for _ in range(k))]
        count += 1
    return (count + rng.choice([1, 1, 1, 1, 2, 0, 3]), *entries)


def block_edges(rng: Rng) -> Iterator[Case]:
    """Rules that end exactly with their block, one entry before, one behind; more rules than there may be."""
    body = BLOCK - 1
    blocks: List[Codes] = []
    for k in (body - 2, body - 1, body - 3, body, MAX_ENTRY, 65533, 13):
        blocks.append((2, S, k) + tuple(1 + place % 2 for place in range(min(k, body - 2))))
    for count in (body // 2, body // 2 + 1, body // 2 - 1, MAX_RULES, MAX_RULES - 1, MAX_RULES + 1, MAX_ENTRY - 1):
        blocks.append((count + 1,) + (S, 0) * (body // 2))
    for last in (0, 1, 2, 9):      # rules of 12 codes up to a last one about the end
        rules = table_of([(S, (1,) * 12)] * 101)
        blocks.append((103, *rules, S, body - len(rules) - 2 + last - 1) + (2,) * (body - len(rules) - 2))
    for k in (MAX_STATES - 7, MAX_STATES - 6, MAX_STATES - 5):      # states about the limit by one long rule
        blocks.append((2, S, k) + (1,) * k)
    for k in (0, 1, 2):            # the last two entries of the block, a rule or less
        blocks.append((3, S, body - 4 + k) + (2,) * (body - 4) + (S, 0)[:2 - k])
    for entries in blocks:
        for number in range(1, 1 + MARKS, 3):
            yield edge_case(rng, entries, number)


def edge_case(rng: Rng, entries: Codes, number: int) -> Case:
    """A block as the draft's, with every step; then as that of a mark."""
    t, n = rng.choice([(2, 1), (2, 1), garbage_symbols(rng)])
    steps = [put(0, t, n), put(block_place(0), *entries), *TELL, mark(number), add(S, 1), add(S), add(S, 1, 2),
             add_entries((S, 3, 1, 1)), add_entries((S,)), add_entries(()), *TELL, mark(1 + number % MARKS),
             withdraw(1), *TELL, back(number), withdraw(entries[0] - 1), withdraw(entries[0]), back(number),
             withdraw(2), *TELL]
    steps += [put(block_place(0), 1), put(block_place(number), *entries), back(number), *TELL, add(S, 1), withdraw(1)]
    steps += [mark(number), back(number), *TELL]
    return Case(some_size(rng), some_fill(rng), tuple(steps))


def damaged(rng: Rng) -> Iterator[Case]:
    """Rows of drafts and marks with entries changed: heads, lengths, codes, t and n, past the tables, anywhere."""
    for place in range(220):
        start = small_grammar(rng, 6) if place % 4 else larger_start(rng)
        session = begun(rng, *start)
        for number in rng.sample(range(1, 1 + MARKS), 4):
            session.take(mark(number))
            edit(session)
        draft = session.draft
        steps = session.steps
        for _ in range(5):
            for _ in range(rng.choice([1, 1, 2, 9])):
                steps.append(damage(rng, draft))
            steps += [any_step(rng, draft) for _ in range(6)]
        yield Case(some_size(rng), some_fill(rng), tuple(without_new_behind(steps)))


def without_new_behind(steps: Sequence[Step]) -> List[Step]:
    return [steps[0]] + without_new(steps[1:])


def larger_start(rng: Rng) -> Tuple[int, int, List[Rule]]:
    """Some hundred rules, at a limit or not."""
    count, states = rng.choice([(MAX_RULES, 900), (120, MAX_STATES), (90, 400)])
    return large_grammar(rng, count, states)


def damage(rng: Rng, draft: Optional[Draft]) -> Step:
    """One entry is changed, of the draft's block or that of a mark; mostly where it is read."""
    used = 1 + (len(table_of(draft.rules)) if draft is not None else 0)
    block = block_place(rng.choice([0, 0, rng.randrange(1 + MARKS)]))
    kind = rng.randrange(7)
    if kind == 0:
        return put(rng.randrange(SYMBOLS), random_entry(rng))
    if kind == 1:
        return put(block, rng.choice([0, 1, 2, 3, random_entry(rng), MAX_ENTRY]))
    if kind == 2:
        return put(block + rng.randrange(BLOCK), random_entry(rng))
    if kind == 3:
        return put(rng.randrange(ENTRIES), random_entry(rng))
    return put(block + rng.randrange(used), rng.choice([rng.randrange(14), random_entry(rng), random_entry(rng)]))


def damaged_marks(rng: Rng) -> Iterator[Case]:
    """Marks whose blocks are changed, and returns to them; the draft is whole."""
    for _ in range(120):
        session = begun(rng, *small_grammar(rng, 6))
        for number in range(1, 1 + MARKS):
            session.take(mark(number))
            edit(session)
        for _ in range(5):
            block = block_place(1 + rng.randrange(MARKS))
            kind = rng.randrange(4)
            if kind == 0:
                change = put(block, *garbage_block(rng))
            elif kind == 1:
                change = put(block, rng.choice([0, 1, 2, 3, 4, MAX_ENTRY, random_entry(rng)]))
            elif kind == 2:
                change = put(block + 1 + rng.randrange(12), rng.choice([rng.randrange(14), random_entry(rng)]))
            else:
                change = put(block + 2, rng.choice([BLOCK, BLOCK - 3, BLOCK - 4, MAX_ENTRY]))
            session.steps.append(change)
            session.steps += [back(number) for number in rng.sample(range(1, 1 + MARKS), 3)]
            session.steps += [rng.choice(TELL), any_step(rng, session.draft, [ADD, WITHDRAW, MARK])]
        yield session.case(some_size(rng))


def lent_otherwise(rng: Rng) -> Iterator[Case]:
    """Rows that are one entry too short, shorter, empty, longer by far, from the front on."""
    for place in range(60):
        session = begun(rng, *small_grammar(rng, 5))
        if place % 2:
            session.steps[:0] = [lend(0)] + [any_step(rng, None) for _ in range(4)] + [lend(ENTRIES)]
        for _ in range(6):
            random_step(session, [0, 1, 2], ENTRIES)
            for lent in (ENTRIES - 1, rng.choice([0, 1, 2, 3, BLOCK, rng.randrange(ENTRIES)])):
                session.steps.append(lend(lent))
                session.steps += [any_step(rng, session.draft, [kind]) for kind in CALLS]
            session.steps.append(lend(ENTRIES))
        yield session.case()
    for place in range(20):
        size = rng.choice([ENTRIES - 1, 0, 1, rng.randrange(ENTRIES), ENTRIES - 2])
        calls = [any_step(rng, None, [kind]) for kind in CALLS]
        yield Case(size, some_fill(rng), (new(1, 1, (S, 1, a)), *calls))
    for _ in range(20):
        found = random_history(rng, small_grammar(rng, 4), 12, [0, 1, 2])
        yield found._replace(size=ENTRIES + 600 + rng.randrange(ENTRIES - 600))
