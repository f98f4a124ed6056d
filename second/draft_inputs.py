"""The inputs of the cases of document 02's [13], in groups; they depend on the seed alone.

Here are the histories of drafts; draft_rows.py has those of other rows.
"""

from typing import Callable, Iterator, List

from case_files import LAST, Rng, cases_of
from case_grammars import CLASSICS, EIGHT_CHANNELS, ROWS, Table, faulty_tables, out_of_range
from draft_rows import block_edges, damaged, damaged_marks, garbage, lent_otherwise
from draft_steps import (
    TELL, Case, Session, add, add_entries, any_step, back, begun, edit, flat, lend, mark, new, random_history,
    random_step, set_marks, some_fill, some_size, with_more, withdraw,
)
from drafts import ENTRIES, MARKS, TABLE, Step, states_of, table_of
from random_tables import (
    S, a, b, base_grammar, faulty_rule, large_grammar, random_code, random_rule, random_rules, small_grammar,
)
from tables import HEADER, MAX_ENTRY, MAX_LENGTH, MAX_NONTERMINALS, MAX_RULES, MAX_STATES, MAX_TERMINALS, START

SEED = 13


def by_hand(rng: Rng) -> Iterator[Case]:
    """The sentences of [13], one after another."""
    rule_a, rule_b, empty = add(S, a), add(S, b), add(S)
    yield Case(ENTRIES, 255, (new(2, 1, ()), *TELL, rule_a, *TELL, mark(1), rule_b, empty, withdraw(1), *TELL, mark(2),
                              back(1), *TELL, back(2), *TELL, mark(1), back(1), *TELL))
    yield Case(ENTRIES, 7, (new(2, 1, ()), mark(3), rule_a, back(3), *TELL, back(1), back(3), mark(9), back(0), mark(0),
                            back(9), withdraw(0), withdraw(1), rule_a, withdraw(2), withdraw(1), withdraw(1), *TELL))
    yield Case(ENTRIES, 0, (new(0, 1, (S, 1, S)), add_entries(()), add_entries((S,)), add(S, S), add(S, a), add(S),
                            add_entries((S, 2, S, S, 9, 9, 9)), add_entries((S, 3, S, S, S) + (S, 0) * 1900), *TELL))
    for t, n, table in ROWS + [EIGHT_CHANNELS] + list(CLASSICS.values()):
        session = Session(rng)
        session.take(new(t, n, ()))
        offset, places = 0, []
        while offset < len(table):
            places.append(offset)
            offset += HEADER + table[offset + 1]
        for number, offset in enumerate(places):
            session.take(mark(1 + number % MARKS))
            session.take(add_entries(table[offset:]))
        for number in range(len(places)):
            session.take(back(1 + rng.randrange(MARKS)))
            session.take(withdraw(1 + rng.randrange(number + 1)))
            session.take(rng.choice(TELL))
        yield session.case(some_size(rng))


def small(rng: Rng) -> Iterator[Case]:
    """Few symbols and rules; short histories and long ones."""
    for place in range(560):
        start = small_grammar(rng, 5) if place % 3 else (rng.randrange(3), 1 + rng.randrange(2), [])
        yield random_history(rng, start, rng.choice([8, 20, 40, 80, 200]), [0, 1, 1, 2, 2, 3, 5, 12])


def larger(rng: Rng) -> Iterator[Case]:
    """Up to some hundred rules."""
    for _ in range(80):
        t, n = 1 + rng.randrange(60), 1 + rng.randrange(60)
        rules = random_rules(rng, t, n, [rng.randrange(6) for _ in range(rng.randrange(90))])
        yield random_history(rng, (t, n, rules), rng.choice([60, 150, 300]), range(13))


def at_limits(rng: Rng) -> Iterator[Case]:
    """The most rules, the most states, or both, and steps about there."""
    for place in range(75):
        count, states = [(MAX_RULES, 900), (MAX_RULES, MAX_STATES), (200, MAX_STATES)][place % 3]
        t, n, rules = large_grammar(rng, count, states)
        start = rules[:len(rules) - rng.choice([0, 0, 1, 2, 5])]
        lengths = [[0, 1, 2, 3], [0, 1, 2], [1, 2, 5, 8, 12]][place % 3]
        yield random_history(rng, (t, n, start), rng.choice([30, 60, 100]), lengths)


def filled_up(rng: Rng) -> Iterator[Case]:
    """Rules added from none on, until no more are taken, and withdrawn again down to none."""
    for lengths in ([0, 1, 1, 2], [12, 11], [4]):
        t, n = 400, 400
        session = begun(rng, t, n, [])
        draft = session.draft
        assert draft is not None
        for number in range(430 if max(lengths) < 11 else 90):
            session.take(add(*flat(random_rule(rng, t, n, rng.choice(lengths)))))
            if number % 50 == 7:
                session.take(mark(1 + number // 50 % MARKS))
        session.take(back(1))
        session.take(back(MARKS))
        while session.draft is not None and session.draft.rules:
            count = len(session.draft.rules)
            session.take(withdraw(rng.choice([1, count, 1 + rng.randrange(count)])))
        session.steps += TELL
        session.take(withdraw(1))
        session.take(back(2))
        session.steps += TELL
        yield session.case(some_size(rng))


def wide(rng: Rng) -> Iterator[Case]:
    """t and n up to 2,000, and codes on either side of the limits."""
    edges = [1, MAX_TERMINALS, MAX_TERMINALS - 1, START, START + MAX_NONTERMINALS - 1]
    wrong = [0, MAX_TERMINALS + 1, START - 1, START + MAX_NONTERMINALS, MAX_ENTRY]
    for t, n in [(MAX_TERMINALS, MAX_NONTERMINALS)] * 36 + [(MAX_TERMINALS, 1), (0, MAX_NONTERMINALS)] * 8 + [
            (MAX_TERMINALS - 1, MAX_NONTERMINALS - 1)] * 8:
        session = begun(rng, t, n, [])
        for _ in range(20):
            left = rng.choice([S, START + n - 1, START + n - 1, START + n, rng.choice(edges + wrong)])
            right = [rng.choice(edges + [t, START + n - 1, random_code(rng, t, n)]) for _ in range(rng.randrange(4))]
            if right and rng.randrange(4) == 0:
                right[rng.randrange(len(right))] = rng.choice(wrong)
            session.take(add(left, *right))
            random_step(session, [0, 1, 2, 3], ENTRIES)
        yield session.case()


def new_drafts(rng: Rng) -> Iterator[Case]:
    """Tables with each fault, with a row that is long enough, too short, or none, on rows with and without a draft."""
    tables: List[Table] = [*faulty_tables(rng, 55), *(out_of_range(rng) for _ in range(40))]
    rng.shuffle(tables)
    for place in range(0, len(tables), 4):
        steps: List[Step] = []
        for t, n, table in tables[place:place + 4]:
            good = small_grammar(rng, 4)
            steps.append(new(t, n, table))
            steps += [any_step(rng, None), rng.choice(TELL)]
            steps += [lend(rng.choice([ENTRIES - 1, ENTRIES - 1, 0, rng.randrange(ENTRIES)])), new(t, n, table)]
            steps += [new(good[0], good[1], table_of(good[2])), lend(ENTRIES), new(good[0], good[1], table_of(good[2]))]
            steps += [mark(1 + rng.randrange(MARKS)), any_step(rng, None), *TELL]
        yield Case(ENTRIES, some_fill(rng), tuple(steps))


def faulty_adds(rng: Rng) -> Iterator[Case]:
    """Added rules with every choice of faults, to few rules, to the most, and to nearly the most states."""
    for place in range(96):
        base = [0, 0, 1, 2, 2, 2][place % 6]
        t, n, rules = base_grammar(rng, base)
        session = begun(rng, t, n, rules)
        for _ in range(64 if base else 40):
            entries = faulty_rule(rng, t, n, rules, rng.randrange(64))
            session.take(add_entries(rng.choice([entries, with_more(rng, entries)])))
            draft = session.draft
            assert draft is not None
            if len(draft.rules) > len(rules) + (base == 0) * 8:
                session.take(withdraw(len(draft.rules)))
            if rng.randrange(12) == 0:
                session.take(add_entries(rng.choice([(), (), (S,)])))
        yield session.case()


def by_one_state(rng: Rng) -> Iterator[Case]:
    """Added rules that reach 1,024 states, and that pass them by one and more."""
    for _ in range(30):
        t, n, rules = large_grammar(rng, 150 + rng.randrange(100), MAX_STATES)
        session = begun(rng, t, n, rules)
        for _ in range(8):
            draft = session.draft
            assert draft is not None and draft.rules
            session.take(withdraw(1 + rng.randrange(len(draft.rules))))
            assert session.draft is not None
            free = MAX_STATES - states_of(session.draft.rules) - 1
            for k in (free + 1, free + 2, free, 0):
                if 0 <= k <= MAX_LENGTH:
                    session.take(add(*flat(random_rule(rng, t, n, k))))
            session.take(mark(1 + rng.randrange(MARKS)))
        session.steps += TELL
        yield session.case(some_size(rng))


def both_limits(rng: Rng) -> Iterator[Case]:
    """400 rules and 1,024 states: a rule is withdrawn, and one with as many codes, or others, is added."""
    for _ in range(12):
        t, n, rules = large_grammar(rng, MAX_RULES, MAX_STATES)
        session = begun(rng, t, n, rules)
        for _ in range(6):
            number = 1 + rng.randrange(MAX_RULES)
            assert session.draft is not None
            k = len(session.draft.rules[number - 1][1])
            session.take(mark(1 + rng.randrange(MARKS)))
            session.take(withdraw(number))
            for length in (k + 1, k, k):
                session.take(add(*flat(random_rule(rng, t, n, length))))
            for step in TELL:
                session.take(step)
            session.take(back(rng.choice(set_marks(session.draft))))
            session.take(add_entries(()))
        yield session.case(some_size(rng))


def numbers(rng: Rng) -> Iterator[Case]:
    """Each number on either side of those of the marks and the rules, and far larger ones."""
    large = [2 ** 16, 2 ** 16 + 1, 2 ** 16 + 8, 2 ** 31, 2 ** 32, 2 ** 32 + 1, 2 ** 32 + 9, 2 ** 63, 2 ** 63 + 1,
             LAST - 1, LAST]
    for start in (small_grammar(rng, 5), (0, 1, []), (2, 2, [(S, (a,))]), large_grammar(rng, MAX_RULES, 900)):
        session = begun(rng, *start)
        for number in list(range(12)) + large:
            for step in (mark(number), back(number)):
                session.take(step)
            session.take(withdraw(number))
            session.take(back(3))
        count = len(start[2])
        for number in (count, count + 1, count + 2, count + 2 ** 16, count + 2 ** 32, 0, *large):
            session.take(withdraw(number))
            session.take(back(1))
        yield session.case(some_size(rng))


def eight_marks(rng: Rng) -> Iterator[Case]:
    """All eight marks set, in any order, and returned to in any order, with edits between."""
    for place in range(60):
        start = large_grammar(rng, MAX_RULES, MAX_STATES) if place % 20 == 0 else small_grammar(rng, 6)
        session = begun(rng, *start)
        for number in rng.sample(range(1, 1 + MARKS), MARKS):
            session.take(back(number))
            session.take(mark(number))
            edit(session)
        for number in rng.choices(range(1, 1 + MARKS), k=20):
            session.take(back(number))
            session.take(rng.choice(TELL))
            edit(session)
            if rng.randrange(4) == 0:
                session.take(mark(1 + rng.randrange(MARKS)))
        for number in range(1, 1 + MARKS):
            session.take(back(number))
            session.take(Step(TABLE))
        session.take(new(*start[:2], ()))
        for number in range(1, 1 + MARKS):
            session.take(back(number))
        yield session.case(some_size(rng))


GROUPS: List[Callable[[Rng], Iterator[Case]]] = [
    by_hand, small, larger, at_limits, filled_up, wide, new_drafts, faulty_adds, by_one_state, both_limits, numbers,
    eight_marks, garbage, block_edges, damaged, damaged_marks, lent_otherwise,
]


def all_cases() -> Iterator[Case]:
    return cases_of(GROUPS, SEED)
