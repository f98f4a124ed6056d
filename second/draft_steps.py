"""The steps of the cases of document 02's [13], and random histories of them.

A case is a history: a row that is lent, what it holds before, and steps on it, one after
another. Beside the calls two steps stand for what others do: entries are put into the row, or
another number of its entries is lent from then on.
"""

from typing import Dict, List, NamedTuple, Optional, Sequence, Tuple

from case_files import LAST, Rng
from drafts import (
    ADD, CALLS, COUNTS, ENTRIES, MARK, MARKS, NEW, RETURN, TABLE, WITHDRAW, Draft, Step, new_draft, table_of, taken,
)
from random_tables import Rule, S, faulty_rule, random_entries, random_rule
from tables import MAX_ENTRY, MAX_NONTERMINALS, MAX_TERMINALS, Codes, Refusal
from tree_inputs import held_before

PUT, LEND = "put", "lend"
KINDS = CALLS + [PUT, LEND]
MAX_SIZE = 2 * ENTRIES         # entries of the longest row of a case
MAX_GIVEN = 4000               # of a table, an added rule, or what is put into a row
MAX_STEPS = 20000              # of a case


class Case(NamedTuple):
    """The row's entries, the byte by which it is filled before, and the steps."""

    size: int
    fill: int
    steps: Tuple[Step, ...]


def entry_before(fill: int, place: int) -> int:
    """What an entry of a row holds before, by the same bytes as for the list of [12]."""
    return held_before(fill, place) % (MAX_ENTRY + 1)


# Steps.

def new(t: int, n: int, table: Codes) -> Step:
    return Step(NEW, (t, n), table)


def add(left: int, *right: int) -> Step:
    """Adds a rule."""
    return Step(ADD, (), (left, len(right), *right))


def add_entries(entries: Codes) -> Step:
    return Step(ADD, (), entries)


def withdraw(number: int) -> Step:
    return Step(WITHDRAW, (number,))


def mark(number: int) -> Step:
    return Step(MARK, (number,))


def back(number: int) -> Step:
    """Returns to a mark."""
    return Step(RETURN, (number,))


def put(place: int, *entries: int) -> Step:
    return Step(PUT, (place,), entries)


def lend(entries: int) -> Step:
    return Step(LEND, (entries,))


TELL = [Step(COUNTS), Step(TABLE)]


# Histories.

class Session:
    """The steps of a history, with the draft that they lead to; None as long as there is none."""

    def __init__(self, rng: Rng) -> None:
        self.rng = rng
        self.steps: List[Step] = []
        self.draft: Optional[Draft] = None

    def take(self, step: Step) -> None:
        self.steps.append(step)
        if step.kind == NEW:
            found = new_draft(*step.numbers, step.entries)
            self.draft = self.draft if isinstance(found, Refusal) else found
        elif self.draft is not None and step.kind in (ADD, WITHDRAW, MARK, RETURN):
            after = taken(self.draft, step)
            self.draft = self.draft if isinstance(after, Refusal) else after

    def case(self, size: int = ENTRIES, fill: Optional[int] = None) -> Case:
        """The history, on a row of so many entries."""
        return Case(size, some_fill(self.rng) if fill is None else fill, tuple(self.steps))


def some_fill(rng: Rng) -> int:
    """What a row holds before: 0, the same small number, the largest, a mixture."""
    return rng.choice([0, 1, 2, 3, 255, 255, 7, 30, 62, 94, rng.randrange(4, 255)])


def some_size(rng: Rng) -> int:
    """Mostly exactly the entries that are needed, or more."""
    return ENTRIES + rng.choice([0, 0, 0, 1, 2, 17, rng.randrange(600)])


# What steps are given.

def good_rule(rng: Rng, draft: Draft, lengths: Sequence[int]) -> Rule:
    """A rule of one of these lengths that mostly is another than the draft's."""
    for _ in range(4):
        rule = random_rule(rng, draft.t, draft.n, rng.choice(lengths))
        if rule not in draft.rules:
            break
    return rule


def with_more(rng: Rng, entries: Codes) -> Codes:
    """The same, often with entries behind: any, a whole rule, or the same rule again."""
    kind = rng.randrange(6)
    if kind == 0:
        return entries + random_entries(rng, 1 + rng.randrange(5))
    return entries + ((S, 0) if kind == 1 else entries if kind == 2 else ())


def bad_add(rng: Rng, draft: Draft) -> Codes:
    """What mostly is at fault: an equal rule, a rule with one or two faults, too few entries, anything."""
    t, n = min(draft.t, MAX_TERMINALS - 1), min(draft.n, MAX_NONTERMINALS - 1)
    kind = rng.randrange(8)
    if kind == 0:
        return ()
    if kind == 1 and draft.rules:
        left, right = rng.choice(draft.rules)
        return with_more(rng, (left, len(right), *right))
    if kind == 2:
        return random_entries(rng, rng.randrange(6))
    faults = 1 << rng.randrange(6)
    if kind > 5:
        faults |= 1 << rng.randrange(6)
    return faulty_rule(rng, t, n, draft.rules, faults)


def past(rng: Rng, most: int) -> int:
    """A number that is none of 1 to `most`: 0, one past, somewhat more, with low bits that pass, the largest."""
    low = 1 + rng.randrange(most) if most else 0
    return rng.choice([0, 0, most + 1, most + 1, most + 2, most + 1 + rng.randrange(99), 2 ** 16 + low, 2 ** 32 + low,
                       2 ** 63 + low, LAST, LAST - rng.randrange(9), rng.randrange(most + 1, LAST)])


def set_marks(draft: Draft) -> List[int]:
    return [place + 1 for place, rules in enumerate(draft.marks) if rules is not None]


def empty_marks(draft: Draft) -> List[int]:
    return [place + 1 for place, rules in enumerate(draft.marks) if rules is None]


# Chances of a random step.
CHANCES: Dict[str, int] = {
    "add": 30, "bad-add": 12, "withdraw": 16, "bad-withdraw": 5, "mark": 12, "bad-mark": 3, "return": 11,
    "return-empty": 3, "bad-return": 3, "tell": 3, "new": 1, "bad-new": 1, "short": 1,
}
NAMES, WEIGHTS = list(CHANCES), list(CHANCES.values())


def random_step(session: Session, lengths: Sequence[int], size: int) -> None:
    """A step of a draft, mostly one that is done. A row of so many entries is lent but for a while."""
    rng, draft = session.rng, session.draft
    assert draft is not None
    name, = rng.choices(NAMES, WEIGHTS)
    if name == "add":
        left, right = good_rule(rng, draft, lengths)
        session.take(add_entries(with_more(rng, (left, len(right), *right))))
    elif name == "bad-add":
        session.take(add_entries(bad_add(rng, draft)))
    elif name == "withdraw" and draft.rules:
        count = len(draft.rules)
        session.take(withdraw(rng.choice([1, count, 1 + rng.randrange(count), 1 + rng.randrange(count)])))
    elif name in ("withdraw", "bad-withdraw"):
        session.take(withdraw(past(rng, len(draft.rules))))
    elif name == "mark":
        session.take(mark(1 + rng.randrange(MARKS)))
    elif name == "bad-mark":
        session.take(mark(past(rng, MARKS)))
    elif name == "return" and set_marks(draft):
        session.take(back(rng.choice(set_marks(draft))))
    elif name == "return-empty" and empty_marks(draft):
        session.take(back(rng.choice(empty_marks(draft))))
    elif name in ("return", "return-empty", "bad-return"):
        session.take(back(past(rng, MARKS)))
    elif name == "tell":
        session.take(rng.choice(TELL))
    elif name == "new":
        session.take(new(draft.t, draft.n, table_of(draft.rules[rng.randrange(1 + len(draft.rules)):])))
    elif name == "bad-new":
        session.take(new(draft.t, draft.n, table_of(draft.rules[:9]) + bad_add(rng, draft)))
    else:
        lent_less(session, size)


def lent_less(session: Session, size: int) -> None:
    """Calls for which fewer entries of the row are lent than are needed; then all are lent again."""
    rng, before = session.rng, session.draft
    session.steps.append(lend(rng.choice([ENTRIES - 1, ENTRIES - 1, 0, 1, 2, rng.randrange(ENTRIES)])))
    for _ in range(1 + rng.randrange(3)):
        session.steps.append(any_step(rng, before))
    session.steps.append(lend(size))


def any_step(rng: Rng, draft: Optional[Draft], kinds: Sequence[str] = CALLS) -> Step:
    """A call of any kind, for rows of which no draft is known; what is given mostly is right for this one."""
    t, n, rules = (2, 2, ()) if draft is None else draft[:3]
    like = Draft(t, n, rules, ())
    kind = rng.choice(kinds)
    if kind == NEW:
        table = table_of(rules[:5]) + (bad_add(rng, like) if rng.randrange(2) else ())
        return new(rng.choice([t, t, 2001]), n, table)
    if kind == ADD:
        return add_entries(some_entries(rng, like))
    if kind == WITHDRAW:
        return withdraw(rng.choice([1, 1, 2, 1 + rng.randrange(9), past(rng, len(rules))]))
    if kind in (MARK, RETURN):
        return Step(kind, (rng.choice([1 + rng.randrange(MARKS)] * 5 + [past(rng, MARKS)]),))
    return Step(kind)


def some_entries(rng: Rng, like: Draft) -> Codes:
    """What is added, at fault or not."""
    if rng.randrange(3) == 0:
        return bad_add(rng, like)
    left, right = random_rule(rng, like.t, like.n, rng.randrange(5))
    return with_more(rng, (left, len(right), *right))


def begun(rng: Rng, t: int, n: int, rules: Sequence[Rule]) -> Session:
    """A history that begins with these rules."""
    session = Session(rng)
    session.take(new(t, n, table_of(rules)))
    assert session.draft is not None
    return session


def random_history(rng: Rng, start: Tuple[int, int, Sequence[Rule]], steps: int, lengths: Sequence[int]) -> Case:
    """So many random steps and the readings behind them."""
    session, size = begun(rng, *start), some_size(rng)
    for _ in range(steps):
        random_step(session, lengths, size)
    session.steps += TELL
    return session.case(size)


def flat(rule: Rule) -> Tuple[int, ...]:
    """What `add` takes of a rule."""
    left, right = rule
    return (left, *right)


def edit(session: Session) -> None:
    """A rule more or less."""
    draft = session.draft
    assert draft is not None
    if draft.rules and session.rng.randrange(2):
        session.take(withdraw(1 + session.rng.randrange(len(draft.rules))))
    else:
        session.take(add(*flat(good_rule(session.rng, draft, [0, 1, 2, 3, 4]))))
