"""A draft of a grammar while it is edited, with its marks: document 02, [13].

First over plain values, beside the paper: a draft is t, n, the rules and eight marks, and a
step gives another draft or a refusal. Then over a row of 16-bit entries, in which the library
keeps a draft: which rows hold one, and what each call leaves in every entry.
"""

from itertools import chain
from typing import Iterable, List, MutableSequence, NamedTuple, Optional, Sequence, Tuple, Union

from tables import (
    FIXED_STATES, HEADER, MAX_RULES, MAX_STATES, TOO_MANY_RULES, Codes, Refusal, RuleCodes, check_rule, check_rules,
    codes_of,
)

MARKS = 8                 # "Eight marks, 1 to 8"
ROW_TOO_SHORT = 14        # "a lent output or work row too short", document 01
NOT_PRESENT = 23          # "An unknown mark, a return to an empty mark, or a rule number not present"

# The calls: the first four are the steps of a draft.
ADD, WITHDRAW, MARK, RETURN = "add", "withdraw", "mark", "return"
NEW, COUNTS, TABLE = "new", "counts", "table"
STEPS = [ADD, WITHDRAW, MARK, RETURN]
CALLS = [NEW] + STEPS + [COUNTS, TABLE]

Rules = Tuple[RuleCodes, ...]


class Step(NamedTuple):
    """A call. Its numbers are t and n, or that of a rule or a mark; its entries a table, or an added rule's."""

    kind: str
    numbers: Tuple[int, ...] = ()
    entries: Codes = ()


# A draft, as the paper has it.

class Draft(NamedTuple):
    """t and n, the rules, and by mark, from 1, the rules that it keeps; None is an empty mark."""

    t: int
    n: int
    rules: Rules
    marks: Tuple[Optional[Rules], ...]


def table_of(rules: Iterable[RuleCodes]) -> Codes:
    """The table of these rules: "Rules lie end to end"."""
    return tuple(chain.from_iterable((left, len(right), *right) for left, right in rules))


def states_of(rules: Iterable[RuleCodes]) -> int:
    """"Q is 4 plus the sum of (k+1)"."""
    return FIXED_STATES + sum(len(right) + 1 for _, right in rules)


def new_draft(t: int, n: int, table: Codes) -> Union[Draft, Refusal]:
    """"A new draft begins from t, n and a table, perhaps without rules"; its marks are "all empty".

    The table is "tried against the table order, [...] except that a draft may lack sentences
    until it is checked": 1 to 8, and never 19.
    """
    grammar = check_rules(t, n, table)
    if isinstance(grammar, Refusal):
        return grammar
    return Draft(t, n, tuple(codes_of(grammar)), (None,) * MARKS)


def added(t: int, n: int, rules: Rules, entries: Codes) -> Union[Rules, Refusal]:
    """The rules with one "added at the end", or the first fault of that one.

    "the added rule's offsets counted on from the end of the draft's table"; "Entries past an
    added rule's last code are not read". The rules are not tried again: rows that no new
    draft made can have more of them, and equal ones.
    """
    table = table_of(rules)
    if len(rules) >= MAX_RULES:
        return Refusal(TOO_MANY_RULES, len(table))
    rule = check_rule(t, n, table + entries, len(table), set(rules), states_of(rules))
    return rule if isinstance(rule, Refusal) else (*rules, (rule.left, rule.right))


def withdrawn(rules: Rules, number: int) -> Union[Rules, Refusal]:
    """"A withdrawal moves later rules down by one number"; rules are "numbered from 1"."""
    if not 1 <= number <= len(rules):
        return Refusal(NOT_PRESENT, number)
    return rules[:number - 1] + rules[number:]


def is_mark(number: int) -> bool:
    return 1 <= number <= MARKS


def taken(draft: Draft, step: Step) -> Union[Draft, Refusal]:
    """The draft after a step, or its refusal, "the number given being its position"."""
    if step.kind == ADD:
        rules = added(draft.t, draft.n, draft.rules, step.entries)
        return rules if isinstance(rules, Refusal) else draft._replace(rules=rules)
    number, = step.numbers
    if step.kind == WITHDRAW:
        rules = withdrawn(draft.rules, number)
        return rules if isinstance(rules, Refusal) else draft._replace(rules=rules)
    if not is_mark(number):
        return Refusal(NOT_PRESENT, number)
    if step.kind == MARK:      # "marking again replaces that mark"
        return draft._replace(marks=(*draft.marks[:number - 1], draft.rules, *draft.marks[number:]))
    assert step.kind == RETURN
    kept = draft.marks[number - 1]
    if kept is None:
        return Refusal(NOT_PRESENT, number)
    return draft._replace(rules=kept)      # "restores those rules and leaves all marks in being"


def history(draft: Draft, steps: Iterable[Step]) -> Draft:
    """The draft after "any row of edits, marks and returns [...], refused steps changing nothing"."""
    for step in steps:
        after = taken(draft, step)
        if isinstance(after, Draft):
            draft = after
    return draft


# A row that holds a draft: entries 0 and 1 are t and n, then come a block for the draft's rules
# and one for those of each mark. A block's first entry is 0 for an empty mark, else one more
# than the number of rules; behind it stands their table.

SYMBOLS = 2                                  # t and n, in front of the blocks
BLOCK = 1 + MAX_RULES + MAX_STATES           # entries of a block
ENTRIES = SYMBOLS + (1 + MARKS) * BLOCK      # that a row must have; no further ones are read or written

Write = Tuple[int, Codes]                    # a place in a row, and what is written from there on


class Counted(NamedTuple):
    """What `counts` tells."""

    terminals: int
    nonterminals: int
    rules: int
    entries: int
    states: int


class Place(NamedTuple):
    """Where the draft's table stands in its row."""

    start: int
    entries: int


class Reply(NamedTuple):
    """The answer, None for a step that is done, and what is written into the row; all else stays."""

    answer: Union[Refusal, Counted, Place, None]
    writes: Tuple[Write, ...] = ()


def block_place(block: int) -> int:
    """Where the block of a mark begins; block 0 is the draft's."""
    return SYMBOLS + block * BLOCK


def rules_in(row: Sequence[int], block: int) -> Optional[Rules]:
    """The rules that a block holds: each must lie whole in it, by its length; None if there are none."""
    place = block_place(block)
    end = place + BLOCK
    if row[place] == 0:
        return None
    rules: List[RuleCodes] = []
    body = place + 1
    for _ in range(row[place] - 1):
        place = body
        if end - place < HEADER or end - place - HEADER < row[place + 1]:
            return None
        body = place + HEADER + row[place + 1]
        rules.append((row[place], tuple(row[place + HEADER:body])))
    return tuple(rules)


def draft_in(row: Sequence[int]) -> Optional[Draft]:
    """The draft that a row holds, or None. A mark whose block holds no rules is empty."""
    if len(row) < ENTRIES:
        return None
    rules = rules_in(row, 0)
    if rules is None:
        return None
    return Draft(row[0], row[1], rules, tuple(rules_in(row, mark) for mark in range(1, 1 + MARKS)))


def block_of(block: int, rules: Rules) -> Tuple[Write, ...]:
    """What is written so that a block holds these rules: its first entry and their table."""
    place = block_place(block)
    return (place, (len(rules) + 1,)), (place + 1, table_of(rules))


def call(row: Sequence[int], lent: int, step: Step) -> Reply:
    """What a call answers and writes that is lent so many entries of the row."""
    if step.kind == NEW:
        return call_new(lent, step)
    if lent < ENTRIES:
        return Reply(Refusal(ROW_TOO_SHORT, 0))
    rules = rules_in(row, 0)
    if rules is None:
        return Reply(Refusal(NOT_PRESENT, 0))
    if step.kind == COUNTS:
        return Reply(Counted(row[0], row[1], len(rules), len(table_of(rules)), states_of(rules)))
    if step.kind == TABLE:
        return Reply(Place(block_place(0) + 1, len(table_of(rules))))
    return call_step(row, rules, step)


def call_new(lent: int, step: Step) -> Reply:
    """A new draft: the table's faults, then 14; the marks' first entries are 0."""
    draft = new_draft(*step.numbers, step.entries)
    if isinstance(draft, Refusal):
        return Reply(draft)
    if lent < ENTRIES:
        return Reply(Refusal(ROW_TOO_SHORT, 0))
    empty = tuple((block_place(mark), (0,)) for mark in range(1, 1 + MARKS))
    return Reply(None, ((0, (draft.t, draft.n)), *block_of(0, draft.rules), *empty))


def call_step(row: Sequence[int], rules: Rules, step: Step) -> Reply:
    """A step of a draft that has these rules. The marks are not read but for the one that is returned to."""
    marks: List[Optional[Rules]] = [None] * MARKS
    if step.kind == RETURN and is_mark(step.numbers[0]):
        marks[step.numbers[0] - 1] = rules_in(row, step.numbers[0])
    after = taken(Draft(row[0], row[1], rules, tuple(marks)), step)
    if isinstance(after, Refusal):
        return Reply(after)
    if step.kind == MARK:
        return Reply(None, block_of(step.numbers[0], rules))
    return Reply(None, block_of(0, after.rules))


def write(row: MutableSequence[int], writes: Iterable[Write]) -> None:
    """Writes into a row."""
    for place, entries in writes:
        for offset, entry in enumerate(entries):
            row[place + offset] = entry


def changes(row: Sequence[int], writes: Iterable[Write]) -> List[Write]:
    """Of what is written the parts that differ: of each from its first changed entry to its last."""
    found = []
    for place, entries in writes:
        changed = [offset for offset, entry in enumerate(entries) if row[place + offset] != entry]
        if changed:
            found.append((place + changed[0], entries[changed[0]:changed[-1] + 1]))
    return found
