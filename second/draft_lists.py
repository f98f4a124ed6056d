"""Document 02's [13] once more, apart from drafts.py: lists of rules that are changed in place, and no row.

Every answer of a case is compared with that of `Reading`, as long as a new draft was made and
nothing but calls came after it. draft_misreadings.py changes parts of it.
"""

from functools import lru_cache
from typing import Dict, List, NamedTuple, Optional, Sequence, Type, Union

from drafts import (
    ADD, COUNTS, ENTRIES, MARK, MARKS, NEW, NOT_PRESENT, RETURN, ROW_TOO_SHORT, TABLE, WITHDRAW, Counted, Place,
    Reply, Rules, Step, Write,
)
from tables import (
    BAD_LEFT, BAD_RIGHT, EQUAL_RULE, MAX_LENGTH, MAX_NONTERMINALS, MAX_RULES, MAX_STATES, MAX_TERMINALS,
    OUT_OF_RANGE, START, TABLE_ENDS, TOO_LONG, TOO_MANY_RULES, TOO_MANY_STATES, Codes, Refusal, RuleCodes,
)

Answer = Union[Refusal, Counted, Place, None]


class Seen(NamedTuple):
    """A call of a history: entries lent, the draft's rules before if there is one, the reply, what changed.

    `known` says that a new draft was made and nothing else was put into the row since.
    """

    step: Step
    lent: int
    rules: Optional[Rules]
    known: bool
    reply: Reply
    changed: List[Write]


class Reading:
    """[13] over lists. It begins with the first new draft that is done."""

    def __init__(self) -> None:
        self.t = self.n = 0
        self.rules: List[RuleCodes] = []
        self.marks: Dict[int, List[RuleCodes]] = {}

    def present(self) -> List[RuleCodes]:
        """The rules, one after another."""
        return self.rules

    def entries(self) -> int:
        return sum(2 + len(right) for _, right in self.present())

    def states(self) -> int:
        return 4 + sum(1 + len(right) for _, right in self.present())

    def fault(self, entries: Codes) -> Optional[Refusal]:
        """What speaks against the rule in front of these entries, as one more rule."""
        end = self.entries()
        if len(self.present()) > MAX_RULES - 1:
            return Refusal(TOO_MANY_RULES, end)
        if len(entries) < 2:
            return Refusal(TABLE_ENDS, end)
        if entries[0] not in range(START, START + self.n):
            return Refusal(BAD_LEFT, end)
        if entries[1] > MAX_LENGTH:
            return Refusal(TOO_LONG, end)
        if len(entries) < 2 + entries[1]:
            return Refusal(TABLE_ENDS, end)
        for place in range(2, 2 + entries[1]):
            if entries[place] not in range(1, self.t + 1) and entries[place] not in range(START, START + self.n):
                return Refusal(BAD_RIGHT, end + place)
        if self.known((entries[0], entries[2:2 + entries[1]])):
            return Refusal(EQUAL_RULE, end)
        if self.states() + entries[1] + 1 > MAX_STATES:
            return Refusal(TOO_MANY_STATES, end)
        return None

    def known(self, rule: RuleCodes) -> bool:
        return rule in self.present()

    def append(self, rule: RuleCodes) -> None:
        self.rules.append(rule)

    def new(self, t: int, n: int, table: Codes, lent: int) -> Optional[Refusal]:
        """A table is that of its rules, added one by one."""
        rules = added_one_by_one(t, n, table)
        if isinstance(rules, Refusal):
            return rules
        if lent < ENTRIES:
            return Refusal(ROW_TOO_SHORT, 0)
        self.t, self.n, self.rules = t, n, list(rules)
        self.forget()
        return None

    def forget(self) -> None:
        """The marks of a new draft."""
        self.marks = {}

    def add(self, entries: Codes) -> Optional[Refusal]:
        fault = self.fault(entries)
        if fault is None:
            self.append((entries[0], entries[2:2 + entries[1]]))
        return fault

    def withdraw(self, number: int) -> Optional[Refusal]:
        if number == 0 or number > len(self.rules):
            return self.missing(number)
        del self.rules[number - 1]
        return None

    def missing(self, number: int) -> Refusal:
        return Refusal(NOT_PRESENT, number)

    def mark(self, number: int) -> Optional[Refusal]:
        if number not in range(1, MARKS + 1):
            return self.missing(number)
        self.marks[number] = list(self.rules)
        return None

    def back(self, number: int) -> Optional[Refusal]:
        if number not in self.marks:
            return self.missing(number)
        self.rules = list(self.marks[number])
        return None

    def take(self, step: Step, lent: int) -> Answer:
        """The answer to a call."""
        if step.kind == NEW:
            return self.new(*step.numbers, step.entries, lent)
        if lent < ENTRIES:
            return Refusal(ROW_TOO_SHORT, 0)
        if step.kind == ADD:
            return self.add(step.entries)
        if step.kind == COUNTS:
            return Counted(self.t, self.n, len(self.present()), self.entries(), self.states())
        if step.kind == TABLE:
            return Place(3, self.entries())
        return {WITHDRAW: self.withdraw, MARK: self.mark, RETURN: self.back}[step.kind](step.numbers[0])


@lru_cache(maxsize=64)
def added_one_by_one(t: int, n: int, table: Codes) -> Union[Rules, Refusal]:
    """The rules of a table, each tried as one that is added."""
    if t > MAX_TERMINALS or n < 1 or n > MAX_NONTERMINALS:
        return Refusal(OUT_OF_RANGE, 0)
    reading = Reading()
    reading.t, reading.n = t, n
    while table:
        fault = reading.add(table)
        if fault is not None:
            return fault
        table = table[2 + table[1]:]
    return tuple(reading.rules)


def parts(made: Type[Reading], history: Sequence[Seen]) -> bool:
    """Whether a reading answers otherwise somewhere, or has other rules before a call."""
    reading: Optional[Reading] = None
    for seen in history:
        if not seen.known:
            reading = None
        if reading is not None and seen.rules is not None and tuple(reading.present()) != seen.rules:
            return True
        if reading is None and (seen.step.kind != NEW or seen.reply.answer is not None):
            continue
        if reading is None:
            reading = made()
        if reading.take(seen.step, seen.lent) != seen.reply.answer:
            return True
    return False
