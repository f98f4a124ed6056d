"""What document 02's [13] could be taken for.

A misreading changes a part of `Reading`. A history in which it answers otherwise somewhere, or
has other rules before a call, tells it from [13]. `ROWS` are about the entries of a row alone.
"""

from typing import Callable, Dict, Iterable, List, Optional, Sequence, Set, Type

from draft_lists import Answer, Reading, Seen, added_one_by_one
from drafts import (
    BLOCK, ENTRIES, MARK, MARKS, NEW, NOT_PRESENT, RETURN, ROW_TOO_SHORT, WITHDRAW, Step, block_place, rules_in,
)
from tables import (
    EQUAL_RULE, MAX_LENGTH, MAX_NONTERMINALS, MAX_RULES, MAX_STATES, MAX_TERMINALS, NO_SENTENCE, TABLE_ENDS,
    TOO_MANY_STATES, Codes, Refusal, RuleCodes, has_sentence,
)


# Marks.

class Clears(Reading):
    def back(self, number: int) -> Optional[Refusal]:
        fault = super().back(number)
        if fault is None:
            self.marks = {}
        return fault


class TakesTheMark(Reading):
    def back(self, number: int) -> Optional[Refusal]:
        fault = super().back(number)
        self.marks.pop(number, None)
        return fault


class ForgetsLater(Reading):
    """As where drafts are a stack: marks set behind the one that is returned to are gone."""

    def mark(self, number: int) -> Optional[Refusal]:
        self.marks.pop(number, None)        # to the end of the dictionary's order
        return super().mark(number)

    def back(self, number: int) -> Optional[Refusal]:
        fault = super().back(number)
        if fault is None:
            order = list(self.marks)
            self.marks = {other: self.marks[other] for other in order[:order.index(number) + 1]}
        return fault


class Shares(Reading):
    """A mark is the draft's own list from then on."""

    def mark(self, number: int) -> Optional[Refusal]:
        fault = super().mark(number)
        if fault is None:
            self.marks[number] = self.rules
        return fault


class SharesBack(Reading):
    """After a return the draft's list is that of the mark."""

    def back(self, number: int) -> Optional[Refusal]:
        fault = super().back(number)
        if fault is None:
            self.rules = self.marks[number]
        return fault


class OneMark(Reading):
    def mark(self, number: int) -> Optional[Refusal]:
        fault = super().mark(number)
        if fault is None:
            self.marks = {number: self.marks[number]}
        return fault


class KeepsTheFirst(Reading):
    def mark(self, number: int) -> Optional[Refusal]:
        return None if number in self.marks else super().mark(number)


class RefusesAgain(Reading):
    def mark(self, number: int) -> Optional[Refusal]:
        return self.missing(number) if number in self.marks else super().mark(number)


class EmptyIsNone(Reading):
    def back(self, number: int) -> Optional[Refusal]:
        if number in range(1, MARKS + 1) and number not in self.marks:
            self.rules = []
            return None
        return super().back(number)


class EmptyStays(Reading):
    def back(self, number: int) -> Optional[Refusal]:
        return None if number in range(1, MARKS + 1) and number not in self.marks else super().back(number)


class NoRulesIsEmpty(Reading):
    def back(self, number: int) -> Optional[Refusal]:
        return super().back(number) if self.marks.get(number) else self.missing(number)


class Mark0(Reading):
    def mark(self, number: int) -> Optional[Refusal]:
        if number == 0:
            self.marks[0] = list(self.rules)
            return None
        return super().mark(number)


class Mark9(Reading):
    def mark(self, number: int) -> Optional[Refusal]:
        if number == MARKS + 1:
            self.marks[number] = list(self.rules)
            return None
        return super().mark(number)


class FromMark0(Mark0):
    """Marks 0 to 7."""

    def mark(self, number: int) -> Optional[Refusal]:
        return self.missing(number) if number == MARKS else super().mark(number)


class LowBits(Reading):
    """Numbers are cut to 16 bits; a refusal tells them whole."""

    def take(self, step: Step, lent: int) -> Answer:
        if step.kind not in (WITHDRAW, MARK, RETURN):
            return super().take(step, lent)
        answer = super().take(step._replace(numbers=(step.numbers[0] % 2 ** 16,)), lent)
        return self.missing(step.numbers[0]) if isinstance(answer, Refusal) and answer.cause == NOT_PRESENT else answer


class LowWords(Reading):
    """The same with 32 bits."""

    def take(self, step: Step, lent: int) -> Answer:
        if step.kind not in (WITHDRAW, MARK, RETURN):
            return super().take(step, lent)
        answer = super().take(step._replace(numbers=(step.numbers[0] % 2 ** 32,)), lent)
        return self.missing(step.numbers[0]) if isinstance(answer, Refusal) and answer.cause == NOT_PRESENT else answer


class KeepsMarks(Reading):
    def forget(self) -> None:
        pass


class At0(Reading):
    def missing(self, number: int) -> Refusal:
        return Refusal(NOT_PRESENT, 0)


# Rules.

class Holes(Reading):
    """A withdrawn rule leaves its number to nobody. Here `rules` has None in its place."""

    def present(self) -> List[RuleCodes]:
        return [rule for rule in self.rules if rule is not None]

    def withdraw(self, number: int) -> Optional[Refusal]:
        if number == 0 or number > len(self.rules) or self.rules[number - 1] is None:
            return self.missing(number)
        self.rules[number - 1] = None       # type: ignore
        return None


class LastMoves(Reading):
    """The last rule takes the place of the withdrawn one."""

    def withdraw(self, number: int) -> Optional[Refusal]:
        if number == 0 or number > len(self.rules):
            return self.missing(number)
        self.rules[number - 1] = self.rules[-1]
        self.rules.pop()
        return None


class From0(Reading):
    def withdraw(self, number: int) -> Optional[Refusal]:
        if number >= len(self.rules):
            return self.missing(number)
        del self.rules[number]
        return None


class AddedInFront(Reading):
    def append(self, rule: RuleCodes) -> None:
        self.rules.insert(0, rule)


class OwnOffsets(Reading):
    """Offsets of an added rule are counted from its own begin."""

    def add(self, entries: Codes) -> Optional[Refusal]:
        fault = super().add(entries)
        return None if fault is None else fault._replace(position=fault.position - self.entries())


class NeedsSentence(Reading):
    """19, as for a grammar that is checked."""

    def new(self, t: int, n: int, table: Codes, lent: int) -> Optional[Refusal]:
        rules = added_one_by_one(t, n, table)
        if not isinstance(rules, Refusal) and not has_sentence(rules):
            return Refusal(NO_SENTENCE, 0)
        return super().new(t, n, table, lent)


class AddedNeedsSentence(Reading):
    """The same for the draft with the added rule."""

    def add(self, entries: Codes) -> Optional[Refusal]:
        fault = self.fault(entries)
        if fault is None and not has_sentence(self.rules + [(entries[0], entries[2:2 + entries[1]])]):
            return Refusal(NO_SENTENCE, 0)
        return super().add(entries)


class WithdrawalNeedsSentence(Reading):
    """The same for the draft without the withdrawn rule."""

    def withdraw(self, number: int) -> Optional[Refusal]:
        if 1 <= number <= len(self.rules) and not has_sentence(self.rules[:number - 1] + self.rules[number:]):
            return Refusal(NO_SENTENCE, 0)
        return super().withdraw(number)


class NeedsRules(Reading):
    """A table without entries ends inside a rule."""

    def new(self, t: int, n: int, table: Codes, lent: int) -> Optional[Refusal]:
        fault = super().new(t, n, table, lent)
        return Refusal(TABLE_ENDS, 0) if fault is None and not table else fault


class ShortFirst(Reading):
    """14 before the table's faults."""

    def new(self, t: int, n: int, table: Codes, lent: int) -> Optional[Refusal]:
        return Refusal(ROW_TOO_SHORT, 0) if lent < ENTRIES else super().new(t, n, table, lent)


class AllAdded(Reading):
    """What stands behind an added rule is added too, as far as it is whole and right."""

    def add(self, entries: Codes) -> Optional[Refusal]:
        fault = super().add(entries)
        if fault is None:
            rest = entries[2 + entries[1]:]
            while rest and super().add(rest) is None:
                rest = rest[2 + rest[1]:]
        return fault


class NothingBehind(Reading):
    """What stands behind an added rule is refused as a rule that is cut."""

    def add(self, entries: Codes) -> Optional[Refusal]:
        fault = self.fault(entries)
        if fault is None and len(entries) > 2 + entries[1]:
            return Refusal(TABLE_ENDS, self.entries())
        return super().add(entries)


class NothingIsAdded(Reading):
    """No entries are no rule, and nothing is added."""

    def add(self, entries: Codes) -> Optional[Refusal]:
        return super().add(entries) if entries else None


class CutFirst(Reading):
    """2 before 7 where no entries are added."""

    def add(self, entries: Codes) -> Optional[Refusal]:
        return super().add(entries) if entries else Refusal(TABLE_ENDS, self.entries())


class TriedAlone(Reading):
    """An added rule is tried as a table of its own."""

    def fault(self, entries: Codes) -> Optional[Refusal]:
        other = Reading()
        other.t, other.n = self.t, self.n
        fault = other.fault(entries)
        return None if fault is None else fault._replace(position=fault.position + self.entries())


class EqualIsDone(Reading):
    """A rule that is there already is passed over."""

    def add(self, entries: Codes) -> Optional[Refusal]:
        fault = super().add(entries)
        return None if fault is not None and fault.cause == EQUAL_RULE else fault


class WithdrawnCounts(Reading):
    """A rule that was ever withdrawn cannot be added again."""

    def __init__(self) -> None:
        super().__init__()
        self.gone: Set[RuleCodes] = set()

    def forget(self) -> None:
        super().forget()
        self.gone = set()

    def withdraw(self, number: int) -> Optional[Refusal]:
        if 1 <= number <= len(self.rules):
            self.gone.add(self.rules[number - 1])
        return super().withdraw(number)

    def known(self, rule: RuleCodes) -> bool:
        return super().known(rule) or rule in self.gone


class MarkedCounts(Reading):
    """A rule that a mark keeps cannot be added."""

    def known(self, rule: RuleCodes) -> bool:
        return super().known(rule) or any(rule in rules for rules in self.marks.values())


class StatesStay(Reading):
    """The states of a withdrawn rule stay counted."""

    def __init__(self) -> None:
        super().__init__()
        self.gone = 0

    def forget(self) -> None:
        super().forget()
        self.gone = 0

    def withdraw(self, number: int) -> Optional[Refusal]:
        if 1 <= number <= len(self.rules):
            self.gone += 1 + len(self.rules[number - 1][1])
        return super().withdraw(number)

    def fault(self, entries: Codes) -> Optional[Refusal]:
        fault = super().fault(entries)
        if fault is None and self.states() + self.gone + entries[1] + 1 > MAX_STATES:
            return Refusal(TOO_MANY_STATES, self.entries())
        return fault


class OneRuleMore(Reading):
    """A 401st rule passes."""

    def fault(self, entries: Codes) -> Optional[Refusal]:
        if len(self.present()) != MAX_RULES:
            return super().fault(entries)
        last = self.rules.pop()
        fault = super().fault(entries)
        self.rules.append(last)
        return fault


PLAIN: Dict[str, Type[Reading]] = {
    "returning-empties-all-marks": Clears,
    "returning-empties-that-mark": TakesTheMark,
    "returning-empties-later-marks": ForgetsLater,
    "marking-shares-the-rules": Shares,
    "returning-shares-the-rules": SharesBack,
    "marking-replaces-all-marks": OneMark,
    "marking-again-keeps-the-first": KeepsTheFirst,
    "marking-again-is-refused": RefusesAgain,
    "an-empty-mark-is-no-rules": EmptyIsNone,
    "an-empty-mark-is-returned-to-as-nothing": EmptyStays,
    "a-mark-without-rules-is-empty": NoRulesIsEmpty,
    "mark-0-is-taken": Mark0,
    "mark-9-is-taken": Mark9,
    "marks-are-numbered-from-0": FromMark0,
    "numbers-are-cut-to-16-bits": LowBits,
    "numbers-are-cut-to-32-bits": LowWords,
    "a-new-draft-keeps-the-marks": KeepsMarks,
    "23-is-at-0": At0,
    "a-withdrawal-leaves-a-hole": Holes,
    "the-last-rule-takes-the-place": LastMoves,
    "rules-are-numbered-from-0": From0,
    "a-rule-is-added-in-front": AddedInFront,
    "offsets-of-an-added-rule-begin-at-0": OwnOffsets,
    "a-new-draft-needs-a-sentence": NeedsSentence,
    "an-added-rule-needs-a-sentence": AddedNeedsSentence,
    "a-withdrawal-needs-a-sentence": WithdrawalNeedsSentence,
    "a-new-draft-needs-rules": NeedsRules,
    "14-comes-before-the-table": ShortFirst,
    "entries-behind-an-added-rule-are-added": AllAdded,
    "entries-behind-an-added-rule-are-refused": NothingBehind,
    "adding-nothing-is-done": NothingIsAdded,
    "adding-nothing-is-2-before-7": CutFirst,
    "an-added-rule-is-tried-alone": TriedAlone,
    "an-equal-rule-is-passed-over": EqualIsDone,
    "a-withdrawn-rule-still-counts-for-6": WithdrawnCounts,
    "rules-of-marks-count-for-6": MarkedCounts,
    "withdrawn-states-still-count-for-8": StatesStay,
    "a-401st-rule-passes": OneRuleMore,
}

# Those that show where there are the most rules or states.
AT_LIMITS = ["adding-nothing-is-2-before-7", "withdrawn-states-still-count-for-8", "a-401st-rule-passes"]


# Entries of a row, as they are before a call.

Row = Sequence[int]
Rowed = Callable[[Row, Seen], bool]


def is_done(seen: Seen, *kinds: str) -> bool:
    """Whether it is a call of one of these kinds, and not refused."""
    return seen.step.kind in kinds and seen.reply.answer is None


def written_end(seen: Seen) -> int:
    """Where the table that a step writes ends."""
    place, entries = seen.reply.writes[-1]
    return place + len(entries)


def freed(seen: Seen) -> int:
    """The entries of the rule that is withdrawn."""
    assert seen.rules is not None
    return 2 + len(seen.rules[seen.step.numbers[0] - 1][1])


def rest_moves(row: Row, seen: Seen) -> bool:
    """A withdrawal moves what stands behind the table too, up to the block's end."""
    if not is_done(seen, WITHDRAW):
        return False
    end, block_end = written_end(seen), block_place(1)
    return row[end:block_end - freed(seen)] != row[end + freed(seen):block_end]


def freed_is_cleared(row: Row, seen: Seen) -> bool:
    """What a withdrawal frees becomes 0."""
    return is_done(seen, WITHDRAW) and any(row[written_end(seen):written_end(seen) + freed(seen)])


def block_copied(row: Row, seen: Seen) -> bool:
    """Marking and returning copy a whole block."""
    if not is_done(seen, MARK, RETURN):
        return False
    used = written_end(seen) - seen.reply.writes[0][0]
    draft, mark = block_place(0), block_place(seen.step.numbers[0])
    return row[draft + used:draft + BLOCK] != row[mark + used:mark + BLOCK]


def marks_cleared(row: Row, seen: Seen) -> bool:
    """A new draft leaves 0 in all entries of the marks' blocks."""
    return is_done(seen, NEW) and any(
        any(row[block_place(mark) + 1:block_place(mark + 1)]) for mark in range(1, 1 + MARKS))


def rest_cleared(row: Row, seen: Seen) -> bool:
    """A new draft leaves 0 behind its table."""
    return is_done(seen, NEW) and any(row[3 + len(seen.step.entries):block_place(1)])


def whole_row_cleared(row: Row, seen: Seen) -> bool:
    """A new draft leaves 0 behind the last block."""
    return is_done(seen, NEW) and any(row[ENTRIES:seen.lent])


def less_is_enough(row: Row, seen: Seen) -> bool:
    """A row is long enough as far as its blocks are used."""
    if seen.reply.answer != (ROW_TOO_SHORT, 0) or seen.lent < block_place(1):
        return False
    return seen.step.kind == NEW or rules_in(row, 0) is not None


def head_decides(row: Row, seen: Seen) -> bool:
    """A mark is empty by its first entry alone."""
    if seen.step.kind != RETURN or seen.rules is None or seen.reply.answer is None:
        return False
    number, = seen.step.numbers
    return 1 <= number <= MARKS and row[block_place(number)] != 0


def all_marks_tried(row: Row, seen: Seen) -> bool:
    """A row with a mark that is not empty and holds no rules holds no draft."""
    if seen.known or seen.step.kind == NEW or seen.rules is None:
        return False
    return any(row[block_place(mark)] != 0 and rules_in(row, mark) is None for mark in range(1, 1 + MARKS))


def number_first(row: Row, seen: Seen) -> bool:
    """An unknown mark comes before a row that is too short, or holds no draft."""
    if seen.step.kind not in (MARK, RETURN) or seen.rules is not None:
        return False
    number, = seen.step.numbers
    return not 1 <= number <= MARKS and seen.reply.answer != (NOT_PRESENT, number)


def taken_as_draft(seen: Seen) -> bool:
    """Whether a call other than a new draft reads a draft."""
    return seen.step.kind != NEW and seen.rules is not None


def symbols_tried(row: Row, seen: Seen) -> bool:
    """A row with a t or n out of range holds no draft."""
    return taken_as_draft(seen) and not (row[0] <= MAX_TERMINALS and 1 <= row[1] <= MAX_NONTERMINALS)


def rules_counted(row: Row, seen: Seen) -> bool:
    """A block with more than 400 rules holds none."""
    return taken_as_draft(seen) and len(seen.rules or ()) > MAX_RULES


def lengths_tried(row: Row, seen: Seen) -> bool:
    """A block with a length above 12 holds no rules."""
    return taken_as_draft(seen) and any(len(right) > MAX_LENGTH for _, right in seen.rules or ())


def equal_tried(row: Row, seen: Seen) -> bool:
    """A block with equal rules holds none."""
    return taken_as_draft(seen) and len(set(seen.rules or ())) < len(seen.rules or ())


ROWS: Dict[str, Rowed] = {
    "a-withdrawal-moves-what-is-behind-the-table": rest_moves,
    "a-withdrawal-clears-what-it-frees": freed_is_cleared,
    "marking-and-returning-copy-the-whole-block": block_copied,
    "a-new-draft-clears-the-marks-blocks": marks_cleared,
    "a-new-draft-clears-behind-its-table": rest_cleared,
    "a-new-draft-clears-behind-the-last-block": whole_row_cleared,
    "a-row-needs-only-what-is-used": less_is_enough,
    "a-mark-is-empty-by-its-first-entry-alone": head_decides,
    "a-damaged-mark-makes-the-row-no-draft": all_marks_tried,
    "an-unknown-mark-comes-before-the-row": number_first,
    "a-draft-is-none-with-t-or-n-out-of-range": symbols_tried,
    "a-draft-is-none-with-more-than-400-rules": rules_counted,
    "a-draft-is-none-with-a-length-above-12": lengths_tried,
    "a-draft-is-none-with-equal-rules": equal_tried,
}

TOLD = {name: "told-from-" + name for name in [*PLAIN, *ROWS]}


def told_row(row: Row, seen: Seen, names: Iterable[str]) -> List[str]:
    """Of these misreadings of rows those in which a call leaves other entries, or answers otherwise."""
    return [name for name in names if ROWS[name](row, seen)]
