"""Sorts the calls of the cases of document 02's [13] by reasons finer than the causes.

Every reason but `told-from-` is counted for each call that meets it. Where a new draft was made
and nothing but steps came after it, each answer, and the rules before each call, are compared
with those of `Reading`, which keeps no row.
"""

from array import array
from functools import lru_cache
from typing import List, Optional, Sequence, Tuple

from draft_lists import Reading, Seen, parts
from draft_misreadings import AT_LIMITS, PLAIN, ROWS, TOLD, told_row
from draft_steps import LEND, MAX_SIZE, PUT, Case, entry_before
from drafts import (
    ADD, BLOCK, COUNTS, ENTRIES, MARK, MARKS, NEW, NOT_PRESENT, RETURN, ROW_TOO_SHORT, STEPS, TABLE, WITHDRAW, Draft,
    Rules, Step, block_place, call, changes, draft_in, history, new_draft, rules_in, states_of, table_of, write,
)
from table_reasons import PAIRS, TESTS, faults_of_rule
from tables import (
    EQUAL_RULE, HEADER, MAX_LENGTH, MAX_NONTERMINALS, MAX_RULES, MAX_STATES, MAX_TERMINALS, TABLE_ENDS, TOO_LONG,
    TOO_MANY_RULES, TOO_MANY_STATES, Codes, Grammar, Refusal, Rule, check_rules, has_sentence,
)

READINGS = [COUNTS, TABLE]
MOST_CALLS = 90           # of a history in which misreadings are looked at
MANY_RULES = 3000         # before all its calls together, for those that need no limit
NUMBERED = ["number-0", "one-past", "more", "low-16-bits-pass", "low-32-bits-pass", "the-largest"]

OF_ALL = [
    "calls",
    "as-the-history-gives",
    "on-exactly-the-entries",
    "on-a-longer-row",
]
OF_ROWS = ["%s-%s" % (kind, how) for kind in [NEW] + STEPS + READINGS for how in (
    "14-one-too-short", "14-no-entry", "14-shorter")]
OF_NONE = ["%s-23-%s" % (kind, how) for kind in STEPS + READINGS for how in (
    "no-draft-first-entry-0", "no-draft-not-whole")]
OF_NEW = [
    "new-done",
    "new-done-without-rules",
    "new-done-without-a-sentence",
    "new-done-400-rules",
    "new-done-1024-states",
    "new-done-2000-terminals",
    "new-done-2000-nonterminals",
    "new-done-over-a-draft",
    "new-done-over-set-marks",
    "new-done-over-no-draft",
    "new-1",
    "new-2-under-two-entries",
    "new-2-body-short",
    *("new-%d" % cause for cause in range(3, 9)),
    *("order-new-%d-before-14" % cause for cause in range(1, 9)),
]
OF_ADD = [
    "add-done",
    "add-done-entries-behind",
    "add-done-to-no-rules",
    "add-done-the-400th-rule",
    "add-done-to-1024-states",
    "add-done-to-both-limits",
    "add-done-without-a-sentence",
    "add-done-k-of-12",
    "add-done-code-2000",
    "add-done-code-34767",
    "add-7-nothing",
    "add-7-a-rule",
    "add-2-nothing",
    "add-2-one-entry",
    "add-2-body-short",
    "add-3",
    "add-4-k-of-13",
    "add-4-k-above-13",
    "add-5",
    "add-6-the-first-rule",
    "add-6-the-last-rule",
    "add-6-another-rule",
    "add-8-by-one-state",
    "add-8-by-more",
    *("add-%d-past-offset-0" % cause for cause in range(2, 9)),
    *("order-add-%s-before-%s" % pair for pair in PAIRS),
]
OF_WITHDRAW = [
    "withdraw-done",
    "withdraw-done-the-first",
    "withdraw-done-the-last",
    "withdraw-done-between",
    "withdraw-done-the-only-one",
    "withdraw-done-of-400-rules",
    "withdraw-done-of-1024-states",
    *("withdraw-23-" + how for how in NUMBERED),
    "withdraw-23-of-no-rules",
]
OF_MARK = [
    "mark-done",
    *("mark-done-%d" % number for number in range(1, 1 + MARKS)),
    "mark-done-an-empty-mark",
    "mark-done-again",
    "mark-done-again-with-fewer-entries",
    "mark-done-without-rules",
    "mark-done-400-rules",
    "mark-done-1024-states",
    "mark-done-both-limits",
    "mark-done-the-eighth-to-be-set",
    *("mark-23-" + how for how in NUMBERED),
]
OF_RETURN = [
    "return-done",
    *("return-done-%d" % number for number in range(1, 1 + MARKS)),
    "return-done-to-other-rules",
    "return-done-to-the-same-rules",
    "return-done-with-fewer-entries",
    "return-done-to-no-rules",
    "return-done-to-400-rules",
    "return-done-to-1024-states",
    "return-done-to-both-limits",
    "return-done-with-all-marks-set",
    "return-23-an-empty-mark",
    *("return-23-empty-%d" % number for number in range(1, 1 + MARKS)),
    "return-23-a-mark-that-is-not-whole",
    *("return-23-" + how for how in NUMBERED),
]
OF_READINGS = [
    "counts-done",
    "counts-done-without-rules",
    "counts-done-at-both-limits",
    "table-done",
    "table-done-without-rules",
    "table-done-at-both-limits",
]
# Rows that no new draft made, or with entries put into them since.
OF_OTHERS = ["%s-done-of-another-row" % kind for kind in STEPS + READINGS] + [
    "add-refused-of-another-row",
    "another-row-more-than-400-rules",
    "another-row-past-1024-states",
    "another-row-a-length-above-12",
    "another-row-equal-rules",
    "another-row-t-or-n-out-of-range",
    "another-row-rules-up-to-the-blocks-end",
    "another-row-one-entry-short-of-the-blocks-end",
    "another-row-one-entry-past-the-block",
    "another-row-a-table-that-does-not-pass",
    "another-row-add-done-to-a-table-that-does-not-pass",
    "another-row-mark-of-a-table-that-does-not-pass",
    "another-row-return-to-a-table-that-does-not-pass",
    "another-row-7-with-more-than-400-rules",
    "another-row-8-past-1024-states",
    "another-row-3-without-nonterminals",
    "another-row-a-code-of-both-kinds",
]
REASONS = OF_ALL + OF_NEW + OF_ADD + OF_WITHDRAW + OF_MARK + OF_RETURN + OF_READINGS + OF_ROWS + OF_NONE + (
    OF_OTHERS + list(TOLD.values()))

ENOUGH = {
    "calls": 100000, "as-the-history-gives": 80000, "on-exactly-the-entries": 1000, "on-a-longer-row": 1000,
    **{name: 50 for name in OF_NEW + OF_ADD + OF_WITHDRAW + OF_MARK + OF_RETURN + OF_READINGS + OF_ROWS + OF_NONE},
    **{"%s-done" % kind: 2000 for kind in STEPS},
}


# The calls of a case.

@lru_cache(maxsize=256)
def filled(fill: int) -> array:
    """The longest row of a case as it is filled before."""
    return array("H", (entry_before(fill, place) for place in range(MAX_SIZE)))


class Walk:
    """The calls of a case, and the reasons for which the row has to be looked at."""

    def __init__(self, case: Case) -> None:
        self.row = filled(case.fill)[:case.size]
        self.lent = case.size
        self.known = False
        self.history: List[Seen] = []
        self.reasons: List[str] = []
        self.untold = list(ROWS)            # misreadings of rows that no call tells as yet
        self.since: List[Step] = []         # the last new draft and all steps after it
        for step in case.steps:
            if step.kind == PUT:
                place, = step.numbers
                self.row[place:place + len(step.entries)] = array("H", step.entries)
                self.known = False
            elif step.kind == LEND:
                self.lent, = step.numbers
            else:
                self.take(step)
        self.ended()

    def take(self, step: Step) -> None:
        reply = call(self.row, self.lent, step)
        rules = rules_in(self.row, 0) if self.lent >= ENTRIES else None
        seen = Seen(step, self.lent, rules, self.known, reply, changes(self.row, reply.writes))
        self.history.append(seen)
        self.reasons += call_reasons(self.row, seen)
        told = told_row(self.row, seen, self.untold)
        self.untold = [name for name in self.untold if name not in told]
        write(self.row, seen.changed)
        if step.kind == NEW and reply.answer is None:
            self.known = True
            self.since = []
        if self.lent >= ENTRIES:
            self.since.append(step)

    def ended(self) -> None:
        """What the row holds in the end is what the history gives."""
        if self.known:
            first = new_draft(*self.since[0].numbers, self.since[0].entries)
            assert isinstance(first, Draft)
            steps = [step for step in self.since if step.kind in STEPS]
            assert draft_in(self.row) == history(first, steps), "the rules are those the history gives"


@lru_cache(maxsize=1)
def walk(case: Case) -> Walk:
    return Walk(case)


def walked(case: Case) -> Sequence[Seen]:
    """The calls of a case, one after another."""
    return walk(case).history


# Reasons of a call.

def met(pairs: Sequence[Tuple[str, bool]]) -> List[str]:
    return [name for name, holds in pairs if holds]


def call_reasons(row: Sequence[int], seen: Seen) -> List[str]:
    """The reasons of one call; `row` is as before it."""
    names = ["calls"]
    names += met([("on-exactly-the-entries", seen.lent == ENTRIES), ("on-a-longer-row", seen.lent > ENTRIES)])
    kind, answer = seen.step.kind, seen.reply.answer
    if answer == (ROW_TOO_SHORT, 0):
        assert seen.lent < ENTRIES
        how = "no-entry" if seen.lent == 0 else "one-too-short" if seen.lent == ENTRIES - 1 else "shorter"
        return names + ["%s-14-%s" % (kind, how)]
    if kind == NEW:
        return names + new_reasons(row, seen)
    if seen.rules is None:
        assert answer == (NOT_PRESENT, 0)
        empty = row[block_place(0)] == 0
        names += ["%s-23-no-draft-%s" % (kind, "first-entry-0" if empty else "not-whole")]
        return names + met([("another-row-one-entry-past-the-block", used_by(row) == BLOCK + 1)])
    of_kind = {ADD: add_reasons, WITHDRAW: withdraw_reasons, MARK: mark_reasons, RETURN: return_reasons}.get(
        kind, reading_reasons)
    names += of_kind(row, seen, seen.rules)
    return names if seen.known else names + other_reasons(row, seen, seen.rules)


def used_by(row: Sequence[int]) -> int:
    """The entries that the first entry and the rules of the draft's block would need, whole or not."""
    place = block_place(0)
    used = 1
    for _ in range(row[place] - 1):
        if used + HEADER > BLOCK:
            return used + HEADER
        used += HEADER + row[place + used + 1]
    return used


def limits_met(rules: Rules) -> Tuple[bool, bool]:
    """Whether there are the most rules, and the most states."""
    return len(rules) == MAX_RULES, states_of(rules) == MAX_STATES


def at_limits(front: str, rules: Rules) -> List[str]:
    """The limits that rules reach, as reasons that begin so."""
    most_rules, most_states = limits_met(rules)
    return met([(front + "400-rules", most_rules), (front + "1024-states", most_states),
                (front + "both-limits", most_rules and most_states)])


def new_reasons(row: Sequence[int], seen: Seen) -> List[str]:
    """Of a new draft with a row that is long enough, or a table at fault."""
    (t, n), table, answer = seen.step.numbers, seen.step.entries, seen.reply.answer
    grammar = check_rules(t, n, table)
    if isinstance(answer, Refusal):
        assert answer == grammar
        name = "new-%d" % answer.cause
        if answer.cause == TABLE_ENDS:
            name += "-under-two-entries" if len(table) - answer.position < HEADER else "-body-short"
        return [name] + met([("order-new-%d-before-14" % answer.cause, seen.lent < ENTRIES)])
    assert answer is None and isinstance(grammar, Grammar)
    rules = tuple((rule.left, rule.right) for rule in grammar.rules)
    most_rules, most_states = limits_met(rules)
    return ["new-done"] + met([
        ("new-done-without-rules", not rules),
        ("new-done-without-a-sentence", not has_sentence(rules)),
        ("new-done-400-rules", most_rules),
        ("new-done-1024-states", most_states),
        ("new-done-2000-terminals", t == MAX_TERMINALS),
        ("new-done-2000-nonterminals", n == MAX_NONTERMINALS),
        ("new-done-over-a-draft", seen.rules is not None),
        ("new-done-over-set-marks", any(heads(row))),
        ("new-done-over-no-draft", seen.rules is None),
    ])


def heads(row: Sequence[int]) -> List[int]:
    """The first entries of the marks' blocks."""
    return [row[block_place(mark)] for mark in range(1, 1 + MARKS)]


def grammar_of(row: Sequence[int], rules: Rules) -> Grammar:
    """The rules as those of a table; t and n are the row's."""
    found: List[Rule] = []
    offset = 0
    for left, right in rules:
        found.append(Rule(offset, left, right))
        offset += HEADER + len(right)
    return Grammar(row[0], row[1], tuple(found), states_of(rules))


def add_reasons(row: Sequence[int], seen: Seen, rules: Rules) -> List[str]:
    """Of an added rule."""
    entries, answer = seen.step.entries, seen.reply.answer
    end = len(table_of(rules))
    if answer is None:
        k = entries[1]
        after = (*rules, (entries[0], entries[2:2 + k]))
        most_rules, most_states = limits_met(after)
        return ["add-done"] + met([
            ("add-done-entries-behind", len(entries) > HEADER + k),
            ("add-done-to-no-rules", not rules),
            ("add-done-the-400th-rule", most_rules),
            ("add-done-to-1024-states", most_states),
            ("add-done-to-both-limits", most_rules and most_states),
            ("add-done-without-a-sentence", not has_sentence(after)),
            ("add-done-k-of-12", k == MAX_LENGTH),
            ("add-done-code-2000", 2000 in entries[2:2 + k]),
            ("add-done-code-34767", 34767 in entries[:1] + entries[2:2 + k]),
        ])
    assert isinstance(answer, Refusal)
    names = met([("add-%d-past-offset-0" % answer.cause, answer.position > 0)])
    if not entries:
        assert answer == (TOO_MANY_RULES if len(rules) >= MAX_RULES else TABLE_ENDS, end)
        return names + ["add-%d-nothing" % answer.cause]
    if len(rules) > MAX_RULES:             # of another row
        assert answer == (TOO_MANY_RULES, end)
        return names + ["add-7-a-rule"]
    faults = [TESTS[fault] for fault in faults_of_rule(row[0], row[1], entries, grammar_of(row, rules))]
    assert int(faults[0].partition("-")[0]) == answer.cause, "the first fault in table order"
    names += ["order-add-%s-before-%s" % (faults[0], later) for later in faults[1:] if (faults[0], later) in PAIRS]
    return names + [finer_add(answer, entries, rules, end)]


def finer_add(answer: Refusal, entries: Codes, rules: Rules, end: int) -> str:
    """Why an added rule is refused."""
    if answer.cause == TOO_MANY_RULES:
        return "add-7-a-rule"
    if answer.cause == TABLE_ENDS:
        return "add-2-one-entry" if len(entries) < HEADER else "add-2-body-short"
    if answer.cause == TOO_LONG:
        return "add-4-k-of-13" if entries[1] == MAX_LENGTH + 1 else "add-4-k-above-13"
    if answer.cause == EQUAL_RULE:
        rule = entries[0], entries[2:2 + entries[1]]
        return "add-6-the-first-rule" if rules[0] == rule else (
            "add-6-the-last-rule" if rules[-1] == rule else "add-6-another-rule")
    if answer.cause == TOO_MANY_STATES:
        return "add-8-by-one-state" if states_of(rules) + entries[1] == MAX_STATES else "add-8-by-more"
    return "add-%d" % answer.cause


def number_reason(number: int, most: int) -> str:
    """What kind of number it is that is none of 1 to `most`."""
    assert not 1 <= number <= most
    if number == 2 ** 64 - 1:
        return "the-largest"
    if number <= most + 1:
        return "one-past" if number else "number-0"
    if 1 <= number % 2 ** 16 <= most:
        return "low-16-bits-pass" if number < 2 ** 32 else (
            "low-32-bits-pass" if 1 <= number % 2 ** 32 <= most else "more")
    return "more"


def withdraw_reasons(row: Sequence[int], seen: Seen, rules: Rules) -> List[str]:
    """Of a withdrawal."""
    number, = seen.step.numbers
    count = len(rules)
    if isinstance(seen.reply.answer, Refusal):
        assert seen.reply.answer == (NOT_PRESENT, number)
        return ["withdraw-23-" + number_reason(number, count)] + met([("withdraw-23-of-no-rules", count == 0)])
    most_rules, most_states = limits_met(rules)
    return ["withdraw-done"] + met([
        ("withdraw-done-the-first", number == 1),
        ("withdraw-done-the-last", number == count),
        ("withdraw-done-between", 1 < number < count),
        ("withdraw-done-the-only-one", count == 1),
        ("withdraw-done-of-400-rules", most_rules),
        ("withdraw-done-of-1024-states", most_states),
    ])


def mark_reasons(row: Sequence[int], seen: Seen, rules: Rules) -> List[str]:
    """Of a mark that is set."""
    number, = seen.step.numbers
    if isinstance(seen.reply.answer, Refusal):
        assert seen.reply.answer == (NOT_PRESENT, number)
        return ["mark-23-" + number_reason(number, MARKS)]
    before = heads(row)
    kept = rules_in(row, number)
    return ["mark-done", "mark-done-%d" % number] + at_limits("mark-done-", rules) + met([
        ("mark-done-an-empty-mark", before[number - 1] == 0),
        ("mark-done-again", kept is not None),
        ("mark-done-again-with-fewer-entries", kept is not None and len(table_of(kept)) > len(table_of(rules))),
        ("mark-done-without-rules", not rules),
        ("mark-done-the-eighth-to-be-set", before[number - 1] == 0 and before.count(0) == 1),
    ])


def return_reasons(row: Sequence[int], seen: Seen, rules: Rules) -> List[str]:
    """Of a return."""
    number, = seen.step.numbers
    if isinstance(seen.reply.answer, Refusal):
        assert seen.reply.answer == (NOT_PRESENT, number)
        if not 1 <= number <= MARKS:
            return ["return-23-" + number_reason(number, MARKS)]
        if row[block_place(number)] != 0:
            return ["return-23-a-mark-that-is-not-whole"]
        return ["return-23-an-empty-mark", "return-23-empty-%d" % number]
    kept = rules_in(row, number)
    assert kept is not None
    return ["return-done", "return-done-%d" % number] + at_limits("return-done-to-", kept) + met([
        ("return-done-to-other-rules", kept != rules),
        ("return-done-to-the-same-rules", kept == rules),
        ("return-done-with-fewer-entries", len(table_of(kept)) < len(table_of(rules))),
        ("return-done-to-no-rules", not kept),
        ("return-done-with-all-marks-set", all(heads(row))),
    ])


def reading_reasons(row: Sequence[int], seen: Seen, rules: Rules) -> List[str]:
    """Of what is told of a draft."""
    kind = seen.step.kind
    return [kind + "-done"] + met([
        (kind + "-done-without-rules", not rules), (kind + "-done-at-both-limits", all(limits_met(rules)))])


def other_reasons(row: Sequence[int], seen: Seen, rules: Rules) -> List[str]:
    """Of a row that no new draft made, or with entries put into it since."""
    kind, answer = seen.step.kind, seen.reply.answer
    cause = answer.cause if isinstance(answer, Refusal) else 0
    (t, n), table = row[:2], table_of(rules)
    passes = isinstance(check_rules(t, n, table), Grammar)
    names = ["%s-done-of-another-row" % kind] if cause == 0 else []
    kept: Optional[Rules] = None
    if kind == RETURN and cause == 0:
        kept = rules_in(row, seen.step.numbers[0])
    both = kind == ADD and cause == 0 and any(32768 <= code <= t and code < 32768 + n for code in seen.step.entries[2:])
    return names + met([
        ("add-refused-of-another-row", kind == ADD and cause != 0),
        ("another-row-more-than-400-rules", len(rules) > MAX_RULES),
        ("another-row-past-1024-states", states_of(rules) > MAX_STATES),
        ("another-row-a-length-above-12", any(len(right) > MAX_LENGTH for _, right in rules)),
        ("another-row-equal-rules", len(set(rules)) < len(rules)),
        ("another-row-t-or-n-out-of-range", t > MAX_TERMINALS or not 1 <= n <= MAX_NONTERMINALS),
        ("another-row-rules-up-to-the-blocks-end", 1 + len(table) == BLOCK),
        ("another-row-one-entry-short-of-the-blocks-end", 2 + len(table) == BLOCK),
        ("another-row-a-table-that-does-not-pass", not passes),
        ("another-row-add-done-to-a-table-that-does-not-pass", kind == ADD and cause == 0 and not passes),
        ("another-row-mark-of-a-table-that-does-not-pass", kind == MARK and cause == 0 and not passes),
        ("another-row-return-to-a-table-that-does-not-pass",
         kept is not None and not isinstance(check_rules(t, n, table_of(kept)), Grammar)),
        ("another-row-7-with-more-than-400-rules", cause == TOO_MANY_RULES and len(rules) > MAX_RULES),
        ("another-row-8-past-1024-states", cause == TOO_MANY_STATES and states_of(rules) > MAX_STATES),
        ("another-row-3-without-nonterminals", cause == 3 and n == 0),
        ("another-row-a-code-of-both-kinds", both),
    ])


def reasons_of(case: Case) -> List[str]:
    """Every reason of REASONS for each call that meets it; `told-from-` once for a case."""
    found = walk(case)
    names = list(found.reasons)
    assert not parts(Reading, found.history), "[13] over lists answers alike"
    names += ["as-the-history-gives"] * sum(seen.known for seen in found.history)
    told = [name for name in ROWS if name not in found.untold]
    if len(found.history) <= MOST_CALLS:
        few = sum(len(seen.rules or ()) for seen in found.history) <= MANY_RULES
        told += [name for name, made in PLAIN.items() if (few or name in AT_LIMITS) and parts(made, found.history)]
    return names + [TOLD[name] for name in told]
