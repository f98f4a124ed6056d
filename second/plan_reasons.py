"""Sorts the cases of document 02's [14] by reasons finer than the causes.

Every answer is compared with that of sentence_trees.py, which knows no commands but takes the
table; a plan's list is applied from the left in tree_reasons.py.
"""

from functools import lru_cache
from typing import List

from plan_inputs import AnyCase, Case, Place, Room, is_length
from plan_misreadings import TOLD, told
from plans import (
    AFTER_A_CHANNEL, A_CHANNEL, A_NUM, CERTIFICATE_BYTES, CHANNEL, CLOSE, GIVE, INSIDE, MOST_TERMINALS, NO_COMMAND, NO_ROW, NONE,
    NONTERMINALS, ONE_MORE, ONE_MORE_CHANNEL, OUTSIDE, PLAN, REPEAT, REPEATS, TABLE, TAKE, TERMINALS, WANTED, WORDS, WORK_ENTRIES,
    Reply, certificate_byte, plan_of, read_plan, stopped_at,
)
from sentence_trees import ONE, SEVERAL, find_trees
from sentence_trees import Lent as TreesLent
from tables import MAX_ENTRY, START, Codes, Grammar, Refusal, check_table
from tree_reasons import applied, filled_how

ANSWERS = [NONE, PLAN]
END = "end"               # where the reader stops behind the last terminal
MAY_COME = {              # what may come where the reader waits
    OUTSIDE: ("take", "give", "repeat", END), INSIDE: ("take", "give", "repeat", "close"), A_NUM: ("num",),
    A_CHANNEL: ("ch",), AFTER_A_CHANNEL: ("sep", "vol"),
}

LENGTHS = [PLAN + "-of-%d-terminals" % length for length in range(MOST_TERMINALS + 1) if is_length(length)] + [
    NONE + "-of-%d-terminals" % length for length in range(1, MOST_TERMINALS + 1)]
STOPS = ["none-%s-at-%s" % (wanted, word) for wanted in WANTED for word in (*WORDS, END) if word not in MAY_COME[wanted]]
OF_ANSWERS = ["%s-%s" % (answer, how) for answer in ANSWERS for how in (
    "with-exactly-the-work-row", "with-a-longer-work-row",
    "filled-with-0", "filled-with-a-small-number", "filled-with-the-largest", "filled-with-a-mixture")]
OF_NONE = ["none-with-a-list-of-no-entry", "none-with-a-list-that-is-kept", "none-at-the-first-terminal"]
OF_PLANS = [
    "plan-list-exactly-enough",
    "plan-list-longer",
    "plan-1-command",
    "plan-2-commands",
    "plan-21-commands",
    "plan-a-take",
    "plan-a-give",
    "plan-a-repeat",
    "plan-a-repeat-of-no-command",
    "plan-a-repeat-of-two-commands",
    "plan-a-command-behind-a-repeat",
    "plan-a-repeat-within-a-repeat",
    "plan-21-repeats-within-each-other",
    "plan-8-channels-of-a-command",
    "plan-9-channels-of-a-command",
    "plan-31-channels-of-a-command",
    "plan-64-rules",
    "plan-more-rules-than-terminals",
    "plan-fewer-rules-than-terminals",
]
OF_LISTS = [
    "14-list-one-too-short",
    "14-list-empty",
    "14-list-shorter",
    "14-list-filled-with-0",
    "14-list-filled",
    "14-list-with-a-longer-work-row",
]
OF_WORK = [
    "14-work-one-too-short",
    "14-work-empty",
    "14-work-shorter",
    "14-work-and-the-list-too-short",
    "14-work-of-none",
    "14-work-of-plan",
]
PLACES = ["22-at-%d" % place for place in range(MOST_TERMINALS + 1)]
OF_22 = [
    "22",
    "22-at-64-of-a-sentence",
    "22-at-64-with-no-terminal-there",
    "22-at-64-with-no-terminal-behind",
    "22-at-a-code-of-a-row-that-is-too-long",
    "22-at-the-first-of-two-codes",
    "22-of-a-sentence-but-for-one-code",
    "22-a-row-of-65",
    "22-a-row-of-66",
    "22-a-longer-row",
    "22-length-whose-low-8-bits-pass",
    "22-length-whose-low-16-bits-pass",
    "22-code-0",
    "22-code-9",
    "22-code-further-past-8",
    "22-code-32768",
    "22-code-of-K-or-L",
    "22-code-past-L",
    "22-code-65535",
    "22-code-whose-low-byte-passes",
]
OF_ORDER = ["order-22-before-14"]
OF_CERTIFICATES = [
    "byte-of-the-certificate",
    "byte-not-0",
    "byte-right-past-its-end",
    "byte-past-its-end",
    "byte-whose-low-8-bits-are-a-place",
    "byte-whose-low-16-bits-are-a-place",
    "byte-whose-low-32-bits-are-a-place",
]
REASONS = (["rows"] + ANSWERS + LENGTHS + STOPS + OF_ANSWERS + OF_NONE + OF_PLANS + OF_LISTS + OF_WORK + OF_22 + PLACES
           + OF_ORDER + ["room"] + OF_CERTIFICATES + list(TOLD.values()))

ENOUGH = {
    "rows": 20000, NONE: 10000, PLAN: 3000, "22": 1000, "room": 1, "byte-of-the-certificate": CERTIFICATE_BYTES,
    "byte-right-past-its-end": 1, "plan-21-repeats-within-each-other": 10, "22-length-whose-low-16-bits-pass": 4,
    TOLD["L-is-ch-sep-L"]: 13,
}


# Against the program for any table.

@lru_cache(maxsize=1)
def grammar() -> Grammar:
    found = check_table(*TABLE)
    assert isinstance(found, Grammar)
    return found


def compared(case: Case, reply: Reply) -> None:
    """The answer, the list and what is cleared are those of [12] for this table."""
    trees = find_trees(*TABLE, case.row, TreesLent(*case.lent))
    assert trees.answer != SEVERAL, "several is proved never to be the answer"
    answer = PLAN if trees.answer == ONE else trees.answer
    assert (answer, trees.rules, trees.cleared) == reply, "the part for single sentences"


# Reasons of an answer.

@lru_cache(maxsize=64)
def plan_reasons(row: Codes, rules: Codes) -> List[str]:
    """What a plan is like."""
    assert applied(grammar(), rules) == row, "the rules are those of a tree of the row"
    depth = deepest = more = 0
    for code in row:
        depth += (code == REPEAT) - (code == CLOSE)
        deepest = max(deepest, depth)
    channels = []
    for rule in rules:
        more += rule == ONE_MORE_CHANNEL
        if rule == CHANNEL:
            channels.append(more + 1)
            more = 0
    pairs, three = list(zip(rules, rules[1:])), list(zip(rules, rules[1:], rules[2:]))
    met = [
        ("plan-1-command", rules[:2] == (ONE_MORE, NO_COMMAND)),
        ("plan-2-commands", rules[:3] == (ONE_MORE, ONE_MORE, NO_COMMAND)),
        ("plan-21-commands", rules[:21] == (ONE_MORE,) * 21),
        ("plan-a-take", TAKE in row),
        ("plan-a-give", GIVE in row),
        ("plan-a-repeat", REPEAT in row),
        ("plan-a-repeat-of-no-command", (REPEATS, NO_COMMAND) in pairs),
        ("plan-a-repeat-of-two-commands", (REPEATS, ONE_MORE, ONE_MORE) in three),
        ("plan-a-command-behind-a-repeat", any(
            one == CLOSE and two in (TAKE, GIVE, REPEAT) for one, two in zip(row, row[1:]))),
        ("plan-a-repeat-within-a-repeat", deepest > 1),
        ("plan-21-repeats-within-each-other", deepest == 21),
        ("plan-8-channels-of-a-command", 8 in channels),
        ("plan-9-channels-of-a-command", 9 in channels),
        ("plan-31-channels-of-a-command", 31 in channels),
        ("plan-64-rules", len(rules) == 64),
        ("plan-more-rules-than-terminals", len(rules) > len(row)),
        ("plan-fewer-rules-than-terminals", len(rules) < len(row)),
    ]
    return [name for name, holds in met if holds]


def none_reasons(row: Codes) -> List[str]:
    """Where the reader stops, what it waits for and what it finds."""
    stopped = stopped_at(row)
    assert stopped is not None
    word = WORDS[row[stopped.place] - 1] if stopped.place < len(row) else END
    return ["none-%s-at-%s" % (stopped.wanted, word)] + ["none-at-the-first-terminal"] * (stopped.place == 0)


def answered_reasons(case: Case, reply: Reply) -> List[str]:
    """Of an answer, or of a list that is too short, which is known only then."""
    size = len(plan_of(case.row) or ())
    exact = case.lent.work == WORK_ENTRIES
    if isinstance(reply.answer, Refusal):
        met = [
            ("14-list-one-too-short", case.lent.rules == size - 1),
            ("14-list-empty", case.lent.rules == 0),
            ("14-list-shorter", 0 < case.lent.rules < size - 1),
            ("14-list-filled-with-0", case.fill == 0),
            ("14-list-filled", case.fill != 0),
            ("14-list-with-a-longer-work-row", not exact),
        ]
        return [name for name, holds in met if holds]
    ways = ["with-exactly-the-work-row" if exact else "with-a-longer-work-row", filled_how(case.fill),
            "of-%d-terminals" % len(case.row)]
    names = [reply.answer] + ["%s-%s" % (reply.answer, how) for how in ways]
    if reply.answer == PLAN:
        names.append("plan-list-exactly-enough" if case.lent.rules == size else "plan-list-longer")
        return names + plan_reasons(case.row, reply.rules)
    names.append("none-with-a-list-that-is-kept" if case.lent.rules else "none-with-a-list-of-no-entry")
    return names + none_reasons(case.row)


# Reasons of refusals.

def work_reasons(case: Case) -> List[str]:
    """Of a work row that is too short."""
    rules = plan_of(case.row)
    met = [
        ("14-work-one-too-short", case.lent.work == WORK_ENTRIES - 1),
        ("14-work-empty", case.lent.work == 0),
        ("14-work-shorter", 0 < case.lent.work < WORK_ENTRIES - 1),
        ("14-work-and-the-list-too-short", case.lent.rules < len(rules or ())),
        ("14-work-of-none", rules is None),
        ("14-work-of-plan", rules is not None),
    ]
    return [name for name, holds in met if holds]


def row_fault_reasons(case: Case, place: int) -> List[str]:
    """Where and why a row is refused with 22."""
    row = case.row
    wrong = [place for place, code in enumerate(row) if not 1 <= code <= 8]
    long = len(row) > MOST_TERMINALS
    assert place == min([*wrong, *[MOST_TERMINALS] * long]), "the first place at fault"
    met = [
        ("22", True),
        ("22-at-%d" % place, True),
        ("22-at-64-of-a-sentence", place == 64 and not wrong and plan_of(row) is not None),
        ("22-at-64-with-no-terminal-there", place == 64 and 64 in wrong),
        ("22-at-64-with-no-terminal-behind", place == 64 and bool(wrong) and 64 not in wrong),
        ("22-at-a-code-of-a-row-that-is-too-long", long and place < 64),
        ("22-at-the-first-of-two-codes", place < 64 and len(wrong) > 1),
        ("22-of-a-sentence-but-for-one-code", not long and any(
            plan_of(row[:place] + (code,) + row[place + 1:]) is not None for code in TERMINALS)),
        ("22-a-row-of-65", len(row) == 65),
        ("22-a-row-of-66", len(row) == 66),
        ("22-a-longer-row", len(row) > 66),
        ("22-length-whose-low-8-bits-pass", place == 64 and len(row) % 256 <= 64),
        ("22-length-whose-low-16-bits-pass", place == 64 and len(row) % 65536 <= 64),
        ("order-22-before-14", case.lent.work < WORK_ENTRIES),
    ]
    if place in wrong:
        code = row[place]
        met += [
            ("22-code-0", code == 0),
            ("22-code-9", code == 9),
            ("22-code-further-past-8", 9 < code < START),
            ("22-code-32768", code == START),
            ("22-code-of-K-or-L", code in NONTERMINALS[1:]),
            ("22-code-past-L", NONTERMINALS[-1] < code < MAX_ENTRY),
            ("22-code-65535", code == MAX_ENTRY),
            ("22-code-whose-low-byte-passes", 1 <= code % 256 <= 8),
        ]
    return [name for name, holds in met if holds]


def byte_reasons(place: int) -> List[str]:
    """Which byte of the certificate is asked for."""
    past = place >= CERTIFICATE_BYTES
    met = [
        ("byte-of-the-certificate", not past),
        ("byte-not-0", certificate_byte(place) != 0),
        ("byte-right-past-its-end", place == CERTIFICATE_BYTES),
        ("byte-past-its-end", past),
        *(("byte-whose-low-%d-bits-are-a-place" % bits, past and certificate_byte(place % 2 ** bits) != 0)
          for bits in (8, 16, 32)),
    ]
    return [name for name, holds in met if holds]


def reasons_of(case: AnyCase) -> List[str]:
    """Every reason of REASONS that this case meets."""
    if isinstance(case, Room):
        return ["room"]
    if isinstance(case, Place):
        return byte_reasons(case.place) + told(case)
    reply = read_plan(*case[:2])
    compared(case, reply)
    names = ["rows"] + told(case)
    if reply.cleared:
        return names + answered_reasons(case, reply)
    assert isinstance(reply.answer, Refusal)
    if reply.answer.cause == NO_ROW:
        return names + row_fault_reasons(case, reply.answer.position)
    return names + work_reasons(case)
