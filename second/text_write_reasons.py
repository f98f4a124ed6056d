"""Sorts the writer's cases by reasons finer than the causes.

Each symbol is tested on its own, so that faults which the order hides are
found too. The first of them must be the writer's refusal.
"""

import re
from typing import Dict, List, NamedTuple, Optional, Sequence, Tuple

import sentence_reasons
from sentence_misreadings import AFTER_14, AFTER_NAMES, TOLD
from spelling_reasons import differ_in_case, first_differs, has_apart, rest_differs
from tables import (
    MAX_LENGTH, MAX_NONTERMINALS, MAX_RULES, MAX_STATES, MAX_TERMINALS, NO_SENTENCE,
    OUT_OF_RANGE, START, TOO_MANY_STATES, Codes, Grammar, Refusal, check_table,
)
from text import (
    DECLARED_TWICE, MALFORMED, MAX_NAME, ROW_TOO_SHORT, write_text,
)

WHOLE_NAME = re.compile(rb"[-0-9A-Za-z]+")
SHORTEST = len(b"terminals=\nnonterminals=S\n")    # no text has fewer bytes
WORD = 2 ** 32                                     # starts and lengths are below

REASONS = [
    "written",
    "written-no-terminals",
    "written-2000-terminals",
    "written-2000-nonterminals",
    "written-a-name-of-15",
    "written-an-empty-rule",
    "written-k-of-12",
    "written-400-rules",
    "written-1024-states",
    "written-a-symbol-that-no-rule-has",
    "written-names-that-overlap",
    "written-names-not-in-order",
    "written-a-name-at-the-end-of-the-bytes",
    "written-longer-rows",
    "written-exact-room",
    "written-more-room",
] + ["table-%d" % cause for cause in (
    *range(OUT_OF_RANGE, TOO_MANY_STATES + 1), NO_SENTENCE)] + [
    "16-starts-end",
    "16-lengths-end",
    "16-both-rows-end",
    "16-one-byte-past-the-names",
    "16-more-past-the-names",
    "16-start-plus-length-past-32-bits",
    "16-length-0",
    "16-length-16",
    "16-length-above-16",
    "16-length-of-32-ones",
    "16-bad-byte",
    "18-among-terminals",
    "18-among-nonterminals",
    "18-across-the-kinds",
    "18-one-span-twice",
    "18-equal-bytes-elsewhere",
    "14-by-one",
    "14-by-more",
    "14-no-room",
    "order-table-before-16",
    "order-table-before-18",
    "order-table-before-14",
    "order-19-before-16",
    "order-19-before-18",
    "order-19-before-14",
    "order-16-before-18-of-a-lower-symbol",
    "order-16-before-18-of-a-higher-symbol",
    "order-16-before-14",
    "order-18-before-14",
    "order-lowest-16-of-several",
    "order-lowest-18-of-several",
    "written-capitals-and-small-letters",
    "written-names-that-differ-by-32",
] + ["18-by-case-" + how for how in (
    "among-terminals", "among-nonterminals", "across-the-kinds", "in-the-first-letter-alone",
    "behind-the-first-letter", "of-15-bytes", "among-thousands", "before-an-equal-name",
    "behind-an-equal-name")] + [
    "order-16-before-18-by-case",
    "order-18-by-case-before-14",
    "19-alone",
    TOLD[AFTER_NAMES],
    TOLD[AFTER_14],
] + sentence_reasons.REASONS

# Texts at the limits are long, and few.
LONG = ["written-2000-terminals", "written-2000-nonterminals", "written-400-rules",
        "18-by-case-among-thousands"]
ENOUGH = {"table-19": sentence_reasons.FEWEST, **{name: 8 for name in LONG}}


class Case(NamedTuple):
    """The writer's inputs; `room` is the length of its output."""

    t: int
    n: int
    table: Codes
    names: bytes
    starts: Tuple[int, ...]
    lengths: Tuple[int, ...]
    room: int


def reasons_of(case: Case) -> List[str]:
    """Every reason of REASONS that this case meets."""
    return writer_reasons(case) + list(sentence_reasons.of_table(*case[:3]))


def writer_reasons(case: Case) -> List[str]:
    """The same without those that the table alone decides."""
    result = write_text(*case)
    if isinstance(result, bytes):
        return written_reasons(case, result)
    malformed, doubles = faults_of_names(case)
    if result.cause == MALFORMED:
        assert result.position == malformed[0], "the lowest at fault"
        return malformed_reasons(case, malformed, doubles)
    if result.cause == DECLARED_TWICE:
        assert not malformed and result.position == doubles[0], "the lowest at fault"
        return double_reasons(case, doubles)
    if result.cause == ROW_TOO_SHORT:
        assert not malformed and not doubles, "14 comes last"
        return room_reasons(case)
    assert check_table(case.t, case.n, case.table) == result, "the table's fault"
    if result.cause == NO_SENTENCE:
        return none_reasons(case, malformed, doubles)
    return table_reasons(case, result, malformed, doubles)


# What is written.

def written_reasons(case: Case, text: bytes) -> List[str]:
    """The limits that a written grammar reaches, and how its names lay."""
    grammar = check_table(case.t, case.n, case.table)
    assert isinstance(grammar, Grammar), "what is written has passed"
    met = [
        ("written", True),
        ("written-no-terminals", case.t == 0),
        ("written-2000-terminals", case.t == MAX_TERMINALS),
        ("written-2000-nonterminals", case.n == MAX_NONTERMINALS),
        ("written-a-name-of-15", MAX_NAME in case.lengths[:case.t + case.n]),
    ]
    met += grammar_reasons(grammar) + span_reasons(case) + spelled_reasons(case, text)
    met += [("written-exact-room", case.room == len(text)),
            ("written-more-room", case.room > len(text))]
    return [name for name, holds in met if holds]


def spelled_reasons(case: Case, text: bytes) -> List[Tuple[str, bool]]:
    """How the names are spelled; the text has each as it was lent."""
    names = [bytes_of(case, symbol) for symbol in range(case.t + case.n)]
    words = text.translate(bytes.maketrans(b",: ", b"===")).split(b"\n")
    assert {word for line in words for word in line.split(b"=")[1:]} - {b""} == set(names)
    joined = b"".join(names)
    return [
        ("written-capitals-and-small-letters", joined not in (joined.lower(), joined.upper())),
        ("written-names-that-differ-by-32", has_apart(names)),
    ]


def grammar_reasons(grammar: Grammar) -> List[Tuple[str, bool]]:
    """What the rules of a written grammar meet."""
    lengths = [len(rule.right) for rule in grammar.rules]
    used = {code for rule in grammar.rules for code in rule.right}
    used.update(rule.left for rule in grammar.rules)
    return [
        ("written-an-empty-rule", 0 in lengths),
        ("written-k-of-12", MAX_LENGTH in lengths),
        ("written-400-rules", len(lengths) == MAX_RULES),
        ("written-1024-states", grammar.states == MAX_STATES),
        ("written-a-symbol-that-no-rule-has",
         len(used) < grammar.terminals + grammar.nonterminals),
    ]


def span_reasons(case: Case) -> List[Tuple[str, bool]]:
    """How the names of a written grammar lay in the name bytes."""
    count = case.t + case.n
    starts = list(case.starts[:count])
    spans = sorted((start, start + length) for start, length in zip(starts, case.lengths))
    return [
        ("written-names-that-overlap",
         any(first[1] > second[0] for first, second in zip(spans, spans[1:]))),
        ("written-names-not-in-order", starts != sorted(starts)),
        ("written-a-name-at-the-end-of-the-bytes",
         any(end == len(case.names) for _, end in spans)),
        ("written-longer-rows", len(case.starts) > count or len(case.lengths) > count),
    ]


# Faults of names.

def faults_of_names(case: Case) -> Tuple[List[int], List[int]]:
    """The symbols that are 16, and those that are 18 among all others.

    With t or n out of range, as many symbols are tried as there can be.
    """
    count = min(case.t, MAX_TERMINALS) + max(1, min(case.n, MAX_NONTERMINALS))
    malformed, doubles = [], []
    seen: Dict[bytes, int] = {}
    for symbol in range(count):
        if fault_of_name(case, symbol) is not None:
            malformed.append(symbol)
            continue
        name = bytes_of(case, symbol).lower()
        if name in seen:
            doubles.append(symbol)
        seen.setdefault(name, symbol)
    return malformed, doubles


def bytes_of(case: Case, symbol: int) -> bytes:
    """The bytes that a symbol's start and length give."""
    start = case.starts[symbol]
    return case.names[start:start + case.lengths[symbol]]


def fault_of_name(case: Case, symbol: int) -> Optional[str]:
    """How the symbol's name is 16, or None."""
    ends = (symbol >= len(case.starts), symbol >= len(case.lengths))
    if any(ends):
        return {(True, False): "16-starts-end", (False, True): "16-lengths-end",
                (True, True): "16-both-rows-end"}[ends]
    start, length = case.starts[symbol], case.lengths[symbol]
    past = start + length - len(case.names)
    if start + length >= WORD:
        return "16-start-plus-length-past-32-bits"
    if length == 0:
        return "16-length-0"
    if length == WORD - 1:
        return "16-length-of-32-ones"
    if past > 0:
        return "16-one-byte-past-the-names" if past == 1 else "16-more-past-the-names"
    if length > MAX_NAME:
        return "16-length-16" if length == MAX_NAME + 1 else "16-length-above-16"
    return None if WHOLE_NAME.fullmatch(bytes_of(case, symbol)) else "16-bad-byte"


def malformed_reasons(
    case: Case, malformed: Sequence[int], doubles: Sequence[int]
) -> List[str]:
    """How the lowest name at fault is, and what the order hides."""
    first = malformed[0]
    met = [
        (str(fault_of_name(case, first)), True),
        ("16-length-of-32-ones", first < min(len(case.starts), len(case.lengths))
         and case.starts[first] > 0 and case.lengths[first] == WORD - 1),
        ("order-16-before-18-of-a-lower-symbol", any(s < first for s in doubles)),
        ("order-16-before-18-of-a-higher-symbol", any(s > first for s in doubles)),
        ("order-16-before-18-by-case", any(is_by_case(case, symbol) for symbol in doubles)),
        ("order-16-before-14", case.room < SHORTEST),
        ("order-lowest-16-of-several", len(malformed) > 1),
    ]
    return [name for name, holds in met if holds]


def double_reasons(case: Case, doubles: Sequence[int]) -> List[str]:
    """Which names are equal, and what the order hides."""
    second = doubles[0]
    first = same_before(case, second)
    kind = ("18-among-terminals" if second < case.t else
            "18-among-nonterminals" if first >= case.t else "18-across-the-kinds")
    same = case.starts[first] == case.starts[second]
    by_case = is_by_case(case, second)
    met = [
        (kind, True),
        ("18-one-span-twice", same),
        ("18-equal-bytes-elsewhere", not same and not by_case),
        ("order-18-before-14", case.room < SHORTEST),
        ("order-18-by-case-before-14", by_case and case.room < SHORTEST),
        ("order-lowest-18-of-several", len(doubles) > 1),
        ("18-by-case-behind-an-equal-name",
         not by_case and any(is_by_case(case, symbol) for symbol in doubles)),
    ]
    found = [name for name, holds in met if holds]
    return found + (by_case_reasons(case, kind, first, doubles) if by_case else [])


def same_before(case: Case, symbol: int) -> int:
    """The lowest symbol whose name is the same, in whatever case."""
    name = bytes_of(case, symbol).lower()
    return next(other for other in range(symbol + 1) if fault_of_name(case, other) is None
                and bytes_of(case, other).lower() == name)


def is_by_case(case: Case, symbol: int) -> bool:
    """Whether a symbol's name is that of a lower one, but in another case than all of these."""
    names = [bytes_of(case, other) for other in range(symbol)
             if fault_of_name(case, other) is None]
    name = bytes_of(case, symbol)
    return name not in names and any(differ_in_case(name, other) for other in names)


def by_case_reasons(case: Case, kind: str, first: int, doubles: Sequence[int]) -> List[str]:
    """How the names differ that are one name in two cases, and what a look at the bytes would find."""
    pair = bytes_of(case, first), bytes_of(case, doubles[0])
    met = [
        ("18-by-case-" + kind[len("18-"):], True),
        ("18-by-case-in-the-first-letter-alone", not rest_differs(*pair)),
        ("18-by-case-behind-the-first-letter", not first_differs(*pair)),
        ("18-by-case-of-15-bytes", len(pair[0]) == MAX_NAME),
        ("18-by-case-among-thousands", case.t + case.n > 2000),
        ("18-by-case-before-an-equal-name",
         any(not is_by_case(case, symbol) for symbol in doubles)),
    ]
    return [name for name, holds in met if holds]


# Faults of the table and of the room.

def length_of_text(case: Case) -> int:
    """The bytes of the text, summed up: what follows a name, and the names."""
    length = case.lengths
    total = len(b"terminals=\nnonterminals=\n") + sum(length[:case.t + case.n])
    total += max(0, case.t - 1) + case.n - 1
    offset = 0
    while offset < len(case.table):
        left, k = case.table[offset], case.table[offset + 1]
        right = case.table[offset + 2:offset + 2 + k]
        total += len(b"rule=:\n") + k
        for code in (left, *right):
            total += length[code - 1 if code < START else case.t + code - START]
        offset += 2 + k
    return total


def room_reasons(case: Case) -> List[str]:
    """By how much the output is too short."""
    lacking = length_of_text(case) - case.room
    assert lacking > 0, "14 only where the text does not fit"
    names = ["14-by-one" if lacking == 1 else "14-by-more"]
    return names + (["14-no-room"] if case.room == 0 else [])


def table_reasons(
    case: Case, refusal: Refusal, malformed: Sequence[int], doubles: Sequence[int]
) -> List[str]:
    """The table's cause, and what the order hides."""
    met = [
        ("table-%d" % refusal.cause, True),
        ("order-table-before-16", bool(malformed)),
        ("order-table-before-18", bool(doubles)),
        ("order-table-before-14", case.room < SHORTEST),
    ]
    return [name for name, holds in met if holds]


def none_reasons(case: Case, malformed: Sequence[int], doubles: Sequence[int]) -> List[str]:
    """What else is wrong where there is no sentence."""
    names = bool(malformed or doubles)
    short = case.room < SHORTEST if names else case.room < length_of_text(case)
    met = [
        ("table-19", True),
        ("order-19-before-16", bool(malformed)),
        ("order-19-before-18", bool(doubles)),
        ("order-19-before-14", short),
        ("19-alone", not names and not short),
        (TOLD[AFTER_NAMES], names),
        (TOLD[AFTER_14], short),
    ]
    return [name for name, holds in met if holds]
