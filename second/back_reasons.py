"""Sorts the cases of reading back by reasons finer than the causes.

Lines are tested here by patterns, each test on its own, so that faults which
the order hides are found too. The first of them must be the refusal.
"""

import re
from functools import lru_cache
from typing import FrozenSet, List, NamedTuple, Optional, Sequence, Set, Tuple, Union

from case_files import FEWEST
from dead_rules import rule_kinds
from readings import (
    GRAMMAR, LentStrings, NamedGrammar, Pair, Refused, named_in, read_back, reading_lines,
)
from sentence_misreadings import AFTER_14, TOLD
from sentence_reasons import RULES_REASONS, has_tree, loose_rules, of_rules
from spelling_reasons import (
    NEXT_TO_LETTERS, as_declared, declared_in, differ_by_32, differ_in_case, first_differs,
    rest_differs, uses_in,
)
from tables import MAX_NONTERMINALS, MAX_RULES, MAX_TERMINALS, NO_SENTENCE, START, Refusal
from text import (
    DECLARED_TWICE, MALFORMED, MAX_NAME, ROW_TOO_SHORT, UNKNOWN_NAME, Text, read_lines,
)
from triples import CLOSING, OPENING, SYMBOL

NAME = re.compile(rb"[-0-9A-Za-z]{1,15}")
NUMBERED = re.compile(rb"[()](0|[1-9][0-9]*)")
SIGNED = re.compile(rb"[()][-+][0-9]+")
KEYS = b"left", b"right"
MANY_DIGITS = 100
MANY_LETTERS = 256
FEW_DIGITS = 3             # of the numbers of rules
BITS = 8, 16, 32, 64, 128

GRAMMAR_CAUSES = 1, 4, 6, 7, 8, 16, 17, 18, 19     # those of the reader without 14
LINE_CAUSES = MALFORMED, UNKNOWN_NAME

READ_REASONS = [
    "read",
    "read-what-the-program-adds",
    "read-only-left-empty",
    "read-only-right-empty",
    "read-both-empty",
    "read-256-letters",
    "read-more-letters-than-a-witness-has",
    "read-rule-0",
    "read-the-last-rule",
    "read-rule-400",
    "read-a-rule-of-two-digits",
    "read-a-dead-rule",
    "read-a-terminal",
    "read-a-nonterminal",
    "read-terminal-2000",
    "read-nonterminal-2000",
    "read-a-name-of-15",
    "read-a-name-of-digits",
    "read-not-opened-first",
    "read-rows-exactly-enough",
    "read-left-row-longer",
    "read-right-row-longer",
    "read-a-terminal-in-another-case",
    "read-a-nonterminal-in-another-case",
    "read-every-name-in-another-case",
    "read-a-name-that-differs-in-its-first-letter-alone",
    "read-a-name-that-differs-behind-its-first-letter",
    "read-a-name-spelled-as-a-rule-uses-it",
    "read-as-declared-though-rules-use-another-case",
    "read-what-the-program-adds-in-another-case",
    "read-names-that-differ-by-32",
]
SHORT_REASONS = [
    "14-only-left-by-one",
    "14-only-right-by-one",
    "14-both-by-one",
    "14-left-longer-right-short",
    "14-left-short-right-longer",
    "14-no-left-row",
    "14-no-right-row",
    "14-neither-row",
    "14-rows-exchanged",
]
LINE_REASONS = [
    "16-no-lines",
    "16-no-byte-10",
    "16-line-2-missing",
    "16-line-2-without-byte-10",
    "16-past-line-2-byte-10",
    "16-past-line-2-a-line",
    "16-past-line-2-no-whole-line",
    "16-past-line-2-both-lines-again",
    "16-blank-line",
    "16-no-equals-sign",
    "16-two-equals-signs",
    "16-left-twice",
    "16-right-twice",
    "16-lines-exchanged",
    "16-key-in-wrong-case-or-with-spaces",
    "16-key-in-wrong-case",
    "16-key-unknown",
    "16-space-first",
    "16-space-last",
    "16-space-double",
    "16-space-alone",
]
WORD_REASONS = [
    "16-bare-opening",
    "16-bare-closing",
    "16-leading-zeros",
    "16-zeros-alone",
    "16-hundreds-of-zeros",
    "16-rule-above-by-one",
    "16-rule-above",
] + ["16-rule-that-wraps-at-%d-bits" % bits for bits in BITS] + [
    "16-rule-of-hundreds-of-digits",
    "16-signed-number",
    "16-name-in-a-bracket",
    "16-more-after-a-number",
    "16-two-brackets",
    "16-bracket-behind",
    "16-name-of-16",
    "16-name-longer",
    "16-tab",
    "16-byte-13",
    "16-byte-0",
    "16-byte-above-127",
    "16-other-byte",
    "16-byte-next-to-the-letters",
]
NAME_REASONS = [
    "17-differs-by-32-from-a-name",
    "17-front-of-a-name",
    "17-a-name-and-more",
    "17-digits",
    "17-of-15-bytes",
    "17-a-key",
]
REASONS = READ_REASONS + SHORT_REASONS + [
    "%d-at-%d" % (cause, line) for cause in LINE_CAUSES for line in (1, 2)
] + LINE_REASONS + WORD_REASONS + NAME_REASONS + [
    "grammar-%d" % cause for cause in GRAMMAR_CAUSES
] + [
    "grammar-18-by-case",
    "grammar-16-at-0",
    "grammar-16-at-1",
    "grammar-16-at-2",
    "grammar-16-at-a-rule",
] + ["order-grammar-%d-before-the-lines" % cause for cause in GRAMMAR_CAUSES] + [
    "order-grammar-%d-before-14" % cause for cause in GRAMMAR_CAUSES
] + [
    "order-16-before-an-earlier-17-in-line-1",
    "order-16-before-an-earlier-17-in-line-2",
    "order-16-before-a-later-17-in-line-1",
    "order-16-before-a-later-17-in-line-2",
    "order-16-past-line-2-before-17-at-2",
    "order-17-at-1-before-a-missing-line-2",
    "order-17-at-1-before-16-past-line-2",
] + ["order-%d-at-1-before-%d-at-2" % (first, second)
     for first in LINE_CAUSES for second in LINE_CAUSES] + [
    "order-%d-at-%d-before-14" % (cause, line) for cause in LINE_CAUSES for line in (1, 2)
] + RULES_REASONS + [TOLD[AFTER_14]]
ENOUGH = {**{name: FEWEST for name in RULES_REASONS}, "grammar-16-at-0": 12}     # long texts


class Line(NamedTuple):
    """A line without its byte 10, and all that comes after that byte."""

    number: int
    content: bytes
    ended: bool
    after: bytes


class Known(NamedTuple):
    """What the lines are tried against; None: whatever the grammar is."""

    rules: Optional[int]
    names: Optional[List[bytes]]

    @property
    def small(self) -> FrozenSet[bytes]:
        """The names in small letters."""
        return small_letters(tuple(self.names or []))


ANY = Known(None, None)


@lru_cache(maxsize=4096)
def small_letters(names: Tuple[bytes, ...]) -> FrozenSet[bytes]:
    return frozenset(name.lower() for name in names)


def reasons_of(text: bytes, lines: bytes, lent: LentStrings) -> List[str]:
    """Every reason of REASONS that this case meets."""
    result = read_back(text, lines, lent)
    if isinstance(result, Refused) and result.part == GRAMMAR:
        found = grammar_reasons(result.refusal, lines, lent)
        if result.refusal.cause == DECLARED_TWICE and is_by_case(text, result.refusal.position):
            found.append("grammar-18-by-case")
        if result.refusal.cause != NO_SENTENCE:
            return found
        told = [TOLD[AFTER_14]] if "order-grammar-19-before-14" in found else []
        return found + told + list(sentence_reasons(text, False))
    return line_reasons(text, lines, lent, result) + list(sentence_reasons(text, True))


def is_by_case(text: bytes, line: int) -> bool:
    """Whether the names that a text declares up to line 1 or 2 have different bytes each."""
    names = [name for first in text.split(b"\n")[:line]
             for name in first.partition(b"=")[2].split(b",")]
    return len(set(names)) == len(names)


@lru_cache(maxsize=4096)
def sentence_reasons(text: bytes, sentence: bool) -> Tuple[str, ...]:
    """Why a text has no sentence, or nearly none."""
    found = read_lines(text)
    assert isinstance(found, Text), "19 comes after all faults of the text"
    rules = loose_rules(found.table)
    assert has_tree(rules) == sentence
    return tuple(of_rules(rules))


def line_reasons(
    text: bytes, lines: bytes, lent: LentStrings, result: Union[Pair, Refused]
) -> List[str]:
    """The reasons of two lines of a good grammar."""
    known = known_in(text)
    found = faults_of(lines, known)
    if isinstance(result, Pair) or result.refusal.cause == ROW_TOO_SHORT:
        assert not found, "what is read is without fault"
        counts = LentStrings(*(len(pieces_of(line)) for line in lines_in(lines)))
        if isinstance(result, Refused):
            return short_reasons(counts, lent)
        assert counts == tuple(map(len, result)), "a letter for each word"
        return read_reasons(text, lines, result, lent)
    (line, causes), *later = found
    assert result.refusal == Refusal(causes[0], line.number), "the first fault"
    if causes[0] == MALFORMED:
        kinds = malformed_kinds(lines, line, known)
    else:
        kinds = unknown_kinds(line, known)
    return (["%d-at-%d" % result.refusal] + kinds + hidden_in_line(line, causes, known)
            + hidden_in_line_2(causes, later) + before_14(result.refusal, lines, lent))


# What is tried.

@lru_cache(maxsize=4096)
def known_in(text: bytes) -> Known:
    """The rules and names that a good text has, found by its lines' marks."""
    return Known(text.count(b"\n") - 2, declared_in(text))


@lru_cache(maxsize=4096)
def dead_in(text: bytes) -> FrozenSet[int]:
    """The numbers of the rules that no sentence of a good text uses."""
    named = named_in(text)
    assert isinstance(named, NamedGrammar)
    kinds = enumerate(rule_kinds(named.grammar))
    return frozenset(number for number, kind in kinds if kind is not None)


def lines_in(lines: bytes) -> List[Line]:
    """Lines 1 and 2; the second is missing where nothing follows the first."""
    first, end, after = lines.partition(b"\n")
    second, second_end, past = after.partition(b"\n")
    found = [Line(1, first, bool(end), after)]
    return found + ([Line(2, second, bool(second_end), past)] if after else [])


def pieces_of(line: Line) -> List[bytes]:
    """What the spaces part, of all after the equals sign, or of all without one."""
    key, equals, value = line.content.partition(b"=")
    value = value if equals else key
    return value.split(b" ") if value else []


def is_malformed(word: bytes, known: Known) -> bool:
    """Whether a word is neither a name, known or not, nor a bracket with a rule's number."""
    if NAME.fullmatch(word):
        return False
    found = NUMBERED.fullmatch(word)
    return found is None or (known.rules is not None and is_above(found.group(1), known.rules))


def is_above(digits: bytes, rules: int) -> bool:
    """Whether a number without leading zeros is above."""
    return len(digits) > FEW_DIGITS or int(digits) > rules


def is_unknown(word: bytes, known: Known) -> bool:
    """Whether a word is a good name that the grammar does not have."""
    return (NAME.fullmatch(word) is not None
            and known.names is not None and word.lower() not in known.small)


def causes_of(line: Line, known: Known) -> List[int]:
    """The line's causes, each test taken on its own as far as it can be."""
    pieces = pieces_of(line)
    malformed = (not line.ended or not line.content.startswith(KEYS[line.number - 1] + b"=")
                 or any(is_malformed(piece, known) for piece in pieces)
                 or (line.number == 2 and line.after != b""))
    unknown = any(is_unknown(piece, known) for piece in pieces)
    fails = [(MALFORMED, malformed), (UNKNOWN_NAME, unknown)]
    return [cause for cause, failed in fails if failed]


def faults_of(lines: bytes, known: Known) -> List[Tuple[Line, List[int]]]:
    """The lines at fault, a missing second one too, with their causes."""
    found = lines_in(lines)
    faults = [(line, causes_of(line, known)) for line in found]
    if len(found) == 1 and found[0].ended:
        faults.append((Line(2, b"", False, b""), [MALFORMED]))
    return [(line, causes) for line, causes in faults if causes]


# Reasons of what is read, and of 14.

@lru_cache(maxsize=4096)
def added(text: bytes) -> bytes:
    """What the program adds for a good text."""
    named = named_in(text)
    assert isinstance(named, NamedGrammar)
    return reading_lines(named)


def is_added(text: bytes, lines: bytes) -> bool:
    """Whether the program adds these lines; a look at their ends spares most searches."""
    values = [line.partition(b"=")[2] for line in lines.split(b"\n")[:2]]
    return (all(value.startswith(b"(0 ") and value.endswith(b" )0") for value in values)
            and lines == added(text))


def is_added_but_for_case(text: bytes, lines: bytes) -> bool:
    """Whether the program adds these lines with a name in another case."""
    values = [line.partition(b"=")[2] for line in lines.split(b"\n")[:2]]
    return (all(value.startswith(b"(0 ") and value.endswith(b" )0") for value in values)
            and lines != added(text) and lines.lower() == added(text).lower())


def read_reasons(text: bytes, lines: bytes, pair: Pair, lent: LentStrings) -> List[str]:
    """What the strings have in them, and how long the rows are."""
    known = known_in(text)
    left, right = map(len, pair)
    letters = set(pair.left + pair.right)
    rules = {number for kind, number in letters if kind in (OPENING, CLOSING)}
    codes = {number for kind, number in letters if kind == SYMBOL}
    words = {piece for line in lines_in(lines) for piece in pieces_of(line)}
    states = 4 + sum(line.count(b" ") + 1 for line in text.split(b"\n")[2:-1])
    met = [
        ("read", True),
        ("read-what-the-program-adds", is_added(text, lines)),
        ("read-only-left-empty", left == 0 < right),
        ("read-only-right-empty", right == 0 < left),
        ("read-both-empty", left == right == 0),
        ("read-256-letters", max(left, right) >= MANY_LETTERS),
        ("read-more-letters-than-a-witness-has", max(left, right) >= 2 * states * states),
        ("read-rule-0", 0 in rules),
        ("read-the-last-rule", known.rules in rules - {0}),
        ("read-rule-400", MAX_RULES in rules),
        ("read-a-rule-of-two-digits", any(10 <= rule < 100 for rule in rules)),
        ("read-a-dead-rule", not dead_in(text).isdisjoint(rules)),
        ("read-a-terminal", any(code < START for code in codes)),
        ("read-a-nonterminal", any(code >= START for code in codes)),
        ("read-terminal-2000", MAX_TERMINALS in codes),
        ("read-nonterminal-2000", START + MAX_NONTERMINALS - 1 in codes),
        ("read-a-name-of-15", any(len(word) == MAX_NAME for word in words)),
        ("read-a-name-of-digits", any(word.isdigit() for word in words)),
        ("read-not-opened-first", any(string and string[0] != (OPENING, 0) for string in pair)),
        ("read-rows-exactly-enough", lent == (left, right)),
        ("read-left-row-longer", lent.left > left),
        ("read-right-row-longer", lent.right > right),
    ]
    return [name for name, holds in met if holds] + spelled_reasons(text, lines, words)


def spelled_reasons(text: bytes, lines: bytes, words: Set[bytes]) -> List[str]:
    """How the names of two lines that are read are spelled."""
    declared = declared_in(text)
    spelled = {name.lower(): name for name in declared}
    terminals = set(declared_in(text.partition(b"\n")[0] + b"\n"))
    pairs = [(word, spelled[word.lower()]) for word in words if word[:1] not in (b"(", b")")]
    others = [pair for pair in pairs if pair[0] != pair[1]]
    assert all(differ_in_case(*pair) for pair in others), "otherwise it is 17"
    with_letters = [word for word, _ in pairs if word.lower() != word.upper()]
    uses = {use for line in text.split(b"\n")[2:-1] for use in uses_in(line)}
    met = [
        ("read-a-terminal-in-another-case", any(name in terminals for _, name in others)),
        ("read-a-nonterminal-in-another-case", any(name not in terminals for _, name in others)),
        ("read-every-name-in-another-case", 0 < len(others) == len(with_letters)),
        ("read-a-name-that-differs-in-its-first-letter-alone",
         any(not rest_differs(*pair) for pair in others)),
        ("read-a-name-that-differs-behind-its-first-letter",
         any(not first_differs(*pair) for pair in others)),
        ("read-a-name-spelled-as-a-rule-uses-it", any(word in uses for word, _ in others)),
        ("read-as-declared-though-rules-use-another-case",
         bool(with_letters) and not others and text != as_declared(text)),
        ("read-what-the-program-adds-in-another-case", is_added_but_for_case(text, lines)),
        ("read-names-that-differ-by-32",
         len(pairs) < 9 and any(differ_by_32(one, other) for _, one in pairs for _, other in pairs)),
    ]
    return [name for name, holds in met if holds]


def short_reasons(counts: LentStrings, lent: LentStrings) -> List[str]:
    """Which row is too short."""
    left, right = lent.left - counts.left, lent.right - counts.right
    met = [
        ("14-only-left-by-one", left == -1 and right >= 0),
        ("14-only-right-by-one", right == -1 and left >= 0),
        ("14-both-by-one", left == right == -1),
        ("14-left-longer-right-short", left > 0 > right),
        ("14-left-short-right-longer", right > 0 > left),
        ("14-no-left-row", lent.left == 0 < lent.right),
        ("14-no-right-row", lent.right == 0 < lent.left),
        ("14-neither-row", lent == (0, 0)),
        ("14-rows-exchanged", lent == (counts.right, counts.left)),
    ]
    return [name for name, holds in met if holds]


# Reasons of 16.

def malformed_kinds(lines: bytes, line: Line, known: Known) -> List[str]:
    """How the line is malformed; a wrong key or end hides what its value has."""
    if not line.ended:
        return [end_kind(lines, line)]
    kinds = past_kinds(lines, line) if line.number == 2 else []
    key, equals, value = line.content.partition(b"=")
    if not line.content:
        return kinds + ["16-blank-line"]
    if not equals:
        return kinds + ["16-no-equals-sign"]
    if key != KEYS[line.number - 1]:
        by_case = differ_in_case(key, KEYS[line.number - 1])
        return kinds + key_kinds(lines, key) + ["16-key-in-wrong-case"] * by_case
    kinds += ["16-two-equals-signs"] if b"=" in value else []
    words = [kind for word in value.split(b" ") if word and is_malformed(word, known)
             for kind in word_kinds(word, known)]
    return kinds + space_kinds(value) + sorted(set(words))


def end_kind(lines: bytes, line: Line) -> str:
    """What a line without its byte 10 is."""
    if line.number == 2:
        return "16-line-2-without-byte-10" if line.content else "16-line-2-missing"
    return "16-no-byte-10" if lines else "16-no-lines"


def past_kinds(lines: bytes, line: Line) -> List[str]:
    """What comes after line 2."""
    past = line.after
    met = [
        ("16-past-line-2-byte-10", past.startswith(b"\n")),
        ("16-past-line-2-a-line", past.find(b"\n") > 0),
        ("16-past-line-2-no-whole-line", bool(past) and b"\n" not in past),
        ("16-past-line-2-both-lines-again", past != b"" and lines == past + past),
    ]
    return [name for name, holds in met if holds]


def key_kinds(lines: bytes, key: bytes) -> List[str]:
    """What stands in the place of the right key."""
    if key in KEYS:
        found = [line.partition(b"=")[0] for line in lines.split(b"\n")[:2]]
        met = [("16-left-twice", found == [b"left"] * 2),
               ("16-right-twice", found == [b"right"] * 2),
               ("16-lines-exchanged", found == [b"right", b"left"])]
        return [name for name, holds in met if holds]
    if key.replace(b" ", b"").lower() in KEYS:
        return ["16-key-in-wrong-case-or-with-spaces"]
    return ["16-key-unknown"]


def space_kinds(value: bytes) -> List[str]:
    """Spaces in wrong places."""
    inner = value.strip(b" ")
    met = [
        ("16-space-first", inner != b"" and value.startswith(b" ")),
        ("16-space-last", inner != b"" and value.endswith(b" ")),
        ("16-space-double", b"  " in inner),
        ("16-space-alone", value != b"" and inner == b""),
    ]
    return [name for name, holds in met if holds]


def word_kinds(word: bytes, known: Known) -> List[str]:
    """How a word is malformed."""
    kinds = byte_kinds(word)
    if word[:1] in (b"(", b")"):
        return kinds + bracket_kinds(word, known)
    if b"(" in word or b")" in word:
        return kinds + ["16-bracket-behind"]
    if not kinds:
        kinds.append("16-name-of-16" if len(word) == MAX_NAME + 1 else "16-name-longer")
    return kinds


def byte_kinds(word: bytes) -> List[str]:
    """The bytes of a word that no letter of any grammar has."""
    others = word.translate(None, b"\t\r\0()" + bytes(range(128, 256)))
    met = [
        ("16-tab", b"\t" in word),
        ("16-byte-13", b"\r" in word),
        ("16-byte-0", b"\0" in word),
        ("16-byte-above-127", max(word) > 127),
        ("16-other-byte", re.search(rb"[^-0-9A-Za-z]", others) is not None),
        ("16-byte-next-to-the-letters", NAME.fullmatch(word) is None and NAME.fullmatch(
            word.translate(bytes.maketrans(NEXT_TO_LETTERS, b"abcd"))) is not None),
    ]
    return [name for name, holds in met if holds]


def bracket_kinds(word: bytes, known: Known) -> List[str]:
    """How a word that begins with a bracket is malformed."""
    rest = word[1:]
    if not rest:
        return ["16-bare-opening" if word == b"(" else "16-bare-closing"]
    if rest.isdigit():
        return zero_kinds(rest) if rest[:1] == b"0" else number_kinds(rest, known)
    met = [
        ("16-signed-number", SIGNED.fullmatch(word) is not None),
        ("16-name-in-a-bracket", NAME.fullmatch(rest) is not None and not rest[:1].isdigit()),
        ("16-more-after-a-number", rest[:1].isdigit() and b"(" not in rest and b")" not in rest),
        ("16-two-brackets", b"(" in rest or b")" in rest),
    ]
    return [name for name, holds in met if holds]


def zero_kinds(digits: bytes) -> List[str]:
    """Numbers that begin with a zero and are not 0."""
    if not digits.strip(b"0"):
        return ["16-zeros-alone"]
    return ["16-leading-zeros" if len(digits) < MANY_DIGITS else "16-hundreds-of-zeros"]


def number_kinds(digits: bytes, known: Known) -> List[str]:
    """Numbers that are too large."""
    if len(digits) >= MANY_DIGITS:
        return ["16-rule-of-hundreds-of-digits"]
    rules, value = known.rules or 0, int(digits)
    kinds = ["16-rule-that-wraps-at-%d-bits" % bits for bits in BITS
             if value >= 2 ** bits and value % 2 ** bits <= rules]
    return kinds + ["16-rule-above-by-one" if value == rules + 1 else "16-rule-above"]


# Reasons of 17.

def unknown_kinds(line: Line, known: Known) -> List[str]:
    """How the line's unknown names are like known ones, or like something else."""
    names = known.names or []
    kinds = set()
    for word in pieces_of(line):
        if is_unknown(word, known):
            met = [
                ("17-differs-by-32-from-a-name", any(differ_by_32(word, name) for name in names)),
                ("17-front-of-a-name",
                 any(name.lower().startswith(word.lower()) for name in names)),
                ("17-a-name-and-more",
                 any(word.lower().startswith(name.lower()) for name in names)),
                ("17-digits", word.isdigit()),
                ("17-of-15-bytes", len(word) == MAX_NAME),
                ("17-a-key", word in KEYS),
            ]
            kinds.update(name for name, holds in met if holds)
    return sorted(kinds)


# What the order hides.

def hidden_in_line(line: Line, causes: Sequence[int], known: Known) -> List[str]:
    """17 in a line that is refused with 16."""
    if list(causes) != [MALFORMED, UNKNOWN_NAME]:
        return []
    names = ["order-16-past-line-2-before-17-at-2"] if line.number == 2 and line.after else []
    pieces = pieces_of(line)
    bad = [place for place, word in enumerate(pieces) if is_malformed(word, known)]
    unknown = [place for place, word in enumerate(pieces) if is_unknown(word, known)]
    if bad and unknown[0] < bad[0]:
        names.append("order-16-before-an-earlier-17-in-line-%d" % line.number)
    if bad and unknown[-1] > bad[0]:
        names.append("order-16-before-a-later-17-in-line-%d" % line.number)
    return names


def hidden_in_line_2(
    causes: Sequence[int], later: Sequence[Tuple[Line, Sequence[int]]]
) -> List[str]:
    """What is wrong with line 2 where line 1 is refused."""
    if not later:
        return []
    (line, hidden), = later
    if causes[0] == UNKNOWN_NAME and not line.content and not line.ended:
        return ["order-17-at-1-before-a-missing-line-2"]
    names = ["order-%d-at-1-before-%d-at-2" % (causes[0], hidden[0])]
    if causes[0] == UNKNOWN_NAME and line.after:
        names.append("order-17-at-1-before-16-past-line-2")
    return names


def before_14(refusal: Refusal, lines: bytes, lent: LentStrings) -> List[str]:
    """No rows, though a line has words."""
    if lent == (0, 0) and any(pieces_of(line) for line in lines_in(lines)):
        return ["order-%d-at-%d-before-14" % refusal]
    return []


def grammar_reasons(refusal: Refusal, lines: bytes, lent: LentStrings) -> List[str]:
    """The grammar's refusal, and what the lines and rows have that comes after it."""
    cause, position = refusal
    names = ["grammar-%d" % cause]
    if cause == MALFORMED:
        names.append("grammar-16-at-%s" % (position if position < 3 else "a-rule"))
    if faults_of(lines, ANY):
        names.append("order-grammar-%d-before-the-lines" % cause)
    elif lent == (0, 0) and any(pieces_of(line) for line in lines_in(lines)):
        names.append("order-grammar-%d-before-14" % cause)
    return names
