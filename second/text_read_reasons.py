"""Sorts the reader's cases by reasons finer than the causes.

Lines are tested here by patterns, each test on its own, so that faults which
the order hides are found too. The first of them must be the reader's refusal.
"""

import re
from typing import Dict, List, NamedTuple, Sequence, Tuple

import sentence_reasons
from sentence_misreadings import AFTER_14, BEFORE_8, TOLD
from sentence_reasons import CAUSE, RULES_REASONS, has_tree, of_rules
from spelling_reasons import (
    NEXT_TO_LETTERS, declared_in, differ_by_32, differ_in_case, first_differs, has_apart,
    rest_differs, uses_in,
)
from tables import (
    EQUAL_RULE, FIXED_STATES, HEADER, MAX_LENGTH, MAX_NONTERMINALS, MAX_RULES,
    MAX_STATES, MAX_TERMINALS, NO_SENTENCE, OUT_OF_RANGE, START, TOO_LONG, TOO_MANY_RULES,
    TOO_MANY_STATES, Codes, Refusal, RuleCodes,
)
from text import (
    DECLARED_TWICE, KEYS, MALFORMED, MAX_NAME, MAX_TEXT, ROW_TOO_SHORT,
    UNKNOWN_NAME, Lent, Line, Text, read_lines, read_text, split_lines,
)

NAME = rb"[-0-9A-Za-z]{1,15}"
LIST = rb"(?:" + NAME + rb"(?:," + NAME + rb")*)?"
FORMS = [re.compile(pattern) for pattern in (
    rb"terminals=" + LIST,
    rb"nonterminals=" + LIST,
    rb"rule=" + NAME + rb":(?: " + NAME + rb")*",
)]
WHOLE_NAME = re.compile(NAME)
BAD_BYTE = re.compile(rb"[^-0-9A-Za-z]")
MANY = 2003              # names in a line "of thousands"

# The faults that one line can have together, in the order of tests.
IN_LINE = [(16, 18), (16, 1), (18, 1), (16, 17), (16, 4), (17, 4)]
# A fault, and one on a later line that would come first in one line.
LATER_LINE = [(18, 16), (1, 16), (1, 18), (17, 16), (4, 16), (4, 17)]
# The faults that one rule can have together, and those of an earlier and a
# later rule; all rules after one that passes Q = 1,024 pass it as well.
IN_RULE = [(7, 6), (7, 8), (6, 8)]
LATER_RULE = [(6, 7), (6, 8), (8, 7), (8, 6)]
LINE_CAUSES = (MALFORMED, UNKNOWN_NAME, TOO_LONG)
RULE_CAUSES = (TOO_MANY_RULES, EQUAL_RULE, TOO_MANY_STATES)

REASONS = [
    "read",
    "read-no-terminals",
    "read-2000-terminals",
    "read-2000-nonterminals",
    "read-a-name-of-15",
    "read-an-empty-rule",
    "read-k-of-12",
    "read-400-rules",
    "read-1024-states",
    "read-rows-exactly-enough",
    "read-rows-all-longer",
    "16-text-of-262145-bytes",
    "16-text-longer",
    "text-of-262144-bytes",
    "16-line-1-missing",
    "16-line-2-missing",
    "16-in-line-1",
    "16-in-line-2",
    "16-in-a-rule-line",
    "16-last-line-without-byte-10",
    "16-blank-line",
    "16-no-equals-sign",
    "16-key-of-another-line",
    "16-key-in-wrong-case-or-with-spaces",
    "16-key-unknown",
    "16-name-empty-in-a-list",
    "16-name-of-16",
    "16-name-longer",
    "16-byte-13",
    "16-bad-byte-in-a-name",
    "16-rule-without-colon",
    "16-rule-with-two-colons",
    "16-rule-without-left-name",
    "16-rule-without-space-after-colon",
    "16-rule-with-space-at-its-end",
    "16-rule-with-double-space",
    "17-left-unknown",
    "17-left-a-terminal",
    "17-right-unknown",
    "18-among-terminals",
    "18-among-nonterminals",
    "18-across-the-lists",
    "18-in-a-line-of-thousands",
    "18-before-1-on-line-1",
    "18-before-1-on-line-2",
    "18-before-1-across-both-lines",
    "1-2001-terminals",
    "1-more-terminals",
    "1-no-nonterminals",
    "1-2001-nonterminals",
    "1-more-nonterminals",
    "1-in-a-line-of-thousands",
    "4-k-of-13",
    "4-k-above-13",
    "6-next-to-the-earlier-rule",
    "6-further-away",
    "7-a-401st-rule",
    "8-by-one-state",
    "8-by-more",
    "14-only-the-table-by-one",
    "14-only-the-starts-by-one",
    "14-only-the-lengths-by-one",
    "14-otherwise",
    "order-16-at-0-before-a-line",
    "order-16-at-0-before-a-rule",
    "order-18-before-a-missing-line",
    "order-1-before-a-missing-line",
    "read-with-capitals-as-declared",
    "read-every-use-in-another-case",
    "read-a-left-name-in-another-case",
    "read-a-terminal-in-another-case",
    "read-a-nonterminal-in-another-case",
    "read-a-use-that-differs-in-its-first-letter-alone",
    "read-a-use-that-differs-behind-its-first-letter",
    "read-2000-names-and-a-use-in-another-case",
    "read-names-that-differ-by-32",
    "14-and-a-use-in-another-case",
    "19-and-a-use-in-another-case",
    "16-key-in-wrong-case",
    "16-byte-next-to-the-letters",
    "16-bytes-next-to-the-letters-in-two-names",
    "17-left-a-terminal-in-another-case",
    "17-differs-by-32-from-a-name",
    "6-equal-but-for-case",
] + ["18-by-case-" + where for where in (
    "among-terminals", "among-nonterminals", "across-the-lists", "in-the-first-letter-alone",
    "behind-the-first-letter", "of-15-bytes", "before-1-on-line-1", "before-1-on-line-2",
    "before-1-across-both-lines", "in-a-line-of-thousands")] + [
    "order-16-before-18-by-case-in-a-line",
] + ["order-%d-before-%d-in-a-line" % pair for pair in IN_LINE] + [
    "order-%d-before-%d-on-a-later-line" % pair for pair in LATER_LINE
] + [
    "order-%d-before-%d-of-an-earlier-rule" % (line, rule)
    for line in LINE_CAUSES for rule in RULE_CAUSES
] + ["order-%d-before-%d-of-a-rule" % pair for pair in IN_RULE] + [
    "order-%d-before-%d-of-a-later-rule" % pair for pair in LATER_RULE
] + ["order-%d-before-14" % cause for cause in (16, 18, 1, 17, 4, 7, 6, 8, 19)] + [
    CAUSE,
    "19-400-rules",
    "19-1024-states",
] + RULES_REASONS + [
    "order-%d-before-19" % cause for cause in LINE_CAUSES + RULE_CAUSES
] + [TOLD[BEFORE_8], TOLD[AFTER_14]]

# Long texts are few.
ENOUGH = {**sentence_reasons.ENOUGH, "16-text-of-262145-bytes": 12, "16-text-longer": 5,
          "text-of-262144-bytes": 12, "order-16-at-0-before-a-line": 12,
          "order-16-at-0-before-a-rule": 3, "read-2000-names-and-a-use-in-another-case": 8}


class Faults(NamedTuple):
    """A place's refused number (line or offset) and all its causes in order."""

    position: int
    causes: List[int]


def reasons_of(text: bytes, lent: Lent) -> List[str]:
    """Every reason of REASONS that this case meets."""
    result = read_text(text, lent)
    names = ["text-of-262144-bytes"] if len(text) == MAX_TEXT else []
    if isinstance(result, Text):
        assert not has_faults(text), "what is read is without fault"
        rules = rules_of(result.table)
        assert has_tree(rules), "what is read has a sentence"
        return names + passed_reasons(result, lent) + spelled_reasons(text, result) + of_rules(rules)
    if result.cause == NO_SENTENCE:
        return names + none_reasons(text, lent)
    if len(text) > MAX_TEXT:
        names += too_long_reasons(text)
    elif result.cause == ROW_TOO_SHORT:
        names += short_reasons(text, lent)
    else:
        names += fault_reasons(text, result)
    if result.cause != ROW_TOO_SHORT and 0 in (lent.starts, lent.lengths):
        names.append("order-%d-before-14" % result.cause)
    return names


def passed_reasons(result: Text, lent: Lent) -> List[str]:
    """The limits that a text which is read reaches."""
    rules = rules_of(result.table)
    spare = spare_of(result, lent)
    met = [
        ("read", True),
        ("read-no-terminals", result.terminals == 0),
        ("read-2000-terminals", result.terminals == MAX_TERMINALS),
        ("read-2000-nonterminals", result.nonterminals == MAX_NONTERMINALS),
        ("read-a-name-of-15", MAX_NAME in result.lengths),
        ("read-an-empty-rule", any(not right for _, right in rules)),
        ("read-k-of-12", any(len(right) == MAX_LENGTH for _, right in rules)),
        ("read-400-rules", len(rules) == MAX_RULES),
        ("read-1024-states", result.states == MAX_STATES),
        ("read-rows-exactly-enough", spare == (0, 0, 0)),
        ("read-rows-all-longer", min(spare) > 0),
    ]
    return [name for name, holds in met if holds]


def none_reasons(text: bytes, lent: Lent) -> List[str]:
    """Why a text has no sentence, the limits that it reaches, and what the order hides."""
    assert not has_faults(text), "19 comes after all faults of the text"
    result = read_lines(text)
    assert isinstance(result, Text)
    rules = rules_of(result.table)
    assert not has_tree(rules), "19 only without a sentence"
    short = min(spare_of(result, lent)) < 0
    met = [
        (CAUSE, True),
        ("19-400-rules", len(rules) == MAX_RULES),
        ("19-1024-states", result.states == MAX_STATES),
        ("order-19-before-14", short),
        (TOLD[AFTER_14], short),
        ("19-and-a-use-in-another-case", has_use_in_another_case(text)),
    ]
    return [name for name, holds in met if holds] + of_rules(rules)


def other_spellings(text: bytes) -> List[Tuple[bytes, bytes, bool]]:
    """The uses in a good text that are not as declared: use, declaration, whether it is a left name."""
    declared = {name.lower(): name for name in declared_in(text)}
    uses = [(use, declared[use.lower()], place == 0) for line in text.split(b"\n")[2:-1]
            for place, use in enumerate(uses_in(line))]
    found = [use for use in uses if use[0] != use[1]]
    assert all(differ_in_case(use, name) for use, name, _ in found), "otherwise it is 17"
    return found


def has_use_in_another_case(text: bytes) -> bool:
    return bool(other_spellings(text))


def spelled_reasons(text: bytes, result: Text) -> List[str]:
    """How the uses of a text that is read are spelled, and names that are nearly the same."""
    names = declared_in(text)
    assert [text[start:start + length] for start, length in zip(
        result.starts, result.lengths)] == names, "starts and lengths are the declarations'"
    assert len(set(name.lower() for name in names)) == len(names), "otherwise it is 18"
    kinds = set(names[:result.terminals])
    found = other_spellings(text)
    with_letters = sum(use.lower() != use.upper() for line in text.split(b"\n")[2:-1]
                       for use in uses_in(line))
    met = [
        ("read-with-capitals-as-declared", not found and text.lower() != text),
        ("read-every-use-in-another-case", 0 < len(found) == with_letters),
        ("read-a-left-name-in-another-case", any(left for _, _, left in found)),
        ("read-a-terminal-in-another-case", any(name in kinds for _, name, _ in found)),
        ("read-a-nonterminal-in-another-case",
         any(name not in kinds for _, name, left in found if not left)),
        ("read-a-use-that-differs-in-its-first-letter-alone",
         any(not rest_differs(use, name) for use, name, _ in found)),
        ("read-a-use-that-differs-behind-its-first-letter",
         any(not first_differs(use, name) for use, name, _ in found)),
        ("read-2000-names-and-a-use-in-another-case",
         bool(found) and max(result.terminals, result.nonterminals) == MAX_TERMINALS),
        ("read-names-that-differ-by-32", has_apart(names)),
    ]
    return [name for name, holds in met if holds]


def rules_of(table: Codes) -> List[RuleCodes]:
    """The rules of a checked table."""
    rules = []
    offset = 0
    while offset < len(table):
        body = offset + HEADER
        offset = body + table[offset + 1]
        rules.append((table[body - HEADER], table[body:offset]))
    return rules


def spare_of(result: Text, lent: Lent) -> Tuple[int, int, int]:
    """How many entries each row has more than needed; negative if too short."""
    return (lent.table - len(result.table), lent.starts - len(result.starts),
            lent.lengths - len(result.lengths))


def too_long_reasons(text: bytes) -> List[str]:
    """A text of more than 262,144 bytes: always one with another fault."""
    names = ["16-text-of-262145-bytes" if len(text) == MAX_TEXT + 1 else "16-text-longer"]
    inner = read_lines(text)
    assert isinstance(inner, Refusal), "no text is read that is so long"
    kind = "rule" if inner.cause in RULE_CAUSES else "line"
    return names + ["order-16-at-0-before-a-" + kind]


def short_reasons(text: bytes, lent: Lent) -> List[str]:
    """Which row is too short."""
    result = read_lines(text)
    assert isinstance(result, Text), "14 comes last"
    names = ["14-and-a-use-in-another-case"] if has_use_in_another_case(text) else []
    short = [min(0, spare) for spare in spare_of(result, lent)]
    for row, name in enumerate(Lent._fields):
        if short[row] == -1 and sum(short) == -1:
            return names + ["14-only-the-%s-by-one" % name]
    return names + ["14-otherwise"]


# Faults of lines.

def has_faults(text: bytes) -> bool:
    """Whether any line or rule of the text is at fault."""
    lines = split_lines(text)
    names = [list_pieces(line) for line in lines[:2]]
    codes = loose_codes(names)
    return (bool(faults_of_lines(lines, names, codes))
            or bool(faults_of_rules([codes_of(line, codes) for line in lines[2:]])))


def fault_reasons(text: bytes, refusal: Refusal) -> List[str]:
    """What is wrong in the refused place, and the faults that the order hides."""
    lines = split_lines(text)
    names = [list_pieces(line) for line in lines[:2]]
    codes = loose_codes(names)
    found = faults_of_lines(lines, names, codes)
    if not found:
        rules = [codes_of(line, codes) for line in lines[2:]]
        return (rule_fault_reasons(rules, refusal) + equal_kinds(lines[2:], rules, refusal)
                + hidden_sentence(rules, refusal.cause))
    first = found[0]
    assert refusal == Refusal(first.causes[0], first.position), "the first fault"
    wrong = {faults.position for faults in found}
    others = [codes_of(line, codes) for line in lines[2:] if line.number not in wrong]
    return (finer_line(lines, names, codes, refusal)
            + hidden_in_line(first)
            + hidden_by_case(first, names)
            + hidden_on_later_lines(found, len(lines))
            + hidden_in_earlier_rules(lines, codes, refusal)
            + (hidden_sentence(others, refusal.cause) if refusal.position > 2 else []))


def hidden_sentence(rules: Sequence[RuleCodes], cause: int) -> List[str]:
    """Whether the rules of the lines without fault have no sentence."""
    if has_tree(rules):
        return []
    told = [TOLD[BEFORE_8]] if cause == TOO_MANY_STATES else []
    return ["order-%d-before-19" % cause] + told


def faults_of_lines(
    lines: Sequence[Line], names: Sequence[List[bytes]], codes: Dict[bytes, int]
) -> List[Faults]:
    """The lines at fault, missing ones last."""
    found = [faults_of_line(line, names, codes) for line in lines]
    found += [Faults(place, [MALFORMED]) for place in (1, 2) if place > len(lines)]
    return [faults for faults in found if faults.causes]


def faults_of_line(
    line: Line, names: Sequence[Sequence[bytes]], codes: Dict[bytes, int]
) -> Faults:
    """The line's faults, each test taken on its own as far as it can be."""
    place = min(line.number, 3) - 1
    fails = [(MALFORMED, not line.ended or not FORMS[place].fullmatch(line.content))]
    if place < 2:
        declared = [name for kind in names[:place + 1] for name in kind]
        most = (MAX_TERMINALS, MAX_NONTERMINALS)[place]
        empty = place == 1 and line.content.endswith(b"=") and not names[1]
        fails += [(DECLARED_TWICE, has_double(declared)),
                  (OUT_OF_RANGE, empty or len(names[place]) > most)]
    else:
        left, right = rule_pieces(line)
        fails += [(UNKNOWN_NAME, bool(unknown_kinds(left, right, codes))),
                  (TOO_LONG, len(right) > MAX_LENGTH)]
    return Faults(line.number, [cause for cause, failed in fails if failed])


def has_double(names: Sequence[bytes]) -> bool:
    """Whether some name is there twice, in whatever case."""
    return len({name.lower() for name in names}) < len(names)


def value_pieces(line: Line) -> bytes:
    """What stands after the equals sign, or all if there is none."""
    return line.content.partition(b"=")[2] if b"=" in line.content else line.content


def list_pieces(line: Line) -> List[bytes]:
    """The names of a list, also of a malformed one; empty ones left out."""
    return [piece for piece in value_pieces(line).split(b",") if piece]


def rule_pieces(line: Line) -> Tuple[bytes, List[bytes]]:
    """The names of a rule, also of a malformed one; empty ones left out."""
    left, _, rest = value_pieces(line).partition(b":")
    return left, [piece for piece in rest.split(b" ") if piece]


def loose_codes(names: Sequence[Sequence[bytes]]) -> Dict[bytes, int]:
    """The codes of names in small letters, of lists at fault as well; past 2,000 all alike."""
    codes: Dict[bytes, int] = {}
    for first, kind in zip((1, START), names):
        for place, name in enumerate(kind):
            codes.setdefault(name.lower(), first + min(place, MAX_TERMINALS - 1))
    return codes


def unknown_kinds(
    left: bytes, right: Sequence[bytes], codes: Dict[bytes, int]
) -> List[str]:
    """How well-formed names of this rule are unknown or of the wrong kind."""
    kinds = []
    if WHOLE_NAME.fullmatch(left):
        if left.lower() not in codes:
            kinds.append("17-left-unknown")
        elif codes[left.lower()] < START:
            kinds.append("17-left-a-terminal")
    if any(WHOLE_NAME.fullmatch(name) and name.lower() not in codes for name in right):
        kinds.append("17-right-unknown")
    return kinds


def unknown_by_case(left: bytes, right: Sequence[bytes], names: Sequence[List[bytes]]) -> List[str]:
    """How names that are 17 differ from declared ones, in case or nearly so."""
    declared = [name for kind in names for name in kind]
    unknown = [name for name in [left, *right]
               if not any(name.lower() == other.lower() for other in declared)]
    met = [
        ("17-left-a-terminal-in-another-case",
         left not in declared and any(differ_in_case(left, name) for name in names[0])),
        ("17-differs-by-32-from-a-name",
         any(differ_by_32(use, name) for use in unknown for name in declared)),
    ]
    return [name for name, holds in met if holds]


def finer_line(
    lines: Sequence[Line], names: Sequence[List[bytes]], codes: Dict[bytes, int],
    refusal: Refusal
) -> List[str]:
    """The reasons behind the first fault of the refused line."""
    if refusal.position > len(lines):
        return ["16-line-%d-missing" % refusal.position]
    line = lines[refusal.position - 1]
    if refusal.cause == MALFORMED:
        place = min(line.number, 3) - 1
        where = ("line-1", "line-2", "a-rule-line")[place]
        return ["16-in-" + where] + malformed_kinds(line, place)
    if refusal.cause == DECLARED_TWICE:
        return double_kinds(names[:line.number])
    if refusal.cause == OUT_OF_RANGE:
        return count_kinds(line.number, len(names[line.number - 1]))
    left, right = rule_pieces(line)
    if refusal.cause == UNKNOWN_NAME:
        return unknown_kinds(left, right, codes) + unknown_by_case(left, right, names)
    return ["4-k-of-13" if len(right) == MAX_LENGTH + 1 else "4-k-above-13"]


def malformed_kinds(line: Line, place: int) -> List[str]:
    """How the line is malformed; a wrong key hides what its value has."""
    if not line.ended:
        return ["16-last-line-without-byte-10"]
    if not line.content:
        return ["16-blank-line"]
    key, equals, value = line.content.partition(b"=")
    if not equals:
        return ["16-no-equals-sign"]
    if key != KEYS[place]:
        by_case = differ_in_case(key, KEYS[place])
        return [key_kind(key)] + ["16-key-in-wrong-case"] * by_case
    return sorted(set(list_kinds(value) if place < 2 else rule_kinds(value)))


def key_kind(key: bytes) -> str:
    """What stands in the place of the right key."""
    if key in KEYS:
        return "16-key-of-another-line"
    if key.replace(b" ", b"").lower() in KEYS:
        return "16-key-in-wrong-case-or-with-spaces"
    return "16-key-unknown"


def name_kinds(name: bytes) -> List[str]:
    """How a name that is not empty is malformed."""
    kinds = []
    if b"\r" in name:
        kinds.append("16-byte-13")
    if BAD_BYTE.search(name.replace(b"\r", b"")):
        kinds.append("16-bad-byte-in-a-name")
        if not BAD_BYTE.search(name.translate(None, NEXT_TO_LETTERS)):
            kinds.append("16-byte-next-to-the-letters")
    if not kinds and len(name) > MAX_NAME:
        kinds.append("16-name-of-16" if len(name) == MAX_NAME + 1 else "16-name-longer")
    return kinds


def list_kinds(value: bytes) -> List[str]:
    """How the names of a list are malformed."""
    pieces = value.split(b",")
    kinds = [] if all(pieces) else ["16-name-empty-in-a-list"]
    if any(differ_by_32(one, other) and one.translate(None, NEXT_TO_LETTERS) == other.translate(
            None, NEXT_TO_LETTERS) for one, other in zip(pieces, pieces[1:])):
        kinds.append("16-bytes-next-to-the-letters-in-two-names")
    return kinds + [kind for piece in pieces for kind in name_kinds(piece)]


def rule_kinds(value: bytes) -> List[str]:
    """How a rule is malformed."""
    left, _, rest = value.partition(b":")
    met = [
        ("16-rule-without-colon", b":" not in value),
        ("16-rule-with-two-colons", b":" in rest),
        ("16-rule-without-left-name", value.startswith(b":")),
        ("16-rule-without-space-after-colon", bool(rest) and not rest.startswith(b" ")),
        ("16-rule-with-space-at-its-end", rest.endswith(b" ")),
        ("16-rule-with-double-space", b"  " in rest),
    ]
    kinds = [name for name, holds in met if holds]
    pieces = [left] + rest.replace(b":", b" ").split(b" ")
    return kinds + [kind for piece in pieces for kind in name_kinds(piece)]


def double_kinds(names: Sequence[List[bytes]]) -> List[str]:
    """Where the equal names of the last of these lists stand, and whether case tells them apart."""
    own, earlier = names[-1], names[:-1]
    kinds = []
    if has_double(own):
        kinds.append("18-among-nonterminals" if earlier else "18-among-terminals")
    if earlier and {name.lower() for name in own} & {name.lower() for name in earlier[0]}:
        kinds.append("18-across-the-lists")
    kinds += many_kinds(len(own), kinds)
    declared = [name for kind in names for name in kind]
    if len(set(declared)) < len(declared):
        return kinds
    return kinds + by_case_kinds(kinds, declared)


def by_case_kinds(kinds: Sequence[str], declared: Sequence[bytes]) -> List[str]:
    """The same where no two names have the same bytes, and how they differ."""
    first: Dict[bytes, bytes] = {}
    pairs = [(name, first[name.lower()]) for name in declared
             if first.setdefault(name.lower(), name) != name]
    assert pairs and all(differ_in_case(*pair) for pair in pairs)
    met = [
        ("18-by-case-in-the-first-letter-alone", any(not rest_differs(*pair) for pair in pairs)),
        ("18-by-case-behind-the-first-letter", any(not first_differs(*pair) for pair in pairs)),
        ("18-by-case-of-15-bytes", any(len(name) == MAX_NAME for name, _ in pairs)),
    ]
    return (["18-by-case-" + kind[len("18-"):] for kind in kinds]
            + [name for name, holds in met if holds])


def many_kinds(count: int, kinds: Sequence[str]) -> List[str]:
    """Where the double stands if the line has too many names as well."""
    if count <= MAX_TERMINALS:
        return []
    where = ("on-line-1" if "18-among-terminals" in kinds
             else "on-line-2" if "18-among-nonterminals" in kinds else "across-both-lines")
    return ["18-before-1-" + where] + ["18-in-a-line-of-thousands"] * (count > MANY)


def count_kinds(number: int, count: int) -> List[str]:
    """How many names line `number` declares."""
    what = ("terminals", "nonterminals")[number - 1]
    if count == 0:
        return ["1-no-" + what]
    kinds = ["1-2001-" + what if count == 2001 else "1-more-" + what]
    return kinds + (["1-in-a-line-of-thousands"] if count > MANY else [])


def hidden_in_line(first: Faults) -> List[str]:
    """The other faults of the refused line."""
    pairs = [(first.causes[0], cause) for cause in first.causes[1:]]
    return ["order-%d-before-%d-in-a-line" % pair for pair in pairs if pair in IN_LINE]


def hidden_by_case(first: Faults, names: Sequence[List[bytes]]) -> List[str]:
    """18 by case alone in a line that is refused with 16."""
    declared = [name for kind in names[:first.position] for name in kind]
    by_case = len(set(declared)) == len(declared)
    if first.causes[:2] == [MALFORMED, DECLARED_TWICE] and by_case:
        return ["order-16-before-18-by-case-in-a-line"]
    return []


def hidden_on_later_lines(found: Sequence[Faults], count: int) -> List[str]:
    """The faults of later lines that would come first in one line."""
    cause = found[0].causes[0]
    later = {other for faults in found[1:] for other in faults.causes
             if faults.position <= count}
    names = ["order-%d-before-%d-on-a-later-line" % (cause, other)
             for other in sorted(later) if (cause, other) in LATER_LINE]
    if found[-1].position > count and cause in (DECLARED_TWICE, OUT_OF_RANGE):
        names.append("order-%d-before-a-missing-line" % cause)
    return names


# Faults of rules.

def codes_of(line: Line, codes: Dict[bytes, int]) -> RuleCodes:
    """The rule of a line without faults."""
    left, right = rule_pieces(line)
    return codes[left.lower()], tuple(codes[name.lower()] for name in right)


def faults_of_rules(rules: Sequence[RuleCodes]) -> List[Faults]:
    """The rules' faults, each test on its own; a refused rule counts as well."""
    found = []
    offset, states = 0, FIXED_STATES
    for place, rule in enumerate(rules):
        states += len(rule[1]) + 1
        fails = [(TOO_MANY_RULES, place >= MAX_RULES),
                 (EQUAL_RULE, rule in rules[:place]),
                 (TOO_MANY_STATES, states > MAX_STATES)]
        causes = [cause for cause, failed in fails if failed]
        if causes:
            found.append(Faults(offset, causes))
        offset += HEADER + len(rule[1])
    return found


def rule_fault_reasons(rules: Sequence[RuleCodes], refusal: Refusal) -> List[str]:
    """The reasons behind 7, 6 or 8, and the later faults that it hides."""
    found = faults_of_rules(rules[:MAX_RULES + 30])
    first = found[0]
    cause = first.causes[0]
    assert refusal == Refusal(cause, first.position), "the first fault of the rules"
    later = {other for faults in found[1:] for other in faults.causes}
    pairs = [(cause, other) for other in first.causes[1:]]
    after = [(cause, other) for other in sorted(later)]
    return ([finer_rule(rules, refusal)]
            + ["order-%d-before-%d-of-a-rule" % pair for pair in pairs if pair in IN_RULE]
            + ["order-%d-before-%d-of-a-later-rule" % pair for pair in after
               if pair in LATER_RULE])


def equal_kinds(lines: Sequence[Line], rules: Sequence[RuleCodes], refusal: Refusal) -> List[str]:
    """Whether case tells the refused rule from all that it equals."""
    if refusal.cause != EQUAL_RULE:
        return []
    place = next(place for place, rule in enumerate(rules) if rule in rules[:place])
    earlier = [line.content for line in lines[:place]]
    return [] if lines[place].content in earlier else ["6-equal-but-for-case"]


def finer_rule(rules: Sequence[RuleCodes], refusal: Refusal) -> str:
    """The reason behind the first fault of the rules."""
    if refusal.cause == TOO_MANY_RULES:
        return "7-a-401st-rule"
    place, offset, states = 0, 0, FIXED_STATES
    while offset < refusal.position:
        offset += HEADER + len(rules[place][1])
        states += len(rules[place][1]) + 1
        place += 1
    if refusal.cause == EQUAL_RULE:
        near = rules[place - 1] == rules[place]
        return "6-next-to-the-earlier-rule" if near else "6-further-away"
    by_one = states + len(rules[place][1]) == MAX_STATES
    return "8-by-one-state" if by_one else "8-by-more"


def hidden_in_earlier_rules(
    lines: Sequence[Line], codes: Dict[bytes, int], refusal: Refusal
) -> List[str]:
    """7, 6 or 8 of a rule on a line before the refused one."""
    before = lines[2:refusal.position - 1]
    found = faults_of_rules([codes_of(line, codes) for line in before[:MAX_RULES + 30]])
    if not found:
        return []
    return ["order-%d-before-%d-of-an-earlier-rule" % (refusal.cause, found[0].causes[0])]
