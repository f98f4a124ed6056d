"""The reader and the writer of document 01: "Grammar text", "Causes of refusal".

Both refuse a grammar without a sentence: document 02, [4]. Names that differ only
in the case of ASCII letters are one name: document 02, [9].

`read_text` takes a text and the lengths of the rows lent to it, and answers a
Text or a Refusal. `write_text` takes a table, its names and the room of the
output, and answers the text's bytes or a Refusal.
"""

from typing import Dict, List, NamedTuple, Optional, Sequence, Tuple, Union

from tables import (
    EQUAL_RULE, FIXED_STATES, MAX_LENGTH, MAX_NONTERMINALS, MAX_RULES,
    MAX_STATES, MAX_TERMINALS, OUT_OF_RANGE, START, TOO_LONG, TOO_MANY_RULES,
    TOO_MANY_STATES, Codes, Grammar, Refusal, RuleCodes, check_table,
)

# The limits and forms of document 01 and of document 02's [8].
MAX_TEXT = 262144         # "the text limit 262,144 bytes", document 02, [8]
MAX_NAME = 15             # "Names are 1 to 15 ASCII letters, digits or hyphens"
CAPITALS = b"ABCDEFGHIJKLMNOPQRSTUVWXYZ"
SMALL = b"abcdefghijklmnopqrstuvwxyz"
NAME_BYTES = CAPITALS + SMALL + b"0123456789-"
TO_SMALL = bytes.maketrans(CAPITALS, SMALL)
KEYS = TERMINALS, NONTERMINALS, RULE = (b"terminals", b"nonterminals", b"rule")
END = b"\n"               # "each ended by byte 10"
EQUALS = b"="
COMMA = b","
COLON = b":"
SPACE = b" "

# The causes of refusal that the table check does not have.
ROW_TOO_SHORT = 14        # "a lent output or work row too short"
MALFORMED = 16            # "malformed line, or name"
UNKNOWN_NAME = 17         # "name unknown or of the wrong kind"
DECLARED_TWICE = 18       # "name declared twice"


class Line(NamedTuple):
    """A line, numbered "from 1", without its byte 10; `start` is from 0."""

    number: int
    start: int
    content: bytes
    ended: bool


class Name(NamedTuple):
    """A declared name and where the text has its first byte, from 0."""

    start: int
    content: bytes


class Lent(NamedTuple):
    """How many entries the reader's three output rows have."""

    table: int
    starts: int
    lengths: int


AMPLE = Lent(MAX_TEXT, MAX_TEXT, MAX_TEXT)   # no text has more entries than bytes


class Text(NamedTuple):
    """What the reader gives; `starts` and `lengths` in order of symbol numbers."""

    terminals: int
    nonterminals: int
    table: Codes
    states: int
    starts: Tuple[int, ...]
    lengths: Tuple[int, ...]


# Lines and names.

def split_lines(text: bytes) -> List[Line]:
    """The lines in order; only the last can be "without its byte 10"."""
    lines: List[Line] = []
    start = 0
    while start < len(text):
        end = text.find(END, start)
        ended = end >= 0
        if not ended:
            end = len(text)
        lines.append(Line(len(lines) + 1, start, text[start:end], ended))
        start = end + 1
    return lines


def is_name(name: bytes) -> bool:
    """Whether these are "1 to 15 ASCII letters, digits or hyphens"."""
    return 1 <= len(name) <= MAX_NAME and not name.translate(None, NAME_BYTES)


def without_case(name: bytes) -> bytes:
    """The name with small letters: equal for names that are "the same name".

    "Two names that differ only in the case of ASCII letters are the same name
    wherever names are compared", document 02, [9]. All other bytes stay, and so do
    the keys, which are no names.
    """
    return name.translate(TO_SMALL)


def value_of(line: Line, key: bytes) -> Optional[bytes]:
    """The value of a line "of key=value" with this key; None if malformed.

    "A line without its equals sign is malformed. So is a last line without
    its byte 10."
    """
    found, equals, value = line.content.partition(EQUALS)
    if not line.ended or not equals or found != key:
        return None
    return value


def listed_names(value: bytes) -> Optional[List[bytes]]:
    """The names, "separated by one comma", maybe none; None if malformed."""
    names = value.split(COMMA) if value else []
    return names if all(is_name(name) for name in names) else None


def rule_names(value: bytes) -> Optional[Tuple[bytes, List[bytes]]]:
    """The left name and the right side's names; None if malformed.

    "a rule is left name, colon, then a space and a name for each symbol".
    """
    left, colon, rest = value.partition(COLON)
    front, *right = rest.split(SPACE)
    if not colon or front or not all(is_name(name) for name in [left] + right):
        return None
    return left, right


# The reader.

def placed(names: Sequence[bytes], start: int) -> List[Name]:
    """The names of a list with their places, the first one at `start`."""
    result = []
    for name in names:
        result.append(Name(start, name))
        start += len(name) + len(COMMA)
    return result


def read_list(
    lines: Sequence[Line], place: int, earlier: Sequence[Name], fewest: int, most: int
) -> Union[List[Name], Refusal]:
    """The names that line `place`, from 0, declares: "within a line 16, 18, 1".

    "a missing line is 16 at its place". `earlier` are the names of the lines
    before.
    """
    number = place + 1
    if place >= len(lines):
        return Refusal(MALFORMED, number)
    line, key = lines[place], KEYS[place]
    value = value_of(line, key)
    names = None if value is None else listed_names(value)
    if names is None:
        return Refusal(MALFORMED, number)
    together = [name.content for name in earlier] + names
    if first_double(together) is not None:
        return Refusal(DECLARED_TWICE, number)
    if not fewest <= len(names) <= most:
        return Refusal(OUT_OF_RANGE, number)
    return placed(names, line.start + len(key) + len(EQUALS))


def first_double(names: Sequence[bytes]) -> Optional[int]:
    """The place, from 0, of the first name that is the same as an earlier one."""
    seen = set()
    for place, name in enumerate(map(without_case, names)):
        if name in seen:
            return place
        seen.add(name)
    return None


def read_rule(line: Line, codes: Dict[bytes, int]) -> Union[RuleCodes, Refusal]:
    """The rule on this line: "within a line [...] 16, 17, 4".

    `codes` has the names without case; the rule may use them in any.
    """
    value = value_of(line, RULE)
    names = None if value is None else rule_names(value)
    if names is None:
        return Refusal(MALFORMED, line.number)
    left, *right = map(without_case, [names[0], *names[1]])
    if any(name not in codes for name in [left] + right) or codes[left] < START:
        return Refusal(UNKNOWN_NAME, line.number)
    if len(right) > MAX_LENGTH:
        return Refusal(TOO_LONG, line.number)
    return codes[left], tuple(codes[name] for name in right)


def symbol_codes(
    terminals: Sequence[Name], nonterminals: Sequence[Name]
) -> Dict[bytes, int]:
    """The code of each name without case.

    "Terminals are 1 to t", "The first nonterminal is S".
    """
    codes = {without_case(name.content): 1 + i for i, name in enumerate(terminals)}
    codes.update((without_case(name.content), START + i)
                 for i, name in enumerate(nonterminals))
    return codes


def read_rules(
    lines: Sequence[Line], codes: Dict[bytes, int]
) -> Union[List[RuleCodes], Refusal]:
    """The rules of these lines, or the first line's refusal; none is required."""
    rules = []
    for line in lines:
        rule = read_rule(line, codes)
        if isinstance(rule, Refusal):
            return rule
        rules.append(rule)
    return rules


def join_rules(rules: Sequence[RuleCodes]) -> Union[Tuple[Codes, int], Refusal]:
    """The table and Q, or the first fault: "then 7, 6, 8 rule by rule".

    "6, 7 and 8 give the rule's offset in the table it would write."
    """
    table: List[int] = []
    states = FIXED_STATES
    seen = set()
    for count, rule in enumerate(rules):
        left, right = rule
        if count == MAX_RULES:
            return Refusal(TOO_MANY_RULES, len(table))
        if rule in seen:
            return Refusal(EQUAL_RULE, len(table))
        if states + len(right) + 1 > MAX_STATES:
            return Refusal(TOO_MANY_STATES, len(table))
        seen.add(rule)
        table += [left, len(right), *right]
        states += len(right) + 1
    return tuple(table), states


def read_lines(text: bytes) -> Union[Text, Refusal]:
    """A text of any length: "takes lines in order, from 1", then its rules.

    It may lack sentences.
    """
    lines = split_lines(text)
    terminals = read_list(lines, 0, [], 0, MAX_TERMINALS)
    if isinstance(terminals, Refusal):
        return terminals
    nonterminals = read_list(lines, 1, terminals, 1, MAX_NONTERMINALS)
    if isinstance(nonterminals, Refusal):
        return nonterminals
    rules = read_rules(lines[2:], symbol_codes(terminals, nonterminals))
    if isinstance(rules, Refusal):
        return rules
    joined = join_rules(rules)
    if isinstance(joined, Refusal):
        return joined
    names = terminals + nonterminals
    return Text(
        len(terminals), len(nonterminals), joined[0], joined[1],
        tuple(name.start for name in names),
        tuple(len(name.content) for name in names))


def read_text(text: bytes, lent: Lent) -> Union[Text, Refusal]:
    """The reader: "Text too long is 16 at line 0"; its lines; 19; "then 14"."""
    if len(text) > MAX_TEXT:
        return Refusal(MALFORMED, 0)
    result = read_lines(text)
    if isinstance(result, Refusal):
        return result
    grammar = check_table(result.terminals, result.nonterminals, result.table)
    if isinstance(grammar, Refusal):
        return grammar
    return result if lent_enough(result, lent) else Refusal(ROW_TOO_SHORT, 0)


def lent_enough(result: Text, lent: Lent) -> bool:
    """Not cause 14: each row is at least as long as what is written to it."""
    return (lent.table >= len(result.table)
            and lent.starts >= len(result.starts)
            and lent.lengths >= len(result.lengths))


# The writer.

def lent_name(
    symbol: int, names: bytes, starts: Sequence[int], lengths: Sequence[int]
) -> Optional[bytes]:
    """The name of a symbol number; None where it is 16.

    "a name not lent to it whole is 16": either row ends before the symbol, or
    start plus length, as a number of any size, is past the name bytes.
    """
    if symbol >= len(starts) or symbol >= len(lengths):
        return None
    start, length = starts[symbol], lengths[symbol]
    if start + length > len(names):
        return None
    name = names[start:start + length]
    return name if is_name(name) else None


def lent_names(
    count: int, names: bytes, starts: Sequence[int], lengths: Sequence[int]
) -> Union[List[bytes], Refusal]:
    """The names of symbols 0 to count-1: 16 for all of them, then 18.

    "the lowest at fault is given, for 18 the lowest whose name an earlier one
    has."
    """
    found = []
    for symbol in range(count):
        name = lent_name(symbol, names, starts, lengths)
        if name is None:
            return Refusal(MALFORMED, symbol)
        found.append(name)
    double = first_double(found)
    if double is not None:
        return Refusal(DECLARED_TWICE, double)
    return found


def compose(grammar: Grammar, names: Sequence[bytes]) -> bytes:
    """The text: "`terminals=`, `nonterminals=`, then `rule=` lines".

    "The declared spelling is written out", document 02, [9]: each use has the bytes
    that its declaration has.
    """
    terminals = names[:grammar.terminals]
    nonterminals = names[grammar.terminals:]
    name_of = {1 + i: name for i, name in enumerate(terminals)}
    name_of.update((START + i, name) for i, name in enumerate(nonterminals))
    values = [(TERMINALS, COMMA.join(terminals)), (NONTERMINALS, COMMA.join(nonterminals))]
    for rule in grammar.rules:
        right = b"".join(SPACE + name_of[code] for code in rule.right)
        values.append((RULE, name_of[rule.left] + COLON + right))
    return b"".join(key + EQUALS + value + END for key, value in values)


def write_text(
    t: int, n: int, table: Codes, names: bytes, starts: Sequence[int],
    lengths: Sequence[int], room: int
) -> Union[bytes, Refusal]:
    """"The writer: table faults, 16, 18, 14"; `room` is the output's length."""
    grammar = check_table(t, n, table)
    if isinstance(grammar, Refusal):
        return grammar
    found = lent_names(t + n, names, starts, lengths)
    if isinstance(found, Refusal):
        return found
    text = compose(grammar, found)
    return text if len(text) <= room else Refusal(ROW_TOO_SHORT, 0)
