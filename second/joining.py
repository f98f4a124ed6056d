"""A module's text joined to the robot's: document 02, [10].

`join` takes both texts and the entries lent for the joined table, and answers what the
reader gives for the joined text, or a Refusal. `join_written` takes the room for that
text and answers its bytes or a Refusal. `shown` gives the part of either text that is
the name of a symbol.

The joined text is put together from names, by the paper's words, and then read.
"""

from functools import lru_cache
from typing import Dict, List, NamedTuple, Optional, Sequence, Tuple, Union

from tables import NO_SENTENCE, START, Codes, Refusal
from text import (
    AMPLE, COLON, COMMA, END, EQUALS, MALFORMED, MAX_TEXT, NONTERMINALS, ROW_TOO_SHORT, RULE,
    SPACE, TERMINALS, Text, read_lines, read_text, rule_names, split_lines, value_of,
    without_case, write_text,
)

OTHER_KIND = 20           # "a terminal in one text and a nonterminal in the other"
TERMINALS_LINE, NONTERMINALS_LINE = 1, 2
NEITHER, ROBOT, MODULE = 0, 1, 2


class Part(NamedTuple):
    """A part of one of the texts; `start` is from 0."""

    text: int
    start: int
    length: int


EMPTY = Part(NEITHER, 0, 0)


class Declared(NamedTuple):
    """A name as it is declared, and where."""

    name: bytes
    part: Part


class NamedRule(NamedTuple):
    """A rule by its names."""

    left: bytes
    right: Tuple[bytes, ...]


class Source(NamedTuple):
    """The lists and rules of a text; rules with the names as they use them."""

    terminals: List[Declared]
    nonterminals: List[Declared]
    rules: List[NamedRule]


class Joined(NamedTuple):
    """The joined lists and rules, the joined text, and what the reader gives for that."""

    terminals: List[Declared]
    nonterminals: List[Declared]
    rules: List[NamedRule]
    text: bytes
    read: Text


Outcome = Union[Joined, Refusal]


# Each text alone.

def read_alone(text: bytes) -> Union[Text, Refusal]:
    """A text "read alone, which may lack sentences": the reader's answer without 19 and 14."""
    return Refusal(MALFORMED, 0) if len(text) > MAX_TEXT else read_lines(text)


def source_of(which: int, text: bytes, read: Text) -> Source:
    """The lists and rules of a text without fault."""
    names = [Declared(text[start:start + length], Part(which, start, length))
             for start, length in zip(read.starts, read.lengths)]
    rules = []
    for line in split_lines(text)[2:]:
        value = value_of(line, RULE)
        found = None if value is None else rule_names(value)
        assert found is not None, "it is without fault"
        rules.append(NamedRule(found[0], tuple(found[1])))
    return Source(names[:read.terminals], names[read.terminals:], rules)


@lru_cache(maxsize=64)
def sources(robot: bytes, module: bytes) -> Union[Tuple[Source, Source], Refusal]:
    """"Faults of the robot's text come first, then those of the module's text read alone"."""
    first = read_text(robot, AMPLE)
    if isinstance(first, Refusal):
        return first
    second = read_alone(module)
    if isinstance(second, Refusal):
        return second
    return source_of(ROBOT, robot, first), source_of(MODULE, module, second)


# The join.

def same_rule(rule: NamedRule) -> NamedRule:
    """The rule's names without case: equal for rules of the same names."""
    return NamedRule(without_case(rule.left), tuple(map(without_case, rule.right)))


def have_a_name_in_common(some: Sequence[Declared], others: Sequence[Declared]) -> bool:
    names = {without_case(declared.name) for declared in others}
    return any(without_case(declared.name) in names for declared in some)


def other_kind(robot: Source, module: Source) -> Optional[Refusal]:
    """"20 at the module's first line that declares such a name"."""
    if have_a_name_in_common(module.terminals, robot.nonterminals):
        return Refusal(OTHER_KIND, TERMINALS_LINE)
    if have_a_name_in_common(module.nonterminals, robot.terminals):
        return Refusal(OTHER_KIND, NONTERMINALS_LINE)
    return None


def joined_list(robot: Sequence[Declared], module: Sequence[Declared]) -> List[Declared]:
    """"the robot's lists first, then names the module adds"."""
    names = {without_case(declared.name) for declared in robot}
    added = [declared for declared in module if without_case(declared.name) not in names]
    return list(robot) + added


def joined_rules(robot: Sequence[NamedRule], module: Sequence[NamedRule]) -> List[NamedRule]:
    """"then the robot's rules, then those of the module that are not already there"."""
    there = {same_rule(rule) for rule in robot}
    return list(robot) + [rule for rule in module if same_rule(rule) not in there]


def text_of(
    terminals: Sequence[Declared], nonterminals: Sequence[Declared], rules: Sequence[NamedRule]
) -> bytes:
    """The text of these lists and rules, each use "in its declared spelling"."""
    spelled = {without_case(declared.name): declared.name
               for declared in [*terminals, *nonterminals]}
    lines = [TERMINALS + EQUALS + COMMA.join(declared.name for declared in terminals),
             NONTERMINALS + EQUALS + COMMA.join(declared.name for declared in nonterminals)]
    for left, right in rules:
        uses = [spelled[without_case(name)] for name in right]
        lines.append(RULE + EQUALS + spelled[without_case(left)] + COLON
                     + b"".join(SPACE + use for use in uses))
    return b"".join(line + END for line in lines)


def table_of(
    terminals: Sequence[Declared], nonterminals: Sequence[Declared], rules: Sequence[NamedRule]
) -> Codes:
    """The table of these lists and rules, whatever limits they pass."""
    codes: Dict[bytes, int] = {}
    for first, names in ((1, terminals), (START, nonterminals)):
        codes.update((without_case(declared.name), first + place)
                     for place, declared in enumerate(names))
    table: List[int] = []
    for left, right in map(same_rule, rules):
        table += [codes[left], len(right), *(codes[name] for name in right)]
    return tuple(table)


def read_joined(
    terminals: List[Declared], nonterminals: List[Declared], rules: List[NamedRule]
) -> Outcome:
    """What the reader gives for the text of these lists and rules."""
    text = text_of(terminals, nonterminals, rules)
    read = read_text(text, AMPLE)
    return read if isinstance(read, Refusal) else Joined(terminals, nonterminals, rules, text, read)


@lru_cache(maxsize=64)
def join_texts(robot: bytes, module: bytes) -> Outcome:
    """The join, or its first fault but for 14.

    After both texts and 20 come "the faults the reader gives for the joined text".
    """
    found = sources(robot, module)
    if isinstance(found, Refusal):
        return found
    first, second = found
    refusal = other_kind(first, second)
    if refusal is not None:
        return refusal
    terminals = joined_list(first.terminals, second.terminals)
    nonterminals = joined_list(first.nonterminals, second.nonterminals)
    rules = joined_rules(first.rules, second.rules)
    joined = read_joined(terminals, nonterminals, rules)
    if isinstance(joined, Refusal):
        assert joined.cause != NO_SENTENCE, "the robot's sentences are also the joined one's"
    else:
        check_theorem(first, joined)
    return joined


def check_theorem(robot: Source, joined: Joined) -> None:
    """"The joined table equals what the reader gives for the joined text, and every tree of
    the robot's grammar is a tree of the joined one."

    The robot's rules stand in front with the codes and numbers that they have in its own
    table, and S is the same; so its trees apply the same rules.
    """
    lists = joined.terminals, joined.nonterminals
    table = table_of(*lists, joined.rules)
    read = joined.read
    assert (read.terminals, read.nonterminals, read.table) == (*map(len, lists), table)
    own = table_of(robot.terminals, robot.nonterminals, robot.rules)
    assert table[:len(own)] == own
    assert write_text(*read[:3], joined.text, read.starts, read.lengths, MAX_TEXT) == joined.text


# The entries; `outcome` is that of `join_texts`.

def table_in(outcome: Outcome, entries: int) -> Union[Text, Refusal]:
    """What is read of the joined text; 14 if the table has more than so many entries."""
    if isinstance(outcome, Refusal):
        return outcome
    return outcome.read if entries >= len(outcome.read.table) else Refusal(ROW_TOO_SHORT, 0)


def text_in(outcome: Outcome, room: int) -> Union[bytes, Refusal]:
    """The joined text; 14 if it has more than so many bytes."""
    if isinstance(outcome, Refusal):
        return outcome
    return outcome.text if room >= len(outcome.text) else Refusal(ROW_TOO_SHORT, 0)


def part_in(outcome: Outcome, symbol: int) -> Part:
    """The name of a symbol number, over the joined terminals, then the joined nonterminals.

    "for a symbol of neither, or texts refused other than with 14, the part is empty."
    """
    if isinstance(outcome, Refusal):
        return EMPTY
    names = outcome.terminals + outcome.nonterminals
    return names[symbol].part if symbol < len(names) else EMPTY


def join(robot: bytes, module: bytes, entries: int) -> Union[Text, Refusal]:
    """The join of two texts, with so many entries lent for its table."""
    return table_in(join_texts(robot, module), entries)


def join_written(robot: bytes, module: bytes, room: int) -> Union[bytes, Refusal]:
    """The joined text, written into so many bytes."""
    return text_in(join_texts(robot, module), room)


def shown(robot: bytes, module: bytes, symbol: int) -> Part:
    """"a part of the text that declared it, the robot's where both did"."""
    return part_in(join_texts(robot, module), symbol)
