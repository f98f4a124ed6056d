"""Line and column of what the reader refuses in a text, and what it is.

The refusal decides; the text is looked at only to find the place.
"""

import re
from typing import Dict, List, NamedTuple, Tuple

from tables import (
    EQUAL_RULE, MAX_LENGTH, MAX_RULES, MAX_STATES, NO_SENTENCE, OUT_OF_RANGE, TOO_LONG,
    TOO_MANY_RULES, Refusal,
)
from text import DECLARED_TWICE, KEYS, MALFORMED, MAX_TEXT, UNKNOWN_NAME, split_lines, without_case

NAME = rb"[A-Za-z0-9-]{1,15}"
LIST = rb"(?:%s(?:,%s)*,?)?" % (NAME, NAME)
RULE = rb"(?:%s(?::(?: %s)* ?)?)?" % (NAME, NAME)
LISTS = 2                 # lines in front of the rules

REMEDIES = {
    9: "a tab; put one space before each symbol",
    10: "a blank line; take it out",
    13: "byte 13; save the text with Unix line ends",
    32: "a space; take it out",
    35: "'#'; take comments out",
    95: "'_'; write '-'",
    124: "'|'; write a rule line for each alternative",
    239: "byte 239; save the text without a byte-order mark",
}


class Place(NamedTuple):
    """What is wrong; line and column count from 1."""

    line: int
    column: int
    message: str


def key_of(number: int) -> bytes:
    return KEYS[min(number, LISTS + 1) - 1] + b"="


def begins_well(content: bytes, number: int) -> bool:
    """Whether some line of this number begins so."""
    key = key_of(number)
    if len(content) <= len(key):
        return key.startswith(content)
    form = LIST if number <= LISTS else RULE
    return content.startswith(key) and re.fullmatch(form, content[len(key):]) is not None


def first_misfit(content: bytes, number: int) -> int:
    """The length of the longest front with which a line may begin."""
    low, high = 0, len(content)
    while low < high:
        middle = (low + high + 1) // 2
        if begins_well(content[:middle], number):
            low = middle
        else:
            high = middle - 1
    return low


def malformed(text: bytes, number: int) -> Place:
    """Cause 16: the first byte with which the line cannot go on."""
    if number == 0:
        return Place(1, 1, "the text has more than %d bytes" % MAX_TEXT)
    expected = "line %d begins with '%s'" % (number, key_of(number).decode())
    lines = split_lines(text)
    if number > len(lines):
        return Place(number, 1, "the text ends here; " + expected)
    line = lines[number - 1]
    place = first_misfit(line.content, number)
    if place == len(line.content) and not line.ended:
        return Place(number, place + 1, "the last line does not end with byte 10")
    byte = (line.content + b"\n")[place]
    what = REMEDIES.get(byte, repr(chr(byte)) if 32 < byte < 127 else "byte %d" % byte)
    wrong_key = place < len(key_of(number))
    if byte == 10 and line.content:
        what = "the line's end"
    return Place(number, place + 1, "the line cannot go on with %s%s" % (what, "; " + expected if wrong_key else ""))


def words_on(content: bytes) -> List[Tuple[int, bytes]]:
    """The names behind the key, each with its column."""
    start = content.index(b"=") + 1
    return [(match.start() + 1, match.group()) for match in re.compile(NAME).finditer(content, start)]


def unknown(text: bytes, number: int) -> Place:
    """Cause 17: the left name if it is no nonterminal, else the first that is not declared."""
    lines = split_lines(text)
    terminals, nonterminals = ({without_case(name): name for _, name in words_on(line.content)} for line in lines[:LISTS])
    left, *right = words_on(lines[number - 1].content)
    declared = {**terminals, **nonterminals}
    if without_case(left[1]) in terminals:
        name = declared[without_case(left[1])]
        return Place(number, left[0], "'%s' is a terminal; only a nonterminal has rules" % name.decode())
    for column, name in [left] + right:
        if without_case(name) not in declared:
            return Place(number, column, "'%s' is not declared" % name.decode())
    raise AssertionError("the reader refused a name")


def repeated(text: bytes, number: int) -> Place:
    """Cause 18: the first name that was declared before, maybe in another case."""
    seen: Dict[bytes, bytes] = {}
    for line in split_lines(text)[:number]:
        for column, name in words_on(line.content):
            earlier = seen.get(without_case(name))
            if earlier is not None:
                other = "" if earlier == name else ", before as '%s'" % earlier.decode()
                return Place(number, column, "'%s' is declared twice%s" % (name.decode(), other))
            seen[without_case(name)] = name
    raise AssertionError("the reader refused a name")


def of_rule(text: bytes, cause: int, offset: int) -> Place:
    """Causes 7, 6 and 8: the line whose rule stands at this offset of the table."""
    at = 0
    for line in split_lines(text)[LISTS:]:
        if at == offset:
            break
        at += 1 + len(words_on(line.content))
    what = {EQUAL_RULE: "the rule equals an earlier one",
            TOO_MANY_RULES: "there are more than %d rules" % MAX_RULES}
    return Place(line.number, 6, what.get(cause, "there are more than %d states" % MAX_STATES))


def without_sentence(text: bytes) -> Place:
    """Cause 19: where the start symbol is declared."""
    column, name = words_on(split_lines(text)[1].content)[0]
    return Place(LISTS, column, "'%s' has no finite tree, so there is no sentence" % name.decode())


def place_of(text: bytes, refusal: Refusal) -> Place:
    """Where and what the reader refuses."""
    cause, position = refusal
    if cause == MALFORMED:
        return malformed(text, position)
    if cause == UNKNOWN_NAME:
        return unknown(text, position)
    if cause == DECLARED_TWICE:
        return repeated(text, position)
    if cause == OUT_OF_RANGE:
        return Place(position, len(key_of(position)) + 1, "there are too many names, or no nonterminal")
    if cause == NO_SENTENCE:
        return without_sentence(text)
    if cause == TOO_LONG:
        return Place(position, 6, "the right side has more than %d symbols" % MAX_LENGTH)
    return of_rule(text, cause, position)
