"""The automaton of a checked grammar: document 01, "States and moves", document 02, [3].

`automaton_of` takes a Grammar and gives, by state, its openings, closings and
shift, and whether it stands before a terminal. Every rule has its states, but
only live ones are taken: "Items of other rules keep their numbers but have no
moves, stand before no terminal, and no move leads to them." An item that is not
taken is None, so that nothing below finds it.
"""

from typing import Dict, List, NamedTuple, Optional, Sequence, Tuple

from live import live_rules
from tables import START, Codes, Grammar

BEGIN = 0                 # "State 0 is the start"
END = 1                   # "1 the end"
BEFORE_START = 2          # "2 is S' → ·S"
AFTER_START = 3           # "3 is S' → S·"
NEW_RULE = 0              # "Rule 0 is S' → S and is not stored"
NEW_START = 0             # stands for S': no symbol has this code

Arrow = Tuple[int, int]   # a rule's number or a symbol's code, and the next state
Arrows = Dict[int, List[Arrow]]


class Item(NamedTuple):
    """A rule, by number, left code and right codes, and the place of its dot."""

    rule: int
    left: int
    right: Codes
    dot: int


class Automaton(NamedTuple):
    """The moves by state; Q is `states`. A state has one shift or None."""

    states: int
    openings: Tuple[Tuple[Arrow, ...], ...]
    closings: Tuple[Tuple[Arrow, ...], ...]
    shifts: Tuple[Optional[Arrow], ...]
    before_terminal: Tuple[bool, ...]


def items_of(grammar: Grammar) -> List[Optional[Item]]:
    """By state its item; states 0 and 1 have none.

    2 and 3 are rule 0, "Then come the items of rule 1 from dot 0 to dot k,
    then rule 2, and so on."
    """
    rules = [(NEW_START, (START,))]
    rules += [(rule.left, rule.right) for rule in grammar.rules]
    items: List[Optional[Item]] = [None, None]
    for number, (left, right) in enumerate(rules):
        items += [Item(number, left, right, dot) for dot in range(len(right) + 1)]
    assert len(items) == grammar.states, "Q is 4 plus the sum of (k+1)"
    return items


def taken_items(grammar: Grammar, taken: Sequence[bool]) -> List[Optional[Item]]:
    """By state its item if its rule is taken; `taken` is by number, rule 0 first."""
    return [item if item is not None and taken[item.rule] else None
            for item in items_of(grammar)]


def after_dot(item: Optional[Item]) -> Optional[int]:
    """The code that the dot stands before, None at the end of a rule."""
    if item is None or item.dot == len(item.right):
        return None
    return item.right[item.dot]


def before_dot(item: Optional[Item]) -> Optional[int]:
    """The code that the dot stands just past, None at dot 0."""
    return None if item is None or item.dot == 0 else item.right[item.dot - 1]


def arrows_by_code(items: Sequence[Optional[Item]]) -> Tuple[Arrows, Arrows]:
    """By nonterminal: dot 0 of each of its rules; "every item just past" it."""
    first: Arrows = {}
    past: Arrows = {}
    for state, item in enumerate(items):
        code = before_dot(item)
        if code is not None:
            past.setdefault(code, []).append((item.rule, state))
        elif item is not None:
            first.setdefault(item.left, []).append((item.rule, state))
    return first, past


def openings_from(
    items: Sequence[Optional[Item]], first: Arrows, state: int
) -> List[Arrow]:
    """The openings of a state.

    "a state with the dot before B moves to dot 0 of each rule i of B. State 0
    opens 0 to state 2." "State 0 opens rule 0 only if it is live."
    """
    if state == BEGIN:
        return [] if items[BEFORE_START] is None else [(NEW_RULE, BEFORE_START)]
    code = after_dot(items[state])
    return [] if code is None else first.get(code, [])


def closings_from(
    items: Sequence[Optional[Item]], past: Arrows, state: int
) -> List[Arrow]:
    """The closings of a state.

    "a rule i of B with the dot at its end moves to every item just past a B.
    State 3 closes 0 to state 1."
    """
    closed = items[state]
    if closed is None or closed.dot < len(closed.right):
        return []
    if state == AFTER_START:
        return [(NEW_RULE, END)]
    return [(closed.rule, to) for _, to in past.get(closed.left, [])]


def shift_from(items: Sequence[Optional[Item]], state: int) -> Optional[Arrow]:
    """The shift of a state: "the dot passes a terminal or a nonterminal"."""
    code = after_dot(items[state])
    return None if code is None else (code, state + 1)


def stands_before_terminal(item: Optional[Item]) -> bool:
    """Whether an item "stands before a terminal"."""
    code = after_dot(item)
    return code is not None and code < START


def automaton_with(grammar: Grammar, taken: Sequence[bool]) -> Automaton:
    """The moves of a checked grammar when these rules are taken, rule 0 first."""
    items = taken_items(grammar, taken)
    first, past = arrows_by_code(items)
    states = range(len(items))
    return Automaton(
        len(items),
        tuple(tuple(openings_from(items, first, state)) for state in states),
        tuple(tuple(closings_from(items, past, state)) for state in states),
        tuple(shift_from(items, state) for state in states),
        tuple(map(stands_before_terminal, items)),
    )


def automaton_of(grammar: Grammar) -> Automaton:
    """All moves of a checked grammar: its live rules are taken."""
    return automaton_with(grammar, live_rules(grammar))


def move_count(automaton: Automaton) -> int:
    """The number of openings, closings and shifts of all states."""
    alone = sum(map(len, automaton.openings)) + sum(map(len, automaton.closings))
    return alone + sum(shift is not None for shift in automaton.shifts)
