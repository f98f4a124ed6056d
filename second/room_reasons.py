"""Sorts the cases of room told beforehand by reasons finer than the causes.

M is counted here in another way than in rooms.py: from the right sides alone. A
misreading tells other numbers than document 02's [5]; a case in which it does is
counted for that.
"""

from typing import Callable, Dict, List, Tuple

import caller_reasons
import dead_rules
import sentence_reasons
from automaton import Automaton, move_count
from case_files import TABLE_REASONS
from case_grammars import MANY_STATES
from corpus_cases import corpus_tables
from dead_rules import kind_of
from derivations import used_rules
from live_misreadings import MISREAD, TOLD, told
from rooms import Room, room_of
from tables import (
    FIXED_STATES, MAX_RULES, MAX_STATES, START, Codes, Grammar, Refusal, check_table,
)
from triples import BYTE, triples_of

FEWEST = 50                        # cases of each cause, and of rooms that are told


# M in another way.

def moves_by_rules(grammar: Grammar) -> int:
    """M from the right sides of live rules, that of rule 0 among them.

    A rule of B opens before each B of a right side, and closes past it: M is
    2 × openings + shifts.
    """
    live = [rule for rule, used in zip(grammar.rules, used_rules(grammar)) if used]
    lefts = [rule.left for rule in live]
    codes = [START] + [code for rule in live for code in rule.right]
    openings = 1 + sum(map(lefts.count, codes))
    return 2 * openings + len(codes)


# Misreadings of [5].

def without_nonterminal_shifts(grammar: Grammar, automaton: Automaton, room: Room) -> Room:
    shifts = [shift for shift in automaton.shifts if shift is not None and shift[0] >= START]
    return room._replace(moves=room.moves - len(shifts))


def by_letters(grammar: Grammar, automaton: Automaton, room: Room) -> Room:
    """A closing counted once, though it leads to several items."""
    more = sum(len(arrows) - 1 for arrows in automaton.closings if arrows)
    return room._replace(moves=room.moves - more)


def by_nonterminals(grammar: Grammar, automaton: Automaton, room: Room) -> Room:
    """The openings before a nonterminal counted once, though several rules open."""
    more = sum(len(arrows) - 1 for arrows in automaton.openings if arrows)
    return room._replace(moves=room.moves - more)


def live_states(grammar: Grammar, automaton: Automaton, room: Room) -> Room:
    """Only items of live rules have states."""
    used = zip(grammar.rules, used_rules(grammar))
    states = FIXED_STATES + sum(len(rule.right) + 1 for rule, live in used if live)
    return room._replace(states=states)


def rounded_down(grammar: Grammar, automaton: Automaton, room: Room) -> Room:
    return room._replace(certificate=room.row // BYTE)


def a_byte_more(grammar: Grammar, automaton: Automaton, room: Room) -> Room:
    return room._replace(certificate=room.row // BYTE + 1)


ROOMS: Dict[str, Callable[[Grammar, Automaton, Room], Room]] = {
    "nonterminal-shifts-are-left-out": without_nonterminal_shifts,
    "a-closing-is-counted-once": by_letters,
    "openings-before-a-nonterminal-are-counted-once": by_nonterminals,
    "dead-rules-have-no-states": live_states,
    "bytes-are-rounded-down": rounded_down,
    "there-is-always-a-byte-more": a_byte_more,
}
TOLD_ROOMS = {name: "told-from-" + name for name in ROOMS}

# The misreadings of [3] that have other moves.
MOVES = [name for name in MISREAD if name != "dead-items-stand-before-terminals"]


# Reasons.

OF_ROOMS = ["odd-states", "even-states", "over-255-moves", "as-many-moves-as-at-0", "more-moves-than-at-0"]
REASONS = TABLE_REASONS + [
    "room",
    "room-of-the-corpus",
    "room-odd-states",
    "room-even-states",
    "room-over-60-states",
    "room-256-states",
    "room-1024-states",
    "room-400-rules",
    "room-code-past-255",
    "room-code-past-33023",
    "room-over-255-moves",
    "room-over-4096-moves",
    "room-every-rule-used",
] + dead_rules.REASONS + list(TOLD_ROOMS.values()) + [
    TOLD[name] for name in MOVES
] + sentence_reasons.REASONS + caller_reasons.REASONS + caller_reasons.prefixed(OF_ROOMS)

ENOUGH = {
    **{name: FEWEST for name in TABLE_REASONS + ["room"]}, **dead_rules.ENOUGH, **caller_reasons.ENOUGH}


def reasons_of(case: Tuple[int, int, Codes, int]) -> List[str]:
    """Every reason of REASONS that this case meets."""
    *table, m = case
    names = caller_reasons.of_case(*table, m)
    return names + (remembered_reasons(*table, m) if m else forgotten_reasons(tuple(table)))


def remembered_reasons(t: int, n: int, table: Codes, m: int) -> List[str]:
    """What the room at an m above 0 is like."""
    room, former = room_of(t, n, table, m), room_of(t, n, table)
    if isinstance(room, Refusal) or isinstance(former, Refusal):
        return []
    grammar = check_table(t, n, table)
    assert room.states == caller_reasons.counted_states(grammar, m), "chains counted one by one"
    met = [
        ("odd-states", room.states % 2 == 1),
        ("even-states", room.states % 2 == 0),
        ("over-255-moves", room.moves > 255),
        ("as-many-moves-as-at-0", room.moves == former.moves),
        ("more-moves-than-at-0", room.moves > former.moves),
    ]
    return caller_reasons.at(m, [name for name, holds in met if holds])


def forgotten_reasons(case: Tuple[int, int, Codes]) -> List[str]:
    """Every reason that a case at m=0 meets."""
    sentences = list(sentence_reasons.of_table(*case))
    grammar = check_table(*case)
    room = room_of(*case)
    if isinstance(grammar, Refusal) or isinstance(room, Refusal):
        assert room == grammar, "the table's fault"
        return sentences + [str(room.cause)]
    assert room.moves == moves_by_rules(grammar), "M is 2 × openings + shifts"
    codes = {code for rule in grammar.rules for code in (rule.left, *rule.right)}
    met = [
        ("room", True),
        ("room-of-the-corpus", case in corpus_tables()),
        ("room-odd-states", room.states % 2 == 1),
        ("room-even-states", room.states % 2 == 0),
        ("room-over-60-states", room.states > 60),
        ("room-256-states", room.states == MANY_STATES),
        ("room-1024-states", room.states == MAX_STATES),
        ("room-400-rules", len(grammar.rules) == MAX_RULES),
        ("room-code-past-255", any(255 < code < START for code in codes)),
        ("room-code-past-33023", any(START + 255 < code for code in codes)),
        ("room-over-255-moves", room.moves > 255),
        ("room-over-4096-moves", room.moves > 4096),
        ("room-every-rule-used", kind_of(grammar) is None),
    ]
    found = sentences + [name for name, holds in met if holds]
    return found + dead_rules.reasons_of(grammar) + told_reasons(grammar, room)


def told_reasons(grammar: Grammar, room: Room) -> List[str]:
    """The reasons of those misreadings that tell other numbers."""
    automaton = triples_of(grammar).automaton
    found = [TOLD_ROOMS[name] for name, misread in ROOMS.items()
             if misread(grammar, automaton, room) != room]
    return found + told(grammar, MOVES, lambda triples: move_count(triples.automaton))
