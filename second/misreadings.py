"""What would follow a triple if document 01 were misread, and does not follow it.

Some are those of "Misreadings of the method"; the others give a move to a side
that has none, or join two steps. They serve as wrong entries of witnesses.
"""

from itertools import product
from typing import Dict, List, Sequence, Tuple

from automaton import Automaton
from tables import START
from triples import Triple, Triples, index_of, partings, triple_at, unordered_steps

EQUAL_CLOSINGS = "parting-on-equal-closings"
NO_MOVE = "parting-without-the-closing-move"
OPENING_PARTS = "parting-on-an-opening"
BESIDE_NONTERMINAL = "parting-beside-a-nonterminal"
TERMINAL_MOVES = "parting-with-a-shift-of-the-terminal"
CLOSING_BEFORE = "closing-without-parting"
BOTH_OPEN = "both-open-at-once"
BOTH_CLOSE = "both-close-at-once-in-layer-1"
NONTERMINAL_AFTER = "nonterminal-shift-in-layer-1"
ONE_SHIFTS = "one-side-shifts-alone"
UNEQUAL_SHIFT = "unequal-symbols-shift"
BACK = "back-to-layer-0"
NOTHING_MOVES = "nothing-moves"

NAMES = [
    EQUAL_CLOSINGS, NO_MOVE, OPENING_PARTS, BESIDE_NONTERMINAL, TERMINAL_MOVES,
    CLOSING_BEFORE, BOTH_OPEN, BOTH_CLOSE, NONTERMINAL_AFTER, ONE_SHIFTS,
    UNEQUAL_SHIFT, BACK, NOTHING_MOVES,
]

Misread = List[Tuple[str, Triple]]


def targets(arrows: Sequence[Tuple[int, int]]) -> List[int]:
    return [to for _, to in arrows]


def alone(
    name: str, layer: int, triple: Triple, lefts: List[int], rights: List[int]
) -> Misread:
    """One side moves and the other stays."""
    return ([(name, Triple(layer, p, triple.right)) for p in lefts]
            + [(name, Triple(layer, triple.left, q)) for q in rights])


def joined(name: str, layer: int, lefts: List[int], rights: List[int]) -> Misread:
    """Both sides move at once."""
    return [(name, Triple(layer, p, q)) for p, q in product(lefts, rights)]


def of_moves(automaton: Automaton, triple: Triple) -> Misread:
    """Openings and closings taken in the wrong layer, or both at once."""
    _, p, q = triple
    opened = targets(automaton.openings[p]), targets(automaton.openings[q])
    closed = targets(automaton.closings[p]), targets(automaton.closings[q])
    if triple.layer == 1:
        return (joined(BOTH_OPEN, 1, *opened) + joined(BOTH_CLOSE, 1, *closed)
                + [(BACK, step.next._replace(layer=0))
                   for step in unordered_steps(automaton, triple)])
    found = alone(OPENING_PARTS, 1, triple, *opened) + joined(BOTH_OPEN, 0, *opened)
    found += alone(CLOSING_BEFORE, 0, triple, *closed)
    return found + joined(EQUAL_CLOSINGS, 1, *closed)


def of_partings(automaton: Automaton, triple: Triple) -> Misread:
    """Partings in which the wrong sides move, or that are none."""
    if triple.layer == 1:
        return []
    _, p, q = triple
    found: Misread = []
    if partings(automaton, triple):
        found.append((NO_MOVE, triple._replace(layer=1)))
    shifts = automaton.shifts[p], automaton.shifts[q]
    closed = targets(automaton.closings[p]), targets(automaton.closings[q])
    if shifts[1] is not None:
        found += beside(shifts[1], [((to, q), (to, q + 1)) for to in closed[0]])
    if shifts[0] is not None:
        found += beside(shifts[0], [((p, to), (p + 1, to)) for to in closed[1]])
    return found


def beside(
    shift: Tuple[int, int], moved: List[Tuple[Tuple[int, int], Tuple[int, int]]]
) -> Misread:
    """One closes beside a symbol: a nonterminal that stays, a terminal that moves."""
    if shift[0] >= START:
        return [(BESIDE_NONTERMINAL, Triple(1, *stayed)) for stayed, _ in moved]
    return [(TERMINAL_MOVES, Triple(1, *shifted)) for _, shifted in moved]


def of_shifts(automaton: Automaton, triple: Triple) -> Misread:
    """Shifts by one side, of unequal symbols, of a nonterminal in layer 1."""
    layer, p, q = triple
    left, right = automaton.shifts[p], automaton.shifts[q]
    found = alone(ONE_SHIFTS, layer, triple,
                  targets([left] if left else []), targets([right] if right else []))
    if left is None or right is None:
        return found
    name = NONTERMINAL_AFTER if left[0] == right[0] else UNEQUAL_SHIFT
    return found + [(name, Triple(layer, left[1], right[1]))]


def misread(automaton: Automaton, triple: Triple) -> Dict[Triple, str]:
    """By triple the misreading in which it would follow; no true successor."""
    found = of_partings(automaton, triple) + of_moves(automaton, triple)
    found += of_shifts(automaton, triple) + [(NOTHING_MOVES, triple)]
    true = {step.next for step in unordered_steps(automaton, triple)}
    return {other: name for name, other in reversed(found) if other not in true}


def misread_indices(triples: Triples, index: int) -> Dict[int, str]:
    """By index what follows in a misreading only."""
    found = misread(triples.automaton, triple_at(triples.states, index))
    return {index_of(triples.states, other): name for other, name in sorted(found.items())}
