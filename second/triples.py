"""Triples, their steps and the smallest closed set: document 01, "Triples".

They are those of an automaton, so of live rules alone: by `triples_of` that of
callers.py at m, document 02's [11]. `steps` gives a triple's
step records in order, `Triples` the successors by index, `reached` the smallest
set that holds (0,0,0) and every successor of what it holds.
"""

from functools import lru_cache
from typing import Dict, FrozenSet, Iterable, List, NamedTuple, Sequence, Tuple

from automaton import BEGIN, END, Arrow, Automaton
from callers import automaton_at
from tables import START, Grammar

LAYERS = 2                # "f being 0 or 1"
BYTE = 8                  # bits of a byte of the certificate

Move = Tuple[str, int]    # ('opening', rule), ('closing', rule), ('symbol', code)
OPENING, CLOSING, SYMBOL = "opening", "closing", "symbol"
STILL: Move = ("still", 0)


class Triple(NamedTuple):
    """(f, p, q) of document 01."""

    layer: int
    left: int
    right: int


class Step(NamedTuple):
    """A step record: "says for either side what moved"."""

    next: Triple
    left: Move
    right: Move


FIRST = Triple(0, BEGIN, BEGIN)   # (0,0,0)
LAST = Triple(1, END, END)        # (1,1,1)


# Indices.

def index_of(states: int, triple: Triple) -> int:
    """The "index f×Q² + p×Q + q"."""
    layer, left, right = triple
    return (layer * states + left) * states + right


def triple_at(states: int, index: int) -> Triple:
    """The triple of an index; an index of 2Q² or more gives a layer above 1."""
    layer, rest = divmod(index, states * states)
    return Triple(layer, *divmod(rest, states))


def in_range(states: int, triple: Triple) -> bool:
    """Whether the layer is 0 or 1 and both states are below Q."""
    return triple.layer < LAYERS and max(triple.left, triple.right) < states


# Step records.

def alone(
    triple: Triple, kind: str, lefts: Sequence[Arrow], rights: Sequence[Arrow], layer: int
) -> List[Step]:
    """The steps in which one side moves and the other stays."""
    moved: List[Step] = []
    for rule, to in lefts:
        moved.append(Step(Triple(layer, to, triple.right), (kind, rule), STILL))
    for rule, to in rights:
        moved.append(Step(Triple(layer, triple.left, to), STILL, (kind, rule)))
    return moved


def both_shift(automaton: Automaton, triple: Triple) -> List[Step]:
    """"both shift the same symbol", in layer 1 "the same terminal"."""
    left, right = automaton.shifts[triple.left], automaton.shifts[triple.right]
    if left is None or right is None or left[0] != right[0]:
        return []
    code = left[0]
    if triple.layer == 1 and code >= START:
        return []
    move = (SYMBOL, code)
    return [Step(Triple(triple.layer, left[1], right[1]), move, move)]


def partings(automaton: Automaton, triple: Triple) -> List[Step]:
    """The steps "f=0 to 1".

    "p closes i and q closes j, i ≠ j, both moving; or one closes and moves
    while the other stands before a terminal and stays."
    """
    lefts, rights = automaton.closings[triple.left], automaton.closings[triple.right]
    if not lefts and not rights:
        return []
    found = [Step(Triple(1, p, q), (CLOSING, i), (CLOSING, j))
             for i, p in lefts for j, q in rights if i != j]
    if not automaton.before_terminal[triple.right]:
        lefts = ()
    if not automaton.before_terminal[triple.left]:
        rights = ()
    return found + alone(triple, CLOSING, lefts, rights, 1)


def unordered_steps(automaton: Automaton, triple: Triple) -> List[Step]:
    """One record for each choice of moves of a triple in range.

    "f=0: p opens alone; q opens alone; both shift", or a parting;
    "f=1: p opens or closes alone; q likewise; both shift".
    """
    p, q, layer = triple.left, triple.right, triple.layer
    found = alone(triple, OPENING, automaton.openings[p], automaton.openings[q], layer)
    found += both_shift(automaton, triple)
    if layer == 0:
        return found + partings(automaton, triple)
    return found + alone(
        triple, CLOSING, automaton.closings[p], automaton.closings[q], layer)


def steps(automaton: Automaton, triple: Triple) -> List[Step]:
    """The step records in order; none for a triple out of range.

    Those that lead back to the triple itself stand first, left before right,
    then the others ascending by the next triple's index.
    """
    states = automaton.states
    if not in_range(states, triple):
        return []
    return sorted(unordered_steps(automaton, triple), key=lambda step: (
        step.next != triple, index_of(states, step.next), step.left == STILL))


# Sets of triples.

class Triples:
    """The triples of an automaton; the successors of each are found once."""

    def __init__(self, automaton: Automaton) -> None:
        self.automaton = automaton
        self.states = automaton.states
        self.count = LAYERS * self.states * self.states      # 2Q²
        self.first = index_of(self.states, FIRST)
        self.last = index_of(self.states, LAST)
        self._known: Dict[int, Tuple[int, ...]] = {}

    def successors(self, index: int) -> Tuple[int, ...]:
        """The indices of the successors, ascending, none twice."""
        known = self._known.get(index)
        if known is None:
            found = unordered_steps(self.automaton, triple_at(self.states, index))
            indices = {index_of(self.states, step.next) for step in found}
            known = self._known[index] = tuple(sorted(indices))
        return known


@lru_cache(maxsize=256)
def known_triples(grammar: Grammar, m: int) -> Triples:
    return Triples(automaton_at(grammar, m))


def triples_of(grammar: Grammar, m: int = 0) -> Triples:
    """The triples of a checked grammar at m, which no refusal stops."""
    return known_triples(grammar, m)


def closure(
    triples: Triples, indices: Iterable[int], closed: FrozenSet[int] = frozenset()
) -> FrozenSet[int]:
    """The smallest set with these indices and every successor of what it holds.

    It also holds `closed`, which must hold its successors already.
    """
    waiting = [index for index in indices if index not in closed]
    held = set(closed).union(waiting)
    while waiting:
        for index in triples.successors(waiting.pop()):
            if index not in held:
                held.add(index)
                waiting.append(index)
    return frozenset(held)


@lru_cache(maxsize=256)
def reached(triples: Triples) -> FrozenSet[int]:
    """The smallest closed set from (0,0,0); its size is what is printed."""
    return closure(triples, [triples.first])


def is_potential(triples: Triples) -> bool:
    """The verdict: potential when (1,1,1) is reached."""
    return triples.last in reached(triples)


def choice_count(triples: Triples) -> int:
    """The number of step records of all reached triples together."""
    return sum(
        len(unordered_steps(triples.automaton, triple_at(triples.states, index)))
        for index in reached(triples))


# Certificates.

# By byte the bits of it that are 1, "bit 0 the lowest".
BITS_OF = [[bit for bit in range(BYTE) if byte >> bit & 1] for byte in range(256)]


def certificate_length(states: int) -> int:
    """"2Q² bits in as few bytes as hold them"."""
    return (LAYERS * states * states + BYTE - 1) // BYTE


def certificate_of(states: int, indices: Iterable[int]) -> bytes:
    """"index 8b+c being bit c of byte b, bit 0 the lowest"."""
    certificate = bytearray(certificate_length(states))
    for index in indices:
        certificate[index // BYTE] |= 1 << index % BYTE
    return bytes(certificate)


def held_indices(certificate: bytes) -> List[int]:
    """The indices whose bits are 1, ascending."""
    return [BYTE * place + bit
            for place, byte in enumerate(certificate) if byte
            for bit in BITS_OF[byte]]
