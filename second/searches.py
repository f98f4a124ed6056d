"""The search of document 01: what it must be lent, and what it answers.

Which witness comes with a potential verdict is document 02's [1]: shortest.py. With
either verdict the search reports how much it looked at, [6]: looked.py.
"""

from typing import NamedTuple, Tuple, Union

from certificates import checked_triples
from looked import looked_at
from shortest import shortest_witness
from tables import Codes, Refusal
from triples import LAYERS, certificate_length, certificate_of, reached

ROW_TOO_SHORT = 14        # "a lent output or work row too short"


class Lent(NamedTuple):
    """How much is lent: certificate bytes, and entries of the three rows."""

    certificate: int
    queue: int
    parents: int
    witness: int


class Unambiguous(NamedTuple):
    """"With unambiguous the search returns the size", and writes the certificate."""

    size: int
    looked: int
    certificate: bytes


class Potential(NamedTuple):
    """The search writes the shortest witness, and returns its number of entries."""

    looked: int
    witness: Tuple[int, ...]


def needed(states: int) -> Lent:
    """What is lent enough: "three rows of 2Q² 32-bit entries", and the bytes."""
    row = LAYERS * states * states
    return Lent(certificate_length(states), row, row, row)


def search(
    t: int, n: int, table: Codes, lent: Lent, m: int = 0
) -> Union[Refusal, Unambiguous, Potential]:
    """Faults of the table and of m, then 14 at 0 if anything lent is too short, then the verdict."""
    triples = checked_triples(t, n, table, m)
    if isinstance(triples, Refusal):
        return triples
    if any(given < need for given, need in zip(lent, needed(triples.states))):
        return Refusal(ROW_TOO_SHORT, 0)
    held, looked = reached(triples), looked_at(triples)
    if triples.last in held:
        witness = shortest_witness(triples)
        assert witness is not None
        return Potential(looked, witness)
    return Unambiguous(len(held), looked, certificate_of(triples.states, held))
