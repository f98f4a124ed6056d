"""The shortest witness: document 02, [1].

"The witness is to have the fewest entries possible; among those of equal
length, the one whose first differing index is smaller."

It is found from its end: first how far each triple is from (1,1,1), then from
(0,0,0) always to the smallest index that is one step nearer.
"""

from typing import Dict, List, Optional, Tuple

from triples import Triples, is_potential, reached


def preceding(triples: Triples) -> Dict[int, List[int]]:
    """By reached index those reached ones that it is a successor of."""
    before: Dict[int, List[int]] = {index: [] for index in reached(triples)}
    for index in before:
        for successor in triples.successors(index):
            before[successor].append(index)
    return before


def distances(triples: Triples) -> Dict[int, int]:
    """By reached index the fewest steps from it to (1,1,1).

    An index that does not lead there is left out; so are all where (1,1,1) is
    not reached.
    """
    if not is_potential(triples):
        return {}
    before = preceding(triples)
    found = {triples.last: 0}
    nearest = [triples.last]
    while nearest:
        farther = {index for near in nearest for index in before[near]} - found.keys()
        found.update((index, found[nearest[0]] + 1) for index in farther)
        nearest = list(farther)
    return found


def shortest_witness(triples: Triples) -> Optional[Tuple[int, ...]]:
    """The entries of the one witness of [1]; None if the verdict is unambiguous.

    A witness has the fewest entries exactly when each entry is one step nearer
    to (1,1,1) than the one before. So every choice of a nearer entry can be
    completed, and the smallest at each place makes the smallest row.
    """
    ahead = distances(triples)
    if triples.first not in ahead:
        return None
    row = [triples.first]
    while row[-1] != triples.last:
        nearer = ahead[row[-1]] - 1
        row.append(min(index for index in triples.successors(row[-1])
                       if ahead.get(index) == nearer))
    return tuple(row)
