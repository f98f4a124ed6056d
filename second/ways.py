"""Ways through the triples, from which witnesses and larger closed sets are made."""

from functools import lru_cache
from typing import Dict, FrozenSet, List

from case_files import Rng
from triples import Triples, is_potential, reached


@lru_cache(maxsize=256)
def parents_of(triples: Triples) -> Dict[int, int]:
    """By reached index the one before it on a shortest way from (0,0,0)."""
    parents = {triples.first: triples.first}
    row = [triples.first]
    for index in row:
        for successor in triples.successors(index):
            if successor not in parents:
                parents[successor] = index
                row.append(successor)
    return parents


def way_to(triples: Triples, index: int) -> List[int]:
    """A shortest way from (0,0,0) to a reached index, both included."""
    parents = parents_of(triples)
    way = [index]
    while way[-1] != triples.first:
        way.append(parents[way[-1]])
    return way[::-1]


def shortest(triples: Triples) -> List[int]:
    """A shortest witness of a potential grammar."""
    return way_to(triples, triples.last)


@lru_cache(maxsize=256)
def onward_of(triples: Triples) -> Dict[int, int]:
    """By reached index the next one on a shortest way to (1,1,1), if there is one."""
    before: Dict[int, List[int]] = {index: [] for index in reached(triples)}
    for index in sorted(before):
        for successor in triples.successors(index):
            before[successor].append(index)
    onward = {triples.last: triples.last}
    row = [triples.last]
    for index in row:
        for other in before[index]:
            if other not in onward:
                onward[other] = index
                row.append(other)
    return onward


def longer(rng: Rng, triples: Triples, more: int) -> List[int]:
    """A witness that first takes `more` random steps, often round and round."""
    onward = onward_of(triples)
    way = [triples.first]
    for _ in range(more):
        ahead = [index for index in triples.successors(way[-1]) if index in onward]
        if way[-1] != triples.last:
            way.append(rng.choice(ahead))
    while way[-1] != triples.last:
        way.append(onward[way[-1]])
    return way


def wander(rng: Rng, triples: Triples, most: int) -> List[int]:
    """A random way from (0,0,0) of at most `most` steps, wherever it leads."""
    way = [triples.first]
    while len(way) <= most and triples.successors(way[-1]):
        way.append(rng.choice(triples.successors(way[-1])))
    return way


def way_from(triples: Triples, index: int) -> List[int]:
    """From an index to (1,1,1), by right steps where they are known, else at once."""
    onward = onward_of(triples) if is_potential(triples) else {}
    way = [index]
    while way[-1] in onward and way[-1] != triples.last:
        way.append(onward[way[-1]])
    return way if way[-1] == triples.last else way + [triples.last]


@lru_cache(maxsize=256)
def largest_set(triples: Triples) -> FrozenSet[int]:
    """Every triple from which (1,1,1) cannot be reached: the largest closed set."""
    before: List[List[int]] = [[] for _ in range(triples.count)]
    for index in range(triples.count):
        for successor in triples.successors(index):
            before[successor].append(index)
    leading = {triples.last}
    waiting = [triples.last]
    while waiting:
        for index in before[waiting.pop()]:
            if index not in leading:
                leading.add(index)
                waiting.append(index)
    return frozenset(range(triples.count)) - leading
