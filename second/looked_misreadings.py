"""What document 02's [6] could be taken for.

Each misreading is another figure of the triples of a grammar. A case whose figure
is another in one of them tells it from [6], and is counted for that.

To leave out the round of (1,1,1) alone is none: state 1 has no moves, so that
there is nothing to look at. What can be wrong is to stop there.
"""

from functools import lru_cache
from typing import Callable, Dict, Iterator, Tuple

from live_misreadings import MOST_STATES, former_triples
from looked import choices_of, looked_at
from tables import START, Grammar
from triples import STILL, Step, Triples, reached, triple_at, triples_of, unordered_steps

Figure = Callable[[Triples], int]


# Other choices counted.

def records(triples: Triples) -> Iterator[Tuple[int, Step]]:
    """Every reached index with each of its step records."""
    for index in reached(triples):
        for step in unordered_steps(triples.automaton, triple_at(triples.states, index)):
            yield index, step


def of_the_left(triples: Triples) -> int:
    """Only choices in which the left side moves."""
    return sum(step.left != STILL for _, step in records(triples))


def different(triples: Triples) -> int:
    """Successors, each of a triple once."""
    return sum(len(triples.successors(index)) for index in reached(triples))


def leading_away(triples: Triples) -> int:
    """Without choices that lead back to the triple itself."""
    return sum(step.next != triple_at(triples.states, index) for index, step in records(triples))


def newly_found(triples: Triples) -> int:
    """Only successors that were not reached before."""
    return len(reached(triples)) - 1


def with_nonterminals(triples: Triples) -> int:
    """Also nonterminals that both sides could shift in layer 1, to a reached triple or not."""
    shifts = triples.automaton.shifts
    more = 0
    for index in reached(triples):
        layer, p, q = triple_at(triples.states, index)
        left, right = shifts[p], shifts[q]
        more += layer == 1 and bool(left and right and left[0] == right[0] >= START)
    return looked_at(triples) + more


# Another set summed over.

def until(triples: Triples, ends: Callable[[int], bool]) -> int:
    """The choices of what a search takes up, breadth first, until one is the end of it."""
    row, found, count = [triples.first], {triples.first}, 0
    for index in row:
        count += choices_of(triples.automaton, triple_at(triples.states, index))
        if ends(index):
            break
        ahead = [other for other in triples.successors(index) if other not in found]
        found.update(ahead)
        row += ahead
    return count


def until_found(triples: Triples) -> int:
    """Until (1,1,1) is a successor."""
    return until(triples, lambda index: triples.last in triples.successors(index))


def until_taken_up(triples: Triples) -> int:
    """Until (1,1,1) is taken up."""
    return until(triples, lambda index: index == triples.last)


def of_layer_0(triples: Triples) -> int:
    """Only triples of layer 0."""
    square = triples.states ** 2
    return sum(index < square for index, _ in records(triples))


FIGURES: Dict[str, Figure] = {
    "only-left-moves-are-looked-at": of_the_left,
    "equal-successors-are-looked-at-once": different,
    "ways-back-to-the-same-are-not-looked-at": leading_away,
    "only-what-is-new-is-looked-at": newly_found,
    "nonterminals-in-layer-1-are-looked-at": with_nonterminals,
    "nothing-is-looked-at-after-the-last-is-found": until_found,
    "nothing-is-looked-at-after-the-last-is-taken-up": until_taken_up,
    "only-layer-0-is-looked-at": of_layer_0,
}
DEAD = "moves-of-dead-rules-are-looked-at"

TOLD = {name: "told-from-" + name for name in [*FIGURES, DEAD]}


@lru_cache(maxsize=1024)
def told_by_figure(grammar: Grammar) -> Tuple[str, ...]:
    """The reasons of those misreadings in which a small grammar has another figure."""
    if grammar.states > MOST_STATES:
        return ()
    triples = triples_of(grammar)
    right = looked_at(triples)
    found = [TOLD[name] for name, figure in FIGURES.items() if figure(triples) != right]
    if looked_at(former_triples(grammar)) != right:
        found.append(TOLD[DEAD])
    return tuple(found)
