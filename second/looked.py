"""How much the search looks at, and the most that it can: document 02, [6].

"The figure equals the number of move choices that give a successor, each choice
counted, summed over the triples of the set reached. It is reported with either
verdict". (1,1,1) is taken up too where it is reached. Two choices that give the
same successor are two; they do so only where it is the triple itself. "It is at
most M² + 2×Q×M": M is that of [5], "the number M of moves in the automaton,
nonterminal shifts included".

The choices are counted here, not listed: triples.py lists them as step records.
"""

from functools import lru_cache
from itertools import product

from automaton import Automaton
from rooms import letter_moves
from tables import START
from triples import Triple, Triples, reached, triple_at


# The bound.

def most_looked_at(automaton: Automaton) -> int:
    """"at most M² + 2×Q×M"."""
    moves = len(letter_moves(automaton))
    return moves ** 2 + 2 * automaton.states * moves


# The figure.

def shift_choices(automaton: Automaton, triple: Triple) -> int:
    """1 if "both shift the same symbol", in layer 1 "the same terminal", else 0."""
    left, right = automaton.shifts[triple.left], automaton.shifts[triple.right]
    if left is None or right is None or left[0] != right[0]:
        return 0
    return int(triple.layer == 0 or left[0] < START)


def parting_choices(automaton: Automaton, triple: Triple) -> int:
    """The choices "f=0 to 1": two unequal closings, or one beside a terminal."""
    lefts, rights = automaton.closings[triple.left], automaton.closings[triple.right]
    both = sum(i != j for (i, _), (j, _) in product(lefts, rights))
    left_alone = len(lefts) * automaton.before_terminal[triple.right]
    right_alone = len(rights) * automaton.before_terminal[triple.left]
    return both + left_alone + right_alone


def choices_of(automaton: Automaton, triple: Triple) -> int:
    """How many choices of moves give a successor of a triple in range."""
    layer, p, q = triple
    count = len(automaton.openings[p]) + len(automaton.openings[q])
    count += shift_choices(automaton, triple)
    if layer == 0:
        return count + parting_choices(automaton, triple)
    return count + len(automaton.closings[p]) + len(automaton.closings[q])


@lru_cache(maxsize=256)
def looked_at(triples: Triples) -> int:
    """"how many successors it looked at": the choices of all reached triples."""
    return sum(choices_of(triples.automaton, triple_at(triples.states, index))
               for index in reached(triples))
