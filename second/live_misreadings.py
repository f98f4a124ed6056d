"""What document 02's [3] could be taken for, and the automaton before it.

Each misreading is an automaton of a grammar with a sentence. A case that is
answered otherwise in one of them tells it from [3], and is counted for that.
"""

from functools import lru_cache
from typing import Callable, Dict, Iterable, List, Set, Tuple

from automaton import Automaton, automaton_of, automaton_with, items_of
from dead_rules import BEHIND, UNPRODUCTIVE, UNREACHABLE, dead_states, is_complete, reachable
from derivations import nonterminals_of, productive
from shortest import shortest_witness
from tables import START, Grammar
from triples import Triple, Triples, reached, triple_at, triples_of

MOST_STATES = 40           # of a grammar that misreadings are tried for

Taken = Tuple[bool, ...]   # by number of a rule whether it is taken, rule 0 first
Misread = Callable[[Grammar], Automaton]


# Other rules taken.

def every_rule(grammar: Grammar) -> Taken:
    """Document 01: "Every rule is taken, also one that no sentence uses."."""
    return (True,) * (len(grammar.rules) + 1)


def productive_rules(grammar: Grammar) -> Taken:
    """Also rules that are not reachable."""
    finite = productive(grammar)
    return (START in finite, *(is_complete(finite, rule) for rule in grammar.rules))


def reachable_rules(grammar: Grammar) -> Taken:
    """Also rules that are not productive."""
    near = reachable(grammar)
    return (True, *(rule.left in near for rule in grammar.rules))


def productive_and_reachable(grammar: Grammar) -> Taken:
    """Also rules that are reached through unproductive ones alone."""
    pairs = zip(productive_rules(grammar), reachable_rules(grammar))
    return tuple(one and other for one, other in pairs)


def in_one_round(grammar: Grammar) -> Taken:
    """Each rule is looked at once, in order, for finite subtrees, and once from S."""
    finite: Set[int] = set()
    for rule in grammar.rules:
        if finite.issuperset(nonterminals_of(rule)):
            finite.add(rule.left)
    near = {START} & finite
    taken = [START in finite]
    for rule in grammar.rules:
        taken.append(rule.left in near and finite.issuperset(nonterminals_of(rule)))
        near.update(nonterminals_of(rule) if taken[-1] else [])
    return tuple(taken)


def of_taken(taken: Callable[[Grammar], Taken]) -> Misread:
    return lambda grammar: automaton_with(grammar, taken(grammar))


former_automaton = of_taken(every_rule)


# Other moves of dead items.

def merged(grammar: Grammar, live: Automaton, dead: Automaton) -> Automaton:
    """The items of dead rules as one automaton has them, all other states as another."""
    states = dead_states(grammar)
    rows = [tuple(two[state in states] for state, two in enumerate(zip(*columns)))
            for columns in zip(live[1:], dead[1:])]
    return Automaton(live.states, *rows)


def dead_items_move(grammar: Grammar) -> Automaton:
    """No live item leads to a dead one, but dead ones have their moves."""
    right = automaton_of(grammar)
    dead = former_automaton(grammar)._replace(before_terminal=right.before_terminal)
    return merged(grammar, right, dead)


def dead_items_are_entered(grammar: Grammar) -> Automaton:
    """Dead items have no moves, but live ones lead to them."""
    return merged(grammar, former_automaton(grammar), automaton_of(grammar))


def dead_items_stand_before_terminals(grammar: Grammar) -> Automaton:
    """Dead items have no moves, but another can close beside the terminal they stand before."""
    former = former_automaton(grammar)
    return automaton_of(grammar)._replace(before_terminal=former.before_terminal)


# Those that a search can show, and those that only triples show which none reaches.
FORMER = "every-rule-is-taken"
REACHED: Dict[str, Misread] = {
    FORMER: former_automaton,
    "unreachable-rules-are-taken": of_taken(productive_rules),
    "unproductive-rules-are-taken": of_taken(reachable_rules),
    "rules-behind-unproductive-ones-are-taken": of_taken(productive_and_reachable),
    "live-rules-are-found-in-one-round": of_taken(in_one_round),
    "dead-items-are-entered": dead_items_are_entered,
}
MISREAD: Dict[str, Misread] = {
    **REACHED,
    "dead-items-move": dead_items_move,
    "dead-items-stand-before-terminals": dead_items_stand_before_terminals,
}


@lru_cache(maxsize=512)
def misread_triples(grammar: Grammar, name: str) -> Triples:
    """The triples of a misreading."""
    return Triples(MISREAD[name](grammar))


def former_triples(grammar: Grammar) -> Triples:
    """The triples of document 01's automaton."""
    return misread_triples(grammar, FORMER)


# What tells them.

TOLD = {name: "told-from-" + name for name in MISREAD}
TOLD_BY_SEARCH = [TOLD[name] for name in REACHED]


def told(
    grammar: Grammar, names: Iterable[str], answer: Callable[[Triples], object]
) -> List[str]:
    """The reasons of those misreadings in which a small grammar is answered otherwise."""
    if grammar.states > MOST_STATES:
        return []
    right = triples_of(grammar)
    wrong = {name: misread_triples(grammar, name) for name in names}
    return [TOLD[name] for name, triples in wrong.items()
            if triples.automaton != right.automaton and answer(triples) != answer(right)]


def found_by_search(triples: Triples) -> object:
    """What the search finds: the shortest witness, or the smallest set."""
    witness = shortest_witness(triples)
    return reached(triples) if witness is None else witness


@lru_cache(maxsize=1024)
def told_by_search(grammar: Grammar) -> Tuple[str, ...]:
    """The reasons of those in which verdict, smallest set or shortest witness is another."""
    return tuple(told(grammar, REACHED, found_by_search))


# Steps that document 01's automaton had.

WRONG_STEPS = [
    "opening-of-an-unproductive-rule",
    "closing-into-an-unproductive-rule",
    "closing-into-an-unreachable-rule",
    "closing-into-a-rule-behind-unproductive-ones",
]
CLOSINGS = dict(zip([UNPRODUCTIVE, UNREACHABLE, BEHIND], WRONG_STEPS[1:]))


def wrong_steps(grammar: Grammar, before: int, after: int) -> List[str]:
    """How a former step led from live items to a dead one, once for each side that it led there."""
    former = former_triples(grammar)
    if before >= former.count or after not in former.successors(before):
        return []
    one, other = triple_at(former.states, before), triple_at(former.states, after)
    return [name for side in (1, 2) for name in wrong_moves(grammar, one, other, side)]


def wrong_moves(grammar: Grammar, one: Triple, other: Triple, side: int) -> List[str]:
    """The same for one side."""
    dead = dead_states(grammar)
    state, to = one[side], other[side]
    if state in dead or to not in dead:
        return []
    item = items_of(grammar)[to]
    assert item is not None
    return [WRONG_STEPS[0] if item.dot == 0 else CLOSINGS[dead[to]]]
