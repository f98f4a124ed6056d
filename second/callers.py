"""The automaton that remembers callers: document 02, [11].

"A state is then an item with its m nearest calling items, fewer only if the chain
begins in rule 0." `automaton_at` gives the moves at m, `states_at` counts Q from the
right sides alone, so that no chain is listed where they are too many, and `check_at`
is the table check with the two refusals that m adds. At m=0 all is automaton.py's.
"""

from functools import lru_cache
from typing import Callable, Dict, List, NamedTuple, Optional, Sequence, Tuple, Union

from automaton import (
    BEFORE_START, END, NEW_RULE, NEW_START, Arrow, Automaton, Item, after_dot, automaton_of,
    stands_before_terminal, taken_items,
)
from live import live_rules
from tables import (
    FIXED_STATES, MAX_STATES, START, TOO_MANY_STATES, Codes, Grammar, Refusal, check_table,
)

MOST_CALLERS = 2          # "A parameter m of 0, 1 or 2"
TOO_MANY_CALLERS = 21     # "An m above 2 is refused with 21 at position 0 directly after 19"

Chain = Tuple[int, ...]   # an item and its calling items from the nearest, by their numbers at m=0
Targets = Callable[[Chain], List[Tuple[int, Chain]]]     # by chain the rules it moves with, and where to


class Live(NamedTuple):
    """The items of live rules by number, others None; by nonterminal its first items and its callers."""

    items: Tuple[Optional[Item], ...]
    first: Dict[int, List[int]]
    callers: Dict[int, List[int]]


# Q.

@lru_cache(maxsize=1024)
def states_at(grammar: Grammar, m: int) -> int:
    """Q at m: "above it, items of rules that are not live have no states".

    As many callers of a nonterminal as it has places on live right sides. So the
    chains of one caller more are, place by place, those of the left side there; the
    chain of rule 0, which none calls, stays one.
    """
    if m == 0:
        return grammar.states
    live = [rule for rule, taken in zip(grammar.rules, live_rules(grammar)[1:]) if taken]
    chains = {rule.left: 1 for rule in live}
    for _ in range(m):
        longer = dict.fromkeys(chains, 0)
        longer[START] += 1
        for rule in live:
            for code in rule.right:
                if code >= START:
                    longer[code] += chains[rule.left]
        chains = longer
    return FIXED_STATES + sum((len(rule.right) + 1) * chains[rule.left] for rule in live)


# Chains.

def live_items(grammar: Grammar) -> Live:
    """The items of live rules, with what opens and what calls."""
    return items_with(grammar, live_rules(grammar))


def items_with(grammar: Grammar, taken: Sequence[bool]) -> Live:
    """The same when these rules are taken, rule 0 first."""
    items = tuple(taken_items(grammar, taken))
    first: Dict[int, List[int]] = {}
    callers: Dict[int, List[int]] = {}
    for number, item in enumerate(items):
        if item is not None and item.dot == 0:
            first.setdefault(item.left, []).append(number)
        code = after_dot(item)
        if code is not None and code >= START:
            callers.setdefault(code, []).append(number)
    return Live(items, first, callers)


def longer_chains(live: Live, chain: Chain) -> List[Chain]:
    """The chain with one caller more, "any possible"; itself where it "begins in rule 0"."""
    farthest = live.items[chain[-1]]
    assert farthest is not None
    if farthest.left == NEW_START:
        return [chain]
    return [chain + (caller,) for caller in live.callers[farthest.left]]


def chains_at(live: Live, m: int) -> List[Chain]:
    """All chains: "ordered by item, then by callers from the nearest, a missing one first"."""
    chains = [(number,) for number, item in enumerate(live.items) if item is not None]
    for _ in range(m):
        chains = [longer for chain in chains for longer in longer_chains(live, chain)]
    return sorted(chains)


# Moves.

def opened(live: Live, m: int, chain: Chain) -> List[Tuple[int, Chain]]:
    """By rule the chains that a chain opens: its item calls, the farthest caller is forgotten."""
    code = after_dot(live.items[chain[0]])
    return [(live.items[number].rule, ((number,) + chain)[:m + 1])
            for number in live.first.get(code, [])]


def closed(live: Live, chain: Chain) -> List[Tuple[int, Chain]]:
    """Where a chain at its rule's end closes to.

    "Closing returns to the nearest caller advanced past its nonterminal, with any
    possible farther caller filled in."
    """
    item = live.items[chain[0]]
    if item.dot < len(item.right):
        return []
    return [(item.rule, (longer[1] + 1,) + longer[2:]) for longer in longer_chains(live, chain)]


def remembering(grammar: Grammar, m: int) -> Automaton:
    """The moves between chains of m callers; at m=0 those of a grammar whose rules are all live."""
    live = live_items(grammar)
    return moves_between(live, chains_at(live, m), lambda chain: opened(live, m, chain),
                         lambda chain: closed(live, chain))


def moves_between(live: Live, chains: Sequence[Chain], opens: Targets, closes: Targets) -> Automaton:
    """The automaton whose states after 0 and 1 are these chains, in this order."""
    number = {chain: 2 + place for place, chain in enumerate(chains)}
    openings: List[Sequence[Arrow]] = [[(NEW_RULE, BEFORE_START)], []]
    closings: List[Sequence[Arrow]] = [[], []]
    shifts: List[Optional[Arrow]] = [None, None]
    for chain in chains:
        code = after_dot(live.items[chain[0]])
        openings.append([(rule, number[to]) for rule, to in opens(chain)])
        shifts.append(None if code is None else (code, number[(chain[0] + 1,) + chain[1:]]))
        if live.items[chain[0]].rule == NEW_RULE:
            closings.append([(NEW_RULE, END)] if code is None else [])
        else:
            closings.append([(rule, number[to]) for rule, to in closes(chain)])
    terminal = [False, False] + [stands_before_terminal(live.items[chain[0]]) for chain in chains]
    return Automaton(2 + len(chains), tuple(map(tuple, openings)), tuple(map(tuple, closings)),
                     tuple(shifts), tuple(terminal))


def automaton_at(grammar: Grammar, m: int) -> Automaton:
    """The automaton of a grammar that `refusal_at` lets pass; "At m=0 the numbering is today's"."""
    if m == 0:
        return automaton_of(grammar)
    automaton = remembering(grammar, m)
    assert automaton.states == states_at(grammar, m), "chains are counted as they are listed"
    return automaton


# Refusals.

def refusal_at(grammar: Grammar, m: int) -> Optional[Refusal]:
    """21, then "too many chains give 8 at position 0 after that"."""
    if m > MOST_CALLERS:
        return Refusal(TOO_MANY_CALLERS, 0)
    if states_at(grammar, m) > MAX_STATES:
        return Refusal(TOO_MANY_STATES, 0)
    return None


def check_at(t: int, n: int, table: Codes, m: int) -> Union[Grammar, Refusal]:
    """The table's faults, 19 among them, then those of m; all precede 9 to 15."""
    grammar = check_table(t, n, table)
    if isinstance(grammar, Refusal):
        return grammar
    return refusal_at(grammar, m) or grammar
