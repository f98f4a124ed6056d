"""What document 02's [11] could be taken for.

Each misreading of the states and moves is an automaton at m; each of the refusals
answers in the place of `check_at`. `told` says in which a grammar is answered otherwise.
"""

from typing import Callable, Dict, List, Optional, Tuple

from automaton import Automaton, before_dot, taken_items
from callers import (
    MOST_CALLERS, TOO_MANY_CALLERS, Chain, Live, automaton_at, chains_at, check_at, closed, items_with,
    live_items, longer_chains, moves_between, opened, remembering, states_at,
)
from shortest import shortest_witness
from tables import (
    MAX_STATES, NO_SENTENCE, TOO_MANY_STATES, Codes, Grammar, Refusal, check_rules, check_table,
)
from triples import Triples, reached

Misread = Callable[[Grammar, int], Automaton]


# Other moves.

def returning(live: Live, chains: List[Chain], chain: Chain) -> List[Tuple[int, Chain]]:
    """From the end of a rule to every chain just past its left side."""
    item = live.items[chain[0]]
    if item.dot < len(item.right):
        return []
    return [(item.rule, to) for to in chains if before_dot(live.items[to[0]]) == item.left]


def caller_forgotten(grammar: Grammar, m: int) -> Automaton:
    """A closing drops all callers, also the nearest: it returns to every item just past, as at m=0."""
    live = live_items(grammar)
    chains = chains_at(live, m)
    return moves_between(live, chains, lambda chain: opened(live, m, chain),
                         lambda chain: returning(live, chains, chain))


def farther_forgotten(grammar: Grammar, m: int) -> Automaton:
    """A closing keeps the nearest caller alone; all farther ones are filled in."""
    live = live_items(grammar)
    chains = chains_at(live, m)

    def closes(chain: Chain) -> List[Tuple[int, Chain]]:
        item = live.items[chain[0]]
        return [] if item.dot < len(item.right) else [
            (item.rule, to) for to in chains if to[0] == chain[1] + 1]

    return moves_between(live, chains, lambda chain: opened(live, m, chain), closes)


def not_filled_in(grammar: Grammar, m: int) -> Automaton:
    """A farther caller is not filled in: chains become shorter, "a missing one first" decides."""
    live = live_items(grammar)
    whole = chains_at(live, m)
    chains = sorted({chain[:size] for chain in whole for size in range(1, m + 2)})

    def closes(chain: Chain) -> List[Tuple[int, Chain]]:
        item = live.items[chain[0]]
        if item.dot < len(item.right):
            return []
        longer = [chain] if len(chain) > 1 else longer_chains(live, chain)
        return [(item.rule, (to[1] + 1,) + to[2:]) for to in longer]

    return moves_between(live, chains, lambda chain: opened(live, m, chain), closes)


# Other states.

def dead_rules_call(grammar: Grammar, m: int) -> Automaton:
    """A dead rule in a chain: items of every rule are taken."""
    every = items_with(grammar, [True] * (1 + len(grammar.rules)))
    callers = {left: every.callers.get(left, []) for item in every.items if item is not None for left in [item.left]}
    live = every._replace(callers=callers)
    chains = chains_at(live, m)
    known = set(chains)

    def opens(chain: Chain) -> List[Tuple[int, Chain]]:
        return [arrow for arrow in opened(live, m, chain) if arrow[1] in known]

    def closes(chain: Chain) -> List[Tuple[int, Chain]]:
        return [arrow for arrow in closed(live, chain) if arrow[1] in known]

    return moves_between(live, chains, opens, closes)


def dead_items_stay(grammar: Grammar, m: int) -> Automaton:
    """Items of dead rules keep a state above m=0 too, without moves."""
    live = live_items(grammar)
    every = taken_items(grammar, [True] * (1 + len(grammar.rules)))
    dead = [(number,) for number, item in enumerate(every) if item is not None and live.items[number] is None]
    chains = sorted(chains_at(live, m) + dead)
    moves = remembering(grammar, m)
    place = [0, 1] + [2 + number for number, chain in enumerate(chains) if chain not in dead]

    def moved(arrows):
        return tuple((rule, place[to]) for rule, to in arrows)

    rows = [[()] * (2 + len(chains)), [()] * (2 + len(chains)), [None] * (2 + len(chains)), [False] * (2 + len(chains))]
    for state, new in enumerate(place):
        rows[0][new], rows[1][new] = moved(moves.openings[state]), moved(moves.closings[state])
        shift = moves.shifts[state]
        rows[2][new] = None if shift is None else (shift[0], place[shift[1]])
        rows[3][new] = moves.before_terminal[state]
    return Automaton(2 + len(chains), *map(tuple, rows))


def ordered(grammar: Grammar, m: int, key: Callable[[Chain], object]) -> Automaton:
    """The right chains in another order."""
    live = live_items(grammar)
    return moves_between(live, sorted(chains_at(live, m), key=key), lambda chain: opened(live, m, chain),
                         lambda chain: closed(live, chain))


def from_the_farthest(grammar: Grammar, m: int) -> Automaton:
    return ordered(grammar, m, lambda chain: (chain[0], chain[:0:-1]))


def callers_before_items(grammar: Grammar, m: int) -> Automaton:
    return ordered(grammar, m, lambda chain: (chain[1:], chain[0]))


def another_m(grammar: Grammar, m: int) -> Automaton:
    """m=1 taken for m=2, and the other way round."""
    return automaton_at(grammar, MOST_CALLERS + 1 - m)


MISREAD: Dict[str, Misread] = {
    "a-closing-drops-all-callers": caller_forgotten,
    "a-closing-drops-farther-callers": farther_forgotten,
    "a-farther-caller-is-not-filled-in": not_filled_in,
    "a-dead-rule-is-in-a-chain": dead_rules_call,
    "dead-items-keep-their-states": dead_items_stay,
    "callers-are-ordered-from-the-farthest": from_the_farthest,
    "callers-are-ordered-before-items": callers_before_items,
    "one-caller-is-taken-for-two": another_m,
}


def found_by_search(triples: Triples) -> Tuple[object, ...]:
    """What a search finds: Q, and the shortest witness or the smallest set."""
    witness = shortest_witness(triples)
    return triples.states, reached(triples) if witness is None else witness


def told(grammar: Grammar, m: int) -> List[str]:
    """The misreadings in which a search at an m above 0 finds something else."""
    right = found_by_search(Triples(automaton_at(grammar, m)))
    return [name for name, misread in MISREAD.items() if found_by_search(Triples(misread(grammar, m))) != right]


# Other refusals.

def before_19(t: int, n: int, table: Codes, m: int) -> Optional[Refusal]:
    """21 before 19."""
    result = check_table(t, n, table)
    if isinstance(result, Refusal) and result.cause == NO_SENTENCE and m > MOST_CALLERS:
        return Refusal(TOO_MANY_CALLERS, 0)
    return refusal_of(t, n, table, m)


def at_a_rule(t: int, n: int, table: Codes, m: int) -> Optional[Refusal]:
    """Too many chains are 8 at the offset of the last rule."""
    result, grammar = refusal_of(t, n, table, m), check_rules(t, n, table)
    if isinstance(grammar, Grammar) and result == Refusal(TOO_MANY_STATES, 0):
        return Refusal(TOO_MANY_STATES, grammar.rules[-1].offset)
    return result


def table_at_0(t: int, n: int, table: Codes, m: int) -> Optional[Refusal]:
    """The table's own 8 at 0 where m is above 0."""
    result = refusal_of(t, n, table, m)
    return Refusal(TOO_MANY_STATES, 0) if m and result is not None and result.cause == TOO_MANY_STATES else result


def chains_first(t: int, n: int, table: Codes, m: int) -> Optional[Refusal]:
    """Too many chains before 21: those of the most callers."""
    grammar = check_table(t, n, table)
    if isinstance(grammar, Grammar) and m > MOST_CALLERS and states_at(grammar, MOST_CALLERS) > MAX_STATES:
        return Refusal(TOO_MANY_STATES, 0)
    return refusal_of(t, n, table, m)


def cut_to_32_bits(t: int, n: int, table: Codes, m: int) -> Optional[Refusal]:
    """The low 32 bits of m are looked at."""
    return refusal_of(t, n, table, m % 2 ** 32)


def refusal_of(t: int, n: int, table: Codes, m: int) -> Optional[Refusal]:
    """The right answer: the fault of the table or of m, or none."""
    result = check_at(t, n, table, m)
    return result if isinstance(result, Refusal) else None


REFUSALS: Dict[str, Callable[[int, int, Codes, int], Optional[Refusal]]] = {
    "21-before-19": before_19,
    "too-many-chains-at-a-rule": at_a_rule,
    "the-tables-own-8-at-0": table_at_0,
    "too-many-chains-before-21": chains_first,
    "m-cut-to-32-bits": cut_to_32_bits,
}


def told_by_refusal(t: int, n: int, table: Codes, m: int) -> List[str]:
    """The misreadings that refuse a table with an m otherwise."""
    right = refusal_of(t, n, table, m)
    return [name for name, misread in REFUSALS.items() if misread(t, n, table, m) != right]
