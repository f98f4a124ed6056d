"""Room told beforehand: document 02, [5].

`room_of` answers "From the tables alone, without a search", `text_length` for the
text writer. As reading 29 has it, M counts each (state, letter, target) once, rule
0's opening and closing among them. The automaton is that of callers.py, so of live
rules alone; at m=0 Q counts the items of every rule.
"""

from typing import FrozenSet, NamedTuple, Sequence, Tuple, Union

from automaton import Automaton
from callers import automaton_at, check_at, states_at
from tables import START, Codes, Grammar, Refusal, check_table
from text import COLON, COMMA, END, EQUALS, NONTERMINALS, RULE, SPACE, TERMINALS, lent_names
from triples import BYTE, CLOSING, LAYERS, OPENING, SYMBOL, Move

LetterMove = Tuple[int, Move, int]     # state, letter, target


class Room(NamedTuple):
    """Q, "the certificate's bytes, the entries of each row", and M."""

    states: int
    certificate: int
    row: int
    moves: int


# The search.

def letter_moves(automaton: Automaton) -> FrozenSet[LetterMove]:
    """Every move, one by one, "nonterminal shifts included"."""
    found = set()
    for state in range(automaton.states):
        for rule, target in automaton.openings[state]:
            found.add((state, (OPENING, rule), target))
        for rule, target in automaton.closings[state]:
            found.add((state, (CLOSING, rule), target))
        shift = automaton.shifts[state]
        if shift is not None:
            found.add((state, (SYMBOL, shift[0]), shift[1]))
    return frozenset(found)


def room_of(t: int, n: int, table: Codes, m: int = 0) -> Union[Room, Refusal]:
    """What a search of these tables at m must be lent, and M; or the fault of the table or of m.

    "The figures told beforehand take m too."
    """
    grammar = check_at(t, n, table, m)
    if isinstance(grammar, Refusal):
        return grammar
    states = states_at(grammar, m)
    row = LAYERS * states ** 2
    whole, over = divmod(row, BYTE)
    moves = len(letter_moves(automaton_at(grammar, m)))
    return Room(states, whole + (over > 0), row, moves)


# The text writer.

def line_length(key: bytes, value: int) -> int:
    """The bytes of a line whose value has so many."""
    return len(key + EQUALS) + value + len(END)


def list_length(names: Sequence[bytes]) -> int:
    """The bytes of names "separated by one comma", maybe none."""
    commas = max(0, len(names) - 1)
    return sum(map(len, names)) + commas * len(COMMA)


def rules_length(grammar: Grammar, names: Sequence[bytes]) -> int:
    """The bytes of all `rule=` lines: "left name, colon, then a space and a name".

    Also rules that are not live are written.
    """
    length = 0
    for rule in grammar.rules:
        symbols = [code - 1 if code < START else grammar.terminals + code - START
                   for code in (rule.left, *rule.right)]
        value = sum(len(names[symbol]) for symbol in symbols)
        value += len(COLON) + len(rule.right) * len(SPACE)
        length += line_length(RULE, value)
    return length


def text_length(
    t: int, n: int, table: Codes, names: bytes, starts: Sequence[int], lengths: Sequence[int]
) -> Union[int, Refusal]:
    """"the exact byte length of what it would write", or the writer's refusal but 14."""
    grammar = check_table(t, n, table)
    if isinstance(grammar, Refusal):
        return grammar
    found = lent_names(t + n, names, starts, lengths)
    if isinstance(found, Refusal):
        return found
    return (line_length(TERMINALS, list_length(found[:t]))
            + line_length(NONTERMINALS, list_length(found[t:]))
            + rules_length(grammar, found))
