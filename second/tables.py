"""The table check: document 01's "Tables" and refusals 1 to 8, document 02's [4] and [8].

`check_table` takes t, n and a table, and answers a Grammar or a Refusal.
`check_rules` leaves out 19, for grammars that "may lack sentences".
"""

from typing import Dict, FrozenSet, List, NamedTuple, Optional, Sequence, Set, Tuple, Union

# The limits, by document 02's [8].
MAX_TERMINALS = 2000      # "terminals 1 to 2,000": t from 0 to 2,000
MAX_NONTERMINALS = 2000   # "nonterminals 32,768 to 34,767": n from 1 to 2,000
START = 32768             # the first nonterminal "is the start S"
MAX_LENGTH = 12           # "length k (0 to 12)", document 01
MAX_RULES = 400           # "The limits become 400 rules"
MAX_STATES = 1024         # "and 1,024 states": "Q is 4 plus the sum of (k+1)"
MAX_ENTRY = 65535         # "The table is a row of 16-bit entries"
FIXED_STATES = 4          # states 0 to 3, which belong to no stored rule
HEADER = 2                # left code and length, in front of the k codes

# The causes of refusal, by the documents' numbers.
OUT_OF_RANGE = 1          # "t or n outside its range"
TABLE_ENDS = 2            # "table ends inside a rule"
BAD_LEFT = 3              # "left code no declared nonterminal"
TOO_LONG = 4              # "k above 12"
BAD_RIGHT = 5             # "right code undeclared"
EQUAL_RULE = 6            # "rule equals an earlier one"
TOO_MANY_RULES = 7        # "a 101st rule", by [8] a 401st
TOO_MANY_STATES = 8       # "Q would pass 256", by [8] 1,024
NO_SENTENCE = 19          # "A grammar in which S has no finite tree"

Codes = Tuple[int, ...]          # a row of 16-bit entries: a table, or a right side of it
RuleCodes = Tuple[int, Codes]    # left code and right codes


class Rule(NamedTuple):
    """A stored rule: "left code, length k (0 to 12), k codes", k as len(right)."""

    offset: int
    left: int
    right: Codes


class Grammar(NamedTuple):
    """A checked grammar; `states` is Q, `rules` lacks rule 0, "not stored"."""

    terminals: int
    nonterminals: int
    rules: Tuple[Rule, ...]
    states: int


class Refusal(NamedTuple):
    """A cause's number and what the table of causes has "returned"."""

    cause: int
    position: int


def is_terminal(code: int, t: int) -> bool:
    """Whether "Terminals are 1 to t" has this code; 0 is never one."""
    return 1 <= code <= t


def is_nonterminal(code: int, n: int) -> bool:
    """Whether the nonterminals, 32,768 to 32,767+n, have this code."""
    return START <= code < START + n


def in_range(t: int, n: int) -> bool:
    """Not cause 1: t from 0 to 2,000 and n from 1 to 2,000."""
    return 0 <= t <= MAX_TERMINALS and 1 <= n <= MAX_NONTERMINALS


def undeclared_place(t: int, n: int, right: Codes) -> Optional[int]:
    """The place, from 0, of the first code that is neither kind of symbol."""
    for place, code in enumerate(right):
        if not is_terminal(code, t) and not is_nonterminal(code, n):
            return place
    return None


def check_rule(
    t: int, n: int, table: Codes, offset: int, earlier: Set[RuleCodes], states: int
) -> Union[Rule, Refusal]:
    """The rule at `offset`, or its first fault.

    "for each rule 7, 2 (under two bytes left), 3, 4, 2 (body short), 5, 6, 8";
    by [8] "offsets and what is left of it count entries", so two entries. `earlier` are
    the rules before it, no two equal, and `states` is their Q.
    """
    if len(earlier) == MAX_RULES:
        return Refusal(TOO_MANY_RULES, offset)
    if len(table) - offset < HEADER:
        return Refusal(TABLE_ENDS, offset)
    left, k = table[offset], table[offset + 1]
    if not is_nonterminal(left, n):
        return Refusal(BAD_LEFT, offset)
    if k > MAX_LENGTH:
        return Refusal(TOO_LONG, offset)
    body = offset + HEADER
    right = table[body:body + k]
    if len(right) < k:
        return Refusal(TABLE_ENDS, offset)
    place = undeclared_place(t, n, right)
    if place is not None:
        return Refusal(BAD_RIGHT, body + place)
    if (left, right) in earlier:
        return Refusal(EQUAL_RULE, offset)
    if states + k + 1 > MAX_STATES:
        return Refusal(TOO_MANY_STATES, offset)
    return Rule(offset, left, right)


def check_rules(t: int, n: int, table: Codes) -> Union[Grammar, Refusal]:
    """Causes 1 to 8: "1; then for each rule [...]"; "Rules lie end to end"."""
    if not in_range(t, n):
        return Refusal(OUT_OF_RANGE, 0)
    rules: List[Rule] = []
    earlier: Set[RuleCodes] = set()
    states = FIXED_STATES
    offset = 0
    while offset < len(table):
        rule = check_rule(t, n, table, offset, earlier, states)
        if isinstance(rule, Refusal):
            return rule
        rules.append(rule)
        earlier.add((rule.left, rule.right))
        states += len(rule.right) + 1
        offset += HEADER + len(rule.right)
    return Grammar(t, n, tuple(rules), states)


def finite_nonterminals(rules: Sequence[RuleCodes]) -> FrozenSet[int]:
    """The nonterminals that are the root of a finite subtree.

    A rule waits for the nonterminals of its right side that are not yet found.
    When it waits for none, its left side is found.
    """
    missing = [{code for code in right if code >= START} for _, right in rules]
    waiting_for: Dict[int, List[int]] = {}
    for place, codes in enumerate(missing):
        for code in codes:
            waiting_for.setdefault(code, []).append(place)
    found = set()
    ready = [place for place, codes in enumerate(missing) if not codes]
    while ready:
        left, _ = rules[ready.pop()]
        if left not in found:
            found.add(left)
            for place in waiting_for.get(left, []):
                missing[place].remove(left)
                if not missing[place]:
                    ready.append(place)
    return frozenset(found)


def has_sentence(rules: Sequence[RuleCodes]) -> bool:
    """Whether S has a finite tree, so that its row is a sentence, maybe the empty one."""
    return START in finite_nonterminals(rules)


def codes_of(grammar: Grammar) -> List[RuleCodes]:
    """The rules by their codes alone."""
    return [(rule.left, rule.right) for rule in grammar.rules]


def check_table(t: int, n: int, table: Codes) -> Union[Grammar, Refusal]:
    """The whole check: 1 to 8, then "19 at position 0, after 8"."""
    grammar = check_rules(t, n, table)
    if isinstance(grammar, Grammar) and not has_sentence(codes_of(grammar)):
        return Refusal(NO_SENTENCE, 0)
    return grammar
