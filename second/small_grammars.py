"""Every grammar of few states, to be tried one by one."""

from itertools import product
from typing import Dict, Iterator, List

from case_grammars import Table
from random_tables import Rule, encode
from tables import FIXED_STATES, START


def every_rule(t: int, n: int, k: int) -> List[Rule]:
    """Every rule of length k over t terminals and n nonterminals."""
    codes = list(range(1, 1 + t)) + list(range(START, START + n))
    return [(left, tuple(right)) for left in range(START, START + n)
            for right in product(codes, repeat=k)]


def rows_of_rules(rules: Dict[int, List[Rule]], room: int) -> Iterator[List[Rule]]:
    """Every row of unequal rules with at most `room` states, in every order."""
    yield []
    for k in range(room):
        for rule in rules[k]:
            for others in rows_of_rules(rules, room - k - 1):
                if rule not in others:
                    yield [rule] + others


def every_table(t: int, n: int, most: int) -> Iterator[Table]:
    """Every table over t terminals and n nonterminals with Q of at most `most`."""
    room = most - FIXED_STATES
    rules = {k: every_rule(t, n, k) for k in range(room)}
    for row in rows_of_rules(rules, room):
        yield t, n, encode(row)
