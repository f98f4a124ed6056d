"""The join found in another way than in joining.py: by codes.

The robot's table stays in front, the module's codes are renumbered, and names, rules and
states are counted. The cases are sorted by this.
"""

from typing import Dict, List, NamedTuple, Optional, Sequence, Tuple

from sentence_reasons import loose_rules
from tables import (
    FIXED_STATES, HEADER, MAX_NONTERMINALS, MAX_RULES, MAX_STATES, MAX_TERMINALS, OUT_OF_RANGE,
    START, TOO_MANY_RULES, TOO_MANY_STATES, Refusal, RuleCodes,
)
from text import Text


class ByCodes(NamedTuple):
    """The names of each text by kind, t and n, and rules by the joined codes."""

    robot: List[List[bytes]]
    module: List[List[bytes]]
    counts: Tuple[int, int]
    rules: List[RuleCodes]        # the robot's
    others: List[RuleCodes]       # the module's
    own: List[RuleCodes]          # the module's by its own codes
    there: List[int]              # the places of the module's rules that are there already
    more: List[int]               # the places of its other rules

    @property
    def joined(self) -> List[RuleCodes]:
        return self.rules + [self.others[place] for place in self.more]


def lists_in(text: bytes) -> List[List[bytes]]:
    """The names of the first two lines, also of malformed ones; empty ones left out."""
    lines = (text.split(b"\n", 2) + [b""])[:2]
    return [[name for name in line.partition(b"=")[2].split(b",") if name] for line in lines]


def small(names: Sequence[bytes]) -> List[bytes]:
    return [name.lower() for name in names]


def by_codes(robot: bytes, module: bytes, first: Text, second: Text) -> ByCodes:
    """Two texts without fault; names of the module that the robot has not get the next codes."""
    lists, others = lists_in(robot), lists_in(module)
    codes: Dict[int, int] = {}
    counts = []
    for start, own, more in zip((1, START), lists, others):
        known = {name: start + place for place, name in enumerate(small(own))}
        for place, name in enumerate(small(more)):
            codes[start + place] = known.setdefault(name, start + len(known))
        counts.append(len(known))
    rules, own_rules = loose_rules(first.table), loose_rules(second.table)
    renumbered = [(codes[left], tuple(codes[code] for code in right)) for left, right in own_rules]
    known_rules = set(rules)
    there = [place for place, rule in enumerate(renumbered) if rule in known_rules]
    new = [place for place, rule in enumerate(renumbered) if rule not in known_rules]
    return ByCodes(lists, others, (counts[0], counts[1]), rules, renumbered, own_rules, there, new)


def lengths_of(rules: Sequence[RuleCodes]) -> List[int]:
    return [len(right) for _, right in rules]


def states_of(rules: Sequence[RuleCodes]) -> int:
    return FIXED_STATES + sum(lengths_of(rules)) + len(rules)


def crossed(robot: Sequence[List[bytes]], module: Sequence[List[bytes]]) -> List[int]:
    """The module's lines with a name that is of the other kind in the robot's text."""
    return [line for line, own, others in ((1, module[0], robot[1]), (2, module[1], robot[0]))
            if not set(small(own)).isdisjoint(small(others))]


def limit_fault(t: int, n: int, lengths: Sequence[int]) -> Optional[Refusal]:
    """The reader's 1, 7 or 8 for so many names, and unequal rules of these lengths."""
    for count, most, line in ((t, MAX_TERMINALS, 1), (n, MAX_NONTERMINALS, 2)):
        if count > most:
            return Refusal(OUT_OF_RANGE, line)
    states, offset = FIXED_STATES, 0
    for number, k in enumerate(lengths):
        states += k + 1
        if number == MAX_RULES:
            return Refusal(TOO_MANY_RULES, offset)
        if states > MAX_STATES:
            return Refusal(TOO_MANY_STATES, offset)
        offset += HEADER + k
    return None
