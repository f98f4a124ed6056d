"""The inputs of the joins' cases, in groups; they depend on the seed alone.

All three kinds have the same pairs of texts. A case has beside them the entries lent for
the table, the bytes lent for the text, or the number of a symbol.
"""

from typing import Callable, Iterator, List, NamedTuple

import join_faults
import join_limits
import join_pairs
from case_files import LAST, Group, Rng, cases_of
from join_pairs import HEATING, ROBOT, Pair, couple
from joining import join_texts
from named_grammars import LONGEST_ROWS
from tables import Refusal

SEED = 3
LARGE = 12000              # bytes of a pair of which there are few cases
MOST_ENTRIES = LONGEST_ROWS.table
MOST_ROOM = 83000          # bytes that no joined text passes
WORD = 2 ** 32
HALF = 2 ** 16

PAIRS = join_pairs.GROUPS + join_faults.GROUPS + join_limits.GROUPS


class Case(NamedTuple):
    """Both texts, and what is lent, or the symbol's number."""

    robot: bytes
    module: bytes
    number: int


Numbers = Callable[[Rng, Pair], List[int]]


# What is lent.

def lent(rng: Rng, needed: int, most: int) -> List[int]:
    """Exactly enough, one too few, none, more, or the most, two of these."""
    some = [needed, max(0, needed - 1), 0, needed + 1, most + rng.randrange(50)]
    return rng.sample(some, 2)


def entries_of(pair: Pair) -> int:
    """The entries of the joined table; some number if there is none."""
    joined = join_texts(*pair)
    return len(pair.robot) // 4 if isinstance(joined, Refusal) else len(joined.read.table)


def length_of(pair: Pair) -> int:
    """The bytes of the joined text; some number if there is none."""
    joined = join_texts(*pair)
    return len(pair.robot) + len(pair.module) if isinstance(joined, Refusal) else len(joined.text)


def some_entries(rng: Rng, pair: Pair) -> List[int]:
    return lent(rng, entries_of(pair), MOST_ENTRIES)


def some_room(rng: Rng, pair: Pair) -> List[int]:
    return lent(rng, min(length_of(pair), MOST_ROOM), MOST_ROOM)


# Symbols.

def count_of(pair: Pair) -> int:
    """The number of joined symbols; of names that the robot's text may have if it is refused."""
    joined = join_texts(*pair)
    return 5 if isinstance(joined, Refusal) else len(joined.terminals + joined.nonterminals)


def some_symbols(rng: Rng, pair: Pair) -> List[int]:
    """One that there is or could be, one at an edge, now and then one that is much too large."""
    count = count_of(pair)
    joined = join_texts(*pair)
    t = 0 if isinstance(joined, Refusal) else len(joined.terminals)
    any_one = rng.randrange(count)
    edges = [0, max(0, t - 1), t, count - 1, count, count + 1, count + rng.randrange(count)]
    large = [HALF + any_one, WORD, WORD + any_one, WORD - 1, LAST, LAST - any_one, LAST // 2 + 1 + any_one]
    return [any_one, rng.choice(edges)] + [rng.choice(large)] * (rng.randrange(4) == 0)


# Groups of cases.

def of_pairs(group: Callable[[Rng], Iterator[Pair]], numbers: Numbers) -> Group:
    """The pairs of a group, each with some numbers, large pairs with one."""
    def cases(rng: Rng) -> Iterator[Case]:
        others = Rng(rng.getrandbits(32))
        for pair in group(rng):
            found = numbers(others, pair)
            for number in found[:1] if len(pair.robot) + len(pair.module) > LARGE else found:
                yield Case(*pair, number)
    return cases


def every_number(count: Callable[[Pair], int], most: int) -> Group:
    """Some pairs with every number up to what is enough, and a little more."""
    def cases(rng: Rng) -> Iterator[Case]:
        for pair in [Pair(ROBOT, HEATING), Pair(HEATING, ROBOT)] + [couple(rng, 3) for _ in range(most)]:
            for number in range(count(pair) + 3):
                yield Case(*pair, number)
    return cases


def groups_of(numbers: Numbers, count: Callable[[Pair], int], most: int) -> List[Group]:
    return [of_pairs(group, numbers) for group in PAIRS] + [every_number(count, most)]


JOIN_GROUPS = groups_of(some_entries, entries_of, 14)
TEXT_GROUPS = groups_of(some_room, length_of, 4)
SHOWN_GROUPS = groups_of(some_symbols, count_of, 60)


def join_cases() -> Iterator[Case]:
    return cases_of(JOIN_GROUPS, SEED)


def text_cases() -> Iterator[Case]:
    return cases_of(TEXT_GROUPS, SEED)


def shown_cases() -> Iterator[Case]:
    return cases_of(SHOWN_GROUPS, SEED)
