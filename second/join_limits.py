"""Pairs of texts at the limits of the joined text and one past them, in groups.

The limits are those of document 02's [8]. Each text alone keeps them, but for one group.
"""

from itertools import product
from typing import Iterator, List, NamedTuple, Sequence, Tuple

from case_files import Rng
from join_pairs import Pair, as_it_is, put_together
from named_grammars import counted_names, long_names
from spelling import Respell, in_another_case
from tables import FIXED_STATES, MAX_LENGTH, MAX_RULES, MAX_STATES, MAX_TERMINALS

LIMIT = MAX_TERMINALS            # and of nonterminals
# So many names of the robot, and of the module so many of them and so many others.
COUNTS = [
    (2000, 0, 1), (2000, 1999, 1), (1999, 0, 1), (1999, 1, 2), (1000, 0, 1000), (1000, 500, 1000),
    (1000, 999, 1001), (1, 0, 1999), (1, 1, 1999), (1, 0, 2000), (2000, 2000, 0), (2000, 1, 0),
    (2000, 0, 2000), (1500, 1000, 500), (1500, 1499, 501),
]
LETTERS = [b"%c" % letter for letter in b"abcdefghijklmnopqrst"]
LEFTS = [b"N" + letter for letter in LETTERS]


# Names.

class Names(NamedTuple):
    """The names of the robot and of the module, of one kind."""

    robot: List[bytes]
    module: List[bytes]


def names_of(rng: Rng, counts: Tuple[int, int, int], front: bytes, spell: Respell) -> Names:
    """So many names; those that both have are spelled so by the module, and in another order."""
    robot, shared, others = counts
    names = [front + name for name in counted_names(robot + others)]
    module = [spell(rng, name) for name in names[:robot][::-1][:shared]] + names[robot:]
    if rng.randrange(2):
        rng.shuffle(module)
    return Names(names[:robot], module)


def pair_of(terminals: Names, nonterminals: Names) -> Pair:
    """Both texts; the robot's has one rule, the module's use the names at the ends of its lists."""
    start, left = nonterminals.robot[0], nonterminals.module[-1]
    right = [names.module[place] for names in (terminals, nonterminals) for place in (0, -1) if names.module]
    rules = [left + b": " + b" ".join(right), nonterminals.module[0] + b": " + b" ".join(right[::-1])]
    return Pair(put_together(terminals.robot, nonterminals.robot, [start + b":"]),
                put_together(terminals.module, nonterminals.module, rules))


FEW_TERMINALS = Names([b"-"], [b"--"])
FEW_NONTERMINALS = Names([b"S-"], [b"s-", b"w-"])


def many_names(rng: Rng) -> Iterator[Pair]:
    """2,000 and more joined terminals or nonterminals."""
    for counts in COUNTS:
        spell = rng.choice([as_it_is, in_another_case])
        yield pair_of(names_of(rng, counts, b"q", spell), FEW_NONTERMINALS)
        yield pair_of(FEW_TERMINALS, names_of(rng, counts, b"q", spell))


def many_of_both_kinds(rng: Rng) -> Iterator[Pair]:
    """Both lists at the limit, past it, or far past it."""
    for counts in product(((1999, 1, 1), (1999, 0, 2), (1000, 3, 1300)), repeat=2):
        spell = rng.choice([as_it_is, in_another_case])
        yield pair_of(*(names_of(rng, count, front, spell) for count, front in zip(counts, (b"q", b"x"))))


def many_and_of_two_kinds(rng: Rng) -> Iterator[Pair]:
    """Lists past the limit or not, and a name of two kinds among them."""
    few = 3, 1, 2
    for counts in ((1000, 0, 1001), (1999, 0, 1), (1999, 2, 2), (2000, 0, 1)):
        for lines, many in product(((1,), (2,), (1, 2)), (0, 1)):
            sizes = (few, counts) if many else (counts, few)
            kinds = [names_of(rng, size, front, as_it_is) for size, front in zip(sizes, (b"q", b"x"))]
            for line in lines:
                own, other = kinds[line - 1].module, kinds[2 - line]
                unshared = [name for name in other.robot if name not in other.module]
                own[rng.randrange(len(own))] = in_another_case(rng, rng.choice(unshared))
            yield pair_of(*kinds)


# Rules.

def filled(
    count: int, states: int, lefts: Sequence[bytes] = LEFTS, letters: Sequence[bytes] = LETTERS
) -> List[bytes]:
    """So many different rules, the first of them empty and the others not, of so many states together."""
    pairs = list(product(lefts, letters))[:count - 1]
    more = states - 1 - 2 * len(pairs)
    rules = []
    for left, letter in reversed(pairs):
        added = min(more, MAX_LENGTH - 1)
        more -= added
        rules.append(left + b":" + (b" " + letter) * (1 + added))
    assert more == 0
    return [lefts[0] + b":"] + rules[::-1]


def another(place: int, k: int) -> bytes:
    """A rule of this length, not 1, that `filled` does not have; another for each place, if k = 0 below 19."""
    turn, left = divmod(place, len(LEFTS) - 1)
    letters = LETTERS[2 * turn:2 * turn + 2]
    return LEFTS[1 + left] + b":" + b"".join(b" " + letters[number % 2] for number in range(k))


def rules_pair(rng: Rng, robot: Sequence[bytes], module: Sequence[bytes]) -> Pair:
    """Both texts with these rules; the module declares all names in another order."""
    spell = rng.choice([as_it_is, in_another_case])
    lists = [[spell(rng, name) for name in rng.sample(names, len(names))] for names in (LETTERS, LEFTS)]
    return Pair(put_together(LETTERS, LEFTS, robot), put_together(*lists, module))


def mixed(rng: Rng, some: Sequence[bytes], others: Sequence[bytes]) -> List[bytes]:
    """Rules with others somewhere between them, or behind; each in its order."""
    marks = [0] * len(some) + [1] * len(others)
    if rng.randrange(3):
        rng.shuffle(marks)
    rows = iter(some), iter(others)
    return [next(rows[mark]) for mark in marks]


def many_rules(rng: Rng) -> Iterator[Pair]:
    """400 and 401 joined rules, and more, of which the module has some that are there already."""
    added = [another(place, rng.choice([2, 3, 4])) for place in range(40)]
    for robot, shared, others in (
        (400, 0, 0), (400, 400, 0), (399, 0, 1), (399, 3, 1), (400, 0, 1), (400, 2, 1), (399, 5, 2),
        (200, 0, 200), (200, 200, 200), (200, 0, 201), (200, 199, 201), (1, 0, 399), (1, 1, 399),
        (1, 0, 400), (400, 399, 1), (400, 0, 40), (380, 0, 21),
    ):
        for _ in range(2):
            rules = filled(MAX_RULES, 799 + rng.randrange(80)) + added
            module = mixed(rng, rng.sample(rules[:robot], shared), rules[robot:robot + others])
            yield rules_pair(rng, rules[:robot], module)


def many_states(rng: Rng) -> Iterator[Pair]:
    """1,023 to 1,026 joined states, and more; rules that are there already have none."""
    most = MAX_STATES - FIXED_STATES
    for states in (most, most - 1, most - 3, most - 30, 500):
        robot = filled(100, states)
        for more in (-1, 0, 1, 2, 14, 200):
            left = most + more - states
            module: List[bytes] = []
            for place in range(left // (MAX_LENGTH + 1)):
                module.append(another(place, MAX_LENGTH))
                left -= MAX_LENGTH + 1
            module += [another(place, 0) for place in range(left)] if left < 3 else [another(0, left - 1)]
            for shared in (0, 1 + rng.randrange(20), 1 + rng.randrange(20)):
                yield rules_pair(rng, robot, mixed(rng, rng.sample(robot, shared), module))


def many_rules_and_states(rng: Rng) -> Iterator[Pair]:
    """A rule that passes both limits; one that passes 1,024 states before or behind the 400th rule."""
    most = MAX_STATES - FIXED_STATES
    for count, states, lengths in (
        (400, most, [0]), (400, most, [12, 0]), (400, most - 2, [3, 0]), (399, most, [0, 0]), (399, most - 1, [0, 0]),
        (399, most - 1, [2, 0]), (398, most - 4, [2, 4, 0]), (398, most - 4, [2, 0, 0]), (390, most - 40, [12] * 12),
        (390, most - 10, [0] * 12),
    ):
        robot = filled(count, states)
        for shared in (0, 3):
            module = [another(place, k) for place, k in enumerate(lengths)]
            yield rules_pair(rng, robot, mixed(rng, rng.sample(robot, shared), module))


def names_and_rules(rng: Rng) -> Iterator[Pair]:
    """Names past the limit, or a name of two kinds, beside rules or states past theirs."""
    for robot in (filled(400, 799), filled(390, 1010)) * 3:
        module = [another(place, 3) for place in range(12)]
        many = [b"q" + name for name in counted_names(1990)]
        for own, others in (
            ((many[:1970], []), (many[1970:], [])), (([], many[:1970]), ([], many[1970:])),
            (([], [b"Crossed"]), ([b"crossed"], [])), (([b"crossed"], []), ([], [b"crosseD"])),
        ):
            yield Pair(put_together(LETTERS + own[0], LEFTS + own[1], robot),
                       put_together(LETTERS + others[0], others[1] + LEFTS, module))


def each_alone(rng: Rng) -> Iterator[Pair]:
    """A text that is past a limit by itself, as the robot's and as the module's, beside others."""
    many = [b"q" + name for name in counted_names(LIMIT + 1)]
    good = put_together(LETTERS, LEFTS, filled(20, 40))
    crossed = put_together(LEFTS[:2], [b"w", LETTERS[3]], [b"w:"])
    most = MAX_STATES - FIXED_STATES
    for other in (good, crossed, good[:-1], b"", crossed, crossed):
        for past in (put_together(many, LEFTS, filled(2, 3, LEFTS, many)), put_together(LETTERS, LEFTS + many),
                     put_together(LETTERS, LEFTS, filled(MAX_RULES, 900 + rng.randrange(90)) + [another(2, 3)]),
                     put_together(LETTERS, LEFTS, filled(90, most) + [another(2, rng.choice([0, 5]))])):
            yield Pair(past, other)
            yield Pair(other if other in (good, crossed) else past, past)


def longest(rng: Rng) -> Iterator[Pair]:
    """All limits at once, with names of 15 bytes; one name or rule more; twice as many names and rules."""
    names = long_names(rng, 4 * LIMIT)
    terminals, nonterminals = names[:LIMIT], names[LIMIT:2 * LIMIT]
    rules = full_rules(terminals, nonterminals)
    robot = put_together(terminals, nonterminals, rules[:380])
    for more in ([], [nonterminals[7] + b":"]):
        yield Pair(robot, put_together(terminals[::-1], nonterminals[::-1], rules[380:] + more))
    half = put_together(terminals[:1200], nonterminals[:700], rules[:1])
    for added in ([], names[-1:]):
        yield Pair(half, put_together(terminals[1000:], nonterminals[400:] + added))
    others = names[2 * LIMIT:3 * LIMIT], names[3 * LIMIT:]
    yield Pair(put_together(terminals, nonterminals, rules), put_together(*others, full_rules(*others)))


def full_rules(terminals: Sequence[bytes], nonterminals: Sequence[bytes]) -> List[bytes]:
    """400 rules of 1,020 states together."""
    return filled(MAX_RULES, MAX_STATES - FIXED_STATES, nonterminals[:20], terminals[-20:])


GROUPS = [
    many_names, many_of_both_kinds, many_and_of_two_kinds, many_rules, many_states,
    many_rules_and_states, names_and_rules, each_alone, longest,
]
