"""The inputs of the cases of document 02's [12], in groups; they depend on the seed alone.

A case is a table, a row of terminals, what is lent, and a byte that says what the lent rows
hold before. README.md beside this file has what each byte stands for.
"""

from itertools import product
from typing import Callable, Dict, Iterator, List, NamedTuple, Sequence

from case_files import Rng, cases_of
from case_grammars import (
    CLASSICS, EIGHT_CHANNELS, GOOD_ROWS, MANY_STATES, STATEMENTS, Table, dense, exact_random, faulty_tables, good,
    keywords, larger_random, live_small, most_keywords, most_potential, operators,
    rules_before_the_fault, small_random, states_of,
)
from corpus import entries, table_in
from dead_grammars import chains, dead_larger, dead_tables
from dead_rules import KINDS
from random_tables import encode
from robot_grammars import grown
from robot_grammars import table_of as table_of_named
from sentence_grammars import (
    faulty_sentenceless, large_sentenceless, nearly_sentenceless, sentenceless,
)
from sentence_trees import MOST_TERMINALS, ONE, PLACES, Lent, trees_of
from tables import (
    MAX_ENTRY, MAX_NONTERMINALS, MAX_STATES, MAX_TERMINALS, START, Codes, Refusal, check_table, is_terminal,
)
from tree_grammars import (
    BY_HAND, LONGER, any_row, beside_ambiguous, changed, crowded, doubled, every_row, long_sentences, long_units,
    sentence, sentences, with_more, word_lists,
)

SEED = 12
MAX_ROW = 70000           # entries of the longest row of a case
MAX_WORK = 4400000        # of the longest work row
MAX_LIST = 300000         # of the longest list
SMALL = 60                # states up to which there are many cases of a grammar


class Case(NamedTuple):
    t: int
    n: int
    table: Codes
    row: Codes
    lent: Lent
    fill: int


# What is lent.

def held_before(fill: int, place: int) -> int:
    """What an entry of a lent work row holds before; of a list the low 16 bits of it."""
    if fill < 4:
        return fill
    if fill == 255:
        return 2 ** 32 - 1
    return (place + 1) * fill * 2654435761 % 2 ** 32 >> fill % 32


def room(table: Table) -> int:
    """The entries of the work row for a table without faults 1 to 8."""
    return PLACES * PLACES * states_of(table)


def fill(rng: Rng) -> int:
    """What lent rows hold before: 0, or all the same small number, or the largest, or a mixture."""
    return rng.choice([0, 1, 2, 3, 255, 255, rng.randrange(4, 255), rng.randrange(4, 255), 30, 62, 94])


def rules_needed(table: Table, row: Codes) -> int:
    """The rules of the one tree; 0 where there is none, or several, or a refusal."""
    grammar = check_table(*table)
    if isinstance(grammar, Refusal) or len(row) > MOST_TERMINALS or not all(
            is_terminal(code, table[0]) for code in row):
        return 0
    return trees_of(grammar, row)[2]


def lists(rng: Rng, needed: int) -> List[int]:
    """Lengths of a list: exactly enough, more, one too few, none, fewer, more by far."""
    least = min(needed, MAX_LIST - 100)
    return [least, least + 1 + rng.randrange(9), max(0, least - 1), 0, rng.randrange(1 + least), least + 90]


def works(rng: Rng, needed: int, states: int) -> List[int]:
    """Lengths of a work row: exactly enough, more, more by far, then too short ones."""
    return [needed, needed + 1 + rng.randrange(20), needed + rng.randrange(6000), needed - 1, 0,
            (PLACES - 1) ** 2 * states, PLACES * (PLACES - 1) * states, rng.randrange(needed)]


def one_case(rng: Rng, table: Table, row: Codes) -> Case:
    """A row with something lent, mostly enough."""
    needed = room(table)
    work = rng.choice(works(rng, needed, states_of(table))[:3]) if rng.randrange(30) else (
        rng.choice(works(rng, needed, states_of(table))))
    found = lists(rng, rules_needed(table, row))
    return Case(*table, row, Lent(work, rng.choice(found[:2] * 2 + found)), fill(rng))


def every_lent(rng: Rng, table: Table, row: Codes) -> Iterator[Case]:
    """A row with each length of the work row and enough in the list, and the other way round; both too short."""
    needed = room(table)
    found_works, found_lists = works(rng, needed, states_of(table)), lists(rng, rules_needed(table, row))
    for work in found_works:
        yield Case(*table, row, Lent(work, rng.choice(found_lists[:2])), fill(rng))
    for length in found_lists:
        yield Case(*table, row, Lent(rng.choice(found_works[:3]), length), fill(rng))
    yield Case(*table, row, Lent(needed - 1, found_lists[2]), fill(rng))
    yield Case(*table, row, Lent(0, 0), fill(rng))


def all_of(rng: Rng, table: Table, found: Sequence[Codes]) -> Iterator[Case]:
    """Some rows of a grammar, each with something lent."""
    for row in found:
        yield one_case(rng, table, row)


# Rows of a grammar.

def some_rows(rng: Rng, table: Table, count: int, nodes: int = 14) -> List[Codes]:
    """Up to `count` sentences, as many rows that are nearly some, a random row."""
    t = table[0]
    found = sentences(rng, good(table), count, nodes)
    near = [changed(rng, t, row) for row in found]
    return list(dict.fromkeys(found + near + [any_row(rng, t, rng.randrange(6))]))


def long_rows(rng: Rng, table: Table, count: int) -> List[Codes]:
    """Long sentences, where there are some; rows that are nearly some."""
    found = long_sentences(rng, good(table), count, rng.choice([30, 50, 60, 63, 64]))
    near = [changed(rng, table[0], row) for row in found[::2]]
    return list(dict.fromkeys(found + near))


# Groups of cases.

def by_hand(rng: Rng) -> Iterator[Case]:
    """Grammars and rows by hand, lent in every manner."""
    for table, found in BY_HAND:
        for row in found:
            yield from every_lent(rng, table, row)


def short_rows(rng: Rng) -> Iterator[Case]:
    """Every row of up to three terminals, of small random grammars; more where there is one terminal."""
    for place in range(330):
        table = with_more(rng) if place % 2 else small_random(rng)
        most = {0: 0, 1: 5, 2: 3}.get(table[0], 2)
        for length in range(most + 1):
            yield from all_of(rng, table, list(every_row(table[0], length)))


def random_grammars(rng: Rng) -> Iterator[Case]:
    """Random grammars, with cycles, empty parts, hidden recursion, twins or none of these."""
    for place in range(650):
        table = [with_more, small_random, with_more, live_small][place % 4](rng)
        yield from all_of(rng, table, some_rows(rng, table, 4, rng.choice([3, 8, 14, 30])))
    for place in range(450):
        table = with_one_tree(rng, [with_more, small_random, live_small][place % 3])
        yield from all_of(rng, table, some_rows(rng, table, 4, rng.choice([8, 14, 30])))
    for _ in range(120):
        table = dense(rng)
        yield from all_of(rng, table, [()])


def with_one_tree(rng: Rng, make: Callable[[Rng], Table]) -> Table:
    """A grammar of which some sentences of a few terminals have one tree, if one is found soon."""
    for _ in range(20):
        table = make(rng)
        found = [row for row in sentences(rng, good(table), 3, 14, MOST_TERMINALS) if len(row) > 1]
        if found and all(trees_of(good(table), row)[0] == ONE for row in found):
            break
    return table


def dead(rng: Rng) -> Iterator[Case]:
    """Grammars with dead rules of each kind, and chains."""
    for table in list(dead_tables(rng, 45)) + list(chains(rng, (2, 9))):
        yield from all_of(rng, table, some_rows(rng, table, 2))


def nearly_without(rng: Rng) -> Iterator[Case]:
    """Grammars that nearly lack a sentence."""
    for table in nearly_sentenceless(rng, 24):
        yield from all_of(rng, table, list(dict.fromkeys([()] + some_rows(rng, table, 2))))


def classics(rng: Rng) -> Iterator[Case]:
    """Document 01's grammars, classic ones, some with strata."""
    for table in GOOD_ROWS + list(CLASSICS.values()) + [EIGHT_CHANNELS, STATEMENTS, operators(2), operators(4)]:
        yield from all_of(rng, table, some_rows(rng, table, 8, 24) + long_rows(rng, table, 6))


def of_the_corpus(rng: Rng) -> Iterator[Case]:
    """Every grammar of the corpus with a sentence, of the large ones few rows."""
    for entry in entries():
        table = table_in(entry.name)
        if isinstance(check_table(*table), Refusal):
            continue
        few = entry.states > SMALL
        yield from all_of(rng, table, some_rows(rng, table, 1 if few else 5, 30)[:3 if few else 99])
        yield from all_of(rng, table, long_rows(rng, table, 1 if few else 3))


def grown_grammars(rng: Rng) -> Iterator[Case]:
    """Grammars grown from robot commands."""
    for commands, most, count in ((4, 48, 90), (8, MANY_STATES, 14)):
        for _ in range(count):
            table = table_of_named(grown(rng, commands, most))
            yield from all_of(rng, table, some_rows(rng, table, 3, 40) + long_rows(rng, table, 2))


def long_ones(rng: Rng) -> Iterator[Case]:
    """Small grammars with rows of up to 66 terminals."""
    count = 0
    while count < 900:
        table = rng.choice([with_more, live_small, small_random])(rng)
        if len(sentence(rng, good(table), 40, True)) > 12:
            found = long_rows(rng, table, 3)
            yield from all_of(rng, table, found)
            count += len(found)


def rows_of_one_terminal(rng: Rng) -> Iterator[Case]:
    """Grammars with one terminal, so that a row is its length, and rows of many lengths up to 64."""
    tables: Dict[Table, None] = {}
    while len(tables) < 60:
        table = rng.choice([with_more, live_small, small_random])(rng)
        if table[0] == 1 and len(sentence(rng, good(table), 40, True)) > 5:
            tables[table] = None
    for table in tables:
        lengths = rng.sample(range(MOST_TERMINALS), 9) + [MOST_TERMINALS - 1, MOST_TERMINALS]
        yield from all_of(rng, table, [(1,) * length for length in sorted(set(lengths))])


def parts_in_no_tree(rng: Rng) -> Iterator[Case]:
    """Rows with parts that have several trees, though the row may have one or none."""
    for _ in range(150):
        table, x, y = beside_ambiguous(rng)
        own = [row[:-1] for row in sentences(rng, good(table), 6, 20, 24) if row[-1:] == (x,)]
        for row in own or [any_row(rng, x - 1, rng.randrange(6))]:
            yield from all_of(rng, table, [row + (x,), row + (y,), row + (y, x)])


def lent_in_each_manner(rng: Rng) -> Iterator[Case]:
    """Rows with each of the three answers, lent in every manner."""
    answered: Dict[str, int] = {}
    while min(answered.values(), default=0) < 24 or len(answered) < 3:
        table = [with_more, small_random][rng.randrange(2)](rng)
        for row in some_rows(rng, table, 2):
            if len(row) <= MOST_TERMINALS:
                answer = trees_of(good(table), row)[0]
                answered[answer] = answered.get(answer, 0) + 1
                if answered[answer] <= 24:
                    yield from every_lent(rng, table, row)


# Very many rules.

def many_rules(rng: Rng) -> Iterator[Case]:
    """Trees with about 2 to the power of 16, 32 and 64 rules, and far more; unit rules above each terminal."""
    shapes = [(levels, 2, units) for levels in (3, 15, 31, 63) for units in (0, 1, 2, 5)]
    shapes += [(levels, 12, units) for levels in (1, 3, 4, 8, 20, 70) for units in (0, 3)]
    for (levels, k, units), terminals in product(shapes, (0, 1)):
        if terminals and units == 0:
            continue
        table = doubled(levels, k, units, terminals)
        needed = rules_needed(table, (1,) * terminals)
        lengths = {0, 1, 2, 5, 6, 7, needed - 1, needed, needed + 3}
        lengths.update(needed % 2 ** bits for bits in (16, 32, 64))
        for length in sorted(length for length in lengths if 0 <= length <= MAX_LIST):
            work = room(table) + rng.choice([0, 1, 77])
            yield Case(*table, (1,) * terminals, Lent(work, length), fill(rng))
        yield one_case(rng, table, (1,) * (1 - terminals) if table[0] else ())
    for length in (9, 60, 120):
        table = long_units(length)
        for count in (1, 2, 63, 64):
            yield from all_of(rng, table, [(1,) * count] * 3)


# Large grammars.

def larger(rng: Rng) -> Iterator[Case]:
    """Q from 60 to 256."""
    tables = [operators(9), operators(17), *chains(rng, (97,))]
    tables += [keywords(rng, 6 + states // 6, states) for states in (61, 98, 120, 200)]
    tables += [larger_random(rng, states) for states in range(61, 121, 9)]
    tables += [exact_random(rng, MANY_STATES), keywords(rng, 30, MANY_STATES)]
    tables += [dead_larger(rng, kind, 106) for kind in KINDS]
    for table in tables:
        yield from all_of(rng, table, some_rows(rng, table, 2, 24)[:4] + long_rows(rng, table, 1))


def largest(rng: Rng) -> Iterator[Case]:
    """Q of 1,024, the most, and 400 rules; 2,000 terminals and nonterminals."""
    for table in (most_keywords(rng), most_potential(rng)):
        found = some_rows(rng, table, 3, 12)[:3]
        yield from all_of(rng, table, found)
        needed = room(table)
        yield Case(*table, found[0], Lent(needed, rules_needed(table, found[0])), 255)
        yield Case(*table, found[0], Lent(needed - 1, 99), 255)
        yield Case(*table, (0,), Lent(needed - 1, 0), 255)
        yield Case(*table, found[0] + (1,), Lent(needed + 9, 1), 255)
        yield Case(*table, (table[0],), Lent(needed, 3), 3)
    words = word_lists(400)
    for row in ((398,) * 64, (1,) * 60 + (397,) * 4, (398, 397) * 31 + (398,), (1,) * 64):
        yield Case(*words, row, Lent(room(words) + rng.randrange(9), 200), fill(rng))
    for t, n in ((MAX_TERMINALS, 1), (MAX_TERMINALS, MAX_NONTERMINALS)):
        last = START + n - 1
        table = t, n, encode([(START, (t, START)), (START, ()), (START, (1, last)), (last, (t, 1))])
        for row in (
                (), (t,), (t, 1), (1, t, 1), (t, t, t), (t - 1,), (2001,), (t, START), (1, t), (t,) * 64, (t,) * 65):
            yield from every_lent(rng, table, row)


def many_trees(rng: Rng) -> Iterator[Case]:
    """Many rules of few nonterminals, with and without an empty row: many ways at each part of the row."""
    for t, n, k, states, empty, lengths in (
            (2, 9, 2, 1000, False, (1, 2, 8, 20)), (1, 3, 12, MAX_STATES, True, (0, 1, 8, 20)),
            (1, 3, 3, 107, True, (5, 33, 64)), (2, 4, 2, 90, False, (3, 30, 64)), (3, 20, 12, MAX_STATES, False, (3, 64))):
        table = crowded(rng, t, n, k, states, empty)
        yield from all_of(rng, table, [any_row(rng, t, length) for length in lengths])


# Rows at fault.

def no_terminal(rng: Rng, t: int) -> int:
    """A code that is no terminal: 0, past t, a nonterminal, any other; one whose low byte is a terminal's."""
    if t < 255 and rng.randrange(6) == 0:
        return 256 * (1 + rng.randrange(255)) + rng.randrange(1 + t)
    return rng.choice([0, t + 1, t + 1 + rng.randrange(9), MAX_TERMINALS + 1, START - 1, START, START + 1,
                       START + rng.randrange(MAX_NONTERMINALS), MAX_ENTRY, rng.randrange(t + 1, MAX_ENTRY + 1)])


def put_at(row: Codes, place: int, code: int) -> Codes:
    return row[:place] + (code,) + row[place + 1:]


def faulty_rows(rng: Rng) -> Iterator[Case]:
    """One or two codes that are no terminals, at each place; rows that are too long, with such codes or not."""
    for table, length in product(good_tables(rng, 60), (1, 4, MOST_TERMINALS, MOST_TERMINALS + 1, LONGER)):
        t = table[0]
        row = any_row(rng, t, length) or (1,) * length
        for _ in range(2):
            place = rng.choice([0, length - 1, rng.randrange(length), rng.randrange(length)])
            first = put_at(row, place, no_terminal(rng, t))
            yield at_fault(rng, table, first)
            yield at_fault(rng, table, put_at(first, rng.randrange(length), no_terminal(rng, t)))
    table = CLASSICS["list-left"]
    for place in range(LONGER):
        for length in (max(place + 1, 3), MOST_TERMINALS, MOST_TERMINALS + 1, LONGER):
            if place < length:
                yield at_fault(rng, table, put_at(tuple([2, 1] * 33)[:length], place, no_terminal(rng, 2)))


def too_long(rng: Rng) -> Iterator[Case]:
    """Sentences and other rows of more than 64 terminals; lengths whose low 8 or 16 bits would pass."""
    for table in good_tables(rng, 40) + [CLASSICS["list-left"], CLASSICS["list-right"], GOOD_ROWS[2]]:
        t = table[0]
        found = [row for row in long_sentences(rng, good(table), 2, MOST_TERMINALS + 1) if len(row) > MOST_TERMINALS]
        lengths = rng.sample([65, 65, 66, 67, 70, 100, 128, 256, 257, 300, 1000, 4096], 3)
        for row in found + [any_row(rng, t, length) for length in lengths] if t else []:
            yield at_fault(rng, table, row)
            if len(row) > MOST_TERMINALS + 1:
                yield at_fault(rng, table, put_at(row, rng.randrange(MOST_TERMINALS, len(row)), no_terminal(rng, t)))
    for length in (65536, 65537, 65540, 65536 + 64, 65536 + 65):
        yield at_fault(rng, GOOD_ROWS[2], (1,) * length)
        yield at_fault(rng, GOOD_ROWS[2], put_at((1,) * length, rng.choice([3, 63, 64]), 2))


def good_tables(rng: Rng, count: int) -> List[Table]:
    """Some small grammars, most with terminals."""
    return [[with_more, small_random, live_small][place % 3](rng) for place in range(count)]


def at_fault(rng: Rng, table: Table, row: Codes) -> Case:
    """A row that is refused with 22, lent enough, too little, or nothing."""
    needed = room(table)
    more = Lent(needed + rng.randrange(99), rng.randrange(9))
    lent = rng.choice([Lent(needed, 200), more, Lent(needed - 1, 9), Lent(0, 0)])
    return Case(*table, row, lent, fill(rng))


# Tables at fault.

def faulty(rng: Rng) -> Iterator[Case]:
    """Each of causes 1 to 8, beside rows that are good, at fault or too long, lent enough or too little."""
    for table in [*faulty_tables(rng, 36), *faulty_sentenceless(rng, 16)]:
        yield from beside_a_fault(rng, table, states_of(rules_before_the_fault(table)))


def without_a_sentence(rng: Rng) -> Iterator[Case]:
    """19, beside the same."""
    for table in [*sentenceless(rng, 16), *large_sentenceless(rng, 2)]:
        yield from beside_a_fault(rng, table, states_of(table))


def beside_a_fault(rng: Rng, table: Table, states: int) -> Iterator[Case]:
    """Two rows for a table that is refused."""
    t = min(table[0], MAX_TERMINALS)
    needed = PLACES * PLACES * (states if states < MANY_STATES or rng.randrange(9) == 0 else 9)
    good_row = any_row(rng, t, rng.randrange(8))
    bad_row = put_at(good_row, rng.randrange(len(good_row) + 1), no_terminal(rng, t))
    enough, short = Lent(needed, 40), Lent(needed - 1, rng.randrange(5))
    other = rng.choice([(bad_row, enough), (good_row, short), (bad_row, Lent(0, 0)), (bad_row, short),
                        (any_row(rng, t, 65), short)])
    for row, lent in ((good_row, enough), other):
        yield Case(*table, row, lent, fill(rng))


GROUPS = [
    by_hand, short_rows, random_grammars, dead, nearly_without, classics, of_the_corpus, grown_grammars,
    long_ones, rows_of_one_terminal, parts_in_no_tree, lent_in_each_manner, many_rules, larger, largest,
    many_trees, faulty_rows, too_long, faulty, without_a_sentence,
]


def all_cases() -> Iterator[Case]:
    return cases_of(GROUPS, SEED)
