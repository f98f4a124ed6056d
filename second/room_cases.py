"""Test inputs for room told beforehand, and this program's answers to them.

    room_cases.py cases FILE                writes the inputs
    room_cases.py answers CASES OUT COUNTS  answers them and counts the reasons

README.md beside this file has the layout of a case.
"""

import sys
from typing import Iterator, List, NamedTuple

import table_cases
from caller_grammars import (
    BY_HAND, Pair, answered_pairs, edge_pairs, faulty_pairs, larger_pairs, refused_pairs, too_many_pairs,
)
from callers import MOST_CALLERS
from case_files import Group, Kind, Reader, Rng, cases_of, encode_table_at, main, refused
from case_grammars import (
    CLASSICS, EIGHT_CHANNELS, MANY_STATES, ROWS, STATEMENTS, Table, exact_random, faulty_tables,
    keywords, larger_random, most_keywords, operators, small_random,
)
from corpus import entries, table_in
from dead_grammars import chains, dead_larger, dead_tables
from dead_rules import KINDS
from named_grammars import (
    Named, figures_named, full_named, large_named, longest_named, small_named,
)
from random_tables import Rule, encode, random_entries, some_rules
from robot_grammars import grown
from room_reasons import ENOUGH, REASONS, reasons_of
from rooms import room_of
from sentence_grammars import (
    faulty_sentenceless, large_sentenceless, nearly_sentenceless, sentenceless,
)
from tables import FIXED_STATES, MAX_RULES, MAX_STATES, START, Codes, Refusal


class Case(NamedTuple):
    t: int
    n: int
    table: Codes
    m: int = 0


# Good grammars.

def rows_and_classics(rng: Rng) -> Iterator[Table]:
    """Document 01's grammars, classic ones, the eight-channel commands."""
    yield from ROWS
    yield from CLASSICS.values()
    yield from (EIGHT_CHANNELS, STATEMENTS)
    yield from map(operators, (1, 2, 4, 9, 13, 17))


def of_the_corpus(rng: Rng) -> Iterator[Table]:
    """Every grammar of the corpus, also with one terminal or nonterminal more."""
    for entry in entries():
        t, n, table = table_in(entry.name)
        yield t, n, table
        yield t + 1, n, table
        yield t, n + 1, table


def table_of(grammar: Named) -> Table:
    return grammar.t, grammar.n, encode(grammar.rules)


def named(rng: Rng) -> Iterator[Table]:
    """The grammars that have names in the texts' cases, and grown ones."""
    yield from map(table_of, figures_named())
    for _ in range(220):
        yield table_of(small_named(rng, rng.choice([2, 6, 12])))
    for _ in range(8):
        yield table_of(full_named(rng))
        yield table_of(large_named(rng, MAX_RULES, MAX_STATES))
        yield table_of(large_named(rng, some_rules(rng), MAX_STATES))
        yield table_of(large_named(rng, 100, MANY_STATES))
    yield table_of(longest_named(rng))
    for commands, most, count in ((4, 48, 120), (8, MANY_STATES, 60), (24, MANY_STATES, 20)):
        for _ in range(count):
            yield table_of(grown(rng, commands, most))


def random_small(rng: Rng) -> Iterator[Table]:
    for _ in range(900):
        yield small_random(rng)


def random_large(rng: Rng) -> Iterator[Table]:
    """Q from 40 to 256, and 1,024, all rules live."""
    for states in range(40, MANY_STATES, 9):
        yield larger_random(rng, states)
        yield keywords(rng, 6 + states // 6, states)
    for _ in range(8):
        yield exact_random(rng, MANY_STATES)
        yield most_keywords(rng)


def many_moves(rng: Rng) -> Iterator[Table]:
    """Few nonterminals with many rules, and right sides full of them."""
    for n in (1, 2, 3, 5, 9):
        for k in (2, 3, 4, 6, 8, 12):
            for states in (MANY_STATES, 180 + rng.randrange(76), 60 + rng.randrange(120)):
                yield crowded(rng, n, k, states)
    yield crowded(rng, 40, 3, MAX_STATES)
    yield crowded(rng, 30, 12, MAX_STATES)


def crowded(rng: Rng, n: int, k: int, states: int) -> Table:
    """Rules of n nonterminals, each with a terminal of its own, as many as fit; and S→."""
    count = (states - FIXED_STATES - 1) // (k + 1)
    rules: List[Rule] = [(START, ())]
    for place in range(count):
        right = [START + rng.randrange(n) for _ in range(k)]
        right[rng.randrange(k)] = 1 + place
        rules.append((START + place % n, tuple(right)))
    rng.shuffle(rules)
    return count, n, encode(rules)


def dead(rng: Rng) -> Iterator[Table]:
    """Dead rules of each kind, in small grammars, in chains, and in larger ones."""
    yield from dead_tables(rng, 80)
    yield from chains(rng, (2, 9, 97))
    for kind in KINDS:
        for states in (88, 115, 200, MANY_STATES):
            yield dead_larger(rng, kind, states)


# Tables with faults.

def faulty(rng: Rng) -> Iterator[Table]:
    """Each of causes 1 to 8."""
    yield from faulty_tables(rng, 40)


def of_the_table_check(rng: Rng) -> Iterator[Table]:
    """Some of the table check's own cases, good and faulty ones."""
    for group, step in (
        (table_cases.figures, 1), (table_cases.ranges, 6), (table_cases.at_limits, 8),
        (table_cases.edge_codes, 3),
        (table_cases.lengths_of_rules, 3), (table_cases.short_tables, 9),
        (table_cases.unused_rules, 1), (table_cases.many_rules, 3),
        (table_cases.many_states, 3), (table_cases.equal_rules, 4),
        (table_cases.several_faults, 8), (table_cases.late_faults, 3),
        (table_cases.faults_in_two_rules, 5), (table_cases.prefixes, 4),
        (table_cases.replaced_entries, 8), (table_cases.damaged, 4), (table_cases.noise, 6),
        (table_cases.long_tables, 7),
    ):
        yield from list(group(rng))[::step]


def damaged_corpus(rng: Rng) -> Iterator[Table]:
    """The corpus with entries put in, taken out, swapped or replaced, and symbols undeclared."""
    for entry in entries():
        t, n, table = table_in(entry.name)
        for _ in range(3):
            yield t, n, table_cases.damage(rng, table)
        if table:
            place = rng.randrange(len(table))
            yield t, n, table[:place] + random_entries(rng, 1) + table[place + 1:]
        yield max(0, t - 1), n, table
        yield t, n - 1, table


# No sentence.

def without_a_sentence(rng: Rng) -> Iterator[Table]:
    """No finite tree of S, in small grammars and at the limits of rules and states."""
    yield from sentenceless(rng, 25)
    yield from large_sentenceless(rng, 12)


def nearly_without(rng: Rng) -> Iterator[Table]:
    """Only the empty sentence; sentences that need the first rule, or the last."""
    yield from nearly_sentenceless(rng, 30)


def faulty_without(rng: Rng) -> Iterator[Table]:
    """Each of causes 1 to 8 where there is no sentence either."""
    yield from faulty_sentenceless(rng, 24)


# With callers.

def with_callers(rng: Rng) -> Iterator[Case]:
    """Grammars at m=1 and m=2, small ones and up to 1,024 states; the corpus at each m."""
    pairs: List[Pair] = answered_pairs(rng, 20) + larger_pairs(rng, 60, MANY_STATES)
    for states in (MAX_STATES - 1, MAX_STATES):
        pairs += edge_pairs(rng, states, 5)
    pairs += [(table_in(entry.name), m) for entry in entries() for m in range(1, MOST_CALLERS + 1)]
    for table, m in pairs:
        yield Case(*table, m)


def refused_callers(rng: Rng) -> Iterator[Case]:
    """An m above 2, chains too many, tables at fault with an m."""
    many = too_many_pairs(rng, 8)
    tables = [table for table, _ in many] + list(BY_HAND.values())
    for table, m in many + refused_pairs(rng, tables) + faulty_pairs(rng, 8):
        yield Case(*table, m)


def at_0(group: Group) -> Group:
    """The cases at m=0 of a group of tables."""
    return lambda rng: (Case(*table) for table in group(rng))


TABLES: List[Group] = [
    rows_and_classics, of_the_corpus, named, random_small, random_large, many_moves, dead,
    faulty, of_the_table_check, damaged_corpus, without_a_sentence, nearly_without,
    faulty_without,
]
GROUPS: List[Group] = [at_0(group) for group in TABLES] + [with_callers, refused_callers]


# Answers.

def answer(case: Case) -> str:
    """The line of one case, without its byte 10."""
    result = room_of(*case)
    if isinstance(result, Refusal):
        return refused(result)
    return "room states=%d certificate=%d entries=%d moves=%d" % result


def decode_case(reader: Reader) -> Case:
    """The next case of a file of inputs."""
    return Case(*reader.table_at())


KIND = Kind(lambda: cases_of(GROUPS), lambda case: encode_table_at(*case), decode_case, answer,
            REASONS, reasons_of, enough=ENOUGH)

if __name__ == "__main__":
    sys.exit(main(__doc__, sys.argv[1:], KIND))
