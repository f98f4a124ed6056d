"""Test inputs for the witness check, and this program's answers to them.

    witness_cases.py cases FILE                writes the inputs
    witness_cases.py answers CASES OUT COUNTS  answers them and counts the reasons

README.md beside this file has the layout of a case.
"""

import sys
from typing import Dict, Iterator, List, NamedTuple, Tuple

from caller_grammars import (
    BY_HAND, alike_and_potential, answered_pairs, edge_pairs, faulty_pairs, fits, larger_pairs, parted_by_callers,
    refused_pairs, too_many_pairs,
)
from caller_reasons import ENOUGH as ENOUGH_CALLERS
from callers import MOST_CALLERS
from case_files import (
    LARGEST, Kind, Reader, Rng, accepted_or_refused, cases_of, encode_entries,
    encode_table_at, main,
)
from case_grammars import (
    CLASSICS, CYCLE, GOOD_ROWS, MANY_STATES, ONE_A, ROWS, STATEMENTS, Table, faulty_tables, good,
    grammar_of, keywords, larger_random, most_keywords, most_potential, operators,
    rules_before_the_fault, some, states_of, triples_in,
)
from certificates import check_witness
from dead_grammars import chains, dead_larger, dead_tables
from dead_rules import ENOUGH as ENOUGH_DEAD
from dead_rules import KINDS
from live_misreadings import WRONG_STEPS, former_triples, wrong_steps
from misreadings import NAMES, misread_indices
from sentence_grammars import (
    faulty_sentenceless, many_sentenceless, nearly_sentenceless, sentenceless,
)
from sentence_reasons import ENOUGH as ENOUGH_NONE
from tables import MAX_STATES, MAX_TERMINALS, Codes
from triples import Triples, is_potential, reached
from ways import longer, shortest, wander, way_from, way_to
from witness_reasons import ENOUGH_LARGEST, REASONS, reasons_of


class Case(NamedTuple):
    t: int
    n: int
    table: Codes
    entries: Tuple[int, ...]
    m: int = 0


# Groups of cases.

def potential_tables(rng: Rng, count: int) -> List[Table]:
    """Document 01's potential rows, classic ones and `count` random ones."""
    tables = GOOD_ROWS + list(CLASSICS.values())
    tables = [table for table in tables if is_potential(triples_in(table))]
    return tables + some(rng, count, is_potential, 40)


def right(rng: Rng) -> Iterator[Case]:
    """Shortest witnesses and longer ones, with repeated triples."""
    for table in potential_tables(rng, 150):
        triples = triples_in(table)
        yield Case(*table, tuple(shortest(triples)))
        for more in (4, 12, 40):
            yield Case(*table, tuple(longer(rng, triples, more)))
    for table in potential_tables(rng, 0)[:8]:
        yield Case(*table, tuple(longer(rng, triples_in(table), 3000)))


def cut(rng: Rng) -> Iterator[Case]:
    """Right witnesses cut at the end, at the front, and in the middle."""
    for table in potential_tables(rng, 35):
        triples = triples_in(table)
        way = shortest(triples)
        for end in range(len(way)):
            yield Case(*table, tuple(way[:end]))
        place = 1 + rng.randrange(len(way) - 1)
        yield Case(*table, tuple(way[1:]))
        yield Case(*table, tuple(way[place:]))
        yield Case(*table, tuple(way[:place] + way[place + 1:]))


def extended(rng: Rng) -> Iterator[Case]:
    """Right witnesses that go on past (1,1,1), or have an entry twice."""
    for table in potential_tables(rng, 35):
        triples = triples_in(table)
        way = longer(rng, triples, rng.choice([0, 5]))
        for more in (triples.last, triples.first, rng.randrange(triples.count), LARGEST):
            yield Case(*table, tuple(way + [more]))
        yield Case(*table, tuple(way + way))
        place = rng.randrange(len(way))
        yield Case(*table, tuple(way[:place + 1] + way[place:]))


def wrong_entries(rng: Rng) -> Iterator[Case]:
    """A wrong entry at each place of a right witness."""
    for table in potential_tables(rng, 22):
        triples = triples_in(table)
        way, held = longer(rng, triples, rng.choice([0, 0, 3])), sorted(reached(triples))
        for place in range(len(way)):
            beyond = triples.count + rng.randrange(triples.count)
            for entry in (rng.choice(held), triples.count, beyond, LARGEST):
                yield Case(*table, tuple(way[:place] + [entry] + way[place + 1:]))
        yield Case(*table, tuple(rng.choice(held) for _ in way))


def first_entries(rng: Rng) -> Iterator[Case]:
    """A wrong first entry, also with a right way after it."""
    for table in potential_tables(rng, 30):
        triples = triples_in(table)
        way = shortest(triples)
        for first in (1, triples.last, triples.count // 2, triples.count, LARGEST):
            yield Case(*table, tuple([first] + way[1:]))
        yield Case(*table, (triples.last,))
        yield Case(*table, tuple(way[::-1]))
        yield Case(*table, (triples.count,) + tuple(way))


def misread_entries(rng: Rng) -> Iterator[Case]:
    """An entry that would be right in a misreading, then the end."""
    tables = GOOD_ROWS + list(CLASSICS.values())
    tables += some(rng, 40, lambda triples: len(reached(triples)) > 20, 40)
    for table in tables:
        triples = triples_in(table)
        held = sorted(reached(triples))
        by_name: Dict[str, List[Tuple[int, int]]] = {name: [] for name in NAMES}
        for index in held:
            for other, name in misread_indices(triples, index).items():
                by_name[name].append((index, other))
        for row in by_name.values():
            if row:
                index, other = rng.choice(row)
                way = way_to(triples, index)
                yield Case(*table, tuple(way + [other]))
                yield Case(*table, tuple(way + way_from(triples, other)))


def unambiguous(rng: Rng) -> Iterator[Case]:
    """Grammars that have no witness: right ways that do not end, or end wrongly."""
    tables = ROWS + list(CLASSICS.values())
    tables += some(rng, 60, lambda triples: not is_potential(triples), 40)
    for table in tables:
        triples = triples_in(table)
        if is_potential(triples):
            continue
        yield Case(*table, ())
        yield Case(*table, (triples.first,))
        yield Case(*table, (triples.first, triples.last))
        for most in (6, 30):
            way = wander(rng, triples, most)
            yield Case(*table, tuple(way))
            yield Case(*table, tuple(way + [triples.last]))
            place = rng.randrange(len(way))
            other = rng.randrange(triples.count)
            yield Case(*table, tuple(way[:place] + [other] + way[place + 1:]))


def larger(rng: Rng) -> Iterator[Case]:
    """Q from 60 to 256, potential and not, and Q = 1,024."""
    tables = [larger_random(rng, states) for states in (*range(62, 121, 8), MANY_STATES)]
    tables += [keywords(rng, 30, 110), keywords(rng, 40, MANY_STATES), most_keywords(rng)]
    tables += [operators(10), STATEMENTS, most_potential(rng)]
    for table in tables:
        triples = triples_in(table)
        walk = longer if is_potential(triples) else wander
        for more in (0, 1, 3, 10, 30, 100):
            way = walk(rng, triples, more)
            yield Case(*table, tuple(way))
            place = rng.randrange(len(way))
            for entry in (rng.randrange(triples.count), triples.count, LARGEST):
                yield Case(*table, tuple(way[:place] + [entry] + way[place + 1:]))
            yield Case(*table, tuple(way[:place]))


def faulty(rng: Rng) -> Iterator[Case]:
    """Faulty tables, with witnesses right for the rules before the fault or not."""
    for table in faulty_tables(rng, 30):
        good = rules_before_the_fault(table)
        if states_of(good) < 40 and is_potential(triples_in(good)):
            yield Case(*table, tuple(shortest(triples_in(good))))
        yield Case(*table, rng.choice([(), (0,), (0, LARGEST), (1, 2, 3)]))
    way = tuple(shortest(triples_in(CYCLE)))
    for t in range(MAX_TERMINALS + 1, MAX_TERMINALS + 33):
        yield Case(t, *CYCLE[1:], way)
    yield Case(*ONE_A, way)


def lost_steps(table: Table) -> Dict[str, List[Tuple[int, int]]]:
    """By name the steps from reached triples that [3] took away."""
    grammar, triples, former = good(table), triples_in(table), former_triples(good(table))
    found: Dict[str, List[Tuple[int, int]]] = {name: [] for name in WRONG_STEPS}
    for index in sorted(reached(triples)):
        for other in sorted(set(former.successors(index)) - set(triples.successors(index))):
            for name in wrong_steps(grammar, index, other):
                found[name].append((index, other))
    return found


def dead(rng: Rng) -> Iterator[Case]:
    """Grammars with dead rules: right witnesses, and steps to items of dead rules."""
    for table in list(dead_tables(rng, 30)) + list(chains(rng, (2, 9))):
        triples, former = triples_in(table), former_triples(good(table))
        for row in lost_steps(table).values():
            for index, other in rng.sample(row, min(2, len(row))):
                way = way_to(triples, index)
                yield Case(*table, tuple(way + [other]))
                yield Case(*table, tuple(way + way_from(former, other)))
        yield from of_either(rng, table, former)
        yield from of_either(rng, table, triples)


def of_either(rng: Rng, table: Table, triples: Triples) -> Iterator[Case]:
    """Right witnesses of an automaton, or ways that do not end."""
    walk = longer if is_potential(triples) else wander
    for more in (0, 3, 9):
        way = walk(rng, triples, more)
        yield Case(*table, tuple(way))
        place = rng.randrange(len(way))
        yield Case(*table, tuple(way[:place] + [rng.randrange(triples.count)] + way[place + 1:]))


def dead_and_larger(rng: Rng) -> Iterator[Case]:
    """Dead rules in grammars of Q from 60 to 256."""
    tables = [dead_larger(rng, kind, states) for kind in KINDS for states in (90, 120)]
    for table in tables + list(chains(rng, (97,))):
        yield from of_either(rng, table, former_triples(good(table)))
        yield from of_either(rng, table, triples_in(table))


def without_a_sentence(rng: Rng) -> Iterator[Case]:
    """No sentence: what were witnesses or ways before document 02's [3], cut, wrong, empty."""
    for table in [*sentenceless(rng, 12), *many_sentenceless(rng, 6)]:
        former = former_triples(grammar_of(table))
        yield from of_either(rng, table, former)
        yield Case(*table, rng.choice([(), (0,), (0, former.last), (former.count,), (LARGEST,)]))


def nearly_without(rng: Rng) -> Iterator[Case]:
    """Grammars that nearly lack a sentence: right witnesses, or ways that do not end."""
    for table in nearly_sentenceless(rng, 16):
        yield from of_either(rng, table, triples_in(table))


def faulty_without(rng: Rng) -> Iterator[Case]:
    """Each of causes 1 to 8 where there is no sentence either."""
    for table in faulty_sentenceless(rng, 22):
        yield Case(*table, rng.choice([(), (0,), (0, LARGEST), (1, 2, 3)]))


# With callers.

def with_callers(rng: Rng) -> Iterator[Case]:
    """Witnesses and ways at m=1 and m=2: right, cut, with wrong entries, going on past the end."""
    for table, m in answered_pairs(rng, 12) + larger_pairs(rng, 40):
        triples = triples_in(table, m)
        walk = longer if is_potential(triples) else wander
        for more in (0, 12):
            way = walk(rng, triples, more)
            place = rng.randrange(len(way))
            found = [way, way[:place], way + [rng.choice([triples.last, triples.first, LARGEST])]]
            for entry in (rng.choice(sorted(reached(triples))), rng.randrange(triples.count),
                          rng.choice([triples.count, triples.count + 1, LARGEST])):
                found.append(way[:place] + [entry] + way[place + 1:])
            found.append([rng.choice([1, triples.count, LARGEST])] + way[1:])
            for entries in found:
                yield Case(*table, tuple(entries), m)
        yield Case(*table, tuple(walk(rng, triples, 30)), m)
        yield from misread_with_callers(rng, table, m)


def misread_with_callers(rng: Rng, table: Table, m: int) -> Iterator[Case]:
    """An entry that would be right in a misreading of document 01."""
    triples = triples_in(table, m)
    held = sorted(reached(triples))
    named: Dict[str, Tuple[int, int]] = {}
    for index in rng.sample(held, min(80, len(held))):
        for other, name in misread_indices(triples, index).items():
            named[name] = index, other
    for index, other in named.values():
        yield Case(*table, tuple(way_to(triples, index) + [other]), m)


def of_another_m(rng: Rng) -> Iterator[Case]:
    """The shortest witness at one m, handed in at another, 0 among them."""
    tables = [table for table, _ in answered_pairs(rng, 10)]
    tables += [parted_by_callers(rng, 1 + rng.randrange(3)) for _ in range(40)]
    tables += alike_and_potential(rng, 24)
    for table in dict.fromkeys(tables):
        fitting = [m for m in range(MOST_CALLERS + 1) if fits(table, m)]
        for one in fitting:
            for m in fitting:
                if m != one and is_potential(triples_in(table, one)):
                    yield Case(*table, tuple(shortest(triples_in(table, one))), m)


def refused_callers(rng: Rng) -> Iterator[Case]:
    """An m above 2, chains too many, tables at fault with an m: witnesses at m=0, or not."""
    many = too_many_pairs(rng, 7)
    few = potential_tables(rng, 60) + list(BY_HAND.values())
    for table, m in many + refused_pairs(rng, [table for table, _ in many]):
        yield Case(*table, rng.choice([(), (0,), (0, 2), (LARGEST,)]), m)
    pairs = refused_pairs(rng, few) + [(table, m) for table in few for m in (1, 2)
                                       if not fits(table, m, MAX_STATES)]
    for table, m in pairs:
        triples = triples_in(table)
        walk = longer if is_potential(triples) else wander
        yield Case(*table, tuple(walk(rng, triples, 3)), m)
        yield Case(*table, tuple(walk(rng, triples, 3)[:-1]), m)
    for table, m in faulty_pairs(rng, 8):
        yield Case(*table, rng.choice([(), (0,), (0, LARGEST), (1, 2, 3)]), m)


def most_states_with_callers(rng: Rng) -> Iterator[Case]:
    """Q at m of 1,024."""
    for table, m in edge_pairs(rng, MAX_STATES, 2):
        triples = triples_in(table, m)
        for more in (1, 6, 30):
            way = wander(rng, triples, more)
            yield Case(*table, tuple(way), m)
            yield Case(*table, tuple(way + [rng.choice([triples.count, triples.last, LARGEST])]), m)


CALLER_GROUPS = [with_callers, of_another_m, refused_callers, most_states_with_callers]
GROUPS = [
    right, cut, extended, wrong_entries, first_entries, misread_entries, unambiguous,
    larger, faulty, dead, dead_and_larger, without_a_sentence, nearly_without, faulty_without,
] + CALLER_GROUPS


# Answers.

def answer(case: Case) -> str:
    """The line of one case, without its byte 10."""
    return accepted_or_refused(check_witness(*case))


# Files.

def encode_case(case: Case) -> bytes:
    """One case of the file of inputs."""
    return encode_table_at(*case[:3], case.m) + encode_entries(case.entries)


def decode_case(reader: Reader) -> Case:
    """The next case of a file of inputs."""
    t, n, table, m = reader.table_at()
    return Case(t, n, table, reader.entries(), m)


KIND = Kind(lambda: cases_of(GROUPS), encode_case, decode_case, answer,
            REASONS, lambda case: reasons_of(*case),
            enough={**ENOUGH_DEAD, **ENOUGH_NONE, **ENOUGH_LARGEST, **ENOUGH_CALLERS})

if __name__ == "__main__":
    sys.exit(main(__doc__, sys.argv[1:], KIND))
