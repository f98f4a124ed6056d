"""Test inputs for the certificate check, and this program's answers to them.

    certificate_cases.py cases FILE                writes the inputs
    certificate_cases.py answers CASES OUT COUNTS  answers them and counts the reasons

README.md beside this file has the layout of a case.
"""

import sys
from typing import Dict, Iterator, List, NamedTuple, Optional, Sequence, Tuple

from caller_grammars import (
    BY_HAND, SMALL, Pair, alike_in_states, answered_pairs, edge_pairs, faulty_pairs, fits, larger_pairs,
    refused_pairs, too_many_pairs,
)
from caller_reasons import ENOUGH as ENOUGH_CALLERS
from callers import MOST_CALLERS
from case_files import (
    Kind, Reader, Rng, accepted_or_refused, cases_of, encode_bytes, encode_table_at, main,
)
from case_grammars import (
    CLASSICS, LEFT_LIST, MANY_STATES, NESTED, ONE_A, ROWS, STATEMENTS, Table, faulty_tables, good,
    grammar_of, keywords, larger_random, most_keywords, operators, rules_before_the_fault, some,
    spelled, states_of, triples_in,
)
from certificate_reasons import ENOUGH_LARGEST, REASONS, reasons_of
from certificates import check_certificate
from dead_grammars import chains, dead_larger, dead_tables
from dead_rules import ENOUGH as ENOUGH_DEAD
from dead_rules import KINDS, dead_states
from live_misreadings import former_triples
from random_tables import A, B, S, random_bytes
from sentence_grammars import (
    faulty_sentenceless, large_sentenceless, many_sentenceless, nearly_sentenceless, sentenceless,
)
from sentence_reasons import ENOUGH as ENOUGH_NONE
from tables import FIXED_STATES, Codes, Grammar
from triples import (
    BYTE, Triple, Triples, certificate_length, certificate_of, closure, held_indices,
    index_of, is_potential, reached, triple_at, triples_of,
)
from ways import largest_set


class Case(NamedTuple):
    t: int
    n: int
    table: Codes
    certificate: bytes
    m: int = 0


# Building blocks.

def smallest(table: Table, m: int = 0) -> bytes:
    """The smallest closed set from (0,0,0); right unless it holds (1,1,1)."""
    triples = triples_in(table, m)
    return certificate_of(triples.states, reached(triples))


def closed_superset(rng: Rng, triples: Triples, adding: int) -> Optional[bytes]:
    """The smallest set and `adding` random triples, closed; None with (1,1,1)."""
    held = reached(triples)
    for _ in range(adding):
        more = closure(triples, [rng.randrange(triples.count)], held)
        if triples.last not in more:
            held = more
    return None if triples.last in held else certificate_of(triples.states, held)


def flipped(certificate: bytes, *indices: int) -> bytes:
    """The certificate with these bits changed."""
    changed = bytearray(certificate)
    for index in indices:
        changed[index // BYTE] ^= 1 << index % BYTE
    return bytes(changed)


def former_smallest(table: Table) -> bytes:
    """The smallest closed set of the automaton before document 02's [3]."""
    former = former_triples(grammar_of(table))
    return certificate_of(former.states, reached(former))


def unambiguous(triples: Triples) -> bool:
    return not is_potential(triples)


def had_another(grammar: Grammar) -> bool:
    """Unambiguous before [3], but with another smallest certificate."""
    former = former_triples(grammar)
    return unambiguous(former) and reached(former) != reached(triples_of(grammar))


def was_potential(grammar: Grammar) -> bool:
    """Unambiguous since [3]."""
    return is_potential(former_triples(grammar)) and unambiguous(triples_of(grammar))


def unambiguous_and_varied(triples: Triples) -> bool:
    """Unambiguous with more than a few triples reached."""
    return len(reached(triples)) >= 12 and unambiguous(triples)


def is_odd(triples: Triples) -> bool:
    """Odd Q: six spare bits in the last byte; an even Q has none."""
    return triples.states % 2 == 1 and unambiguous(triples)


# Groups of cases.

def document(rng: Rng) -> Iterator[Case]:
    """Document 01's certificate of S→a and its five cases; its rows' closed sets."""
    right = smallest(ONE_A)
    for certificate in (right, right[:8], bytes(9), b"\xff" * 9, b"\x01" + bytes(8)):
        yield Case(*ONE_A, certificate)
    for table in (LEFT_LIST, NESTED):
        yield Case(*table, flipped(smallest(table), 162))
    for table in ROWS:
        yield Case(*table, smallest(table))


def every_bit(rng: Rng) -> Iterator[Case]:
    """Right certificates of small grammars with each single bit flipped."""
    tables = [table for table in ROWS if unambiguous(triples_in(table))]
    tables += [CLASSICS["list-right"], CLASSICS["list-empty-right"], CLASSICS["brackets-one"]]
    for table in tables + some(rng, 30, unambiguous_and_varied, 10):
        right = smallest(table)
        yield Case(*table, right)
        for index in range(BYTE * len(right)):
            yield Case(*table, flipped(right, index))


def every_bit_of_larger_sets(rng: Rng) -> Iterator[Case]:
    """Larger closed sets, the largest too, with each single bit flipped."""
    for table in ROWS[1:5] + some(rng, 12, unambiguous_and_varied, 9):
        triples = triples_in(table)
        sets = [certificate_of(triples.states, largest_set(triples))]
        sets.append(closed_superset(rng, triples, 5) or smallest(table))
        for certificate in sets:
            yield Case(*table, certificate)
            for index in range(BYTE * len(certificate)):
                yield Case(*table, flipped(certificate, index))


def some_bits(rng: Rng) -> Iterator[Case]:
    """Right certificates with one or two bits flipped, held ones as often as others."""
    tables = list(CLASSICS.values()) + some(rng, 170, unambiguous_and_varied, 24)
    for table in tables:
        triples = triples_in(table)
        if not unambiguous(triples):
            continue
        right = smallest(table)
        held = sorted(reached(triples))
        yield Case(*table, right)
        for _ in range(9):
            one, other = rng.choice(held), rng.randrange(triples.count)
            yield Case(*table, flipped(right, one))
            yield Case(*table, flipped(right, other))
            yield Case(*table, flipped(right, *{one, other}))


def lengths(rng: Rng) -> Iterator[Case]:
    """Too short, too long and empty, of right certificates and of wrong ones."""
    tables = ROWS + list(CLASSICS.values()) + some(rng, 70, unambiguous, 40)
    for table in tables:
        right = smallest(table)
        yield Case(*table, b"")
        yield Case(*table, right[:-1])
        yield Case(*table, right[1:])
        yield Case(*table, right + b"\0")
        yield Case(*table, right + b"\xff")
        yield Case(*table, right + right)
        other = len(right) + rng.choice([-1, 1])
        yield Case(*table, rng.choice([b"\0", b"\xff"]) * other)
        yield Case(*table, random_bytes(rng, rng.randrange(2 * len(right))))


def spare_bits(rng: Rng) -> Iterator[Case]:
    """Spare bits set: each alone, several, and beside later faults."""
    for table in some(rng, 60, is_odd, 40):
        triples = triples_in(table)
        right, count, last = smallest(table), triples.count, triples.last
        spare = range(count, BYTE * len(right))
        for index in spare:
            yield Case(*table, flipped(right, index))
        yield Case(*table, flipped(right, *spare))
        yield Case(*table, flipped(right, *spare[2:5]))
        yield Case(*table, flipped(right, rng.choice(spare), 0))
        yield Case(*table, flipped(right, rng.choice(spare), last))
        yield Case(*table, flipped(right, rng.choice(spare), rng.randrange(count)))
        yield Case(*table, flipped(bytes(len(right)), spare[-1]))


def closed_sets(rng: Rng) -> Iterator[Case]:
    """Closed sets between the smallest and the largest, also with a bit flipped."""
    tables = list(CLASSICS.values()) + some(rng, 130, unambiguous, 20)
    for table in tables:
        triples = triples_in(table)
        if not unambiguous(triples):
            continue
        largest = certificate_of(triples.states, largest_set(triples))
        yield Case(*table, largest)
        yield Case(*table, flipped(largest, rng.randrange(triples.count)))
        for adding in (1, 1, 1, 4, 20):
            certificate = closed_superset(rng, triples, adding)
            if certificate is not None:
                yield Case(*table, certificate)
                held = held_indices(certificate)
                yield Case(*table, flipped(certificate, rng.choice(held)))
                yield Case(*table, flipped(certificate, rng.randrange(triples.count)))


def extremes(rng: Rng) -> Iterator[Case]:
    """All 0, all 1, random bytes, and few or all but few bits."""
    tables = ROWS + list(CLASSICS.values()) + some(rng, 90, lambda triples: True, 40)
    for table in tables:
        triples = triples_in(table)
        size, first, last = certificate_length(triples.states), triples.first, triples.last
        full = certificate_of(triples.states, range(triples.count))
        for certificate in (bytes(size), full):
            for bits in ((), (first,), (last,), (first, last)):
                yield Case(*table, flipped(certificate, *bits))
        yield Case(*table, b"\xff" * size)
        noise = flipped(random_bytes(rng, size), *range(triples.count, BYTE * size))
        yield Case(*table, noise)
        sparse = [rng.randrange(triples.count) for _ in range(4)]
        yield Case(*table, certificate_of(triples.states, [first] + sparse))
        yield Case(*table, certificate_of(triples.states, sparse))
        yield Case(*table, certificate_of(triples.states, triples.successors(first)))


def potential(rng: Rng) -> Iterator[Case]:
    """Grammars that have no right certificate: 12, or 13 without (1,1,1)."""
    tables = ROWS + list(CLASSICS.values()) + some(rng, 110, is_potential, 18)
    for table in tables:
        triples = triples_in(table)
        if not is_potential(triples):
            continue
        certificate, last = smallest(table), triples.last
        held = sorted(reached(triples))
        yield Case(*table, certificate)
        yield Case(*table, flipped(certificate, last))
        yield Case(*table, flipped(certificate, *{last, rng.choice(held)}))
        yield Case(*table, flipped(certificate, *{last, rng.choice(held)}))
        yield Case(*table, flipped(certificate, triples.first))
        largest = largest_set(triples) | {triples.first}
        yield Case(*table, certificate_of(triples.states, largest))


def of_other_grammars(rng: Rng) -> Iterator[Case]:
    """The right certificate of another grammar, of the same Q more often than not."""
    tables = ROWS + list(CLASSICS.values()) + some(rng, 250, unambiguous, 20)
    for place, table in enumerate(tables):
        states = states_of(table)
        alike = [other for other in tables[:place] if states_of(other) == states]
        for other in alike[-3:] + [rng.choice(tables)]:
            yield Case(*table, smallest(other))


def faulty(rng: Rng) -> Iterator[Case]:
    """Faulty tables, with certificates right for the rules before the fault or not."""
    for table in faulty_tables(rng, 30):
        good = rules_before_the_fault(table)
        if states_of(good) < 40:
            yield Case(*table, smallest(good))
        yield Case(*table, rng.choice([b"", b"", smallest(ONE_A), b"\xff" * 9]))


def larger(rng: Rng) -> Iterator[Case]:
    """Q from 60 to 120: right ones, flipped ones, closed sets, wrong ones."""
    tables = [operators(levels) for levels in (9, 13, 16)] + [STATEMENTS]
    tables += [keywords(rng, 16, states) for states in (61, 75, 98, 119, 120)]
    tables += [larger_random(rng, states) for states in (63, 90)]
    for table in tables:
        triples = triples_in(table)
        right, held = smallest(table), sorted(reached(triples))
        yield Case(*table, right)
        for _ in range(16):
            yield Case(*table, flipped(right, rng.choice(held)))
            yield Case(*table, flipped(right, rng.randrange(triples.count)))
        for adding in (1, 3, 9):
            yield Case(*table, closed_superset(rng, triples, adding) or right[:-1])
        yield Case(*table, b"\xff" * len(right))
        yield Case(*table, flipped(right, triples.last))
        if triples.states < 80:
            yield Case(*table, certificate_of(triples.states, largest_set(triples)))


def most_states(rng: Rng) -> Iterator[Case]:
    """Q = 1,024: 262,144 bytes, indices up to 2,097,151; most of them refused early."""
    table = most_keywords(rng)
    triples = triples_in(table)
    right, held = smallest(table), sorted(reached(triples))
    yield Case(*table, right)
    yield Case(*table, flipped(right, rng.choice(held[len(held) // 2:])))
    yield Case(*table, flipped(right, triples.count - 1, held[-1]))
    yield Case(*table, flipped(right, triples.last))
    yield Case(*table, right[:-1])
    yield Case(*table, right + b"\0")
    yield Case(*table, flipped(right, triples.first))
    for size in (0, 1, 16384, 32768, 65535, 65536):
        yield Case(*table, right[:size])
    for table in large_sentenceless(rng, 6):
        yield Case(*table, rng.choice([b"", b"\1", bytes(16384)]))


def largest_grammar(rng: Rng) -> Iterator[Case]:
    """Q = 256: indices up to 131,071."""
    table = keywords(rng, 30, MANY_STATES)
    triples = triples_in(table)
    right, held = smallest(table), sorted(reached(triples))
    yield Case(*table, right)
    for _ in range(12):
        yield Case(*table, flipped(right, rng.choice(held)))
        yield Case(*table, flipped(right, rng.randrange(triples.count)))
    yield Case(*table, flipped(right, held[-1]))
    yield Case(*table, flipped(right, triples.count - 1))
    yield Case(*table, flipped(right, triples.last))
    yield Case(*table, right[:-1])
    yield Case(*table, right + b"\0")
    yield Case(*table, b"\xff" * len(right))
    for adding in (1, 20, 200):
        certificate = closed_superset(rng, triples, adding)
        if certificate is not None:
            yield Case(*table, certificate)
            yield Case(*table, flipped(certificate, held_indices(certificate)[-1]))


# Pairs of ends.

def branching(count: int) -> Table:
    """S→t S S for so many terminals t, and S→x: each end closes to every S that was passed."""
    lines = ["S: t%d S S" % i for i in range(count)]
    return spelled(*lines, "S: x")


def alternating(count: int) -> Table:
    """Rules of S and A by turns, each with its own terminal: S→t S A; A→u A S; and so on."""
    pairs = [("S: t%d S A" % i, "A: u%d A S" % i) for i in range(count)]
    return spelled(*(line for pair in pairs for line in pair), "S: x", "A: y")


def kept_apart(count: int) -> Table:
    """Rules of A and B by turns; S has either between terminals of its own, so nothing follows a parting."""
    pairs = [("A: t%d A A" % i, "B: u%d B B" % i) for i in range(count)]
    return spelled("S: a A c | b B d", *(line for pair in pairs for line in pair), "A: x", "B: y")


def ends_of(table: Table, by_left: bool) -> List[Tuple[int, int, int]]:
    """By rule its number, its left code and the state at its end; the number is among all rules or of its left code."""
    found, state = [], FIXED_STATES - 1
    counts: Dict[int, int] = {}
    for number, rule in enumerate(grammar_of(table).rules, 1):
        state += len(rule.right) + 1
        counts[rule.left] = counts.get(rule.left, 0) + 1
        found.append((counts[rule.left] if by_left else number, rule.left, state))
    return found


def end_pairs(table: Table, lefts: Sequence[Tuple[int, int]], by_left: bool, parity: int) -> List[int]:
    """The indices of (0, end i, end j), i + j even or odd, of rules of these pairs of left codes."""
    states, ends = states_of(table), ends_of(table, by_left)
    return [index_of(states, Triple(0, p, q)) for i, left, p in ends for j, right, q in ends
            if (left, right) in lefts and (i + j) % 2 == parity]


def with_a_bit_less(table: Table, certificate: bytes, indices: Sequence[int]) -> Iterator[Case]:
    """The certificate, and without each of some of its triples."""
    yield Case(*table, certificate)
    held = set(held_indices(certificate))
    for index in dict.fromkeys(indices):
        if index in held:
            yield Case(*table, flipped(certificate, index))


def places_to_take(rng: Rng, triples: Triples, pairs: Sequence[int], most: int) -> List[int]:
    """Pairs of ends, what follows them, and other triples of either layer: the first, the last, some."""
    following = sorted({after for index in pairs for after in triples.successors(index)})
    found = [triples.first]
    for row in (pairs, following, sorted(reached(triples)), range(triples.count // 2, triples.count)):
        if row:
            found += [row[0], row[-1]] + [rng.choice(row) for _ in range(most)]
    return found


def chequered(rng: Rng) -> Iterator[Case]:
    """All of layer 1 but (1,1,1), and in layer 0 every second pair of ends beside the smallest set.

    A pair of ends of unequal rules has as many successors as there are pairs of
    places to return to. One bit is taken away at several places.
    """
    one, two = [(S, S)], [(S, A), (A, S)]
    for table, lefts, by_left, parity in (
            (branching(6), one, False, 0), (branching(7), one, False, 1), (branching(10), one, False, 0),
            (alternating(3), two, True, 0), (alternating(4), two, True, 1), (alternating(5), two, True, 0),
            (alternating(4), two + [(S, S), (A, A)], False, 0), (alternating(5), two + [(S, S), (A, A)], False, 1),
            (alternating(4), two + [(S, S), (A, A)], True, 0)):
        triples = triples_in(table)
        every = end_pairs(table, lefts, by_left, parity)
        whole = set(range(triples.count // 2, triples.count))
        for layer in (whole, whole & largest_set(triples)):
            for pairs in (every, every[rng.randrange(len(every) // 2):]):
                held = (reached(triples) | set(pairs) | layer) - {triples.last}
                certificate = certificate_of(triples.states, held)
                yield from with_a_bit_less(table, certificate, places_to_take(rng, triples, pairs, 2))


def chequered_and_closed(rng: Rng) -> Iterator[Case]:
    """Every second pair of ends of two nonterminals, and what follows: accepted, but for a bit taken away."""
    both = [(A, B), (B, A)]
    for count, parity in ((4, 0), (5, 1), (5, 0), (6, 1)):
        table = kept_apart(count)
        triples = triples_in(table)
        for lefts in (both, both[:1], both[1:]):
            every = end_pairs(table, lefts, True, parity)
            pairs = every[rng.randrange(len(every) // 3):]
            closed = closure(triples, pairs, reached(triples))
            layer = {index for index in largest_set(triples) if index >= triples.count // 2}
            for held in (closed, closed | layer):
                assert triples.last not in held
                certificate = certificate_of(triples.states, held)
                yield from with_a_bit_less(table, certificate, places_to_take(rng, triples, pairs, 3))


def former(rng: Rng) -> Iterator[Case]:
    """Certificates of the former automaton: accepted before [3], so still accepted.

    Also with a bit flipped, which not all of them were.
    """
    for table in dead_tables(rng, 56, had_another):
        triples = former_triples(good(table))
        right = former_smallest(table)
        yield Case(*table, right)
        yield Case(*table, certificate_of(triples.states, largest_set(triples)))
        yield Case(*table, closed_superset(rng, triples, 3) or right)
        for _ in range(3):
            yield Case(*table, flipped(right, rng.choice(held_indices(right))))
            yield Case(*table, flipped(right, rng.randrange(triples.count)))


def dead(rng: Rng) -> Iterator[Case]:
    """Grammars with dead rules: the smallest set, larger ones, each with a bit flipped."""
    tables = list(dead_tables(rng, 30)) + list(chains(rng, (2, 9)))
    for table in tables:
        triples = triples_in(table)
        right = smallest(table)
        yield Case(*table, right)
        yield Case(*table, former_smallest(table))
        yield Case(*table, flipped(right, rng.choice(held_indices(right))))
        for adding in (1, 6):
            larger = closed_superset(rng, triples, adding)
            if larger is not None:
                yield Case(*table, larger)
                yield Case(*table, flipped(larger, rng.choice(held_indices(larger))))
                yield Case(*table, flipped(larger, a_dead_triple(rng, table)))


def a_dead_triple(rng: Rng, table: Table) -> int:
    """The index of a triple with an item of a dead rule, if there is one."""
    states = states_of(table)
    triple = triple_at(states, rng.randrange(2 * states * states))
    items = sorted(dead_states(good(table)))
    if items and rng.randrange(2) == 0:
        triple = triple._replace(left=rng.choice(items))
    elif items:
        triple = triple._replace(right=rng.choice(items))
    return index_of(states, triple)


def unambiguous_since(rng: Rng) -> Iterator[Case]:
    """Grammars that had no certificate before [3]: the smallest set, the largest, and flipped."""
    for table in dead_tables(rng, 14, was_potential):
        triples = triples_in(table)
        right = smallest(table)
        yield Case(*table, right)
        yield Case(*table, former_smallest(table))
        yield Case(*table, flipped(former_smallest(table), triples.last))
        yield Case(*table, certificate_of(triples.states, largest_set(triples)))
        yield Case(*table, flipped(right, a_dead_triple(rng, table)))


def dead_and_larger(rng: Rng) -> Iterator[Case]:
    """Dead rules in grammars of Q from 60 to 256."""
    tables = [dead_larger(rng, kind, states) for kind in KINDS for states in (90, 120)]
    tables += [dead_larger(rng, kind, MANY_STATES) for kind in KINDS] + list(chains(rng, (97,)))
    for table in tables:
        right = smallest(table)
        yield Case(*table, right)
        yield Case(*table, flipped(right, a_dead_triple(rng, table)))
        yield Case(*table, flipped(right, rng.choice(held_indices(right))))
        if unambiguous(former_triples(good(table))):
            yield Case(*table, former_smallest(table))


def without_a_sentence(rng: Rng) -> Iterator[Case]:
    """No sentence: certificates accepted before document 02's [4], or before its [3] too.

    Also with a bit flipped, of a wrong length, with a spare bit, without a bit.
    """
    for table in sentenceless(rng, 12):
        right, triples = smallest(table), triples_in(table)
        former = former_triples(grammar_of(table))
        yield Case(*table, right)
        yield Case(*table, former_smallest(table))
        yield Case(*table, certificate_of(triples.states, largest_set(triples)))
        yield Case(*table, closed_superset(rng, former, 2) or right)
        yield Case(*table, flipped(right, triples.last))
        yield Case(*table, flipped(right, rng.randrange(triples.count)))
        yield Case(*table, flipped(right, BYTE * len(right) - 1))
        yield Case(*table, rng.choice([b"", right[:-1], right + b"\0", former_smallest(table)[1:]]))
        yield Case(*table, rng.choice([bytes(len(right)), b"\xff" * len(right)]))


def large_without(rng: Rng) -> Iterator[Case]:
    """The same with 100 rules and 256 states."""
    for table in many_sentenceless(rng, 10):
        right = smallest(table)
        for certificate in (right, former_smallest(table), right[:-1], bytes(len(right)), b""):
            yield Case(*table, certificate)


def nearly_without(rng: Rng) -> Iterator[Case]:
    """Grammars that nearly lack a sentence: the smallest set, and with a bit flipped."""
    for table in nearly_sentenceless(rng, 16):
        right = smallest(table)
        yield Case(*table, right)
        yield Case(*table, flipped(right, rng.choice(held_indices(right))))
        only = b"\1" + bytes(len(right) - 1)
        yield Case(*table, rng.choice([right[:-1], bytes(len(right)), only]))


def faulty_without(rng: Rng) -> Iterator[Case]:
    """Each of causes 1 to 8 where there is no sentence either."""
    for table in faulty_sentenceless(rng, 22):
        yield Case(*table, rng.choice([b"", b"\1" + bytes(3), smallest(ONE_A), b"\xff" * 9]))


# With callers.

def with_callers(rng: Rng) -> Iterator[Case]:
    """Small grammars at m=1 and m=2: smallest and larger closed sets, bits flipped, every other fault."""
    for table, m in answered_pairs(rng, 12):
        triples = triples_in(table, m)
        right, held, size = smallest(table, m), sorted(reached(triples)), certificate_length(triples.states)
        found = [right, flipped(right, rng.choice(held)), flipped(right, rng.choice(held)),
                 flipped(right, rng.randrange(triples.count)), flipped(right, triples.last)]
        found += [closed_superset(rng, triples, 3) or flipped(right, triples.last, rng.choice(held))]
        found.append(rng.choice([b"", right[:-1], right + b"\0", right + right, right[:size // 2]]))
        found.append(rng.choice([right[:-1], right + b"\0"]))
        found.append(rng.choice([bytes(size), b"\xff" * size, b"\1" + bytes(size - 1), flipped(right, 0)]))
        found.append(flipped(right, triples.first, *[triples.last] * rng.randrange(2)))
        spare = range(triples.count, BYTE * size)
        if spare:
            found += [flipped(right, spare[0]), flipped(right, *spare[rng.randrange(5):]),
                      flipped(right, spare[-1], rng.choice([triples.first, triples.last, rng.choice(held)]))]
        if triples.states < 30:
            found.append(certificate_of(triples.states, largest_set(triples) | {triples.first}))
        for certificate in found:
            yield Case(*table, certificate, m)


def larger_with_callers(rng: Rng) -> Iterator[Case]:
    """From 61 to 120 states at m: the smallest set, with a bit flipped, of a wrong length."""
    for table, m in larger_pairs(rng, 48):
        right = smallest(table, m)
        yield Case(*table, right, m)
        yield Case(*table, flipped(right, rng.choice(held_indices(right))), m)
        yield Case(*table, flipped(right, rng.randrange(triples_in(table, m).count)), m)
        yield Case(*table, right[1:], m)


def of_another_m(rng: Rng) -> Iterator[Case]:
    """The smallest set at one m, handed in at another, 0 among them."""
    tables = [table for table, _ in answered_pairs(rng, 14)] + alike_in_states(rng, 60)
    for table in dict.fromkeys(tables):
        fitting = [m for m in range(MOST_CALLERS + 1) if fits(table, m)]
        for one in fitting:
            right = smallest(table, one)
            for m in fitting:
                if m != one and unambiguous(triples_in(table, one)):
                    yield Case(*table, right, m)


def most_states_with_callers(rng: Rng) -> Iterator[Case]:
    """Q at m of 1,024: few of them whole."""
    for table, m in edge_pairs(rng, 1024, 2):
        right = smallest(table, m)
        yield Case(*table, right[:rng.choice([0, 1, 16384, 65535])], m)
        yield Case(*table, smallest(table), m)
    for table, m in edge_pairs(rng, 1024, 1):
        right = smallest(table, m)
        yield Case(*table, right, m)
        yield Case(*table, flipped(right, rng.choice(held_indices(right))), m)


def wrong_or_right_at_0(rng: Rng, table: Table) -> List[bytes]:
    """Certificates that are accepted at m=0, and with each of causes 9 to 13 there, where they are short."""
    if states_of(table) > SMALL:
        return [b"", rng.choice([b"\1", b"\0" * 9])]
    right, count = smallest(table), triples_in(table).count
    found = [right, right[:-1], bytes(len(right)), b"\xff" * len(right), b"\1" + bytes(len(right) - 1)]
    found.append(flipped(right, triples_in(table).last))
    return found + ([flipped(right, count)] if count % BYTE else [b""])


def refused_callers(rng: Rng) -> Iterator[Case]:
    """An m above 2, chains too many, tables at fault with an m: certificates accepted at m=0, or not."""
    many = too_many_pairs(rng, 10)
    few = [table for table, _ in many if states_of(table) <= SMALL] + list(BY_HAND.values())
    pairs: List[Pair] = many + refused_pairs(rng, few + alike_in_states(rng, 40))
    pairs += refused_pairs(rng, [table for table, _ in many])
    for table, m in pairs:
        for certificate in wrong_or_right_at_0(rng, table):
            yield Case(*table, certificate, m)
    for table, m in faulty_pairs(rng, 8):
        yield Case(*table, rng.choice([b"", b"\1" + bytes(3), smallest(ONE_A), b"\xff" * 9]), m)


GROUPS = [
    document, every_bit, every_bit_of_larger_sets, some_bits, lengths, spare_bits,
    closed_sets, extremes, potential, of_other_grammars, faulty, larger, largest_grammar,
    most_states, chequered, chequered_and_closed,
    former, dead, unambiguous_since, dead_and_larger, without_a_sentence, large_without,
    nearly_without, faulty_without,
    with_callers, larger_with_callers, of_another_m, most_states_with_callers, refused_callers,
]


# Answers.

def answer(case: Case) -> str:
    """The line of one case, without its byte 10."""
    return accepted_or_refused(check_certificate(*case))


# Files.

def encode_case(case: Case) -> bytes:
    """One case of the file of inputs."""
    return encode_table_at(*case[:3], case.m) + encode_bytes(case.certificate)


def decode_case(reader: Reader) -> Case:
    """The next case of a file of inputs."""
    t, n, table, m = reader.table_at()
    return Case(t, n, table, reader.take(reader.number()), m)


KIND = Kind(lambda: cases_of(GROUPS), encode_case, decode_case, answer,
            REASONS, lambda case: reasons_of(*case),
            enough={**ENOUGH_DEAD, **ENOUGH_NONE, **ENOUGH_LARGEST, **ENOUGH_CALLERS})

if __name__ == "__main__":
    sys.exit(main(__doc__, sys.argv[1:], KIND))
