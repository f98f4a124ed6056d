"""Grammars and values of m for the cases of document 02's [11].

A pair is a table and an m. `answered_pairs` has those that no refusal stops, small
enough to be looked at triple by triple; `edge_pairs` Q at m of 1,024 and just past it;
`blown_up` chains far too many; `refused_pairs` every m above 2.
"""

from typing import Dict, Iterator, List, Optional, Tuple

from callers import MOST_CALLERS, states_at
from case_files import LAST, Rng
from case_grammars import (
    CLASSICS, EIGHT_CHANNELS, GOOD_ROWS, Table, faulty_tables, good, live_small, operators,
    small_random, spelled, states_of,
)
from dead_grammars import dead_tables, put_in, rules_of, table_of
from random_tables import Rule, encode, large_grammar, random_rule, some_rules
from sentence_grammars import large_sentenceless, sentenceless
from tables import FIXED_STATES, MAX_LENGTH, MAX_STATES, START, Refusal, check_rules
from triples import is_potential, triples_of

Pair = Tuple[Table, int]

SMALL = 60                # states at m of a grammar that many cases are made of
REMEMBERED = range(1, MOST_CALLERS + 1)

# Every m here is refused; some have low bytes, or halves, that are 0, 1 or 2.
TOO_LARGE = [3, 4, 5, 7, 255, 256, 257, 258, 65535, 65536, 65537, 65538, 2 ** 31, 2 ** 31 + 2,
             2 ** 32 - 1, 2 ** 32, 2 ** 32 + 1, 2 ** 32 + 2, 2 ** 63, 2 ** 63 + 1, LAST - 1, LAST]

# By hand.
BIOLOGY = spelled("S: b A c | b e d | A d", "A: e")              # [11]: Q 17, 19, 19
ONE_CALLER_MORE = spelled("S: b A c | b e d | A d", "A: B", "B: e")
TWO_CALLERS_MORE = spelled("S: b A c | b e d | A d", "A: B", "B: C", "C: e")
BY_HAND: Dict[str, Table] = {
    "biology": BIOLOGY,
    "unambiguous-at-2-alone": ONE_CALLER_MORE,
    "potential-at-each-m": TWO_CALLERS_MORE,
    "eight-channels": EIGHT_CHANNELS,
    "rule-0-alone-calls": spelled("S: a | b c |"),
    "rule-0-and-others-call": spelled("S: a S b | S c |"),
    "a-caller-twice-in-a-rule": spelled("S: A A x A", "A: a |"),
    "callers-in-two-rules": spelled("S: A B", "A: x C", "B: C y", "C: z | C z"),
    "recursion-through-two": spelled("S: a A | b", "A: S c | d"),
    "recursion-in-the-middle": spelled("S: A", "A: x A y | x A z | w"),
    "empty-rules": spelled("S: A B A", "A: | B", "B: | b"),
    "unit-cycle": spelled("S: A | x", "A: S"),
    "dead-rule-that-calls": spelled("S: a A | b", "A: c", "U: A d", "V: A V"),
    "dead-rule-of-S-that-calls": spelled("S: a A | W A", "A: c", "W: W"),
    "dead-rules-between-live-ones": spelled("S: a | W", "W: W b", "S: b A", "U: A a", "A: a A |"),
    "fewer-states-than-at-0": spelled("S: a", "U: a b c d", "V: U U"),
    "farther-callers-matter": spelled("S: a A b | c A d", "A: B", "B: x | x B"),
    "farther-callers-are-ordered": spelled("S: A x | B y", "A: C | c C", "B: C", "C: D", "D: d"),
    "farther-callers-cross": spelled("S: A | B", "A: C x | a C", "B: y C | C C", "C: D | D D", "D: d"),
}


# Small ones.

def fits(table: Table, m: int, most: int = SMALL) -> bool:
    return states_at(good(table), m) <= most


def verdicts(table: Table) -> Tuple[bool, ...]:
    """By m whether the verdict is potential."""
    return tuple(is_potential(triples_of(good(table), m)) for m in range(MOST_CALLERS + 1))


def parted_by_callers(rng: Rng, levels: int) -> Table:
    """The biology group's grammar with other words, `levels` nonterminals down to e.

    With one level m=1 is enough, with two m=2 is.
    """
    def word(name: str) -> str:
        return " ".join(name + str(i) for i in range(1 + rng.randrange(2)))

    b, c, d, e = map(word, "bcde")
    lines = ["S: %s A0 %s | %s %s %s | A0 %s" % (b, c, b, e, d, d)]
    lines += ["A%d: A%d" % (i, i + 1) for i in range(levels - 1)] + ["A%d: %s" % (levels - 1, e)]
    if rng.randrange(2):
        lines.append("S: f S" if rng.randrange(2) else "S: g")
    rng.shuffle(lines)
    # S stays the first name.
    return spelled("S: h", *lines)


def as_many_dead(rng: Rng, m: int) -> Optional[Table]:
    """Dead rules that make Q at m=0 what it is at m; the numbers of items differ."""
    base = rules_of(live_small(rng))
    missing = states_at(good(table_of(base)), m) - states_of(table_of(base))
    if not 0 < missing <= MAX_LENGTH:
        return None
    return table_of(put_in(rng, base, 1, [(START + base.n, (1,) * (missing - 1))])) if base.t else None


def alike_in_states(rng: Rng, count: int) -> List[Table]:
    """So many grammars of at most SMALL states with the same Q at m=0 and at m=1 or 2, by dead rules."""
    found: List[Table] = []
    while len(found) < count:
        table = as_many_dead(rng, 1 + rng.randrange(MOST_CALLERS))
        if table is not None and table not in found and fits(table, 2):
            found.append(table)
    return found


def alike_and_potential(rng: Rng, count: int) -> List[Table]:
    """So many potential grammars with one automaton at each m: all rules live, each nonterminal in one place."""
    found: List[Table] = []
    while len(found) < count:
        table = small_random(rng)
        if table not in found and states_at(good(table), 2) == states_of(table) and is_potential(triples_of(good(table))):
            if triples_of(good(table)).automaton == triples_of(good(table), 2).automaton:
                found.append(table)
    return found


def small_tables(rng: Rng, each: int) -> Iterator[Table]:
    """By hand, document 01's rows, classic and random ones, with dead rules, parted by callers."""
    yield from BY_HAND.values()
    yield from GOOD_ROWS
    yield from CLASSICS.values()
    yield operators(2)
    for levels in (1, 2, 3):
        for _ in range(each):
            yield parted_by_callers(rng, levels)
    yield from alike_in_states(rng, each)
    yield from dead_tables(rng, each)
    for _ in range(6 * each):
        yield small_random(rng)


def answered_pairs(rng: Rng, each: int, most: int = SMALL) -> List[Pair]:
    """Small grammars at m=1 and at m=2, where they have at most `most` states."""
    return [(table, m) for table in dict.fromkeys(small_tables(rng, each))
            for m in REMEMBERED if fits(table, m, most)]


def larger_pairs(rng: Rng, each: int, most: int = 2 * SMALL) -> List[Pair]:
    """Up to `each` grammars at m=1 and as many at m=2, of more than SMALL and at most `most` states there."""
    tables = [*BY_HAND.values(), *CLASSICS.values(), operators(3)]
    tables += [small_random(rng) for _ in range(12 * each)]
    found: List[Pair] = []
    for m in REMEMBERED:
        for row in (tables, [polish(rng, 3 + rng.randrange(6)) for _ in range(5 * each)]):
            fitting = [table for table in dict.fromkeys(row) if fits(table, m, most) and not fits(table, m)]
            found += [(table, m) for table in rng.sample(fitting, min(each // 2, len(fitting)))]
    return found


def polish(rng: Rng, places: int) -> Table:
    """Operators in front of their operands, S on so many places in all: unambiguous at each m."""
    lines, left = [], places
    while left > 0:
        operands = min(left, 1 + rng.randrange(MAX_LENGTH - 1))
        lines.append("S: o%d" % left + " S" * operands)
        left -= operands
    rng.shuffle(lines)
    return spelled(*lines, "S: x" if rng.randrange(2) else "S: x y")


# At the limit of states.

def filled(rng: Rng, base: List[Rule], t: int, n: int, m: int, states: int) -> Table:
    """Rules of S with a terminal of their own are added until Q at m is `states`.

    S is on no right side, so that rule 0 alone calls it: each state of such a rule is one at m.
    """
    assert all(START not in right for _, right in base)
    missing = states - states_at(good((t, n, encode(base))), m)
    rules = list(base)
    while missing > 0:
        size = min(missing, 1 + MAX_LENGTH)
        size = size // 2 if missing - size == 1 else size
        assert size > 1 or missing == 1
        t += size > 1
        right = () if size == 1 else (t,) + tuple(1 + rng.randrange(t) for _ in range(size - 2))
        rules.append((START, right))
        missing -= size
    table = t, n, encode(rules)
    assert states_at(good(table), m) == states
    return table


def called_often(rng: Rng, places: int, rules: int, deep: bool) -> Tuple[List[Rule], int, int]:
    """S with so many places of A, A with so many rules, each with its own terminal; through B if deep."""
    S, A, B = START, START + 1, START + 2
    called = B if deep else A
    found: List[Rule] = [(S, (1 + i, *(A,) * min(6, places - i))) for i in range(0, places, 6)]
    t = 1 + places
    for i in range(rules):
        right = (t + 1 + i, *(rng.choice([1, 2, t]) for _ in range(rng.randrange(3))))
        found.append((called, right))
    if deep:
        found += [(A, (B, 1)), (A, (2, B))]
    return found, t + rules, 3 if deep else 2


def edge_tables(rng: Rng, states: int, m: int, count: int) -> Iterator[Table]:
    """Q at m of exactly `states`, far fewer at m=0; through two nonterminals where m is 2."""
    while count > 0:
        places = 5 + rng.randrange(6)
        rules = (states - 200) // (3 * places * m)
        base, t, n = called_often(rng, places, rules, m == 2)
        if states_at(good((t, n, encode(base))), m) < states:
            count -= 1
            yield filled(rng, base, t, n, m, states)


def edge_pairs(rng: Rng, states: int, each: int) -> Iterator[Pair]:
    """Q at m of exactly `states`, for m of 1 and 2."""
    for m in REMEMBERED:
        for table in edge_tables(rng, states, m, each):
            yield table, m


# Too many chains.

def blown_up(rng: Rng, count: int) -> Iterator[Pair]:
    """Chains far too many at m=1 or m=2: right sides full of nonterminals that call each other.

    Some have a rule that no sentence uses.
    """
    found = 0
    while found < count:
        n, k = 1 + rng.randrange(4), rng.choice([2, 3, 6, 11, 12])
        rules = 2 + rng.randrange(rng.choice([6, 20, 70]))
        rules = min(rules, (MAX_STATES - FIXED_STATES - n - 1) // (k + 1))
        rows: List[Rule] = [(START + i, ()) for i in range(n)]
        for i in range(rules):
            right = [START + rng.randrange(n) for _ in range(k)]
            right[rng.randrange(k)] = 1 + i
            rows.append((START + rng.randrange(n), tuple(right)))
        if rng.randrange(3) == 0:
            n += 1
            rows.append((START + n - 1, (START,)))
        rng.shuffle(rows)
        table = rules, n, encode(rows)
        m = 1 + rng.randrange(MOST_CALLERS)
        if states_at(good(table), m) > MAX_STATES:
            found += 1
            yield table, m


def wrapped_round(rng: Rng, count: int) -> Iterator[Pair]:
    """Q at m past 1,024 whose low 16 bits are at most 1,024."""
    found = 0
    while found < count:
        m = 1 + found % MOST_CALLERS
        places, rules = (150 + rng.randrange(60), 120 + rng.randrange(60)) if m == 1 else (
            90 + rng.randrange(90), 60 + rng.randrange(70))
        base, t, n = called_often(rng, places, rules, m == 2)
        table = t, n, encode(base)
        states = states_at(good(table), m)
        room = 65536 - states % 65536 + rng.randrange(60)
        if states_of(table) + room <= MAX_STATES:
            found += 1
            yield filled(rng, base, t, n, m, states + room), m


def most_chains() -> Table:
    """As many chains as can be: S→ and S→t S S .. S with 11 S, 78 times, but for one terminal."""
    rules: List[Rule] = [(START, ())]
    rules += [(START, (1 + i, *(START,) * (MAX_LENGTH - 1))) for i in range(78)]
    return 78, 1, encode(rules)


def too_many_pairs(rng: Rng, each: int) -> List[Pair]:
    """Chains too many: by one, by few, by far, so that 16 bits do not hold them."""
    found = [pair for states in (MAX_STATES + 1, MAX_STATES + 1, MAX_STATES + 2, 2 * MAX_STATES)
             for pair in edge_pairs(rng, states, each)]
    found += [*blown_up(rng, 4 * each), *wrapped_round(rng, each)]
    found += [(polish(rng, places), m) for _ in range(2 * each)
              for m, places in ((1, 29 + rng.randrange(6)), (2, 13 + rng.randrange(4)))]
    return found + [(most_chains(), m) for m in REMEMBERED]


# Other m.

def refused_pairs(rng: Rng, tables: List[Table]) -> List[Pair]:
    """Each m above 2 with one of these tables after the other, and each table with 3."""
    found = [(tables[place % len(tables)], m) for place, m in enumerate(TOO_LARGE * 5)]
    return found + [(table, 3) for table in tables]


def any_m(rng: Rng) -> int:
    """1, 2, or an m that is refused."""
    return rng.choice([1, 2, 3, rng.choice(TOO_LARGE)])


def past_the_states(rng: Rng, count: int) -> Iterator[Table]:
    """So many tables with the table's own 8, by their last rule."""
    bases = [large_grammar(rng, some_rules(rng), MAX_STATES - rng.randrange(7)) for _ in range(4)]
    while count > 0:
        t, n, rules = rng.choice(bases)
        table = t, n, encode(rules + [random_rule(rng, t, n, 6 + rng.randrange(7))])
        if isinstance(check_rules(*table), Refusal):
            count -= 1
            yield table


def faulty_pairs(rng: Rng, each: int) -> List[Pair]:
    """Tables with each of causes 1 to 8, and without a sentence, with m from 1; 50 and more of 8 and 19."""
    found = [(table, m) for table in faulty_tables(rng, each) for m in (1, 2, any_m(rng))]
    found += [(table, 1 + place % 3) for place, table in enumerate(past_the_states(rng, 150))]
    none = list(dict.fromkeys([*sentenceless(rng, each), *large_sentenceless(rng, 3)]))
    return found + [(table, m) for table in none for m in (1, 2, 3)]
