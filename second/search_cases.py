"""Test inputs for the search, this program's answers, and a check of witnesses.

    search_cases.py cases FILE                writes the inputs
    search_cases.py answers CASES OUT COUNTS  answers them and counts the reasons
    search_cases.py witness-ok CASES FOUND    checks the witnesses that were found

README.md beside this file has the layout of a case and of FOUND.
"""

import sys
from functools import lru_cache
from typing import Iterator, List, NamedTuple, Optional, Sequence, Tuple

import caller_reasons
import dead_rules
import sentence_reasons
from caller_grammars import (
    BY_HAND, answered_pairs, edge_pairs, faulty_pairs, fits, larger_pairs, parted_by_callers, refused_pairs,
    too_many_pairs,
)
from callers import MOST_CALLERS, states_at
from case_files import (
    TABLE_REASONS, Kind, Reader, Rng, cases_of, encode_number, encode_table_at, main,
    numbers, read_cases, refused,
)
from case_grammars import (
    CLASSICS, EIGHT_CHANNELS, MANY_STATES, MUCH_LOOKED_AT, ROWS, STATEMENTS, Table, dense,
    exact_random, faulty_tables, grammar_of, keywords, larger_random, most_keywords, most_potential,
    operators, rules_before_the_fault, small_random, some, spelled, states_of,
)
from certificates import check_witness, checked_triples
from dead_grammars import chains, dead_larger, dead_tables, telling_tables
from dead_rules import KINDS, kind_of
from derivations import used_rules
from live_misreadings import (
    MOST_STATES, TOLD_BY_SEARCH, former_triples, found_by_search, told_by_search,
)
from looked_misreadings import TOLD as TOLD_LOOKED
from looked_misreadings import told_by_figure
from random_tables import A, B, S, encode, large_grammar
from searches import ROW_TOO_SHORT, Lent, Potential, Unambiguous, needed, search
from sentence_grammars import (
    faulty_sentenceless, large_sentenceless, many_sentenceless, nearly_sentenceless, sentenceless,
)
from sentence_misreadings import AFTER_14
from sentence_misreadings import TOLD as TOLD_SENTENCES
from shortest import shortest_witness
from tables import (
    MAX_RULES, MAX_STATES, NO_SENTENCE, TOO_MANY_STATES, Codes, Grammar, Refusal, check_rules, check_table,
)
from triples import is_potential, reached, triples_of

NAMES = Lent._fields      # certificate, queue, parents, witness


class Case(NamedTuple):
    t: int
    n: int
    table: Codes
    lent: Lent
    fill: int
    m: int = 0


# Groups of cases.

def fill(rng: Rng) -> int:
    """A byte that lent memory holds before; 0 and 255 more often."""
    return rng.choice([0, 255, rng.randrange(256), rng.randrange(256)])


def more(rng: Rng, lent: Lent, most: int) -> Lent:
    """Each length longer by up to `most`, some by nothing."""
    return Lent(*(length + rng.choice([0, 1, rng.randrange(most)]) for length in lent))


def needed_at(table: Table, m: int) -> Lent:
    """What is enough at m for a table without faults 1 to 8."""
    return needed(states_at(grammar_of(table), m))


def exact_and_longer(rng: Rng, table: Table, m: int = 0) -> Iterator[Case]:
    """Lent exactly enough, and more."""
    need = needed_at(table, m)
    yield Case(*table, need, fill(rng), m)
    yield Case(*table, more(rng, need, 40), fill(rng), m)


def too_short(rng: Rng, table: Table, m: int = 0) -> Iterator[Case]:
    """One entry too short in each of the four in turn, the others enough."""
    need = needed_at(table, m)
    for place in range(len(need)):
        lent = list(more(rng, need, 40))
        lent[place] = need[place] - 1
        yield Case(*table, Lent(*lent), fill(rng), m)


def short_and_empty(rng: Rng, table: Table, m: int = 0) -> Iterator[Case]:
    """Nothing lent, one of the four empty, several too short, each four times Q."""
    need = needed_at(table, m)
    yield Case(*table, Lent(0, 0, 0, 0), fill(rng), m)
    yield Case(*table, need._replace(**{rng.choice(NAMES): 0}), fill(rng), m)
    yield Case(*table, Lent(*(rng.randrange(length + 1) for length in need)), fill(rng), m)
    yield Case(*table, Lent(need.certificate, *[need.certificate] * 3), fill(rng), m)


def rows_and_classics(rng: Rng) -> Iterator[Case]:
    """Document 01's grammars and classic ones, with every kind of lengths."""
    for table in ROWS + list(CLASSICS.values()) + [operators(2), operators(4)]:
        yield from exact_and_longer(rng, table)
        yield from too_short(rng, table)
        yield from short_and_empty(rng, table)


def random_grammars(rng: Rng) -> Iterator[Case]:
    """Small random grammars, lent exactly enough or more."""
    for _ in range(1300):
        table = small_random(rng)
        yield rng.choice(list(exact_and_longer(rng, table)))
    for table in some(rng, 450, lambda triples: len(reached(triples)) > 30, 40):
        yield rng.choice(list(exact_and_longer(rng, table)))


def random_short(rng: Rng) -> Iterator[Case]:
    """Small random grammars, lent too little."""
    for table in some(rng, 120, lambda triples: True, 40):
        yield from too_short(rng, table)
        yield rng.choice(list(short_and_empty(rng, table)))


def much_longer(rng: Rng) -> Iterator[Case]:
    """Rows far longer than any grammar needs."""
    for table in ROWS:
        yield Case(*table, Lent(*(100000 + rng.randrange(50000) for _ in NAMES)), fill(rng))
        lent = more(rng, needed(states_of(table)), 40)
        yield Case(*table, lent._replace(**{rng.choice(NAMES): 140000}), fill(rng))


def larger(rng: Rng) -> Iterator[Case]:
    """Q from 60 to 120."""
    tables = [operators(levels) for levels in (9, 13, 17)] + [STATEMENTS]
    tables += [keywords(rng, 16, states) for states in (61, 75, 98, 111, 119, 120)]
    tables += [larger_random(rng, states) for states in range(61, 121, 3)]
    for table in tables:
        yield from exact_and_longer(rng, table)
        yield rng.choice(list(too_short(rng, table)))


def largest(rng: Rng) -> Iterator[Case]:
    """Q = 256, and Q = 1,024, the most that passes."""
    tables = [keywords(rng, count, MANY_STATES) for count in (22, 30, 50)]
    tables += [exact_random(rng, MANY_STATES), most_keywords(rng), most_potential(rng), few_commands(rng)]
    for table in tables:
        yield from exact_and_longer(rng, table)
        yield from too_short(rng, table)


def few_commands(rng: Rng) -> Table:
    """The most states and rules, of which only few are reached: potential, or not."""
    while True:
        t, n, rules = large_grammar(rng, MAX_RULES, MAX_STATES)
        table = t, n, encode(rules)
        if sum(used_rules(grammar_of(table))) > 3:
            return table


def faulty(rng: Rng) -> Iterator[Case]:
    """Faulty tables, lent enough for the rules before the fault, or nothing."""
    for table in faulty_tables(rng, 35):
        need = needed(states_of(rules_before_the_fault(table)))
        lent = rng.choice([need, more(rng, need, 40), Lent(0, 0, 0, 0)])
        yield Case(*table, lent, fill(rng))


def many_ways(rng: Rng) -> Iterator[Case]:
    """Triples whose successors are those of others too, on one side but not on the other.

    Each has dead rules, and once more with rules by which all are live.
    """
    for (t, n, rules), more in [
        ((2, 2, [(S, (A, 2, S, A)), (A, (A, S)), (A, (S, S, S))]), [(S, ())]),
        ((3, 3, [(A, (3, B)), (S, (A, A, S, S)), (S, ()), (A, (B, A, A, 1))]), [(B, ())]),
        ((2, 2, [(S, (2, A)), (S, (S, A, A)), (S, (S, S)), (A, (A, S, S, A))]), [(A, ())]),
        ((2, 3, [(S, (1, 1, B, S)), (S, ()), (A, (1, 2, A, S)), (A, (1, S, B, S))]),
         [(B, ()), (S, (A,))]),
    ]:
        for row in (rules, rules + more, more + rules):
            yield from exact_and_longer(rng, (t, n, encode(row)))


def dead(rng: Rng) -> Iterator[Case]:
    """Small grammars with dead rules, and chains, lent exactly enough or more."""
    for table in list(dead_tables(rng, 70)) + list(chains(rng, (2, 9))):
        yield rng.choice(list(exact_and_longer(rng, table)))


def telling(rng: Rng) -> Iterator[Case]:
    """Small grammars of which each misreading of [3] has another verdict, set or witness."""
    for table in telling_tables(rng, 25):
        yield rng.choice(list(exact_and_longer(rng, table)))


def dead_short(rng: Rng) -> Iterator[Case]:
    """The same, lent too little."""
    for table in dead_tables(rng, 8):
        yield from too_short(rng, table)
        yield rng.choice(list(short_and_empty(rng, table)))


def dead_and_larger(rng: Rng) -> Iterator[Case]:
    """Dead rules in grammars of Q from 60 to 256."""
    tables = [dead_larger(rng, kind, states)
              for kind in KINDS for states in (88, 97, 106, 115, 124, MANY_STATES)]
    for table in tables + list(chains(rng, (97,))):
        yield rng.choice(list(exact_and_longer(rng, table)))


def without_a_sentence(rng: Rng) -> Iterator[Case]:
    """No sentence, lent exactly enough, more, one entry too little, or nothing."""
    for table in [*sentenceless(rng, 14), *many_sentenceless(rng, 5), *large_sentenceless(rng, 3)]:
        yield rng.choice(list(exact_and_longer(rng, table)))
        yield rng.choice(list(too_short(rng, table)))
        yield rng.choice(list(short_and_empty(rng, table)))


def nearly_without(rng: Rng) -> Iterator[Case]:
    """Grammars that nearly lack a sentence, lent enough or too little."""
    for table in nearly_sentenceless(rng, 24):
        yield rng.choice(list(exact_and_longer(rng, table)))
        if rng.randrange(4) == 0:
            yield rng.choice(list(too_short(rng, table)))


def faulty_without(rng: Rng) -> Iterator[Case]:
    """Each of causes 1 to 8 where there is no sentence either."""
    for table in faulty_sentenceless(rng, 22):
        need = needed(states_of(rules_before_the_fault(table)))
        yield Case(*table, rng.choice([need, Lent(0, 0, 0, 0)]), fill(rng))


def much_looked_at(rng: Rng) -> Iterator[Case]:
    """Grammars with known figures of [6], and small ones that are much looked at."""
    tables = [EIGHT_CHANNELS, spelled("S: | S S"), MUCH_LOOKED_AT]
    for table in tables + [dense(rng) for _ in range(60)]:
        yield from exact_and_longer(rng, table)


# With callers.

def with_callers(rng: Rng) -> Iterator[Case]:
    """Small grammars at m=1 and m=2, lent enough, too little, or what is enough at another m."""
    for table, m in answered_pairs(rng, 16):
        yield rng.choice(list(exact_and_longer(rng, table, m)))
        if rng.randrange(3) == 0:
            yield rng.choice(list(too_short(rng, table, m)))
            yield rng.choice(list(short_and_empty(rng, table, m)))
        other = rng.choice([other for other in range(MOST_CALLERS + 1) if other != m])
        yield Case(*table, needed_at(table, other), fill(rng), m)


def by_hand_with_callers(rng: Rng) -> Iterator[Case]:
    """Grammars by hand and those that callers part, at each m, 0 among them, lent in every way."""
    tables = list(BY_HAND.values()) + [parted_by_callers(rng, 1 + place % 3) for place in range(60)]
    for table in dict.fromkeys(tables):
        for m in range(MOST_CALLERS + 1):
            if fits(table, m, MANY_STATES):
                yield from exact_and_longer(rng, table, m)
                yield rng.choice(list(too_short(rng, table, m)))
                yield rng.choice(list(short_and_empty(rng, table, m)))


def larger_with_callers(rng: Rng) -> Iterator[Case]:
    """From 61 to 120 states at m, and 1,023 and 1,024."""
    for table, m in larger_pairs(rng, 56):
        yield rng.choice(list(exact_and_longer(rng, table, m)))
        if rng.randrange(5) == 0:
            yield rng.choice(list(too_short(rng, table, m)))
    for states in (MAX_STATES - 1, MAX_STATES, MAX_STATES):
        for table, m in edge_pairs(rng, states, 1):
            yield rng.choice(list(exact_and_longer(rng, table, m)))
            yield rng.choice(list(too_short(rng, table, m)))


def refused_callers(rng: Rng) -> Iterator[Case]:
    """An m above 2, chains too many, tables at fault with an m: lent enough at m=0, nothing, or some."""
    many = too_many_pairs(rng, 7)
    pairs = many + refused_pairs(rng, [table for table, _ in many] + list(BY_HAND.values()))
    for table, m in pairs + faulty_pairs(rng, 8):
        grammar = check_rules(*table)
        need = needed(4 if isinstance(grammar, Refusal) else min(MANY_STATES, grammar.states))
        yield Case(*table, rng.choice([need, Lent(0, 0, 0, 0)]), fill(rng), m)


GROUPS = [
    rows_and_classics, random_grammars, random_short, much_longer, larger, largest, faulty,
    many_ways, dead, telling, dead_short, dead_and_larger, without_a_sentence, nearly_without,
    faulty_without, much_looked_at,
    with_callers, by_hand_with_callers, larger_with_callers, refused_callers,
]


# Answers.

def answer(case: Case) -> str:
    """The line of one case, without its byte 10."""
    result = search(*case[:4], case.m)
    if isinstance(result, Refusal):
        return refused(result)
    if isinstance(result, Potential):
        return "potential looked=%d witness=%s" % (result.looked, numbers(result.witness))
    return "unambiguous size=%d looked=%d certificate=%s" % (
        result.size, result.looked, result.certificate.hex())


# Reasons.

OF_SEARCHES = ["14-%s-one-too-short" % name for name in NAMES] + [
    "14-one-empty",
    "14-several",
    "14-nothing-lent",
    "14-of-a-potential-grammar",
    "14-of-an-unambiguous-grammar",
] + ["%s-%s" % (verdict, how)
     for verdict in ("unambiguous", "potential")
     for how in ("exactly-enough", "longer", "every-rule-used", "a-rule-no-sentence-uses",
                 "odd-states", "even-states", "over-60-states")
] + [
    "unambiguous-with-layer-1",
]
REASONS = TABLE_REASONS + ["1-to-8-with-nothing-lent"] + OF_SEARCHES + [
    "256-states",
    "1024-states",
    "unambiguous-1024-states",
    "potential-1024-states",
] + dead_rules.REASONS + [
    "unambiguous-dead-" + kind for kind in KINDS
] + [
    "potential-dead-" + kind for kind in KINDS
] + [
    "14-with-dead-rules",
    "unambiguous-formerly-potential",
    "unambiguous-formerly-of-another-size",
    "unambiguous-formerly-of-the-same-set",
    "potential-formerly-with-another-witness",
    "potential-formerly-with-the-same-witness",
    "over-60-states-with-dead-rules",
] + TOLD_BY_SEARCH + list(TOLD_LOOKED.values()) + [
    "19-lent-enough",
    "19-with-nothing-lent",
    "order-19-before-14",
    TOLD_SENTENCES[AFTER_14],
] + sentence_reasons.REASONS + caller_reasons.REASONS + caller_reasons.prefixed(OF_SEARCHES) + [
    "order-21-before-14",
    "21-lent-enough-at-0",
    "order-too-many-chains-before-14",
    "14-though-enough-at-another-m",
    "enough-though-not-at-another-m",
    "unambiguous-at-1-though-potential-at-0",
    "unambiguous-at-2-though-potential-at-1",
    "potential-at-1-with-another-witness",
    "potential-at-2-with-another-witness",
    "potential-at-each-m",
    "unambiguous-at-each-m",
]


# Cases of the most states are few.
ENOUGH_LARGEST = {"1024-states": 12, "unambiguous-1024-states": 2, "potential-1024-states": 2}


def reasons_of(case: Case) -> List[str]:
    """Every reason of REASONS that this case meets."""
    names = caller_reasons.of_case(*case[:3], case.m)
    return names + (remembered_reasons(case) if case.m else forgotten_reasons(case))


def remembered_reasons(case: Case) -> List[str]:
    """What a search at an m above 0 is lent and finds, or would be lent at m=0 where m or the chains are refused."""
    grammar = check_table(*case[:3])
    if isinstance(grammar, Refusal):
        return []
    enough = [all(given >= need for given, need in zip(case.lent, needed_at(case[:3], m)))
              for m in range(MOST_CALLERS + 1)]
    result = search(*case[:4], case.m)
    if isinstance(result, Refusal) and result.cause != ROW_TOO_SHORT:
        if result.cause == TOO_MANY_STATES:
            return ["order-too-many-chains-before-14"]
        return ["21-lent-enough-at-0" if enough[0] else "order-21-before-14"]
    if isinstance(result, Refusal):
        met = short_reasons(case, grammar)
    else:
        met = found_reasons(case, grammar, result)
    found = caller_reasons.at(case.m, [name for name, holds in met if holds])
    found += ["14-though-enough-at-another-m"] * (not enough[case.m] and any(enough))
    found += ["enough-though-not-at-another-m"] * (enough[case.m] and not all(enough))
    return found + ([] if isinstance(result, Refusal) else list(verdict_reasons(grammar, case.m)))


@lru_cache(maxsize=1024)
def verdict_reasons(grammar: Grammar, m: int) -> Tuple[str, ...]:
    """How the verdict at an m above 0 stands to that at m-1; only for small grammars."""
    if states_at(grammar, m) > MANY_STATES:
        return ()
    below, here, start = (triples_of(grammar, other) for other in (m - 1, m, 0))
    before, now = is_potential(below), is_potential(here)
    assert before or not now, "Whoever has an unambiguous verdict at m keeps it at m+1"
    met = [
        ("unambiguous-at-%d-though-potential-at-%d" % (m, m - 1), before and not now),
        ("potential-at-%d-with-another-witness" % m, now and shortest_witness(here) != shortest_witness(below)),
        ("potential-at-each-m", now and m == MOST_CALLERS),
        ("unambiguous-at-each-m", not is_potential(start)),
    ]
    return tuple(name for name, holds in met if holds)


def forgotten_reasons(case: Case) -> List[str]:
    """Every reason that a case at m=0 meets."""
    sentences = list(sentence_reasons.of_table(*case[:3]))
    grammar = check_table(*case[:3])
    if isinstance(grammar, Refusal):
        sentences.append(str(grammar.cause))
        if grammar.cause == NO_SENTENCE:
            return sentences + none_reasons(case)
        return sentences + ["1-to-8-with-nothing-lent"] * (not any(case.lent))
    result = search(*case[:4])
    if isinstance(result, Refusal):
        met = short_reasons(case, grammar)
    else:
        met = found_reasons(case, grammar, result)
    met.append(("256-states", grammar.states == MANY_STATES))
    met.append(("1024-states", grammar.states == MAX_STATES))
    if not isinstance(result, Refusal):
        verdict = "potential" if isinstance(result, Potential) else "unambiguous"
        met.append((verdict + "-1024-states", grammar.states == MAX_STATES))
    if kind_of(grammar) is not None:
        met += dead_reasons(grammar, result)
    found = sentences + [name for name, holds in met if holds]
    if isinstance(result, Refusal):
        return found
    return found + list(told_by_search(grammar)) + list(told_by_figure(grammar))


def none_reasons(case: Case) -> List[str]:
    """What was lent for a grammar without a sentence."""
    if all(given >= need for given, need in zip(case.lent, needed(states_of(case[:3])))):
        return ["19-lent-enough"]
    nothing = ["19-with-nothing-lent"] * (not any(case.lent))
    return nothing + ["order-19-before-14", TOLD_SENTENCES[AFTER_14]]


def short_reasons(case: Case, grammar: Grammar) -> List[Tuple[str, bool]]:
    """What was lent too short."""
    need = needed_at(case[:3], case.m)
    short = [name for name, given, length in zip(NAMES, case.lent, need) if given < length]
    by_one = [name for name in short if getattr(case.lent, name) == getattr(need, name) - 1]
    triples = checked_triples(*case[:3], case.m)
    assert not isinstance(triples, Refusal)
    potential = is_potential(triples)
    met = [("14-%s-one-too-short" % name, len(short) == 1) for name in by_one]
    return met + [
        ("14-one-empty", len(short) == 1 and getattr(case.lent, short[0]) == 0),
        ("14-several", len(short) > 1),
        ("14-nothing-lent", not any(case.lent)),
        ("14-of-a-potential-grammar", potential),
        ("14-of-an-unambiguous-grammar", not potential),
    ]


def found_reasons(case: Case, grammar: Grammar, result) -> List[Tuple[str, bool]]:
    """The verdict and what kind of grammar and rows it is about."""
    states = states_at(grammar, case.m)
    used, exact = used_rules(grammar), case.lent == needed(states)
    unambiguous = isinstance(result, Unambiguous)
    verdict = "unambiguous-" if unambiguous else "potential-"
    met = [
        ("exactly-enough", exact),
        ("longer", not exact),
        ("every-rule-used", all(used)),
        ("a-rule-no-sentence-uses", not all(used)),
        ("odd-states", states % 2 == 1),
        ("even-states", states % 2 == 0),
        ("over-60-states", states > 60),
    ]
    return [(verdict + name, holds) for name, holds in met] + [
        ("unambiguous-with-layer-1", unambiguous and has_layer_1(states, result)),
    ]


def dead_reasons(grammar: Grammar, result) -> List[Tuple[str, bool]]:
    """What dead rules are there, and what the verdict is."""
    kind = kind_of(grammar)
    if isinstance(result, Refusal):
        return [("dead-%s" % kind, True), ("14-with-dead-rules", True)]
    unambiguous = isinstance(result, Unambiguous)
    met = [
        ("dead-%s" % kind, True),
        ("%s-dead-%s" % ("unambiguous" if unambiguous else "potential", kind), True),
        ("over-60-states-with-dead-rules", grammar.states > 60),
    ]
    return met + former_reasons(grammar, unambiguous)


def former_reasons(grammar: Grammar, unambiguous: bool) -> List[Tuple[str, bool]]:
    """What the search said of a small grammar before document 02's [3]."""
    if grammar.states > MOST_STATES:
        return []
    former = former_triples(grammar)
    was_potential = is_potential(former)
    same = found_by_search(former) == found_by_search(triples_of(grammar))
    return [
        ("unambiguous-formerly-potential", unambiguous and was_potential),
        ("unambiguous-formerly-of-another-size", unambiguous and not was_potential and not same),
        ("unambiguous-formerly-of-the-same-set", unambiguous and same),
        ("potential-formerly-with-another-witness", not unambiguous and not same),
        ("potential-formerly-with-the-same-witness", not unambiguous and same),
    ]


def has_layer_1(states: int, result: Unambiguous) -> bool:
    """Whether the certificate holds a triple of layer 1."""
    return int.from_bytes(result.certificate, "little") >> states * states != 0


# Witnesses that another program found, the shortest or not.

def witness_faults(
    cases: Sequence[Case], found: bytes
) -> Iterator[Tuple[int, Optional[Refusal]]]:
    """For each potential case its number from 0 and the fault of its witness.

    ValueError if `found` is cut, has bytes left over, or gives more entries
    than were lent.
    """
    reader = Reader(found)
    for number, case in enumerate(cases):
        if isinstance(search(*case[:4], case.m), Potential):
            entries = reader.numbers(reader.number())
            if len(entries) > case.lent.witness:
                raise ValueError("case %d: more entries than were lent" % number)
            yield number, check_witness(*case[:3], entries, case.m)
    if not reader.at_end():
        raise ValueError("bytes are left over after the last witness")


def witness_ok(cases_path: str, found_path: str) -> int:
    """The verb `witness-ok`: 0 if every witness is accepted, else 1."""
    with open(found_path, "rb") as file:
        found = file.read()
    accepted = wrong = 0
    try:
        for number, fault in witness_faults(read_cases(KIND, cases_path), found):
            if fault is None:
                accepted += 1
            else:
                wrong += 1
                print("case %d: %s" % (number, refused(fault)), file=sys.stderr)
    except ValueError as error:
        print(error, file=sys.stderr)
        return 1
    print("accepted %d wrong %d" % (accepted, wrong))
    return 1 if wrong else 0


# Files.

def encode_case(case: Case) -> bytes:
    """One case of the file of inputs."""
    lengths = b"".join(map(encode_number, case.lent))
    return encode_table_at(*case[:3], case.m) + lengths + bytes([case.fill])


def decode_case(reader: Reader) -> Case:
    """The next case of a file of inputs."""
    t, n, table, m = reader.table_at()
    return Case(t, n, table, Lent(*reader.numbers(len(NAMES))), reader.take(1)[0], m)


KIND = Kind(lambda: cases_of(GROUPS), encode_case, decode_case, answer, REASONS, reasons_of,
            enough={**dead_rules.ENOUGH, **sentence_reasons.ENOUGH, **ENOUGH_LARGEST, **caller_reasons.ENOUGH})


def run(words: Sequence[str]) -> int:
    """The verbs, `witness-ok` beside those of every file of cases."""
    if len(words) == 3 and words[0] == "witness-ok":
        return witness_ok(words[1], words[2])
    return main(__doc__, words, KIND)


if __name__ == "__main__":
    sys.exit(run(sys.argv[1:]))
