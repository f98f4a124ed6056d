"""Test inputs for the step records, and this program's answers to them.

    step_cases.py cases FILE                writes the inputs
    step_cases.py answers CASES OUT COUNTS  answers them and counts the reasons

README.md beside this file has the layout of a case.
"""

import sys
from typing import Iterator, List, NamedTuple, Sequence, Tuple

import caller_reasons
import dead_rules
import sentence_reasons
from caller_grammars import (
    BY_HAND, answered_pairs, edge_pairs, faulty_pairs, fits, refused_pairs, too_many_pairs,
)
from caller_reasons import REMEMBERED
from case_files import (
    LARGEST, TABLE_REASONS, Kind, Reader, Rng, cases_of, encode_number, encode_table_at,
    main, refused,
)
from case_grammars import (
    CLASSICS, MANY_STATES, ONE_A, ROWS, STATEMENTS, Table, faulty_tables, good, grammar_of,
    keywords, larger_random, most_keywords, operators, some, spelled, triples_in,
)
from callers import MOST_CALLERS, states_at
from certificates import checked_triples
from dead_grammars import chains, dead_larger, dead_tables
from dead_rules import KINDS, dead_states
from live_misreadings import MISREAD, TOLD, WRONG_STEPS, former_triples, told, wrong_steps
from random_tables import encode
from sentence_grammars import (
    faulty_sentenceless, large_sentenceless, many_sentenceless, nearly_sentenceless, sentenceless,
)
from tables import MAX_STATES, MAX_TERMINALS, NO_SENTENCE, START, Codes, Grammar, Refusal
from triples import (
    CLOSING, OPENING, STILL, SYMBOL, Move, Step, Triple, Triples, in_range,
    index_of, reached, steps, triple_at, triples_of,
)

LETTERS = {OPENING: "o", CLOSING: "c", SYMBOL: "s"}
MANY = 100                # records of a triple that count as many


class Case(NamedTuple):
    t: int
    n: int
    table: Codes
    triple: Triple
    m: int = 0


# Groups of cases.

def all_of(table: Table) -> Iterator[Case]:
    """Every triple of a grammar."""
    triples = triples_in(table)
    for index in range(triples.count):
        yield Case(*table, triple_at(triples.states, index))


def rows(rng: Rng) -> Iterator[Case]:
    """Every triple of document 01's grammars."""
    for table in ROWS:
        yield from all_of(table)


def small(rng: Rng) -> Iterator[Case]:
    """Every triple of small random grammars."""
    for table in some(rng, 28, lambda triples: triples.states > 6, 11):
        yield from all_of(table)


def larger_grammars(rng: Rng) -> List[Table]:
    """Classic grammars, and larger ones up to Q = 256, some of Q = 1,024."""
    tables = list(CLASSICS.values()) + [operators(3), operators(12), STATEMENTS]
    tables += some(rng, 20, lambda triples: triples.states > 18, 34)
    tables += [larger_random(rng, states) for states in (60, 90, 120, MANY_STATES)]
    tables += [keywords(rng, 24, 100), keywords(rng, 40, MANY_STATES)]
    return tables + [most_keywords(rng) for _ in range(2)]


def larger(rng: Rng) -> Iterator[Case]:
    """Random triples of larger grammars: reached ones, and any."""
    for table in larger_grammars(rng):
        triples = triples_in(table)
        held = sorted(reached(triples))
        for _ in range(14):
            yield Case(*table, triple_at(triples.states, rng.choice(held)))
            yield Case(*table, triple_at(triples.states, rng.randrange(triples.count)))
        for _ in range(14):
            yield Case(*table, busy_triple(rng, triples))


def busy_triple(rng: Rng, triples: Triples) -> Triple:
    """The triple with the most records among some with equal or random states."""
    found = []
    for _ in range(8):
        left = rng.randrange(triples.states)
        right = left if rng.randrange(3) == 0 else rng.randrange(triples.states)
        found.append(Triple(rng.randrange(2), left, right))
    return max(found, key=lambda triple: len(steps(triples.automaton, triple)))


def dead_small(rng: Rng) -> Iterator[Case]:
    """Every triple of small grammars with dead rules."""
    for table in dead_tables(rng, 3, lambda grammar: grammar.states <= 11):
        yield from all_of(table)


def dead(rng: Rng) -> Iterator[Case]:
    """Triples with items of dead rules on one side or both, and others, of larger grammars."""
    tables = list(dead_tables(rng, 18)) + list(chains(rng, (2, 9, 97)))
    tables += [dead_larger(rng, kind, states) for kind in KINDS for states in (90, MANY_STATES)]
    for table in tables:
        items, others = sorted(dead_states(good(table))), live_states(good(table))
        for _ in range(3):
            for left, right in ((items, others), (others, items), (items, items), (others, others)):
                yield Case(*table, changed_triple(rng, table, left or others, right or others))


def live_states(grammar: Grammar) -> List[int]:
    """The states that are no items of dead rules."""
    return [state for state in range(grammar.states) if state not in dead_states(grammar)]


def changed_triple(
    rng: Rng, table: Table, lefts: Sequence[int], rights: Sequence[int]
) -> Triple:
    """Of some triples of such states the one that lost the most records by [3]."""
    triples, former = triples_in(table), former_triples(good(table))
    found = [Triple(rng.randrange(2), rng.choice(lefts), rng.choice(rights)) for _ in range(6)]
    return max(found, key=lambda triple: len(steps(former.automaton, triple))
               - len(steps(triples.automaton, triple)))


def many_closings(rng: Rng) -> Iterator[Case]:
    """Ends of A→ and A→A, which close to every item just past an A, 6 to 39 of them."""
    for past in range(5, 39, 3):
        table = many_pasts(past)
        last = triples_in(table).states - 1
        for left, right in ((last, last - 2), (last - 2, last), (last, last), (last, 4)):
            for layer in (0, 1):
                yield Case(*table, Triple(layer, left, right))


def many_pasts(past: int) -> Table:
    """A grammar with `past` codes A on its right sides, then A→ and A→A."""
    A = START + 1
    rules = [(START, (1 + first // 11,) + (A,) * min(11, past - first))
             for first in range(0, past, 11)]
    return 4, 2, encode(rules + [(A, ()), (A, (A,))])


def out_of_range(rng: Rng) -> Iterator[Case]:
    """Layers above 1 and states of Q or more, also where fewer bits hide them."""
    tables = ROWS + [CLASSICS["json"], operators(12), keywords(rng, 40, MANY_STATES), most_keywords(rng)]
    for table in tables:
        states = triples_in(table).states
        beyond = [states, states + 1, 255 + states, 256, 256 + 2, 1024, 65536, 65536 + 2, 2 ** 31,
                  LARGEST]
        for layer in (2, 3, 255, 256, 257, 65536, 2 ** 31, LARGEST):
            yield Case(*table, Triple(layer, 0, 0))
            yield Case(*table, Triple(layer, rng.randrange(states), 2))
        for state in sorted(set(beyond)):
            if state >= states:
                inside = rng.randrange(states)
                yield Case(*table, Triple(rng.randrange(2), state, inside))
                yield Case(*table, Triple(rng.randrange(2), inside, state))
                yield Case(*table, Triple(rng.randrange(2), state, state))
        yield Case(*table, Triple(LARGEST, LARGEST, LARGEST))
        yield Case(*table, Triple(0, 0, states * states))


def faulty(rng: Rng) -> Iterator[Case]:
    """Faulty tables, with triples in range and out of it."""
    for table in faulty_tables(rng, 30):
        yield Case(*table, Triple(rng.randrange(3), rng.randrange(6), rng.randrange(6)))
    yield Case(MAX_TERMINALS + 1, *ONE_A[1:], Triple(LARGEST, LARGEST, LARGEST))


def without_a_sentence(rng: Rng) -> Iterator[Case]:
    """No sentence: the start, triples that had moves before [3], others, ones out of range."""
    for table in [*sentenceless(rng, 12), *many_sentenceless(rng, 6), *large_sentenceless(rng, 2)]:
        states, former = triples_in(table).states, former_triples(grammar_of(table))
        yield Case(*table, Triple(0, 0, 0))
        yield Case(*table, busy_triple(rng, former))
        yield Case(*table, Triple(rng.randrange(2), rng.randrange(states), rng.randrange(states)))
        yield Case(*table, Triple(2, states, rng.choice([0, LARGEST])))


def nearly_without(rng: Rng) -> Iterator[Case]:
    """Grammars that nearly lack a sentence: the start, and busy triples."""
    for table in nearly_sentenceless(rng, 16):
        yield Case(*table, Triple(0, 0, 0))
        yield Case(*table, busy_triple(rng, triples_in(table)))


def faulty_without(rng: Rng) -> Iterator[Case]:
    """Each of causes 1 to 8 where there is no sentence either."""
    for table in faulty_sentenceless(rng, 22):
        yield Case(*table, Triple(rng.randrange(3), rng.randrange(6), rng.randrange(6)))


# With callers.

FILLED_IN_AT_1 = spelled("S: a S S S S S S S S S S S |")
FILLED_IN_AT_2 = spelled("S: " + "X " * 11, "X: " + "A " * 11, "A: B", "B: b |")


def every_with_callers(rng: Rng) -> Iterator[Case]:
    """Every triple of small grammars at m=1 and m=2."""
    for table in BY_HAND.values():
        for m in REMEMBERED:
            if fits(table, m, 16):
                triples = triples_in(table, m)
                for index in range(triples.count):
                    yield Case(*table, triple_at(triples.states, index), m)


def with_callers(rng: Rng) -> Iterator[Case]:
    """Reached triples, busy ones, any, and ones out of range, also those that are in range at another m."""
    for table, m in answered_pairs(rng, 14) + list(edge_pairs(rng, MAX_STATES, 2)):
        triples = triples_in(table, m)
        states = triples.states
        held = sorted(reached(triples)) if states < MANY_STATES else [0]
        for _ in range(5):
            yield Case(*table, triple_at(states, rng.choice(held)), m)
            yield Case(*table, busy_triple(rng, triples), m)
        yield Case(*table, triple_at(states, rng.randrange(triples.count)), m)
        inside = rng.randrange(states)
        yield Case(*table, Triple(rng.randrange(2), inside, states), m)
        yield Case(*table, Triple(rng.randrange(2), states + rng.randrange(9), inside), m)
        yield Case(*table, Triple(rng.choice([2, LARGEST]), inside, inside), m)


def many_callers(rng: Rng) -> Iterator[Case]:
    """Ends that close to many chains, one for each farther caller that is filled in."""
    for table, m in ((FILLED_IN_AT_1, 1), (FILLED_IN_AT_2, 2)):
        automaton = triples_in(table, m).automaton
        many = [state for state, arrows in enumerate(automaton.closings) if len(arrows) > 9]
        for _ in range(90):
            yield Case(*table, Triple(rng.randrange(3) // 2, rng.choice(many), rng.choice(many)), m)


def refused_callers(rng: Rng) -> Iterator[Case]:
    """An m above 2, chains too many, tables at fault with an m: triples in range at m=0 or not."""
    many = too_many_pairs(rng, 6)
    tables = [table for table, _ in many] + list(BY_HAND.values())
    for table, m in many + refused_pairs(rng, tables):
        states = good(table).states
        yield Case(*table, Triple(0, 0, 0), m)
        yield Case(*table, Triple(rng.randrange(2), rng.randrange(states), rng.randrange(states)), m)
        yield Case(*table, Triple(rng.randrange(4), states, rng.choice([0, LARGEST])), m)
    for table, m in faulty_pairs(rng, 8):
        yield Case(*table, Triple(rng.randrange(3), rng.randrange(6), rng.randrange(6)), m)


GROUPS = [
    rows, small, larger, many_closings, out_of_range, faulty, dead_small, dead,
    without_a_sentence, nearly_without, faulty_without,
    every_with_callers, with_callers, many_callers, refused_callers,
]


# Answers.

def spelled_move(move: Move) -> str:
    """`oI`, `cI`, `sX` or `-`."""
    return "-" if move == STILL else LETTERS[move[0]] + str(move[1])


def spelled_step(step: Step) -> str:
    """`LAYER,LEFT,RIGHT,MOVE,MOVE`."""
    return "%d,%d,%d,%s,%s" % (
        *step.next, spelled_move(step.left), spelled_move(step.right))


def answer(case: Case) -> str:
    """The line of one case, without its byte 10."""
    triples = checked_triples(case.t, case.n, case.table, case.m)
    if isinstance(triples, Refusal):
        return refused(triples)
    records = steps(triples.automaton, case.triple)
    return " ".join(["records=%d" % len(records)] + [spelled_step(r) for r in records])


# Reasons.

# What a record shows: the layers it leads from and to, and what either side did.
SHOWN = {
    (0, 0, OPENING, "still"): "layer-0-left-opens",
    (0, 0, "still", OPENING): "layer-0-right-opens",
    (0, 1, CLOSING, CLOSING): "parting-both-close",
    (0, 1, CLOSING, "still"): "parting-left-closes",
    (0, 1, "still", CLOSING): "parting-right-closes",
    (1, 1, OPENING, "still"): "layer-1-left-opens",
    (1, 1, "still", OPENING): "layer-1-right-opens",
    (1, 1, CLOSING, "still"): "layer-1-left-closes",
    (1, 1, "still", CLOSING): "layer-1-right-closes",
    (1, 1, SYMBOL, SYMBOL): "layer-1-terminal",
}

OF_TRIPLES = sorted(SHOWN.values()) + [
    "layer-0-terminal",
    "layer-0-nonterminal",
    "rule-0-opens",
    "rule-0-closes",
    "back-to-itself-left-only",
    "back-to-itself-right-only",
    "back-to-itself-both",
    "back-to-itself-with-a-lower-next",
    "many-records",
    "no-records-in-range",
    "equal-closings-do-not-part",
    "closing-beside-a-nonterminal-does-not-part",
    "layer-1-equal-nonterminals-do-not-shift",
    "unequal-symbols-do-not-shift",
    "out-of-range-layer",
    "out-of-range-left",
    "out-of-range-right",
    "out-of-range-though-its-index-is-below-2QQ",
]
REASONS = TABLE_REASONS + OF_TRIPLES + [
    "256-states",
    "1024-states",
] + dead_rules.REASONS + ["no-" + name for name in WRONG_STEPS] + [
    "dead-item-left-only",
    "dead-item-right-only",
    "dead-items-on-both-sides",
    "a-dead-item-beside-one-that-moves",
    "a-dead-item-does-not-open",
    "a-dead-item-does-not-close",
    "a-dead-item-does-not-shift",
    "no-parting-beside-a-dead-item-before-a-terminal",
] + list(TOLD.values()) + [
    "19-though-it-had-records-before",
    "19-out-of-range",
] + sentence_reasons.REASONS + caller_reasons.REASONS + caller_reasons.prefixed(OF_TRIPLES) + [
    "21-out-of-range",
    "21-though-it-has-records-at-0",
    "8-of-chains-out-of-range",
    "8-of-chains-though-it-has-records-at-0",
    "out-of-range-though-in-range-at-another-m",
    "in-range-though-not-at-0",
]


def reasons_of(case: Case) -> List[str]:
    """Every reason of REASONS that this case meets."""
    table = case.t, case.n, case.table
    callers = caller_reasons.of_case(*table, case.m)
    if case.m:
        return callers + remembered_reasons(case)
    return callers + forgotten_reasons(case)


def remembered_reasons(case: Case) -> List[str]:
    """What a triple at an m above 0 shows, or would at m=0 where m or the chains are refused."""
    table = case.t, case.n, case.table
    former, triples = checked_triples(*table), checked_triples(*table, case.m)
    if isinstance(former, Refusal):
        return []
    inside = in_range(former.states, case.triple)
    if isinstance(triples, Refusal):
        name = "8-of-chains" if case.m in REMEMBERED else "21"
        return [name + "-though-it-has-records-at-0"] * bool(steps(former.automaton, case.triple)) + [
            name + "-out-of-range"] * (not inside)
    met = [pair for pair in range_reasons(triples, case.triple) if pair[0] in OF_TRIPLES]
    if in_range(triples.states, case.triple):
        met += record_reasons(triples, case.triple) + quiet_reasons(triples, case.triple)
    found = caller_reasons.at(case.m, [name for name, holds in met if holds])
    others = [states_at(good(table), m) for m in range(MOST_CALLERS + 1) if m != case.m]
    if in_range(triples.states, case.triple):
        return found + ["in-range-though-not-at-0"] * (not inside)
    return found + ["out-of-range-though-in-range-at-another-m"] * any(
        in_range(states, case.triple) for states in others)


def forgotten_reasons(case: Case) -> List[str]:
    """Every reason that a case at m=0 meets."""
    table = case.t, case.n, case.table
    triples = checked_triples(*table)
    sentences = list(sentence_reasons.of_table(*table))
    if isinstance(triples, Refusal):
        more = none_reasons(case) if triples.cause == NO_SENTENCE else []
        return [str(triples.cause)] + more + sentences
    met = range_reasons(triples, case.triple)
    if not in_range(triples.states, case.triple):
        return [name for name, holds in met if holds] + sentences
    met += record_reasons(triples, case.triple)
    met += quiet_reasons(triples, case.triple)
    grammar = good(table)
    met += dead_reasons(grammar, case.triple)
    found = [name for name, holds in met if holds] + sentences
    return found + dead_rules.reasons_of(grammar) + told(
        grammar, MISREAD, lambda other: steps(other.automaton, case.triple))


def none_reasons(case: Case) -> List[str]:
    """What a triple of a grammar without a sentence had before document 02's [3] and [4]."""
    former = former_triples(grammar_of((case.t, case.n, case.table)))
    met = [
        ("19-though-it-had-records-before", bool(steps(former.automaton, case.triple))),
        ("19-out-of-range", not in_range(former.states, case.triple)),
    ]
    return [name for name, holds in met if holds]


def range_reasons(triples: Triples, triple: Triple) -> List[Tuple[str, bool]]:
    """In which parts a triple is out of range."""
    states = triples.states
    index = triple.layer * states * states + triple.left * states + triple.right
    outside = not in_range(states, triple)
    return [
        ("256-states", states == MANY_STATES),
        ("1024-states", states == MAX_STATES),
        ("out-of-range-layer", triple.layer > 1),
        ("out-of-range-left", triple.left >= states),
        ("out-of-range-right", triple.right >= states),
        ("out-of-range-though-its-index-is-below-2QQ", outside and index < triples.count),
    ]


def record_reasons(triples: Triples, triple: Triple) -> List[Tuple[str, bool]]:
    """What the records of a triple in range show."""
    records = steps(triples.automaton, triple)
    names = {shown(triple.layer, record) for record in records}
    moves = {move for record in records for move in record[1:]}
    back = [record for record in records if record.next == triple]
    left = any(record.right == STILL for record in back)
    right = any(record.left == STILL for record in back)
    return [(name, True) for name in sorted(names)] + [
        ("rule-0-opens", (OPENING, 0) in moves),
        ("rule-0-closes", (CLOSING, 0) in moves),
        ("back-to-itself-left-only", left and not right),
        ("back-to-itself-right-only", right and not left),
        ("back-to-itself-both", left and right),
        ("back-to-itself-with-a-lower-next",
         bool(back) and min(record.next for record in records) < triple),
        ("many-records", len(records) >= MANY),
        ("no-records-in-range", not records),
    ]


def shown(layer: int, record: Step) -> str:
    """The reason that names a record's layers and moves."""
    if layer == 0 and record.left[0] == SYMBOL:
        terminal = record.left[1] < START
        return "layer-0-terminal" if terminal else "layer-0-nonterminal"
    return SHOWN[layer, record.next.layer, record.left[0], record.right[0]]


def quiet_reasons(triples: Triples, triple: Triple) -> List[Tuple[str, bool]]:
    """What makes no record though a misreading would have one."""
    closings, shifts = triples.automaton.closings, triples.automaton.shifts
    left = {rule for rule, _ in closings[triple.left]}
    right = {rule for rule, _ in closings[triple.right]}
    codes = [(shifts[state] or (0, 0))[0] for state in triple[1:]]
    beside = (left and codes[1] >= START) or (right and codes[0] >= START)
    return [
        ("equal-closings-do-not-part", triple.layer == 0 and bool(left & right)),
        ("closing-beside-a-nonterminal-does-not-part", triple.layer == 0 and bool(beside)),
        ("layer-1-equal-nonterminals-do-not-shift",
         triple.layer == 1 and codes[0] == codes[1] >= START),
        ("unequal-symbols-do-not-shift", 0 not in codes and codes[0] != codes[1]),
    ]


def dead_reasons(grammar: Grammar, triple: Triple) -> List[Tuple[str, bool]]:
    """On which sides the items of dead rules are, and what they no longer do."""
    former, items = former_triples(grammar), dead_states(grammar)
    left, right = (state in items for state in triple[1:])
    lost = [move for step in steps(former.automaton, triple)
            for state, move in zip(triple[1:], step[1:]) if state in items]
    index = index_of(former.states, triple)
    wrong = {name for after in former.successors(index)
             for name in wrong_steps(grammar, index, after)}
    automaton = triples_of(grammar).automaton
    sides = (triple.left, triple.right), (triple.right, triple.left)
    beside = any(automaton.closings[one] and other in items
                 and former.automaton.before_terminal[other] for one, other in sides)
    return [("no-" + name, True) for name in sorted(wrong)] + [
        ("dead-item-left-only", left and not right),
        ("dead-item-right-only", right and not left),
        ("dead-items-on-both-sides", left and right),
        ("a-dead-item-beside-one-that-moves",
         (left or right) and bool(steps(automaton, triple))),
        ("a-dead-item-does-not-open", OPENING in (move[0] for move in lost)),
        ("a-dead-item-does-not-close", CLOSING in (move[0] for move in lost)),
        ("a-dead-item-does-not-shift", SYMBOL in (move[0] for move in lost)),
        ("no-parting-beside-a-dead-item-before-a-terminal", triple.layer == 0 and beside),
    ]


# Files.

def encode_case(case: Case) -> bytes:
    """One case of the file of inputs."""
    return encode_table_at(*case[:3], case.m) + b"".join(map(encode_number, case.triple))


def decode_case(reader: Reader) -> Case:
    """The next case of a file of inputs."""
    t, n, table, m = reader.table_at()
    return Case(t, n, table, Triple(*reader.numbers(3)), m)


KIND = Kind(lambda: cases_of(GROUPS), encode_case, decode_case, answer, REASONS, reasons_of,
            enough={**dead_rules.ENOUGH, **sentence_reasons.ENOUGH, **caller_reasons.ENOUGH})

if __name__ == "__main__":
    sys.exit(main(__doc__, sys.argv[1:], KIND))
