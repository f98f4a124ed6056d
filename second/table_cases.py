"""Test inputs for the table check, and this program's answers to them.

    table_cases.py cases FILE                writes the inputs
    table_cases.py answers CASES OUT COUNTS  answers them and counts the reasons

README.md beside this file has the layout of a case.
"""

import sys
from typing import Iterator, List, Sequence, Tuple

from case_files import (
    LAST, MAX_TABLE, Group, Kind, Reader, Rng, cases_of, encode_table, main, numbers, refused,
)
from random_tables import (
    FIGURES, A, B, Rule, S, a, base_grammar, encode, faulty_rule, large_grammar,
    random_entries, random_code, random_rule, random_rules, small_grammar,
    some_rules, with_sentence,
)
from sentence_grammars import (
    faulty_sentenceless, large_sentenceless, nearly_sentenceless, sentenceless,
)
from table_reasons import ENOUGH, REASONS, reasons_of
from tables import (
    MAX_ENTRY, MAX_LENGTH, MAX_NONTERMINALS, MAX_RULES, MAX_STATES, MAX_TERMINALS, START, Codes,
    Refusal, check_table,
)

Case = Tuple[int, int, Codes]


# Groups of cases.

def figures(rng: Rng) -> Iterator[Case]:
    """Document 01's grammars, also with one symbol too few and with more."""
    for t, n, rules in FIGURES:
        for more_t in (-1, 0, 1, MAX_TERMINALS - 1):
            for more_n in (-1, 0, 1, MAX_NONTERMINALS - 3):
                if t + more_t >= 0:
                    yield t + more_t, n + more_n, encode(rules)


def ranges(rng: Rng) -> Iterator[Case]:
    """t and n at and past their limits, also where fewer bits would hide it."""
    ts = [0, 1, 128, 256, 1999, 2000, 2001, 2002, 32768, 34768, 65535, 65536, 65537,
          2 ** 16 + 2000, 2 ** 31, 2 ** 32, 2 ** 32 + 1, 2 ** 63 + 2000, LAST]
    ns = ts + [2, 2 ** 32 + 2000, LAST - 1999, LAST - 2000]
    good, bad = encode(FIGURES[2][2]), (S, 13)
    for t in ts:
        for n in ns:
            yield t, n, ()
            yield t, n, rng.choice([good, (S, 0), (S, 1, S)])
            yield t, n, rng.choice([bad, (0,), good + good, (S, 1, 0)])


def at_limits(rng: Rng) -> Iterator[Case]:
    """Good rules with t and n at their limits, one past them, and the last codes."""
    for _ in range(60):
        t, n, rules = small_grammar(rng, 4)
        for more_t, more_n in ((MAX_TERMINALS, n), (t, MAX_NONTERMINALS),
                               (MAX_TERMINALS + 1, n), (t, MAX_NONTERMINALS + 1)):
            yield more_t, more_n, encode(rules)
        last = START + MAX_NONTERMINALS - 1
        more = [(S, (MAX_TERMINALS, last)), (last, (rng.choice([1, S, MAX_TERMINALS]),))]
        for front in (rules, rules[:1]):
            table = encode(front + more[:1 + rng.randrange(2)])
            yield MAX_TERMINALS, MAX_NONTERMINALS, table
            yield MAX_TERMINALS - rng.randrange(2), MAX_NONTERMINALS - rng.randrange(2), table


def edge_codes(rng: Rng) -> Iterator[Case]:
    """Codes at every edge as left code and as right code, at the limits of t and n and below."""
    for t in (0, 1, 127, 300, 1999, 2000):
        for n in (1, 2, 127, 1999, 2000):
            for code in (0, 1, 2, 127, 128, 256, 257, 1999, 2000, 2001, 32767, 32768, 32769,
                         33024, 34766, 34767, 34768, 65535):
                yield t, n, (code, 0)
                yield t, n, (S, 1, code)
                yield t, n, (S, 0, S, 2, S, code)


def lengths_of_rules(rng: Rng) -> Iterator[Case]:
    """Each k with its body empty, one short, whole and one too long."""
    for k in list(range(18)) + [64, 127, 128, 255, 256, 257, 268, 269, 524, 2000, 32768, 32780,
                                65280, 65292, 65534, 65535]:
        few = k % 256 if k > 600 else k
        for front in ((), encode([(A, (a, S))])):
            for body in (0, few - 1, few, few + 1):
                codes = tuple(random_code(rng, 1, 2) for _ in range(body))
                yield 1, 2, front + (S, k) + codes
    for _ in range(80):
        t, n = rng.randrange(4), 1 + rng.randrange(4)
        rules = random_rules(rng, t, n, [MAX_LENGTH] * (1 + rng.randrange(19)))
        yield t, n, encode(with_sentence(rng, t, rules))


def short_tables(rng: Rng) -> Iterator[Case]:
    """All tables of few entries over few codes."""
    for codes, longest in (((0, 1, 2, S, A), 4), ((0, 1, 12, 13, 2000, S, 65535), 3)):
        tables = [()]
        for _ in range(longest):
            for table in tables:
                yield 1, 1, table
            tables = [table + (code,) for table in tables for code in codes]
        for table in tables:
            yield 1, 1, table


def good_grammars(rng: Rng) -> Iterator[Case]:
    """Random good tables, small and middling, with the fewest symbols or more."""
    for _ in range(450):
        t, n, rules = small_grammar(rng, 8)
        yield t, n, encode(rules)
    for _ in range(250):
        t, n = rng.randrange(MAX_TERMINALS + 1), 1 + rng.randrange(MAX_NONTERMINALS)
        lengths = [rng.randrange(6) for _ in range(rng.randrange(60))]
        yield t, n, encode(with_sentence(rng, t, random_rules(rng, t, n, lengths)))


def without_a_sentence(rng: Rng) -> Iterator[Case]:
    """No finite tree of S, in small grammars and at the limits of rules and states."""
    for t, n, table in sentenceless(rng, 60):
        yield t, n, table
        if rng.randrange(8) == 0:
            yield t, n, table + (S, MAX_LENGTH) + (S,) * MAX_LENGTH
    yield from large_sentenceless(rng, 90)


def nearly_without(rng: Rng) -> Iterator[Case]:
    """Only the empty sentence; sentences that need the first rule, or the last."""
    yield from nearly_sentenceless(rng, 90)


def faulty_without(rng: Rng) -> Iterator[Case]:
    """Each of causes 1 to 8 where there is no sentence either."""
    yield from faulty_sentenceless(rng, 54)


def unused_rules(rng: Rng) -> Iterator[Case]:
    """Rules that no sentence uses, or no sentence: no rule of S, no finite tree, never opened."""
    for _ in range(40):
        t, n, rules = small_grammar(rng, 5)
        other = START + n
        yield t, n + 1, encode([(other, right) for _, right in rules[:1]])
        yield t, n + 1, encode(rules + [(other, (other,))])
        yield t, n + 1, encode([(other, ())] + rules)
        yield t, n + 1, encode(rules + [(S, (other, S))])


def many_rules(rng: Rng) -> Iterator[Case]:
    """398 to 403 rules, and all kinds of entries after the 400th."""
    for count in (398, 399, 400, 401, 402, 403):
        for _ in range(4):
            t, n, rules = large_grammar(rng, count, 420 + rng.randrange(605))
            yield t, n, encode(rules)
        yield 2000, 1, encode([(S, (1 + i,)) for i in range(count)])
        yield 0, 2000, encode([(START + i, ()) for i in range(count)])
    for _ in range(12):
        t, n, rules = large_grammar(rng, MAX_RULES, 820 + rng.randrange(205))
        table = encode(rules)
        yield t, n, table
        yield t, n, table + (rng.choice([0, 1, 13, S, 65535]),)
        yield t, n, table + (S, rng.choice([0, 1, 12, 13, 65535]))
        yield t, n, encode(rules[:-1] + [rng.choice(rules[:-1])])
        yield t, n, table + encode([rng.choice(rules)])
        yield t, n, table + random_entries(rng, 3 + rng.randrange(40))


def many_states(rng: Rng) -> Iterator[Case]:
    """Q from just under 1,024 to just past it, then more rules."""
    for states in list(range(1019, 1030)) + [1024, 1024, 1025, 1025, 1036]:
        for _ in range(5):
            t, n, rules = large_grammar(rng, some_rules(rng), states)
            yield t, n, encode(rules)
    for _ in range(25):
        t, n, rules = large_grammar(rng, some_rules(rng), MAX_STATES)
        table = encode(rules)
        more = random_rule(rng, t, n, rng.randrange(4))
        yield t, n, table + encode([more])
        yield t, n, table + encode([more]) + random_entries(rng, 5)
        yield t, n, table + encode([more]) + (rng.choice([0, t, START - 1, START + n]), 0)
        yield t, n, table + encode([(START + rng.randrange(n), ())])
    for _ in range(20):
        t, n = rng.randrange(500), 1 + rng.randrange(500)
        lengths = [rng.randrange(13) for _ in range(220)]
        yield t, n, encode(random_rules(rng, t, n, lengths))


def equal_rules(rng: Rng) -> Iterator[Case]:
    """A rule again at any later place, and rules that are equal but for one entry."""
    for _ in range(220):
        t, n, rules = small_grammar(rng, 7)
        t += 1
        rules = rules or [(S, ())]
        first = rng.randrange(len(rules))
        later = first + 1 + rng.choice([0, rng.randrange(len(rules) - first)])
        yield t, n, encode(rules[:later] + [rules[first]] + rules[later:])
        near = almost(rng, t, n, rules[first])
        yield t, n, encode(rules[:later] + [near] + rules[later:])


def almost(rng: Rng, t: int, n: int, rule: Rule) -> Rule:
    """A rule that differs by its left code, one code more or less, or one code."""
    left, right = rule
    kind = rng.randrange(5)
    if kind == 0:
        return START + rng.randrange(n), right
    if kind == 1:
        return left, right + (random_code(rng, t, n),)
    if kind == 2:
        return left, right[:-1]
    if kind == 3:
        return left, right[:-1] + (random_code(rng, t, n),)
    return left, (random_code(rng, t, n),) + right[1:]


def several_faults(rng: Rng) -> Iterator[Case]:
    """A last rule with every choice of faults, after few, the most or full rules."""
    bases = [base_grammar(rng, base) for base in (1, 2) * 8]
    for _ in range(9):
        for faults in range(64):
            for base in range(3):
                large = rng.choice(bases[base - 1::2])
                t, n, rules = large if base > 0 else small_grammar(rng, 4)
                if base > 0 and faults in (0, 2, 4, 6, 32) and rng.randrange(3):
                    continue
                table = encode(rules) + faulty_rule(rng, t, n, rules, faults)
                if rng.randrange(3) == 0:
                    table += faulty_rule(rng, t, n, rules, rng.randrange(64))
                yield t, n, table


def late_faults(rng: Rng) -> Iterator[Case]:
    """A last rule that passes the most states and is short, undeclared or equal as well."""
    for _ in range(8):
        t, n, rules = large_grammar(rng, some_rules(rng), MAX_STATES - 1)
        for faults in (1, 8, 16, 24) * 5:
            yield t, n, encode(rules) + faulty_rule(rng, t, n, rules, faults)


def faults_in_two_rules(rng: Rng) -> Iterator[Case]:
    """A fault in one rule and another in a later one, good rules between."""
    bases = [base_grammar(rng, 2) for _ in range(4)]
    for first in (0, 1, 2, 4, 8):
        for second in (1, 2, 4, 8, 16, 32):
            for _ in range(14):
                t, n, rules = rng.choice(bases) if rng.randrange(8) == 0 else small_grammar(rng, 4)
                between = random_rules(rng, t, n, [rng.randrange(3)])
                yield t, n, (
                    encode(rules) + faulty_rule(rng, t, n, rules, first)
                    + encode(between) + faulty_rule(rng, t, n, rules, second))


def prefixes(rng: Rng) -> Iterator[Case]:
    """Every prefix of some tables, and some of a large one."""
    grammars = FIGURES + [small_grammar(rng, 12), large_grammar(rng, 60, 256)]
    grammars += [large_grammar(rng, MAX_RULES, MAX_STATES)]
    for t, n, rules in grammars:
        table = encode(rules)
        for end in range(0, len(table) + 1, 1 + len(table) // 300):
            yield t, n, table[:end]


def replaced_entries(rng: Rng) -> Iterator[Case]:
    """Every entry of some tables, and some of large ones, replaced by several values."""
    for t, n, rules in FIGURES + [small_grammar(rng, 12)]:
        values = [0, 1, 2, t, t + 1, 12, 13, START - 1, START, START + n - 1, START + n, MAX_ENTRY]
        yield from replaced(t, n, encode(rules), values, 1)
    t, n, rules = large_grammar(rng, 100, 256)
    yield from replaced(t, n, encode(rules), [0, 1 + rng.randrange(12), t + 1, START], 1)
    t, n, rules = large_grammar(rng, MAX_RULES, MAX_STATES)
    yield from replaced(t, n, encode(rules), [0, 1 + rng.randrange(12), t + 1, START], 23)


def replaced(
    t: int, n: int, table: Codes, values: Sequence[int], step: int
) -> Iterator[Case]:
    """Each value in every place that is a multiple of `step`."""
    for place in range(0, len(table), step):
        for value in values:
            yield t, n, table[:place] + (value,) + table[place + 1:]


def damaged(rng: Rng) -> Iterator[Case]:
    """Good tables with entries put in, taken out, swapped, or a symbol undeclared."""
    for _ in range(650):
        t, n, rules = small_grammar(rng, 10)
        table = encode(rules)
        for _ in range(1 + rng.randrange(2)):
            table = damage(rng, table)
        yield t, n, table
    for _ in range(200):
        t, n, rules = small_grammar(rng, 10)
        yield max(0, t - rng.randrange(2)), n - rng.randrange(2), encode(rules)


def damage(rng: Rng, table: Codes) -> Codes:
    """One entry or stretch of the table changed."""
    place = rng.randrange(len(table) + 1)
    kind = rng.randrange(5)
    if kind == 0:
        return table[:place] + random_entries(rng, 1) + table[place:]
    if kind == 1:
        return table[:place] + table[place + 1:]
    if kind == 2:
        return table[:place]
    if kind == 3:
        return table[place:] + table[:place]
    return table[:place] + table[place:place + 4] + table[place:]


def noise(rng: Rng) -> Iterator[Case]:
    """Random entries, plain ones and ones that look like rules more often."""
    likely = [0, 0, 0, 1, 1, 1, 2, 2, 3, 12, 13, S - 1, S, S, S, S, A, A, B, MAX_ENTRY]
    for _ in range(250):
        t, n = rng.randrange(130), rng.randrange(130)
        yield t, n, random_entries(rng, rng.randrange(60))
    for _ in range(700):
        t, n = rng.randrange(4), 1 + rng.randrange(3)
        count = rng.randrange(24)
        yield t, n, tuple(rng.choice(likely) for _ in range(count))
    for _ in range(60):
        yield rng.getrandbits(64), rng.getrandbits(64), random_entries(rng, 8)


def long_tables(rng: Rng) -> Iterator[Case]:
    """Tables up to the largest size; all of them are refused."""
    for size in (4096, MAX_TABLE):
        yield 2000, 2000, random_entries(rng, size)
        yield 2000, 2000, ((S, 0) * size)[:size]
        yield 2000, 2000, (START,) * size
        yield 2001, 2000, (0,) * size
        for count in (79, 240, 399, MAX_RULES):
            t, n, rules = large_grammar(rng, count, MAX_STATES)
            yield t, n, (encode(rules) + random_entries(rng, size))[:size]


GROUPS: List[Group] = [
    figures, ranges, at_limits, edge_codes, lengths_of_rules, short_tables, good_grammars,
    unused_rules, many_rules, many_states, equal_rules, several_faults,
    late_faults, faults_in_two_rules, prefixes, replaced_entries, damaged, noise, long_tables,
    without_a_sentence, nearly_without, faulty_without,
]


# Answers.

def answer(case: Case) -> str:
    """The line of one case, without its byte 10."""
    result = check_table(*case)
    if isinstance(result, Refusal):
        return refused(result)
    return "passed states=%d offsets=%s lefts=%s lengths=%s codes=%s" % (
        result.states,
        numbers([rule.offset for rule in result.rules]),
        numbers([rule.left for rule in result.rules]),
        numbers([len(rule.right) for rule in result.rules]),
        numbers([code for rule in result.rules for code in rule.right]),
    )


KIND = Kind(lambda: cases_of(GROUPS), lambda case: encode_table(*case), Reader.table, answer,
            REASONS, lambda case: reasons_of(*case), fewest=50, enough=ENOUGH)

if __name__ == "__main__":
    sys.exit(main(__doc__, sys.argv[1:], KIND))
