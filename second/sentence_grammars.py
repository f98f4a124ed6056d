"""Grammars without a sentence, which document 02's [4] refuses, and ones that nearly lack one.

They are made of grammars with a sentence, or put together by hand.
"""

from typing import Callable, Dict, Iterator, List

from case_files import Rng
from case_grammars import (
    ENDLESS, MANY_STATES, NO_RULES, Table, grammar_of, live_small, out_of_range, small_random, spelled,
)
from dead_grammars import (
    Rules, add_unproductive, chain, endless, put_in, right_with, rules_of, some_left, table_of,
)
from named_grammars import Named, with_names
from random_tables import Rule, encode, faulty_rule, large_grammar, random_code, small_rules, some_rules
from sentence_reasons import has_tree, loose_rules
from tables import (
    MAX_LENGTH, MAX_NONTERMINALS, MAX_RULES, MAX_STATES, MAX_TERMINALS, OUT_OF_RANGE, START,
    TOO_MANY_STATES,
    Codes, Refusal, check_rules, codes_of,
)

S, A, B = START, START + 1, START + 2
a = (1,)

# By hand: no rules; S→S; all rules of S need S; S on right sides only; S nowhere.
BY_HAND: List[Table] = [
    NO_RULES, (1, 1, ()), (MAX_TERMINALS, MAX_NONTERMINALS, ()), ENDLESS, (1, 1, ENDLESS[2]),
    spelled("S: a S"), spelled("S: S a"), spelled("S: a S | S S"), spelled("S: A a", "A: S"),
    spelled("S: A", "A: B", "B: A"), spelled("S: A | B", "A: a B", "B: A b"),
    (1, 2, encode([(A, a), (A, ())])), (1, 2, encode([(A, (1, S))])),
    (1, 2, encode([(A, (S,)), (A, a)])), (0, 2, encode([(S, (A,))])),
    (1, 3, encode([(S, (A, B)), (B, a)])),
]
# By hand: one rule more and there is a sentence.
NEAR_BY_HAND: List[Table] = [
    (0, 1, encode([(S, ())])), (MAX_TERMINALS, MAX_NONTERMINALS, encode([(S, ())])), spelled("S: S |"),
    spelled("S: S S |"), spelled("S: A", "A: B", "B:"), spelled("S: A B | S", "A: | B", "B: A |"),
    spelled("S: S | a"), spelled("S: a S | S S | a"), spelled("S: A a", "A: S | b"),
    (1, 2, encode([(S, (A,)), (A, a)])), (1, 2, encode([(A, a), (S, (A, A))])),
    (1, 3, encode([(A, (S,)), (B, (A,)), (S, a)])),
    (2, 3, encode([(S, (A, B, 1)), (B, ()), (A, (B, 2))])),
]


# No sentence.

def no_rules(rng: Rng) -> Rules:
    """No rules, with any number of symbols."""
    t = rng.choice([0, 1, rng.randrange(MAX_TERMINALS // 7)])
    n = rng.choice([1, 2, 1 + rng.randrange(MAX_NONTERMINALS // 7)])
    return Rules(t, n, ())


def needs_itself(rng: Rng) -> Rules:
    """S in each rule of S."""
    base = rules_of(live_small(rng))
    rules = [(left, with_code(rng, right, S) if left == S else right)
             for left, right in base.rules]
    return base._replace(rules=tuple(dict.fromkeys(rules)))


def with_code(rng: Rng, right: Codes, code: int) -> Codes:
    """A right side with this code in it; a code of it is left out if it was full."""
    place = rng.randrange(min(len(right), MAX_LENGTH - 1) + 1)
    rest = right[place + (len(right) == MAX_LENGTH):]
    return right[:place] + (code,) + rest


def needs_endless(rng: Rng) -> Rules:
    """An endless nonterminal in each rule of S; it may need S."""
    base = rules_of(live_small(rng))
    first = S + base.n
    rules = [(left, with_code(rng, right, first) if left == S else right)
             for left, right in base.rules]
    more = endless(rng, base, first)
    if rng.randrange(3) == 0:
        more = [(first, right_with(rng, base, S))]
    return put_in(rng, base._replace(rules=tuple(dict.fromkeys(rules))), 2, more)


def on_right_sides_only(rng: Rng) -> Rules:
    """The rules of S given to another nonterminal; S stands on right sides alone."""
    base = rules_of(live_small(rng))
    other = S + base.n
    rules = [(other if left == S else left, right) for left, right in base.rules]
    more: List[Rule] = [(rng.choice([other, some_left(rng, base)]), right_with(rng, base, S))]
    more = [(other if left == S else left, right) for left, right in more]
    return put_in(rng, base._replace(rules=tuple(rules)), 1, more)


def of_others(rng: Rng) -> Rules:
    """Rules in which S does not occur."""
    base = rules_of(live_small(rng))
    other = S + base.n
    rules = [(other if left == S else left, tuple(other if code == S else code for code in right))
             for left, right in base.rules]
    return Rules(base.t, base.n + 1, tuple(rules))


def in_a_circle(rng: Rng) -> Rules:
    """S→X0, X0→X1 and so on back to one of them, in any order."""
    length = 1 + rng.randrange(24)
    back = A + rng.randrange(length + 1) - (rng.randrange(3) == 0)
    rules = [(S, (A,))] + chain(A, length, [(A + length, (back,))])
    return Rules(1, length + 2, tuple(rng.sample(rules, len(rules))))


def one_rule_lost(rng: Rng) -> Rules:
    """A grammar with a sentence, of which a rule is left out or changed."""
    while True:
        base = rules_of(small_random(rng))
        rules = list(base.rules)
        place = rng.randrange(len(rules))
        left, right = rules.pop(place)
        if right and rng.randrange(2):
            at = rng.randrange(len(right))
            code = random_code(rng, base.t, base.n)
            rules.insert(place, (left, right[:at] + (code,) + right[at + 1:]))
        found = base._replace(rules=tuple(dict.fromkeys(rules)))
        if not has_tree(found.rules):
            return found


def large(rng: Rng, rules: int = MAX_RULES, states: int = MAX_STATES) -> Rules:
    """So many rules, or so many states, or both; S has none of the rules, or needs S."""
    count, states = rng.choice([
        (rules, states - rng.randrange(states // 2)), (rules, states), (some_rules(rng, states), states)])
    while True:
        t, n, made = large_grammar(rng, count, states)
        found = Rules(t, n, tuple(dict.fromkeys(without_trees(rng, n, made))))
        if len(found.rules) == len(made) and not has_tree(found.rules):
            return found


def without_trees(rng: Rng, n: int, rules: List[Rule]) -> List[Rule]:
    """The rules; those of S are given to others, or have S in the place of a code."""
    found = []
    for left, right in rules:
        if left == S and right and rng.randrange(2):
            place = rng.randrange(len(right))
            right = right[:place] + (S,) + right[place + 1:]
        elif left == S:
            left = A + rng.randrange(n - 1)
        found.append((left, right))
    return found


NONE: Dict[str, Callable[[Rng], Rules]] = {
    "no-rules": no_rules,
    "needs-itself": needs_itself,
    "needs-endless": needs_endless,
    "on-right-sides-only": on_right_sides_only,
    "of-others": of_others,
    "in-a-circle": in_a_circle,
    "one-rule-lost": one_rule_lost,
}


def sentenceless(rng: Rng, each: int) -> Iterator[Table]:
    """Small grammars without a sentence: those by hand and `each` of every kind."""
    for table in BY_HAND:
        yield checked(table, False)
    for make in NONE.values():
        for _ in range(each):
            yield checked(table_of(make(rng)), False)


def large_sentenceless(rng: Rng, count: int) -> Iterator[Table]:
    """`count` grammars without a sentence at the limits of rules and states."""
    for _ in range(count):
        yield checked(table_of(large(rng)), False)


def many_sentenceless(rng: Rng, count: int) -> Iterator[Table]:
    """The same, with at most 100 rules and 256 states."""
    for _ in range(count):
        yield checked(table_of(large(rng, 100, MANY_STATES)), False)


def checked(table: Table, sentence: bool) -> Table:
    """A table without faults 1 to 8 that has a sentence, or has none."""
    assert has_tree(codes_of(grammar_of(table))) == sentence
    return table


# Nearly no sentence.

def only_empty(rng: Rng) -> Rules:
    """No sentence but the empty one; terminals stand in dead rules alone."""
    n = 1 + rng.randrange(4)
    base = Rules(rng.randrange(3), n, tuple(small_rules(rng, 0, n, 5)))
    return add_unproductive(rng, base) if rng.randrange(2) else base


def by_one_rule(rng: Rng, place: int) -> Rules:
    """A grammar that has no sentence without its rule at `place`, the first or the last."""
    while True:
        base = rules_of(small_random(rng))
        for rule in base.rules:
            others = [other for other in base.rules if other != rule]
            if not has_tree(others) and others:
                others.insert(place if place == 0 else len(others), rule)
                return base._replace(rules=tuple(others))


NEAR: Dict[str, Callable[[Rng], Rules]] = {
    "only-empty": only_empty,
    "by-the-first-rule": lambda rng: by_one_rule(rng, 0),
    "by-the-last-rule": lambda rng: by_one_rule(rng, -1),
}


def nearly_sentenceless(rng: Rng, each: int) -> Iterator[Table]:
    """Small grammars that nearly lack a sentence: those by hand and `each` of every kind."""
    for table in NEAR_BY_HAND:
        yield checked(table, True)
    for make in NEAR.values():
        for _ in range(each):
            yield checked(table_of(make(rng)), True)


# Other faults.

def faulty_sentenceless(rng: Rng, each: int) -> Iterator[Table]:
    """`each` tables for each of causes 1 to 8 whose rules have no sentence either."""
    found = {cause: 0 for cause in range(OUT_OF_RANGE, TOO_MANY_STATES + 1)}
    bases = [large(rng) for _ in range(10)]
    while min(found.values()) < each:
        base = rng.choice(bases) if rng.randrange(4) == 0 else rng.choice(list(NONE.values()))(rng)
        t, n = min(base.t, MAX_TERMINALS - 1), min(base.n, MAX_NONTERMINALS - 1)
        last = faulty_rule(rng, t, n, base.rules, 1 << rng.randrange(6))
        table = t, n, encode(base.rules) + last
        if rng.randrange(12) == 0:
            table = (*out_of_range(rng)[:2], table[2])
        refusal = check_rules(*table)
        if isinstance(refusal, Refusal) and not has_tree(loose_rules(table[2])):
            found[refusal.cause] += 1
            if found[refusal.cause] <= each:
                yield table


# Grammars with names.

def named_table(rng: Rng, table: Table) -> Named:
    """A table without faults 1 to 8 with names."""
    rules = rules_of(table)
    return with_names(rng, rules.t, rules.n, list(rules.rules))
