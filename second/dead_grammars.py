"""Grammars with rules that no sentence uses, of each kind of dead_rules.py.

They are made of grammars all of whose rules are live, or found among random ones.
"""

from itertools import product
from typing import Callable, Dict, Iterator, List, NamedTuple, Optional, Sequence, Tuple

from case_files import Rng
from case_grammars import Table, good, grammar_of, keywords, larger_random, live_small
from dead_rules import BEHIND, KINDS, MIXED, UNPRODUCTIVE, UNREACHABLE, kind_of
from live_misreadings import REACHED, found_by_search, told
from named_grammars import Named, random_names
from random_tables import Rule, encode, random_code, random_rules
from tables import START, Codes, Grammar, check_table, codes_of

MOST = 26                  # states of a small grammar
MANY = 130                 # states of a larger one that may not be potential
TRIES = 400                # random grammars that are looked at for one of a kind

# The kinds of grammars that tell a misreading, where not all do.
KINDS_OF = {
    "unreachable-rules-are-taken": [UNREACHABLE],
    "rules-behind-unproductive-ones-are-taken": [BEHIND],
}


class Rules(NamedTuple):
    """A grammar of which rules are still added."""

    t: int
    n: int
    rules: Tuple[Rule, ...]


def rules_of(table: Table) -> Rules:
    grammar = grammar_of(table)
    return Rules(grammar.terminals, grammar.nonterminals, tuple(codes_of(grammar)))


# Dead rules.

def right_with(rng: Rng, base: Rules, *codes: int) -> Codes:
    """A right side with these codes, apart from them a few others of the grammar."""
    right = [random_code(rng, base.t, base.n) for _ in range(rng.randrange(4))]
    for code in codes:
        right.insert(rng.randrange(len(right) + 1), code)
    return tuple(right)


def some_left(rng: Rng, base: Rules) -> int:
    """A nonterminal of the grammar."""
    return START + rng.randrange(base.n)


def put_in(rng: Rng, base: Rules, more: int, rules: List[Rule]) -> Rules:
    """`more` nonterminals, and these rules somewhere between the others; equal ones once."""
    found = list(base.rules)
    for rule in rules:
        if rule not in found:
            found.insert(rng.randrange(len(found) + 1), rule)
    return Rules(base.t, base.n + more, tuple(found))


def endless(rng: Rng, base: Rules, first: int) -> List[Rule]:
    """The rules of a nonterminal `first` that has no finite subtree.

    It has none at all, or needs itself, or another one that needs it, `first` + 1.
    """
    kind = rng.randrange(4)
    if kind == 0:
        return []
    if kind == 1:
        return [(first, right_with(rng, base, first + 1)),
                (first + 1, right_with(rng, base, first))]
    return [(first, right_with(rng, base, first)) for _ in range(1 + rng.randrange(2))]


def add_unproductive(rng: Rng, base: Rules) -> Rules:
    """Rules that need an endless nonterminal, and its own."""
    first = START + base.n
    rules = endless(rng, base, first)
    for _ in range(1 + rng.randrange(2)):
        rules.append((some_left(rng, base), right_with(rng, base, first)))
    return put_in(rng, base, 2, rules)


def add_unreachable(rng: Rng, base: Rules) -> Rules:
    """Rules of nonterminals that stand in no right side but their own."""
    new = START + base.n
    rules = []
    for _ in range(1 + rng.randrange(3)):
        codes = [some_left(rng, base) for _ in range(rng.randrange(3))]
        codes += [rng.choice([new, new + 1])] * (rng.randrange(3) == 0)
        rules.append((rng.choice([new, new, new + 1]), right_with(rng, base, *codes)))
    return put_in(rng, base, 2, rules)


def add_behind(rng: Rng, base: Rules) -> Rules:
    """Rules that need an endless nonterminal, and those of another that stands beside it alone."""
    first = START + base.n
    behind = first + 2
    rules = endless(rng, base, first)
    rules += [(rng.choice([some_left(rng, base), first]), right_with(rng, base, first, behind))]
    rules += [(some_left(rng, base), right_with(rng, base, first))]
    for _ in range(1 + rng.randrange(3)):
        codes = [some_left(rng, base) for _ in range(rng.randrange(3))]
        rules.append((behind, right_with(rng, base, *codes)))
    return put_in(rng, base, 3, rules)


def add_both(rng: Rng, base: Rules) -> Rules:
    """Unreachable rules and others, in either order."""
    adding = [add_unreachable, rng.choice([add_unproductive, add_behind])]
    rng.shuffle(adding)
    for add in adding:
        base = add(rng, base)
    return base


ADD: Dict[str, Callable[[Rng, Rules], Rules]] = {
    UNPRODUCTIVE: add_unproductive,
    UNREACHABLE: add_unreachable,
    BEHIND: add_behind,
    MIXED: add_both,
}


def with_dead_rules(rng: Rng, base: Rules, kind: str, most: int) -> Rules:
    """A grammar all of whose rules are live, with dead rules of a kind; Q at most `most`."""
    while True:
        found = ADD[kind](rng, base)
        grammar = check_table(found.t, found.n, encode(found.rules))
        if isinstance(grammar, Grammar) and grammar.states <= most and kind_of(grammar) == kind:
            return found


# Grammars.

def any_of_kind(rng: Rng, kind: str) -> Rules:
    """A random grammar of a kind, found among many, or one made of a live grammar."""
    for _ in range(TRIES):
        t, n = rng.randrange(4), 1 + rng.randrange(4)
        lengths = [rng.randrange(4) for _ in range(1 + rng.randrange(7))]
        rules = random_rules(rng, t, n, lengths)
        grammar = grammar_of((t, n, encode(rules)))
        if kind_of(grammar) == kind and grammar.states <= MOST:
            return Rules(t, n, tuple(rules))
    return with_dead_rules(rng, rules_of(live_small(rng)), kind, MOST)


def dead_small(rng: Rng, kind: str) -> Rules:
    """A small grammar of a kind, made of a live one or found."""
    if rng.randrange(3) == 0:
        return any_of_kind(rng, kind)
    return with_dead_rules(rng, rules_of(live_small(rng)), kind, MOST)


def table_of(rules: Rules) -> Table:
    return rules.t, rules.n, encode(rules.rules)


def dead_tables(
    rng: Rng, each: int, wanted: Callable[[Grammar], bool] = lambda grammar: True
) -> Iterator[Table]:
    """`each` small grammars of each kind that are as wanted, none twice."""
    for kind in KINDS:
        seen = set()
        while len(seen) < each:
            table = table_of(dead_small(rng, kind))
            if table not in seen and wanted(good(table)):
                seen.add(table)
                yield table


def telling_tables(rng: Rng, each: int) -> Iterator[Table]:
    """`each` small grammars for each misreading of [3] in which a search finds something else."""
    for name in REACHED:
        seen = set()
        while len(seen) < each:
            table = table_of(dead_small(rng, rng.choice(KINDS_OF.get(name, KINDS))))
            if table not in seen and told(good(table), [name], found_by_search):
                seen.add(table)
                yield table


def dead_larger(rng: Rng, kind: str, states: int) -> Table:
    """Q of a little under `states`; unambiguous if they are many."""
    live = states - 24
    few = states < MANY and rng.randrange(2) == 0
    base = larger_random(rng, live) if few else keywords(rng, live // 6, live)
    return table_of(with_dead_rules(rng, rules_of(base), kind, states))


# Chains: rules that are found to be live, or dead, only one after another.

def chain(first: int, length: int, last: List[Rule]) -> List[Rule]:
    """X0→X1, X1→X2 and so on, `length` rules from the nonterminal `first`; then others."""
    return [(first + place, (first + place + 1,)) for place in range(length)] + last


def chain_of(kind: Optional[str], length: int) -> Rules:
    """A chain all of whose rules are live, or a grammar of a kind by a chain."""
    a, first = (1,), START + 1
    end = first + length
    rules = {
        None: [(START, (first,))] + chain(first, length, [(end, a)]),
        UNPRODUCTIVE: [(START, a), (START, (first,))] + chain(first, length, []),
        UNREACHABLE: [(START, a)] + chain(first, length, [(end, (START,))]),
        BEHIND: [(START, a), (START, (first, end + 1))] + chain(first, length, [(end, a)]),
        MIXED: [(START, a), (START, (end + 1,))] + chain(first, length, [(end, a)]),
    }[kind]
    return Rules(1, length + 3, tuple(rules))


def chains(rng: Rng, lengths: Sequence[int]) -> Iterator[Table]:
    """A chain of every kind and of these lengths: in order, backwards, and shuffled."""
    for kind, length in product([None] + KINDS, lengths):
        base = chain_of(kind, length)
        rows = [base.rules, base.rules[::-1], tuple(rng.sample(base.rules, len(base.rules)))]
        for rules in rows:
            table = table_of(base._replace(rules=rules))
            assert kind_of(good(table)) == kind
            yield table


# Grammars with names.

def with_new_names(rng: Rng, base: Named, found: Rules) -> Named:
    """The names of the grammar that it was made of, and others for what was added."""
    names = list(base.names)
    while len(names) < found.t + found.n:
        names += [name for name in random_names(rng, 1) if name not in names]
    return Named(found.t, found.n, list(found.rules), names)


def dead_named(rng: Rng, base: Named, kind: str, most: int) -> Named:
    """A grammar with names all of whose rules are live, with dead rules of a kind."""
    rules = Rules(base.t, base.n, tuple(base.rules))
    return with_new_names(rng, base, with_dead_rules(rng, rules, kind, most))
