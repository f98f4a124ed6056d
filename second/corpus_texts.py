"""The texts that the program is tried with, in groups; they depend on the seed alone.

The corpus, grown grammars, both damaged in one byte or cut, texts with one fault
of each cause, texts of too many bytes or states, texts with long readings, texts
with rules that no sentence uses, texts without a sentence, or nearly so, and texts
with names in another case than declared, or declared in two.
"""

from functools import lru_cache
from math import gcd
from typing import Callable, Dict, Iterator, List, NamedTuple, Sequence, Tuple

import dead_rules
import sentence_reasons
from case_files import Rng
from case_grammars import good as good_grammar
from case_grammars import states_of as states_of_table
from corpus import entries, text_in
from dead_grammars import Rules, dead_named, dead_small, rules_of, telling_tables
from dead_rules import KINDS, kind_of
from live_misreadings import TOLD_BY_SEARCH, former_triples, found_by_search, told_by_search
from named_grammars import Named, join_lines, lines_of, long_names, text_of, with_names
from program import MAX_BYTES, MAX_STATES
from random_tables import A, B, S, Rule, a
from robot_grammars import grown, states_of, table_of
from sentence_grammars import (
    large_sentenceless, named_table, nearly_sentenceless, sentenceless,
)
from sentence_misreadings import AFTER_14, TOLD
from spelling import in_another_case, lettered, respelled
from spelling_reasons import declared_in, uses_in
from sentence_reasons import has_tree, loose_rules, of_rules
from tables import (
    FIXED_STATES, MAX_LENGTH, MAX_RULES, MAX_TERMINALS, NO_SENTENCE, Refusal,
)
from tables import MAX_STATES as MOST_STATES
from text import CAPITALS, MAX_NAME, MAX_TEXT, Text, read_lines
from triples import is_potential, triples_of

SEED = 5
MARKS = b"\x00\t\n\r ,-:=_aSz09\x7f\xff"    # bytes that part something, or seem to
LONG = 1000               # bytes of a long output


class Sample(NamedTuple):
    """A text and the group that it is of."""

    group: str
    text: bytes


# Good texts.

@lru_cache(maxsize=1)
def corpus_texts() -> Tuple[bytes, ...]:
    """Every text of the corpus."""
    return tuple(text_in(entry.name) for entry in entries())


def of_the_corpus(rng: Rng) -> Iterator[bytes]:
    """Every text of the corpus."""
    yield from corpus_texts()


def small(rng: Rng) -> bytes:
    """A grown grammar that the program takes."""
    return text_of(grown(rng, 4, MAX_STATES))


def grown_small(rng: Rng) -> Iterator[bytes]:
    """Grown grammars that the program takes."""
    for _ in range(150):
        yield small(rng)


def grown_large(rng: Rng) -> Iterator[bytes]:
    """Grown grammars of any number of states."""
    for _ in range(50):
        yield text_of(grown(rng, 12))


def good(rng: Rng) -> bytes:
    """A text of the corpus or a grown one, short enough for the program."""
    texts = [text for text in corpus_texts() if len(text) <= MAX_BYTES]
    return rng.choice([rng.choice(texts), small(rng)])


# Texts at fault.

def damaged(rng: Rng) -> Iterator[bytes]:
    """One byte changed, left out or put in."""
    for _ in range(240):
        text = good(rng)
        place = rng.randrange(len(text))
        choices = rng.choice(MARKS), rng.choice(text), rng.randrange(256)
        byte = bytes([rng.choice(choices)])
        kind = rng.randrange(4)
        rest = text[place:] if kind == 0 else text[place + 1:]
        yield text[:place] + (b"" if kind == 1 else byte) + rest


def cut(rng: Rng) -> Iterator[bytes]:
    """The front of a text, now and then as far as a line's end, or nothing."""
    yield b""
    for _ in range(120):
        text = good(rng)
        end = rng.randrange(len(text))
        yield text[:rng.choice([end, text.rfind(b"\n", 0, end) + 1])]


LETTERS = [b"%c" % byte for byte in CAPITALS + b"0123456789"]     # names of one byte


def counted(count: int) -> List[bytes]:
    """So many names."""
    return [b"x%d" % place for place in range(count)]


def many_terminals(rng: Rng, lines: List[bytes]) -> List[bytes]:
    """Cause 1 at line 1, in more bytes than the program takes."""
    names = counted(MAX_TERMINALS + 1 + rng.randrange(20))
    return [b"terminals=" + b",".join(names)] + lines[1:]


def no_nonterminals(rng: Rng, lines: List[bytes]) -> List[bytes]:
    """Cause 1 at line 2."""
    return lines[:1] + [b"nonterminals="] + lines[2:]


def long_rule(rng: Rng, lines: List[bytes]) -> List[bytes]:
    """Cause 4."""
    name = lines[1].partition(b"=")[2].split(b",")[0]
    count = MAX_LENGTH + 1 + rng.randrange(4)
    return lines + [b"rule=" + name + b":" + b" ".join([b""] + [name] * count)]


def equal_rule(rng: Rng, lines: List[bytes]) -> List[bytes]:
    """Cause 6."""
    return lines + [rng.choice(lines[2:])]


def many_rules(rng: Rng, lines: List[bytes]) -> List[bytes]:
    """Cause 7, in no more bytes than the program takes."""
    rights = [b""] + [b" " + name for name in LETTERS]
    rules = [b"rule=" + name + b":" + right for right in rights for name in LETTERS]
    count = MAX_RULES + 1 + rng.randrange(5)
    return [b"terminals=", b"nonterminals=" + b",".join(LETTERS)] + rules[:count]


def many_states(rng: Rng, lines: List[bytes]) -> List[bytes]:
    """Cause 8, in no more bytes than the program takes."""
    count = 1 + MOST_STATES // (MAX_LENGTH + 1) + rng.randrange(4)
    rights = [[one] * (MAX_LENGTH - 1) + [other] for other in LETTERS[1:] for one in LETTERS[1:]]
    return [b"terminals=" + b",".join(LETTERS[1:]), b"nonterminals=A"] + [
        b"rule=A: " + b" ".join(right) for right in rights[:count]]


def no_equals(rng: Rng, lines: List[bytes]) -> List[bytes]:
    """Cause 16."""
    place = rng.randrange(len(lines))
    new = rng.choice([b"", b"rule", lines[place].replace(b"=", b" ")])
    return lines[:place] + [new] + lines[place:]


def long_name(rng: Rng, lines: List[bytes]) -> List[bytes]:
    """Cause 16."""
    return [lines[0] + b"," + b"x" * (MAX_NAME + 1)] + lines[1:]


def unknown_name(rng: Rng, lines: List[bytes]) -> List[bytes]:
    """Cause 17."""
    place = 2 + rng.randrange(len(lines) - 1)
    new = b"rule=%s: unknown-name" % rng.choice(counted(3))
    return lines[:place] + [new] + lines[place:]


def declared_twice(rng: Rng, lines: List[bytes]) -> List[bytes]:
    """Cause 18."""
    place = rng.randrange(2)
    names = lines[1].partition(b"=")[2].split(b",")
    new = [lines[0] + b",twice,twice", lines[1] + b"," + rng.choice(names)]
    return lines[:place] + [new[place]] + lines[place + 1:]


def no_sentence(rng: Rng, lines: List[bytes]) -> List[bytes]:
    """Cause 19: no rule of S, or S in each of them."""
    name = lines[1].partition(b"=")[2].split(b",")[0]
    front = b"rule=" + name + b":"
    if rng.randrange(2):
        return [line for line in lines if not line.startswith(front)]
    return [line + b" " + name if line.startswith(front) else line for line in lines]


FAULTS: List[Callable[[Rng, List[bytes]], List[bytes]]] = [
    many_terminals, no_nonterminals, long_rule, equal_rule, many_rules, many_states, no_equals,
    long_name, unknown_name, declared_twice, no_sentence,
]


def faulty(rng: Rng) -> Iterator[bytes]:
    """Every kind of fault, each in texts of its own."""
    for fault in FAULTS:
        for _ in range(12):
            yield join_lines(fault(rng, lines_of(grown(rng, 4, MAX_STATES))))


def two_faults(rng: Rng) -> Iterator[bytes]:
    """Two kinds of fault in one text."""
    for _ in range(60):
        lines = lines_of(grown(rng, 4, MAX_STATES))
        for fault in rng.sample(FAULTS, 2):
            lines = fault(rng, lines)
        yield join_lines(lines)


# Too many bytes, or states.

def padding(size: int) -> List[bytes]:
    """Names that take so many bytes, each with its comma; `size` is 8 or more."""
    names: List[bytes] = []
    while size > 0:
        part = MAX_NAME + 1 if size >= 2 * (MAX_NAME + 1) else size
        if part > MAX_NAME + 1:
            part //= 2
        names.append((b"pad%d-" % len(names)).ljust(part - 1, b"y"))
        size -= part
    return names


def padded(text: bytes, size: int) -> bytes:
    """A text with names declared in both lists that no rule uses."""
    first, second, rest = text.split(b"\n", 2)
    names = padding(size - len(text))
    first, second = b",".join([first] + names[::2]), b",".join([second] + names[1::2])
    return b"\n".join([first, second, rest])


def filled(rng: Rng) -> Iterator[bytes]:
    """Around 4,096 bytes: the most that is taken, one more, and fewer."""
    for _ in range(30):
        text = small(rng)
        for size in (MAX_BYTES, MAX_BYTES + 1, MAX_BYTES - rng.randrange(1000)):
            yield padded(text, size)


def at_the_limit(rng: Rng) -> Iterator[bytes]:
    """48 states, the most that is taken, and 49."""
    for states in (MAX_STATES, MAX_STATES + 1):
        count = 0
        while count < 15:
            grammar = grown(rng, 4)
            if states_of(grammar) == states:
                count += 1
                yield text_of(grammar)


def too_long(rng: Rng) -> Iterator[bytes]:
    """More bytes than the program takes, also with other faults, also far more."""
    for size, times in ((MAX_BYTES + 1, 3), (2 * MAX_BYTES, 3), (65537, 3), (MAX_TEXT, 1),
                        (MAX_TEXT + 1, 2)):
        for _ in range(times):
            text = rng.choice([small(rng), b"", b"terminals", bytes([rng.randrange(256)])])
            yield text + bytes([rng.choice(MARKS)]) * (size - len(text))


def faulty_large(rng: Rng) -> Iterator[bytes]:
    """More states than the program takes, and a fault of the text, which comes first."""
    for _ in range(24):
        fault = rng.choice([equal_rule, unknown_name, long_rule, declared_twice, no_sentence])
        yield join_lines(fault(rng, lines_of(grown(rng, 12))))


# Long readings.

def ring(left: int, helper: int, count: int) -> List[Rule]:
    """Rules by which `left` makes `count` terminals and then itself again."""
    most = MAX_LENGTH - 1
    if count <= most:
        return [(left, (a,) * count + (left,))]
    return [(left, (a,) * most + (helper,)),
            (helper, (a,) * (count - most) + (left,))]


def counting(rng: Rng) -> Named:
    """Two ways to make a row of one terminal, which agree only in long rows.

    A makes i×p + r of it, B makes j×q + s.
    """
    while True:
        p, q = (7 + rng.randrange(10) for _ in range(2))
        r, s = (rng.randrange(3) for _ in range(2))
        rules = [(S, (A,)), (S, (B,)), (A, (a,) * r), (B, (a,) * s)]
        rules += ring(A, B + 1, p) + ring(B, B + 2, q)
        rng.shuffle(rules)
        grammar = Named(1, 5, rules, long_names(rng, 6))
        if gcd(p, q) == 1 and r != s and states_of(grammar) <= MAX_STATES:
            return grammar


def long_readings(rng: Rng) -> Iterator[bytes]:
    """Readings of a hundred words and more, of 15 bytes each."""
    for _ in range(24):
        yield text_of(counting(rng))


# Dead rules.

def grown_live(rng: Rng) -> Named:
    """A grown grammar all of whose rules are live, with room for some more."""
    while True:
        grammar = grown(rng, 4, MAX_STATES - 18)
        if kind_of(good_grammar(table_of(grammar))) is None:
            return grammar


def text_with_names(rng: Rng, rules: Rules) -> bytes:
    return text_of(with_names(rng, rules.t, rules.n, list(rules.rules)))


def with_dead_rules(rng: Rng) -> Iterator[bytes]:
    """Rules that no sentence uses, of each kind: in random grammars, and put into grown ones."""
    for kind in KINDS:
        for _ in range(24):
            yield text_with_names(rng, dead_small(rng, kind))
        for _ in range(16):
            yield text_of(dead_named(rng, grown_live(rng), kind, MAX_STATES))
    for table in telling_tables(rng, 8):
        yield text_with_names(rng, rules_of(table))


# No sentence.

def without_a_sentence(rng: Rng) -> Iterator[bytes]:
    """No sentence: small grammars, grown ones, and ones of more states than are taken."""
    for table in sentenceless(rng, 6):
        if states_of_table(table) <= MAX_STATES:
            yield text_of(named_table(rng, table))
    for most in (MAX_STATES, MOST_STATES):
        for _ in range(20):
            yield join_lines(no_sentence(rng, lines_of(grown(rng, 12, most))))
    for table in large_sentenceless(rng, 6):
        yield text_of(named_table(rng, table))


def padded_without(rng: Rng) -> Iterator[bytes]:
    """No sentence in 4,096 bytes, and in more: then 14 comes first."""
    for _ in range(12):
        text = join_lines(no_sentence(rng, lines_of(grown(rng, 4, MAX_STATES))))
        for size in (MAX_BYTES, MAX_BYTES + 1):
            yield padded(text, size)


def nearly_without(rng: Rng) -> Iterator[bytes]:
    """Only the empty sentence; sentences that need the first rule, or the last."""
    for table in nearly_sentenceless(rng, 12):
        yield text_of(named_table(rng, table))


# Case.

def used_in_another_case(rng: Rng) -> Iterator[bytes]:
    """Every use in another case than declared: grown grammars, small ones, those of the corpus."""
    texts = [text for text in corpus_texts() if len(text) <= MAX_BYTES]
    lines = [lines_of(grown(rng, 4, MAX_STATES)) for _ in range(40)]
    lines += [lines_of(lettered(rng)) for _ in range(40)]
    lines += [text.split(b"\n")[:-1] for text in texts[::2]]
    for some in lines:
        yield join_lines(respelled(rng, some, in_another_case))


def declared_in_two_cases(rng: Rng) -> Iterator[bytes]:
    """Cause 18: a name again in another case, on its line or the other one."""
    for place in range(24):
        lines = lines_of(lettered(rng) if place % 4 < 2 else grown(rng, 4, MAX_STATES))
        names = [name for name in declared_in(join_lines(lines)) if name.lower() != name.upper()]
        lines[place % 2] += b"," + in_another_case(rng, rng.choice(names))
        yield join_lines(lines)


GROUPS: Dict[str, Callable[[Rng], Iterator[bytes]]] = {
    "corpus": of_the_corpus,
    "grown": grown_small,
    "grown-large": grown_large,
    "damaged": damaged,
    "cut": cut,
    "one-fault": faulty,
    "two-faults": two_faults,
    "filled": filled,
    "at-the-limit": at_the_limit,
    "too-long": too_long,
    "faulty-large": faulty_large,
    "long-readings": long_readings,
    "dead-rules": with_dead_rules,
    "no-sentence": without_a_sentence,
    "no-sentence-padded": padded_without,
    "nearly-no-sentence": nearly_without,
    "another-case": used_in_another_case,
    "two-cases": declared_in_two_cases,
}


def samples() -> Iterator[Sample]:
    """Every group's texts, each group with a generator of its own."""
    for number, (group, texts) in enumerate(GROUPS.items()):
        for text in texts(Rng(SEED * 1000 + number)):
            yield Sample(group, text)


# What the texts are counted by.

CAUSES = [1, 4, 6, 7, 8, 16, 17, 18, 19]     # those that a text can be refused for
REASONS = ["unambiguous", "potential"] + ["refused-%d" % cause for cause in CAUSES] + [
    "readings-with-a-terminal",
    "readings-with-a-nonterminal",
    "readings-with-a-name-of-15",
    "readings-with-a-rule-of-two-digits",
    "readings-of-unequal-length",
    "readings-of-1000-bytes",
    "refused-14-bytes",
    "refused-14-states",
    "refused-14-bytes-and-otherwise-at-fault",
    "refused-for-another-cause-with-too-many-states",
    "refused-19-with-too-many-states",
    "refused-14-bytes-without-a-sentence",
    "of-4096-bytes",
    "of-4097-bytes",
    "of-48-states",
    "of-49-states",
    "refused-18-by-case",
    "unambiguous-with-a-use-in-another-case",
    "potential-with-a-use-in-another-case",
    "readings-with-a-name-that-no-rule-spells-so",
    "readings-with-capitals",
] + dead_rules.REASONS + [
    "unambiguous-formerly-potential",
    "unambiguous-formerly-of-another-size",
    "potential-formerly-with-other-readings",
] + TOLD_BY_SEARCH + sentence_reasons.RULES_REASONS + [TOLD[AFTER_14]]


def items_in(lines: Sequence[bytes]) -> int:
    """Q as the lines' spaces tell it, also where a line is at fault."""
    rules = [line for line in lines if line.startswith(b"rule=")]
    return FIXED_STATES + sum(line.count(b" ") + 1 for line in rules)


def reading_reasons(text: bytes, printed: bytes) -> List[str]:
    """What the lines after a potential verdict have in them."""
    left, right = [line.partition(b"=")[2].split(b" ") for line in printed.split(b"\n")[2:4]]
    words = set(left + right)
    terminals, nonterminals = [line.partition(b"=")[2].split(b",")
                               for line in text.split(b"\n")[:2]]
    met = [
        ("readings-with-a-terminal", not words.isdisjoint(terminals)),
        ("readings-with-a-nonterminal", not words.isdisjoint(nonterminals)),
        ("readings-with-a-name-of-15", any(len(word) == MAX_NAME for word in words)),
        ("readings-with-a-rule-of-two-digits",
         any(word[:1] in b"()" and len(word) == 3 for word in words)),
        ("readings-of-unequal-length", len(left) != len(right)),
        ("readings-of-1000-bytes", len(printed) >= LONG),
        ("readings-with-a-name-that-no-rule-spells-so", not words.isdisjoint(
            set(declared_in(text)) - {use for use, _ in uses_of(text)})),
        ("readings-with-capitals", any(word != word.lower() for word in words)),
    ]
    return [name for name, holds in met if holds]


def uses_of(text: bytes) -> List[Tuple[bytes, bytes]]:
    """The uses in a good text, each with its declaration."""
    declared = {name.lower(): name for name in declared_in(text)}
    return [(use, declared[use.lower()]) for line in text.split(b"\n")[2:-1] for use in uses_in(line)]


def case_reasons(text: bytes, verdict: str) -> List[str]:
    """Whether a text with this verdict, or a refusal with 18, is about case."""
    if verdict != "refused-18":
        other = any(use != name for use, name in uses_of(text))
        return [verdict + "-with-a-use-in-another-case"] if other else []
    first, *others = [declared_in(line + b"\n") for line in text.split(b"\n")[:2]]
    if len({name.lower() for name in first}) == len(first):
        first = first + others[0]
    return ["refused-18-by-case"] if len(set(first)) == len(first) else []


def dead_reasons(result: Text) -> List[str]:
    """What dead rules a text with a verdict has, and what was printed before document 02's [3]."""
    grammar = good_grammar((result.terminals, result.nonterminals, result.table))
    told = list(told_by_search(grammar))
    if kind_of(grammar) is None:
        return told
    former, triples = former_triples(grammar), triples_of(grammar)
    potential, was_potential = is_potential(triples), is_potential(former)
    same = found_by_search(former) == found_by_search(triples)
    met = [
        ("unambiguous-formerly-potential", was_potential and not potential),
        ("unambiguous-formerly-of-another-size", not was_potential and not same),
        ("potential-formerly-with-other-readings", potential and not same),
    ]
    return told + dead_rules.reasons_of(grammar) + [name for name, holds in met if holds]


def reasons_of(text: bytes, printed: bytes) -> List[str]:
    """Every reason of REASONS that a text meets for which this is printed."""
    result = read_lines(text)
    states = result.states if isinstance(result, Text) else 0
    first = printed.split(b"\n")[0]
    refused = first.startswith(b"refused=")
    cause = int(first[len(b"refused="):]) if refused else 0
    bytes_first = len(text) > MAX_BYTES
    rules = loose_rules(result.table) if isinstance(result, Text) else None
    none = rules is not None and not has_tree(rules)
    assert (cause == NO_SENTENCE) == (none and not bytes_first), "19 for lack of a sentence"
    states_too = cause == NO_SENTENCE and states > MAX_STATES
    met = [
        ("unambiguous", b"verdict=unambiguous\n" in printed),
        ("potential", b"verdict=potential\n" in printed),
        ("refused-14-bytes", cause == 14 and bytes_first),
        ("refused-14-states", cause == 14 and not bytes_first),
        ("refused-14-bytes-and-otherwise-at-fault",
         cause == 14 and bytes_first and isinstance(result, Refusal)),
        ("refused-for-another-cause-with-too-many-states",
         refused and cause != 14 and items_in(text.split(b"\n")) > MAX_STATES),
        ("refused-19-with-too-many-states", states_too),
        (TOLD[AFTER_14], states_too),
        ("refused-14-bytes-without-a-sentence", cause == 14 and bytes_first and none),
        ("of-4096-bytes", len(text) == MAX_BYTES),
        ("of-4097-bytes", len(text) == MAX_BYTES + 1),
        ("of-48-states", states == MAX_STATES),
        ("of-49-states", states == MAX_STATES + 1),
    ] + [("refused-%d" % number, cause == number) for number in CAUSES]
    found = [name for name, holds in met if holds]
    if not refused:
        assert isinstance(result, Text)
        found += dead_reasons(result)
    for verdict in ("unambiguous", "potential", "refused-18"):
        found += case_reasons(text, verdict) if verdict in found else []
    if rules is not None and cause != 14:
        found += of_rules(rules)
    return found + (reading_reasons(text, printed) if "potential" in found else [])
