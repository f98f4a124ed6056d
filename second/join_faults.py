"""Pairs of texts that are not joined, in groups: a text at fault, or a name of two kinds.

Document 02's [10]: the robot's faults, then the module's, then 20. Most pairs also have a
fault that comes later.
"""

from typing import Iterator, List, Optional, Sequence

from case_files import Rng
from join_pairs import (
    HEATING, ROBOT, SPELLINGS, Pair, couple, fresh_names, module_for, module_of, put_together,
    spelled_text,
)
from named_grammars import Named, join_lines, lines_of, small_named, text_of
from sentence_grammars import named_table, sentenceless
from spelling import Respell, in_another_case, lettered, respelled_rule
from spelling_reasons import uses_in
from text import MAX_TEXT
from text_read_inputs import change, damage, faulty_list, faulty_rule_line, put, spoiled


# Texts with one fault.

def faulty_lists(rng: Rng, grammar: Named) -> Iterator[bytes]:
    """16, 18 and 1 on lines 1 and 2; lines that are missing."""
    lines = lines_of(grammar)
    for place in (0, 1):
        yield join_lines(change(lines, place, spoiled(rng, lines[place])))
        key, _, value = lines[place].partition(b"=")
        names = value.split(b",") if value else []
        yield join_lines(change(lines, place, faulty_list(rng, key, names, [], 2)))
    other = in_another_case(rng, rng.choice(grammar.names))
    yield join_lines(change(lines, 1, lines[1] + b"," + other))
    yield join_lines(change(lines, 1, b"nonterminals="))
    yield rng.choice([b"", join_lines(lines[:1]), lines[0], join_lines(lines[:2])[:-1], join_lines(lines[1:])])


def faulty_rules(rng: Rng, grammar: Named) -> Iterator[bytes]:
    """16, 17 and 4 on a rule's line; a rule that equals another; an end that is missing."""
    lines = lines_of(grammar)
    for fault in (1, 2, 4):
        place = 2 + rng.randrange(len(lines) - 1)
        yield join_lines(put(lines, place, [faulty_rule_line(rng, grammar, fault)]))
    again = rng.choice(lines[2:])
    yield join_lines(lines + [again])
    yield join_lines(lines + [respelled_rule(rng, again, in_another_case)])
    yield join_lines(lines)[:-1]


def faulty(rng: Rng, grammar: Named) -> Iterator[bytes]:
    """The grammar's text with each of these faults; it has a terminal and a rule at least."""
    yield from faulty_lists(rng, grammar)
    yield from faulty_rules(rng, grammar)


def some_fault(rng: Rng, grammar: Named) -> bytes:
    """The grammar's text with one of these faults."""
    return rng.choice(list(faulty(rng, grammar)))


# Modules and names of two kinds.

def crossing(rng: Rng, robot: Named, lines: Sequence[int], spell: Optional[Respell] = None) -> Named:
    """A module that declares on these lines a name that is of the other kind in the robot's text.

    It has a terminal and a rule at least.
    """
    spell = spell or rng.choice(SPELLINGS)
    while True:
        terminals = rng.sample(robot.names[robot.t:], 1) if 1 in lines else []
        nonterminals = rng.sample(robot.names[:robot.t], 1) if 2 in lines else []
        module = module_for(rng, robot, spell, terminals, nonterminals)
        if module.t > 0 and module.rules:
            return module


CROSSED: List[Sequence[int]] = [(1,), (2,), (1, 2)]


# Groups.

def names_of_two_kinds(rng: Rng) -> Iterator[Pair]:
    """20 at line 1, at line 2, and both; spelled alike and in another case."""
    for _ in range(70):
        robot = lettered(rng, 4)
        for lines in CROSSED:
            module = crossing(rng, robot, lines)
            yield Pair(spelled_text(rng, robot), spelled_text(rng, module))
        module = crossing(rng, robot, rng.choice(CROSSED), in_another_case)
        yield Pair(text_of(robot), text_of(module._replace(rules=[])))
    for robot, module in (
        (ROBOT, HEATING.replace(b"deg", b"P")),
        (ROBOT, HEATING.replace(b"=T", b"=Give").replace(b" T", b" Give")),
        (ROBOT, b"terminals=p\nnonterminals=VOL\n"), (ROBOT, b"terminals=\nnonterminals=X,GIVE\n"),
        (b"terminals=X\nnonterminals=s\nrule=S:\n", b"terminals=S\nnonterminals=x\nrule=X:\n"),
    ):
        yield Pair(robot, module)


def module_at_fault(rng: Rng) -> Iterator[Pair]:
    """Each cause of a module's text, with names of two kinds beside it and without them."""
    for _ in range(22):
        robot = lettered(rng, 4)
        for lines in ((), rng.choice(CROSSED)):
            for module in faulty(rng, crossing(rng, robot, lines)):
                yield Pair(spelled_text(rng, robot), module)


def undeclared(rng: Rng) -> Iterator[Pair]:
    """Modules of which a rule uses a name that the robot's text alone declares."""
    for _ in range(50):
        robot = lettered(rng, 4)
        lists = [rng.sample(names, len(names)) for names in (robot.names[:robot.t], robot.names[robot.t:])]
        module = module_of(rng, robot, *lists, rng.choice(SPELLINGS), 3)
        rules = lines_of(module)[2:] or [b"rule=%s: %s" % (lists[1][0], lists[0][0])]
        left_out = rng.choice(uses_in(rng.choice(rules))).lower()
        kept = [[name for name in names if name.lower() != left_out] for names in lists]
        yield Pair(text_of(robot), put_together(kept[0], kept[1] or fresh_names(rng, 1, robot.names),
                                                [rule[len(b"rule="):] for rule in rules]))
    yield Pair(ROBOT, b"terminals=heat\nnonterminals=H\nrule=K: heat\n")
    yield Pair(ROBOT, b"terminals=heat\nnonterminals=k\nrule=K: heat vol\n")


def robot_at_fault(rng: Rng) -> Iterator[Pair]:
    """Each cause of a robot's text, with a good module, one at fault, and names of two kinds."""
    for _ in range(22):
        robot = lettered(rng, 4)
        good = text_of(module_for(rng, robot, rng.choice(SPELLINGS)))
        wrong = some_fault(rng, crossing(rng, robot, rng.choice([(), *CROSSED])))
        crossed = text_of(crossing(rng, robot, rng.choice(CROSSED)))
        for text in faulty(rng, robot):
            yield Pair(text, rng.choice([good, wrong, crossed]))


def without_sentences(rng: Rng) -> Iterator[Pair]:
    """A robot's text without sentences, though the module gives it one; such texts as modules."""
    for table in sentenceless(rng, 7):
        grammar = named_table(rng, table)
        text = text_of(grammar)
        start = grammar.names[grammar.t]
        yield Pair(text, put_together([], [start], [start + b":"]))
        crossed = put_together([start], [start[:14] + b"-"])
        yield Pair(text, rng.choice([text, HEATING, text[:-1], crossed]))
        yield Pair(text_of(small_named(rng)), text)
        yield Pair(text + b"rule=%s:\n" % start, text)


def both_at_fault(rng: Rng) -> Iterator[Pair]:
    """A fault of each text."""
    for _ in range(14):
        robot = lettered(rng, 4)
        for text in faulty(rng, robot):
            yield Pair(text, some_fault(rng, crossing(rng, robot, rng.choice([(), *CROSSED]))))


def from_few_names(rng: Rng) -> Iterator[Pair]:
    """Texts made of five names in either case: many are shared, of two kinds, declared twice or unknown."""
    for _ in range(700):
        yield Pair(few_names(rng, rng.randrange(8)), few_names(rng, rng.randrange(8)))


def few_names(rng: Rng, fault: int) -> bytes:
    """Such a text; with a fault of 0 a name may be declared twice or unknown, or nonterminals missing."""
    names = [in_another_case(rng, name) if rng.randrange(2) else name for name in rng.sample(
        [b"ab", b"b", b"c", b"s", b"ba"], rng.randrange(1, 6))]
    split = rng.randrange(len(names) + (fault == 0))
    lists = [names[:split], names[split:] + [rng.choice(names)] * (fault == 0 and rng.randrange(3) == 0)]
    lefts = lists[1] if fault else [b"ab", b"s"]
    rules = {rng.choice(lefts).lower() + b":" + b"".join(
        b" " + rng.choice(names).lower() for _ in range(rng.randrange(3))) for _ in range(rng.randrange(5))}
    rules.update([lefts[0].lower() + b":"] * (rng.randrange(3) > 0))
    return put_together(*lists, [rng.choice([rule, rule.upper()]) for rule in sorted(rules)])


def damaged(rng: Rng) -> Iterator[Pair]:
    """Pairs of which one text, or both, have a byte or a stretch changed."""
    for _ in range(450):
        robot, module = couple(rng)
        kind = rng.randrange(5)
        robot = damage(rng, robot) if kind in (0, 4) else robot
        module = damage(rng, module) if kind > 0 else module
        yield Pair(robot, module)


def noise(rng: Rng) -> Iterator[Pair]:
    """Bytes that are no text, beside a good text or another such."""
    texts = [b"", b"\n", b"\n\n", b"\0", b"terminals", b"terminals=", b"terminals=\n", b"=\n=\n", b" ",
             b"terminals=\nnonterminals=\n", b"terminals=\nnonterminals=S", ROBOT + b"\n", ROBOT[:-1],
             ROBOT.replace(b"\n", b"\r\n"), ROBOT + b"#\n", HEATING.upper(), HEATING[1:], b"\n" + HEATING,
             ROBOT + HEATING, HEATING + ROBOT, b"\xef\xbb\xbf" + ROBOT]
    for text in texts:
        for other in (ROBOT, HEATING, rng.choice(texts)):
            yield Pair(text, other)
            yield Pair(other, text)
    for _ in range(60):
        size = rng.randrange(40)
        pair = [bytes(rng.randrange(256) for _ in range(size)), ROBOT]
        rng.shuffle(pair)
        yield Pair(*pair)


def too_long(rng: Rng) -> Iterator[Pair]:
    """Texts of 262,144 bytes and one more, as the robot's and as the module's."""
    front = b"terminals=P\nnonterminals=take\nrule=take:"
    for size in (MAX_TEXT, MAX_TEXT + 1):
        long = front + b" " * (size - len(front) - 1) + b"\n"
        yield Pair(long, HEATING)
        yield Pair(ROBOT, long)
    yield Pair(long, b"")
    yield Pair(HEATING, ROBOT + b"\n" * (MAX_TEXT + 1 - len(ROBOT)))


GROUPS = [
    names_of_two_kinds, module_at_fault, undeclared, robot_at_fault, without_sentences,
    both_at_fault, from_few_names, damaged, noise, too_long,
]
