"""Pairs of a robot's and a module's text that can be joined, in groups: document 02, [10].

Modules share some of the robot's names, spelled alike or in another case, and some of its
rules. They may lack terminals, rules and sentences.
"""

from typing import Dict, Iterator, List, NamedTuple, Sequence

from case_files import Rng
from named_grammars import (
    Named, join_lines, lines_of, name_of, random_length, random_name, rule_line, small_named,
    text_of,
)
from random_tables import Rule, random_code, random_rules, with_sentence
from robot_grammars import grown
from spelling import (
    Respell, apart, in_another_case, lettered, lettered_names, places_apart, respelled, some_uses,
)
from tables import MAX_LENGTH, START

ROBOT = (b"terminals=take,give,vol\nnonterminals=P,K\nrule=P:\nrule=P: P K\n"
         b"rule=K: take vol\nrule=K: give vol\n")
HEATING = (b"terminals=heat,Vol,Take,deg\nnonterminals=T,k\nrule=k: heat T\nrule=T: deg\n"
           b"rule=k: take vol\nrule=T: T deg\n")
NO_TERMINALS = b"terminals=\nnonterminals=S\nrule=S:\n"


class Pair(NamedTuple):
    robot: bytes
    module: bytes


# Modules.

def as_it_is(rng: Rng, name: bytes) -> bytes:
    return name


SPELLINGS: List[Respell] = [as_it_is, in_another_case, some_uses(in_another_case)]


def put_together(
    terminals: Sequence[bytes], nonterminals: Sequence[bytes], rules: Sequence[bytes] = ()
) -> bytes:
    """The text of these names and of rules as they stand after `rule=`."""
    return join_lines([b"terminals=" + b",".join(terminals), b"nonterminals=" + b",".join(nonterminals)]
                      + [b"rule=" + rule for rule in rules])


def fresh_names(rng: Rng, count: int, taken: Sequence[bytes]) -> List[bytes]:
    """Different names that are not among these, in no case."""
    known = {name.lower() for name in taken}
    names: Dict[bytes, bytes] = {}
    while len(names) < count:
        name = random_name(rng, random_length(rng))
        if name.lower() not in known:
            names.setdefault(name.lower(), name)
    return list(names.values())


def some(rng: Rng, names: Sequence[bytes]) -> List[bytes]:
    """None, all or some of the names, in any order."""
    count = rng.choice([0, len(names), rng.randrange(len(names) + 1), rng.randrange(len(names) + 1)])
    return rng.sample(list(names), count)


def carried(robot: Named, terminals: Sequence[bytes], nonterminals: Sequence[bytes]) -> List[Rule]:
    """The robot's rules all of whose names are in these lists, by the places there."""
    codes = {}
    for first, names in ((1, terminals), (START, nonterminals)):
        codes.update(((name.lower(), first == START), first + place)
                     for place, name in enumerate(names))
    def code_of(code: int) -> int:
        return codes.get((name_of(robot, code).lower(), code >= START), 0)
    rules = [(code_of(left), tuple(map(code_of, right))) for left, right in robot.rules]
    return [(left, right) for left, right in rules if left and all(right)]


def module_of(
    rng: Rng, robot: Named, terminals: Sequence[bytes], nonterminals: Sequence[bytes],
    spell: Respell = as_it_is, most: int = 4
) -> Named:
    """A module with these names, those that are also the robot's spelled so; any of its rules, and others."""
    shared = {name.lower() for name in robot.names}
    names = [spell(rng, name) if name.lower() in shared else name
             for name in [*terminals, *nonterminals]]
    t, n = len(terminals), len(nonterminals)
    rules = carried(robot, terminals, nonterminals)
    rules = rng.sample(rules, rng.choice([0, len(rules), rng.randrange(len(rules) + 1)]))
    rules += random_rules(rng, t, n, [rng.randrange(4) for _ in range(rng.randrange(most + 1))])
    if rng.randrange(3):
        rng.shuffle(rules)
    return Named(t, n, list(dict.fromkeys(rules)), names)


def module_for(
    rng: Rng, robot: Named, spell: Respell = as_it_is, as_terminals: Sequence[bytes] = (),
    as_nonterminals: Sequence[bytes] = (), most: int = 4
) -> Named:
    """A module with some of the robot's names and own ones, in any order.

    It also declares the names of `as_terminals` and `as_nonterminals`, the robot's of the other kind.
    """
    crossed = [*as_terminals, *as_nonterminals]
    left = [name for name in robot.names if name not in crossed]
    terminals = some(rng, [name for name in left if name in robot.names[:robot.t]])
    nonterminals = some(rng, [name for name in left if name in robot.names[robot.t:]])
    own = fresh_names(rng, rng.randrange(5), robot.names)
    split = rng.randrange(len(own) + 1)
    terminals += own[:split] + list(as_terminals)
    nonterminals += own[split:] + list(as_nonterminals)
    if not nonterminals:
        nonterminals = fresh_names(rng, 1, [*robot.names, *own])
    for names in (terminals, nonterminals):
        if rng.randrange(3):
            rng.shuffle(names)
    return module_of(rng, robot, terminals, nonterminals, spell, most)


def spelled_text(rng: Rng, grammar: Named) -> bytes:
    """The grammar's text, now and then with uses in another case than declared."""
    lines = lines_of(grammar)
    return join_lines(respelled(rng, lines, in_another_case) if rng.randrange(4) == 0 else lines)


def couple(rng: Rng, most: int = 6) -> Pair:
    """A small robot's grammar and a module for it."""
    robot = rng.choice([small_named, lettered])(rng, most)
    module = module_for(rng, robot, rng.choice(SPELLINGS))
    return Pair(spelled_text(rng, robot), spelled_text(rng, module))


# Groups.

def by_hand(rng: Rng) -> Iterator[Pair]:
    """The heating module, texts with hardly anything in them, and every two of all these."""
    texts = [
        ROBOT, HEATING, NO_TERMINALS, b"terminals=\nnonterminals=s\n", b"terminals=a\nnonterminals=S\nrule=S: a\n",
        b"terminals=A\nnonterminals=X,s\nrule=s: a\nrule=X: A s\n", b"terminals=b\nnonterminals=W\nrule=W: b\n",
        b"terminals=b,a\nnonterminals=S\nrule=S: b\nrule=S: a\n", b"terminals=\nnonterminals=P\nrule=P: P\n",
        b"terminals=Rule,terminals\nnonterminals=nonterminals\nrule=nonterminals: terminals RULE\n",
        b"terminals=-,0\nnonterminals=S,P,m\nrule=S: P 0 m\nrule=P:\nrule=M: -\n",
    ]
    for robot in texts:
        for module in texts:
            yield Pair(robot, module)


def couples(rng: Rng) -> Iterator[Pair]:
    for _ in range(900):
        yield couple(rng, rng.choice([2, 6, 12]))


def itself(rng: Rng) -> Iterator[Pair]:
    """The robot's own text as the module: as it is, in another case, its lists or rules in another order."""
    for _ in range(45):
        robot = lettered(rng, 5)
        text = text_of(robot)
        yield Pair(text, text)
        terminals, nonterminals = robot.names[:robot.t], robot.names[robot.t:]
        rules = [rule_line(robot, rule)[len(b"rule="):] for rule in robot.rules]
        for spell in SPELLINGS[:2]:
            orders = [(terminals, nonterminals), (terminals[::-1], nonterminals[::-1]),
                      (terminals, nonterminals[1:] + nonterminals[:1])]
            first, second = rng.choice(orders)
            listed = [[spell(rng, name) for name in names] for names in (first, second)]
            yield Pair(text, put_together(*listed, rules))
            yield Pair(text, put_together(*listed, rng.sample(rules, len(rules))))
            yield Pair(text, put_together(*listed))
            one = [spell(rng, name) for name in rng.sample(nonterminals, 1)]
            yield Pair(text, put_together([], one))


def only_names(rng: Rng) -> Iterator[Pair]:
    """Modules that add names alone, without rules or with rules that are there already."""
    for _ in range(45):
        robot = lettered(rng, 5)
        names = fresh_names(rng, 1 + rng.randrange(4), robot.names)
        split = rng.randrange(len(names) + 1)
        spell = rng.choice(SPELLINGS)
        terminals, nonterminals = [
            rng.sample(both, len(both)) for both in (robot.names[:robot.t] + names[:split],
                                                     names[split:] + robot.names[robot.t:])]
        module = module_of(rng, robot, terminals, nonterminals, spell, 0)
        yield Pair(text_of(robot), text_of(module))
        yield Pair(text_of(robot), text_of(module._replace(rules=[])))
        yield Pair(text_of(robot), put_together(names, [spell(rng, robot.names[-1])]))


def only_rules(rng: Rng) -> Iterator[Pair]:
    """Modules that add rules alone."""
    for _ in range(60):
        robot = rng.choice([small_named, lettered])(rng, 4)
        lists = [rng.sample(names, len(names)) for names in (robot.names[:robot.t], robot.names[robot.t:])]
        yield Pair(text_of(robot), text_of(module_of(rng, robot, *lists, rng.choice(SPELLINGS), 6)))


def grown_pairs(rng: Rng) -> Iterator[Pair]:
    """Two grammars of robot commands, which share most parts."""
    for _ in range(70):
        robot, module = (grown(rng, rng.choice([2, 5, 9])) for _ in range(2))
        yield Pair(spelled_text(rng, robot), spelled_text(rng, module))


def nearly_shared(rng: Rng) -> Iterator[Pair]:
    """Names of the module that differ by 32 from the robot's in a digit or hyphen, or in length."""
    for _ in range(60):
        robot = lettered(rng, 4)
        places = [place for place, name in enumerate(robot.names) if places_apart(name)]
        if not places:
            robot.names[0] = (b"Q7-" + robot.names[0])[:15]
            places = [0]
        name = robot.names[rng.choice(places)]
        for near in (apart(rng, name), (name + b"-")[:15], name[:-1] or b"q-"):
            if near.lower() not in {other.lower() for other in robot.names}:
                first, second = rng.choice([([near], [robot.names[-1]]), ([], [near]), ([], [robot.names[-1], near])])
                yield Pair(text_of(robot), text_of(module_of(rng, robot, first, second)))


def nearly_there(rng: Rng) -> Iterator[Pair]:
    """Rules of the robot, and ones that differ from them in a symbol, in the left side, or in length."""
    for _ in range(60):
        t, n = 1 + rng.randrange(4), 1 + rng.randrange(3)
        lengths = [rng.choice([0, 1, 2, 5, 11, 12]) for _ in range(4)]
        rules = with_sentence(rng, t, random_rules(rng, t, n, lengths))
        robot = Named(t, n, rules, lettered_names(rng, t + n))
        lists = [rng.sample(names, len(names)) for names in (robot.names[:t], robot.names[t:])]
        near = [rule for rule in rules for rule in (rule, *near_rules(rng, robot, rule))]
        near = rng.sample(near, rng.randrange(1, len(near) + 1))
        module = module_of(rng, robot, *lists, rng.choice(SPELLINGS), 0)
        added = carried(robot._replace(rules=near), *lists)
        yield Pair(text_of(robot), text_of(module._replace(rules=list(dict.fromkeys(module.rules + added)))))


def near_rules(rng: Rng, robot: Named, rule: Rule) -> Iterator[Rule]:
    """A rule with one symbol changed, one less, one more, and another left side."""
    left, right = rule
    if right:
        place = rng.choice([0, len(right) - 1, rng.randrange(len(right))])
        yield left, right[:place] + (random_code(rng, robot.t, robot.n),) + right[place + 1:]
        yield left, right[:-1]
    if len(right) < MAX_LENGTH:
        yield left, right + (random_code(rng, robot.t, robot.n),)
    yield START + rng.randrange(robot.n), right


GROUPS = [by_hand, couples, itself, only_names, only_rules, grown_pairs, nearly_shared, nearly_there]
