"""The trees of one row of terminals: document 02, [12].

`find_trees` answers none, one with its rules, or several, or refuses; with that comes what
is changed in the lent work row and list. `trees_room` tells the entries of the work row.

No trees are counted. A part is a nonterminal with the places where its terminals begin and
end in the row. Which parts have a tree is found from left to right, in Earley's manner. A
way of a part is a rule of its nonterminal and the parts of the right side, each with a tree.
Whoever follows ways from S over the whole row meets parts of trees of this row alone. So if
one of them has two ways there are several trees, and else the one tree has been followed.
S→S needs no care: a part within itself also has a tree without itself, so another way.
"""

from functools import lru_cache
from typing import Dict, Iterator, List, NamedTuple, Optional, Sequence, Set, Tuple, Union

from automaton import after_dot, items_of
from tables import START, Codes, Grammar, Refusal, check_table, is_terminal

MOST_TERMINALS = 64       # "up to 64 terminals"
PLACES = 65               # "One work row of 65×65×Q 32-bit entries"
NO_ROW = 22               # "More than 64 terminals, or a code that is no terminal"
ROW_TOO_SHORT = 14        # "14 is given if it is shorter, or if the lent list is shorter"

NONE, ONE, SEVERAL = "none", "one", "several"

Part = Tuple[int, int, int]            # a nonterminal, and where its terminals begin and end
Edges = Dict[Tuple[int, int], Set[int]]    # by nonterminal and one place of its parts the other


class Way(NamedTuple):
    """A rule, numbered from 1, and the parts of the nonterminals of its right side."""

    rule: int
    parts: Tuple[Part, ...]


class Lent(NamedTuple):
    """How many entries are lent: of the work row, and of the list of rules."""

    work: int
    rules: int


class Trees(NamedTuple):
    """What is answered, and what is changed: the front of the list, and of the work row.

    `rules` are then the first entries of the list, and the first `cleared` entries of the
    work row are 0; all else stays.
    """

    answer: Union[str, Refusal]
    rules: Codes = ()
    cleared: int = 0


# Parts that have a tree.

class Dots(NamedTuple):
    """By state of document 01 what its dot stands before, and its left side; by left side dot 0."""

    after: List[Optional[int]]
    left: List[int]
    first: Dict[int, List[int]]


@lru_cache(maxsize=64)
def dots_of(grammar: Grammar) -> Dots:
    items = items_of(grammar)
    first: Dict[int, List[int]] = {}
    for state, item in enumerate(items):
        if item is not None and item.dot == 0:
            first.setdefault(item.left, []).append(state)
    return Dots([after_dot(item) for item in items],
                [-1 if item is None else item.left for item in items], first)


def ends_of(grammar: Grammar, row: Codes) -> Edges:
    """By nonterminal and begin the ends of the parts that have a tree, where a rule calls for one.

    The items (state, begin) of a place are those whose symbols before the dot are the
    terminals from there to this place.
    """
    after, left, first = dots_of(grammar)
    ends: Edges = {}
    callers: Dict[Tuple[int, int], List[Tuple[int, int]]] = {}
    ahead = [(state, 0) for state in first.get(START, [])]
    for place in range(len(row) + 1):
        here, ahead = ahead, []
        seen = set(here)
        for state, begin in here:              # `here` grows
            code = after[state]
            if code is None:
                key = left[state], begin
                known = ends.setdefault(key, set())
                if place in known:
                    continue
                known.add(place)
                found = [(caller + 1, earlier) for caller, earlier in callers.get(key, [])]
            elif code < START:
                if row[place:place + 1] == (code,):
                    ahead.append((state + 1, begin))
                continue
            else:
                key = code, place
                calling = callers.setdefault(key, [])
                found = [] if calling else [(opened, place) for opened in first.get(code, [])]
                calling.append((state, begin))
                if place in ends.get(key, ()):     # an empty part that was found before
                    found.append((state + 1, begin))
            for item in found:
                if item not in seen:
                    seen.add(item)
                    here.append(item)
    return ends


def begins_of(ends: Edges) -> Edges:
    """The same parts by nonterminal and end."""
    begins: Edges = {}
    for (code, begin), places in ends.items():
        for end in places:
            begins.setdefault((code, end), set()).add(begin)
    return begins


# Ways.

@lru_cache(maxsize=64)
def rules_by_left(grammar: Grammar) -> Dict[int, List[Tuple[int, Codes]]]:
    """By nonterminal the numbers and right sides of its rules."""
    found: Dict[int, List[Tuple[int, Codes]]] = {}
    for number, rule in enumerate(grammar.rules, 1):
        found.setdefault(rule.left, []).append((number, rule.right))
    return found


class Forest:
    """A grammar, a row of terminals, and the parts that have a tree."""

    def __init__(self, grammar: Grammar, row: Codes) -> None:
        self.row, self.rules = row, rules_by_left(grammar)
        self.ends = ends_of(grammar, row)
        self.begins = begins_of(self.ends)
        self.root: Part = START, 0, len(row)

    def has_tree(self, part: Part) -> bool:
        code, begin, end = part
        return end in self.ends.get((code, begin), ())

    def places(self, right: Codes, begin: int, end: int) -> List[Set[int]]:
        """By dot the places from which the symbols behind it reach to the end."""
        found = [{end}]
        for code in reversed(right):
            if code < START:
                before = {place - 1 for place in found[-1]
                          if place > begin and self.row[place - 1] == code}
            else:
                before = {place for later in found[-1]
                          for place in self.begins.get((code, later), ()) if place >= begin}
            found.append(before)
        return found[::-1]

    def splits(self, right: Codes, places: Sequence[Set[int]], dot: int, place: int) -> Iterator[Tuple[Part, ...]]:
        """The parts of the symbols behind a dot at a place, in every manner."""
        if dot == len(right):
            yield ()
            return
        code = right[dot]
        if code < START:
            yield from self.splits(right, places, dot + 1, place + 1)
            return
        for end in sorted(self.ends[code, place] & places[dot + 1]):
            for others in self.splits(right, places, dot + 1, end):
                yield ((code, place, end), *others)

    def ways(self, part: Part) -> Iterator[Way]:
        """Every way of a part that ways from the root lead to."""
        code, begin, end = part
        for number, right in self.rules[code]:
            places = self.places(right, begin, end)
            if begin in places[0]:
                for parts in self.splits(right, places, 0, begin):
                    yield Way(number, parts)


# One tree.

class Tree:
    """The only tree of a row: by part its only way."""

    def __init__(self, root: Part, ways: Dict[Part, Way]) -> None:
        self.root, self.ways = root, ways

    def size(self) -> int:
        """How many rules it has; a tree of few parts can have more than any list holds."""
        sizes: Dict[Part, int] = {}
        waiting = [self.root]
        while waiting:
            parts = self.ways[waiting[-1]].parts
            below = {part for part in parts if part not in sizes}
            if below:
                waiting += below
            else:
                sizes[waiting.pop()] = 1 + sum(map(sizes.__getitem__, parts))
        return sizes[self.root]

    def rules(self) -> Codes:
        """"its rules listed from the root, children left to right"."""
        found: List[int] = []
        waiting = [self.root]
        while waiting:
            way = self.ways[waiting.pop()]
            found.append(way.rule)
            waiting += reversed(way.parts)
        return tuple(found)


def only_tree(forest: Forest) -> Optional[Tree]:
    """The tree of a row that has some, None if there are several."""
    found: Dict[Part, Way] = {}
    waiting = [forest.root]
    while waiting:
        part = waiting.pop()
        if part not in found:
            ways = forest.ways(part)
            found[part] = next(ways)
            if next(ways, None) is not None:
                return None
            waiting += found[part].parts
    return Tree(forest.root, found)


@lru_cache(maxsize=256)
def trees_of(grammar: Grammar, row: Codes) -> Tuple[str, Optional[Tree], int]:
    """Which of the three answers, the one tree, and how many rules that has."""
    forest = Forest(grammar, row)
    if not forest.has_tree(forest.root):
        return NONE, None, 0
    tree = only_tree(forest)
    return (SEVERAL, None, 0) if tree is None else (ONE, tree, tree.size())


# Refusals, and what is lent.

def row_fault(t: int, row: Codes) -> Optional[int]:
    """"the first place at fault, counted from 0 (a 65th terminal is place 64)"."""
    for place, code in enumerate(row[:MOST_TERMINALS]):
        if not is_terminal(code, t):
            return place
    return MOST_TERMINALS if len(row) > MOST_TERMINALS else None


def work_entries(grammar: Grammar) -> int:
    """"65×65×Q 32-bit entries, Q as at m=0"."""
    return PLACES * PLACES * grammar.states


def trees_room(t: int, n: int, table: Codes) -> Union[int, Refusal]:
    """The entries of the work row, or the fault of the table."""
    grammar = check_table(t, n, table)
    return grammar if isinstance(grammar, Refusal) else work_entries(grammar)


def find_trees(t: int, n: int, table: Codes, row: Codes, lent: Lent) -> Trees:
    """Faults of the table, 22, 14 for the work row; then the answer, or 14 for the list.

    "every other refusal leaves both unchanged. None and several leave the list untouched."
    """
    grammar = check_table(t, n, table)
    if isinstance(grammar, Refusal):
        return Trees(grammar)
    place = row_fault(t, row)
    if place is not None:
        return Trees(Refusal(NO_ROW, place))
    needed = work_entries(grammar)
    if lent.work < needed:
        return Trees(Refusal(ROW_TOO_SHORT, 0))
    answer, tree, size = trees_of(grammar, row)
    if tree is None:
        return Trees(answer, (), needed)
    if lent.rules < size:
        return Trees(Refusal(ROW_TOO_SHORT, 0), (), needed)
    return Trees(ONE, tree.rules(), needed)


def rows_after(trees: Trees, work: Codes, rules: Codes) -> Tuple[Codes, Codes]:
    """What the lent work row and list hold afterwards, by what they held before."""
    assert trees.cleared <= len(work) and len(trees.rules) <= len(rules)
    return (0,) * trees.cleared + work[trees.cleared:], trees.rules + rules[len(trees.rules):]
