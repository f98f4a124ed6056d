"""Looks for a sentence with two derivation trees, best first.

`two_trees` gives the trees of a Pair, or None where none were found within the
limit: that says nothing of the grammar. Two walks through trees are taken at a
time, each with the stack of its open rules. Layers and moves are those of the
triples, so the distance to (1,1,1) in their graph is never more than the walks
need. Between two symbols the left walk moves first. What is found is counted
again by trees.py.
"""

from typing import Dict, List, NamedTuple, Optional, Sequence, Tuple

from automaton import AFTER_START, BEFORE_START, END, Item, after_dot, taken_items
from live import live_rules
from tables import START, Codes, Grammar
from trees import MOST, tree_count
from triples import Triple, Triples, index_of, reached, triples_of

KEPT = 150_000            # pairs of stacks: some seconds
LONGEST = 200             # terminals of a sentence that is counted again
EMPTY = 0                 # the number of the stack without items

Tree = Tuple[int, ...]    # rule numbers, and codes as negative numbers; a node before its children


class TwoTrees(NamedTuple):
    """A sentence of terminals, and two different trees of it."""

    sentence: Codes
    left: Tree
    right: Tree


class Stacks:
    """Stacks of items by number; equal ones have equal numbers."""

    def __init__(self, items: Sequence[Optional[Item]]) -> None:
        self.items = items
        self.tops, self.below, self.depths, self.rests = [END], [EMPTY], [0], [0]
        self.numbers: Dict[Tuple[int, int], int] = {}

    def push(self, below: int, top: int) -> int:
        known = self.numbers.get((below, top))
        if known is not None:
            return known
        item = self.items[top]
        number = self.numbers[below, top] = len(self.tops)
        self.tops.append(top)
        self.below.append(below)
        self.depths.append(self.depths[below] + 1)
        self.rests.append(self.rests[below] - (below != EMPTY) + len(item.right) - item.dot)
        return number

    def shifted(self, stack: int) -> int:
        return self.push(self.below[stack], self.tops[stack] + 1)

    def closed(self, stack: int) -> int:
        caller = self.below[stack]
        return EMPTY if caller == EMPTY else self.shifted(caller)


def distances(triples: Triples) -> Dict[int, int]:
    """By index of a reached triple the number of moves to (1,1,1)."""
    before: Dict[int, List[int]] = {}
    for index in reached(triples):
        for after in triples.successors(index):
            before.setdefault(after, []).append(index)
    found = {triples.last: 0}
    row = [triples.last]
    for index in row:
        for earlier in before.get(index, []):
            if earlier not in found:
                found[earlier] = found[index] + 1
                row.append(earlier)
    return found


Pair = Tuple[int, int, int, int]     # layer, whether only the right walk may move, left stack, right stack
Built = Tuple[Optional["Built"], int, int]     # what was built before, a node of the left tree, one of the right tree; 0 for none


class Search:
    """The pairs that are kept, by what they cost and still need at least."""

    def __init__(self, grammar: Grammar) -> None:
        self.triples = triples_of(grammar)
        self.items = taken_items(grammar, live_rules(grammar))
        self.stacks = Stacks(self.items)
        self.left = distances(self.triples)
        self.costs: Dict[Pair, int] = {}
        self.queue: List[List[Tuple[Pair, int, Built]]] = []

    def ahead(self, pair: Pair) -> Optional[int]:
        """At least so many moves are left; None if no way leads to (1,1,1)."""
        layer, _, left, right = pair
        stacks = self.stacks
        triple = Triple(layer, stacks.tops[left], stacks.tops[right])
        distance = self.left.get(index_of(self.triples.states, triple))
        if distance is None:
            return None
        closings = stacks.depths[left] + stacks.depths[right] - (layer == 0)
        return max(distance, closings + max(stacks.rests[left], stacks.rests[right]))

    def add(self, pair: Pair, cost: int, built: Built) -> None:
        ahead = self.ahead(pair)
        if ahead is None or self.costs.get(pair, cost + 1) <= cost:
            return
        self.costs[pair] = cost
        while len(self.queue) <= cost + ahead:
            self.queue.append([])
        self.queue[cost + ahead].append((pair, cost, built))

    def openings(self, top: int) -> Sequence[Tuple[int, int]]:
        return self.triples.automaton.openings[top]

    def ends(self, top: int) -> bool:
        item = self.items[top]
        return item is not None and item.dot == len(item.right)

    def expand(self, pair: Pair, cost: int, built: Built) -> None:
        layer, turn, left, right = pair
        stacks = self.stacks
        tops = stacks.tops[left], stacks.tops[right]
        if layer == 1 and turn == 0 and self.ends(tops[0]):
            return self.add((1, 0, stacks.closed(left), right), cost, built)
        if turn == 0:
            for rule, top in self.openings(tops[0]):
                self.add((layer, 0, stacks.push(left, top), right), cost, (built, rule, 0))
        for rule, top in self.openings(tops[1]):
            self.add((layer, 1, left, stacks.push(right, top)), cost, (built, 0, rule))
        code = after_dot(self.items[tops[0]])
        if code is not None and code == after_dot(self.items[tops[1]]):
            self.add((layer, 0, stacks.shifted(left), stacks.shifted(right)), cost, (built, -code, -code))
        if layer == 1 and self.ends(tops[1]):
            self.add((1, 1, left, stacks.closed(right)), cost, built)
        if layer == 0 and self.parts(tops):
            closed = [stacks.closed(stack) if self.ends(top) else stack for stack, top in zip((left, right), tops)]
            self.add((1, 0, closed[0], closed[1]), cost, built)
        return None

    def parts(self, tops: Tuple[int, int]) -> bool:
        """Whether two readings part here."""
        ends = self.ends(tops[0]), self.ends(tops[1])
        if all(ends):
            return self.items[tops[0]].rule != self.items[tops[1]].rule
        before = [self.triples.automaton.before_terminal[top] for top in tops]
        return ends[0] and before[1] or ends[1] and before[0]

    def found(self, most: int) -> Optional[Built]:
        """What a cheapest pair of walks has built; None if there are too many."""
        first = self.stacks.push(EMPTY, BEFORE_START)
        self.add((0, 0, first, first), 0, (None, 0, 0))
        total = 0
        while total < len(self.queue) and len(self.costs) < most:
            if not self.queue[total]:
                total += 1
                continue
            pair, cost, built = self.queue[total].pop()
            if pair[0] == 1 and pair[2] == pair[3] == EMPTY:
                return built
            if self.costs[pair] == cost:
                self.expand(pair, cost + 1, built)
        return None


def trees_in(built: Optional[Built]) -> Tuple[List[int], List[int]]:
    """The nodes of both trees in order."""
    left: List[int] = []
    right: List[int] = []
    while built is not None:
        built, on_left, on_right = built
        left += [on_left] if on_left else []
        right += [on_right] if on_right else []
    return left[::-1], right[::-1]


def shortest_rules(grammar: Grammar, shown: bool) -> Dict[int, int]:
    """By nonterminal the rule that begins a shortest sentence, one that is not empty if it is to be shown."""
    lengths: Dict[int, int] = {}
    rules: Dict[int, int] = {}
    changed = True
    while changed:
        changed = False
        for number, rule in enumerate(grammar.rules, 1):
            parts = [1 if code < START else lengths.get(code) for code in rule.right]
            if None in parts or shown and not parts:
                continue
            length = sum(part for part in parts if part is not None)
            if rule.left not in lengths or length < lengths[rule.left]:
                lengths[rule.left], rules[rule.left] = length, number
                changed = True
    return rules


def filled(grammar: Grammar, tree: Sequence[int], rules: Dict[int, int]) -> Optional[Tree]:
    """The tree with a shortest sentence for each nonterminal that stands for itself."""
    nodes: List[int] = []
    waiting = list(reversed(tree))
    while waiting and len(nodes) <= 20 * LONGEST:
        node = waiting.pop()
        if -node >= START:
            if -node not in rules:
                return None
            node = rules[-node]
            waiting += [-code for code in reversed(grammar.rules[node - 1].right)]
        nodes.append(node)
    return None if waiting else tuple(nodes)


def two_trees(grammar: Grammar, most: int = KEPT) -> Optional[TwoTrees]:
    """A sentence with two trees; None if none was found."""
    built = Search(grammar).found(most)
    if built is None:
        return None
    pair = trees_in(built)
    for shown in False, True:
        rules = shortest_rules(grammar, shown)
        left, right = (filled(grammar, tree, rules) for tree in pair)
        if left is None or right is None or left == right:
            continue
        sentence = tuple(-node for node in left if node < 0)
        if len(sentence) <= LONGEST and tree_count(grammar, sentence) == MOST:
            return TwoTrees(sentence, left, right)
    return None


assert AFTER_START == BEFORE_START + 1, "rule 0 has one symbol"
