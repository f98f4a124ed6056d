"""Two trees of a sentence as lines, beginning at the smallest part in which they differ.

`explained` says what ambig-certify says of such a pair, in its words; the
trees stand one below the other. `headline` is the place of the rule to look at.
"""

from typing import List, NamedTuple, Sequence, Set, Tuple

from places import Place
from readings import NamedGrammar, Pair
from tables import START, Grammar
from triples import CLOSING, OPENING, SYMBOL, Move
from two_trees import Tree, TwoTrees

LISTS = 2                 # lines in front of the rules
INDENT = "  "
MOST_PASSED = 16          # symbols that are shown of those before a parting
COLUMN = len("rule=") + 1


class Side(NamedTuple):
    """What a reading does next, and the rule that ends or goes on with a symbol; 0 for the end of what is read."""

    move: Move
    rule: int


class Parting(NamedTuple):
    """What is read, the symbols before two readings part, and what either side does next."""

    root: int
    passed: List[int]
    left: Side
    right: Side


class Explained(NamedTuple):
    """Lines about two trees, and where they part."""

    lines: str
    parting: Parting


class Part(NamedTuple):
    """A subtree: where its nodes begin and end, and where its part of the row begins."""

    begin: int
    end: int
    row: int


def ends_of(grammar: Grammar, tree: Sequence[int]) -> List[int]:
    """By place of a node the place behind its subtree."""
    ends = [0] * len(tree)
    for place in reversed(range(len(tree))):
        end = place + 1
        if tree[place] > 0:
            for _ in grammar.rules[tree[place] - 1].right:
                end = ends[end]
        ends[place] = end
    return ends


def children_at(grammar: Grammar, tree: Sequence[int], ends: Sequence[int], place: int) -> List[int]:
    """The places of a node's children."""
    children = []
    child = place + 1
    while tree[place] > 0 and len(children) < len(grammar.rules[tree[place] - 1].right):
        children.append(child)
        child = ends[child]
    return children


def row_of(tree: Sequence[int]) -> List[int]:
    """The codes of the leaves."""
    return [-node for node in tree if node < 0]


def smallest(grammar: Grammar, left: Tree, right: Tree) -> Tuple[int, Tree, Tree]:
    """The smallest part of two trees in which they differ, with the code of its root."""
    code = START
    while left[0] == right[0] > 0:
        sides = []
        for tree in left, right:
            ends = ends_of(grammar, tree)
            sides.append([tree[child:ends[child]] for child in children_at(grammar, tree, ends, 0)])
        symbols = grammar.rules[left[0] - 1].right
        parts = [part for part in zip(symbols, *sides) if part[1] != part[2] and row_of(part[1]) == row_of(part[2])]
        if not parts:
            break
        code, left, right = parts[0]
    return code, left, right


def parts_of(grammar: Grammar, tree: Tree) -> List[Part]:
    """The subtrees below the root that apply a rule and have a part of the row."""
    ends = ends_of(grammar, tree)
    found, row = [], 0
    for place, node in enumerate(tree):
        if node < 0:
            row += 1
        elif place > 0 and any(leaf < 0 for leaf in tree[place:ends[place]]):
            found.append(Part(place, ends[place], row))
    return found


def folded(grammar: Grammar, tree: Tree, other: Tree) -> Tree:
    """The tree with a leaf in place of each largest subtree that the other tree has over the same part of the row."""
    common: Set[Tuple[int, Tree]] = {(part.row, other[part.begin:part.end]) for part in parts_of(grammar, other)}
    nodes: List[int] = []
    done = 0
    for part in parts_of(grammar, tree):
        if part.begin >= done and (part.row, tree[part.begin:part.end]) in common:
            nodes += tree[done:part.begin] + (-grammar.rules[tree[part.begin] - 1].left,)
            done = part.end
    return tuple(nodes) + tree[done:]


def walk(grammar: Grammar, tree: Tree) -> List[Side]:
    """The symbols and the closings of a tree in order; last comes the closing of rule 0."""
    moves: List[Side] = []
    waiting = [(0, 1)]    # the open rules, each with the number of children that are still to come
    for node in tree:
        rule, missing = waiting.pop()
        waiting.append((rule, missing - 1))
        if node < 0:
            moves.append(Side((SYMBOL, -node), rule))
        else:
            waiting.append((node, len(grammar.rules[node - 1].right)))
        while waiting and waiting[-1][1] == 0:
            rule, _ = waiting.pop()
            moves.append(Side((CLOSING, rule), rule))
    return moves


def string_walk(string: Sequence[Move]) -> List[Side]:
    """The symbols and the closings of a string. Up to its first closing a symbol is one of the rule that was opened last."""
    moves: List[Side] = []
    rule = 0
    for move in string:
        if move[0] == OPENING:
            rule = move[1]
        else:
            moves.append(Side(move, move[1] if move[0] == CLOSING else rule))
    return moves


def parted(root: int, left: Sequence[Side], right: Sequence[Side]) -> Parting:
    """What either side does first that the other does not."""
    place = next(place for place, pair in enumerate(zip(left, right)) if pair[0].move != pair[1].move)
    passed = [side.move[1] for side in left[:place] if side.move[0] == SYMBOL]
    return Parting(root, passed, left[place], right[place])


def of_trees(grammar: Grammar, root: int, left: Tree, right: Tree) -> Parting:
    return parted(root, walk(grammar, left), walk(grammar, right))


def of_strings(strings: Pair) -> Parting:
    return parted(START, string_walk(strings.left), string_walk(strings.right))


def likeness(one: Side, other: Side) -> int:
    return 4 * (one.move == other.move) + 2 * (one.rule == other.rule) + (one.move[0] == other.move[0])


def is_mirrored(trees: Parting, strings: Parting) -> bool:
    """Whether the left tree is more like the right string, and the right one like the left."""
    same = likeness(trees.left, strings.left) + likeness(trees.right, strings.right)
    return likeness(trees.left, strings.right) + likeness(trees.right, strings.left) > same


def names_of(named: NamedGrammar, codes: Sequence[int]) -> str:
    """The names of a row of symbols."""
    terminals = named.grammar.terminals
    return " ".join(named.names[code - 1 if code < START else code - START + terminals].decode("ascii") for code in codes)


def tree_lines(named: NamedGrammar, tree: Tree) -> List[str]:
    """A tree as lines; a rule whose children are all leaves shows them itself."""
    grammar = named.grammar
    ends = ends_of(grammar, tree)
    lines: List[str] = []
    waiting: List[Tuple[int, List[int]]] = [(0, [0])]
    while waiting:
        depth, places = waiting.pop()
        node = tree[places[0]]
        if node < 0:
            lines.append(INDENT * depth + names_of(named, [-tree[place] for place in places]))
            continue
        rule = grammar.rules[node - 1]
        right = " " + names_of(named, rule.right) if rule.right else " (empty)"
        lines.append("%s%s:%s  (line %d)" % (INDENT * depth, names_of(named, [rule.left]), right, LISTS + node))
        children = children_at(grammar, tree, ends, places[0])
        if any(tree[child] > 0 for child in children):
            waiting += [(depth + 1, run) for run in reversed(runs(tree, children))]
    return lines


def runs(tree: Tree, places: Sequence[int]) -> List[List[int]]:
    """Leaves side by side are put together, every rule stands alone."""
    found: List[List[int]] = []
    for place in places:
        if tree[place] < 0 and found and tree[found[-1][0]] < 0:
            found[-1].append(place)
        else:
            found.append([place])
    return found


def quoted(named: NamedGrammar, row: Sequence[int]) -> str:
    return "`%s`" % names_of(named, row) if row else "the empty sentence"


def after(named: NamedGrammar, passed: Sequence[int]) -> str:
    """Where two readings part; of many symbols those at both ends are shown."""
    if not passed:
        return "at the beginning"
    if len(passed) <= MOST_PASSED:
        return "after `%s`" % names_of(named, passed)
    half = MOST_PASSED // 2
    return "after `%s ... %s`" % (names_of(named, passed[:half]), names_of(named, passed[-half:]))


def whole(named: NamedGrammar, root: int) -> str:
    """What rule 0 ends."""
    return "the sentence" if root == START else "the " + names_of(named, [root])


def sentence_of(named: NamedGrammar, parting: Parting) -> str:
    """What both sides do at the parting."""
    told = []
    for (kind, number), _ in parting.left, parting.right:
        if kind == SYMBOL:
            told.append("goes on with `%s`" % names_of(named, [number]))
        elif number == 0:
            told.append("ends " + whole(named, parting.root))
        else:
            rule = named.grammar.rules[number - 1]
            right = " " + names_of(named, rule.right) if rule.right else ""
            told.append("ends `%s:%s`, line %d" % (names_of(named, [rule.left]), right, LISTS + number))
    return "%s: left %s, right %s" % (after(named, parting.passed), *told)


def headline(named: NamedGrammar, word: str, parting: Parting) -> Place:
    """The place of a rule that ends, and what is said there."""
    side, other = parting.left, parting.right
    if side.move[0] != CLOSING or side.rule == 0:
        side, other = other, side
    if other.move == (CLOSING, 0):
        what = whole(named, parting.root) + " ends"
    else:
        goes_on = " goes on with `%s`" % names_of(named, [other.move[1]]) if other.move[0] == SYMBOL else " ends"
        what = "line %d%s" % (LISTS + other.rule, goes_on)
    message = "%s: %s this rule ends, or %s" % (word, after(named, parting.passed), what)
    return Place(LISTS + side.rule, COLUMN, message.replace("`", "'"))


def explained(named: NamedGrammar, found: TwoTrees, strings: Pair) -> Explained:
    """What is said of a sentence with two trees; left and right are those of the two strings."""
    grammar = named.grammar
    code, left, right = smallest(grammar, found.left, found.right)
    left, right = folded(grammar, left, right), folded(grammar, right, left)
    if is_mirrored(of_trees(grammar, code, left, right), of_strings(strings)):
        left, right = right, left
    parting = of_trees(grammar, code, left, right)
    row, sentence = row_of(left), list(found.sentence)
    if code == START:
        what = quoted(named, row)
        example = "" if row == sentence else ", for example " + quoted(named, sentence)
    else:
        name = names_of(named, [code])
        what = "the %s %s" % (name, quoted(named, row)) if row else "an empty " + name
        example = ", in a sentence: " + quoted(named, sentence)
    lines = ["ambiguous: %s has two trees%s" % (what, example), sentence_of(named, parting)]
    for title, tree in ("left tree:", left), ("right tree:", right):
        lines += [title] + tree_lines(named, tree)
    return Explained("".join(line + "\n" for line in lines), parting)
