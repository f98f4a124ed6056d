"""What document 02's [14] could be taken for.

A misreading has another plan for a row, lists it otherwise, answers otherwise or changes other
entries of what is lent, or has another certificate. A case in which it does tells it from [14],
and is counted for that. L → ch sep L has the same lists: the certificate alone tells it.
"""

from functools import lru_cache
from typing import Callable, Dict, List, NamedTuple, Optional, Tuple

from plan_inputs import AnyCase, Case, Place
from plans import (
    CERTIFICATE_BYTES, CH, CLOSE, INSIDE, MOST_TERMINALS, NO_COMMAND, NO_ROW, NONE, NUM, ONE_MORE, ONE_MORE_CHANNEL, PLAN,
    REPEAT, REPEATS, ROW_TOO_SHORT, RULES, SEP, STATES, TABLE, TERMINALS, WORK_ENTRIES, K, L, Lent, P, Reader, Reply,
    Stopped, certificate, certificate_byte, plan_of, read_plan, row_fault, stopped_at,
)
from searches import Unambiguous, needed, search
from tables import START, Codes, Grammar, Refusal, check_table
from triples import certificate_of, triples_of
from ways import largest_set

EIGHT = 8                 # the channels of the spring model
MOST_RULES = 64           # that a plan of up to 64 terminals has
COMMANDS = 3, 4, 5        # the rules of K

Listing = Callable[[Codes], Codes]
Planning = Callable[[Codes], Optional[Codes]]
Misreading = Callable[[Case, Reply], Reply]


# Another plan for a row.

def none_if_empty(row: Codes) -> Optional[Codes]:
    """The empty row has no plan."""
    return plan_of(row) if row else None


def empty_repeat(row: Codes) -> Optional[Codes]:
    """A repeat needs a command."""
    rules = plan_of(row)
    return None if rules is None or (REPEATS, NO_COMMAND) in zip(rules, rules[1:]) else rules


def nested_repeat(row: Codes) -> Optional[Codes]:
    """No repeat stands within a repeat."""
    depth = deepest = 0
    for code in row:
        depth += (code == REPEAT) - (code == CLOSE)
        deepest = max(deepest, depth)
    return plan_of(row) if deepest < 2 else None


def eight_channels(row: Codes) -> Optional[Codes]:
    """A command has at most eight channels."""
    return None if (CH, SEP) * EIGHT in (row[place:place + 2 * EIGHT] for place in range(len(row))) else plan_of(row)


def front_enough(row: Codes) -> Optional[Codes]:
    """What stands behind a plan is not looked at."""
    try:
        return Reader(row).commands()
    except Stopped:
        return None


def closed_at_the_end(row: Codes) -> Optional[Codes]:
    """The end of the row closes every repeat."""
    stopped = stopped_at(row)
    while stopped is not None and stopped.wanted == INSIDE and stopped.place == len(row):
        row += (CLOSE,)
        stopped = stopped_at(row)
    return plan_of(row)


PLANS: Dict[str, Planning] = {
    "the-empty-row-has-no-plan": none_if_empty,
    "a-repeat-needs-a-command": empty_repeat,
    "no-repeat-stands-within-a-repeat": nested_repeat,
    "there-are-at-most-eight-channels": eight_channels,
    "a-front-of-the-row-is-enough": front_enough,
    "the-end-closes-every-repeat": closed_at_the_end,
}


# Another list.

class Node(NamedTuple):
    """A node of a plan: its rule, and its children from left to right."""

    rule: int
    children: Tuple["Node", ...]           # type: ignore


def tree_of(rules: Codes) -> Node:
    """The tree of a list in which a node stands before its children, and these from left to right."""
    waiting = list(rules[::-1])
    def node() -> Node:
        rule = waiting.pop()
        return Node(rule, tuple([node() for code in RULES[rule - 1][1] if code >= START]))
    root = node()
    assert not waiting, "the list is that of one tree"
    return root


def behind_children(rules: Codes) -> Codes:
    """From the leaves: a node behind its children."""
    def listed(node: Node) -> List[int]:
        return [rule for child in node.children for rule in listed(child)] + [node.rule]
    return tuple(listed(tree_of(rules)))


def right_to_left(rules: Codes) -> Codes:
    """A node before its children, and these from right to left."""
    def listed(node: Node) -> List[int]:
        return [node.rule] + [rule for child in node.children[::-1] for rule in listed(child)]
    return tuple(listed(tree_of(rules)))


def level_by_level(rules: Codes) -> Codes:
    """All nodes of a depth before the deeper ones."""
    row = [tree_of(rules)]
    for node in row:                   # `row` grows
        row += node.children
    return tuple(node.rule for node in row)


def first_command_outside(rules: Codes) -> Codes:
    """P → K P: a command, then the later ones."""
    def listed(node: Node) -> List[int]:
        if node.rule != ONE_MORE:
            return [node.rule] + [rule for child in node.children for rule in listed(child)]
        commands = []
        while node.rule == ONE_MORE:
            node, command = node.children
            commands.append(listed(command))
        return [rule for command in commands[::-1] for rule in (ONE_MORE, *command)] + [NO_COMMAND]
    return tuple(listed(tree_of(rules)))


LISTINGS: Dict[str, Listing] = {
    "a-node-stands-behind-its-children": behind_children,
    "children-stand-right-to-left": right_to_left,
    "rules-are-listed-level-by-level": level_by_level,
    "P-is-K-P": first_command_outside,
    "each-rule-is-listed-once": lambda rules: tuple(dict.fromkeys(rules)),
    "commands-alone-are-listed": lambda rules: tuple(rule for rule in rules if rule in COMMANDS),
    "rules-are-numbered-from-0": lambda rules: tuple(rule - 1 for rule in rules),
    "rule-0-is-listed": lambda rules: (0, *rules),
}


# Another order of refusals, or other entries that are needed or changed.

def answered(rules: Optional[Codes], lent: Lent) -> Reply:
    """What is answered for a row with this plan, the work row being long enough."""
    if rules is None:
        return Reply(NONE, (), WORK_ENTRIES)
    return Reply(Refusal(ROW_TOO_SHORT, 0), (), WORK_ENTRIES) if lent.rules < len(rules) else (
        Reply(PLAN, rules, WORK_ENTRIES))


def with_room(case: Case, entries: int) -> Reply:
    """As it would be if the work row had to have so many entries."""
    if row_fault(case.row) is not None:
        return read_plan(*case[:2])
    if case.lent.work < entries:
        return Reply(Refusal(ROW_TOO_SHORT, 0))
    return answered(plan_of(case.row), case.lent)._replace(cleared=entries)


def by_64(case: Case, reply: Reply) -> Reply:
    return with_room(case, MOST_TERMINALS ** 2 * STATES)


def by_the_row(case: Case, reply: Reply) -> Reply:
    return with_room(case, (len(case.row) + 1) ** 2 * STATES)


def no_row(place: int) -> Reply:
    return Reply(Refusal(NO_ROW, place))


def from_1(case: Case, reply: Reply) -> Reply:
    place = row_fault(case.row)
    return reply if place is None else no_row(place + 1)


def long_at_65(case: Case, reply: Reply) -> Reply:
    """Places are counted from 0, but a row that is too long is at fault at 65."""
    return no_row(MOST_TERMINALS + 1) if row_fault(case.row) == MOST_TERMINALS else reply


def long_at_its_length(case: Case, reply: Reply) -> Reply:
    """A row that is too long is at fault at its last terminal."""
    return no_row(len(case.row) - 1) if row_fault(case.row) == MOST_TERMINALS else reply


def long_first(case: Case, reply: Reply) -> Reply:
    return no_row(MOST_TERMINALS) if len(case.row) > MOST_TERMINALS else reply


def long_last(case: Case, reply: Reply) -> Reply:
    """Codes past place 64 are looked at, and come before the length."""
    for place, code in enumerate(case.row):
        if code not in TERMINALS:
            return no_row(place)
    return reply


def sixty_five(case: Case, reply: Reply) -> Reply:
    """65 terminals pass."""
    if len(case.row) == MOST_TERMINALS + 1 and row_fault(case.row) == MOST_TERMINALS and case.row[-1] in TERMINALS:
        return Reply(Refusal(ROW_TOO_SHORT, 0)) if case.lent.work < WORK_ENTRIES else answered(plan_of(case.row), case.lent)
    return reply


def codes_from_0(case: Case, reply: Reply) -> Reply:
    """take is 0, and so on to sep, 7."""
    return read_plan(tuple(code + 1 for code in case.row), case.lent)


def nonterminals_pass(case: Case, reply: Reply) -> Reply:
    """A row with P, K or L has no plan."""
    row = tuple(NUM if code in (P, K, L) else code for code in case.row)
    if row == case.row or row_fault(row) is not None or case.lent.work < WORK_ENTRIES:
        return reply
    return Reply(NONE, (), WORK_ENTRIES)


def short_first(case: Case, reply: Reply) -> Reply:
    return Reply(Refusal(ROW_TOO_SHORT, 0)) if case.lent.work < WORK_ENTRIES else reply


def any_list(case: Case, reply: Reply) -> Reply:
    """Also none needs a list of an entry."""
    if reply.answer == NONE and case.lent.rules == 0:
        return Reply(Refusal(ROW_TOO_SHORT, 0), (), reply.cleared)
    return reply


def list_for_all(case: Case, reply: Reply) -> Reply:
    """A list is to be long enough for every plan."""
    if reply.answer == PLAN and case.lent.rules < MOST_RULES:
        return Reply(Refusal(ROW_TOO_SHORT, 0), (), reply.cleared)
    return reply


def second_unused(case: Case, reply: Reply) -> Reply:
    """The 14 of the list leaves the work row as it was."""
    return reply._replace(cleared=0) if isinstance(reply.answer, Refusal) else reply


def first_cleared(case: Case, reply: Reply) -> Reply:
    """Every 14 leaves 0 in the work row, as far as that goes."""
    if reply.answer == (ROW_TOO_SHORT, 0) and not reply.cleared:
        return reply._replace(cleared=case.lent.work)
    return reply


def list_begun(case: Case, reply: Reply) -> Reply:
    """The list is written as far as it goes before it is found too short."""
    if reply.answer == (ROW_TOO_SHORT, 0) and reply.cleared:
        return reply._replace(rules=(plan_of(case.row) or ())[:case.lent.rules])
    return reply


def whole_cleared(case: Case, reply: Reply) -> Reply:
    """All of the work row is 0 afterwards."""
    return reply._replace(cleared=case.lent.work) if reply.cleared else reply


def uncleared(case: Case, reply: Reply) -> Reply:
    """None leaves the work row as it was."""
    return reply._replace(cleared=0) if reply.answer == NONE else reply


CHANGES: Dict[str, Misreading] = {
    "there-are-64-times-64-entries-by-state": by_64,
    "entries-are-counted-by-the-row": by_the_row,
    "places-are-counted-from-1": from_1,
    "a-long-row-is-at-fault-at-65": long_at_65,
    "a-long-row-is-at-fault-at-its-end": long_at_its_length,
    "a-long-row-comes-before-its-codes": long_first,
    "codes-past-place-64-come-first": long_last,
    "65-terminals-pass": sixty_five,
    "codes-run-from-0": codes_from_0,
    "nonterminals-pass": nonterminals_pass,
    "14-comes-before-22": short_first,
    "none-needs-a-list": any_list,
    "a-list-is-long-enough-for-every-plan": list_for_all,
    "14-for-the-list-leaves-the-work-row": second_unused,
    "every-14-clears-the-work-row": first_cleared,
    "a-short-list-is-begun": list_begun,
    "the-whole-work-row-is-cleared": whole_cleared,
    "none-leaves-the-work-row": uncleared,
}


# Another certificate.

def with_rule(number: int, right: Codes) -> bytes:
    """The certificate of the same rules but for one, which has this right side."""
    rules = [(left, right if place == number else own) for place, (left, own) in enumerate(RULES, 1)]
    table = tuple(code for left, codes in rules for code in (left, len(codes), *codes))
    found = search(*TABLE[:2], table, needed(STATES))
    assert isinstance(found, Unambiguous)
    return found.certificate


def at_one_caller() -> bytes:
    """At m=1, with its 47 states."""
    found = search(*TABLE, needed(47), 1)
    assert isinstance(found, Unambiguous)
    return found.certificate


def largest() -> bytes:
    """Of the largest acceptable set."""
    grammar = check_table(*TABLE)
    assert isinstance(grammar, Grammar)
    return certificate_of(STATES, largest_set(triples_of(grammar)))


def bits_reversed() -> bytes:
    """Bit 0 is the highest."""
    return bytes(int("{:08b}".format(byte)[::-1], 2) for byte in certificate())


@lru_cache(maxsize=1)
def certificates() -> Dict[str, bytes]:
    """The other certificates by name."""
    return {
        "L-is-ch-sep-L": with_rule(ONE_MORE_CHANNEL, (CH, SEP, L)),
        "P-is-K-P": with_rule(ONE_MORE, (K, P)),
        "a-caller-is-remembered": at_one_caller(),
        "the-largest-set-is-held": largest(),
        "bit-0-is-the-highest": bits_reversed(),
    }


OTHER_PLACES: Dict[str, Callable[[int], int]] = {
    "a-place-is-cut-to-8-bits": lambda place: place % 2 ** 8,
    "a-place-is-cut-to-16-bits": lambda place: place % 2 ** 16,
    "a-place-is-cut-to-32-bits": lambda place: place % 2 ** 32,
    "past-its-end-the-certificate-begins-again": lambda place: place % CERTIFICATE_BYTES,
}
CERTIFICATES = "L-is-ch-sep-L", "P-is-K-P", "a-caller-is-remembered", "the-largest-set-is-held", "bit-0-is-the-highest"

TOLD = {name: "told-from-" + name for name in [*PLANS, *LISTINGS, *CHANGES, *CERTIFICATES, *OTHER_PLACES]}


# What is told.

@lru_cache(maxsize=64)
def other_plans(row: Codes) -> Dict[str, Optional[Codes]]:
    """By misreading its plan of a row of up to 64 terminals, listed as it does."""
    rules = plan_of(row)
    found = {name: other(row) for name, other in PLANS.items()}
    if rules is not None:
        found.update((name, listing(rules)) for name, listing in LISTINGS.items())
    return {name: plan for name, plan in found.items() if plan != rules}


def alike(case: Case, one: Reply, other: Reply) -> bool:
    """Whether the same is answered, and lent rows hold the same afterwards."""
    same = one.cleared == other.cleared or case.fill == 0
    return same and (one.answer, one.rules) == (other.answer, other.rules)


def told_by_bytes(place: int) -> List[str]:
    byte = certificate_byte(place)
    found = [name for name, other in certificates().items() if (other[place] if place < len(other) else 0) != byte]
    return found + [name for name, other in OTHER_PLACES.items() if certificate_byte(other(place)) != byte]


def told(case: AnyCase) -> List[str]:
    """The reasons of those misreadings in which a case is answered otherwise, or something else is changed."""
    if isinstance(case, Place):
        return [TOLD[name] for name in told_by_bytes(case.place)]
    if not isinstance(case, Case):
        return []
    reply = read_plan(*case[:2])
    found = [name for name, other in CHANGES.items() if not alike(case, reply, other(case, reply))]
    if reply.cleared:
        found += [name for name, plan in other_plans(case.row).items()
                  if not alike(case, reply, answered(plan, case.lent))]
    return [TOLD[name] for name in found]
