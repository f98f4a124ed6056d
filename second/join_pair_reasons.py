"""Why two texts are refused or what is joined, which the cases of joins are counted by.

What joining.py answers must be what join_codes.py finds: so the joined table is the one that
the reader gives for the joined text.
"""

from functools import lru_cache
from typing import List, Optional, Tuple

from join_codes import (
    ByCodes, by_codes, crossed, lengths_of, limit_fault, lists_in, small, states_of,
)
from joining import OTHER_KIND, Joined, join_texts, read_alone
from random_tables import encode
from sentence_reasons import has_tree
from spelling_reasons import as_declared, differ_by_32
from tables import (
    MAX_LENGTH, MAX_NONTERMINALS, MAX_RULES, MAX_STATES, MAX_TERMINALS, OUT_OF_RANGE, START,
    TOO_MANY_RULES, TOO_MANY_STATES, Refusal, RuleCodes,
)
from text import AMPLE, MALFORMED, read_text

ALONE = 1, 4, 6, 7, 8, 16, 17, 18            # the reader's causes but for 14 and 19
FEW = 100                                    # names, or rules, that are compared one by one

REFUSED_REASONS = ["robot-%d" % cause for cause in (*ALONE, 19)] + [
    "module-%d" % cause for cause in ALONE
] + ["robot-16-at-0", "module-16-at-0"] + [
    "order-robot-%d-before-the-module" % cause for cause in (*ALONE, 19)
] + ["order-robot-before-20"] + ["order-module-%d-before-20" % cause for cause in ALONE] + [
    "20-at-1",
    "20-at-2",
    "20-by-case-at-1",
    "20-by-case-at-2",
    "order-20-at-1-before-20-at-2",
    "1-at-1-by-one",
    "1-at-1-by-more",
    "1-at-2-by-one",
    "1-at-2-by-more",
    "7-the-first-rule-that-is-added",
    "7-behind-rules-that-are-added",
    "7-and-a-rule-that-is-there",
    "8-by-one-state",
    "8-by-more",
    "8-and-a-rule-that-is-there",
] + ["order-20-before-" + other for other in ("1-at-1", "1-at-2", "7", "8")] + [
    "order-1-at-1-before-1-at-2",
    "order-1-before-7",
    "order-1-before-8",
    "order-7-before-8-of-a-rule",
    "order-8-before-7-of-a-later-rule",
]
JOINED_REASONS = [
    "joined",
    "joined-nothing-is-added",
    "joined-the-robots-own-text",
    "joined-only-names-are-added",
    "joined-only-rules-are-added",
    "joined-a-module-without-rules",
    "joined-a-module-without-a-sentence",
    "joined-a-robot-without-terminals",
    "joined-a-module-without-terminals",
    "joined-no-terminals",
    "joined-the-modules-start-is-added",
    "joined-the-modules-start-is-the-robots",
    "joined-the-modules-start-is-further-on-in-the-robot",
]
NAMES_REASONS = [
    "joined-no-name-is-shared",
    "joined-a-shared-terminal",
    "joined-a-shared-nonterminal",
    "joined-a-shared-name-in-another-case",
    "joined-every-shared-name-in-another-case",
    "joined-an-added-terminal",
    "joined-an-added-nonterminal",
    "joined-an-added-name-before-a-shared-one",
    "joined-names-that-differ-by-32",
    "joined-2000-terminals",
    "joined-2000-nonterminals",
    "joined-2000-names-though-the-lists-have-more",
]
RULES_REASONS = [
    "joined-a-rule-that-is-there",
    "joined-a-rule-that-is-there-in-another-case",
    "joined-a-rule-that-is-there-with-other-codes",
    "joined-a-rule-that-is-there-behind-an-added-one",
    "joined-a-rule-of-12-that-is-there",
    "joined-every-rule-of-the-module-is-there",
    "joined-an-added-rule-with-the-codes-of-one-that-is-there",
    "joined-an-added-rule-that-differs-in-one-symbol",
    "joined-an-added-rule-that-is-one-longer-or-shorter",
    "joined-an-added-rule-with-another-left-side",
    "joined-an-added-rule-with-code-2000",
    "joined-an-added-rule-with-code-34767",
    "joined-400-rules",
    "joined-400-rules-though-the-texts-have-more",
    "joined-1024-states",
    "joined-1024-states-though-the-texts-have-more",
]
PAIR_REASONS = REFUSED_REASONS + JOINED_REASONS + NAMES_REASONS + RULES_REASONS
# Those that long texts alone meet.
AT_LIMITS_OF_PAIRS = [
    "robot-7", "robot-8", "module-7", "module-8", "order-robot-7-before-the-module",
    "order-robot-8-before-the-module", "order-module-7-before-20", "order-module-8-before-20",
    "1-at-1-by-one", "1-at-1-by-more", "1-at-2-by-one", "1-at-2-by-more", "order-20-before-1-at-1",
    "order-20-before-1-at-2", "order-20-before-7", "order-20-before-8", "order-1-at-1-before-1-at-2",
    "order-1-before-7", "order-1-before-8", "order-8-before-7-of-a-later-rule", "joined-2000-terminals",
    "joined-2000-nonterminals", "joined-2000-names-though-the-lists-have-more",
    "joined-an-added-rule-with-code-2000", "joined-an-added-rule-with-code-34767",
    "joined-400-rules-though-the-texts-have-more", "joined-1024-states",
    "joined-1024-states-though-the-texts-have-more",
]


# Refused pairs.

@lru_cache(maxsize=64)
def pair_reasons(robot: bytes, module: bytes) -> Tuple[str, ...]:
    """Why two texts are refused, and what the order hides; or what is joined."""
    result = join_texts(robot, module)
    first, second = read_text(robot, AMPLE), read_alone(module)
    lines = crossed(lists_in(robot), lists_in(module))
    if isinstance(first, Refusal):
        assert result == first, "the robot's faults come first"
        hidden = ["order-robot-%d-before-the-module" % first.cause] * isinstance(second, Refusal)
        return (*alone("robot", first), *hidden, *["order-robot-before-20"] * bool(lines))
    if isinstance(second, Refusal):
        assert result == second, "then the module's"
        return (*alone("module", second), *["order-module-%d-before-20" % second.cause] * bool(lines))
    join = by_codes(robot, module, first, second)
    fault = limit_fault(*join.counts, lengths_of(join.joined))
    if lines:
        assert result == Refusal(OTHER_KIND, lines[0]), "then 20"
        return tuple(crossed_reasons(join, lines, fault))
    if fault is not None:
        assert result == fault, "then 1, 7 and 8"
        return tuple(limit_reasons(join, fault))
    assert isinstance(result, Joined)
    assert result.read[:4] == (*join.counts, encode(join.joined), states_of(join.joined)), "the joined table"
    return tuple(joined_reasons(robot, module, join, result))


def alone(whose: str, refusal: Refusal) -> List[str]:
    """The refusal of a text by itself."""
    return ["%s-%d" % (whose, refusal.cause)] + ["%s-16-at-0" % whose] * (refusal == (MALFORMED, 0))


def crossed_reasons(join: ByCodes, lines: List[int], fault: Optional[Refusal]) -> List[str]:
    """Where 20 is, whether by case alone, and the limits that come after it."""
    line = lines[0]
    equal = set(join.module[line - 1]) & set(join.robot[2 - line])
    names = ["20-at-%d" % line] + ["20-by-case-at-%d" % line] * (not equal)
    names += ["order-20-at-1-before-20-at-2"] * (len(lines) == 2)
    if fault is not None:
        where = "1-at-%d" % fault.position if fault.cause == OUT_OF_RANGE else str(fault.cause)
        names.append("order-20-before-" + where)
    return names


def limit_reasons(join: ByCodes, fault: Refusal) -> List[str]:
    """Which limit is passed, by how much, and those that the order hides."""
    (t, n), rules = join.counts, join.joined
    if fault.cause == OUT_OF_RANGE:
        by = join.counts[fault.position - 1] - MAX_TERMINALS
        hidden = limit_fault(0, 1, lengths_of(rules)) or fault
        met = [
            ("1-at-%d-by-%s" % (fault.position, "one" if by == 1 else "more"), True),
            ("order-1-at-1-before-1-at-2", t > MAX_TERMINALS and n > MAX_NONTERMINALS),
            ("order-1-before-7", hidden.cause == TOO_MANY_RULES),
            ("order-1-before-8", hidden.cause == TOO_MANY_STATES),
        ]
        return [name for name, holds in met if holds]
    number = [len(encode(rules[:place])) for place in range(len(rules))].index(fault.position)
    over = states_of(rules[:number + 1]) - MAX_STATES
    rule_fault = fault.cause == TOO_MANY_RULES
    met = [
        ("7-the-first-rule-that-is-added", rule_fault and number == len(join.rules)),
        ("7-behind-rules-that-are-added", rule_fault and number > len(join.rules)),
        ("7-and-a-rule-that-is-there", rule_fault and bool(join.there)),
        ("8-by-one-state", not rule_fault and over == 1),
        ("8-by-more", not rule_fault and over > 1),
        ("8-and-a-rule-that-is-there", not rule_fault and bool(join.there)),
        ("order-7-before-8-of-a-rule", rule_fault and over > 0),
        ("order-8-before-7-of-a-later-rule", not rule_fault and len(rules) > MAX_RULES),
    ]
    return [name for name, holds in met if holds]


# Joined pairs.

def joined_reasons(robot: bytes, module: bytes, join: ByCodes, result: Joined) -> List[str]:
    """What each text gives to the join."""
    names = sum(join.counts) > len(join.robot[0] + join.robot[1])
    rules = bool(join.more)
    (t, _), start, robots = join.counts, join.module[1][0].lower(), small(join.robot[1])
    assert (result.text == as_declared(robot)) == (not names and not rules), "the robot's text as declared"
    met = [
        ("joined", True),
        ("joined-nothing-is-added", not names and not rules),
        ("joined-the-robots-own-text", robot == module),
        ("joined-only-names-are-added", names and not rules),
        ("joined-only-rules-are-added", rules and not names),
        ("joined-a-module-without-rules", not join.own),
        ("joined-a-module-without-a-sentence", bool(join.own) and not has_tree(join.own)),
        ("joined-a-robot-without-terminals", t > 0 and not join.robot[0]),
        ("joined-a-module-without-terminals", t > 0 and not join.module[0]),
        ("joined-no-terminals", t == 0),
        ("joined-the-modules-start-is-added", start not in robots),
        ("joined-the-modules-start-is-the-robots", start == robots[0]),
        ("joined-the-modules-start-is-further-on-in-the-robot", start in robots[1:]),
    ]
    return [name for name, holds in met if holds] + names_reasons(join) + rules_reasons(robot, module, join)


def names_reasons(join: ByCodes) -> List[str]:
    """Which names both texts declare, and how they are spelled."""
    spelled = [{name.lower(): name for name in names} for names in join.robot]
    shared, added = ([[name for name in names if (name.lower() in known) == wanted]
                      for known, names in zip(spelled, join.module)] for wanted in (True, False))
    pairs = [(name, known[name.lower()]) for known, names in zip(spelled, shared) for name in names]
    other = sum(name != own for name, own in pairs)
    (t, n), robots = join.counts, join.robot[0] + join.robot[1]
    met = [
        ("joined-no-name-is-shared", not pairs),
        ("joined-a-shared-terminal", bool(shared[0])),
        ("joined-a-shared-nonterminal", bool(shared[1])),
        ("joined-a-shared-name-in-another-case", other > 0),
        ("joined-every-shared-name-in-another-case", 0 < other == len(pairs)),
        ("joined-an-added-terminal", bool(added[0])),
        ("joined-an-added-nonterminal", bool(added[1])),
        ("joined-an-added-name-before-a-shared-one", any(
            new and old and names.index(new[0]) < names.index(old[-1])
            for names, new, old in zip(join.module, added, shared))),
        ("joined-names-that-differ-by-32", t + n < FEW and any(
            differ_by_32(name, own) for name in added[0] + added[1] for own in robots)),
        ("joined-2000-terminals", t == MAX_TERMINALS),
        ("joined-2000-nonterminals", n == MAX_NONTERMINALS),
        ("joined-2000-names-though-the-lists-have-more", any(
            count == MAX_TERMINALS and old for count, old in zip(join.counts, shared))),
    ]
    return [name for name, holds in met if holds]


def rules_reasons(robot: bytes, module: bytes, join: ByCodes) -> List[str]:
    """Which rules are there already, and how near to them the others are."""
    lines, robots = module.split(b"\n")[2:], set(robot.split(b"\n"))
    there, more, own, rules = join.there, join.more, join.own, set(join.rules)
    added = [join.others[place] for place in more]
    codes = {code for left, right in added for code in (left, *right)}
    near = {kind for rule in added for old in join.rules for kind in near_kinds(rule, old)} if (
        len(join.joined) < FEW) else set()
    full, wide = len(join.joined) == MAX_RULES, states_of(join.joined) == MAX_STATES
    met = [
        ("joined-a-rule-that-is-there", bool(there)),
        ("joined-a-rule-that-is-there-in-another-case", any(lines[place] not in robots for place in there)),
        ("joined-a-rule-that-is-there-with-other-codes", any(
            own[place] != join.others[place] for place in there)),
        ("joined-a-rule-that-is-there-behind-an-added-one", bool(there and more) and more[0] < there[-1]),
        ("joined-a-rule-of-12-that-is-there", any(len(own[place][1]) == MAX_LENGTH for place in there)),
        ("joined-every-rule-of-the-module-is-there", bool(there) and not more),
        ("joined-an-added-rule-with-the-codes-of-one-that-is-there", any(own[place] in rules for place in more)),
        ("joined-an-added-rule-with-code-2000", MAX_TERMINALS in codes),
        ("joined-an-added-rule-with-code-34767", START + MAX_NONTERMINALS - 1 in codes),
        ("joined-400-rules", full),
        ("joined-400-rules-though-the-texts-have-more", full and bool(there)),
        ("joined-1024-states", wide),
        ("joined-1024-states-though-the-texts-have-more", wide and bool(there)),
    ]
    return [name for name, holds in met if holds] + sorted(near)


def near_kinds(rule: RuleCodes, old: RuleCodes) -> List[str]:
    """How a rule that is added differs from one that is there, if it is in one place."""
    (left, right), (other, codes) = rule, old
    if right == codes:
        return ["joined-an-added-rule-with-another-left-side"]
    if left != other:
        return []
    if len(right) == len(codes) and sum(a != b for a, b in zip(right, codes)) == 1:
        return ["joined-an-added-rule-that-differs-in-one-symbol"]
    if right[:-1] == codes or codes[:-1] == right:
        return ["joined-an-added-rule-that-is-one-longer-or-shorter"]
    return []
