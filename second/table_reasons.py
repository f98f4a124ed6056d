"""Sorts table cases by reasons finer than the causes.

The counts of these reasons show that a file of cases tries every limit and
every place where the order of tests shows.
"""

from typing import List, Sequence

from derivations import used_rules
from sentence_misreadings import BEFORE_8, TOLD
from sentence_reasons import CAUSE, RULES_REASONS, has_tree, loose_rules, of_rules
from tables import (
    BAD_LEFT, BAD_RIGHT, EQUAL_RULE, HEADER, MAX_LENGTH, MAX_NONTERMINALS,
    MAX_RULES, MAX_STATES, MAX_TERMINALS, NO_SENTENCE, OUT_OF_RANGE, START, TABLE_ENDS,
    TOO_LONG, TOO_MANY_RULES, TOO_MANY_STATES, Codes, Grammar, Refusal, Rule, check_rules,
    check_table, codes_of, in_range, is_nonterminal, undeclared_place,
)

# The tests of one rule in table order, and the cause that each gives.
TESTS = ["7", "2-under-two-entries", "3", "4", "2-body-short", "5", "6", "8"]
CAUSES = [TOO_MANY_RULES, TABLE_ENDS, BAD_LEFT, TOO_LONG, TABLE_ENDS,
          BAD_RIGHT, EQUAL_RULE, TOO_MANY_STATES]

# The pairs of faults that one rule can have. A rule equal to an earlier one
# has none of 3, 4, 5, as the earlier one passed; one short of its body is
# equal to none; one with a single entry left has no length and no codes.
PAIRS = [
    ("7", "2-under-two-entries"), ("7", "3"), ("7", "4"), ("7", "2-body-short"),
    ("7", "5"), ("7", "6"), ("7", "8"),
    ("2-under-two-entries", "3"),
    ("3", "4"), ("3", "2-body-short"), ("3", "5"), ("3", "8"),
    ("4", "2-body-short"), ("4", "5"), ("4", "8"),
    ("2-body-short", "5"), ("2-body-short", "8"),
    ("5", "8"),
    ("6", "8"),
]

# Codes on either side of a limit: 2,000 and 34,767 are the last that can be declared.
EDGES = [2001, 32767, 34767, 34768]
EDGE_REASONS = ["%d-code-%d" % (cause, code) for cause in (BAD_LEFT, BAD_RIGHT) for code in EDGES]
ENOUGH = {name: 20 for name in EDGE_REASONS + ["passed-left-code-34767"]}

REASONS = [
    "passed",
    "passed-2000-terminals",
    "passed-2000-nonterminals",
    "passed-code-2000",
    "passed-code-34767",
    "passed-left-code-34767",
    "passed-k-of-12",
    "passed-400-rules",
    "passed-1024-states",
    "passed-every-rule-used",
    "passed-a-rule-no-sentence-uses",
    "1-t-of-2001",
    "1-t-too-large",
    "1-n-of-0",
    "1-n-of-2001",
    "1-n-too-large",
    "1-both-t-and-n",
    "2-under-two-entries",
    "2-body-short",
    "3-below-the-nonterminals",
    "3-between-the-kinds",
    "3-above-the-declared",
    "3-above-34767",
    "4-k-of-13",
    "4-k-above-13",
    "4-k-whose-low-byte-passes",
    "5-zero",
    "5-terminal-undeclared",
    "5-between-the-kinds",
    "5-nonterminal-undeclared",
    "5-above-34767",
    "6-next-to-the-earlier-rule",
    "6-further-away",
    "7-whole-rule",
    "7-body-short",
    "7-stray-entry",
    "8-by-one-state",
    "8-by-more",
] + EDGE_REASONS + [
    CAUSE,
    "19-k-of-12",
    "19-400-rules",
    "19-1024-states",
] + RULES_REASONS + [
    "order-1-before-a-faulty-table",
] + ["order-%s-before-%s" % pair for pair in PAIRS] + [
    "order-%d-before-2-to-5-of-a-later-rule" % cause
    for cause in (BAD_LEFT, BAD_RIGHT, EQUAL_RULE, TOO_MANY_STATES)
] + ["order-%d-before-19" % cause for cause in range(OUT_OF_RANGE, TOO_MANY_STATES + 1)] + [
    TOLD[BEFORE_8],
]


def reasons_of(t: int, n: int, table: Codes) -> List[str]:
    """Every reason of REASONS that this case meets."""
    result = check_table(t, n, table)
    if isinstance(result, Grammar):
        assert has_tree(codes_of(result)), "what has passed has a sentence"
        return passed_reasons(result) + of_rules(codes_of(result))
    if result.cause == NO_SENTENCE:
        return sentence_reasons(t, n, table)
    hidden = [] if has_tree(loose_rules(table)) else ["order-%d-before-19" % result.cause]
    if hidden and result.cause == TOO_MANY_STATES:
        hidden.append(TOLD[BEFORE_8])
    if result.cause == OUT_OF_RANGE:
        return range_reasons(t, n, table) + hidden
    return rule_reasons(t, n, table, result) + hidden


def limit_reasons(verdict: str, grammar: Grammar) -> List[str]:
    """The limits that a grammar without faults 1 to 8 reaches."""
    met = [
        ("k-of-12", any(len(rule.right) == MAX_LENGTH for rule in grammar.rules)),
        ("400-rules", len(grammar.rules) == MAX_RULES),
        ("1024-states", grammar.states == MAX_STATES),
    ]
    return ["%s-%s" % (verdict, name) for name, holds in met if holds]


def passed_reasons(grammar: Grammar) -> List[str]:
    """The limits that a passed grammar reaches, and whether it uses its rules."""
    codes = {code for rule in grammar.rules for code in (rule.left, *rule.right)}
    met = [
        ("passed-2000-terminals", grammar.terminals == MAX_TERMINALS),
        ("passed-2000-nonterminals", grammar.nonterminals == MAX_NONTERMINALS),
        ("passed-code-2000", MAX_TERMINALS in codes),
        ("passed-code-34767", START + MAX_NONTERMINALS - 1 in codes),
        ("passed-left-code-34767",
         any(rule.left == START + MAX_NONTERMINALS - 1 for rule in grammar.rules)),
    ]
    used = "every-rule-used" if all(used_rules(grammar)) else "a-rule-no-sentence-uses"
    return (["passed"] + [name for name, holds in met if holds]
            + limit_reasons("passed", grammar) + ["passed-" + used])


def sentence_reasons(t: int, n: int, table: Codes) -> List[str]:
    """Why a grammar has no sentence; it has no other fault."""
    grammar = check_rules(t, n, table)
    assert isinstance(grammar, Grammar) and not has_tree(codes_of(grammar)), "19 comes last"
    return [CAUSE] + limit_reasons(CAUSE, grammar) + of_rules(codes_of(grammar))


def range_reasons(t: int, n: int, table: Codes) -> List[str]:
    """Which number is out of range, and whether the table is at fault too."""
    if not in_range(t, 1) and not in_range(0, n):
        names = ["1-both-t-and-n"]
    elif not in_range(t, 1):
        names = ["1-t-of-2001" if t == MAX_TERMINALS + 1 else "1-t-too-large"]
    else:
        large = "1-n-of-2001" if n == MAX_NONTERMINALS + 1 else "1-n-too-large"
        names = ["1-n-of-0" if n == 0 else large]
    near_n = max(1, min(n, MAX_NONTERMINALS))
    if isinstance(check_rules(min(t, MAX_TERMINALS), near_n, table), Refusal):
        names.append("order-1-before-a-faulty-table")
    return names


def rule_reasons(t: int, n: int, table: Codes, refusal: Refusal) -> List[str]:
    """How the refused rule fails, and what other faults the order hides."""
    start = rule_start(table, refusal.position)
    before = check_rules(t, n, table[:start])
    assert isinstance(before, Grammar), "the rules before the refused one pass"
    faults = faults_of_rule(t, n, table[start:], before)
    first = TESTS[faults[0]]
    assert CAUSES[faults[0]] == refusal.cause, "the first fault in table order"
    names = [finer(first, table, refusal.position, start, before)]
    names += edge_reasons(refusal.cause, table[refusal.position])
    hidden = [(first, TESTS[fault]) for fault in faults[1:]]
    names += ["order-%s-before-%s" % pair for pair in hidden if pair in PAIRS]
    return names + later_reasons(t, n, table, refusal.cause, start)


def rule_start(table: Codes, position: int) -> int:
    """The offset of the rule that `position` lies in; those before are whole."""
    start = 0
    while start < position and start + HEADER + table[start + 1] <= position:
        start += HEADER + table[start + 1]
    return start


def faults_of_rule(t: int, n: int, rest: Codes, before: Grammar) -> List[int]:
    """The faults of the rule in front of `rest`, each test taken on its own."""
    fails = [
        len(before.rules) == MAX_RULES,
        len(rest) < HEADER,
        not is_nonterminal(rest[0], n),
    ]
    if len(rest) >= HEADER:
        k = rest[1]
        right = rest[HEADER:HEADER + k]
        short = len(right) < k
        fails += [
            k > MAX_LENGTH,
            short,
            undeclared_place(t, n, right) is not None,
            not short and has_equal(before.rules, rest[0], right),
            before.states + k + 1 > MAX_STATES,
        ]
    return [test for test, failed in enumerate(fails) if failed]


def finer(
    test: str, table: Codes, position: int, start: int, before: Grammar
) -> str:
    """The reason of REASONS behind the first failing test of a rule."""
    if test == "3":
        return finer_left(table[start])
    if test == "4":
        return finer_length(table[start + 1])
    if test == "5":
        return finer_code(table[position])
    if test == "6":
        right = table[start + HEADER:start + HEADER + table[start + 1]]
        return finer_equal(before.rules, table[start], right)
    if test == "7":
        return finer_rest(table[start:])
    if test == "8":
        by_one = before.states + table[start + 1] == MAX_STATES
        return "8-by-one-state" if by_one else "8-by-more"
    return test


def edge_reasons(cause: int, code: int) -> List[str]:
    """Whether the entry that is refused for its code is one of EDGES."""
    return ["%d-code-%d" % (cause, code)] if cause in (BAD_LEFT, BAD_RIGHT) and code in EDGES else []


def finer_length(k: int) -> str:
    """How far a length is above its limit; whether one byte of it would pass."""
    if k == MAX_LENGTH + 1:
        return "4-k-of-13"
    return "4-k-whose-low-byte-passes" if k % 256 <= MAX_LENGTH else "4-k-above-13"


def finer_left(code: int) -> str:
    """What kind of left code this is that is no declared nonterminal."""
    if code <= MAX_TERMINALS:
        return "3-below-the-nonterminals"
    if code < START:
        return "3-between-the-kinds"
    return "3-above-the-declared" if code < START + MAX_NONTERMINALS else "3-above-34767"


def finer_code(code: int) -> str:
    """What kind of undeclared right code this is."""
    if code == 0:
        return "5-zero"
    if code <= MAX_TERMINALS:
        return "5-terminal-undeclared"
    if code < START:
        return "5-between-the-kinds"
    within = code < START + MAX_NONTERMINALS
    return "5-nonterminal-undeclared" if within else "5-above-34767"


def has_equal(rules: Sequence[Rule], left: int, right: Codes) -> bool:
    """Whether a "rule equals an earlier one" in left code, length and codes."""
    return any(rule.left == left and rule.right == right for rule in rules)


def finer_equal(rules: Sequence[Rule], left: int, right: Codes) -> str:
    """Whether the equal rule is the last one before."""
    near = has_equal(rules[-1:], left, right)
    return "6-next-to-the-earlier-rule" if near else "6-further-away"


def finer_rest(rest: Codes) -> str:
    """What stands where a 401st rule would begin."""
    if len(rest) < HEADER:
        return "7-stray-entry"
    return "7-body-short" if len(rest) < HEADER + rest[1] else "7-whole-rule"


def later_reasons(
    t: int, n: int, table: Codes, cause: int, start: int
) -> List[str]:
    """Whether the rest, read as a table, fails a test of its own."""
    if cause not in (BAD_LEFT, BAD_RIGHT, EQUAL_RULE, TOO_MANY_STATES):
        return []
    if len(table) - start < HEADER:
        return []
    later = check_rules(t, n, table[start + HEADER + table[start + 1]:])
    if isinstance(later, Refusal) and TABLE_ENDS <= later.cause <= BAD_RIGHT:
        return ["order-%d-before-2-to-5-of-a-later-rule" % cause]
    return []
