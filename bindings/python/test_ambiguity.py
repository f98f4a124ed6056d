"""Compares the module ambiguity with the second program on the corpus, alone and joined, with figures of remembered callers, and with
its counts of trees; drafts with rules that are kept in lists; and plans with the trees that the second program counts.

    test_ambiguity.py FOLDER REPOSITORY     FOLDER holds the module that is tried
"""

import os
import random
import sys

FOLDER, ROOT = sys.argv[1:]
sys.path[:0] = [FOLDER, os.path.join(ROOT, "second")]
sys.dont_write_bytecode = True

import ambiguity  # noqa: E402
from corpus import WITHOUT, entries, found_in, text_in  # noqa: E402
from joining import join, join_written, shown  # noqa: E402
from searches import Potential, needed, search  # noqa: E402
from tables import START, Refusal  # noqa: E402
from trees import some_sentences, tree_count  # noqa: E402

SMALL = 60                # states up to which the second program is quick
STEPS = 3, 7              # which grammars of the corpus are joined
ENOUGH = 262_144          # entries and bytes for what is joined
EDITS = 4000              # steps of each history of a draft
METHODS = 300             # of the eight-channel command set, and as many rows near them
CHANNELS = (b"terminals=take,vol,give,repeat,num,close,ch,sep\nnonterminals=P,K,L\nrule=P:\nrule=P: P K\nrule=K: take L vol\n"
            b"rule=K: give L vol\nrule=K: repeat num P close\nrule=L: ch\nrule=L: L sep ch\n")
OTHER_NUMBERS = -1, 9, 2 ** 32 + 1, 2 ** 64 - 1, 2 ** 64, 2 ** 64 + 1, 2 ** 65 + 8


def refusal(call, *words):
    """Cause and position of what is refused; None if nothing is."""
    try:
        call(*words)
    except ambiguity.Refused as refused:
        return refused.cause, refused.at
    return None


def compare(entry):
    """One grammar of the corpus, read, searched and checked by both."""
    text = text_in(entry.name)
    if entry.truth == WITHOUT:
        assert refusal(ambiguity.Grammar, text) == (19, 0), entry.name
        return
    grammar, found = ambiguity.Grammar(text), found_in(text)
    assert (grammar.states, grammar.names) == (entry.states, found.names), entry.name
    for callers in range(3):
        compare_with(grammar, found.table, callers)


def compare_with(grammar, table, callers):
    """One grammar with so many callers; what both refuse is 8, where the states do not fit."""
    refused = refusal(grammar.states_with, callers)
    if refused is not None:
        assert refused == search(*table, needed(0), callers) == (8, 0), table
        return
    states = grammar.states_with(callers)
    if states > SMALL:
        return
    searched, expected = grammar.search(callers), search(*table, needed(states), callers)
    if isinstance(expected, Potential):
        assert not searched.unambiguous and searched.witness == list(expected.witness), table
        return
    assert (searched.size, searched.certificate) == (expected.size, expected.certificate), table
    grammar.check(callers, searched.certificate)
    assert refusal(grammar.check, callers, bytes(len(searched.certificate))) == (11, 0), table


def callers_in(grammar):
    """Q and size with 0, 1 and 2 callers; None where the verdict is potential. Certificates hold with the callers of their own."""
    figures = []
    for callers in range(3):
        found = grammar.search(callers)
        figures.append((grammar.states_with(callers), found.size))
        if found.unambiguous:
            grammar.check(callers, found.certificate)
            for other in range(3):
                same = grammar.states_with(other) == grammar.states_with(callers)
                assert refusal(grammar.check, other, found.certificate) == (None if same else (9, 0))
    for callers in 3, -1, 2 ** 64 - 1, 2 ** 64, 2 ** 64 + 1:
        for call in grammar.states_with, grammar.search, lambda callers: grammar.check(callers, b""):
            assert refusal(call, callers) == (21, 0), callers
    return figures


def compare_callers():
    """Document 02's figures, and a grammar whose chains of callers are too many."""
    biology = ambiguity.Grammar(
        b"terminals=b,c,d,e\nnonterminals=S,A\nrule=S: b A c\nrule=S: b e d\nrule=S: A d\nrule=A: e\n")
    assert callers_in(biology) == [(17, None), (19, 58), (19, 58)] and biology.states == 17
    assert biology.search(1).certificate == biology.search(2).certificate
    assert callers_in(ambiguity.Grammar(CHANNELS)) == [(27, 90), (47, 214), (93, 694)]
    rules = b"".join(b"rule=S:%s\n" % (b" S" * length) for length in range(13))
    many = ambiguity.Grammar(b"terminals=\nnonterminals=S\n" + rules)
    assert [refusal(many.search, callers) for callers in range(4)] == [None, (8, 0), (8, 0), (21, 0)]
    assert refusal(many.check, 1, b"") == refusal(many.states_with, 2) == (8, 0)


def row_of(rules, listed):
    """The row of the tree with these rules; each is one of the nonterminal at its place."""
    row, waiting, listed = [], [START], iter(listed)
    while waiting:
        code = waiting.pop()
        if code < START:
            row.append(code)
            continue
        rule = rules[next(listed) - 1]
        assert rule.left == code
        waiting += reversed(rule.right)
    assert next(listed, None) is None
    return tuple(row)


def compare_trees(small):
    """Sentences of the corpus, and such rows with two words swapped: as many trees as the second program counts."""
    rng = random.Random(1)
    answers = dict.fromkeys(["none", "one", "several"], 0)
    for entry in small:
        if entry.truth == WITHOUT:
            continue
        grammar, found = ambiguity.Grammar(text_in(entry.name)), found_in(text_in(entry.name)).grammar
        for row in [()] + some_sentences(rng, found, 3, 9):
            swapped = list(row)
            rng.shuffle(swapped)
            for codes in row, tuple(swapped):
                trees = grammar.trees([grammar.names[code - 1] for code in codes])
                assert trees.found == ["none", "one", "several"][tree_count(found, codes)], (entry.name, codes)
                assert trees.rules is None or row_of(found.rules, trees.rules) == codes, (entry.name, codes)
                assert (trees.found == "one") == (trees.rules is not None)
                answers[trees.found] += 1
    assert min(answers.values()) > 50, answers
    grammar = ambiguity.Grammar(b"terminals=If,else,x\nnonterminals=S\nrule=S: If S\nrule=S: If S else S\nrule=S: x\n")
    assert grammar.trees("IF x Else X".split()) == ("one", [2, 3, 3])
    assert refusal(grammar.trees, ["x", "s"]) == refusal(grammar.trees, ["x", "y"]) == (22, 1)
    assert refusal(grammar.trees, ["x"] * 65) == (22, 64) and grammar.trees(["x"] * 64).found == "none"
    assert refusal(grammar.trees, ["if", "x"], 1) == (14, 0) and refusal(grammar.trees, ["x"], 0) == (14, 0)
    return answers


def stepped(rules, marks, name, number):
    """The rules after a step of a draft, and what is refused; `rules` is a list of rules, `marks` what each mark keeps."""
    if name == "withdraw":
        present = 1 <= number <= len(rules)
        return (rules[:number - 1] + rules[number:], None) if present else (rules, (23, number))
    if name == "mark" and 1 <= number <= 8:
        marks[number] = rules
        return rules, None
    if name == "return_to" and number in marks:
        return marks[number], None
    return rules, (23, number)


def added(rules, rule):
    """The rules with one more of two terminals and two nonterminals, and what is refused; there are too few for 7 and 8."""
    end = sum(map(len, rules))
    if not START <= rule[0] < START + 2:
        return rules, (3, end)
    faults = [place for place, code in enumerate(rule[2:2 + rule[1]], 2) if code not in (1, 2, START, START + 1)]
    if faults:
        return rules, (5, end + faults[0])
    rule = rule[:2 + rule[1]]
    return (rules, (6, end)) if rule in rules else (rules + [rule], None)


def compare_drafts():
    """A history of steps, in which everything is refused at times; then what ctypes would cut, and full drafts."""
    rng = random.Random(13)
    draft, rules, marks, answers = ambiguity.Draft(2, 2), [], {}, {}
    for _ in range(EDITS):
        name = rng.choice(["add", "add", "add", "withdraw", "withdraw", "mark", "return_to"])
        if name == "add":
            length = rng.randrange(3)
            rule = [START + rng.randrange(5) // 2, length] + [rng.choice([1, 2, START, START + 1, 3]) for _ in range(length)]
            rules, expected = added(rules, rule)
            found = refusal(draft.add, rule + [rng.randrange(65536)] * rng.randrange(3))
        else:
            number = rng.choice([rng.randrange(10), rng.randrange(10), rng.randrange(10), rng.choice(OTHER_NUMBERS)])
            rules, expected = stepped(rules, marks, name, number)
            found = refusal(getattr(draft, name), number)
        assert found == expected and draft.rules() == rules, (name, found, expected)
        table = sum(rules, [])
        assert draft.table() == table and draft.counts() == (2, 2, len(rules), len(table), 4 + len(table) - len(rules))
        answers[name, found is None] = answers.get((name, found is None), 0) + 1
    assert len(answers) == 8 and min(answers.values()) > 100, answers
    assert refusal(draft.add, []) == refusal(draft.add, [START]) == (2, len(draft.table()))
    assert refusal(draft.add, [START, 13]) == (4, len(draft.table()))
    for wide in [START, 1, 65536 + 1], [START, 1, -1]:
        try:
            draft.add(wide)
            raise AssertionError(wide)
        except OverflowError:
            assert draft.rules() == rules
    for count in 2001, -1, 2 ** 64, 2 ** 64 + 1:
        assert refusal(ambiguity.Draft, count, 1) == refusal(ambiguity.Draft, 1, count) == (1, 0), count
    assert refusal(ambiguity.Draft, 0, 0) == (1, 0) and refusal(ambiguity.Draft, 1, 1, [START, 1, 2]) == (5, 2)
    full = ambiguity.Draft(401, 1, [entry for code in range(1, 401) for entry in (START, 1, code)])
    assert refusal(full.add, [START, 1, 401]) == (7, 1200) and full.counts().rules == 400
    long = ambiguity.Draft(1, 78, [entry for left in range(78) for entry in [START + left, 12] + [1] * 12])
    assert refusal(long.add, [START, 6] + [1] * 6) == (8, 1092) and refusal(long.add, [START, 5] + [1] * 5) is None
    assert long.counts() == (1, 78, 79, 1099, 1024)
    grammar = ambiguity.Grammar(b"terminals=a\nnonterminals=S\nrule=S: a\n")
    draft = grammar.draft()
    assert draft.rules() == [[START, 1, 1]] and refusal(draft.return_to, 1) == (23, 1)
    assert str(ambiguity.Refused(23, 9)) == "refused=23 at=9: no such mark, rule or draft"
    return sum(answers.values())


def compare_plans():
    """Methods of the command set and rows near them: the plan is the one tree, and none is none; then the certificate and refusals."""
    rng = random.Random(14)
    grammar, found = ambiguity.Grammar(CHANNELS), found_in(CHANNELS).grammar
    answers = dict.fromkeys(["none", "plan"], 0)
    for row in some_sentences(rng, found, METHODS, 20):
        changed, place = list(row), rng.randrange(len(row) + 1)
        changed[place:place + rng.randrange(2)] = [rng.randrange(1, 9)] * rng.randrange(2)
        for codes in [row, tuple(changed)]:
            words = [ambiguity.PLAN_TERMINALS[code - 1].upper() if rng.randrange(2) else grammar.names[code - 1] for code in codes]
            plan, count = ambiguity.plan(words), tree_count(found, codes)
            assert count == (plan is not None) and grammar.trees(words) == (("one", plan) if count else ("none", None)), codes
            assert plan is None or row_of(found.rules, plan) == codes and refusal(ambiguity.plan, words, len(plan) - 1) == (14, 0)
            answers["plan" if count else "none"] += 1
    assert min(answers.values()) >= METHODS // 3, answers
    assert ambiguity.plan([]) == [1] and ambiguity.plan(["Take", "CH", "vol"]) == [2, 1, 3, 6] and ambiguity.plan(["take"]) is None
    assert refusal(ambiguity.plan, ["take", "P"]) == (22, 1) and refusal(ambiguity.plan, ["chs"] + ["take"] * 70) == (22, 0)
    assert refusal(ambiguity.plan, ["take"] * 65) == (22, 64) and refusal(ambiguity.plan, [], 0) == (14, 0)
    certificate = ambiguity.plan_certificate()
    assert certificate == grammar.search(0).certificate and refusal(grammar.check, 0, certificate) is None
    return answers


def compare_joined(robot, module):
    """Two texts, joined by both; 1 if they are refused."""
    expected, text = join(robot, module, ENOUGH), join_written(robot, module, ENOUGH)
    if isinstance(expected, Refusal):
        for call in ambiguity.join_texts, ambiguity.joined_text, ambiguity.join:
            assert refusal(call, robot, module) == tuple(expected), (robot, module)
        assert bytes(ambiguity.joined_name(robot, module, 0)) == b""
        return 1
    table = expected.terminals, expected.nonterminals, expected.states, list(expected.table)
    assert ambiguity.join_texts(robot, module) == table and ambiguity.joined_text(robot, module) == text, (robot, module)
    joined = ambiguity.join(robot, module)
    assert (joined.terminals, joined.nonterminals, joined.states) == table[:3]
    for symbol, name in enumerate(joined.names + [""]):
        part, view = shown(robot, module, symbol), ambiguity.joined_name(robot, module, symbol)
        of = {0: b"", 1: robot, 2: module}[part.text]
        assert of[part.start:part.start + part.length] == view == name.encode("ascii"), (robot, module, symbol)
    return 0


def part_refused(robot, module):
    """Which part of two texts is refused."""
    try:
        ambiguity.join(robot, module)
    except ambiguity.Refused as refused:
        return str(refused).split(":")[0], refused.part
    return None


def compare_joins(small):
    """Pairs of the corpus, and a heating module; each part is told that is refused."""
    texts = [text_in(entry.name) for entry in small]
    pairs = [(robot, texts[(place * step + 1) % len(texts)]) for place, robot in enumerate(texts) for step in STEPS]
    refused = sum(compare_joined(*pair) for pair in pairs)
    assert 0 < refused < len(pairs) // 2
    robot = b"terminals=take,Vol\nnonterminals=Step\nrule=Step: take Vol\n"
    module = b"terminals=heat,VOL\nnonterminals=STEP,Warm\nrule=step: Warm vol\nrule=WARM: heat\n"
    compare_joined(robot, module)
    view = ambiguity.joined_name(robot, module, 2)
    assert view == b"heat" and view.obj is module
    view = ambiguity.joined_name(robot, module, 1)
    assert view == b"Vol" and view.obj is robot
    assert all(ambiguity.joined_name(robot, module, symbol) == b"" for symbol in (5, 4000, -1, 2 ** 64 - 1, 2 ** 64, 2 ** 64 + 2))
    assert part_refused(module.replace(b"=WARM", b"=x"), b"") == ("refused=17 at=4 part=robot", "robot")
    assert part_refused(robot, b"") == ("refused=16 at=1 part=module", "module")
    clash = b"terminals=step\nnonterminals=Warm\n"
    assert part_refused(robot, clash) == ("refused=20 at=1 part=join", "join")
    assert part_refused(clash, robot) == ("refused=19 at=0 part=robot", "robot")
    return len(pairs), refused


def main():
    assert os.path.dirname(os.path.abspath(ambiguity.__file__)) == os.path.abspath(FOLDER)
    with open(os.path.join(ROOT, "VERSION"), encoding="ascii") as file:
        assert ambiguity.version() == file.read().strip()
    small = [entry for entry in entries() if entry.states <= SMALL]
    for entry in small:
        compare(entry)
    largest = max(entries(), key=lambda entry: entry.states)
    grammar = ambiguity.Grammar(text_in(largest.name))
    assert grammar.states == largest.states and len(grammar.names) == grammar.terminals + grammar.nonterminals
    found = grammar.search(0)
    assert (found.unambiguous, found.size) == (largest.size is not None, largest.size)
    names = b",".join(b"t%d" % place for place in range(2000))
    most = ambiguity.Grammar(b"terminals=" + names + b"\nnonterminals=" + names.replace(b"t", b"N") + b"\nrule=N0:\n")
    assert (len(most.names), most.names[-1], most.search(0).size) == (4000, "N1999", 10)
    mixed = b"terminals=take,Vol\nnonterminals=Step\nrule=STEP: Take vol step\nrule=step:\n"
    assert ambiguity.Grammar(mixed).names == ["take", "Vol", "Step"]
    declared = b"terminals=take,Vol\nnonterminals=Step\nrule=Step: take Vol Step\nrule=Step:\n"
    assert ambiguity.Grammar(mixed).search(0) == ambiguity.Grammar(declared).search(0)
    assert refusal(ambiguity.Grammar, mixed.replace(b"Step", b"Step,TAKE", 1)) == (18, 2)
    assert refusal(ambiguity.Grammar, b"") == (16, 1) and refusal(ambiguity.Grammar, b"\xff" * 262_145) == (16, 0)
    compare_callers()
    steps = compare_drafts()
    trees, plans = (", ".join("%s %d" % answer for answer in answers.items()) for answers in (compare_trees(small), compare_plans()))
    print("%d grammars, %d pairs of them joined or refused (%d); trees of sentences: %s; %d steps of a draft; methods: %s" % (
        len(small), *compare_joins(small), trees, steps, plans))


if __name__ == "__main__":
    main()
