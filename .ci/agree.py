"""Compares the tools with the program ambig and with the second program, judge.py.

    agree.py TOOLS AMBIG     TOOLS is the folder of ambig-certify, ambig-check, ambig-join, ambig-trees, ambig-draft and ambig-plan

Prints a line for each comparison and exits with 1 if one fails.
"""

import glob
import itertools
import json
import os
import random
import re
import subprocess
import sys
import tempfile

ROOT = os.path.dirname(os.path.dirname(os.path.abspath(__file__)))
sys.path.insert(0, os.path.join(ROOT, "second"))
sys.dont_write_bytecode = True

from callers import MOST_CALLERS, states_at  # noqa: E402
from corpus import AMBIGUOUS, EMPTY, POTENTIAL, WITHOUT, coded, entries, found_in, text_in  # noqa: E402
from joining import join_written, read_alone  # noqa: E402
from judge import certified, checked, verdict  # noqa: E402
from printed import RUNS, certificate_in, lines_of  # noqa: E402
from program import MAX_BYTES, MAX_STATES  # noqa: E402
from readings import LentStrings, Refused, named_in, read_back, reading_lines  # noqa: E402
from tables import START, Refusal  # noqa: E402
from test_partings import accepts, has_pair  # noqa: E402
from text import AMPLE, MAX_TEXT, read_text  # noqa: E402
from trees import MOST, some_sentences, tree_count  # noqa: E402
from triples import triples_of  # noqa: E402

MESSAGES = sorted(glob.glob(os.path.join(ROOT, "bindings/tools/tests/messages/*.grammar")))
JOINS = sorted(glob.glob(os.path.join(ROOT, "bindings/tools/tests/joins/*.[mr]o*")))
FORMS = "--form=1", "--form=2", "--form=3"
SMALL = 60                # states up to which the second program is quick
LARGE = 300               # states up to which every number of callers is tried
SLIPS = 450
LETTER_SLIPS = 1500       # of which most do not part
RANDOM = 400              # grammars
SHORT_TEXT = 2000         # bytes of a text that is tried in another case
SHORT = 4                 # terminals of a short sentence
PAIRS = 600               # texts that are joined
MAX_ROW = 64              # terminals of a sentence
ROWS = 5                  # sentences of a grammar, and as many rows of the same words
SESSIONS = 40             # of a draft
EDITS = 25                # steps of each
MARKS = 8
METHODS = 150             # of the eight-channel command set
CHANNELS = (b"terminals=take,vol,give,repeat,num,close,ch,sep\nnonterminals=P,K,L\nrule=P:\nrule=P: P K\nrule=K: take L vol\n"
            b"rule=K: give L vol\nrule=K: repeat num P close\nrule=L: ch\nrule=L: L sep ch\n")


def ran(words, text):
    """Output, messages and exit status."""
    done = subprocess.run(words, input=text, capture_output=True)
    return done.stdout.decode(), done.stderr.decode(), done.returncode


def contents(path):
    with open(path, "rb") as file:
        return file.read()


def line_of(message):
    """The line in `FILE:LINE:COLUMN: ...`."""
    found = re.match(r"[^:]*:(\d+):\d+: error: ", message)
    return int(found[1]) if found else None


class Tools:
    def __init__(self, folder, ambig):
        self.certify = os.path.join(folder, "ambig-certify")
        self.check = os.path.join(folder, "ambig-check")
        self.join = os.path.join(folder, "ambig-join")
        self.trees = os.path.join(folder, "ambig-trees")
        self.draft = os.path.join(folder, "ambig-draft")
        self.plan = os.path.join(folder, "ambig-plan")
        self.ambig = ambig


def as_ambig(tools):
    """With --quiet and 0 callers ambig-certify prints what ambig prints, where ambig takes the text."""
    texts = [text_in(entry.name) for entry in entries() if entry.states <= MAX_STATES]
    texts += [contents(path) for path in MESSAGES]
    for text in texts:
        if len(text) <= MAX_BYTES:
            quiet = ran([tools.certify, "--quiet", "--callers=0", "-"], text)[0]
            assert quiet == ran([tools.ambig], text)[0], text
    return "%d texts" % len(texts)


def with_callers(tools):
    """With callers the verdicts are those of the corpus' index, and what is tried in turn ends as the second program ends."""
    ended = dict.fromkeys(range(3), 0)
    for entry in entries():
        if entry.truth == WITHOUT or entry.states > LARGE:
            continue
        path = os.path.join(ROOT, "corpus", entry.name + ".grammar")
        said = [(entry.states, entry.verdict, entry.size), entry[-6:-3], entry[-3:]]
        for callers, (states, verdict_there, size) in enumerate(said):
            out, _, status = ran([tools.certify, "--quiet", "--callers", str(callers), path], b"")
            front = "" if states is None else "states=%d\n%sverdict=%s\n" % (
                states, "callers=%d\n" % callers if callers else "", verdict_there)
            right = "refused=8\nat=0\n" if states is None else front + "reached=%d\n" % size if size is not None else None
            assert out == right or right is None and out.startswith(front + "left=(0 "), (entry.name, callers, out)
            assert status == (4 if states is None else 0 if size is not None else 3), (entry.name, callers, status)
        out, _, status = ran([tools.certify, "--quiet", path], b"")
        first = next((callers for callers, row in enumerate(said) if row[2] is not None), 0)
        assert out == ran([tools.certify, "--quiet", "--callers", str(first), path], b"")[0], entry.name
        ended[first] += status == 0
        if entry.states <= SMALL:
            answer = verdict(text_in(entry.name))
            assert (answer.printed, answer.status) == (out, status), entry.name
    assert min(ended[0], ended[1]) > 0, ended
    return "unambiguous first with 0 callers %d, with 1 %d, with 2 %d" % tuple(ended.values())


def messages(tools):
    """The second program refuses alike, and names the same line."""
    for path in MESSAGES:
        text = contents(path)
        answer = verdict(text)
        assert answer.printed == ran([tools.certify, "--quiet", path], b"")[0], path
        assert answer.grammar_fault.line == line_of(ran([tools.certify, path], b"")[1].replace(path, "")), path
    return "%d texts" % len(MESSAGES)


def certificates(tools):
    """The second program takes what ambig-certify prints, and judges damaged lines alike."""
    rng = random.Random(1)
    printed = []
    for entry in entries():
        text = text_in(entry.name)
        for callers, (states, size) in enumerate([(entry.states, entry.size), entry[-6:-3:2], entry[-3::2]]):
            if size is not None and states <= SMALL:
                words = [tools.certify, "--callers", str(callers)]
                printed += [(entry.name, text, ran(words + [form, "-"], text)[0].encode()) for form in FORMS]
    for _, text, lines in printed:
        assert checked(text, lines).printed == "accepted\n", text
    for _ in range(SLIPS):
        name, text, lines = rng.choice(printed)
        damaged = bytearray(lines)
        for _ in range(rng.randrange(1, 3)):
            place = rng.randrange(len(damaged))
            damaged[place:place + rng.randrange(2)] = rng.choice([b"", b"0", b"f", b" ", b"\n", b"*", b"z", b"\xb2"])
        path = os.path.join(ROOT, "corpus", name + ".grammar")
        answer = checked(text, bytes(damaged))
        quiet = ran([tools.check, "--quiet", path, "-"], damaged)[0]
        assert answer.printed == re.sub(r"\ncallers=[12]\n$", "\n", quiet), bytes(damaged)
        if answer.certificate_fault is not None:
            said = ran([tools.check, path, "-"], damaged)[1]
            assert answer.certificate_fault.line == line_of(said), (said, answer, bytes(damaged))
    return "%d certificates, %d damaged ones" % (len(printed), SLIPS)


def same_certificates(tools):
    """The second program prints every certificate of the corpus as ambig-certify does, byte by byte."""
    count = 0
    for entry in entries():
        for callers, size in enumerate([entry.size, entry.size_1, entry.size_2]):
            if size is None or callers > 0 and entry.states > SMALL:
                continue
            text, words = text_in(entry.name), [tools.certify, "--callers", str(callers)]
            answer = certified(text, callers)
            assert (answer.printed, answer.status) == ran(words + ["-"], text)[::2], entry.name
            found = found_in(text)
            runs = lines_of(found, certificate_in(found, answer.printed.encode()), RUNS, callers)
            assert runs.decode() == ran(words + ["--form=3", "-"], text)[0], entry.name
            count += 1
    return "%d certificates" % count


def json_lines(tools):
    """With --json all that is told fits together: verdicts, sentences, both trees, the rules that part."""
    names = [entry for entry in entries() if entry.states <= SMALL]
    paths = [os.path.join(ROOT, "corpus", entry.name + ".grammar") for entry in names] + MESSAGES
    lines = ran([tools.certify, "--json"] + paths, b"")[0].splitlines()
    assert len(lines) == len(paths)
    count = 0
    for path, line in zip(paths, lines):
        told = json.loads(line)
        assert told["file"] == path
        text = contents(path)
        if told["verdict"] == "refused":
            assert "refused=%d\nat=%d\n" % (told["refused"], told["at"]) == verdict(text).printed
            assert told["line"] >= 1 and told["column"] >= 1 and told["message"]
        elif told["verdict"] == "unambiguous":
            assert told["certificate"] == certified(text).printed and "size=%d\n" % told["size"] in told["certificate"]
            assert told["tried"] == list(range(told["callers"] + 1)) and told["too-many-states"] == []
            assert ("callers=%d\n" % told["callers"] in told["certificate"]) == (told["callers"] > 0)
        else:
            count += check_potential(text, told)
    return "%d lines, %d with two trees" % (len(lines), count)


def check_potential(text, told):
    """A line of a potential verdict; 1 if it has two trees."""
    lines = "left=%s\nright=%s\n" % (told["left"], told["right"])
    assert lines.encode() == reading_lines(named_in(text))
    assert told["callers"] == 0 and told["tried"] + told["too-many-states"] == [0, 1, 2]
    text_lines = text.decode().split("\n")
    for side in told["parting"]["left"], told["parting"]["right"]:
        assert side["rule"] == 0 or text_lines[side["line"] - 1].startswith("rule=") and side["column"] == len("rule=") + 1
    if told["verdict"] == "potential":
        return 0
    rows = [tree_row(text, told["nonterminal"], told[side]) for side in ("left-tree", "right-tree")]
    assert rows == [told["phrase"]] * 2 and told["left-tree"] != told["right-tree"]
    assert has_two_trees(text, " ".join(told["sentence"]) or EMPTY) and told["confirmed"] is True
    assert told["more"] in (None, "shown", "limit") and (told["more"] != "shown" or len(told["also"]) == 8)
    return 1


def tree_row(text, root, tree):
    """The names on the leaves of a tree, which must follow the rules of the text."""
    rules = [line.split(":") for line in text.decode().replace("rule=", "").splitlines()[2:]]
    row, expected = [], [root]
    for node in tree:
        name = expected.pop()
        if isinstance(node, int):
            assert rules[node - 1][0] == name
            expected += reversed(rules[node - 1][1].split())
        else:
            assert node == name
            row.append(node)
    assert not expected
    return row


def in_case(rng, part):
    """Bytes with some letters in the other case."""
    return bytes(rng.choice([byte, byte ^ 32]) if chr(byte).isalpha() else byte for byte in part)


def rules_in_case(rng, text):
    """A text whose rules spell names otherwise than the lists do."""
    return b"".join(b"rule=" + in_case(rng, line[5:]) if line.startswith(b"rule=") else line
                    for line in text.splitlines(keepends=True))


def lines_in_case(rng, lines):
    """Two lines with names in any case; the keys stay."""
    return b"".join(key + b"=" + in_case(rng, letters)
                    for key, letters in (line.split(b"=", 1) for line in lines.splitlines(keepends=True)))


def doubled_in_case(rng, text):
    """The text with a name declared once more, in the other case, on its line or, if it is a terminal, on the second."""
    lines = text.split(b"\n")
    lists = [line.split(b"=")[1].split(b",") for line in lines[:2]]
    from_line, to_line = rng.choice([(0, 0), (0, 1), (1, 1)]) if lists[0] != [b""] else (1, 1)
    lines[to_line] += b"," + rng.choice(lists[from_line]).swapcase()
    return b"\n".join(lines), to_line + 1


def spelling(tools):
    """With names in another case all answer as with the declared spelling; a name declared in two cases is refused by all."""
    rng = random.Random(1)
    count = 0
    for entry in entries():
        text = text_in(entry.name)
        if entry.states > SMALL or len(text) > SHORT_TEXT:
            continue
        other = rules_in_case(rng, text)
        quiet = ran([tools.certify, "--looked", "--callers=0", "-"], text)
        assert quiet == ran([tools.certify, "--looked", "--callers=0", "-"], other), other
        assert verdict(text).printed == verdict(other).printed, other
        assert entry.states > MAX_STATES or ran([tools.ambig], text)[0] == ran([tools.ambig], other)[0], other
        if entry.verdict == POTENTIAL:
            lines = quiet[0].encode().split(b"\n")[2:4]
            lines = lines_in_case(rng, b"\n".join(lines + [b""]))
            path = os.path.join(ROOT, "corpus", entry.name + ".grammar")
            assert ran([tools.check, "--lines", path, "-"], lines)[0] == said_of_strings(other, lines) == "accepted\n", lines
        double, line = doubled_in_case(rng, text)
        answer = verdict(double)
        assert answer.printed == "refused=18\nat=%d\n" % line == ran([tools.certify, "--quiet", "-"], double)[0], double
        assert line_of(ran([tools.certify, "-"], double)[1]) == line, double
        count += other != text
    return "%d texts" % count


def slip(rng, lines):
    """Two lines with a letter dropped, doubled or put elsewhere, or with another byte."""
    place = rng.randrange(len(lines))
    if rng.randrange(3) == 0:
        return lines[:place] + rng.choice([b"", b" ", b"(", b")", b"0", b"1", b"9", b"\n", b"x"]) + lines[place + 1:]
    words = re.split(b"([ =\n])", lines)
    one, other = rng.randrange(0, len(words), 2), rng.randrange(0, len(words), 2)
    kind = rng.randrange(4)
    if kind == 0:
        words[one:one + 2] = []
    elif kind == 1:
        words[one:one] = words[one], b" "
    elif kind == 2:
        words[one], words[other] = words[other], words[one]
    else:
        words[one] = words[other]
    return b"".join(words)


def said_of_strings(text, lines):
    """What ambig-check says of two lines for scripts, by the second program."""
    pair = read_back(text, lines, LentStrings(len(lines), len(lines)))
    if isinstance(pair, Refused):
        return "refused=%d\nat=%d\n" % pair.refusal
    automaton = triples_of(named_in(text).grammar).automaton
    part = all(accepts(automaton, string) for string in pair) and has_pair(pair)
    return "accepted\n" if part else "not-parting\n"


def strings(tools):
    """The second program prints the same two strings, reads damaged ones alike, and finds that the same pairs part."""
    rng = random.Random(1)
    printed = []
    for entry in entries():
        if entry.verdict == POTENTIAL and entry.states <= SMALL:
            text = text_in(entry.name)
            lines = ran([tools.certify, "--quiet", "--callers=0", "-"], text)[0].encode().split(b"\n", 2)[2]
            assert lines == reading_lines(named_in(text)) and said_of_strings(text, lines) == "accepted\n", entry.name
            printed.append((entry.name, text, lines))
    found = dict.fromkeys(["accepted", "not-parting", "refused=16", "refused=17"], 0)
    for _ in range(LETTER_SLIPS):
        name, text, lines = rng.choice(printed)
        damaged = slip(rng, lines)
        path = os.path.join(ROOT, "corpus", name + ".grammar")
        quiet = ran([tools.check, "--quiet", "--lines", path, "-"], damaged)[0]
        assert quiet == said_of_strings(text, damaged), (name, damaged)
        found[quiet.split("\n")[0]] += 1
        said = ran([tools.check, "--lines", path, "-"], damaged)[1]
        assert not quiet.startswith("refused=") or "at=%d\n" % line_of(said) in quiet, (said, damaged)
    assert min(found.values()) > 0, found
    return "%d pairs, damaged: %s" % (len(printed), ", ".join("%s %d" % count for count in found.items()))


def refused_part(robot, module):
    """Which text a refusal is about, by the reader alone."""
    if isinstance(read_text(robot, AMPLE), Refusal):
        return "robot"
    return "module" if isinstance(read_alone(module), Refusal) else "join"


def joins(tools):
    """Two texts are joined by both alike, or refused by both, and the verdict of what is joined is that of its text."""
    rng = random.Random(1)
    paths = [os.path.join(ROOT, "corpus", entry.name + ".grammar") for entry in entries() if entry.states <= SMALL]
    found = dict.fromkeys(["joined", "robot", "module", "join"], 0)
    for _ in range(PAIRS):
        robot_path, module_path = rng.choice(paths + JOINS), rng.choice(rng.choice([paths, JOINS, MESSAGES]))
        robot, module = (contents(path) for path in (robot_path, module_path))
        if rng.randrange(3) == 0:
            module = rules_in_case(rng, module)
        written = join_written(robot, module, MAX_TEXT)
        out = ran([tools.join, "--quiet", robot_path, "-"], module)[0]
        judged = ran([tools.join, "--certify", "--quiet", robot_path, "-"], module)[0]
        if isinstance(written, Refusal):
            part = refused_part(robot, module)
            assert out == judged == "refused=%d\nat=%d\npart=%s\n" % (*written, part), (robot_path, module)
            found[part] += 1
        else:
            assert out.encode() == written and judged == ran([tools.certify, "--quiet", "-"], written)[0], (robot_path, module)
            found["joined"] += 1
    assert min(found.values()) >= PAIRS // 40, found
    return ", ".join("%s %d" % count for count in found.items())


def told_ambiguous(out):
    """The sentence of terminals that is called ambiguous, in the form of the corpus' index; None if there is none."""
    told = re.search(r"ambiguous: (the empty sentence|an empty [^ ]*|`[^`]*`|the [^ ]* `[^`]*`) has two trees"
                     r"(?:, (?:for example|in a sentence:) (the empty sentence|`[^`]*`))?", " ".join(out.split()))
    if told is None:
        return None
    sentence = (told[2] or told[1]).strip("`")
    return EMPTY if sentence == "the empty sentence" else sentence


def has_two_trees(text, sentence):
    found = found_in(text)
    row = coded(found, sentence)
    return row is not None and tree_count(found.grammar, row) == MOST


def sentences(tools):
    """Every ambiguous grammar of the corpus is called so, with a sentence that has two trees."""
    count = 0
    for entry in entries():
        if entry.truth == AMBIGUOUS:
            text = text_in(entry.name)
            sentence = told_ambiguous(ran([tools.certify, "-"], text)[0])
            assert sentence is not None and has_two_trees(text, sentence), (entry.name, sentence)
            count += 1
    return "%d sentences" % count


def told_first(out):
    """What is said of two trees before they are shown: the phrase with its sentence, and where the readings part."""
    said = " ".join(out.partition("ambiguous: ")[2].partition("left tree:")[0].split())
    return re.sub(r"confirmed: .* of this sentence ", "", said)


def partings(tools):
    """The second program names the rule to look at as ambig-certify does: of a false alarm, and of two trees of the same phrase."""
    found = dict.fromkeys(["potential", "ambiguous", "another phrase"], 0)
    for entry in entries():
        if entry.verdict != POTENTIAL or entry.truth == WITHOUT or entry.states > SMALL:
            continue
        text = text_in(entry.name)
        out, said, status = ran([tools.certify, "-"], text)
        answer = certified(text)
        if status == 0:
            assert answer.parting is None, entry.name
        elif status == 1 and told_first(out) != told_first(answer.printed):
            assert answer.parting.message.startswith("ambiguous: "), entry.name
            found["another phrase"] += 1
        else:
            assert "<stdin>:%d:%d: %s" % answer.parting in said.split("\n"), (entry.name, answer.parting, said)
            found["ambiguous" if status == 1 else "potential"] += 1
    assert found["potential"] > 2 and found["ambiguous"] > 10, found
    return ", ".join("%s %d" % count for count in found.items())


def random_text(rng):
    """A small grammar, often with empty rules and rules that no sentence uses."""
    terminals, nonterminals = ["a", "b"][:rng.randrange(1, 3)], ["S", "P", "Q", "R"][:rng.randrange(1, 5)]
    lengths = rng.choice([(0, 0, 1, 2, 3), (0, 1, 1, 2, 2, 3, 3)])
    rules = {(rng.choice(nonterminals), tuple(rng.choice(terminals + nonterminals) for _ in range(rng.choice(lengths))))
             for _ in range(rng.randrange(2, 8))}
    lines = ["rule=%s:%s\n" % (left, "".join(" " + name for name in right)) for left, right in sorted(rules)]
    return ("terminals=%s\nnonterminals=%s\n%s" % (",".join(terminals), ",".join(nonterminals), "".join(lines))).encode()


def random_grammars(tools):
    """Random grammars that are called ambiguous have such a sentence; the others have none that is short."""
    rng = random.Random(1)
    ambiguous = 0
    for _ in range(RANDOM):
        text = random_text(rng)
        out = ran([tools.certify, "-"], text)[0]
        sentence = told_ambiguous(out)
        if sentence is not None:
            assert has_two_trees(text, sentence), (text, sentence)
            ambiguous += 1
        elif "verdict=potential" in out:
            grammar = found_in(text).grammar
            short = (row for length in range(SHORT + 1)
                     for row in itertools.product(range(1, grammar.terminals + 1), repeat=length))
            assert all(tree_count(grammar, row) < MOST for row in short), text
    return "%d grammars, %d of them ambiguous" % (RANDOM, ambiguous)


def row_of_rules(grammar, numbers):
    """The row of the tree that applies these rules, each node before its children."""
    row, expected = [], [START]
    for number in numbers:
        while expected[-1] < START:
            row.append(expected.pop())
        rule = grammar.rules[number - 1]
        assert rule.left == expected.pop()
        expected += reversed(rule.right)
    return tuple(row + expected[::-1])


def trees(tools):
    """Sentences, and the same words in other orders, have as many trees as the second program counts; the rules of one give it again."""
    rng = random.Random(1)
    found = dict.fromkeys(["none", "one", "several"], 0)
    texts = [text_in(entry.name) for entry in entries() if entry.truth != WITHOUT and entry.states <= SMALL]
    texts += [text for text in (random_text(rng) for _ in range(RANDOM // 2)) if found_in(text) is not None]
    for text in texts:
        read = found_in(text)
        rows = [()] + [row for row in some_sentences(rng, read.grammar, ROWS, 10) if len(row) <= MAX_ROW]
        rows += [tuple(rng.sample(row, len(row))) for row in rows]
        lines = "".join(" ".join(read.names[code - 1] for code in row) + "\n" for row in rows)
        with tempfile.NamedTemporaryFile() as file:
            file.write(text)
            file.flush()
            told = ran([tools.trees, "--json", file.name], in_case(rng, lines.encode()))[0].splitlines()
        for row, line in itertools.zip_longest(rows, map(json.loads, told)):
            count = ["none", "one", "several"][tree_count(read.grammar, row)]
            assert line["trees"] == count and coded(read, " ".join(line["sentence"]) or EMPTY) == row, (text, row, line)
            if count == "one":
                assert row_of_rules(read.grammar, line["rules"]) == row, (text, row, line)
                assert tree_row(text, read.names[read.grammar.terminals], line["tree"]) == line["sentence"], (text, row, line)
            found[count] += 1
    assert min(found.values()) > ROWS * 50, found
    return ", ".join("%s %d" % count for count in found.items())


def edit(rng, rules, marks):
    """A line of a session, the rules after it, and what is refused. A rule is a tuple of names, the left one first."""
    end = sum(1 + len(rule) for rule in rules)
    kind = rng.choice(["add", "add", "withdraw", "mark", "return"])
    if kind == "add":
        left, right = rng.choice("SSSTTTbX"), rng.choices("aabbSTc", k=rng.randrange(4))
        rule = left, *right
        line = "add %s%s%s" % (left, rng.choice([":", " ->"]), "".join(" " + name for name in right))
        refused = (3, end) if left in "bX" else (5, end + 2 + right.index("c")) if "c" in right else (6, end) if rule in rules else None
        return line, rules if refused else rules + [rule], refused
    number = rng.randrange(MARKS + 2)
    line = "%s %d" % (kind, number)
    if kind == "withdraw" and 1 <= number <= len(rules):
        return line, rules[:number - 1] + rules[number:], None
    if kind == "mark" and 1 <= number <= MARKS:
        marks[number] = rules
        return line, rules, None
    if kind == "return" and number in marks:
        return line, marks[number], None
    return line, rules, (23, number)


def is_quick(text):
    """The second program judges the text quickly: it has no sentence, or few states with the most callers."""
    found = found_in(text)
    return found is None or states_at(found.grammar, MOST_CALLERS) <= SMALL


def drafts(tools):
    """After each line of a session the draft is that of its history, and is judged as the second program judges the text of these rules."""
    rng = random.Random(13)
    answers = dict.fromkeys(["refused", "done", "unambiguous", "potential", "no sentence"], 0)
    for _ in range(SESSIONS):
        lines, expected, rules, marks = ["terminals a b", "nonterminals S T"], "", [], {}
        for _ in range(EDITS):
            line, rules, refused = edit(rng, rules, marks)
            lines += [in_case(rng, line.encode()).decode(), "text"]
            answers["refused" if refused else "done"] += 1
            if refused:
                expected += "line=%d\nrefused=%d\nat=%d\n" % (len(lines) - 1, *refused)
            text = "terminals=a,b\nnonterminals=S,T\n"
            text += "".join("rule=%s:%s\n" % (rule[0], "".join(" " + name for name in rule[1:])) for rule in rules)
            without = found_in(text.encode()) is None
            expected += "line=%d\nrefused=19\nat=0\n" % len(lines) if without else text
            if is_quick(text.encode()):
                lines.append("judge")
                printed = verdict(text.encode()).printed
                expected += "line=%d\n%s" % (len(lines), printed) if without else printed
                answers["no sentence" if without else "potential" if "potential" in printed else "unambiguous"] += 1
        out, err, _ = ran([tools.draft, "--quiet"], "\n".join(lines).encode())
        assert (out, err) == (expected, ""), "\n".join(lines)
    assert min(answers.values()) > SESSIONS, answers
    return ", ".join("%s %d" % count for count in answers.items())


def closed(grammar, items, before):
    """Earley's items at a place, with all that follow from them; those of the places before are given. An item is a rule, the place of its
    dot and where it began."""
    items, size = set(items), 0
    while size < len(items):
        size = len(items)
        for rule, dot, began in list(items):
            if dot < len(rule.right):
                items |= {(other, 0, len(before)) for other in grammar.rules if other.left == rule.right[dot]}
                continue
            callers = items if began == len(before) else before[began]
            items |= {(caller, at + 1, from_) for caller, at, from_ in list(callers) if caller.right[at:at + 1] == (rule.left,)}
    return items


def front_of(grammar, row):
    """How long the longest front is that some sentence begins with, which terminals may follow it, and whether it is a sentence. All
    nonterminals have sentences."""
    before, items = [], {(rule, 0, 0) for rule in grammar.rules if rule.left == START}
    for code in row + (None,):
        items = closed(grammar, items, before)
        before.append(items)
        nexts = {rule.right[dot] for rule, dot, _ in items if dot < len(rule.right)}
        if code not in nexts:
            ends = any(rule.left == START and dot == len(rule.right) and began == 0 for rule, dot, began in items)
            return len(before) - 1, {next_ for next_ in nexts if next_ < START}, ends
        items = {(rule, dot + 1, began) for rule, dot, began in items if rule.right[dot:dot + 1] == (code,)}


def near(rng, row):
    """A row with a word added, taken away or replaced, two swapped, or cut."""
    row, place = list(row), rng.randrange(len(row) + 1)
    kind = rng.randrange(3)
    if kind == 0:
        row[place:place + rng.randrange(2)] = [rng.randrange(1, 9)] * rng.randrange(2)
    elif kind == 1:
        row[place:place + 2] = row[place:place + 2][::-1]
    else:
        del row[place:]
    return tuple(row)


def plans(tools):
    """Methods of the eight-channel command set, and rows near them, have a plan or none as the second program counts their trees; the rules of
    a plan give the method again; a fault stands behind the longest front that a general recogniser finds, with what it expects there."""
    rng = random.Random(14)
    read = found_in(CHANNELS)
    methods = [row for row in some_sentences(rng, read.grammar, METHODS, 30) if len(row) <= MAX_ROW]
    methods += [sum(some_sentences(rng, read.grammar, 9, 9), ())[:MAX_ROW] for _ in range(METHODS // 3)]
    rows = methods + [near(rng, row)[:MAX_ROW] for row in methods * 2]
    lines = "".join(" ".join(read.names[code - 1] for code in row) + "\n" for row in rows)
    told = ran([tools.plan, "--json"], in_case(rng, lines.encode()))[0].splitlines()
    quiet = ran([tools.plan, "--quiet"], lines.encode())[0]
    answers, right = dict.fromkeys(["none", "one"], 0), ""
    for number, (row, line) in enumerate(itertools.zip_longest(rows, map(json.loads, told)), 1):
        place, expected, ends = front_of(read.grammar, row)
        found = ["none", "one"][tree_count(read.grammar, row)]
        answers[found] += 1
        right += "line=%d\ntrees=%s\n" % (number, found)
        assert line["trees"] == found and coded(read, " ".join(line["sentence"]) or EMPTY) == row, (row, line)
        if found == "one":
            assert (place, ends) == (len(row), True) and row_of_rules(read.grammar, line["rules"]) == row, (row, line)
            assert tree_row(CHANNELS, "P", line["tree"]) == line["sentence"], (row, line)
            right += "rules=%s\n" % ",".join(map(str, line["rules"]))
            continue
        words = [read.names.index(name) + 1 for name in line["expected"]]
        assert (line["fault"], set(words), line["may-end"]) == (place, expected, ends), (row, line)
        right += "fault=%d\n" % place
    assert quiet == right
    with tempfile.NamedTemporaryFile() as file:
        file.write(CHANNELS)
        file.flush()
        trees_told = ran([tools.trees, "--quiet", file.name], lines.encode())[0]
    assert re.sub("fault=.*\n", "", quiet) == trees_told
    assert min(answers.values()) > METHODS, answers
    return ", ".join("%s %d" % count for count in answers.items())


def main(folder, ambig):
    tools = Tools(folder, ambig)
    failed = 0
    for test in (as_ambig, messages, with_callers, certificates, same_certificates, json_lines, strings, spelling, joins,
                 sentences, partings, random_grammars, trees, drafts, plans):
        try:
            print("%s: %s" % (test(tools), test.__doc__.strip()))
        except AssertionError as error:
            failed += 1
            print("wrong: %s\n%s" % (test.__doc__.strip(), error))
    return 1 if failed else 0


if __name__ == "__main__":
    sys.exit(main(*sys.argv[1:]))
