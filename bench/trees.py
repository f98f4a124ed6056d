"""How long the trees of one sentence take, beside plain C: sentences of real grammars, rows and grammars of about 1,000 states that are
made to be slow, and random mixtures of these.

Options: --seconds N for each row (0.1); --archive FILE, a static library with the library's functions, in place of the one that rt
lib makes; --only WORD, the grammars whose names have it, or a group: real, slow, mixtures; --mixtures N, so many random ones (6).
The compiler is $CC or gcc, with -O3. README.md beside this file says what the numbers mean.
"""

import argparse
import os
import random
import statistics
import subprocess
import sys
from typing import List, NamedTuple

import results
from grammars import MAX_LENGTH, MAX_RULES, MAX_STATES, SEED, START, Grammar, grammars, line_of
from search import BENCH, FLAGS, ROOT, WORK, archive, ratio, run

sys.path.insert(0, str(ROOT / "second"))
from text import read_lines

MAX_ROW = 64
LENGTHS = 5, 20, MAX_ROW
CORPUS = ("expr-stratified", "expr-ambiguous", "json", "statements", "statements-large", "else-dangling", "robot-channels",
          "robot-manual", "robot-manual-slip", "robot-96-wells", "robot-256", "chemistry-300", "chemistry-300-slip")
MADE = "eight-channels", "layered-8x6", "commands-55", "layered-15x16", "commands-240"    # of grammars.py
REAL, SLOW, MIXED = "real grammars", "made to be slow", "random mixtures"


class Row(NamedTuple):
    """A row of terminals' codes, and the line of its grammar."""

    group: str
    name: str
    line: str
    codes: List[int]

    def input(self):
        return f"{self.line} {''.join(f'{code:04x}' for code in self.codes) or '-'}"


# Sentences of real grammars.

def rules_of(table):
    """Pairs of a left code and a right side."""
    found = []
    while table:
        left, length, *rest = table
        found.append((left, rest[:length]))
        table = rest[length:]
    return found


def joined(lengths, more):
    """The sums of two sets of lengths, each a number whose bit k says that k is among them."""
    sums = 0
    for length in range(MAX_ROW + 1):
        if lengths >> length & 1:
            sums |= more << length
    return sums & (1 << MAX_ROW + 1) - 1


class Sentences:
    """Random sentences of a table, by how many terminals they have."""

    def __init__(self, table, rng):
        self.rules, self.rng = rules_of(table), rng
        self.lengths = {}
        grown = True
        while grown:
            grown = False
            for left, right in reversed(self.rules):
                lengths = self.lengths.get(left, 0) | self.of_all(right)
                if lengths != self.lengths.get(left, 0):
                    self.lengths[left] = lengths
                    grown = True

    def of(self, code):
        return self.lengths.get(code, 0) if code >= START else 1 << 1

    def of_all(self, codes):
        lengths = 1
        for code in codes:
            lengths = joined(lengths, self.of(code))
        return lengths

    def parts(self, codes, length):
        """Of each symbol how many terminals it gets, so that all of them get so many."""
        for place, code in enumerate(codes):
            rest = self.of_all(codes[place + 1:])
            fits = [k for k in range(length + 1) if self.of(code) >> k & 1 and rest >> length - k & 1]
            part = self.rng.choice(fits)
            yield code, part
            length -= part

    def draw(self, most):
        """A sentence of so many terminals, or of the most below."""
        length = max(k for k in range(most + 1) if self.of(START) >> k & 1)
        found, waiting = [], [(START, length)]
        while waiting:
            code, length = waiting.pop()
            if code < START:
                found.append(code)
                continue
            fits = [right for left, right in self.rules if left == code and self.of_all(right) >> length & 1]
            waiting += reversed(list(self.parts(self.rng.choice(fits), length)))
        return found


def real_tables():
    """Names, and t, n and tables."""
    made = {grammar.name: grammar.line() for grammar in grammars()}
    for name in MADE:
        _, terminals, nonterminals, digits = made[name].split()
        yield name, int(terminals), int(nonterminals), [int(digits[k:k + 4], 16) for k in range(0, len(digits), 4)]
    for name in CORPUS:
        text = read_lines((ROOT / "corpus" / f"{name}.grammar").read_bytes())
        yield name, text.terminals, text.nonterminals, text.table


def real():
    """Sentences of some lengths, and the longest with its first terminal in its middle too."""
    for name, terminals, nonterminals, table in real_tables():
        rng = random.Random(f"{SEED} {name}")
        line = line_of(name, terminals, nonterminals, table)
        sentences = Sentences(table, rng)
        for most in LENGTHS:
            codes = sentences.draw(most)
            yield Row(REAL, name, line, codes)
        middle = len(codes) // 2
        yield Row(REAL, name, line, [*codes[:middle], codes[0], *codes[middle + 1:]])


# Grammars of about 1,000 states that are made to be slow.

def of_a(name, lines, length=MAX_ROW):
    """A row of the terminal a."""
    grammar = Grammar(name, lines)
    return Row(SLOW, name, grammar.line(), [1 + grammar.terminals.index("a")] * length)


def upwards(lines):
    """The rule of S stands first; of the others the last."""
    return lines[:1] + lines[:0:-1]


def in_turn(lines):
    """The rule of S stands first, then every second one, then the others from the last to the first."""
    return lines[:1] + lines[1::2] + lines[2::2][::-1]


def chain(count, step="{}"):
    """Unit rules X0 to X1 and so on; what stands around the next is the step's."""
    return [f"X{i}: " + step.format(f"X{i + 1}") for i in range(count - 1)]


ORDERS = {"down": list, "up": upwards, "turn": in_turn}


def chains():
    """Where a chain ends in a row of a, its members derive each part in one way; in a circle in more, each of them rising twice."""
    count = 396
    ends = {"unit-chain": "R", "unit-cycle": "R | X0", "nested-chain": "a | a X0"}
    for name, end in ends.items():
        for order, ordered in ORDERS.items():
            yield of_a(f"{name}-{order}", ordered(chain(count) + [f"X{count - 1}: {end}"]) + (["R: a | a R"] if "R" in end else []))
    yield of_a("nested-chain-empty", upwards(chain(333, "{} Y") + ["X332: a | a X0", "Y:"]))
    yield of_a("nested-chain-empties", upwards(chain(253, "Y {} Y") + ["X252: a | a X0", "Y:"]))


def recalled():
    """A circle, and rules at the end of the table that name each of its members and never end: whatever rises is looked at there again."""
    count, named = 317, MAX_LENGTH - 1
    later = ["Z: " + " ".join(f"X{i}" for i in range(k, min(count, k + named))) + " b" for k in range(0, count, named)]
    for order, ordered in ORDERS.items():
        yield of_a(f"recalled-cycle-{order}", ordered(chain(count) + [f"X{count - 1}: R | X0"]) + ["R: a | a R", *later])


def empties():
    """Trees of the empty row, of 12^78 leaves and of as many rules as the list has entries, less one."""
    yield of_a("empty-12^78", [f"X{i}: " + f"X{i + 1} " * MAX_LENGTH for i in range(78)] + ["X78:", "X77: a"], 0)
    pairs = [f"X{i}: X{i + 1} X{i + 1}" for i in range(19)]
    yield of_a("empty-2^20", pairs[:1] + [f"Z: {'a ' * MAX_LENGTH} | " + " | ".join(f"a z{k} " + "a " * 10 for k in range(71))]
               + pairs[1:] + ["X19:"], 0)


def names(count):
    return [f"X{i}" for i in range(count)]


def long_rules(fillers, frame):
    """Rules of 12 symbols, one for each left side."""
    return [f"L{k}: " + frame.format(" ".join(fillers(k, d) for d in range(MAX_LENGTH - 1))) for k in range(63)]


def dense():
    some = names(70)
    yield of_a("dense-12", [f"{name}: a" for name in some] + [
        f"{some[k]}: " + " ".join(some[(k * 7 + d * 5) % 70] for d in range(MAX_LENGTH)) for k in range(67)])
    some = names(100)
    pairs = dict.fromkeys((some[k % 100], some[k * 7 % 100], some[(k * 13 + k // 100 + 1) % 100]) for k in range(270))
    yield of_a("dense-pairs", [f"{name}: a" for name in some] + [f"{left}: {one} {two}" for left, one, two in pairs])


def longs():
    row = ["S: a", "A: a | a A"]
    yield of_a("long-never-ends", row + long_rules(lambda k, d: f"L{k}" if d == k // 11 else "S" if d == k % 11 else "A", "{} b"))
    yield of_a("long-never-begins", row + long_rules(lambda k, d: "S" if d in (k // 11, k % 11) else "A", "b {}"))
    for name, end in (("chain", "X59: a | a X59"), ("cycle", "X59: a | a X59 | X0")):
        links = ["S: a"] + upwards(chain(60) + [end])
        for place, frame in (("ends", "{} b"), ("begins", "b {}")):
            yield of_a(f"long-{name}-never-{place}", links + long_rules(lambda k, d: f"X{(k + d * 5) % 60}", frame))


def drawn(seed):
    """Each nonterminal has a rule of one terminal; the others have up to four symbols."""
    rng = random.Random(SEED + seed)
    some, words = names(rng.randrange(20, 120)), ["a", "b", "c"][:rng.randrange(1, 4)]
    rules = dict.fromkeys((name, rng.choice(words)) for name in some)
    left = MAX_STATES - 4 - 2 * len(rules)
    while left > 5 and len(rules) < MAX_RULES:
        right = [rng.choice(words) if rng.random() < 0.4 else rng.choice(some) for _ in range(rng.randrange(5))]
        rule = rng.choice(some), " ".join(right)
        if rule not in rules:
            rules[rule] = None
            left -= len(right) + 1
    grammar = Grammar(f"random-{seed}", [f"{left}: {right}" for left, right in rules])
    codes = range(1, 1 + len(grammar.terminals))
    return Row(SLOW, grammar.name, grammar.line(), [rng.choice(codes) for _ in range(MAX_ROW)])


def slow():
    yield from chains()
    yield from recalled()
    yield from empties()
    yield from dense()
    yield from longs()
    for seed in range(5):
        yield drawn(seed)


# Random mixtures of these.

def links(rng, count):
    """A chain of about so many in some order, with what may be empty beside its members and with steps back here and there."""
    empty, back = rng.choice(["", "Y:", "Y: | a"]), rng.choice([0, 0, 0.02, 0.2])
    lines = []
    for i in range(count - 1):
        before, after = ("Y " if empty and rng.random() < share else "" for share in (0.3, 0.5))
        lines.append(f"X{i}: {before}X{i + 1} {after}" + (f"| X{rng.randrange(count)} c" if rng.random() < back else ""))
    lines.append(f"X{count - 1}: " + rng.choice(["R", "R | X0", "R |", "a | a X0", "a | a X0 | X0"]))
    order = rng.choice([*ORDERS.values(), lambda lines: lines[:1] + rng.sample(lines[1:], len(lines) - 1)])
    return order(lines) + ["R: a | a R", empty or "Y: b"]


def mixture(seed):
    """A chain, then rules of its names and of others, as many as fit."""
    rng = random.Random(SEED * 1000 + seed)
    count = rng.randrange(10, 396)
    lines = links(rng, count)
    while Grammar("", lines).states() > MAX_STATES or len(Grammar("", lines).rules) > MAX_RULES:
        count = count * 4 // 5
        lines = links(rng, count)
    rules = dict.fromkeys((left, " ".join(right)) for left, right in Grammar("", lines).rules)
    some, others = names(count), [f"L{k}" for k in range(rng.randrange(1, 100))]
    longest = rng.choice([2, 4, MAX_LENGTH])
    left = MAX_STATES - 4 - sum(len(right.split()) + 1 for _, right in rules)
    while left > 1 and len(rules) < MAX_RULES:
        right = [rng.choice("abc") if rng.random() < 0.1 else rng.choice(others if rng.random() < 0.1 else some)
                 for _ in range(min(left - 1, rng.randint(1, longest)))]
        rule = rng.choice(others if rng.random() < 0.7 else some), " ".join(right)
        if rule not in rules:
            rules[rule] = None
            left -= len(right) + 1
    grammar = Grammar(f"mixture-{seed}", [f"{left}: {right}" for left, right in rules])
    words = ["a"] * rng.choice([1, 8, 64]) + [name for name in "abc" if name in grammar.terminals]
    return Row(MIXED, grammar.name, grammar.line(), [1 + grammar.terminals.index(rng.choice(words)) for _ in range(MAX_ROW)])


# The table.

def build(options):
    WORK.mkdir(parents=True, exist_ok=True)
    program = WORK / "trees"
    run(os.environ.get("CC", "gcc"), *FLAGS, BENCH / "trees.c", BENCH / "chart.c", *archive(options), "-o", program)
    return program


def summary(group, found):
    """The slowest of a group, and median, worst and best of each ratio."""
    slowest = max(found, key=lambda line: line[1])
    print(f"{group}, {len(found)} rows: slowest {slowest[1] / 1e6:.2f} ms ({slowest[0]})")
    for place, label in ((2, "plain C"), (3, "plain C without the lent row")):
        ratios = [line[place] for line in found]
        print(f"  {label:30s} median {statistics.median(ratios):6.3f}   worst {min(ratios):6.3f}   best {max(ratios):6.3f}")


def main():
    parser = argparse.ArgumentParser(description=__doc__, formatter_class=argparse.RawDescriptionHelpFormatter)
    parser.add_argument("--seconds", type=float, default=0.1)
    parser.add_argument("--archive")
    parser.add_argument("--only", default="")
    parser.add_argument("--mixtures", type=int, default=6)
    options = parser.parse_args()
    options.stand_in = False
    program = build(options)
    listed = WORK / "rows.txt"
    rows = [row for row in [*real(), *slow(), *map(mixture, range(options.mixtures))] if options.only in f"{row.group} {row.name}"]
    listed.write_text("".join(row.input() + "\n" for row in rows))
    print(f"load {os.getloadavg()[0]:.1f} on {os.cpu_count()} processors; the row is garbage before each call")
    print(f"{'grammar':22s} {'Q':>4s} {'row':>3s} {'answer':7s} {'rules':>7s} {'us':>10s} {'plain':>6s} {'bare':>6s}")
    found = {}
    with subprocess.Popen([program, listed, str(options.seconds)], stdout=subprocess.PIPE, text=True) as process:
        for row, line in zip(rows, process.stdout):
            name, states, terminals, answer, rules, *times = line.split()
            library, plain, bare = map(float, times)
            results.note(f"trees: {row.group}", f"{name} {terminals} {answer}", terminals, library, plain)
            found.setdefault(row.group, []).append((name, library, ratio(library, plain), ratio(library, bare)))
            print(f"{name:22s} {states:>4s} {terminals:>3s} {answer:7s} {rules:>7s} {library / 1000:10.2f}"
                  f" {ratio(library, plain):6.3f} {ratio(library, bare):6.3f}", flush=True)
    if process.returncode != 0:
        print("the library and plain C disagree")
        return 1
    print("above 1 the library is faster")
    for group, lines in found.items():
        summary(group, lines)
    return 0


if __name__ == "__main__":
    sys.exit(main())
