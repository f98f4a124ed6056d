"""The grammars of the benchmark, the same ones every time, within document 02's limits.

    grammars.py FILE    writes a line for each: name, t, n, the table in hexadecimal digits, four for an entry
"""

import random
import sys

START = 32768
MAX_SYMBOLS, MAX_LENGTH, MAX_RULES, MAX_STATES = 2000, 12, 400, 1024
SEED = 20010101


def line_of(name, terminals, nonterminals, table):
    digits = "".join(f"{entry:04x}" for entry in table)
    return f"{name} {terminals} {nonterminals} {digits}"


class Grammar:
    """Rules by names: the left sides are the nonterminals, in order, the first of them S; all other names are terminals."""

    def __init__(self, name, lines):
        """A line is "left: symbol symbol | symbol", alternatives by "|"."""
        self.name = name
        self.rules = []
        for line in lines:
            left, rights = line.split(":", 1)
            self.rules += [(left.strip(), right.split()) for right in rights.split("|")]
        self.nonterminals = list(dict.fromkeys(left for left, _ in self.rules))
        symbols = dict.fromkeys(symbol for _, right in self.rules for symbol in right)
        self.terminals = [symbol for symbol in symbols if symbol not in self.nonterminals]

    def states(self):
        return 4 + sum(len(right) + 1 for _, right in self.rules)

    def line(self):
        codes = {name: 1 + place for place, name in enumerate(self.terminals)}
        codes.update((name, START + place) for place, name in enumerate(self.nonterminals))
        assert len(self.terminals) <= MAX_SYMBOLS and len(self.nonterminals) <= MAX_SYMBOLS, self.name
        assert len(self.rules) <= MAX_RULES and self.states() <= MAX_STATES, self.name
        assert all(len(right) <= MAX_LENGTH for _, right in self.rules), self.name
        assert len({(left, tuple(right)) for left, right in self.rules}) == len(self.rules), self.name
        return line_of(self.name, len(self.terminals), len(self.nonterminals),
                       [entry for left, right in self.rules for entry in (codes[left], len(right), *(codes[x] for x in right))])


# Small grammars, of manuals and of textbooks.

def small():
    yield Grammar("one-word", ["S: a"])
    yield Grammar("list", ["S: S a | a"])
    yield Grammar("robot", [
        "P: P C | C", "C: move D N ; | turn D ; | stop ; | repeat N { P }", "D: left | right", "N: one | two | three"])
    yield Grammar("robot-loose", ["P: P P | C", "C: move D | move D N | stop", "D: left | right | back", "N: N digit | digit"])
    yield Grammar("eight-channels", ["P: | P K", "K: take L vol | give L vol | repeat num P close", "L: ch | L sep ch"])
    yield Grammar("dangling-else", ["S: if S | if S else S | x"])
    yield Grammar("brackets", ["S: ( S ) S |"])


# Grammars of languages, larger.

def layered(levels, operators):
    """Expressions with so many levels, each with so many operators that lean left."""
    lines = []
    for i in range(levels):
        signs = " | ".join(f"E{i} o{i}.{j} E{i + 1}" for j in range(operators))
        lines.append(f"E{i}: {signs} | E{i + 1}")
    return Grammar(f"layered-{levels}x{operators}", lines + [f"E{levels}: ( E0 ) | name | number"])


def flat(operators):
    """Expressions with all operators on one level: ambiguous."""
    return Grammar(f"flat-{operators}", ["E: " + " | ".join(f"E o{j} E" for j in range(operators)) + " | ( E ) | x"])


def commands(count, states, loose=False):
    """A robot's commands, each begun by a terminal of its own, with lists, repeat and if; Q is about `states`."""
    rng = random.Random(SEED + count)
    right = " | ".join(["repeat num P done", "when B P done", "when B P else P done"])
    lines = ["P: P P | C" if loose else "P: | P C", f"C: {right}", "B: full H | empty H | not B",
             "H: left | right | both", "L: num | L , num", "D: up | down | H"]
    room = states - Grammar("", lines).states() - 2 * count
    for i in range(count):
        share = min(7, max(0, round(room / (count - i))))
        body = [rng.choice(["num", "D", "L", "H", "to", "by"]) for _ in range(share)]
        room -= len(body)
        lines.append("C: " + " ".join([f"c{i}"] + body))
    return Grammar(f"commands-{count}" + ("-loose" if loose else ""), lines)


EXPRESSIONS = ["E: E or A | A", "A: A and R | R", "R: M < M | M = M | M", "M: M + T | M - T | T", "T: T * F | T / F | F",
               "F: name | number | ( E ) | not F | name ( L )", "L: E | L , E"]


def statements(name, conditional):
    return Grammar(name, [
        "P: P S | S", *conditional,
        "O: name := E ; | begin P end | call name ; | call name ( L ) ; | return E ; | for name := E to E do P od | skip ;",
        *EXPRESSIONS])


def nested_lists(depth):
    """Lists of lists, each depth with brackets of its own."""
    lines = []
    for i in range(depth):
        inner = f"L{i + 1}" if i + 1 < depth else "x"
        lines.append(f"L{i}: [{i} ]{i} | [{i} I{i} ]{i} | x{i}")
        lines.append(f"I{i}: {inner} | I{i} , {inner}")
    return Grammar(f"nested-lists-{depth}", lines)


def languages():
    yield Grammar("json", [
        "V: str | num | true | false | null | { } | { M } | [ ] | [ E ]", "M: P | M , P", "P: str : V", "E: V | E , V"])
    yield Grammar("json-right", [
        "V: str | num | { M } | [ E ]", "M: P T |", "T: , P T |", "P: str : V", "E: V U |", "U: , V U |"])
    yield layered(3, 2)
    yield layered(4, 3)
    yield layered(5, 5)
    yield layered(8, 4)
    yield layered(8, 6)
    yield flat(12)
    yield flat(50)
    yield commands(20, 100)
    yield commands(30, 150)
    yield commands(40, 200)
    yield commands(55, 250)
    yield commands(30, 150, loose=True)
    yield commands(55, 250, loose=True)
    yield statements("statements-dangling", ["S: if E then S | if E then S else S | while E do S | O"])
    yield statements("statements-matched", [
        "S: G | U", "G: if E then G else G | while E do G | O", "U: if E then S | if E then G else U | while E do U"])
    yield statements("statements-closed", ["S: if E then P fi | if E then P else P fi | while E do P od | O"])
    yield nested_lists(4)
    yield nested_lists(12)


# Random grammars.

def drawn(nonterminals, states, keyed):
    """Rules of 0 to 4 symbols, a nonterminal with probability 0.4; if keyed, each begins with a terminal of its own."""
    rng = random.Random(SEED * 100 + nonterminals + states + keyed)
    names = [f"X{i}" for i in range(nonterminals)]
    words = [f"t{i}" for i in range(12)]
    rules = {}
    left = states - 4
    while left > 5 and len(rules) < MAX_RULES:
        right = [rng.choice(names) if rng.random() < 0.4 else rng.choice(words) for _ in range(rng.randrange(5))]
        if keyed:
            right = [f"k{len(rules)}"] + right[:3]
        rule = (names[len(rules)] if len(rules) < nonterminals else rng.choice(names), " ".join(right))
        if rule not in rules:
            rules[rule] = None
            left -= len(right) + 1
    kind = "keyed" if keyed else "random"
    return Grammar(f"{kind}-{nonterminals}-{states}", [f"{left}: {right}" for left, right in rules])


def randoms():
    for nonterminals, states in ((4, 50), (8, 100), (18, 250)):
        yield drawn(nonterminals, states, False)
        yield drawn(nonterminals, states, True)


# Grammars whose moves, chains or reached sets are extreme.

def prefix(count):
    """One nonterminal, S -> t_i S S: each closing has twice as many targets as there are rules."""
    return Grammar(f"many-moves-prefix-{count}", ["S: " + " | ".join(f"t{i} S S" for i in range(count)) + " | x"])


def suffix(count):
    """S -> t S S u_i: all rules stand side by side until their last symbol."""
    return Grammar(f"many-moves-suffix-{count}", ["S: " + " | ".join(f"t S S u{i}" for i in range(count)) + " | x"])


def dense(nonterminals, rules):
    """One terminal, and rules that mix it with all nonterminals."""
    rng = random.Random(SEED + nonterminals)
    names = [f"X{i}" for i in range(nonterminals)]
    found = dict.fromkeys((name, "a") for name in names)
    while len(found) < rules:
        found[(rng.choice(names), " ".join(rng.choice(names + ["a"]) for _ in range(3)))] = None
    return Grammar(f"dense-{nonterminals}-{rules}", [f"{left}: {right}" for left, right in found])


def extremes():
    yield prefix(12)
    yield prefix(60)
    yield suffix(12)
    yield suffix(49)
    yield dense(4, 30)
    yield dense(8, 64)
    yield Grammar("unit-chain-100", [f"X{i}: X{i + 1}" for i in range(99)] + ["X99: a"])
    yield Grammar("right-chain-50", [f"X{i}: a X{i + 1} | b" for i in range(49)] + ["X49: a"])


# Some of these families at about 1,000 states.

def large():
    yield layered(15, 16)
    yield commands(240, 1000)
    yield commands(240, 1000, loose=True)
    yield nested_lists(66)
    yield drawn(60, 1000, False)
    yield drawn(60, 1000, True)
    yield prefix(250)
    yield suffix(200)


def grammars():
    yield from small()
    yield from languages()
    yield from randoms()
    yield from extremes()
    yield from large()


def main():
    with open(sys.argv[1], "w", encoding="ascii") as file:
        for grammar in grammars():
            file.write(grammar.line() + "\n")
    return 0


if __name__ == "__main__":
    sys.exit(main())
