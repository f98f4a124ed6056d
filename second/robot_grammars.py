"""Random grammars grown from templates of robot commands, as a manual prints them.

Each part of a command is defined in one of several ways, some of them careless;
then a laboratory may change the grammar. Many become ambiguous by that.
"""

from typing import Callable, Dict, List

from case_files import Rng
from named_grammars import Named
from random_tables import Rule, encode
from tables import FIXED_STATES, MAX_LENGTH, MAX_STATES, START, has_sentence

Lines = Dict[str, List[str]]      # by left name the right sides, names apart by spaces

METHODS = [
    ["method step", "step"], ["step method", "step"], ["method step", ""],
    ["method semi step", "step"], ["step semi method", ""], ["method step semi", "step semi"],
    ["method method", "step"],
]
COMMANDS = [
    "aspirate volume place", "dispense volume place", "aspirate volume from place",
    "dispense volume to place", "mix place count times", "mix place for count times",
    "move arm to place", "move place", "wash tips", "wash", "wait duration", "pick channels",
    "pick tips channels", "eject tips", "eject channels", "goto label", "label colon",
    "transfer volume from place to place", "shake plate number for duration", "prime channels",
    "set channel to volume", "read place", "count place", "heat plate to number",
]
BLOCKS = [
    "repeat count method again", "repeat count begin method end", "repeat count step",
    "repeat count method", "begin method end", "if test then step endif",
    "if test then step else step endif", "if test then step",
]
PARTS: Dict[str, List[List[str]]] = {
    "volume": [["number ul"], ["number"], ["number unit"],
               ["number ul", "number point number ul"]],
    "unit": [["ul", "ml"], ["ul", ""], ["ul", "ml", ""]],
    "place": [["plate number well row number"], ["row number"], ["well row column"],
              ["number"], ["waste", "trough number"],
              ["plate number", "plate number comma place"]],
    "row": [["A", "B"], ["A", "B", "C", "D"], list("ABCDEFGH")],
    "column": [["1", "2", "3"], ["digit", "1 digit"]],
    "number": [["number digit", "digit"], ["digit number", "digit"], ["digit"]],
    "digit": [["0", "1"], ["1", "2", "3"], list("0123456789")],
    "duration": [["number min", "number sec"], ["number sec", "number min number sec"],
                 ["number", "number number"], ["number colon number"]],
    "channels": [["channels comma channel", "channel"], ["channel comma channels", "channel"],
                 ["channels comma channels", "channel"], ["channels channel", ""],
                 ["all", "channel"]],
    "channel": [["digit"], ["number", "number to number"], ["h1", "h2", "h3", "h4"]],
    "count": [["number"], ["2", "3", "4"], ["digit"]],
    "label": [["name"], ["name", "label name"], ["number"]],
    "test": [["liquid", "tip"], ["liquid", "not test"]],
}


# Growing.

def grow(rng: Rng, commands: int, blocks: int) -> Lines:
    """Lines for a method of so many commands and blocks, and all their parts."""
    steps = rng.sample(COMMANDS, commands) + rng.sample(BLOCKS, blocks)
    lines: Lines = {"method": list(rng.choice(METHODS)), "step": steps}
    waiting = steps[:]
    while waiting:
        for name in waiting.pop().split():
            if name in PARTS and name not in lines:
                lines[name] = list(rng.choice(PARTS[name]))
                waiting += lines[name]
    return lines


# What a laboratory changes.

def somewhere(rng: Rng, lines: Lines) -> List[str]:
    """The right sides of some name."""
    return lines[rng.choice(sorted(lines))]


def same_words(rng: Rng, lines: Lines) -> None:
    """A macro with the words of a command."""
    lines["macro"] = [rng.choice(lines["step"]), "rinse"]
    lines["step"].append("macro")


def left_out(rng: Rng, lines: Lines) -> None:
    """A word may be left out."""
    rights = somewhere(rng, lines)
    words = rng.choice(rights).split()
    if len(words) > 1:
        del words[rng.randrange(len(words))]
        rights.append(" ".join(words))


def dropped(rng: Rng, lines: Lines) -> None:
    """A last word is no longer written."""
    rights = somewhere(rng, lines)
    place = rng.randrange(len(rights))
    words = rights[place].split()
    if len(words) > 1:
        rights[place] = " ".join(words[:-1])


def another_word(rng: Rng, lines: Lines) -> None:
    """A word of one right side instead of one of another."""
    rights, others = somewhere(rng, lines), somewhere(rng, lines)
    place = rng.randrange(len(rights))
    words, choices = rights[place].split(), rng.choice(others).split()
    if words and choices:
        words[rng.randrange(len(words))] = rng.choice(choices)
        rights[place] = " ".join(words)


def another_step(rng: Rng, lines: Lines) -> None:
    """A short command of the laboratory's own, with a part that is there already."""
    word = rng.choice(["blink", "wash", "mix"])
    lines["step"].append("%s %s" % (word, rng.choice(sorted(lines))))


CHANGES: List[Callable[[Rng, Lines], None]] = [
    same_words, left_out, left_out, dropped, another_word, another_step,
]


# Grammars.

def named(lines: Lines) -> Named:
    """The grammar of lines; S is their first name, equal rules are taken once."""
    nonterminals = list(lines)
    pairs = list(dict.fromkeys((left, tuple(right.split()))
                               for left, rights in lines.items() for right in rights))
    words = dict.fromkeys(word for _, right in pairs for word in right if word not in lines)
    codes = {word: 1 + place for place, word in enumerate(words)}
    codes.update((name, START + place) for place, name in enumerate(nonterminals))
    rules: List[Rule] = [(codes[left], tuple(codes[word] for word in right))
                         for left, right in pairs]
    return Named(len(words), len(nonterminals), rules,
                 [word.encode("ascii") for word in list(words) + nonterminals])


def states_of(grammar: Named) -> int:
    """Q."""
    return FIXED_STATES + sum(len(right) + 1 for _, right in grammar.rules)


def grown(rng: Rng, commands: int, most: int = MAX_STATES) -> Named:
    """A grammar of up to so many commands, changed up to three times; Q at most `most`.

    It has a sentence.
    """
    while True:
        count = 1 + rng.randrange(commands)
        lines = grow(rng, count, rng.randrange(1 + min(count, 3)))
        for _ in range(rng.choice([0, 0, 1, 2, 3])):
            rng.choice(CHANGES)(rng, lines)
        grammar = named(lines)
        assert all(len(right) <= MAX_LENGTH for _, right in grammar.rules)
        if states_of(grammar) <= most and has_sentence(grammar.rules):
            return grammar


def table_of(grammar: Named) -> tuple:
    """t, n and the table."""
    return grammar.t, grammar.n, encode(grammar.rules)
