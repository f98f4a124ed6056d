"""The corpus: grammar texts, and an index of what is expected of each.

`entries` reads the index, `faults_of` compares one of its lines with what this
program finds, `check` does so for the whole corpus.
"""

import os
import random
from typing import Iterator, List, NamedTuple, Optional, Tuple

from callers import refusal_at
from readings import named_of
from searches import Potential, needed, search
from tables import NO_SENTENCE, Codes, Grammar, Refusal
from text import AMPLE, Text, read_lines, read_text, without_case, write_text
from trees import MOST, some_sentences, tree_count
from triples import is_potential, reached, triples_of

FOLDER = os.path.join(os.path.dirname(os.path.dirname(os.path.abspath(__file__))), "corpus")
INDEX = "INDEX.tsv"
ENDING = ".grammar"
NOTHING = "-"             # in a column that says nothing of a grammar
EMPTY = "(empty)"         # the sentence without symbols
NOT_SAID = None, NOTHING, None     # of an m above 0 whose states do not fit

UNAMBIGUOUS, POTENTIAL, REFUSED = "unambiguous", "potential", "refused"
AMBIGUOUS, FALSE_ALARM, WITHOUT = "ambiguous", "false-alarm", "no-sentence"
TRUTHS = {UNAMBIGUOUS: UNAMBIGUOUS, AMBIGUOUS: POTENTIAL, FALSE_ALARM: POTENTIAL,
          WITHOUT: REFUSED}
KINDS = "row", "classic", "robot"

SENTENCES = 12            # random sentences tried for each grammar
SYMBOLS = 12              # their length, more or less


class Entry(NamedTuple):
    """A line of the index; its columns stand in this order."""

    name: str
    kind: str
    origin: str
    states: int
    verdict: str
    size: Optional[int]
    truth: str
    sentence: str
    reason: str
    states_1: Optional[int]
    verdict_1: str
    size_1: Optional[int]
    states_2: Optional[int]
    verdict_2: str
    size_2: Optional[int]


class Found(NamedTuple):
    """A text that was read; `names` in order of symbol numbers."""

    text: Text
    table: Tuple[int, int, Codes]
    grammar: Grammar
    names: List[str]


# Files.

def entry_of(line: str) -> Entry:
    """A line of the index; ValueError if it has other columns."""
    words = line.split("\t")
    if len(words) != len(Entry._fields) or not all(words):
        raise ValueError("a line of the index has other columns: %s" % line)
    entry = Entry(*words)
    numbers = {name: None if getattr(entry, name) == NOTHING else int(getattr(entry, name))
               for name in Entry._fields if name.startswith(("states", "size"))}
    return entry._replace(**numbers)


def entries(folder: str = FOLDER) -> List[Entry]:
    """The index, without its first line, which names the columns."""
    with open(os.path.join(folder, INDEX), encoding="ascii") as file:
        head, *lines = file.read().splitlines()
    if head.split("\t") != list(Entry._fields):
        raise ValueError("the index names other columns")
    return [entry_of(line) for line in lines]


def text_in(name: str, folder: str = FOLDER) -> bytes:
    """A grammar's text."""
    with open(os.path.join(folder, name + ENDING), "rb") as file:
        return file.read()


def names_in(folder: str = FOLDER) -> List[str]:
    """The names of all files of grammar text."""
    names = [name for name in os.listdir(folder) if name.endswith(ENDING)]
    return sorted(name[:-len(ENDING)] for name in names)


def found_in(text: bytes) -> Optional[Found]:
    """What the reader and the table check make of a text; None if it is refused."""
    result = read_text(text, AMPLE)
    if isinstance(result, Refusal):
        return None
    table = result.terminals, result.nonterminals, result.table
    grammar, names = named_of(text, result)
    return Found(result, table, grammar, [name.decode("ascii") for name in names])


def table_in(name: str, folder: str = FOLDER) -> Tuple[int, int, Codes]:
    """t, n and table of a grammar of the corpus, also of one without a sentence."""
    found = read_lines(text_in(name, folder))
    assert isinstance(found, Text)
    return found.terminals, found.nonterminals, found.table


# Comparison.

def verdict_of(found: Found) -> Tuple[str, Optional[int]]:
    """The verdict and, where it is unambiguous, the size."""
    result = search(*found.table, needed(found.grammar.states))
    assert not isinstance(result, Refusal)
    if isinstance(result, Potential):
        return POTENTIAL, None
    return UNAMBIGUOUS, result.size


Remembered = Tuple[Optional[int], str, Optional[int]]    # states, verdict and size at an m above 0


def remembered(found: Found, m: int) -> Remembered:
    """What the index says of an m above 0; nothing where the states do not fit."""
    if refusal_at(found.grammar, m) is not None:
        return NOT_SAID
    triples = triples_of(found.grammar, m)
    if is_potential(triples):
        return triples.states, POTENTIAL, None
    return triples.states, UNAMBIGUOUS, len(reached(triples))


def remembered_faults(entry: Entry, found: Found) -> Iterator[str]:
    """What speaks against the columns of m=1 and m=2."""
    verdict = entry.verdict
    for m, said in ((1, entry[-6:-3]), (2, entry[-3:])):
        right = remembered(found, m)
        if said != right:
            yield "at m=%d states=%s verdict=%s size=%s" % (
                m, *(NOTHING if value is None else value for value in right))
        if right[1] == UNAMBIGUOUS and entry.truth == AMBIGUOUS and entry.sentence != NOTHING:
            yield "unambiguous at m=%d, though a sentence has two trees" % m
        if right[1] == POTENTIAL and verdict == UNAMBIGUOUS:
            yield "potential at m=%d, though unambiguous before" % m
        verdict = right[1]


def coded(found: Found, sentence: str) -> Optional[Codes]:
    """The codes of a sentence's names, in any case; None if one is no terminal's."""
    words = [] if sentence == EMPTY else sentence.split(" ")
    words, terminals = ([without_case(name.encode("ascii")) for name in names]
                        for names in (words, found.names[:found.grammar.terminals]))
    if not all(word in terminals for word in words):
        return None
    return tuple(1 + terminals.index(word) for word in words)


def truth_faults(entry: Entry, found: Found) -> Iterator[str]:
    """What speaks against the columns truth and sentence.

    An ambiguous grammar's sentence has two trees. Of the others, random
    sentences have one.
    """
    if TRUTHS.get(entry.truth) != entry.verdict:
        yield "truth and verdict do not fit"
    if (entry.truth == AMBIGUOUS) != (entry.sentence != NOTHING):
        yield "a sentence is given, or missing"
    elif entry.truth == AMBIGUOUS:
        sentence = coded(found, entry.sentence)
        if sentence is None or tree_count(found.grammar, sentence) < MOST:
            yield "the sentence has no two trees"
    else:
        rng = random.Random(entry.name)
        for sentence in some_sentences(rng, found.grammar, SENTENCES, SYMBOLS):
            if tree_count(found.grammar, sentence) != 1:
                words = [found.names[code - 1] for code in sentence]
                yield "a sentence has not one tree: %s" % " ".join(words)


def refused_faults(entry: Entry, text: bytes) -> Iterator[str]:
    """What speaks against a line of the index whose verdict is refused."""
    if read_text(text, AMPLE) != Refusal(NO_SENTENCE, 0):
        yield "the text is not refused for lack of a sentence"
        return
    lines = read_lines(text)
    assert isinstance(lines, Text), "19 comes after all other faults"
    if entry.states != lines.states:
        yield "states=%d" % lines.states
    if (entry.size, entry.truth, entry.sentence) != (None, WITHOUT, NOTHING):
        yield "size, truth and sentence do not fit"
    if entry[-6:] != NOT_SAID * 2:
        yield "something is said of m above 0"


def faults_of(entry: Entry, text: bytes) -> Iterator[str]:
    """What speaks against a line of the index."""
    if entry.kind not in KINDS:
        yield "the kind is none of %s" % ", ".join(KINDS)
    if entry.verdict == REFUSED:
        yield from refused_faults(entry, text)
        return
    found = found_in(text)
    if found is None:
        yield "the text is refused"
        return
    written = write_text(
        *found.table, text, found.text.starts, found.text.lengths, len(text))
    if written != text:
        yield "the text is written otherwise than it was read"
    if entry.states != found.grammar.states:
        yield "states=%d" % found.grammar.states
    verdict, size = verdict_of(found)
    if (entry.verdict, entry.size) != (verdict, size):
        yield "verdict=%s size=%s" % (verdict, NOTHING if size is None else size)
    yield from truth_faults(entry, found)
    yield from remembered_faults(entry, found)


def faults(folder: str = FOLDER) -> Iterator[str]:
    """What speaks against the corpus: its index, its files, each line."""
    listed = entries(folder)
    names = [entry.name for entry in listed]
    if sorted(names) != names_in(folder):
        yield "the index has not each file once: %s" % " ".join(
            sorted(set(names) ^ set(names_in(folder))))
        return
    for entry in listed:
        for fault in faults_of(entry, text_in(entry.name, folder)):
            yield "%s: %s" % (entry.name, fault)


def counts(listed: List[Entry]) -> List[Tuple[str, int]]:
    """The number of grammars by kind and truth, and of all."""
    pairs = [("%s %s" % (kind, truth),
              sum(entry.kind == kind and entry.truth == truth for entry in listed))
             for kind in KINDS for truth in TRUTHS]
    return pairs + [("grammars", len(listed))]
