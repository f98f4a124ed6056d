"""The two readings in words, and reading them back: document 02, [2].

A string is a row of letters: the moves of a step record, without those that
stay. `sides` gives the strings of a witness, `witness_lines` the two lines that
the program adds for it, `read_back` the strings of two lines.

One table of words, `words_of`, serves both ways. A line is its words with one
space between, no word has a space in it and no two letters have the same word;
so different strings have different lines. A rule number that is not written as
in the table, or that the grammar lacks, is 16 because no word equals it. Names are
written as they were declared, and read back in any case: document 02, [9].
"""

from typing import Dict, List, NamedTuple, Optional, Sequence, Tuple, Union

from automaton import NEW_RULE
from shortest import shortest_witness
from tables import START, Grammar, Refusal, check_table
from text import (
    AMPLE, END, EQUALS, MALFORMED, ROW_TOO_SHORT, SPACE, UNKNOWN_NAME, Text, is_name, read_text,
    without_case,
)
from triples import (
    CLOSING, OPENING, STILL, SYMBOL, Move, Step, Triples, steps, triple_at, triples_of,
)

KEYS = (b"left", b"right")       # "two lines, `left=` and `right=`"
GRAMMAR, LINES = "grammar", "lines"

String = Tuple[Move, ...]        # openings, closings and symbols


class Pair(NamedTuple):
    """The strings of either side."""

    left: String
    right: String


class LentStrings(NamedTuple):
    """How many entries are lent for each of the strings read back."""

    left: int
    right: int


class Refused(NamedTuple):
    """A refusal and what is at fault.

    GRAMMAR is the grammar's text, LINES are the two lines or the rows lent for
    them: line 1 or 2 of cause 16 can be either's.
    """

    part: str
    refusal: Refusal


class NamedGrammar(NamedTuple):
    """A grammar text that was read; `names` in order of symbol numbers."""

    grammar: Grammar
    names: List[bytes]


# The sides of a witness.

def records_of(triples: Triples, entries: Sequence[int]) -> List[Step]:
    """The step record of each neighbouring pair of entries.

    ValueError if a pair has none, or has two: only a triple followed by itself
    can have two, and no triple of the shortest witness is.
    """
    found = []
    for entry, following in zip(entries, entries[1:]):
        target = triple_at(triples.states, following)
        records = steps(triples.automaton, triple_at(triples.states, entry))
        records = [record for record in records if record.next == target]
        if len(records) != 1:
            raise ValueError("%d records from %d to %d" % (len(records), entry, following))
        found += records
    return found


def sides(triples: Triples, entries: Sequence[int]) -> Pair:
    """"that side of the witness": its letters in order, nothing where it stays."""
    records = records_of(triples, entries)
    return Pair(tuple(record.left for record in records if record.left != STILL),
                tuple(record.right for record in records if record.right != STILL))


# Words.

def words_of(named: NamedGrammar) -> Dict[Move, bytes]:
    """By letter its word.

    "`(i` for opening i, `)i` for closing i, a symbol by its name [...] Rule
    numbers are decimal without leading zeros". Rule 0 is a rule of the grammar.
    """
    grammar = named.grammar
    words: Dict[Move, bytes] = {}
    for rule in range(NEW_RULE, len(grammar.rules) + 1):
        words[OPENING, rule] = b"(%d" % rule
        words[CLOSING, rule] = b")%d" % rule
    codes = list(range(1, 1 + grammar.terminals))
    codes += range(START, START + grammar.nonterminals)
    words.update(((SYMBOL, code), name) for code, name in zip(codes, named.names))
    return words


def pair_lines(named: NamedGrammar, pair: Pair) -> bytes:
    """The two lines of a pair; an empty string is the key and its equals sign alone."""
    words = words_of(named)
    return b"".join(key + EQUALS + SPACE.join(words[letter] for letter in string) + END
                    for key, string in zip(KEYS, pair))


# The lines of a grammar text.

def named_of(text: bytes, result: Text) -> NamedGrammar:
    """The grammar of a text that was read, and its names."""
    grammar = check_table(result.terminals, result.nonterminals, result.table)
    assert isinstance(grammar, Grammar), "the reader writes good tables"
    names = [text[start:start + length]
             for start, length in zip(result.starts, result.lengths)]
    return NamedGrammar(grammar, names)


def named_in(text: bytes) -> Union[NamedGrammar, Refusal]:
    """The grammar of a text and its names, or the text's fault."""
    result = read_text(text, AMPLE)
    return result if isinstance(result, Refusal) else named_of(text, result)


def witness_lines(named: NamedGrammar, entries: Sequence[int], m: int = 0) -> bytes:
    """What the program adds "After a potential verdict" with this witness, which is one at m."""
    return pair_lines(named, sides(triples_of(named.grammar, m), entries))


def reading_lines(named: NamedGrammar) -> bytes:
    """The two lines of a grammar; no byte if its verdict is unambiguous."""
    witness = shortest_witness(triples_of(named.grammar))
    return b"" if witness is None else witness_lines(named, witness)


# Reading back.

def split_two(lines: bytes) -> Tuple[Optional[bytes], Optional[bytes]]:
    """Lines 1 and 2 without their byte 10; None for one that has no byte 10.

    "anything past line 2 makes line 2 malformed": it is None then too.
    """
    first, ended, rest = lines.partition(END)
    second, ended_too, past = rest.partition(END)
    return first if ended else None, second if ended_too and not past else None


def line_words(line: Optional[bytes], key: bytes) -> Optional[List[bytes]]:
    """What stands between the spaces of a line's value; None without its key."""
    if line is None or not line.startswith(key + EQUALS):
        return None
    value = line[len(key + EQUALS):]
    return value.split(SPACE) if value else []


def read_line(
    line: Optional[bytes], key: bytes, number: int, letters: Dict[bytes, Move]
) -> Union[String, Refusal]:
    """The string of a line: "within a line 16 comes before 17".

    `letters` has the words without case.
    """
    words = line_words(line, key)
    if words is None:
        return Refusal(MALFORMED, number)
    words = [without_case(word) for word in words]
    if not all(word in letters or is_name(word) for word in words):
        return Refusal(MALFORMED, number)
    if not all(word in letters for word in words):
        return Refusal(UNKNOWN_NAME, number)
    return tuple(letters[word] for word in words)


def read_back(text: bytes, lines: bytes, lent: LentStrings) -> Union[Pair, Refused]:
    """The strings of two lines: the grammar's faults, line 1's, line 2's, then 14.

    They need be neither accepted by the automaton nor parting, and can be longer
    than those of any witness.
    """
    named = named_in(text)
    if isinstance(named, Refusal):
        return Refused(GRAMMAR, named)
    letters = {without_case(word): letter for letter, word in words_of(named).items()}
    strings: List[String] = []
    for number, (line, key) in enumerate(zip(split_two(lines), KEYS), 1):
        string = read_line(line, key, number, letters)
        if isinstance(string, Refusal):
            return Refused(LINES, string)
        strings.append(string)
    pair = Pair(*strings)
    if len(pair.left) > lent.left or len(pair.right) > lent.right:
        return Refused(LINES, Refusal(ROW_TOO_SHORT, 0))
    return pair
