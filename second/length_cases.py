"""Test inputs for the length of what the writer would write, and this program's answers.

    length_cases.py cases FILE                writes the inputs
    length_cases.py answers CASES OUT COUNTS  answers them and counts the reasons

README.md beside this file has the layout of a case. The inputs are the writer's,
without the room of an output, and some more.
"""

import sys
from typing import Iterator, List

import text_write_inputs
from case_files import (
    Group, Kind, Reader, Rng, cases_of, encode_bytes, encode_entries, encode_table, main, refused,
)
from case_grammars import live_small
from corpus import entries, table_in, text_in
from dead_grammars import dead_small, rules_of, table_of, with_dead_rules
from dead_rules import KINDS
from length_reasons import ENOUGH, REASONS, Case, reasons_of
from named_grammars import MAX_BYTES, MAX_LENT, Named, random_names, with_names
from random_tables import encode
from robot_grammars import grown
from rooms import text_length
from sentence_grammars import named_table
from tables import Refusal
from text import read_lines
from text_write_inputs import Rows, good_rules, laid, packed, scattered, spoil

SEED = text_write_inputs.SEED


def without_room(group: Group) -> Group:
    """The cases of one of the writer's groups, without the room of the output."""
    def cases(rng: Rng) -> Iterator[Case]:
        for case in group(rng):
            yield Case(*case[:-1])
    return cases


def make(grammar: Named, rows: Rows) -> Case:
    names, starts, lengths = rows
    return Case(grammar.t, grammar.n, encode(grammar.rules), names, tuple(starts), tuple(lengths))


# Groups of cases beside the writer's.

def of_the_corpus(rng: Rng) -> Iterator[Case]:
    """Every text of the corpus, its names where it declares them; also one of them spoiled."""
    for entry in entries():
        text = text_in(entry.name)
        found = read_lines(text)
        assert not isinstance(found, Refusal)
        yield Case(*table_in(entry.name), text, found.starts, found.lengths)
        starts, lengths = list(found.starts), list(found.lengths)
        spoil(rng, len(text), starts, lengths)
        yield Case(*table_in(entry.name), text, tuple(starts), tuple(lengths))


def grown_names(rng: Rng) -> Iterator[Case]:
    """Grown grammars, also with other names, and with one name twice."""
    for _ in range(60):
        grammar = grown(rng, rng.choice([4, 8, 24]))
        yield make(grammar, laid(rng, grammar))
        names = random_names(rng, grammar.t + grammar.n)
        yield make(grammar, scattered(rng, names))
        names[rng.randrange(len(names))] = rng.choice(names)
        yield make(grammar, packed(names))


def dead(rng: Rng) -> Iterator[Case]:
    """Dead rules of each kind: they are written too."""
    for kind in KINDS:
        for _ in range(25):
            grammar = named_table(rng, table_of(dead_small(rng, kind)))
            yield make(grammar, laid(rng, grammar))
        for _ in range(5):
            live = rules_of(live_small(rng))
            grammar = named_table(rng, table_of(with_dead_rules(rng, live, kind, 60)))
            yield make(grammar, laid(rng, grammar))


def only_another_name(rng: Rng) -> Iterator[Case]:
    """One grammar with names that differ in one length alone."""
    grammar = with_names(rng, 60, 66, good_rules(rng, 60, 66, [rng.randrange(5) for _ in range(20)]))
    data = b"".join(random_names(rng, 3000))
    for symbol in rng.sample(range(grammar.t + grammar.n), 40):
        starts = [16 * place for place in range(grammar.t + grammar.n)]
        for length in (14, 15):
            lengths = [15] * len(starts)
            lengths[symbol] = length
            yield make(grammar, (data[:16 * len(starts)], starts, lengths))


GROUPS: List[Group] = [without_room(group) for group in text_write_inputs.GROUPS] + [
    of_the_corpus, grown_names, dead, only_another_name,
]


# Answers.

def answer(case: Case) -> str:
    """The line of one case, without its byte 10."""
    result = text_length(*case)
    if isinstance(result, Refusal):
        return refused(result)
    return "length=%d" % result


# Files.

def encode_case(case: Case) -> bytes:
    """One case of the file of inputs."""
    assert len(case.names) <= MAX_BYTES
    assert max(len(case.starts), len(case.lengths)) <= MAX_LENT
    return b"".join([
        encode_table(case.t, case.n, case.table), encode_bytes(case.names),
        encode_entries(case.starts), encode_entries(case.lengths)])


def decode_case(reader: Reader) -> Case:
    """The next case of a file of inputs."""
    t, n, table = reader.table()
    names = reader.take(reader.number(MAX_BYTES))
    return Case(t, n, table, names, reader.entries(MAX_LENT), reader.entries(MAX_LENT))


KIND = Kind(lambda: cases_of(GROUPS, SEED), encode_case, decode_case, answer, REASONS, reasons_of,
            enough=ENOUGH)

if __name__ == "__main__":
    sys.exit(main(__doc__, sys.argv[1:], KIND))
