"""Test inputs for the trees of one row of terminals, and this program's answers.

    tree_cases.py trees-cases FILE                 writes the inputs
    tree_cases.py trees-answers CASES OUT COUNTS   answers them and counts the reasons
    tree_cases.py room-cases FILE                  the same for the entries of the work row
    tree_cases.py room-answers CASES OUT COUNTS

README.md beside this file has the layout of a case. compare_trees.c takes both files of
inputs and of answers.
"""

import struct
import sys
from typing import Iterator, List

import dead_rules
import sentence_reasons
import tree_inputs
import tree_reasons
from case_files import ENTRY, TABLE_REASONS, Kind, Reader, cases_of, encode_number, encode_table, main, numbers, refused
from case_grammars import Table
from room_cases import TABLES
from sentence_trees import Lent, find_trees, trees_room
from tables import MAX_RULES, MAX_STATES, Codes, Refusal, check_table
from tree_inputs import MAX_LIST, MAX_ROW, MAX_WORK, Case


# Files.

def encode_row(row: Codes) -> bytes:
    """The number of entries, then 2 bytes for each."""
    return encode_number(len(row)) + struct.pack("<%dH" % len(row), *row)


def encode_case(case: Case) -> bytes:
    """One case of the file of inputs."""
    assert len(case.row) <= MAX_ROW and case.lent.work <= MAX_WORK and case.lent.rules <= MAX_LIST
    return encode_table(*case[:3]) + encode_row(case.row) + b"".join(map(encode_number, case.lent)) + bytes([case.fill])


def decode_case(reader: Reader) -> Case:
    """The next case of a file of inputs."""
    t, n, table = reader.table()
    size = reader.number(MAX_ROW)
    row = struct.unpack("<%dH" % size, reader.take(ENTRY * size))
    return Case(t, n, table, row, Lent(reader.number(MAX_WORK), reader.number(MAX_LIST)), reader.take(1)[0])


# Answers.

def answer(case: Case) -> str:
    """The line of one case, without its byte 10."""
    trees = find_trees(*case[:5])
    line = refused(trees.answer) if isinstance(trees.answer, Refusal) else trees.answer
    if trees.rules:
        line += " rules=" + numbers(trees.rules)
    return line + " cleared=%d" % trees.cleared if trees.cleared else line


# The entries of the work row.

def room_tables() -> Iterator[Table]:
    """The tables of the cases of room told beforehand, all at m=0."""
    return cases_of(TABLES, tree_inputs.SEED)


def room_answer(table: Table) -> str:
    """The line of a table."""
    room = trees_room(*table)
    return refused(room) if isinstance(room, Refusal) else "entries=%d" % room


ROOM_REASONS = TABLE_REASONS + [
    "entries",
    "entries-of-the-most-states",
    "entries-of-the-most-rules",
    "entries-past-16-bits-by-far",
] + dead_rules.REASONS + sentence_reasons.REASONS


def room_reasons_of(table: Table) -> List[str]:
    """Every reason of ROOM_REASONS that this table meets."""
    names = list(sentence_reasons.of_table(*table))
    grammar, room = check_table(*table), trees_room(*table)
    if isinstance(grammar, Refusal) or isinstance(room, Refusal):
        assert room == grammar, "the table's fault"
        return names + [str(room.cause)]
    assert room == sum(65 * (1 + len(rule.right)) for rule in grammar.rules) * 65 + 4 * 65 * 65
    met = [
        ("entries", True),
        ("entries-of-the-most-states", grammar.states == MAX_STATES),
        ("entries-of-the-most-rules", len(grammar.rules) == MAX_RULES),
        ("entries-past-16-bits-by-far", room > 2 ** 20),
    ]
    return names + dead_rules.reasons_of(grammar) + [name for name, holds in met if holds]


TREES = Kind(tree_inputs.all_cases, encode_case, decode_case, answer, tree_reasons.REASONS, tree_reasons.reasons_of,
             "trees-", enough=tree_reasons.ENOUGH)
ROOM = Kind(room_tables, lambda table: encode_table(*table), Reader.table, room_answer, ROOM_REASONS, room_reasons_of,
            "room-", enough={**dead_rules.ENOUGH, **sentence_reasons.ENOUGH})

if __name__ == "__main__":
    sys.exit(main(__doc__, sys.argv[1:], TREES, ROOM))
