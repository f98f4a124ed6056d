"""Test inputs for the reader and the writer, and this program's answers to them.

    text_cases.py read-cases FILE                  writes the reader's inputs
    text_cases.py read-answers CASES OUT COUNTS    answers them, counts the reasons
    text_cases.py write-cases FILE                 writes the writer's inputs
    text_cases.py write-answers CASES OUT COUNTS   answers them, counts the reasons

README.md beside this file has the layout of a case.
"""

import sys

import text_read_inputs
import text_read_reasons
import text_write_inputs
import text_write_reasons
from case_files import (
    Kind, Reader, encode_bytes, encode_entries, encode_number, encode_table, main, numbers,
    refused,
)
from named_grammars import MAX_BYTES, MAX_LENT
from tables import Refusal
from text import Lent, read_text, write_text
from text_read_inputs import Case as ReadCase
from text_write_reasons import Case as WriteCase


# Files.

def encode_read_case(case: ReadCase) -> bytes:
    """One case of the reader's file of inputs."""
    text, lent = case
    assert len(text) <= MAX_BYTES and max(lent) <= MAX_LENT
    return encode_bytes(text) + b"".join(map(encode_number, lent))


def decode_read_case(reader: Reader) -> ReadCase:
    """The next case of the reader's file of inputs."""
    text = reader.take(reader.number(MAX_BYTES))
    return text, Lent(*(reader.number(MAX_LENT) for _ in Lent._fields))


def encode_write_case(case: WriteCase) -> bytes:
    """One case of the writer's file of inputs."""
    assert len(case.names) <= MAX_BYTES
    assert max(len(case.starts), len(case.lengths), case.room) <= MAX_LENT
    return b"".join([
        encode_table(case.t, case.n, case.table), encode_bytes(case.names),
        encode_entries(case.starts), encode_entries(case.lengths), encode_number(case.room)])


def decode_write_case(reader: Reader) -> WriteCase:
    """The next case of the writer's file of inputs."""
    t, n, table = reader.table()
    names = reader.take(reader.number(MAX_BYTES))
    starts, lengths = reader.entries(MAX_LENT), reader.entries(MAX_LENT)
    return WriteCase(t, n, table, names, starts, lengths, reader.number(MAX_LENT))


# Answers.

def read_answer(case: ReadCase) -> str:
    """The line of one of the reader's cases, without its byte 10."""
    result = read_text(*case)
    if isinstance(result, Refusal):
        return refused(result)
    return "read terminals=%d nonterminals=%d states=%d table=%s starts=%s lengths=%s" % (
        result.terminals, result.nonterminals, result.states,
        numbers(result.table), numbers(result.starts), numbers(result.lengths))


def write_answer(case: WriteCase) -> str:
    """The line of one of the writer's cases, without its byte 10."""
    result = write_text(*case)
    if isinstance(result, Refusal):
        return refused(result)
    return "written=%d text=%s" % (len(result), result.hex())


READ = Kind(text_read_inputs.all_cases, encode_read_case, decode_read_case, read_answer,
            text_read_reasons.REASONS, lambda case: text_read_reasons.reasons_of(*case), "read-",
            enough=text_read_reasons.ENOUGH)
WRITE = Kind(text_write_inputs.all_cases, encode_write_case, decode_write_case, write_answer,
             text_write_reasons.REASONS, text_write_reasons.reasons_of, "write-",
             enough=text_write_reasons.ENOUGH)

if __name__ == "__main__":
    sys.exit(main(__doc__, sys.argv[1:], READ, WRITE))
