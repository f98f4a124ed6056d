"""Test inputs for the join of a robot's and a module's text, and this program's answers.

    join_cases.py join-cases FILE                    writes the inputs of the join
    join_cases.py join-answers CASES OUT COUNTS      answers them, counts the reasons
    join_cases.py join-text-cases FILE               the same for the joined text
    join_cases.py join-text-answers CASES OUT COUNTS
    join_cases.py shown-cases FILE                   the same for the name of a symbol
    join_cases.py shown-answers CASES OUT COUNTS

README.md beside this file has the layout of a case.
"""

import sys

import join_inputs
import join_reasons
from case_files import Kind, Reader, encode_bytes, encode_number, main, numbers, refused
from join_inputs import Case
from joining import join, join_written, shown
from named_grammars import MAX_BYTES, MAX_LENT
from tables import Refusal

SYMBOL = 8                 # bytes of a symbol's number


# Files.

def encode_texts(case: Case) -> bytes:
    """The two texts in front of every case."""
    assert max(len(case.robot), len(case.module)) <= MAX_BYTES
    return encode_bytes(case.robot) + encode_bytes(case.module)


def encode_lent_case(case: Case) -> bytes:
    """One case of the join, or of the joined text."""
    assert case.number <= MAX_LENT
    return encode_texts(case) + encode_number(case.number)


def decode_lent_case(reader: Reader) -> Case:
    """The next case of such a file."""
    robot, module = (reader.take(reader.number(MAX_BYTES)) for _ in range(2))
    return Case(robot, module, reader.number(MAX_LENT))


def encode_shown_case(case: Case) -> bytes:
    """One case of the name of a symbol."""
    return encode_texts(case) + case.number.to_bytes(SYMBOL, "little")


def decode_shown_case(reader: Reader) -> Case:
    """The next case of such a file."""
    robot, module = (reader.take(reader.number(MAX_BYTES)) for _ in range(2))
    return Case(robot, module, int.from_bytes(reader.take(SYMBOL), "little"))


# Answers.

def join_answer(case: Case) -> str:
    """The line of a join, without its byte 10."""
    result = join(*case)
    if isinstance(result, Refusal):
        return refused(result)
    return "joined terminals=%d nonterminals=%d states=%d table=%s" % (
        result.terminals, result.nonterminals, result.states, numbers(result.table))


def text_answer(case: Case) -> str:
    """The line of a joined text."""
    result = join_written(*case)
    if isinstance(result, Refusal):
        return refused(result)
    return "written=%d text=%s" % (len(result), result.hex())


def shown_answer(case: Case) -> str:
    """The line of a symbol's name."""
    return "shown text=%d start=%d length=%d" % shown(*case)


JOIN = Kind(join_inputs.join_cases, encode_lent_case, decode_lent_case, join_answer,
            join_reasons.JOIN_REASONS, join_reasons.join_reasons_of, "join-", enough=join_reasons.ENOUGH)
TEXT = Kind(join_inputs.text_cases, encode_lent_case, decode_lent_case, text_answer,
            join_reasons.TEXT_REASONS, join_reasons.text_reasons_of, "join-text-", enough=join_reasons.ENOUGH)
SHOWN = Kind(join_inputs.shown_cases, encode_shown_case, decode_shown_case, shown_answer,
             join_reasons.PART_REASONS, join_reasons.part_reasons_of, "shown-", enough=join_reasons.ENOUGH)

if __name__ == "__main__":
    sys.exit(main(__doc__, sys.argv[1:], JOIN, TEXT, SHOWN))
