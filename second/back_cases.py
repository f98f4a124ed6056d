"""Test inputs for reading the two readings back, and this program's answers to them.

    back_cases.py cases FILE                writes the inputs
    back_cases.py answers CASES OUT COUNTS  answers them and counts the reasons

README.md beside this file has the layout of a case.
"""

import sys
from typing import Dict

import back_inputs
import back_reasons
from back_inputs import Case
from case_files import Kind, Reader, encode_bytes, encode_number, main, numbers, refused
from named_grammars import MAX_BYTES, MAX_LENT
from readings import GRAMMAR, LentStrings, Pair, String, read_back
from triples import CLOSING, OPENING, SYMBOL

FEWEST = 50                # cases that each reason must have
KIND_STEP = 65536          # a letter is its kind's number times this, plus its own number
KIND_NUMBERS: Dict[str, int] = {OPENING: 1, CLOSING: 2, SYMBOL: 3}


# Files.

def encode_case(case: Case) -> bytes:
    """One case of the file of inputs."""
    assert max(len(case.text), len(case.lines)) <= MAX_BYTES and max(case.lent) <= MAX_LENT
    return encode_bytes(case.text) + encode_bytes(case.lines) + b"".join(
        map(encode_number, case.lent))


def decode_case(reader: Reader) -> Case:
    """The next case of a file of inputs."""
    text = reader.take(reader.number(MAX_BYTES))
    lines = reader.take(reader.number(MAX_BYTES))
    return Case(text, lines, LentStrings(*(reader.number(MAX_LENT) for _ in LentStrings._fields)))


# Answers.

def letters(string: String) -> str:
    """The letters of a string, each as one number."""
    return numbers([KIND_NUMBERS[kind] * KIND_STEP + number for kind, number in string])


def answer(case: Case) -> str:
    """The line of one case, without its byte 10."""
    result = read_back(*case)
    if isinstance(result, Pair):
        return "read left=%s right=%s" % (letters(result.left), letters(result.right))
    return ("grammar-" if result.part == GRAMMAR else "") + refused(result.refusal)


KIND = Kind(back_inputs.all_cases, encode_case, decode_case, answer,
            back_reasons.REASONS, lambda case: back_reasons.reasons_of(*case), fewest=FEWEST,
            enough=back_reasons.ENOUGH)

if __name__ == "__main__":
    sys.exit(main(__doc__, sys.argv[1:], KIND))
