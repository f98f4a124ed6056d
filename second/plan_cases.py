"""Test inputs for the plans of the eight-channel commands, and this program's answers.

    plan_cases.py cases FILE                 writes the inputs
    plan_cases.py answers CASES OUT COUNTS   answers them and counts the reasons

README.md beside this file has the layout of a case. compare_plans.c takes the file of inputs
and that of answers.
"""

import struct
import sys

import plan_inputs
import plan_reasons
from case_files import ENTRY, LONG, Kind, Reader, encode_number, main, numbers, refused
from plan_inputs import MAX_LIST, MAX_ROW, MAX_WORK, AnyCase, Case, Place, Room
from plans import WORK_ENTRIES, Lent, certificate_byte, read_plan
from tables import Refusal

KINDS = Case, Room, Place      # by the first byte of a case


# Files.

def encode_case(case: AnyCase) -> bytes:
    """One case of the file of inputs."""
    front = bytes([KINDS.index(type(case))])
    if isinstance(case, Room):
        return front
    if isinstance(case, Place):
        return front + case.place.to_bytes(LONG, "little")
    assert len(case.row) <= MAX_ROW and case.lent.work <= MAX_WORK and case.lent.rules <= MAX_LIST
    row = encode_number(len(case.row)) + struct.pack("<%dH" % len(case.row), *case.row)
    return front + row + b"".join(map(encode_number, case.lent)) + bytes([case.fill])


def decode_case(reader: Reader) -> AnyCase:
    """The next case of a file of inputs."""
    kind = reader.take(1)[0]
    if kind >= len(KINDS):
        raise ValueError("a case is of no kind")
    if KINDS[kind] is Room:
        return Room()
    if KINDS[kind] is Place:
        return Place(int.from_bytes(reader.take(LONG), "little"))
    size = reader.number(MAX_ROW)
    row = struct.unpack("<%dH" % size, reader.take(ENTRY * size))
    return Case(row, Lent(reader.number(MAX_WORK), reader.number(MAX_LIST)), reader.take(1)[0])


# Answers.

def answer(case: AnyCase) -> str:
    """The line of one case, without its byte 10."""
    if isinstance(case, Room):
        return "entries=%d" % WORK_ENTRIES
    if isinstance(case, Place):
        return "byte=%d" % certificate_byte(case.place)
    reply = read_plan(*case[:2])
    line = refused(reply.answer) if isinstance(reply.answer, Refusal) else reply.answer
    if reply.rules:
        line += " rules=" + numbers(reply.rules)
    return line + " cleared=%d" % reply.cleared if reply.cleared else line


PLANS = Kind(plan_inputs.all_cases, encode_case, decode_case, answer, plan_reasons.REASONS, plan_reasons.reasons_of,
             enough=plan_reasons.ENOUGH)

if __name__ == "__main__":
    sys.exit(main(__doc__, sys.argv[1:], PLANS))
