"""Test inputs for drafts, histories on a row, and this program's answers.

    draft_cases.py cases FILE                 writes the inputs
    draft_cases.py answers CASES OUT COUNTS   answers them and counts the reasons

README.md beside this file has the layout of a case. compare_drafts.c takes the file of inputs
and that of answers.
"""

import struct
import sys
from typing import List

import draft_inputs
import draft_reasons
from case_files import ENTRY, LONG, Kind, Reader, encode_number, encode_table, main, refused
from draft_reasons import walked
from draft_steps import KINDS, LEND, MAX_GIVEN, MAX_SIZE, MAX_STEPS, PUT, Case
from drafts import ADD, CALLS, MARK, NEW, RETURN, WITHDRAW, Counted, Reply, Step, Write
from tables import Codes, Refusal


# Files.

def encode_row(entries: Codes) -> bytes:
    """The number of entries, then 2 bytes for each."""
    assert len(entries) <= MAX_GIVEN
    return encode_number(len(entries)) + struct.pack("<%dH" % len(entries), *entries)


def encode_step(step: Step) -> bytes:
    """The kind, one byte, and what it is given."""
    kind = bytes([KINDS.index(step.kind)])
    if step.kind == NEW:
        return kind + encode_table(*step.numbers, step.entries)
    if step.kind == ADD:
        return kind + encode_row(step.entries)
    if step.kind in (WITHDRAW, MARK, RETURN):
        return kind + step.numbers[0].to_bytes(LONG, "little")
    if step.kind == PUT:
        return kind + encode_number(step.numbers[0]) + encode_row(step.entries)
    return kind + b"".join(map(encode_number, step.numbers))


def encode_case(case: Case) -> bytes:
    """One case of the file of inputs."""
    assert case.size <= MAX_SIZE and len(case.steps) <= MAX_STEPS
    assert any(step.kind in CALLS for step in case.steps)
    for step in case.steps:
        if step.kind in (PUT, LEND):
            assert step.numbers[0] + len(step.entries) <= case.size
    front = encode_number(case.size) + bytes([case.fill]) + encode_number(len(case.steps))
    return front + b"".join(map(encode_step, case.steps))


def decode_row(reader: Reader) -> Codes:
    size = reader.number(MAX_GIVEN)
    return struct.unpack("<%dH" % size, reader.take(ENTRY * size))


def decode_step(reader: Reader, size: int) -> Step:
    """The next step of a case with a row of so many entries."""
    number = reader.take(1)[0]
    if number >= len(KINDS):
        raise ValueError("a step is of no kind")
    kind = KINDS[number]
    if kind == NEW:
        t, n, table = reader.table()
        return Step(NEW, (t, n), table)
    if kind == ADD:
        return Step(ADD, (), decode_row(reader))
    if kind in (WITHDRAW, MARK, RETURN):
        return Step(kind, (int.from_bytes(reader.take(LONG), "little"),))
    if kind in (PUT, LEND):
        place = reader.number(size)
        entries = decode_row(reader) if kind == PUT else ()
        if place + len(entries) > size:
            raise ValueError("what is put into a row does not fit")
        return Step(kind, (place,), entries)
    return Step(kind)


def decode_case(reader: Reader) -> Case:
    """The next case of a file of inputs."""
    size, fill = reader.number(MAX_SIZE), reader.take(1)[0]
    return Case(size, fill, tuple(decode_step(reader, size) for _ in range(reader.number(MAX_STEPS))))


# Answers.

def change(part: Write) -> str:
    """A place and the entries from there on, each four digits, the two of its low byte first."""
    place, entries = part
    return "%d:%s" % (place, struct.pack("<%dH" % len(entries), *entries).hex())


def line(reply: Reply, changed: List[Write]) -> str:
    """The line of a call."""
    if isinstance(reply.answer, Refusal):
        return refused(reply.answer)
    if isinstance(reply.answer, Counted):
        return "terminals=%d nonterminals=%d rules=%d entries=%d states=%d" % reply.answer
    if reply.answer is not None:
        return "start=%d entries=%d" % reply.answer
    return "done changed=" + ",".join(map(change, changed))


def answer(case: Case) -> str:
    """A line for each call of a case, without the last byte 10."""
    return "\n".join(line(seen.reply, seen.changed) for seen in walked(case))


DRAFTS = Kind(draft_inputs.all_cases, encode_case, decode_case, answer, draft_reasons.REASONS, draft_reasons.reasons_of,
              enough=draft_reasons.ENOUGH)

if __name__ == "__main__":
    sys.exit(main(__doc__, sys.argv[1:], DRAFTS))
