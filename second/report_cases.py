"""Test inputs for the report, and this program's answers to them.

    report_cases.py cases FILE                writes the inputs
    report_cases.py answers CASES OUT COUNTS  answers them and counts the reasons

The report is what the program prints, written into a row that is lent. A case is
one of the program's texts and the room of that row. README.md beside this file
has the layout.
"""

import sys
from functools import lru_cache
from typing import Iterator, List, NamedTuple

from case_files import (
    Kind, Reader, Rng, cases_of, encode_bytes, encode_number, main, refused,
)
from corpus_texts import REASONS as TEXT_REASONS
from corpus_texts import reasons_of as text_reasons_of
from corpus_texts import samples, small
from dead_rules import ENOUGH as ENOUGH_DEAD
from program import TOO_MUCH, printed
from sentence_reasons import FEWEST as FEWEST_NONE

MAX_BYTES = 280000         # of a text
MAX_ROOM = 70000
ENOUGH = 8192              # bytes that no report of these texts passes
FEWEST = 10                # cases that each reason must have
POTENTIAL_LINES = 4        # states, verdict, left, right
WITHOUT = b"refused=19\nat=0\n"


class Case(NamedTuple):
    text: bytes
    room: int


expected = lru_cache(maxsize=None)(printed)


# Groups of cases.

def the_programs_texts(rng: Rng) -> Iterator[Case]:
    """Every text of the program, lent just enough, too little and more."""
    for sample in samples():
        length = len(expected(sample.text))
        yield Case(sample.text, length)
        yield Case(sample.text, rng.choice([0, rng.randrange(length), length - 1]))
        yield Case(sample.text, rng.choice([length + 1, ENOUGH, rng.randrange(ENOUGH, MAX_ROOM)]))


def every_room(rng: Rng) -> Iterator[Case]:
    """Some texts with every room up to what is enough, and a little more."""
    for text in [b"", b"terminals=a\nnonterminals=S\nrule=S: a\n"] + [small(rng) for _ in range(8)]:
        for room in range(len(expected(text)) + 3):
            yield Case(text, room)


def ends_of(report: bytes) -> List[int]:
    """Where the lines of a report end, each with its byte 10."""
    return [place + 1 for place, byte in enumerate(report) if byte == ord("\n")]


def some_lines(rng: Rng) -> Iterator[Case]:
    """Room for the verdict without the readings, or without the second, or for parts of them."""
    for sample in samples():
        ends = ends_of(expected(sample.text))
        if len(ends) == POTENTIAL_LINES:
            yield Case(sample.text, ends[1])
            yield Case(sample.text, ends[2])
            yield Case(sample.text, rng.randrange(ends[1], ends[3]))


GROUPS = [the_programs_texts, every_room, some_lines]


# Reasons.

REASONS = TEXT_REASONS + [
    "exactly-enough",
    "longer",
    "14-no-room",
    "14-one-byte-short",
    "14-shorter",
    "14-for-a-text-that-is-refused",
    "14-for-a-text-without-a-sentence",
    "14-room-for-the-verdict",
    "14-room-for-the-verdict-and-left",
]


def reasons_of(case: Case) -> List[str]:
    """Every reason of REASONS that this case meets."""
    report = expected(case.text)
    short = len(report) - case.room
    if short <= 0:
        return text_reasons_of(case.text, report) + ["exactly-enough" if short == 0 else "longer"]
    met = [
        ("14-no-room", case.room == 0),
        ("14-one-byte-short", short == 1),
        ("14-shorter", short > 1),
        ("14-for-a-text-that-is-refused", report.startswith(b"refused=")),
        ("14-for-a-text-without-a-sentence", report == WITHOUT),
    ]
    ends = ends_of(report)
    if len(ends) == POTENTIAL_LINES:
        met += [("14-room-for-the-verdict", ends[1] <= case.room < ends[2]),
                ("14-room-for-the-verdict-and-left", ends[2] <= case.room)]
    return [name for name, holds in met if holds]


# Answers.

def answer(case: Case) -> str:
    """The line of one case, without its byte 10."""
    report = expected(case.text)
    if case.room < len(report):
        return refused(TOO_MUCH)
    return "written=%d text=%s" % (len(report), report.hex())


# Files.

def encode_case(case: Case) -> bytes:
    """One case of the file of inputs."""
    assert len(case.text) <= MAX_BYTES and case.room <= MAX_ROOM
    return encode_bytes(case.text) + encode_number(case.room)


def decode_case(reader: Reader) -> Case:
    """The next case of a file of inputs."""
    return Case(reader.take(reader.number(MAX_BYTES)), reader.number(MAX_ROOM))


KIND = Kind(lambda: cases_of(GROUPS), encode_case, decode_case, answer, REASONS, reasons_of,
            fewest=FEWEST, enough={**ENOUGH_DEAD, "refused-19": FEWEST_NONE})

if __name__ == "__main__":
    sys.exit(main(__doc__, sys.argv[1:], KIND))
