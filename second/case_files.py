"""What the files of cases share: numbers and tables as bytes, and the two verbs.

    cases FILE                writes the inputs
    answers CASES OUT COUNTS  answers them and counts the reasons

All numbers are little endian. A table is its number of entries, 4 bytes, followed by
2 bytes for each entry, and where an entry takes m by that, 8 bytes. A file depends on
the seed alone.
"""

import hashlib
import random
import struct
import sys
from typing import (
    Callable, Iterator, List, Mapping, NamedTuple, Optional, Sequence, Tuple, TypeVar,
)

from tables import Codes, Refusal

SEED = 1
FEWEST = 20                    # cases that each reason must have
SHORT = 4                      # bytes of a length, an entry, a layer or a state
LARGEST = 2 ** (8 * SHORT) - 1
ENTRY = 2                      # bytes of an entry of a table
MAX_TABLE = 65536              # entries of one table
CASE_HEADER = struct.Struct("<QQI")
LONG = 8                       # bytes of t, n or m
LAST = 2 ** 64 - 1             # largest t, n or m

# The reasons of a refused table, in every file of cases.
TABLE_REASONS = [str(cause) for cause in (*range(1, 9), 19)]

Rng = random.Random
Case = TypeVar("Case")
Group = Callable[[Rng], Iterator[Case]]


class Kind(NamedTuple):
    """What the verbs need of one kind of cases.

    `all` gives the cases, `encode` and `decode` are their bytes, `answer` is
    a case's line and `reasons_of` those of `reasons` that it meets. `prefix`
    stands before the verbs. `fewest` is the number of cases that each reason
    must have, but for those reasons that `enough` has another number for.
    """

    all: Callable
    encode: Callable
    decode: Callable
    answer: Callable
    reasons: Sequence[str]
    reasons_of: Callable
    prefix: str = ""
    fewest: int = FEWEST
    enough: Mapping[str, int] = {}


# Bytes.

def encode_number(value: int) -> bytes:
    return value.to_bytes(SHORT, "little")


def encode_entries(entries: Sequence[int]) -> bytes:
    """The number of entries, then the entries."""
    return encode_number(len(entries)) + b"".join(map(encode_number, entries))


def encode_bytes(data: bytes) -> bytes:
    """The number of bytes, then the bytes."""
    return encode_number(len(data)) + data


def encode_table(t: int, n: int, table: Codes) -> bytes:
    """The front of every case: t and n, the table's number of entries, the entries."""
    assert len(table) <= MAX_TABLE
    return CASE_HEADER.pack(t, n, len(table)) + struct.pack("<%dH" % len(table), *table)


def encode_table_at(t: int, n: int, table: Codes, m: int) -> bytes:
    """The front of a case of an entry that takes m."""
    return encode_table(t, n, table) + m.to_bytes(LONG, "little")


class Reader:
    """Takes parts from the front of a file; ValueError if it is cut or wrong."""

    def __init__(self, data: bytes) -> None:
        self.data = data
        self.place = 0

    def at_end(self) -> bool:
        return self.place == len(self.data)

    def take(self, size: int) -> bytes:
        if len(self.data) - self.place < size:
            raise ValueError("the file ends inside a case")
        self.place += size
        return self.data[self.place - size:self.place]

    def number(self, most: int = LARGEST) -> int:
        value = int.from_bytes(self.take(SHORT), "little")
        if value > most:
            raise ValueError("a number of a case is too large")
        return value

    def numbers(self, count: int) -> List[int]:
        part = self.take(SHORT * count)
        return [int.from_bytes(part[place:place + SHORT], "little")
                for place in range(0, len(part), SHORT)]

    def table(self) -> Tuple[int, int, Codes]:
        """t, n and the table in front of a case."""
        t, n, size = CASE_HEADER.unpack(self.take(CASE_HEADER.size))
        if size > MAX_TABLE:
            raise ValueError("a table is too long")
        return t, n, struct.unpack("<%dH" % size, self.take(ENTRY * size))

    def table_at(self) -> Tuple[int, int, Codes, int]:
        """t, n, the table and m in front of a case."""
        return (*self.table(), int.from_bytes(self.take(LONG), "little"))

    def entries(self, most: int = LARGEST) -> Tuple[int, ...]:
        """A number of entries, then the entries."""
        return tuple(self.numbers(self.number(most)))


def decode_all(kind: Kind, data: bytes) -> Iterator:
    """The cases of a file of inputs."""
    reader = Reader(data)
    while not reader.at_end():
        yield kind.decode(reader)


def read_cases(kind: Kind, path: str) -> list:
    with open(path, "rb") as file:
        return list(decode_all(kind, file.read()))


# Cases and lines.

def cases_of(groups: Sequence[Group], seed: int = SEED) -> Iterator[Case]:
    """Every group's cases, each group with a generator of its own; none twice."""
    seen = set()
    for number, group in enumerate(groups):
        for case in group(Rng(seed * 1000 + number)):
            if case not in seen:
                seen.add(case)
                yield case


def numbers(values: Sequence[int]) -> str:
    """A list in a line."""
    return ",".join(map(str, values))


def refused(refusal: Refusal) -> str:
    """The line of a refusal."""
    return "refused=%d at=%d" % refusal


def accepted_or_refused(fault: Optional[Refusal]) -> str:
    """The line of a check that answers a Refusal or accepts."""
    return "accepted" if fault is None else refused(fault)


# Verbs.

def write_lines(path: str, lines: Sequence[str]) -> None:
    """The lines, each ended by byte 10."""
    with open(path, "wb") as file:
        file.write("".join(line + "\n" for line in lines).encode("ascii"))


def write_cases(kind: Kind, path: str) -> None:
    """The verb `cases`."""
    with open(path, "wb") as file:
        for case in kind.all():
            file.write(kind.encode(case))


def digest(kind: Kind) -> str:
    """The SHA-256 of the file that `cases` writes."""
    sha = hashlib.sha256()
    for case in kind.all():
        sha.update(kind.encode(case))
    return sha.hexdigest()


def write_answers(
    kind: Kind, cases_path: str, out_path: str, counts_path: str
) -> List[str]:
    """The verb `answers`; gives a line for each reason that too few cases meet."""
    answers: List[str] = []
    counts = {name: 0 for name in kind.reasons}
    for case in read_cases(kind, cases_path):
        answers.append(kind.answer(case))
        for name in kind.reasons_of(case):
            counts[name] += 1
    write_lines(out_path, answers)
    lines = ["%s %d" % pair for pair in counts.items()]
    write_lines(counts_path, lines + ["cases %d" % len(answers)])
    needed = {name: kind.enough.get(name, kind.fewest) for name in counts}
    return ["fewer than %d cases: %s" % (needed[name], name)
            for name, count in counts.items() if count < needed[name]]


def main(usage: str, words: Sequence[str], *kinds: Kind) -> int:
    """Runs a verb: 0, or 1 with the reasons that are too rare, or 2."""
    for kind in kinds:
        if len(words) == 2 and words[0] == kind.prefix + "cases":
            write_cases(kind, words[1])
            return 0
        if len(words) == 4 and words[0] == kind.prefix + "answers":
            rare = write_answers(kind, *words[1:])
            for line in rare:
                print(line, file=sys.stderr)
            return 1 if rare else 0
    print(usage, file=sys.stderr)
    return 2
