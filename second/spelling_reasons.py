"""How spellings differ, which cases are counted by, and the declared spelling of a text.

Found in other ways than in text.py: byte by byte, and by the marks of good lines.
"""

from typing import List, Sequence

LETTERS = b"abcdefghijklmnopqrstuvwxyz"
NEXT_TO_LETTERS = b"@[`{"


def is_letter_in_two_cases(one: int, other: int) -> bool:
    """Whether two bytes are a letter in both its cases."""
    return abs(one - other) == 32 and max(one, other) in LETTERS


def differ_in_case(one: bytes, other: bytes) -> bool:
    """Whether two names are spelled otherwise and are the same name."""
    return one != other and len(one) == len(other) and all(
        a == b or is_letter_in_two_cases(a, b) for a, b in zip(one, other))


def differ_by_32(one: bytes, other: bytes) -> bool:
    """Whether two names would be the same if digits and hyphens folded like letters."""
    pairs = [(a, b) for a, b in zip(one, other) if a != b]
    return (len(one) == len(other) and all(abs(a - b) == 32 for a, b in pairs)
            and not all(is_letter_in_two_cases(a, b) for a, b in pairs))


def first_differs(one: bytes, other: bytes) -> bool:
    return one[:1] != other[:1]


def rest_differs(one: bytes, other: bytes) -> bool:
    return one[1:] != other[1:]


def has_apart(names: Sequence[bytes]) -> bool:
    """Whether some two of the names differ by 32 in a digit or hyphen."""
    def low(name: bytes) -> bytes:
        return bytes(byte - 32 if byte in b"MPQRSTUVWXY" else byte for byte in name.upper())
    seen = {}
    for name in names:
        for other in seen.setdefault(low(name), []):
            if differ_by_32(name, other):
                return True
        seen[low(name)].append(name)
    return False


def declared_in(text: bytes) -> List[bytes]:
    """The names that the first two lines of a good text declare."""
    lists = [line.partition(b"=")[2] for line in text.split(b"\n")[:2]]
    return [name for names in lists if names for name in names.split(b",")]


def uses_in(line: bytes) -> List[bytes]:
    """The names of a good rule line, the left one first."""
    left, _, right = line.partition(b"=")[2].partition(b":")
    return [left] + right.split(b" ")[1:]


def as_declared(text: bytes) -> bytes:
    """A good text with each use in its declared spelling."""
    spelled = {name.lower(): name for name in declared_in(text)}
    lines = text.split(b"\n")
    for place in range(2, len(lines) - 1):
        left, *right = (spelled[name.lower()] for name in uses_in(lines[place]))
        lines[place] = b"rule=%s:%s" % (left, b"".join(b" " + name for name in right))
    return b"\n".join(lines)
