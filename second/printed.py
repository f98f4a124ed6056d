"""Certificates as lines: bindings/README.md has the three forms.

`lines_of` prints a certificate, `read_in` reads one back and answers its m and its
bytes or what is Malformed, `certificate_in` the bytes alone. That of an m above 0,
document 02's [11], has `callers=` and m as a line of its own behind that of its states.
"""

import re
from typing import Iterator, List, NamedTuple, Optional, Tuple, Union

from callers import MOST_CALLERS, states_at
from corpus import Found
from tables import MAX_STATES
from triples import held_indices

FORMS = PLAIN, CHECKED, RUNS = (1, 2, 3)
ON_A_LINE = {PLAIN: 32, CHECKED: 16, RUNS: 16}    # bytes of the certificate; in form 3 bytes and runs
CHECK = 251               # the check digits are a remainder of this prime
KEYS = "certificate-form=", "states=", "rules=", "size="
CALLERS = "callers="      # behind the line of states, only where m is above 0
CALLERS_LINE = 3          # its number
HEX = "0123456789abcdefABCDEF"
DIGIT = "h"               # stands for a hexadecimal digit in a template
RUN = "z"                 # before the length of a run of zeros, in form 3; as a digit it is 16
LONGEST_RUN = 255
MOST_STATES = 512         # of forms 1 and 2: their offsets have four digits, so the bytes are at most 65,536
MOST_BYTES = 1 << 20      # of the lines of a certificate, in each form
RUNS_LINE = re.compile(r"([0-9a-f]{5}):((?: z?[0-9a-f]{2})+) \*([0-9a-f]{2})")


class Read(NamedTuple):
    """What a printed certificate says: its m and its bytes."""

    m: int
    certificate: bytes


class Malformed(NamedTuple):
    """Where lines are not those of a certificate; both count from 1."""

    line: int
    column: int
    message: str


def bytes_needed(states: int) -> int:
    """As few bytes as hold two bits for each pair of states."""
    return (2 * states * states + 7) // 8


def has_form(states: int, form: int) -> bool:
    """Whether certificates of so many states are printed in this form."""
    return form == RUNS or states <= MOST_STATES


def check_digits(offset: int, part: bytes) -> str:
    """The remainder of a line's digits, offset and bytes, as one number."""
    return "%02x" % (int("%04x" % offset + part.hex(), 16) % CHECK)


def run_digits(line: str) -> str:
    """The check digits of offset and parts in form 3: the remainder to the base of 17."""
    rest = 0
    for letter in line:
        if letter in HEX + RUN:
            rest = (17 * rest + (16 if letter == RUN else int(letter, 16))) % CHECK
    return "%02x" % rest


def run_lines(certificate: bytes) -> List[str]:
    """Form 3: runs of zeros by their length; no line begins or ends with zeros."""
    lines: List[str] = []
    parts: List[str] = []
    for match in re.finditer(rb"(\0*)([^\0])", certificate.rstrip(b"\0"), re.DOTALL):
        zeros, byte = len(match[1]), match[2].hex()
        if not parts or len(parts) + 1 + (zeros > 0) > 1 + ON_A_LINE[RUNS] or zeros > LONGEST_RUN:
            lines.append(" ".join(parts))
            parts = ["%05x:" % match.start(2), byte]
        else:
            parts += ["z%02x" % zeros if zeros > 1 else "00"] * (zeros > 0) + [byte]
    lines.append(" ".join(parts))
    return ["%s *%s\n" % (line, run_digits(line)) for line in lines if line]


def keys_at(m: int) -> Tuple[str, ...]:
    """The keys in front of a certificate."""
    return KEYS if m == 0 else KEYS[:CALLERS_LINE - 1] + (CALLERS,) + KEYS[CALLERS_LINE - 1:]


def lines_of(found: Found, certificate: bytes, form: int, m: int = 0) -> bytes:
    """A certificate at m as it is printed."""
    states = states_at(found.grammar, m)
    assert has_form(states, form), "offsets of four digits"
    numbers = [form, states] + [m] * (m > 0) + [len(found.grammar.rules), len(held_indices(certificate))]
    lines = ["%s%d\n" % pair for pair in zip(keys_at(m), numbers)]
    if form == RUNS:
        return "".join(lines + run_lines(certificate)).encode("ascii")
    for offset in range(0, len(certificate), ON_A_LINE[form]):
        part = certificate[offset:offset + ON_A_LINE[form]]
        line = "%04x: %s" % (offset, part.hex(" "))
        if form == PLAIN:
            lines.append(line + "\n")
        elif any(part):
            lines.append("%s *%s\n" % (line, check_digits(offset, part)))
    return "".join(lines).encode("ascii")


# Reading.

def lines_in(printed: bytes) -> List[str]:
    """The lines without their ends, and without blank ones behind the last."""
    if printed.startswith(b"\xef\xbb\xbf"):
        printed = printed[3:]
    lines = [line[:-1] if line.endswith("\r") else line
             for line in printed.decode("latin-1").split("\n")]
    while lines and not lines[-1]:
        lines.pop()
    return lines


def number_on(line: str, number: int, key: str) -> Union[int, Malformed]:
    """The decimal number behind a key."""
    for place, letter in enumerate(key):
        if line[place:place + 1] != letter:
            return Malformed(number, place + 1, "'%s' is expected" % key)
    digits = line[len(key):]
    if not digits.isascii() or not digits.isdigit() or str(int(digits[:20])) != digits:
        return Malformed(number, len(key) + 1, "a decimal number without leading zeros is expected")
    return int(digits)


def callers_in(lines: List[str], found: Found) -> Union[int, Malformed]:
    """m, which is 0 without a line that says it; "callers=0" is not printed."""
    line = lines[CALLERS_LINE - 1] if len(lines) >= CALLERS_LINE else ""
    if not line.startswith(CALLERS):
        return 0
    m = number_on(line, CALLERS_LINE, CALLERS)
    if isinstance(m, Malformed):
        return m
    if not 1 <= m <= MOST_CALLERS:
        return Malformed(CALLERS_LINE, len(CALLERS) + 1, "1 or 2 is expected")
    if states_at(found.grammar, m) > MAX_STATES:
        return Malformed(CALLERS_LINE, len(CALLERS) + 1, "with so many callers the grammar has %d states, and at most %d fit"
                         % (states_at(found.grammar, m), MAX_STATES))
    return m


def head_of(lines: List[str], found: Found, m: int) -> Union[Tuple[int, int], Malformed]:
    """Form and size; the other numbers are those of the grammar at m."""
    states = states_at(found.grammar, m)
    known = [None, states] + [m] * (m > 0) + [len(found.grammar.rules), None]
    numbers = []
    for place, (key, expected) in enumerate(zip(keys_at(m), known)):
        value = number_on(lines[place] if place < len(lines) else "", place + 1, key)
        if isinstance(value, Malformed):
            return value
        if expected is not None and value != expected:
            return Malformed(place + 1, len(key) + 1, "by the grammar this number is %d" % expected)
        if place == 0 and value not in FORMS:
            return Malformed(1, len(key) + 1, "this program reads the forms 1, 2 and 3")
        if place == 0 and not has_form(states, value):
            return Malformed(1, len(key) + 1, "form %d has at most %d states; the grammar has %d"
                             % (value, MOST_STATES, states))
        numbers.append(value)
    return numbers[0], numbers[-1]


def misfit(line: str, template: str) -> Optional[int]:
    """The place from 0 where a line does not follow a template."""
    for place, expected in enumerate(template):
        letter = line[place:place + 1]
        if not letter or (letter not in HEX if expected == DIGIT else letter != expected):
            return place
    return len(template) if len(line) > len(template) else None


def run_part(line: str, number: int, length: int) -> Union[Tuple[int, bytes], Malformed]:
    """Offset and bytes of a line in form 3."""
    found = RUNS_LINE.fullmatch(line.lower())
    if found is None:
        return Malformed(number, 1, "the line does not go on as it should")
    digits = run_digits(found[1] + found[2])
    if digits != found[3]:
        return Malformed(number, len(line) - 1, "the check digits are %s, but those of this line's digits are %s"
                         % (found[3], digits))
    part = b"".join(bytes(int(word[1:], 16)) if word[0] == RUN else bytes.fromhex(word) for word in found[2].split())
    if int(found[1], 16) + len(part) > length:
        return Malformed(number, 1, "this line goes on behind the certificate")
    return int(found[1], 16), part


def part_on(line: str, number: int, form: int, length: int) -> Union[Tuple[int, bytes], Malformed]:
    """Offset and bytes of a line."""
    if form == RUNS:
        return run_part(line, number, length)
    step = ON_A_LINE[form]
    if misfit(line[:4], DIGIT * 4) is not None:
        return Malformed(number, 1, "an offset of four hexadecimal digits is expected")
    offset = int(line[:4], 16)
    if offset % step or offset >= length:
        return Malformed(number, 1, "a multiple of %04x below %04x is expected" % (step, length))
    width = min(step, length - offset)
    template = "hhhh:" + " hh" * width + (" *hh" if form == CHECKED else "")
    place = misfit(line, template)
    if place is not None:
        if form == PLAIN and " *" in (line[place - 1:place + 1], line[place:place + 2]):
            return Malformed(1, len(KEYS[0]) + 1, "form 1 has no check digits, but line %d has them" % number)
        return Malformed(number, place + 1, "the line does not go on as it should")
    part = bytes.fromhex(line[5:5 + 3 * width])
    found, expected = line[-2:].lower(), check_digits(offset, part)
    if form == CHECKED and found != expected:
        return Malformed(number, len(line) - 1, "the check digits are %s, but those of this line's digits are %s"
                         % (found, expected))
    return offset, part


def has_other_form(line: str, number: int, form: int, length: int) -> bool:
    """Whether a line with check digits is good in another form than the one that is told."""
    others = [RUNS] if form == PLAIN else [other for other in (CHECKED, RUNS) if other != form]
    return any(not isinstance(part_on(line, number, other, length), Malformed) for other in others)


def parts_in(
    lines: List[str], head: int, form: int, length: int
) -> Iterator[Union[Tuple[int, bytes], Malformed]]:
    """The parts on the lines behind the head, which has so many, up to the first fault."""
    due = 0
    first = True
    for place, line in enumerate(lines[head:]):
        number = place + head + 1
        if not line and form != PLAIN:
            continue
        part = part_on(line, number, form, length)
        if isinstance(part, Malformed) and first and has_other_form(line, number, form, length):
            part = Malformed(1, len(KEYS[0]) + 1, "line %d has another form" % number)
        first = False
        if not isinstance(part, Malformed) and (part[0] < due or form == PLAIN and part[0] > due):
            part = Malformed(number, 1, "another offset is due here")
        yield part
        if isinstance(part, Malformed):
            return
        due = part[0] + len(part[1])
    if form == PLAIN and due < length:
        yield Malformed(len(lines) + 1, 1, "'%04x:' is expected" % due)


def certificate_in(found: Found, printed: bytes) -> Union[bytes, Malformed]:
    """The bytes of a printed certificate of this grammar."""
    read = read_in(found, printed)
    return read.certificate if isinstance(read, Read) else read


def read_in(found: Found, printed: bytes) -> Union[Read, Malformed]:
    """m and the bytes of a printed certificate of this grammar."""
    lines = lines_in(printed)
    m = callers_in(lines, found)
    if isinstance(m, Malformed):
        return m
    head = head_of(lines, found, m)
    if isinstance(head, Malformed):
        return head
    form, size = head
    above = len(keys_at(m))
    certificate = bytearray(bytes_needed(states_at(found.grammar, m)))
    for part in parts_in(lines, above, form, len(certificate)):
        if isinstance(part, Malformed):
            return part
        certificate[part[0]:part[0] + len(part[1])] = part[1]
    held = len(held_indices(bytes(certificate)))
    if held != size:
        return Malformed(above, len(KEYS[3]) + 1, "the number of bits that are set below is %d" % held)
    return Read(m, bytes(certificate))
