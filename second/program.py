"""What the program of document 01 prints for a text on its standard input.

With document 02's [2] a potential verdict is followed by the two readings.
"""

from typing import Union

from readings import named_of, witness_lines
from searches import Potential, needed, search
from tables import Refusal
from text import AMPLE, Text, read_text

MAX_BYTES = 4096          # "up to 4,096 bytes"
MAX_STATES = 48           # "and 48 states"
TOO_MUCH = Refusal(14, 0)


def taken(text: bytes) -> Union[Text, Refusal]:
    """The text as it is read, or its refusal.

    "A longer text is 14 before any other fault; more states are 14 after all
    faults of the text." To lack a sentence, 19, is one of them.
    """
    if len(text) > MAX_BYTES:
        return TOO_MUCH
    result = read_text(text, AMPLE)
    if isinstance(result, Text) and result.states > MAX_STATES:
        return TOO_MUCH
    return result


def printed(text: bytes) -> bytes:
    """All that the program prints."""
    return judged(text, taken(text))


def judged(text: bytes, result: Union[Text, Refusal]) -> bytes:
    """The lines of a text that was read so.

    "Q, verdict, size", or Q, verdict and two readings, or a refusal's two lines.
    """
    if isinstance(result, Refusal):
        return b"refused=%d\nat=%d\n" % result
    table = result.terminals, result.nonterminals, result.table
    found = search(*table, needed(result.states))
    assert not isinstance(found, Refusal), "a text that is read has no table faults"
    front = b"states=%d\nverdict=" % result.states
    if isinstance(found, Potential):
        return front + b"potential\n" + witness_lines(named_of(text, result), found.witness)
    return front + b"unambiguous\nreached=%d\n" % found.size
