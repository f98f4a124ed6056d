"""Sorts the cases of the writer's length by reasons finer than the causes.

They are those of the writer that are not about the room of its output. The length
is found here in another way than in rooms.py: by `length_of_text`, and by what is
written into the most room that cases lend.
"""

from typing import List, NamedTuple, Tuple

import text_write_reasons
from derivations import used_rules
from named_grammars import MAX_LENT
from rooms import text_length
from tables import Codes, Grammar, Refusal, check_table
from text import DECLARED_TWICE, MALFORMED, write_text

FEWEST = 50                # cases of each cause, and of lengths that are told

ABOUT_ROOM = [name for name in text_write_reasons.REASONS if "14" in name or "room" in name]
OF_THE_WRITER = [name for name in text_write_reasons.REASONS if name not in ABOUT_ROOM]
NAMES_CAUSES = [str(cause) for cause in (MALFORMED, DECLARED_TWICE)]
CAUSES = [name for name in OF_THE_WRITER if name.startswith("table-")] + NAMES_CAUSES

REASONS = NAMES_CAUSES + OF_THE_WRITER + [
    "length-up-to-255",
    "length-over-255",
    "length-over-4096",
    "length-every-rule-used",
    "length-a-rule-no-sentence-uses",
]

ENOUGH = {**text_write_reasons.ENOUGH, **{name: FEWEST for name in CAUSES + ["written"]}}


class Case(NamedTuple):
    """The writer's inputs without the room of an output."""

    t: int
    n: int
    table: Codes
    names: bytes
    starts: Tuple[int, ...]
    lengths: Tuple[int, ...]


def reasons_of(case: Case) -> List[str]:
    """Every reason of REASONS that this case meets."""
    lent = text_write_reasons.Case(*case, MAX_LENT)
    names = [name for name in text_write_reasons.reasons_of(lent) if name not in ABOUT_ROOM]
    written, length = write_text(*lent), text_length(*case)
    if isinstance(written, Refusal) or isinstance(length, Refusal):
        assert written == length, "the writer's refusal, never 14"
        return names + [cause for cause in NAMES_CAUSES if cause == str(written.cause)]
    assert length == len(written) == text_write_reasons.length_of_text(lent)
    return names + length_reasons(case, length)


def length_reasons(case: Case, length: int) -> List[str]:
    """How long the text is, and whether sentences use all its rules."""
    grammar = check_table(*case[:3])
    assert isinstance(grammar, Grammar)
    used = all(used_rules(grammar))
    met = [
        ("length-up-to-255", length <= 255),
        ("length-over-255", length > 255),
        ("length-over-4096", length > 4096),
        ("length-every-rule-used", used),
        ("length-a-rule-no-sentence-uses", not used),
    ]
    return [name for name, holds in met if holds]
