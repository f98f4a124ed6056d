"""The eight-channel command set, and the plan of one row of its terminals: document 02, [14].

`read_plan` answers the rules of the plan, or none, or refuses; with that comes what is changed
in the lent work row and list. The reader is written for these seven rules alone. It goes from
left to right and never back: the next terminal always says which command comes, whether
another command follows, and whether another channel does. So no row has two plans, and the
reader stops at the first terminal that no sentence has behind what stands before it.
"""

from functools import lru_cache
from typing import List, NamedTuple, Optional, Tuple, Union

from searches import Unambiguous, needed, search
from tables import Codes, Refusal

# "Codes run from 1 for take, vol, give, repeat, num, close, ch, sep, and from 32,768 for P, K, L."
WORDS = "take", "vol", "give", "repeat", "num", "close", "ch", "sep"
TAKE, VOL, GIVE, REPEAT, NUM, CLOSE, CH, SEP = TERMINALS = range(1, 9)
P, K, L = NONTERMINALS = range(32768, 32771)

# "These seven rules, in that order"; they are numbered from 1.
RULES = (
    (P, ()),                          # "P is empty,
    (P, (P, K)),                      #  or P K.
    (K, (TAKE, L, VOL)),              #  K is take L vol,
    (K, (GIVE, L, VOL)),              #  give L vol,
    (K, (REPEAT, NUM, P, CLOSE)),     #  or repeat num P close.
    (L, (CH,)),                       #  L is ch,
    (L, (L, SEP, CH)),                #  or L sep ch."
)
NO_COMMAND, ONE_MORE, TAKES, GIVES, REPEATS, CHANNEL, ONE_MORE_CHANNEL = range(1, 8)

TABLE = (len(TERMINALS), len(NONTERMINALS),
         tuple(code for left, right in RULES for code in (left, len(right), *right)))
STATES = 4 + sum(len(right) + 1 for _, right in RULES)
MOST_TERMINALS = 64                             # "A row of up to 64 terminals"
WORK_ENTRIES = 65 * 65 * STATES                 # of [12]: "One work row of 65×65×Q 32-bit entries"
CERTIFICATE_BYTES = (2 * STATES * STATES + 7) // 8     # "The certificate of 183 bytes at m=0"

NO_ROW = 22               # of [12]: "More than 64 terminals, or a code that is no terminal"
ROW_TOO_SHORT = 14        # of [12]: "14 is given if it is shorter, or if the lent list is shorter"

NONE, PLAN = "none", "plan"

# What the reader can wait for where it stops.
OUTSIDE, INSIDE, A_NUM, A_CHANNEL, AFTER_A_CHANNEL = WANTED = (
    "outside", "inside", "num", "channel", "after-a-channel")


class Lent(NamedTuple):
    """How many entries are lent: of the work row, and of the list of rules."""

    work: int
    rules: int


class Reply(NamedTuple):
    """What is answered, and what is changed: the front of the list, and of the work row.

    `rules` are then the first entries of the list, and the first `cleared` entries of the
    work row are 0; all else stays.
    """

    answer: Union[str, Refusal]
    rules: Codes = ()
    cleared: int = 0


# The reader.

class Stopped(Exception):
    """No sentence begins with the terminals up to this place and the one there."""

    def __init__(self, place: int, wanted: str) -> None:
        super().__init__(place, wanted)
        self.place, self.wanted = place, wanted


class Reader:
    """Takes terminals from the front of a row. Each part gives its rules, a node before its children."""

    def __init__(self, row: Codes) -> None:
        self.row, self.place = row, 0

    def next(self) -> Optional[int]:
        return self.row[self.place] if self.place < len(self.row) else None

    def pass_by(self, code: int, wanted: str) -> None:
        if self.next() != code:
            raise Stopped(self.place, wanted)
        self.place += 1

    def commands(self) -> Codes:
        """P. Its last command is the right child of its root, and so on inwards to the empty P; then they come in order."""
        found: List[Codes] = []
        while self.next() in (TAKE, GIVE, REPEAT):
            found.append(self.command())
        rules = (ONE_MORE,) * len(found) + (NO_COMMAND,)
        for command in found:
            rules += command
        return rules

    def command(self) -> Codes:
        """K."""
        word = self.next()
        self.place += 1
        if word == REPEAT:
            self.pass_by(NUM, A_NUM)
            rules = (REPEATS,) + self.commands()
            self.pass_by(CLOSE, INSIDE)
            return rules
        rules = (TAKES if word == TAKE else GIVES,) + self.channels()
        self.pass_by(VOL, AFTER_A_CHANNEL)
        return rules

    def channels(self) -> Codes:
        """L. The first channel is the innermost."""
        self.pass_by(CH, A_CHANNEL)
        more = 0
        while self.next() == SEP:
            self.place += 1
            self.pass_by(CH, A_CHANNEL)
            more += 1
        return (ONE_MORE_CHANNEL,) * more + (CHANNEL,)

    def whole(self) -> Codes:
        """P over the whole row."""
        rules = self.commands()
        if self.place < len(self.row):
            raise Stopped(self.place, OUTSIDE)
        return rules


@lru_cache(maxsize=4096)
def read(row: Codes) -> Tuple[Optional[Codes], Optional[Stopped]]:
    """The rules of the plan of a row of terminals, or where the reader stopped."""
    try:
        return Reader(row).whole(), None
    except Stopped as stopped:
        return None, stopped


def plan_of(row: Codes) -> Optional[Codes]:
    """The rules of the plan of a row of terminals, None if it has none."""
    return read(row)[0]


def stopped_at(row: Codes) -> Optional[Stopped]:
    """The first terminal that no sentence goes on with, or the end; None if there is a plan."""
    return read(row)[1]


# Refusals, and what is lent.

def row_fault(row: Codes) -> Optional[int]:
    """[12]: "the first place at fault, counted from 0 (a 65th terminal is place 64)"."""
    for place, code in enumerate(row[:MOST_TERMINALS + 1]):
        if place == MOST_TERMINALS or code not in TERMINALS:
            return place
    return None


def read_plan(row: Codes, lent: Lent) -> Reply:
    """22, 14 for the work row; then none, the plan, or 14 for the list.

    "A row of up to 64 terminals is read to its rule list or to none, by the part for single
    sentences", so with its refusals and lent rows; the table is never at fault.
    """
    place = row_fault(row)
    if place is not None:
        return Reply(Refusal(NO_ROW, place))
    if lent.work < WORK_ENTRIES:
        return Reply(Refusal(ROW_TOO_SHORT, 0))
    rules = plan_of(row)
    if rules is None:
        return Reply(NONE, (), WORK_ENTRIES)
    if lent.rules < len(rules):
        return Reply(Refusal(ROW_TOO_SHORT, 0), (), WORK_ENTRIES)
    return Reply(PLAN, rules, WORK_ENTRIES)


def rows_after(reply: Reply, work: Codes, rules: Codes) -> Tuple[Codes, Codes]:
    """What the lent work row and list hold afterwards, by what they held before."""
    assert reply.cleared <= len(work) and len(reply.rules) <= len(rules)
    return (0,) * reply.cleared + work[reply.cleared:], reply.rules + rules[len(reply.rules):]


# The certificate.

@lru_cache(maxsize=1)
def certificate() -> bytes:
    """The smallest acceptable one at m=0, as the search writes it."""
    found = search(*TABLE, needed(STATES))
    assert isinstance(found, Unambiguous) and len(found.certificate) == CERTIFICATE_BYTES
    return found.certificate


def certificate_byte(place: int) -> int:
    """A byte of the certificate, 0 past its end."""
    return certificate()[place] if place < CERTIFICATE_BYTES else 0
