"""The proved library for Python, over the shared library that bindings/shared.sh makes.

    grammar = ambiguity.Grammar(b"terminals=a\\nnonterminals=S\\nrule=S: a\\n")
    found = grammar.search(0)
    if found.unambiguous:
        grammar.check(0, found.certificate)
    trees = grammar.trees(["a"])
    joined = ambiguity.join(robot, module)
    draft = grammar.draft()
    draft.mark(1)
    draft.add([ambiguity.START, 0])
    rules = ambiguity.plan("take ch sep ch vol".split())

Every verdict is the library's. What it refuses is raised as Refused, with the
cause's number and the position. `search` and `check` take `callers`, how many
callers a state of the automaton remembers: 0, or 1 and then 2 where a potential
verdict may be a false alarm. Each number has its own states and certificates,
and a certificate is checked with the number that it was made with; `states_with`
tells how many states there are. A `Draft` is a grammar while it is edited, with
eight marks to return to. `plan` reads a method of the eight-channel command set
to its only plan, or to None. The shared library is looked for in the file that
the variable AMBIGUITY_SO names, in ../lib and in ../../target/shared beside
this file, and then where the loader looks.
"""

import array
import ctypes
import os
from typing import List, NamedTuple, Optional, Sequence

MAX_TABLE_ENTRIES = 1420  # enough for any grammar
MAX_NAMES = 4000
MAX_TEXT_BYTES = 262144
MAX_CALLERS = 2           # that a state remembers
MAX_RULES = 65536         # that are listed of a tree
MAX_SYMBOLS = 2000        # terminals of a grammar, and so nonterminals
MAX_ROW = 64              # terminals of a sentence; a plan has no more rules
MARKS = 8                 # of a draft, 1 to 8
START = 32768             # the code of the first nonterminal
PLAN_TERMINALS = "take", "vol", "give", "repeat", "num", "close", "ch", "sep"  # of the eight-channel command set, with codes 1 to 8
PLAN_CERTIFICATE_BYTES = 183
UNAMBIGUOUS = 1
ONE_TREE = 2
FOUND = "refused", "none", "one", "several"
MODULE = 2                # of two texts that are joined; the robot's is 1
BUFFER_TOO_SHORT, NO_SENTENCE, TOO_MANY_CALLERS, NOT_PRESENT = 14, 19, 21, 23
HERE = os.path.dirname(os.path.abspath(__file__))

Numbers = ctypes.c_uint64
Bytes = ctypes.POINTER(ctypes.c_uint8)
Codes = ctypes.POINTER(ctypes.c_uint16)
Row = ctypes.POINTER(ctypes.c_uint32)
Size = ctypes.c_size_t


def reply(*fields: str) -> type:
    """A struct of 64-bit numbers, as every reply is."""
    return type("Reply", (ctypes.Structure,), {"_fields_": [(name, Numbers) for name in ("cause", "at") + fields]})


READ = reply("terminals", "nonterminals", "entries", "states")
ROOM = reply("states", "certificate", "entries", "moves")
SEARCH = reply("verdict", "count", "looked")
CHECK = reply()
WRITE = reply("length")
TREES_ROOM = reply("entries")
TREES = reply("found", "count")
DRAFT = reply()
DRAFT_COUNTS = reply("terminals", "nonterminals", "rules", "entries", "states")
DRAFT_TABLE = reply("start", "entries")
PLAN = reply("found", "count")
TABLE = [Size, Size, Codes, Size]
CALLERS = TABLE + [Size]
TEXTS = [Bytes, Size, Bytes, Size]


class PART(ctypes.Structure):
    """A part of one of two texts; it has no cause."""

    _fields_ = [(name, Numbers) for name in ("text", "start", "length")]


def opened() -> ctypes.CDLL:
    """The shared library, with the types of the functions that are called."""
    places = [os.environ.get("AMBIGUITY_SO")]
    places += [os.path.join(HERE, *folder, "libambiguity.so") for folder in (["..", "lib"], ["..", "..", "target", "shared"])]
    found = next((place for place in places if place and os.path.exists(place)), "libambiguity.so")
    library = ctypes.CDLL(found)
    types = {
        "ambiguity_read_text": (READ, [Bytes, Size, Codes, Size, Row, Size, Row, Size]),
        "ambiguity_search_room": (ROOM, CALLERS),
        "ambiguity_search": (SEARCH, CALLERS + [Bytes, Size, Row, Size, Row, Size, Row, Size]),
        "ambiguity_check_certificate": (CHECK, CALLERS + [Bytes, Size]),
        "ambiguity_trees_room": (TREES_ROOM, TABLE),
        "ambiguity_find_trees": (TREES, TABLE + [Codes, Size, Row, Size, Codes, Size]),
        "ambiguity_join_texts": (READ, TEXTS + [Codes, Size]),
        "ambiguity_joined_name": (PART, TEXTS + [Size]),
        "ambiguity_write_joined": (WRITE, TEXTS + [Bytes, Size]),
        "ambiguity_draft_room": (Size, []),
        "ambiguity_new_draft": (DRAFT, TABLE + [Codes, Size]),
        "ambiguity_add_rule": (DRAFT, [Codes, Size, Codes, Size]),
        "ambiguity_withdraw_rule": (DRAFT, [Codes, Size, Size]),
        "ambiguity_set_mark": (DRAFT, [Codes, Size, Size]),
        "ambiguity_return_to_mark": (DRAFT, [Codes, Size, Size]),
        "ambiguity_draft_counts": (DRAFT_COUNTS, [Codes, Size]),
        "ambiguity_draft_table": (DRAFT_TABLE, [Codes, Size]),
        "ambiguity_read_plan": (PLAN, [Codes, Size, Row, Size, Codes, Size]),
        "ambiguity_plan_room": (Size, []),
        "ambiguity_plan_certificate_byte": (ctypes.c_uint8, [Size]),
        "ambiguity_version": (ctypes.c_char_p, []),
        "ambiguity_cause_words": (ctypes.c_char_p, [Numbers]),
    }
    for name, (result, arguments) in types.items():
        function = getattr(library, name)
        function.restype, function.argtypes = result, arguments
    return library


LIBRARY = opened()


def version() -> str:
    """The version of the library that is loaded."""
    return LIBRARY.ambiguity_version().decode("ascii")


class Refused(ValueError):
    """What the library refuses: `cause` is a number from 1 to 23, `at` a position. Where two texts are joined, `part` says what is
    refused: "robot", "module" or "join"."""

    def __init__(self, cause: int, at: int, part: Optional[str] = None) -> None:
        words = LIBRARY.ambiguity_cause_words(cause).decode("ascii")
        of_part = " part=%s" % part if part else ""
        super().__init__("refused=%d at=%d%s: %s" % (cause, at, of_part, words))
        self.cause, self.at, self.part = cause, at, part


class Searched(NamedTuple):
    """A verdict: `size` and `certificate` of an unambiguous grammar, else `witness`."""

    unambiguous: bool
    looked: int
    size: Optional[int]
    certificate: Optional[bytes]
    witness: Optional[List[int]]


class Trees(NamedTuple):
    """How many derivation trees a sentence has: `found` is "none", "one" or "several"; `rules` are those of the one tree, by their numbers
    from 1, each node before its children, children from left to right."""

    found: str
    rules: Optional[List[int]]


def taken(answer):
    """An answer that refuses nothing."""
    if answer.cause:
        raise Refused(answer.cause, answer.at)
    return answer


def small(callers: int) -> int:
    """A number of callers that ctypes does not cut: too large or too small a one is refused as three are."""
    return callers if 0 <= callers <= MAX_CALLERS else MAX_CALLERS + 1


def numbered(number: int) -> int:
    """The number of a mark or a rule that ctypes does not cut: one that is not of 64 bits is refused, as all that are too large are."""
    if not 0 <= number < 2 ** 64:
        raise Refused(NOT_PRESENT, number)
    return number


def lent_entries(entries: Sequence[int]):
    """Entries as a row of 16 bits and its length; a row of none has a place too. Raises OverflowError for an entry of more bits."""
    row = array.array("H", entries)
    return (ctypes.c_uint16 * max(1, len(row)))(*row), len(row)


def lent(data: bytes):
    """Bytes as a row; a row of none has a place too."""
    return (ctypes.c_uint8 * max(1, len(data))).from_buffer_copy(data or b"\0")


def folded(name: str) -> str:
    """A name with its ASCII letters small: names that are equal so are the same."""
    return "".join(letter.lower() if letter.isascii() else letter for letter in name)


class Grammar:
    """A grammar that was read from its text: `states` is Q at 0 callers, `names` are terminals, then nonterminals, as they are declared.
    Names that differ only in the case of ASCII letters are the same."""

    def __init__(self, text: bytes) -> None:
        table = (ctypes.c_uint16 * MAX_TABLE_ENTRIES)()
        starts, lengths = (ctypes.c_uint32 * MAX_NAMES)(), (ctypes.c_uint32 * MAX_NAMES)()
        read = taken(LIBRARY.ambiguity_read_text(
            lent(text), len(text), table, MAX_TABLE_ENTRIES, starts, MAX_NAMES, lengths, MAX_NAMES))
        self.states = read.states
        self.terminals, self.nonterminals = read.terminals, read.nonterminals
        places = zip(starts[:read.terminals + read.nonterminals], lengths)
        self.names = [text[start:start + length].decode("ascii") for start, length in places]
        codes = list(range(1, self.terminals + 1)) + list(range(START, START + self.nonterminals))
        self._codes = dict(zip(map(folded, self.names), codes))
        self._table = self.terminals, self.nonterminals, table, read.entries

    def states_with(self, callers: int) -> int:
        """Q with so many callers. Raises Refused with 21 for more than two, with 8 if the states do not fit."""
        return taken(LIBRARY.ambiguity_search_room(*self._table, small(callers))).states

    def search(self, callers: int) -> Searched:
        """The verdict with so many callers, lent just what the library says beforehand. Raises Refused as states_with does."""
        room = taken(LIBRARY.ambiguity_search_room(*self._table, small(callers)))
        certificate = (ctypes.c_uint8 * room.certificate)()
        queue, parents, witness = ((ctypes.c_uint32 * room.entries)() for _ in range(3))
        rows = [part for row in (queue, parents, witness) for part in (row, room.entries)]
        found = taken(LIBRARY.ambiguity_search(*self._table, callers, certificate, room.certificate, *rows))
        if found.verdict == UNAMBIGUOUS:
            return Searched(True, found.looked, found.count, bytes(certificate), None)
        return Searched(False, found.looked, None, None, witness[:found.count])

    def check(self, callers: int, certificate: bytes) -> None:
        """Raises Refused unless the certificate is acceptable with so many callers: then no sentence has two derivation trees."""
        taken(LIBRARY.ambiguity_check_certificate(*self._table, small(callers), lent(certificate), len(certificate)))

    def draft(self) -> "Draft":
        """A new draft with the grammar's symbols and rules."""
        terminals, nonterminals, table, entries = self._table
        return Draft(terminals, nonterminals, table[:entries])

    def code(self, name: str) -> int:
        """The code of a symbol by its name, in any case of its ASCII letters; 0, which is no code, for a name that is not declared."""
        return self._codes.get(folded(name), 0)

    def trees(self, words: Sequence[str], most: int = MAX_RULES) -> Trees:
        """The derivation trees of a sentence, given by the names of its terminals. Raises Refused with 22 at the first word that is no
        terminal, or at 64 for a longer sentence; with 14 if there is one tree, of more than `most` rules."""
        room = taken(LIBRARY.ambiguity_trees_room(*self._table)).entries
        row = (ctypes.c_uint16 * max(1, len(words)))(*map(self.code, words))
        rules = (ctypes.c_uint16 * max(1, most))()
        found = taken(LIBRARY.ambiguity_find_trees(
            *self._table, row, len(words), (ctypes.c_uint32 * room)(), room, rules, most))
        return Trees(FOUND[found.found], rules[:found.count] if found.found == ONE_TREE else None)


class Counts(NamedTuple):
    """How much a draft has: t, n, its rules, the entries of their table, and Q at 0 callers."""

    terminals: int
    nonterminals: int
    rules: int
    entries: int
    states: int


class Draft:
    """A grammar while it is edited: t, n, the rules as a table of codes, perhaps without entries, and eight marks, empty at first. A rule is
    its left code, the length of its right side and the codes of that; rules are numbered from 1. A draft may lack sentences. What is
    refused changes nothing."""

    def __init__(self, terminals: int, nonterminals: int, table: Sequence[int] = ()) -> None:
        room = LIBRARY.ambiguity_draft_room()
        self._row = (ctypes.c_uint16 * room)(), room
        # Numbers that ctypes would cut are refused as all that are too large are.
        symbols = (count if 0 <= count <= MAX_SYMBOLS else MAX_SYMBOLS + 1 for count in (terminals, nonterminals))
        taken(LIBRARY.ambiguity_new_draft(*symbols, *lent_entries(table), *self._row))

    def add(self, rule: Sequence[int]) -> None:
        """Adds a rule behind the last one; entries past its last code are not read. Raises Refused with 7, 2, 3, 4, 2, 5, 6, 8, as for a
        rule that follows the draft's table: positions count on from the end of that."""
        taken(LIBRARY.ambiguity_add_rule(*self._row, *lent_entries(rule)))

    def withdraw(self, number: int) -> None:
        """Withdraws a rule; later ones move down by one number. Raises Refused with 23 at the number if there is no such rule."""
        taken(LIBRARY.ambiguity_withdraw_rule(*self._row, numbered(number)))

    def mark(self, mark: int) -> None:
        """Keeps the rules under a mark, 1 to 8. Raises Refused with 23 at any other number."""
        taken(LIBRARY.ambiguity_set_mark(*self._row, numbered(mark)))

    def return_to(self, mark: int) -> None:
        """Brings the rules of a mark back; all marks stay. Raises Refused with 23 at the number if it is no mark's, or the mark is empty."""
        taken(LIBRARY.ambiguity_return_to_mark(*self._row, numbered(mark)))

    def counts(self) -> Counts:
        """How much the draft has."""
        counts = taken(LIBRARY.ambiguity_draft_counts(*self._row))
        return Counts(*(getattr(counts, name) for name in Counts._fields))

    def table(self) -> List[int]:
        """The entries of the rules' table."""
        place = taken(LIBRARY.ambiguity_draft_table(*self._row))
        return self._row[0][place.start:place.start + place.entries]

    def rules(self) -> List[List[int]]:
        """The rules one by one, each with its left code and length."""
        table, rules = self.table(), []
        while table:
            rules.append(table[:2 + table[1]])
            table = table[2 + table[1]:]
        return rules


class Joined(NamedTuple):
    """The table of two texts that are joined: t, n, Q, and its entries."""

    terminals: int
    nonterminals: int
    states: int
    table: List[int]


def both(robot: bytes, module: bytes):
    """Two texts as rows."""
    return lent(robot), len(robot), lent(module), len(module)


def is_at_fault(text: bytes, *other: int) -> bool:
    """Is a text refused alone? Lent nothing, one without fault is refused with 14; other causes may be let pass."""
    row = (ctypes.c_uint32 * 1)()
    answer = LIBRARY.ambiguity_read_text(lent(text), len(text), (ctypes.c_uint16 * 1)(), 0, row, 0, row, 0)
    return answer.cause not in (BUFFER_TOO_SHORT,) + other


def taken_of_both(answer, robot: bytes, module: bytes):
    """An answer about two texts that refuses nothing. The module's text may lack sentences."""
    if answer.cause:
        part = "robot" if is_at_fault(robot) else "module" if is_at_fault(module, NO_SENTENCE) else "join"
        raise Refused(answer.cause, answer.at, part)
    return answer


def join_texts(robot: bytes, module: bytes) -> Joined:
    """The joined table: the robot's lists and rules, then what the module adds."""
    table = (ctypes.c_uint16 * MAX_TABLE_ENTRIES)()
    read = taken_of_both(LIBRARY.ambiguity_join_texts(*both(robot, module), table, MAX_TABLE_ENTRIES), robot, module)
    return Joined(read.terminals, read.nonterminals, read.states, table[:read.entries])


def joined_name(robot: bytes, module: bytes, symbol: int) -> memoryview:
    """The name shown for a symbol, joined terminals from 0, then joined nonterminals: the part of the text that declares it, the robot's
    where both do. Empty for a symbol of neither, and for texts that are refused."""
    if not 0 <= symbol < MAX_NAMES:
        return memoryview(b"")  # ctypes would cut the number
    part = LIBRARY.ambiguity_joined_name(*both(robot, module), symbol)
    text = module if part.text == MODULE else robot
    return memoryview(text)[part.start:part.start + part.length]


def joined_text(robot: bytes, module: bytes) -> bytes:
    """The joined text, each use of a name as it is declared, the robot's spelling where both texts declare it."""
    out = (ctypes.c_uint8 * MAX_TEXT_BYTES)()
    written = taken_of_both(LIBRARY.ambiguity_write_joined(*both(robot, module), out, MAX_TEXT_BYTES), robot, module)
    return bytes(out[:written.length])


def join(robot: bytes, module: bytes) -> Grammar:
    """The grammar of the joined text."""
    return Grammar(joined_text(robot, module))


def plan(words: Sequence[str], most: int = MAX_ROW) -> Optional[List[int]]:
    """The plan of a method of the eight-channel command set, given by its words in any case of their ASCII letters: the numbers of its
    rules, each node before its children, children from left to right; None if the method is no sentence. It never has two. Raises Refused
    with 22 at the first word that is no terminal, or at 64 for a longer method; with 14 if there is a plan, of more than `most` rules."""
    codes = [PLAN_TERMINALS.index(word) + 1 if word in PLAN_TERMINALS else 0 for word in map(folded, words)]
    room, rules = LIBRARY.ambiguity_plan_room(), (ctypes.c_uint16 * max(1, most))()
    found = taken(LIBRARY.ambiguity_read_plan(*lent_entries(codes), (ctypes.c_uint32 * room)(), room, rules, most))
    return rules[:found.count] if found.found == ONE_TREE else None


def plan_certificate() -> bytes:
    """The certificate of the eight-channel command set at 0 callers, as a search writes it for its grammar."""
    return bytes(map(LIBRARY.ambiguity_plan_certificate_byte, range(PLAN_CERTIFICATE_BYTES)))
