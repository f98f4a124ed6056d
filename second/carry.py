"""Byte tables carried over: document 02, [8].

"A byte table that passed under the old limits is carried over by shifting
nonterminal codes up by 32,640, and its verdict, certificate and witness are proved
the same as before." Here the modules of this folder are loaded once more with
document 01's limits in tables.py; both answer side by side.

    carry.py FOLDER  compares all byte tables of the cases that prepare.sh has put there
"""

import importlib
import os
import sys
from types import SimpleNamespace
from typing import Dict, Iterator, Mapping, Optional, Sequence, Tuple

import certificate_cases
import corpus_cases
import record_cases
import room_cases
import search_cases
import step_cases
import table_cases
import witness_cases
from case_files import read_cases
from case_grammars import Table
from rooms import room_of
from searches import needed, search
from tables import START, Codes, Grammar, check_rules, check_table

# Document 01: "t from 0 to 127", "Nonterminals are 128 to 127+n, n from 1 to 127", "at most
# 100" rules, Q "at most 256", "A symbol is one byte."
BYTE_LIMITS = {
    "MAX_TERMINALS": 127, "MAX_NONTERMINALS": 127, "START": 128, "MAX_RULES": 100,
    "MAX_STATES": 256, "MAX_ENTRY": 255,
}
SHIFT = 32640
FOLDER = os.path.dirname(os.path.abspath(__file__))
NAMES = ("tables", "triples", "rooms", "searches", "text", "random_tables", "case_grammars",
         "dead_grammars", "sentence_grammars", "corpus")

# Files of cases, and whether the search is compared for tables of any size.
KINDS = {
    "searches": (search_cases.KIND, True), "corpus": (corpus_cases.KIND, True),
    "certificates": (certificate_cases.KIND, False), "witnesses": (witness_cases.KIND, False),
    "records": (record_cases.KIND, False), "steps": (step_cases.KIND, False),
    "tables": (table_cases.KIND, False), "rooms": (room_cases.KIND, False),
}
SOME_STATES = 120         # up to which the search is compared for every table
FEWEST = 9000             # tables that are to be compared
WITHOUT = "without-a-sentence"
NOT_SEARCHED = "not-searched"


# The old limits.

def own_modules() -> Dict[str, object]:
    """The modules of this folder that are loaded, by name."""
    return {name: module for name, module in sys.modules.items()
            if os.path.dirname(os.path.abspath(getattr(module, "__file__", None) or os.sep)) == FOLDER}


def loaded_with(limits: Mapping[str, int]) -> SimpleNamespace:
    """The modules of this folder once more, with other limits; those in use stay as they are."""
    in_use = own_modules()
    for name in in_use:
        del sys.modules[name]
    try:
        tables = importlib.import_module("tables")
        for name, value in limits.items():
            getattr(tables, name)
            setattr(tables, name, value)
        return SimpleNamespace(**{name: importlib.import_module(name) for name in NAMES})
    finally:
        for name in own_modules():
            del sys.modules[name]
        sys.modules.update(in_use)


old = loaded_with(BYTE_LIMITS)


# Carrying over.

def shifted(codes: Codes) -> Codes:
    """The codes with those of nonterminals shifted up."""
    return tuple(code if code < 128 else code + SHIFT for code in codes)


def carried(table: Table) -> Table:
    """A byte table without faults 1 to 8 carried over: lengths stay, also those in place of codes."""
    t, n, data = table
    found, offset = [], 0
    while offset < len(data):
        end = offset + 2 + data[offset + 1]
        found += [*shifted(data[offset:offset + 1]), data[offset + 1], *shifted(data[offset + 2:end])]
        offset = end
    return t, n, tuple(found)


def byte_table(table: Table) -> Optional[Table]:
    """The byte table that passed, but maybe for 19, and becomes this one; None if there is none."""
    grammar = check_rules(*table)
    if not isinstance(grammar, Grammar):
        return None
    found = []
    for rule in grammar.rules:
        codes = [code if code < START else code - SHIFT for code in (rule.left, *rule.right)]
        found += [codes[0], len(rule.right), *codes[1:]]
    before = *table[:2], tuple(found)
    if max(found, default=0) > BYTE_LIMITS["MAX_ENTRY"]:
        return None
    return before if isinstance(old.tables.check_rules(*before), old.tables.Grammar) else None


# Comparison.

def expect(what: str, one: object, other: object) -> None:
    """ValueError if two answers differ, fields and kinds."""
    if one != other or type(one).__name__ != type(other).__name__:
        raise ValueError("%s was %r and is %r" % (what, one, other))


def compared(table: Table, searched: bool = True) -> str:
    """The verdict of a byte table, both before and carried over; ValueError if anything differs.

    States, offsets, codes; room and M; if it is searched verdict, size, certificate,
    witness and the figure of [6].
    """
    after = carried(table)
    one, other = old.tables.check_table(*table), check_table(*after)
    if isinstance(other, Grammar):
        one = one._replace(rules=tuple(
            rule._replace(left=rule.left + SHIFT, right=shifted(rule.right)) for rule in one.rules))
    expect("the table's answer", one, other)
    expect("the room", old.rooms.room_of(*table), room_of(*after))
    if not isinstance(other, Grammar):
        return WITHOUT
    if not searched:
        return NOT_SEARCHED
    lent = needed(other.states)
    expect("what must be lent", old.searches.needed(other.states), lent)
    result = search(*after, lent)
    expect("the search's answer", old.searches.search(*table, lent), result)
    return type(result).__name__.lower()


def tables_in(folder: str) -> Iterator[Tuple[Table, bool]]:
    """The tables of all files of cases, each once, and whether they are to be searched."""
    seen = set()
    for name, (kind, any_size) in KINDS.items():
        for case in read_cases(kind, os.path.join(folder, name + ".cases")):
            table = tuple(case[:3])
            if table not in seen:
                seen.add(table)
                yield table, any_size


def main(words: Sequence[str]) -> int:
    """Compares and prints how many tables there were: 0, or 1 with a difference or too few, or 2."""
    if len(words) != 1:
        print(__doc__, file=sys.stderr)
        return 2
    counts = {name: 0 for name in ("unambiguous", "potential", WITHOUT, NOT_SEARCHED)}
    different = 0
    for table, any_size in tables_in(words[0]):
        before = byte_table(table)
        if before is None:
            continue
        try:
            counts[compared(before, any_size or check_rules(*table).states <= SOME_STATES)] += 1
        except ValueError as error:
            different += 1
            print("t=%d n=%d %s: %s" % (*before, error), file=sys.stderr)
    for name, count in counts.items():
        print("carried %s %d" % (name, count))
    total = sum(counts.values())
    print("carried tables %d different %d" % (total, different))
    return 1 if different or total < FEWEST else 0


if __name__ == "__main__":
    sys.exit(main(sys.argv[1:]))
