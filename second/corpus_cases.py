"""The corpus against its index, the search and the program.

    corpus_cases.py check                     compares the corpus with its index
    corpus_cases.py cases FILE                writes inputs for the search
    corpus_cases.py answers CASES OUT COUNTS  answers them and counts the reasons
    corpus_cases.py program ambig BINARY      compares what the program prints

The cases are those of search_cases.py, of the corpus and of grammars grown from
robot commands. `program` gives BINARY each text of the corpus and of
corpus_texts.py on its standard input.
"""

import subprocess
import sys
from functools import lru_cache
from typing import Dict, FrozenSet, Iterator, List, Optional, Sequence

from case_files import Kind, Rng, cases_of, main
from case_grammars import Table, states_of
from corpus import counts, entries, faults, table_in
from corpus_texts import GROUPS as TEXT_GROUPS
from corpus_texts import REASONS as TEXT_REASONS
from corpus_texts import Sample, samples
from corpus_texts import reasons_of as text_reasons_of
from program import MAX_STATES, printed
from robot_grammars import grown, table_of
from search_cases import Case, answer, decode_case, encode_case, exact_and_longer
from searches import Potential, needed, search
from tables import NO_SENTENCE, Refusal

FEWEST = 5                # texts that each group and each reason must have; cases of 19
SECONDS = 60              # that the program may take for one text
SHOWN = 10                # differences that are printed


# Cases for the search.

@lru_cache(maxsize=1)
def corpus_tables() -> FrozenSet[Table]:
    """The tables of the corpus."""
    return frozenset(table_in(entry.name) for entry in entries())


def of_the_corpus(rng: Rng) -> Iterator[Case]:
    """Every grammar of the corpus, lent exactly enough, and more."""
    for entry in entries():
        yield from exact_and_longer(rng, table_in(entry.name))


def grown_cases(rng: Rng, count: int, commands: int, most: int) -> Iterator[Case]:
    """So many grown grammars, lent exactly enough or more."""
    for _ in range(count):
        table = table_of(grown(rng, commands, most))
        yield rng.choice(list(exact_and_longer(rng, table)))


def grown_small(rng: Rng) -> Iterator[Case]:
    """Grown grammars that the program takes."""
    yield from grown_cases(rng, 240, 4, MAX_STATES)


def grown_large(rng: Rng) -> Iterator[Case]:
    """Grown grammars of up to 256 states."""
    yield from grown_cases(rng, 120, 8, 256)
    yield from grown_cases(rng, 30, 24, 256)


def of_the_corpus_with_callers(rng: Rng) -> Iterator[Case]:
    """Every grammar of the corpus at m=1 and m=2, where it has at most 256 states there, lent exactly enough."""
    for entry in entries():
        table = table_in(entry.name)
        for m, states in ((1, entry.states_1), (2, entry.states_2)):
            if states is not None and states <= 256:
                yield Case(*table, needed(states), 0, m)


GROUPS = [of_the_corpus, grown_small, grown_large, of_the_corpus_with_callers]

OF_19 = "19-of-the-corpus"
REASONS = ["%s-%s" % (verdict, how) for verdict in ("unambiguous", "potential")
           for how in ("of-the-corpus", "grown", "up-to-48-states", "over-48-states",
                       "exactly-enough", "longer", "of-the-corpus-at-1", "of-the-corpus-at-2")] + [OF_19]


def reasons_of(case: Case) -> List[str]:
    """Every reason of REASONS that this case meets."""
    table = case.t, case.n, case.table
    states = states_of(table)
    result = search(*table, case.lent, case.m)
    if isinstance(result, Refusal):
        assert result.cause == NO_SENTENCE and table in corpus_tables()
        return [OF_19]
    verdict = "potential-" if isinstance(result, Potential) else "unambiguous-"
    if case.m:
        return [verdict + "of-the-corpus-at-%d" % case.m]
    return [verdict + how for how in (
        "of-the-corpus" if table in corpus_tables() else "grown",
        "over-48-states" if states > MAX_STATES else "up-to-48-states",
        "exactly-enough" if case.lent == needed(states) else "longer")]


KIND = Kind(lambda: cases_of(GROUPS), encode_case, decode_case, answer, REASONS, reasons_of,
            enough={OF_19: FEWEST})


# The index.

def check() -> int:
    """The verb `check`: 0 if nothing speaks against the index, else 1."""
    found = list(faults())
    for fault in found:
        print(fault, file=sys.stderr)
    for name, count in counts(entries()):
        print("%s %d" % (name, count))
    return 1 if found else 0


# The program.

def run_program(binary: str, text: bytes) -> Optional[bytes]:
    """What the program prints for a text; None if a signal or the time ends it."""
    try:
        done = subprocess.run([binary], input=text, stdout=subprocess.PIPE, timeout=SECONDS)
    except subprocess.TimeoutExpired:
        return None
    return done.stdout if done.returncode >= 0 else None


def difference(binary: str, sample: Sample, expected: bytes) -> Optional[str]:
    """How the program's output differs, byte by byte, from what is expected."""
    found = run_program(binary, sample.text)
    if found == expected:
        return None
    return "%s text of %d bytes %r: expected %r, found %r" % (
        sample.group, len(sample.text), sample.text[:200], expected, found)


def compare_program(binary: str, texts: Sequence[Sample]) -> int:
    """The verb `program`: 0 if each output is as expected and no count is too low."""
    tally: Dict[str, int] = {name: 0 for name in list(TEXT_GROUPS) + TEXT_REASONS}
    differences = []
    for sample in texts:
        expected = printed(sample.text)
        for name in [sample.group] + text_reasons_of(sample.text, expected):
            tally[name] += 1
        found = difference(binary, sample, expected)
        if found is not None:
            differences.append(found)
    for name, count in tally.items():
        print("%s %d" % (name, count))
    print("texts %d different %d" % (len(texts), len(differences)))
    rare = ["fewer than %d texts: %s" % (FEWEST, name)
            for name, count in tally.items() if count < FEWEST]
    for line in differences[:SHOWN] + rare:
        print(line, file=sys.stderr)
    return 1 if differences or rare else 0


def run(words: Sequence[str]) -> int:
    """The verbs, those of every file of cases among them."""
    if list(words) == ["check"]:
        return check()
    if len(words) == 3 and list(words[:2]) == ["program", "ambig"]:
        return compare_program(words[2], list(samples()))
    return main(__doc__, words, KIND)


if __name__ == "__main__":
    sys.exit(run(sys.argv[1:]))
