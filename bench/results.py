"""What the scripts of this folder measure. Each notes it here, beside what it prints; all.py makes one table of it.

A ratio is the time of plain C over the time of the library: above 1 the library is faster.
"""

import math
import re
import statistics
from typing import List, NamedTuple, Optional

SHORT, LOW = 2000, 0.8               # calls of more nanoseconds are told of one by one if their ratio is lower
NAMED = 3                            # so many of them by name
FEWEST, SPREAD = 3, 2                # growth is told of so many sizes, the largest so many times the smallest
HOSTILE_BYTES = 100000               # ordinary texts are smaller
LONGEST_NAME = 32
# Entries that two scripts time.
SEARCH, STOPS = "search: plain C that finishes the set", "search: plain C that stops"
CHECK, LARGEST, ROOM = "check: the search's certificate", "check: the largest certificate", "room of a search"
COLUMNS = ("entry", "m", "lines", "median", "worst", "best", "slowest", f"above {SHORT // 1000} us and below {LOW}",
           "growth: median", "largest")
NUMBERS = "m", "lines", "median", "best", "growth: median"


class Line(NamedTuple):
    """One call: the name and the size of what it was called on, and nanoseconds. plain is 0 where plain C was not asked."""

    entry: str
    callers: Optional[int]
    name: str
    size: int
    library: float
    plain: float

    def ratio(self):
        return self.plain / self.library


lines: List[Line] = []


def note(entry, name, size, library, plain, callers=None):
    lines.append(Line(entry, callers, name, int(size), library, plain))


def is_noted(entry, name, callers):
    return any((line.entry, line.name, line.callers) == (entry, name, callers) for line in lines)


def note_text(is_read_back, label, size, printed):
    """A line that texts.c has printed: milliseconds of the library and of plain C, and the answer."""
    library, plain = (1e6 * float(word) for word in printed.split()[:2])
    kind = "ordinary texts" if size < HOSTILE_BYTES else "texts made to be slow"
    note("reading back" if is_read_back else f"reader: {kind}", label, size, library, plain)


def shown_time(nanoseconds):
    return f"{nanoseconds / 1e6:.2f} ms" if nanoseconds >= 1e6 else f"{nanoseconds / 1e3:.2f} us"


def shown_name(name):
    return name if len(name) <= LONGEST_NAME else name[:LONGEST_NAME - 2] + ".."


def families(found):
    """The lines whose names differ in numbers alone, where they are enough to tell how the time grows."""
    groups = {}
    for line in found:
        if re.search(r"\d", line.name) and line.size > 0:
            groups.setdefault(" ".join(re.sub(r"-?\d+(x\d+)?", "", line.name).split()), []).append(line)
    for name, group in groups.items():
        sizes = {line.size for line in group}
        if len(sizes) >= FEWEST and max(sizes) >= SPREAD * min(sizes):
            yield name, group


def exponent(group):
    """The slope of the logarithm of the time over that of the size."""
    sizes, times = ([math.log(number) for number in numbers] for numbers in zip(*((line.size, line.library) for line in group)))
    return statistics.linear_regression(sizes, times).slope


def cells(entry, callers, found):
    """One line of the table."""
    compared = sorted((line for line in found if line.plain), key=Line.ratio)
    judged = [line for line in compared if line.library > SHORT]
    low = [line for line in judged if line.ratio() < LOW]
    slowest = max(found, key=lambda line: line.library)
    grown = sorted((exponent(group), name) for name, group in families(found))
    row = [entry, "" if callers is None else str(callers), str(len(found)), "", "", "",
           f"{shown_time(slowest.library)} ({shown_name(slowest.name)})", "", "", ""]
    if compared:
        row[3] = f"{statistics.median(map(Line.ratio, compared)):.2f}"
        row[4] = f"{compared[0].ratio():.2f} ({shown_name(compared[0].name)})"
        row[5] = f"{compared[-1].ratio():.2f}"
        names = ", ".join(f"{shown_name(line.name)} {line.ratio():.2f}" for line in low[:NAMED])
        row[7] = f"{len(low)} of {len(judged)}" + f": {names}" * bool(low) + ", .." * (len(low) > NAMED)
    if grown:
        row[8] = f"{statistics.median(power for power, _ in grown):.2f}"
        row[9] = f"{grown[-1][0]:.2f} ({shown_name(grown[-1][1])}, of {len(grown)})"
    return row


def table():
    """Rows of cells: the columns' names, then the entries in the order in which they were first noted, each by callers."""
    order = list(dict.fromkeys(line.entry for line in lines))
    groups = {}
    for line in sorted(lines, key=lambda line: (order.index(line.entry), line.callers or 0)):
        groups.setdefault((line.entry, line.callers), []).append(line)
    return [list(COLUMNS)] + [cells(*key, found) for key, found in groups.items()]


def printed(rows):
    """The table's lines, in columns of one width."""
    widths = [max(map(len, column)) for column in zip(*rows)]
    for row in rows:
        padded = (cell.rjust(width) if column in NUMBERS else cell.ljust(width) for cell, width, column in zip(row, widths, COLUMNS))
        yield "  ".join(padded).rstrip()


def markdown(rows):
    """The table's lines, for a document."""
    for row in rows[:1] + [["---"] * len(COLUMNS)] + rows[1:]:
        yield "| " + " | ".join(row) + " |"
