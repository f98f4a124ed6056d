"""The inputs of the writer's cases, in groups; they depend on the seed alone."""

from typing import Dict, Iterator, List, Sequence, Tuple

import table_cases
from case_files import LAST, Group, Rng, cases_of
from named_grammars import (
    MAX_LENT, Named, figures_named, full_named, large_named, longest_named, random_name,
    random_names, small_named, text_of, with_names,
)
from random_tables import Rule, encode, random_rules, some_rules, with_sentence
from sentence_grammars import (
    faulty_sentenceless, large_sentenceless, named_table, nearly_sentenceless, sentenceless,
)
from spelling import (
    apart, in_another_case, lettered, lettered_names, places_apart,
)
from tables import MAX_NONTERMINALS, MAX_RULES, MAX_STATES, MAX_TERMINALS, START
from text import MAX_NAME, NAME_BYTES
from text_write_reasons import SHORTEST, WORD, Case

SEED = 3
EMPTY = START, 0               # the table of S→ (empty)

Rows = Tuple[bytes, List[int], List[int]]      # name bytes, starts and lengths


# Where the names lie.

def packed(names: Sequence[bytes]) -> Rows:
    """The names end to end, in order."""
    starts, data = [], b""
    for name in names:
        starts.append(len(data))
        data += name
    return data, starts, [len(name) for name in names]


def scattered(rng: Rng, names: Sequence[bytes]) -> Rows:
    """The names in any order, other bytes around them."""
    order = list(range(len(names)))
    rng.shuffle(order)
    starts, data = [0] * len(names), b""
    for symbol in order:
        data += bytes(rng.choice(b"\0\n ,:=aZ\xff") for _ in range(rng.randrange(4)))
        starts[symbol] = len(data)
        data += names[symbol]
    if rng.randrange(2):
        data += b",\0"
    return data, starts, [len(name) for name in names]


def overlapping(rng: Rng, count: int) -> Rows:
    """Different names that share their bytes; no two differ in case alone."""
    data = random_name(rng, 16 + count + rng.randrange(6))
    spans: Dict[bytes, Tuple[int, int]] = {}
    while len(spans) < count:
        length = 1 + rng.randrange(MAX_NAME)
        start = rng.randrange(len(data) - length + 1)
        spans[data[start:start + length].lower()] = (start, length)
    starts, lengths = zip(*spans.values())
    return data, list(starts), list(lengths)


def in_text(grammar: Named) -> Rows:
    """The names where the grammar's own text declares them."""
    text = text_of(grammar)
    starts = []
    place = len(b"terminals=")
    for symbol, name in enumerate(grammar.names):
        if symbol == grammar.t:
            place = text.index(b"\nnonterminals=") + len(b"\nnonterminals=")
        starts.append(place)
        place += len(name) + 1
    return text, starts, [len(name) for name in grammar.names]


def laid(rng: Rng, grammar: Named) -> Rows:
    """The grammar's names in one of these ways."""
    kind = rng.randrange(4)
    if kind == 0:
        return packed(grammar.names)
    return in_text(grammar) if kind == 1 else scattered(rng, grammar.names)


def good_rules(rng: Rng, t: int, n: int, lengths: Sequence[int]) -> List[Rule]:
    """Random rules of these lengths, which have a sentence."""
    return with_sentence(rng, t, random_rules(rng, t, n, lengths))


# Cases.

def make(grammar: Named, rows: Rows, room: int) -> Case:
    names, starts, lengths = rows
    return Case(grammar.t, grammar.n, encode(grammar.rules), names, tuple(starts),
                tuple(lengths), room)


def some_room(rng: Rng, size: int) -> int:
    """Room for a text of `size` bytes: mostly enough, exact, or one short."""
    return rng.choice([size, size, size + 1, size + rng.randrange(300), size - 1,
                       MAX_LENT, rng.randrange(size), 0])


def enough_room(rng: Rng) -> int:
    """Room for every text, now and then none at all."""
    return 0 if rng.randrange(6) == 0 else 100000 + rng.randrange(100)


def written_length(grammar: Named, lengths: Sequence[int]) -> int:
    """The bytes of the text of the grammar with names of these lengths."""
    names = [b"x" * length for length in lengths[:grammar.t + grammar.n]]
    return len(text_of(grammar._replace(names=names)))


# Good inputs.

def figures(rng: Rng) -> Iterator[Case]:
    """Document 01's grammars, with room exact, longer and one byte short."""
    for grammar in figures_named():
        size = len(text_of(grammar))
        for room in (size - 1, size, size + 1, size + 300, SHORTEST - 1, 0):
            yield make(grammar, laid(rng, grammar), room)


def good_small(rng: Rng) -> Iterator[Case]:
    for _ in range(640):
        grammar = small_named(rng, rng.choice([2, 6, 12]))
        yield make(grammar, laid(rng, grammar), some_room(rng, len(text_of(grammar))))


def good_large(rng: Rng) -> Iterator[Case]:
    """Grammars at the limits of symbols, rules, states and bytes."""
    for _ in range(24):
        for grammar in (full_named(rng), large_named(rng, MAX_RULES, MAX_STATES),
                        large_named(rng, some_rules(rng), MAX_STATES)):
            size = len(text_of(grammar))
            yield make(grammar, laid(rng, grammar), some_room(rng, size))
    for _ in range(3):
        grammar = longest_named(rng)
        size = len(text_of(grammar))
        for room in (size, size - 1, size + 1):
            yield make(grammar, laid(rng, grammar), room)


def overlapping_names(rng: Rng) -> Iterator[Case]:
    """Names that share bytes; then each two symbols' spans exchanged."""
    for _ in range(220):
        grammar = small_named(rng) if rng.randrange(20) else full_named(rng)
        rows = overlapping(rng, grammar.t + grammar.n)
        yield make(grammar, rows, some_room(rng, written_length(grammar, rows[2])))
    for count in range(1, 16):
        grammar = Named(count - 1, 1, good_rules(rng, count - 1, 1, [1, 2]), [])
        for starts in ([0] * count, [15 - i for i in range(1, count + 1)]):
            lengths = list(range(1, count + 1))
            yield make(grammar, (b"abcdefghijklmno", starts, lengths), enough_room(rng))


def rooms(rng: Rng) -> Iterator[Case]:
    """Every room from 0 to one byte more than the text."""
    grammars = [figures_named()[0], figures_named()[3], small_named(rng, 4)]
    for grammar in grammars:
        for room in range(len(text_of(grammar)) + 2):
            yield make(grammar, laid(rng, grammar), room)
    for _ in range(60):
        grammar = small_named(rng)
        size = len(text_of(grammar))
        for room in (size - 1, size, size + 1):
            yield make(grammar, laid(rng, grammar), room)


def longest_rules(rng: Rng) -> Iterator[Case]:
    """Right sides of 12 and of 11 symbols."""
    for _ in range(40):
        t, n = 1 + rng.randrange(5), 1 + rng.randrange(3)
        grammar = with_names(rng, t, n, good_rules(rng, t, n, [12, 11, 12]))
        yield make(grammar, laid(rng, grammar), some_room(rng, len(text_of(grammar))))


def longer_rows(rng: Rng) -> Iterator[Case]:
    """Rows with entries, good or not, past the symbols'."""
    for _ in range(100):
        grammar = small_named(rng)
        names, starts, lengths = laid(rng, grammar)
        more = [rng.choice([0, 1, 16, WORD - 1]) for _ in range(1 + rng.randrange(3))]
        kind = rng.randrange(3)
        starts = starts + (more if kind != 1 else [])
        lengths = lengths + (more[::-1] if kind != 0 else [])
        yield make(grammar, (names, starts, lengths), some_room(rng, len(text_of(grammar))))


# Faulty tables.

def ranges(rng: Rng) -> Iterator[Case]:
    """t and n at and past their limits, with rows of all sizes."""
    values = [0, 1, 2, 128, 256, 1999, 2000, 2001, 2002, 2 ** 16 + 1, 2 ** 32, 2 ** 32 + 1,
              2 ** 63, LAST - 1999, LAST - 2000, LAST]
    names = random_names(rng, 4000)
    for t in values:
        for n in values:
            whole = rng.randrange(3) == 0 and t <= 2000 and n <= 2000
            count = t + n if whole else rng.choice([0, 1, min(300, t + n), 300])
            data, starts, lengths = packed(names[:count])
            if count and rng.randrange(3) == 0:
                starts[-1], lengths[-1] = starts[0], lengths[0]
            table = rng.choice([EMPTY, EMPTY, (), (START, 13)])
            yield Case(t, n, table, data, tuple(starts), tuple(lengths), enough_room(rng))


def faulty_tables(rng: Rng) -> Iterator[Case]:
    """The table check's own cases of several faults, with names good or not."""
    chosen = list(table_cases.several_faults(rng))[::5]
    chosen += list(table_cases.faults_in_two_rules(rng))[::8]
    chosen += list(table_cases.equal_rules(rng))[::8]
    chosen += list(table_cases.many_states(rng))[::4]
    for t, n, table in chosen:
        count = min(t + n, 300)
        data, starts, lengths = packed(random_names(rng, count))
        kind = rng.randrange(5)
        symbol = rng.randrange(count)
        if kind == 0:
            starts[symbol], lengths[symbol] = starts[0], lengths[0]
        elif kind == 1:
            lengths[symbol] = rng.choice([0, 16, WORD - 1])
        elif kind == 2:
            starts, lengths = starts[:symbol], lengths[:symbol]
        yield Case(t, n, table, data, tuple(starts), tuple(lengths), enough_room(rng))


# Faulty names.

def short_rows(rng: Rng) -> Iterator[Case]:
    """Rows of starts or lengths one entry short, shorter, or empty."""
    for _ in range(40):
        grammar = small_named(rng) if rng.randrange(14) else full_named(rng)
        names, starts, lengths = laid(rng, grammar)
        cut = rng.randrange(len(starts))
        for end in sorted({-1, cut - len(starts), -len(starts)}):
            yield make(grammar, (names, starts[:end], lengths), enough_room(rng))
            yield make(grammar, (names, starts, lengths[:end]), enough_room(rng))
            yield make(grammar, (names, starts[:end], lengths[:end]), enough_room(rng))


def spans_past_the_bytes(rng: Rng) -> Iterator[Case]:
    """Start plus length at, past and far past the bytes, and past 2^32."""
    for _ in range(21):
        grammar = small_named(rng)
        names, starts, lengths = laid(rng, grammar)
        symbol = rng.randrange(len(starts))
        size, length = len(names), lengths[symbol]
        spans = [(size - length, length), (size - length + 1, length), (size, length),
                 (size, 1), (size - 1, 1), (size + 1, 1), (size, 0), (size + 9, 0),
                 (0, size), (0, size + 1), (WORD - 1, 1), (WORD - length, length),
                 (WORD - 1, length), (WORD - 1, 15), (WORD - 16, 15), (1, WORD - 1),
                 (0, WORD - 1), (starts[symbol], WORD - 1), (WORD - 1, WORD - 1),
                 (WORD - 1, 0), (WORD // 2, WORD // 2), (WORD // 2, 1),
                 (WORD - 256 + starts[symbol], 256 - size % 256)]
        for start, length in spans:
            changed = starts[:symbol] + [start] + starts[symbol + 1:]
            sizes = lengths[:symbol] + [length] + lengths[symbol + 1:]
            yield make(grammar, (names, changed, sizes), enough_room(rng))


def name_lengths(rng: Rng) -> Iterator[Case]:
    """Lengths of 0, 14 to 17 and more, all bytes being good ones."""
    names = random_name(rng, 600) + b"-" * 65536 + random_name(rng, 3)
    for length in (0, 1, 14, 15, 16, 17, 31, 255, 256, 257, 271, 65536 + 15, WORD - 1):
        for count in range(1, 9):
            grammar = Named(count - 1, 1, good_rules(rng, count - 1, 1, [1, 0]), [])
            symbol = rng.randrange(count)
            starts = [20 * place for place in range(count)]
            lengths = [1 + rng.randrange(MAX_NAME) for _ in range(count)]
            lengths[symbol] = length
            data = names if length > 600 and count < 4 else names[:600]
            yield make(grammar, (data, starts, lengths), enough_room(rng))
    for length in (0, 15, 16, 17):
        for _ in range(9):
            grammar = small_named(rng)
            lengths = [MAX_NAME] * (grammar.t + grammar.n)
            lengths[rng.randrange(len(lengths))] = length
            starts = [16 * place for place in range(len(lengths))]
            yield make(grammar, (names[:170], starts, lengths), enough_room(rng))


def all_bytes(rng: Rng) -> Iterator[Case]:
    """Every byte in a name, first, last or inside it, of either kind of symbol."""
    for value in range(256):
        for t in (1, 0):
            name = [b"%c", b"x%c", b"%cx", b"x%cx"][rng.randrange(4)] % bytes([value])
            names = [b"x-y", b"y-x"]
            names[rng.choice([0, 1])] = name
            grammar = Named(t, 2 - t, good_rules(rng, t, 2 - t, [1, 2]), names)
            yield make(grammar, packed(names), enough_room(rng))


def equal_names(rng: Rng) -> Iterator[Case]:
    """Equal names, by one span or by equal bytes; several; nearly equal ones."""
    for _ in range(130):
        grammar = small_named(rng) if rng.randrange(18) else full_named(rng)
        count = grammar.t + grammar.n
        names = list(grammar.names)
        for _ in range(1 + rng.randrange(3)):
            names[rng.randrange(count)] = rng.choice(names)
        yield make(grammar, scattered(rng, names), enough_room(rng))
        data, starts, lengths = laid(rng, grammar)
        first, second = rng.randrange(count), rng.randrange(count)
        starts[second], lengths[second] = starts[first], lengths[first]
        yield make(grammar, (data, starts, lengths), enough_room(rng))
        names = list(grammar.names)
        near = names[rng.randrange(count)]
        near = rng.choice([near.swapcase(), near + b"0", near[:-1] + b"-", near[1:]])
        names[rng.randrange(count)] = near[:MAX_NAME]
        yield make(grammar, scattered(rng, names), enough_room(rng))


def crossing_names(rng: Rng) -> Iterator[Case]:
    """A nonterminal's name equal to a terminal's, at the edges of both kinds."""
    for _ in range(30):
        t, n = 1 + rng.randrange(5), 1 + rng.randrange(5)
        names = random_names(rng, t + n)
        grammar = Named(t, n, good_rules(rng, t, n, [2, 1]), names)
        for first, second in ((0, t), (t - 1, t), (0, t + n - 1), (t - 1, t + n - 1)):
            changed = list(names)
            changed[second] = names[first]
            yield make(grammar, packed(changed), enough_room(rng))


def several_faults(rng: Rng) -> Iterator[Case]:
    """Malformed and equal names at several symbols, also with a faulty table."""
    for _ in range(520):
        grammar = small_named(rng)
        grammar = grammar._replace(
            t=grammar.t + 2, names=random_names(rng, grammar.t + 2 + grammar.n))
        data, starts, lengths = scattered(rng, grammar.names)
        for _ in range(rng.randrange(4)):
            first, second = rng.randrange(len(starts)), rng.randrange(len(starts))
            starts[second], lengths[second] = starts[first], lengths[first]
        for _ in range(rng.randrange(3)):
            spoil(rng, len(data), starts, lengths)
        case = make(grammar, (data, starts, lengths), enough_room(rng))
        if rng.randrange(4) == 0:
            wrong = rng.choice([(0,), (START, 13), (START, 1, 0)])
            case = case._replace(table=case.table + wrong)
        if rng.randrange(5) == 0:
            case = case._replace(starts=case.starts[:-1])
        yield case


def spoil(rng: Rng, size: int, starts: List[int], lengths: List[int]) -> None:
    """One entry of the rows made wrong, or all that follow it."""
    symbol = rng.randrange(len(starts))
    kind = rng.randrange(5)
    if kind == 0:
        lengths[symbol] = rng.choice([0, 16, 17, WORD - 1])
    elif kind == 1:
        starts[symbol] = size - lengths[symbol] + 1
    elif kind == 2:
        starts[symbol] = WORD - 1
    elif kind == 3:
        starts[symbol] = size
    else:
        lengths[symbol] = size + 1


def damaged_bytes(rng: Rng) -> Iterator[Case]:
    """Bytes of names, starts and lengths changed a little."""
    good = NAME_BYTES + b",.@[`{/: \0\n"
    for _ in range(400):
        grammar = small_named(rng)
        data, starts, lengths = laid(rng, grammar)
        place = rng.randrange(len(data))
        symbol = rng.randrange(len(starts))
        kind = rng.randrange(4)
        if kind == 0:
            data = data[:place] + bytes([rng.choice(good)]) + data[place + 1:]
        elif kind == 1:
            data = data[:place]
        elif kind == 2:
            starts[symbol] = max(0, starts[symbol] + rng.choice([-1, 1, 2]))
        else:
            lengths[symbol] = max(0, lengths[symbol] + rng.choice([-1, 1, 2]))
        yield make(grammar, (data, starts, lengths), enough_room(rng))


def no_names(rng: Rng) -> Iterator[Case]:
    """Empty name bytes, and no rows at all."""
    for t in (0, 1, 2000):
        for n in (1, 2000):
            zeros = (0,) * (t + n)
            for starts, lengths in (((), ()), (zeros, ()), ((), zeros), (zeros, zeros),
                                    (zeros, (1,) * (t + n))):
                yield Case(t, n, EMPTY, b"", starts, lengths, enough_room(rng))


# No sentence.

def without_a_sentence(rng: Rng) -> Iterator[Case]:
    """No sentence, with good names and enough room, and with names at fault or no room."""
    for table in [*sentenceless(rng, 14), *large_sentenceless(rng, 8)]:
        grammar = named_table(rng, table)
        data, starts, lengths = laid(rng, grammar)
        size = len(text_of(grammar))
        yield make(grammar, (data, starts, lengths), size + rng.choice([0, 0, 1, 300]))
        yield make(grammar, (data, starts, lengths), rng.choice([size - 1, 0]))
        symbol = rng.randrange(len(starts))
        if len(starts) > 1 and rng.randrange(2):
            starts[symbol], lengths[symbol] = starts[symbol - 1], lengths[symbol - 1]
        else:
            spoil(rng, len(data), starts, lengths)
        yield make(grammar, (data, starts, lengths), enough_room(rng))


def nearly_without(rng: Rng) -> Iterator[Case]:
    """Only the empty sentence; sentences that need the first rule, or the last."""
    for table in nearly_sentenceless(rng, 24):
        grammar = named_table(rng, table)
        yield make(grammar, laid(rng, grammar), some_room(rng, len(text_of(grammar))))


def faulty_without(rng: Rng) -> Iterator[Case]:
    """Each of causes 1 to 8 where there is no sentence either."""
    for t, n, table in faulty_sentenceless(rng, 22):
        data, starts, lengths = packed(random_names(rng, min(t + n, 300)))
        yield Case(t, n, table, data, tuple(starts), tuple(lengths), enough_room(rng))


# Case.

def names_in_two_cases(rng: Rng) -> Iterator[Case]:
    """A name again in another case, of either kind; also with an equal name before or behind it."""
    for _ in range(110):
        grammar = lettered(rng)
        count = grammar.t + grammar.n
        names = list(grammar.names)
        first, second = rng.sample(range(count), 2)
        names[second] = in_another_case(rng, names[first])
        yield make(grammar, scattered(rng, names), enough_room(rng))
        names[rng.randrange(count)] = rng.choice(names)
        yield make(grammar, scattered(rng, names), enough_room(rng))
        more = grammar._replace(t=grammar.t + 2, names=lettered_names(rng, count + 2))
        names = list(more.names)
        places = sorted(rng.sample(range(count + 2), 3))
        names[places[1]] = in_another_case(rng, names[places[0]])
        names[places[2]] = rng.choice(names[:2])
        yield make(more, packed(names), enough_room(rng))
        data, starts, lengths = scattered(rng, names)
        spoil(rng, len(data), starts, lengths)
        yield make(more, (data, starts, lengths), enough_room(rng))


def many_in_two_cases(rng: Rng) -> Iterator[Case]:
    """As many symbols as there can be, two of which have one name in two cases; and none."""
    t, n = MAX_TERMINALS, MAX_NONTERMINALS
    for first, second in ((0, 1), (0, 1999), (1998, 1999), (0, 2000), (1999, 2000), (1999, 3999),
                          (2000, 2001), (2000, 3999), (3998, 3999), (1000, 3000)):
        names = lettered_names(rng, t + n)
        grammar = Named(t, n, good_rules(rng, t, n, [1, 2, 0]), names)
        names = list(names)
        names[second] = in_another_case(rng, names[first])
        yield make(grammar, packed(names), enough_room(rng))


def nearly_one_name(rng: Rng) -> Iterator[Case]:
    """Names that differ by 32 in a digit or hyphen, or in length alone: all are written."""
    for _ in range(60):
        grammar = lettered(rng)
        names = list(grammar.names)
        if not places_apart(names[0]):
            names[0] = (b"Q7-" + names[0])[:MAX_NAME]
        near = apart(rng, names[0])
        names[1] = rng.choice([near, near, near.lower()])
        grammar = grammar._replace(names=names)
        yield make(grammar, laid(rng, grammar), some_room(rng, len(text_of(grammar))))


GROUPS: List[Group] = [
    figures, good_small, good_large, overlapping_names, rooms, longest_rules, longer_rows,
    ranges,
    faulty_tables, short_rows, spans_past_the_bytes, name_lengths, all_bytes,
    equal_names, crossing_names, several_faults, damaged_bytes, no_names,
    without_a_sentence, nearly_without, faulty_without,
    names_in_two_cases, many_in_two_cases, nearly_one_name,
]


def all_cases() -> Iterator[Case]:
    """Every group's cases."""
    return cases_of(GROUPS, SEED)
